/* A plain switch interpreter of the machine, with all its checks, to measure others against. */

#include <string.h>

#include "engine.h"

/* Where the loop starts is worth up to a third of its speed: at a multiple of 64 bytes it is
   fastest. */
#pragma GCC optimize("align-loops=64")

enum {
    SHARED = 4096,
    STACK = 128,
    THREADS = 32,
    MUTEXES = 64,
    CONDS = 64,
    SEMAS = 32,
    LIMIT = 4096,
    NONE = -1
};

enum {
    OP_HALT, OP_LOADC, OP_LOAD, OP_STORE, OP_LOADR, OP_STORER, OP_ALLOC, OP_POP, OP_DUP,
    OP_ADD, OP_SUB, OP_MUL, OP_DIV, OP_MOD, OP_NEG, OP_EQ, OP_NEQ, OP_LESS, OP_LEQ, OP_NOT,
    OP_JUMP, OP_JUMPZ, OP_MARK, OP_CALL, OP_RETURN, OP_NEW, OP_CREATE, OP_YIELD, OP_EXIT,
    OP_JOIN, OP_FINALIZE, OP_NEWMUTEX, OP_LOCK, OP_UNLOCK, OP_NEWCOND, OP_WAIT, OP_SIGNAL,
    OP_BROADCAST, OP_NEWSEMA, OP_UP, OP_DOWN
};

/* A queue of threads, linked through the threads' `next`: each is in one queue at most. */
struct queue {
    int head, tail;
};

struct thread {
    int pc, sp, fp; /* while it doesn't run */
    int next;
    int ended;
    int32_t result;
    struct queue joiners;
};

struct mutex {
    int owner;
    struct queue waiters;
};

struct sema {
    int32_t count;
    struct queue waiters;
};

struct machine {
    int32_t store[SHARED + THREADS * STACK];
    struct thread threads[THREADS];
    struct mutex mutexes[MUTEXES];
    struct queue conds[CONDS];
    struct sema semas[SEMAS];
    struct queue ready;
    int made_threads, made_mutexes, made_conds, made_semas;
    int live; /* threads made and not ended */
    int free; /* the next free shared cell */
};

static void enqueue(struct machine *m, struct queue *q, int t)
{
    m->threads[t].next = NONE;
    if (q->head == NONE)
        q->head = t;
    else
        m->threads[q->tail].next = t;
    q->tail = t;
}

static int dequeue(struct machine *m, struct queue *q)
{
    int t = q->head;
    if (t != NONE)
        q->head = m->threads[t].next;
    return t;
}

/* Appends the whole of one queue to another and leaves it empty. */
static void append(struct machine *m, struct queue *to, struct queue *from)
{
    if (from->head == NONE)
        return;
    if (to->head == NONE)
        to->head = from->head;
    else
        m->threads[to->tail].next = from->head;
    to->tail = from->tail;
    from->head = NONE;
}

static int32_t *stack_of(struct machine *m, int t)
{
    return m->store + SHARED + STACK * t;
}

static int new_thread(struct machine *m, int pc, int32_t argument)
{
    int t = m->made_threads++;
    int32_t *s = stack_of(m, t);
    s[0] = argument;
    s[1] = s[2] = -1;
    m->threads[t].pc = pc;
    m->threads[t].sp = m->threads[t].fp = 2;
    m->live++;
    return t;
}

/* A thread's result goes to the top cell of each who waits for its end; join needed that cell. */
static void deliver(struct machine *m, const struct queue *joiners, int32_t result)
{
    int t;

    for (t = joiners->head; t != NONE; t = m->threads[t].next)
        stack_of(m, t)[m->threads[t].sp] = result;
}

/* The mutex goes to its first waiter, who becomes ready, or to nobody. */
static void unlock(struct machine *m, struct mutex *mutex)
{
    mutex->owner = dequeue(m, &mutex->waiters);
    if (mutex->owner != NONE)
        enqueue(m, &m->ready, mutex->owner);
}

static int owns_any(const struct machine *m, int t)
{
    int i;

    for (i = 0; i < m->made_mutexes; i++)
        if (m->mutexes[i].owner == t)
            return 1;
    return 0;
}

static void set_up(struct machine *m, int globals)
{
    int i;

    memset(m, 0, sizeof *m);
    m->free = globals;
    m->ready.head = NONE;
    for (i = 0; i < THREADS; i++)
        m->threads[i].joiners.head = NONE;
    for (i = 0; i < MUTEXES; i++)
        m->mutexes[i].owner = m->mutexes[i].waiters.head = NONE;
    for (i = 0; i < CONDS; i++)
        m->conds[i].head = NONE;
    for (i = 0; i < SEMAS; i++)
        m->semas[i].waiters.head = NONE;
    new_thread(m, 0, 0);
}

static uint32_t word_at(const uint8_t *p)
{
    return (uint32_t)p[0] << 24 | (uint32_t)p[1] << 16 | (uint32_t)p[2] << 8 | p[3];
}

/* The 24 bits of an instruction's operand, with their sign. */
static int32_t operand(uint32_t word)
{
    return (int32_t)(word << 8) >> 8;
}

static int operand_ok(int op, int32_t k, int n)
{
    switch (op) {
    case OP_LOADC:
        return 1;
    case OP_LOADR:
    case OP_STORER:
        return -128 <= k && k <= 127;
    case OP_ALLOC:
        return 0 <= k && k <= 127;
    case OP_JUMP:
    case OP_JUMPZ:
        return 0 <= k && k < n;
    default:
        return k == 0;
    }
}

/* Gives 0, or the number of the refusal and its place. */
static int read_card(const uint8_t *image, size_t len, int *globals, int *count, int *place)
{
    int g, n, i;

    *place = 0;
    if (len < 4 || word_at(image) != len - 4 || len - 4 < 5)
        return 1;
    *place = 4;
    if (image[4] != 1)
        return 2;
    *place = 5;
    g = image[5] << 8 | image[6];
    n = image[7] << 8 | image[8];
    if (g < 1 || g > LIMIT || n < 1 || n > LIMIT || len - 4 != 5 + 4 * (size_t)n)
        return 3;
    for (i = 0; i < n; i++) {
        uint32_t word = word_at(image + 9 + 4 * i);
        *place = 9 + 4 * i;
        if (word >> 24 > OP_DOWN)
            return 4;
        if (!operand_ok(word >> 24, operand(word), n))
            return 5;
    }
    *globals = g;
    *count = n;
    return 0;
}

#define FAULT(no)      \
    do {               \
        number = (no); \
        goto fault;    \
    } while (0)
#define NEED(cells)         \
    do {                    \
        if (sp + 1 < cells) \
            FAULT(21);      \
    } while (0)
#define ROOM(cells)           \
    do {                      \
        if (sp + cells > 127) \
            FAULT(22);        \
    } while (0)
/* The value as a number of something of which so many were made, or the fault. */
#define NUMBER(value, made, no)                    \
    do {                                           \
        if ((uint32_t)(value) >= (uint32_t)(made)) \
            FAULT(no);                             \
    } while (0)
#define MUTEX(value) NUMBER(value, m->made_mutexes, 27)
#define CONDITION(value) NUMBER(value, m->made_conds, 32)
#define THREAD(value) NUMBER(value, m->made_threads, 33)
#define SEMA(value) NUMBER(value, m->made_semas, 34)
#define COMPARE(operator)                \
    do {                                 \
        NEED(2);                         \
        s[sp - 1] = s[sp - 1] operator s[sp]; \
        sp--;                            \
    } while (0)

int64_t cma_run(const uint8_t *image, size_t len, uint64_t steps, struct engine_end *end)
{
    static struct machine machine;
    struct machine *const m = &machine;
    const uint8_t *code;
    uint64_t count = 0;
    int globals, n, place;
    int number, state = RUNNING;
    int t = 0, pc = 0, sp = 2, fp = 2;
    int32_t *s, value;

    memset(end, 0, sizeof *end);
    number = read_card(image, len, &globals, &n, &place);
    if (number != 0) {
        end->state = REFUSED;
        end->number = number;
        end->place = place;
        return 0;
    }
    code = image + 9;
    set_up(m, globals);
    s = stack_of(m, 0);

    while (count < steps) {
        uint32_t word;
        int32_t k;

        if (pc >= n) {
            number = 20;
            state = FAULTED;
            break;
        }
        word = word_at(code + 4 * pc);
        k = operand(word);
        pc++;
        switch (word >> 24) {
        case OP_HALT:
            count++;
            state = HALTED;
            goto stop;

        case OP_LOADC:
            ROOM(1);
            s[++sp] = k;
            break;
        case OP_LOAD:
            NEED(1);
            if ((uint32_t)s[sp] >= SHARED)
                FAULT(23);
            s[sp] = m->store[s[sp]];
            break;
        case OP_STORE:
            NEED(2);
            if ((uint32_t)s[sp] >= SHARED)
                FAULT(23);
            m->store[s[sp]] = s[sp - 1];
            sp--;
            break;
        case OP_LOADR:
            ROOM(1);
            if (fp + k < 0 || fp + k > sp)
                FAULT(23);
            s[sp + 1] = s[fp + k];
            sp++;
            break;
        case OP_STORER:
            NEED(1);
            if (fp + k < 0 || fp + k > sp)
                FAULT(23);
            s[fp + k] = s[sp];
            break;
        case OP_ALLOC:
            ROOM(k);
            while (k-- > 0)
                s[++sp] = 0;
            break;
        case OP_POP:
            NEED(1);
            sp--;
            break;
        case OP_DUP:
            NEED(1);
            ROOM(1);
            s[sp + 1] = s[sp];
            sp++;
            break;

        case OP_ADD:
            NEED(2);
            if (__builtin_add_overflow(s[sp - 1], s[sp], &value))
                FAULT(24);
            s[--sp] = value;
            break;
        case OP_SUB:
            NEED(2);
            if (__builtin_sub_overflow(s[sp - 1], s[sp], &value))
                FAULT(24);
            s[--sp] = value;
            break;
        case OP_MUL:
            NEED(2);
            if (__builtin_mul_overflow(s[sp - 1], s[sp], &value))
                FAULT(24);
            s[--sp] = value;
            break;
        case OP_DIV:
            NEED(2);
            if (s[sp] == 0 || (s[sp] == -1 && s[sp - 1] == INT32_MIN))
                FAULT(24);
            s[sp - 1] /= s[sp];
            sp--;
            break;
        case OP_MOD:
            NEED(2);
            if (s[sp] == 0)
                FAULT(24);
            s[sp - 1] = s[sp] == -1 ? 0 : s[sp - 1] % s[sp];
            sp--;
            break;
        case OP_NEG:
            NEED(1);
            if (s[sp] == INT32_MIN)
                FAULT(24);
            s[sp] = -s[sp];
            break;
        case OP_EQ:
            COMPARE(==);
            break;
        case OP_NEQ:
            COMPARE(!=);
            break;
        case OP_LESS:
            COMPARE(<);
            break;
        case OP_LEQ:
            COMPARE(<=);
            break;
        case OP_NOT:
            NEED(1);
            s[sp] = !s[sp];
            break;

        case OP_JUMP:
            pc = k;
            break;
        case OP_JUMPZ:
            NEED(1);
            if (s[sp--] == 0)
                pc = k;
            break;
        case OP_MARK:
            ROOM(1);
            s[++sp] = fp;
            break;
        case OP_CALL:
            NEED(3);
            if ((uint32_t)s[sp] >= (uint32_t)n)
                FAULT(25);
            fp = sp;
            k = s[sp];
            s[sp] = pc;
            pc = k;
            break;
        case OP_RETURN:
            if (fp > sp)
                FAULT(26);
            if (s[fp - 1] == -1) {
                value = s[fp - 2];
                goto ending;
            }
            if (s[fp - 1] < 2 || s[fp - 1] > fp - 1 || (uint32_t)s[fp] >= (uint32_t)n)
                FAULT(26);
            sp = fp - 2;
            pc = s[fp];
            fp = s[fp - 1];
            break;

        case OP_NEW:
            NEED(1);
            if (s[sp] < 1)
                FAULT(30);
            if (s[sp] > SHARED - m->free) {
                s[sp] = 0;
            } else {
                value = m->free;
                m->free += s[sp];
                s[sp] = value;
            }
            break;
        case OP_CREATE:
            NEED(2);
            if ((uint32_t)s[sp - 1] >= (uint32_t)n)
                FAULT(25);
            if (m->made_threads == THREADS) {
                value = -1;
            } else {
                value = new_thread(m, s[sp - 1], s[sp]);
                enqueue(m, &m->ready, value);
            }
            s[--sp] = value;
            break;
        case OP_NEWMUTEX:
            ROOM(1);
            s[++sp] = m->made_mutexes == MUTEXES ? -1 : m->made_mutexes++;
            break;
        case OP_NEWCOND:
            ROOM(1);
            s[++sp] = m->made_conds == CONDS ? -1 : m->made_conds++;
            break;
        case OP_NEWSEMA:
            NEED(1);
            if (s[sp] < 0)
                FAULT(30);
            if (m->made_semas == SEMAS) {
                s[sp] = -1;
            } else {
                m->semas[m->made_semas].count = s[sp];
                s[sp] = m->made_semas++;
            }
            break;

        case OP_YIELD:
            enqueue(m, &m->ready, t);
            goto leave;
        case OP_EXIT:
            NEED(1);
            value = s[sp];
            goto ending;
        case OP_JOIN:
            NEED(1);
            THREAD(s[sp]);
            if (!m->threads[s[sp]].ended) {
                enqueue(m, &m->threads[s[sp]].joiners, t);
                goto leave;
            }
            s[sp] = m->threads[s[sp]].result;
            break;
        case OP_FINALIZE: /* the result is there already */
            NEED(1);
            break;

        case OP_LOCK: {
            struct mutex *mutex;
            NEED(1);
            MUTEX(s[sp]);
            mutex = &m->mutexes[s[sp--]];
            if (mutex->owner != NONE) {
                enqueue(m, &mutex->waiters, t);
                goto leave;
            }
            mutex->owner = t;
            break;
        }
        case OP_UNLOCK:
            NEED(1);
            MUTEX(s[sp]);
            if (m->mutexes[s[sp]].owner != t)
                FAULT(28);
            unlock(m, &m->mutexes[s[sp--]]);
            break;
        case OP_WAIT:
            NEED(2);
            CONDITION(s[sp]);
            MUTEX(s[sp - 1]);
            if (m->mutexes[s[sp - 1]].owner != t)
                FAULT(28);
            enqueue(m, &m->conds[s[sp--]], t);
            unlock(m, &m->mutexes[s[sp]]);
            goto leave;
        case OP_SIGNAL: {
            int waiter;
            NEED(1);
            CONDITION(s[sp]);
            waiter = dequeue(m, &m->conds[s[sp--]]);
            if (waiter != NONE)
                enqueue(m, &m->ready, waiter);
            break;
        }
        case OP_BROADCAST:
            NEED(1);
            CONDITION(s[sp]);
            append(m, &m->ready, &m->conds[s[sp--]]);
            break;

        case OP_UP: {
            struct sema *sema;
            NEED(1);
            SEMA(s[sp]);
            sema = &m->semas[s[sp]];
            if (sema->count == INT32_MAX)
                FAULT(24);
            sp--;
            if (++sema->count <= 0) /* it was negative, so somebody waits */
                enqueue(m, &m->ready, dequeue(m, &sema->waiters));
            break;
        }
        case OP_DOWN: {
            struct sema *sema;
            NEED(1);
            SEMA(s[sp]);
            sema = &m->semas[s[sp--]];
            if (--sema->count < 0) {
                enqueue(m, &sema->waiters, t);
                goto leave;
            }
            break;
        }

        ending: /* the thread ends with the value, unless it owns a mutex */
            if (owns_any(m, t))
                FAULT(31);
            m->threads[t].ended = 1;
            m->threads[t].result = value;
            m->live--;
            deliver(m, &m->threads[t].joiners, value);
            append(m, &m->ready, &m->threads[t].joiners);
            goto next;

        leave: /* the thread stops running; it is in a queue already */
            m->threads[t].pc = pc;
            m->threads[t].sp = sp;
            m->threads[t].fp = fp;

        next: /* the first of the ready queue runs */
            t = dequeue(m, &m->ready);
            if (t == NONE) {
                count++;
                t = THREADS;
                state = m->live == 0 ? HALTED : STUCK;
                goto stop;
            }
            s = stack_of(m, t);
            pc = m->threads[t].pc;
            sp = m->threads[t].sp;
            fp = m->threads[t].fp;
            break;

        fault: /* nothing was changed but PC */
            pc--;
            state = FAULTED;
            goto stop;
        }
        count++;
    }

stop:
    end->state = state;
    end->number = state == FAULTED ? number : 0;
    end->thread = t;
    end->place = pc;
    end->ended = m->threads[0].ended;
    end->result = m->threads[0].result;
    return (int64_t)count;
}
