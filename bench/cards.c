/* Writes the cards to measure with into a directory. Each ends by itself after some tens of millions
   of steps, thread 0's result being something that all of them led to. */

#include <stdint.h>
#include <stdio.h>
#include <stdlib.h>

enum op {
    HALT, LOADC, LOAD, STORE, LOADR, STORER, ALLOC, POP, DUP, ADD, SUB, MUL, DIV, MOD, NEG, EQ,
    NEQ, LESS, LEQ, NOT, JUMP, JUMPZ, MARK, CALL, RETURN, NEW, CREATE, YIELD, EXIT, JOIN,
    FINALIZE, NEWMUTEX, LOCK, UNLOCK, NEWCOND, WAIT, SIGNAL, BROADCAST
};

/* The card in the making. */
static uint8_t image[16393];
static int n;

/* Adds an instruction and gives its place. */
static int op(enum op opcode, int32_t k)
{
    uint8_t *p = image + 9 + 4 * n;
    p[0] = (uint8_t)opcode;
    p[1] = (uint8_t)(k >> 16);
    p[2] = (uint8_t)(k >> 8);
    p[3] = (uint8_t)k;
    return n++;
}

/* Lets the instruction at `place` have the next place as its operand. */
static void here(int place)
{
    uint8_t *p = image + 9 + 4 * place;
    p[2] = (uint8_t)(n >> 8);
    p[3] = (uint8_t)n;
}

static void finish(const char *directory, const char *name)
{
    char path[4096];
    FILE *f;
    int l = 5 + 4 * n;

    image[0] = image[1] = 0;
    image[2] = (uint8_t)(l >> 8);
    image[3] = (uint8_t)l;
    image[4] = 1;
    image[5] = 0;
    image[6] = 8; /* global cells */
    image[7] = (uint8_t)(n >> 8);
    image[8] = (uint8_t)n;
    snprintf(path, sizeof path, "%s/%s.card", directory, name);
    f = fopen(path, "wb");
    if (f == NULL || fwrite(image, 1, 9 + 4 * (size_t)n, f) != 9 + 4 * (size_t)n || fclose(f) != 0) {
        perror(path);
        exit(1);
    }
    n = 0;
}

/* Drops the top into a cell of the frame. */
static void put(int k)
{
    op(STORER, k);
    op(POP, 0);
}

/* Drops the top into a shared cell. */
static void set(int cell)
{
    op(LOADC, cell);
    op(STORE, 0);
    op(POP, 0);
}

static void get(int cell)
{
    op(LOADC, cell);
    op(LOAD, 0);
}

/* A loop that counts down in a cell of the frame: its head gives the jump out of it. */
static int loop_head(int local, int *again)
{
    *again = n;
    op(LOADR, local);
    return op(JUMPZ, 0);
}

static void loop_tail(int local, int again, int out)
{
    op(LOADR, local);
    op(LOADC, 1);
    op(SUB, 0);
    put(local);
    op(JUMP, again);
    here(out);
}

/* A loop that only counts, as a compiler would have it. */
static void counting(const char *directory)
{
    int again, out;

    op(LOADC, 8000000); /* frame cell 1 */
    out = loop_head(1, &again);
    loop_tail(1, again, out);
    op(LOADR, 1);
    op(EXIT, 0);
    finish(directory, "counting");
}

/* The 20th Fibonacci number, by a function that calls itself twice, again and again. */
static void calls(const char *directory)
{
    int again, out, to_fib[3], big, fib;

    op(LOADC, 150); /* frame cell 1 */
    op(ALLOC, 1);   /* frame cell 2: the sum */
    out = loop_head(1, &again);
    op(LOADC, 20);
    op(MARK, 0);
    to_fib[0] = op(LOADC, 0);
    op(CALL, 0);
    op(LOADR, 2);
    op(ADD, 0);
    put(2);
    loop_tail(1, again, out);
    op(LOADR, 2);
    op(EXIT, 0);

    here(to_fib[0]);
    fib = n;
    op(LOADC, 1);
    op(LOADR, -2);
    op(LESS, 0);
    big = op(JUMPZ, 0);
    op(LOADR, -2);
    op(LOADC, 1);
    op(SUB, 0);
    op(MARK, 0);
    op(LOADC, fib);
    op(CALL, 0);
    op(LOADR, -2);
    op(LOADC, 2);
    op(SUB, 0);
    op(MARK, 0);
    op(LOADC, fib);
    op(CALL, 0);
    op(ADD, 0);
    op(STORER, -2);
    here(big); /* up to 1 the number is its own Fibonacci number */
    op(RETURN, 0);
    finish(directory, "calls");
}

/* Two threads that want the same mutex: whoever holds it yields, so that the other waits. */
static void locks(const char *directory)
{
    enum { MUTEX = 1, SUM = 2 };
    int again, out, entry, body;

    op(NEWMUTEX, 0);
    set(MUTEX);
    entry = op(LOADC, 0);
    op(LOADC, 0);
    op(CREATE, 0);
    op(LOADC, 0); /* thread 0 does the same, as a function */
    op(MARK, 0);
    body = op(LOADC, 0);
    op(CALL, 0);
    op(POP, 0);
    op(JOIN, 0);
    get(SUM);
    op(EXIT, 0);

    here(entry);
    here(body);
    op(LOADC, 1600000); /* frame cell 1 */
    out = loop_head(1, &again);
    get(MUTEX);
    op(LOCK, 0);
    get(SUM);
    op(LOADC, 1);
    op(ADD, 0);
    set(SUM);
    op(YIELD, 0);
    get(MUTEX);
    op(UNLOCK, 0);
    loop_tail(1, again, out);
    op(RETURN, 0);
    finish(directory, "locks");
}

/* So many threads that do hardly anything but yield, 8,000,000 times in all. */
static void yields(const char *directory, const char *name, int threads)
{
    enum { MOST = 32 };
    int i, again, out, entry[MOST - 1], body;

    for (i = 0; i < threads - 1; i++) {
        entry[i] = op(LOADC, 0);
        op(LOADC, i);
        op(CREATE, 0);
    }
    op(LOADC, 0);
    op(MARK, 0);
    body = op(LOADC, 0);
    op(CALL, 0);
    op(POP, 0);
    for (i = 0; i < threads - 1; i++) {
        op(JOIN, 0);
        op(POP, 0);
    }
    op(RETURN, 0);

    for (i = 0; i < threads - 1; i++)
        here(entry[i]);
    here(body);
    op(LOADC, 8000000 / threads); /* counts on top of the stack */
    again = n;
    op(YIELD, 0);
    op(LOADC, 1);
    op(SUB, 0);
    op(DUP, 0);
    out = op(JUMPZ, 0);
    op(JUMP, again);
    here(out);
    op(RETURN, 0);
    finish(directory, name);
}

/* A card of so many instructions, nearly all of them in one loop, some 60,000,000 steps. */
static void length(const char *directory, const char *name, int instructions)
{
    int i, again, out;

    op(LOADC, 60000000 / instructions); /* frame cell 1 */
    out = loop_head(1, &again);
    for (i = 0; i < (instructions - 11) / 2; i++) {
        op(LOADC, i);
        op(POP, 0);
    }
    loop_tail(1, again, out);
    op(LOADR, 1);
    op(EXIT, 0);
    finish(directory, name);
}

/* All arithmetic and all comparisons, on numbers that keep changing. */
static void soup(const char *directory)
{
    enum { COUNT = 1, X = 2, Y = 3 };
    int again, out;

    op(LOADC, 1500000);
    op(LOADC, 1);
    op(LOADC, 1);
    out = loop_head(COUNT, &again);
    op(LOADR, X); /* x = (75 x + 74) mod 65537 */
    op(LOADC, 75);
    op(MUL, 0);
    op(LOADC, 74);
    op(ADD, 0);
    op(LOADC, 65537);
    op(MOD, 0);
    put(X);
    op(LOADR, Y); /* y = (x - y) / 3 + (y < x) - (y == x) + (-x mod 7) */
    op(NEG, 0);
    op(LOADR, X);
    op(ADD, 0);
    op(LOADC, 3);
    op(DIV, 0);
    op(LOADR, Y);
    op(LOADR, X);
    op(LESS, 0);
    op(ADD, 0);
    op(LOADR, Y);
    op(LOADR, X);
    op(EQ, 0);
    op(SUB, 0);
    op(LOADR, X);
    op(NEG, 0);
    op(LOADC, 7);
    op(MOD, 0);
    op(ADD, 0);
    op(LOADR, X); /* ... + not (x <= 1000) * 2 + (y != 5) */
    op(LOADC, 1000);
    op(LEQ, 0);
    op(NOT, 0);
    op(DUP, 0);
    op(ADD, 0);
    op(ADD, 0);
    op(LOADR, Y);
    op(LOADC, 5);
    op(NEQ, 0);
    op(ADD, 0);
    put(Y);
    loop_tail(COUNT, again, out);
    op(LOADR, Y);
    op(EXIT, 0);
    finish(directory, "soup");
}

int main(int argc, char **argv)
{
    if (argc != 2) {
        fprintf(stderr, "cards DIRECTORY      writes the cards to measure with\n");
        return 2;
    }
    counting(argv[1]);
    calls(argv[1]);
    locks(argv[1]);
    yields(argv[1], "yields", 8);
    soup(argv[1]);
    yields(argv[1], "threads2", 2);
    yields(argv[1], "threads8", 8);
    yields(argv[1], "threads32", 32);
    length(argv[1], "length16", 16);
    length(argv[1], "length256", 256);
    length(argv[1], "length4096", 4096);
    return 0;
}
