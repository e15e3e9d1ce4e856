/* A machine inside a C program: makes a card, sets it up, runs it in slices of 100 steps, prints the queues after each, lists its
 * text and imports that again, looks at a semaphore for which somebody waits, and has a damaged card refused. */
#include <inttypes.h>
#include <stdio.h>
#include <string.h>

#include "leprahoon.h"

/* An instruction as a word. */
#define WORD(opcode, operand) ((uint32_t)(opcode) << 24 | ((uint32_t)(operand) & 0xffffff))

enum { LOADC = 1, LOAD = 2, STORE = 3, LOADR = 4, POP = 7, DUP = 8, ADD = 9, SUB = 10, JUMP = 20, JUMPZ = 21, CREATE = 26, YIELD = 27, EXIT = 28, JOIN = 29,
       NEWMUTEX = 31, LOCK = 32, UNLOCK = 33, NEWSEMA = 38, DOWN = 40 };

/* Three workers each add 1 to cell 1 ten times, with a yield inside the mutex whose number is in cell 0; thread 0 waits for the last. */
static const uint32_t WORKERS[] = {
    WORD(NEWMUTEX, 0), WORD(LOADC, 0), WORD(STORE, 0), WORD(POP, 0),
    WORD(LOADC, 14), WORD(LOADC, 10), WORD(CREATE, 0),
    WORD(LOADC, 14), WORD(LOADC, 10), WORD(CREATE, 0),
    WORD(LOADC, 14), WORD(LOADC, 10), WORD(CREATE, 0),
    WORD(JUMP, 34),
    /* 14: a worker; its argument, the rounds, goes on top */
    WORD(LOADR, -2),
    /* 15: a round */
    WORD(LOADC, 0), WORD(LOAD, 0), WORD(LOCK, 0),
    WORD(LOADC, 1), WORD(LOAD, 0), WORD(YIELD, 0), WORD(LOADC, 1), WORD(ADD, 0), WORD(LOADC, 1), WORD(STORE, 0), WORD(POP, 0),
    WORD(LOADC, 0), WORD(LOAD, 0), WORD(UNLOCK, 0),
    WORD(LOADC, 1), WORD(SUB, 0), WORD(DUP, 0), WORD(JUMPZ, 36), WORD(JUMP, 15),
    /* 34: thread 0; the last worker's number is on top */
    WORD(JOIN, 0), WORD(JUMP, 37),
    /* 36: a worker's end */
    WORD(EXIT, 0),
    /* 37: the sum is thread 0's result */
    WORD(LOADC, 1), WORD(LOAD, 0), WORD(EXIT, 0),
};

/* A semaphore with a starting count of 1, lowered twice. */
static const uint32_t GATE[] = {
    WORD(LOADC, 1), WORD(NEWSEMA, 0), WORD(DUP, 0), WORD(DOWN, 0), WORD(DOWN, 0),
};

static int32_t store[LEPRAHOON_STORE];
static uint64_t tables[LEPRAHOON_TABLES];
static int32_t values[LEPRAHOON_VALUES];
static uint64_t registers[LEPRAHOON_REGISTERS];
static uint64_t report[LEPRAHOON_REPORT];
static uint8_t image[LEPRAHOON_IMAGE];
static uint8_t text[LEPRAHOON_TEXT];
static uint8_t again[LEPRAHOON_IMAGE];

/* A queue: those of the line whose place it is. */
static void print_queue(const char *name, uint64_t place) {
    printf(" %s:[", name);
    const char *gap = "";
    for (int i = 0; i < 32; i++) {
        uint64_t thread = tables[LEPRAHOON_ORDER + i];
        if (tables[LEPRAHOON_PLACES + thread] == place) {
            printf("%s%" PRIu64, gap, thread);
            gap = ",";
        }
    }
    printf("]");
}

/* The card's text, line by line; gives its length. */
static uint64_t list_all(uint64_t size) {
    uint64_t length = 0, line = 0, said[3];
    do {
        leprahoon_list(image, size, line++, text + length, sizeof text - length, said);
        length += said[2];
    } while (said[2] != 0);
    return length;
}

static const char *const STATES[] = {"halted", "running", "stuck", "faulted", "refused"};

int main(void) {
    uint64_t made[3];
    leprahoon_write(2, WORKERS, sizeof WORKERS / sizeof *WORKERS, image, sizeof image, made);
    if (made[0] != 0) {
        printf("the card is refused: %" PRIu64 " at %" PRIu64 "\n", made[0], made[1]);
        return 1;
    }
    uint64_t size = made[2];

    leprahoon_set_up(image, size, store, LEPRAHOON_STORE, tables, LEPRAHOON_TABLES, values, LEPRAHOON_VALUES, registers, report);
    uint64_t steps = 0;
    while (report[0] == LEPRAHOON_RUNNING) {
        leprahoon_run(image, size, store, LEPRAHOON_STORE, tables, LEPRAHOON_TABLES, values, LEPRAHOON_VALUES, registers, 100, report);
        steps += report[3];
        printf("%s after %" PRIu64 " steps", STATES[report[0]], steps);
        print_queue("ready", LEPRAHOON_READY);
        print_queue("mutex 0", LEPRAHOON_AT_MUTEX + 0);
        print_queue("end of 3", LEPRAHOON_AT_END + 3);
        printf(" cell 1: %" PRId32 "\n", store[1]);
    }
    printf("thread 0 ended with %" PRId32 "\n", values[0]);

    uint64_t length = list_all(size);
    printf("the text has %" PRIu64 " bytes and begins %.*s", length, 22, (const char *)text);
    leprahoon_import(text, length, again, sizeof again, made);
    printf("imported again it is %s\n", made[2] == size && memcmp(again, image, size) == 0 ? "the same card" : "another card");
    leprahoon_import(text, length, again, size - 1, made);
    printf("with a byte of room too few: %" PRIu64 " at %" PRIu64 "\n", made[0], made[1]);
    leprahoon_list(image, size, 0, text, 7, made);
    printf("its header in 7 bytes: %" PRIu64 " at %" PRIu64 "\n", made[0], made[1]);

    leprahoon_write(1, GATE, sizeof GATE / sizeof *GATE, again, sizeof again, made);
    leprahoon_set_up(again, made[2], store, LEPRAHOON_STORE, tables, LEPRAHOON_TABLES, values, LEPRAHOON_VALUES, registers, report);
    leprahoon_run(again, made[2], store, LEPRAHOON_STORE, tables, LEPRAHOON_TABLES, values, LEPRAHOON_VALUES, registers, 100, report);
    printf("%s after %" PRIu64 " steps", STATES[report[0]], report[3]);
    print_queue("semaphore 0", LEPRAHOON_AT_SEMAPHORE + 0);
    printf(" count: %" PRId32 "\n", values[LEPRAHOON_COUNTS + 0]);

    image[4] = 2; /* another version */
    leprahoon_run(image, size, store, LEPRAHOON_STORE, tables, LEPRAHOON_TABLES, values, LEPRAHOON_VALUES, registers, 100, report);
    printf("%s %" PRIu64 " at %" PRIu64 "\n", STATES[report[0]], report[1], report[2]);
    return 0;
}
