/* The machine for C programs: link with crates/leprahoon/out/libleprahoon.a, which `rt lib` in crates/leprahoon makes.
 *
 * Every function takes any input and answers it; what it answers, and what it leaves in everything that it was lent, is proved equal to
 * the machine's definitions. The caller owes one thing, which no proof can check: each pointer is to as many elements as the length
 * beside it says, aligned for them, and what a function writes to overlaps nothing else that it is lent. Otherwise nothing is promised.
 * A length may be 0; the pointer must not be null even then.
 *
 * The library is for x86-64 Linux. It uses memcpy and memset, no other function, no heap and no global memory. leprahoon_line needs
 * about 40 KiB of stack, leprahoon_import about 20 KiB, the others under 4 KiB.
 *
 * Change request Six moved no number, size or place of this header, so a program compiled before it only has to be linked again. What
 * differs is what a card does: join leaves the awaited thread's result on top, and finalize does nothing, so a program that reads
 * results, from the values below or from a stack, needs no finalize in its card. Fault 29 is no longer given; memory kept from a
 * machine that was faulted with it is refused with 7. */
#ifndef LEPRAHOON_H
#define LEPRAHOON_H

#include <stdint.h>

#ifdef __cplusplus
extern "C" {
#endif

/* Sizes of what is lent, in elements. */
enum {
    LEPRAHOON_STORE = 8192,    /* int32_t: 4,096 shared cells, then 128 for each thread's stack */
    LEPRAHOON_TABLES = 224,    /* uint64_t */
    LEPRAHOON_VALUES = 64,     /* int32_t: what each thread ended with, then the count of each semaphore */
    LEPRAHOON_REGISTERS = 11,  /* uint64_t */
    LEPRAHOON_REPORT = 4,      /* uint64_t */
    LEPRAHOON_LINE = 90,       /* uint8_t: room for every runner's line */
    LEPRAHOON_IMAGE = 16393,   /* uint8_t: the longest card image */
    LEPRAHOON_TEXT = 81931     /* uint8_t: the longest text of a card */
};

/* The registers, by index. */
enum {
    LEPRAHOON_STATE,      /* one of the states below, but never refused */
    LEPRAHOON_FAULT,      /* the fault's number, or 0 */
    LEPRAHOON_THREAD,     /* the running thread, or 32 where none runs */
    LEPRAHOON_PC,
    LEPRAHOON_CELLS,      /* the cells on the running thread's stack: SP + 1 */
    LEPRAHOON_FP,
    LEPRAHOON_FREE,       /* the next free shared cell */
    LEPRAHOON_THREADS,    /* how many were made */
    LEPRAHOON_MUTEXES,
    LEPRAHOON_CONDITIONS,
    LEPRAHOON_SEMAPHORES
};

/* The states: report[0]. */
enum {
    LEPRAHOON_HALTED,
    LEPRAHOON_RUNNING,
    LEPRAHOON_STUCK,
    LEPRAHOON_FAULTED,    /* report[1] the fault's number, 20 to 34 without 29 (docs/NUMBERS.md), report[2] the PC */
    LEPRAHOON_REFUSED     /* report[1] the number, 1 to 7, report[2] the place; nothing was altered but the report (and, by set_up, the
                             registers, which are then all 0) */
};

/* The tables: where what is in them begins, for a reader of its own. A queue is those of the line whose place is the queue's, in the
 * line's order. Only the functions below may write to them: tables that are not well formed are refused with 7. */
enum {
    LEPRAHOON_PLACES = 0,       /* 32: where each thread is, a number as below */
    LEPRAHOON_SAVED_PC = 32,
    LEPRAHOON_SAVED_CELLS = 64,
    LEPRAHOON_SAVED_FP = 96,
    LEPRAHOON_OWNERS = 128,     /* 64: the owner of each mutex, or 32 where it is free */
    LEPRAHOON_ORDER = 192       /* 32: the line, each thread once, in the order of arrival */
};

/* Places. */
enum {
    LEPRAHOON_UNMADE = 0,
    LEPRAHOON_ENDED = 1,
    LEPRAHOON_ACTIVE = 2,
    LEPRAHOON_READY = 3,
    LEPRAHOON_AT_MUTEX = 4,      /* plus the mutex's number */
    LEPRAHOON_AT_CONDITION = 68, /* plus the condition's number */
    LEPRAHOON_AT_SEMAPHORE = 132, /* plus the semaphore's number */
    LEPRAHOON_AT_END = 164       /* plus the number of the awaited thread, whose end writes its result to the waiter's top cell */
};

/* The values: where the counts of the semaphores begin. */
enum {
    LEPRAHOON_RESULTS = 0,
    LEPRAHOON_COUNTS = 32
};

/* Sets up a machine for a card, whatever the memory held. */
void leprahoon_set_up(const uint8_t *image, uint64_t image_length, int32_t *store, uint64_t store_length, uint64_t *tables,
                      uint64_t tables_length, int32_t *values, uint64_t values_length, uint64_t *registers /* 11 */,
                      uint64_t *report /* 4: state, number, place, count */);

/* One step. */
void leprahoon_step(const uint8_t *image, uint64_t image_length, int32_t *store, uint64_t store_length, uint64_t *tables,
                    uint64_t tables_length, int32_t *values, uint64_t values_length, uint64_t *registers /* 11 */,
                    uint64_t *report /* 4 */);

/* At most so many steps: the machine may stop sooner. report[3] is the number of instructions carried out. */
void leprahoon_run(const uint8_t *image, uint64_t image_length, int32_t *store, uint64_t store_length, uint64_t *tables,
                   uint64_t tables_length, int32_t *values, uint64_t values_length, uint64_t *registers /* 11 */, uint64_t steps,
                   uint64_t *report /* 4 */);

/* Judges a card: report is the number and the place of its refusal and 0, or 0, 0 and its global cells. The code part of an accepted
 * card is the image from byte 9. */
void leprahoon_read(const uint8_t *image, uint64_t image_length, uint64_t *report /* 3: number, place, cells */);

/* Writes the image of a card with so many global cells and these instructions, each a word, opcode times 2^24 plus the operand's 24
 * bits: report is the number and the place of a refusal and 0, or 0, 0 and the image's size. Bytes past the image stay. */
void leprahoon_write(uint64_t cells, const uint32_t *list, uint64_t list_length, uint8_t *out, uint64_t out_length,
                     uint64_t *report /* 3: number, place, size */);

/* Writes a line of a card's text: line 0 is the header, line i + 1 that of instruction i. report is the number and the place of a refusal
 * and 0 (1 to 5 as leprahoon_read, then 43 where there is no room for the whole line), or 0, 0 and the line's length with its line feed,
 * which is 0 past the last line. Bytes past the line stay. */
void leprahoon_list(const uint8_t *image, uint64_t image_length, uint64_t line, uint8_t *out, uint64_t out_length,
                    uint64_t *report /* 3: number, place, length */);

/* Writes the image of the card whose text is given: report is the number and the place of a refusal and 0 (40 to 42 with the line's first
 * byte, then 3 and 5 as leprahoon_write, then 43 where there is no room for the image), or 0, 0 and the image's size. Bytes past the
 * image stay. */
void leprahoon_import(const uint8_t *text, uint64_t text_length, uint8_t *out, uint64_t out_length,
                      uint64_t *report /* 3: number, place, size */);

/* Runs a card as the runner does, at most 1,000,000 steps, and writes its line. Gives the line's length with its line feed, or 0 where
 * the buffer has under 90 bytes. */
uint64_t leprahoon_line(const uint8_t *input, uint64_t input_length, uint8_t *out, uint64_t out_length);

#ifdef __cplusplus
}
#endif

#endif
