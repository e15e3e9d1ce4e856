/* Nanoseconds that a public call of the proved machine takes, on the shortest card and on the longest. */

#include <stdio.h>
#include <string.h>
#include <time.h>

#include "../embed/leprahoon.h"

enum { ROUNDS = 15, CALLS = 20000, LONGEST = 4096, HEADER = 9, JUMP = 20 };

static uint8_t image[HEADER + 4 * LONGEST];
static size_t length;
static int32_t store[LEPRAHOON_STORE];
static uint64_t tables[LEPRAHOON_TABLES];
static int32_t values[LEPRAHOON_VALUES];
static uint64_t registers[LEPRAHOON_REGISTERS];
static uint64_t report[LEPRAHOON_REPORT];

/* The processor time used so far, in seconds. */
static double now(void)
{
    struct timespec ts;
    clock_gettime(CLOCK_PROCESS_CPUTIME_ID, &ts);
    return (double)ts.tv_sec + (double)ts.tv_nsec * 1e-9;
}

/* A card of n instructions that jumps to its own start for good: the others, halt, are never come to. */
static void make_card(int n)
{
    int following = 5 + 4 * n;

    memset(image, 0, sizeof image);
    image[2] = (uint8_t)(following >> 8);
    image[3] = (uint8_t)following;
    image[4] = 1;
    image[6] = 1;
    image[7] = (uint8_t)(n >> 8);
    image[8] = (uint8_t)n;
    image[HEADER] = JUMP;
    length = HEADER + 4 * (size_t)n;
}

static void set_up(void)
{
    leprahoon_set_up(image, length, store, LEPRAHOON_STORE, tables, LEPRAHOON_TABLES, values, LEPRAHOON_VALUES,
                     registers, report);
}

static void step(void)
{
    leprahoon_step(image, length, store, LEPRAHOON_STORE, tables, LEPRAHOON_TABLES, values, LEPRAHOON_VALUES,
                   registers, report);
}

static void run_nothing(void)
{
    leprahoon_run(image, length, store, LEPRAHOON_STORE, tables, LEPRAHOON_TABLES, values, LEPRAHOON_VALUES,
                  registers, 0, report);
}

/* The fastest of some rounds of a call, in nanoseconds. */
static double nanoseconds(void (*call)(void))
{
    double best = 1e9;
    int round, i;

    for (round = 0; round < ROUNDS; round++) {
        double start = now(), taken;
        for (i = 0; i < CALLS; i++)
            call();
        taken = (now() - start) * 1e9 / CALLS;
        if (taken < best)
            best = taken;
    }
    return best;
}

static int measure(int n)
{
    make_card(n);
    set_up();
    if (report[0] != LEPRAHOON_RUNNING) {
        fprintf(stderr, "calls: the card of %d instructions is refused\n", n);
        return 1;
    }
    printf("%-14d  set-up %7.0f ns  step %7.0f ns  run of 0 steps %7.0f ns\n", n, nanoseconds(set_up),
           nanoseconds(step), nanoseconds(run_nothing));
    return 0;
}

int main(void)
{
    return measure(1) | measure(LONGEST);
}
