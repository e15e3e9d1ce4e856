/* What the driver expects of an engine that it measures. */
#ifndef ENGINE_H
#define ENGINE_H

#include <stddef.h>
#include <stdint.h>

enum { HALTED = 0, RUNNING = 1, STUCK = 2, FAULTED = 3, REFUSED = 4 };

/* How a run ended. */
struct engine_end {
    int state;      /* one of the above */
    int number;     /* the number of the fault or of the refusal, else 0 */
    int thread;     /* the running thread, or 32 if none runs */
    int place;      /* PC, or the place of the refusal */
    int ended;      /* 1 if thread 0 has ended, else 0 */
    int32_t result; /* what it ended with, if it has */
};

/* Sets up a machine for the image, runs it for at most so many steps and tells how it ended.
   Gives the number of instructions carried out; 0 for a refused image. */
typedef int64_t engine_run(const uint8_t *image, size_t len, uint64_t steps,
                           struct engine_end *end);

engine_run cma_run;    /* cma.c */
engine_run proved_run; /* linked in from outside, if PROVED is defined */

#endif
