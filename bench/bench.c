/* Measures the engines on cards, or prints the runner's lines of one of them. */

#include <inttypes.h>
#include <stdio.h>
#include <stdlib.h>
#include <string.h>
#include <time.h>

#include "engine.h"

static const struct {
    const char *name;
    engine_run *run;
} engines[] = {
    {"cma", cma_run},
#ifdef PROVED
    {"proved", proved_run},
#endif
};

enum { ENGINES = sizeof engines / sizeof engines[0], ROUNDS = 15, INPUT = 16394, STEPS = 1000000 };

static void die(const char *what)
{
    fprintf(stderr, "bench: %s\n", what);
    exit(2);
}

/* The processor time used so far, in seconds: what others do on the machine counts less so. */
static double now(void)
{
    struct timespec ts;
    clock_gettime(CLOCK_PROCESS_CPUTIME_ID, &ts);
    return (double)ts.tv_sec + (double)ts.tv_nsec * 1e-9;
}

static int same_end(const struct engine_end *a, const struct engine_end *b)
{
    return a->state == b->state && a->number == b->number && a->thread == b->thread &&
           a->place == b->place && a->ended == b->ended &&
           (!a->ended || a->result == b->result);
}

static void print_line(int64_t steps, const struct engine_end *end)
{
    switch (end->state) {
    case HALTED:
        if (end->ended)
            printf("halted %" PRId64 " %" PRId32 "\n", steps, end->result);
        else
            printf("halted %" PRId64 " -\n", steps);
        break;
    case RUNNING:
        printf("running %" PRId64 "\n", steps);
        break;
    case STUCK:
        printf("stuck %" PRId64 "\n", steps);
        break;
    case FAULTED:
        printf("fault %d %d %d %" PRId64 "\n", end->number, end->thread, end->place, steps);
        break;
    default:
        printf("refused %d %d\n", end->number, end->place);
    }
}

/* Reads a card file, as much of it as the runner looks at. */
static size_t read_file(const char *file, uint8_t image[INPUT])
{
    FILE *f = fopen(file, "rb");
    size_t len;

    if (f == NULL)
        die("no such card");
    len = fread(image, 1, INPUT, f);
    fclose(f);
    return len;
}

/* The runner's line for each of some files. */
static int lines_of_files(engine_run *run, int count, char **files)
{
    static uint8_t image[INPUT];

    for (; count > 0; count--, files++) {
        struct engine_end end;
        int64_t steps = run(image, read_file(*files, image), STEPS, &end);
        print_line(steps, &end);
    }
    return 0;
}

/* The runner's line for each image of a framed stream on standard input. */
static int lines_of_stream(engine_run *run)
{
    uint8_t head[4], *image = NULL;

    while (fread(head, 1, 4, stdin) == 4) {
        size_t len = (size_t)head[0] << 24 | (size_t)head[1] << 16 | (size_t)head[2] << 8 | head[3];
        struct engine_end end;
        int64_t steps;

        image = realloc(image, len ? len : 1);
        if (image == NULL || fread(image, 1, len, stdin) != len)
            die("the stream is cut off");
        steps = run(image, len < INPUT ? len : INPUT, STEPS, &end);
        print_line(steps, &end);
    }
    free(image);
    return 0;
}

/* Every engine on one card, in turns; the fastest of some rounds counts. */
static int measure(const char *file, uint64_t steps)
{
    static uint8_t image[INPUT];
    size_t len = read_file(file, image);
    double best[ENGINES] = {0};
    int64_t count[ENGINES];
    struct engine_end end[ENGINES];
    const char *name = strrchr(file, '/');
    int round, i, e, differ = 0;

    for (round = 0; round < ROUNDS; round++) {
        for (i = 0; i < ENGINES; i++) {
            double start = now(), speed;
            e = round % 2 == 0 ? i : ENGINES - 1 - i;
            count[e] = engines[e].run(image, len, steps, &end[e]);
            speed = (double)count[e] / (now() - start);
            if (speed > best[e])
                best[e] = speed;
        }
    }
    printf("%-14s", name ? name + 1 : file);
    for (e = 0; e < ENGINES; e++)
        printf("  %s %7.1f million steps a second", engines[e].name, best[e] / 1e6);
    for (e = 1; e < ENGINES; e++) {
        printf("  ratio %.2f", best[e] / best[0]);
        differ |= count[e] != count[0] || !same_end(&end[e], &end[0]);
    }
    printf("  ");
    print_line(count[0], &end[0]);
    if (differ)
        printf("%-14s  THE ENGINES DIFFER\n", "");
    return differ;
}

/* One run, and how many steps it made: for a count of the processor's instructions. */
static int once(engine_run *run, const char *file, uint64_t steps)
{
    static uint8_t image[INPUT];
    struct engine_end end;

    printf("%" PRId64 "\n", run(image, read_file(file, image), steps, &end));
    return 0;
}

static engine_run *engine_named(const char *name)
{
    int e;

    for (e = 0; e < ENGINES; e++)
        if (strcmp(name, engines[e].name) == 0)
            return engines[e].run;
    die("no such engine");
    return NULL;
}

int main(int argc, char **argv)
{
    if (argc >= 3 && strcmp(argv[1], "lines") == 0)
        return argc > 3 ? lines_of_files(engine_named(argv[2]), argc - 3, argv + 3)
                        : lines_of_stream(engine_named(argv[2]));
    if (argc == 5 && strcmp(argv[1], "once") == 0)
        return once(engine_named(argv[2]), argv[3], strtoull(argv[4], NULL, 10));
    if (argc == 3)
        return measure(argv[1], strtoull(argv[2], NULL, 10));
    fprintf(stderr, "bench CARD STEPS           steps a second of each engine on a card\n"
                    "bench lines ENGINE FILE... the runner's line for each file\n"
                    "bench lines ENGINE         framed images on standard input: the lines\n"
                    "bench once ENGINE CARD STEPS  one run, and the number of steps it made\n");
    return 2;
}
