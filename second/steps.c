/* Times the steps inside a command, each by itself: steps BLOCK. The module is linked with the names of its inner steps (second/measure
   --steps); a slice is handed over as its address and its length. */
#define _POSIX_C_SOURCE 200809L
#include <stdio.h>
#include <string.h>
#include <time.h>

#include "graupenzelt.h"

#define REPETITIONS 5000
#define MOST 8192

struct size {
    size_t signals, channels, ranks;
    uint16_t pairs;
};

/* Room for what checking comes to, which is not looked at here. */
struct checked {
    uint64_t words[8];
};

void step_check(struct checked *, const uint8_t *payload, size_t n);
void step_unpack(const uint8_t *payload, size_t n, uint16_t *work, size_t k, const struct size *);
void step_place(uint16_t *work, size_t k, const struct size *);
void step_tally(uint16_t *work, size_t k, const struct size *);
void step_write(uint8_t *out, size_t m, const uint16_t *counts, size_t ranks, const uint16_t *places, size_t signals);

/* Where the work area has the places and the counts of a finished plan. */
enum { PLACES = 10617, COUNTS = 10817 };

enum { NOTHING, CHECK, UNPACK, PLACE, TALLY, WRITE, ZERO, STEPS };
static const char *const names[STEPS] = {
    "the clock itself", "checking", "unpacking", "placing", "tallying", "writing the answer", "zeroing",
};

static uint8_t block[MOST], answer[GRAUPENZELT_ANSWER], out[GRAUPENZELT_ANSWER];
static uint16_t work[GRAUPENZELT_WORK];

static double microseconds(void)
{
    struct timespec now;
    clock_gettime(CLOCK_MONOTONIC, &now);
    return (double)now.tv_sec * 1e6 + (double)now.tv_nsec / 1e3;
}

/* One command, step by step, with the time at each step's end. */
static void command(const uint8_t *payload, size_t n, const struct size *size, double ends[STEPS])
{
    struct checked checked;
    ends[NOTHING] = microseconds();
    step_check(&checked, payload, n);
    ends[CHECK] = microseconds();
    step_unpack(payload, n, work, GRAUPENZELT_WORK, size);
    ends[UNPACK] = microseconds();
    step_place(work, GRAUPENZELT_WORK, size);
    ends[PLACE] = microseconds();
    step_tally(work, GRAUPENZELT_WORK, size);
    ends[TALLY] = microseconds();
    step_write(out, sizeof out, work + COUNTS, size->ranks, work + PLACES, size->signals);
    ends[WRITE] = microseconds();
    memset(work, 0, sizeof work); /* what the box's own fill of these 32,768 bytes is compiled to */
    ends[ZERO] = microseconds();
}

int main(int count, char **words)
{
    FILE *file = count == 2 ? fopen(words[1], "rb") : NULL;
    if (!file) {
        fputs("usage: steps BLOCK\n", stderr);
        return 2;
    }
    size_t n = fread(block, 1, sizeof block, file);
    fclose(file);

    struct graupenzelt_handled handled = graupenzelt_handle(block, n, answer, sizeof answer, work, GRAUPENZELT_WORK);
    if (handled.number) {
        printf("refused %u at %zu\n", (unsigned)handled.number, handled.place);
        return 1;
    }
    struct graupenzelt_opened opened = graupenzelt_open(block, n);
    struct graupenzelt_checked table = graupenzelt_check(block + opened.start, opened.length);
    const uint8_t *payload = block + opened.start;
    const struct size size = {table.signals, table.channels, table.ranks, (uint16_t)table.pairs};

    double shortest[STEPS], ends[STEPS];
    for (int step = 0; step < STEPS; step++)
        shortest[step] = 1e9;
    for (int i = 0; i < REPETITIONS; i++) {
        double begin = microseconds();
        command(payload, opened.length, &size, ends);
        for (int step = 0; step < STEPS; step++) {
            double took = ends[step] - begin;
            begin = ends[step];
            if (took < shortest[step])
                shortest[step] = took;
        }
    }
    /* The steps are those of a command only if they come to its answer. */
    struct graupenzelt_opened plan = graupenzelt_open(answer, handled.length);
    if (memcmp(out, answer + plan.start, plan.length) != 0) {
        puts("the steps come to another answer than the command");
        return 1;
    }
    printf("%zu signals, %zu channels, %zu ranks, %u pairs: microseconds, the shortest of %d\n", size.signals, size.channels,
           size.ranks, (unsigned)size.pairs, REPETITIONS);
    for (int step = 0; step < STEPS; step++)
        printf("%-20s %8.2f\n", names[step], shortest[step]);
    return 0;
}
