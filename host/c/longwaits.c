/*
 * A million waits of 65,535 VIA ticks against a million waits of 1, each in one run. For every use of
 * the timers the ratio of the two times is printed, the best of several rounds each; it must be at
 * most 10.
 */
#include <stdio.h>
#include <stdlib.h>
#include <string.h>
#include <time.h>
#include "swarmtempo.h"

enum { WAITS = 1000000, ROUNDS = 5, ITEM = 6 };

struct use {
    const char *name;
    uint8_t acr;         /* bit 6: T1 runs free; bit 5: T2 stands still */
    uint8_t low, high;   /* registers that load the timer */
    uint16_t ticks;      /* what is loaded, in VIA ticks */
};

static const struct use uses[] = {
    {"T1 one shot, 1000 ticks", 0x00, 4, 5, 1000},
    {"T1 free run, latch 0", 0x40, 4, 5, 0},
    {"T1 free run, latch 1", 0x40, 4, 5, 1},
    {"T1 free run, latch 2", 0x40, 4, 5, 2},
    {"T1 free run, latch 65535", 0x40, 4, 5, 65535},
    {"T2 running, 1000 ticks", 0x00, 8, 9, 1000},
    {"T2 standing still", 0x20, 8, 9, 1000},
};

static uint8_t *list, *answers;

static void run(uint8_t *image, const uint8_t *items, size_t len, size_t room)
{
    uint64_t consumed, written;
    uint8_t stop = swarmtempo_run(image, SWARMTEMPO_IMAGE_LEN, items, len, answers, room, &consumed, &written);
    if (stop != SWARMTEMPO_END || consumed != len) {
        fprintf(stderr, "longwaits.c: stop %u\n", stop);
        exit(EXIT_FAILURE);
    }
}

static double now(void)
{
    struct timespec t;
    clock_gettime(CLOCK_PROCESS_CPUTIME_ID, &t);
    return (double)t.tv_sec + (double)t.tv_nsec / 1e9;
}

/* Processor seconds of one run over a million waits; the image reached goes into `sum`. */
static double timed(const struct use *use, uint16_t wait, unsigned long *sum)
{
    uint8_t image[SWARMTEMPO_IMAGE_LEN], setup[4 * SWARMTEMPO_ITEM_MAX];
    size_t len = 0;
    for (size_t i = 0; i < WAITS; i++) swarmtempo_vb(list + ITEM * i, wait);
    swarmtempo_fresh(image, sizeof image, SWARMTEMPO_CELLS_FIRST);
    len += swarmtempo_wr(setup + len, 0, SWARMTEMPO_VIA(11), use->acr);
    len += swarmtempo_wr(setup + len, 0, SWARMTEMPO_VIA(use->low), (uint8_t)(use->ticks & 0xFF));
    len += swarmtempo_wr(setup + len, 0, SWARMTEMPO_VIA(use->high), (uint8_t)(use->ticks >> 8));
    run(image, setup, len, 24);
    double start = now();
    run(image, list, (size_t)ITEM * WAITS, (size_t)8 * WAITS);
    double taken = now() - start;
    for (size_t i = 0; i < sizeof image; i++) *sum = *sum * 31 + image[i];
    return taken;
}

int main(void)
{
    unsigned long sum = 0;
    double worst = 0;
    list = malloc((size_t)ITEM * WAITS + SWARMTEMPO_ITEM_MAX);
    answers = malloc((size_t)8 * WAITS);
    if (!list || !answers) return EXIT_FAILURE;
    memset(answers, 0, (size_t)8 * WAITS);
    for (size_t u = 0; u < sizeof uses / sizeof *uses; u++) {
        double brief = 1e9, lengthy = 1e9;
        for (int round = 0; round < ROUNDS; round++) {
            double a = timed(&uses[u], 1, &sum), b = timed(&uses[u], 65535, &sum);
            if (a < brief) brief = a;
            if (b < lengthy) lengthy = b;
        }
        printf("%-26s %6.1f ns a wait of 1, %6.1f ns a wait of 65535, ratio %.2f\n", uses[u].name,
               brief * 1e9 / WAITS, lengthy * 1e9 / WAITS, lengthy / brief);
        if (lengthy / brief > worst) worst = lengthy / brief;
    }
    printf("worst ratio %.2f, at most 10 allowed (states %lx)\n", worst, sum & 0xFFFF);
    return worst <= 10 ? EXIT_SUCCESS : EXIT_FAILURE;
}
