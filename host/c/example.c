/* Sets cell 0 of the clock chip to $AA and reads it back; checks everything that it gets. */
#include <stdio.h>
#include <stdlib.h>
#include "swarmtempo.h"

static uint8_t image[SWARMTEMPO_IMAGE_LEN], item[SWARMTEMPO_ITEM_MAX];

static void fail(const char *what, uint8_t number)
{
    fprintf(stderr, "%s: %u, %s\n", what, number, swarmtempo_refusal(number));
    exit(EXIT_FAILURE);
}

/* Runs the item of `len` bytes; the value that it reads. */
static unsigned run(size_t len)
{
    uint8_t answer[SWARMTEMPO_ANSWER_LEN];
    uint64_t consumed, written;
    uint8_t stop = swarmtempo_run(image, sizeof image, item, len, answer, sizeof answer, &consumed, &written);
    if (stop != SWARMTEMPO_END) fail("the run stopped", stop);
    if (!swarmtempo_answer_done(answer)) fail("the item was refused", swarmtempo_answer_refusal(answer));
    return swarmtempo_answer_value(answer);
}

/* Each wait is 0 VIA ticks. */
static void wr(unsigned reg, unsigned value) { run(swarmtempo_wr(item, 0, SWARMTEMPO_VIA(reg), (uint8_t)value)); }
static unsigned rd(unsigned reg) { return run(swarmtempo_rd(item, 0, SWARMTEMPO_VIA(reg))); }

/* Port B: bit 0 data, bit 1 data-clock, bit 2 enable (low active). DDRB has its directions. */
static void begin(void) { wr(SWARMTEMPO_ORB, 4), wr(SWARMTEMPO_DDRB, 7), wr(SWARMTEMPO_ORB, 0); }
static void send(unsigned byte)
{
    for (int i = 7; i >= 0; i--) wr(SWARMTEMPO_ORB, byte >> i & 1), wr(SWARMTEMPO_ORB, (byte >> i & 1) | 2);
}

int main(void)
{
    unsigned value = 0;
    if (swarmtempo_image_len(SWARMTEMPO_CELLS_FIRST) != SWARMTEMPO_IMAGE_LEN) {
        fprintf(stderr, "built for version %s, run with %s\n", SWARMTEMPO_VERSION, swarmtempo_version());
        return EXIT_FAILURE;
    }
    uint8_t refusal = swarmtempo_fresh(image, sizeof image, SWARMTEMPO_CELLS_FIRST);
    if (refusal) fail("no fresh machine", refusal);
    begin(), send(0x41), send(0xAA), wr(SWARMTEMPO_ORB, 4); /* write cell 0; enable up */
    begin(), send(0xC1), wr(SWARMTEMPO_DDRB, 6);            /* read cell 0; data becomes an input */
    for (int i = 0; i < 8; i++) wr(SWARMTEMPO_ORB, 0), value = value << 1 | (rd(SWARMTEMPO_ORB) & 1), wr(SWARMTEMPO_ORB, 2);
    printf("cell 0 holds $%02X\n", value);
    return value == 0xAA ? EXIT_SUCCESS : EXIT_FAILURE;
}
