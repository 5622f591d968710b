/*
 * The clock by whole transactions: a cell and the seconds written and read back, with both chips; a write under
 * write-protect; the refusals. Fails where something differs.
 */
#include <stdio.h>
#include <stdlib.h>
#include <string.h>
#include "swarmtempo.h"

static int failures;

static void expect(int good, const char *what)
{
    if (!good) {
        fprintf(stderr, "clock.c: differs: %s\n", what);
        failures++;
    }
}

/* Writes a transaction and runs it. Returns the refusal; the byte read goes to `byte`, which a write leaves. */
static uint8_t ask(uint8_t *image, size_t image_len, uint8_t what, uint32_t number, uint8_t value, uint8_t *byte)
{
    uint8_t list[SWARMTEMPO_TRANSACTION_MAX];
    uint8_t answers[SWARMTEMPO_TRANSACTION_ITEMS_MAX * SWARMTEMPO_ANSWER_LEN];
    uint64_t len = 99, consumed = 99, written = 99;
    uint8_t refusal = swarmtempo_transaction(image, image_len, what, number, value, list, sizeof list, &len);
    if (refusal) {
        expect(len == 0, "bytes counted on a refusal");
        return refusal;
    }
    uint8_t stop = swarmtempo_run(image, image_len, list, (size_t)len, answers, sizeof answers, &consumed, &written);
    expect(stop == SWARMTEMPO_END && consumed == len, "a transaction runs to its end");
    if (what == SWARMTEMPO_READ_CELL || what == SWARMTEMPO_READ_SECONDS)
        *byte = swarmtempo_transaction_byte(answers, (size_t)written / SWARMTEMPO_ANSWER_LEN);
    return 0;
}

/* With the last cell that the chip has, and one that it has not. */
static void clock_of(uint32_t cells, size_t image_len)
{
    uint8_t image[SWARMTEMPO_IMAGE_LEN_LATER], byte = 0;
    uint32_t seconds = 0;
    expect(swarmtempo_fresh(image, image_len, cells) == 0, "fresh");
    expect(!ask(image, image_len, SWARMTEMPO_WRITE_CELL, cells - 1, 0x1E, NULL), "a cell written");
    expect(!ask(image, image_len, SWARMTEMPO_WRITE_CELL, 3, 0xAA, NULL), "another written");
    for (uint32_t k = 0; k < 4; k++)
        expect(!ask(image, image_len, SWARMTEMPO_WRITE_SECONDS, k, (uint8_t)(0x12345678ul >> 8 * k), NULL), "seconds written");
    expect(!ask(image, image_len, SWARMTEMPO_WRITE_PROTECT, 0, 0x80, NULL), "protect written");
    expect(!ask(image, image_len, SWARMTEMPO_WRITE_CELL, 3, 0x55, NULL), "a write under protect runs");
    expect(!ask(image, image_len, SWARMTEMPO_READ_CELL, 3, 0, &byte) && byte == 0xAA, "and has no effect");
    expect(!ask(image, image_len, SWARMTEMPO_READ_CELL, cells - 1, 0, &byte) && byte == 0x1E, "the last cell read back");
    for (uint32_t k = 0; k < 4; k++) {
        expect(!ask(image, image_len, SWARMTEMPO_READ_SECONDS, k, 0, &byte), "seconds read");
        seconds |= (uint32_t)byte << 8 * k;
    }
    expect(seconds == 0x12345678ul, "seconds");
    expect(ask(image, image_len, SWARMTEMPO_READ_CELL, cells, 0, &byte) == SWARMTEMPO_REFUSED_RANGE, "a cell that is not there");
    expect(ask(image, image_len, 6, 0, 0, &byte) == SWARMTEMPO_REFUSED_RANGE, "nothing that can be asked for");
}

/* Enable down, a buffer one byte short, and bytes that are no image. */
static void refusals(void)
{
    uint8_t image[SWARMTEMPO_IMAGE_LEN], item[SWARMTEMPO_ITEM_MAX], answer[SWARMTEMPO_ANSWER_LEN], byte = 0;
    uint8_t out[SWARMTEMPO_READ_LEN];
    uint64_t consumed, written = 99;
    swarmtempo_fresh(image, sizeof image, SWARMTEMPO_CELLS_FIRST);
    memset(out, 0xC3, sizeof out);
    uint8_t refusal = swarmtempo_transaction(image, sizeof image, SWARMTEMPO_READ_CELL, 0, 0, out, sizeof out - 1, &written);
    expect(refusal == SWARMTEMPO_REFUSED_ROOM && written == 0 && out[0] == 0xC3, "a short buffer");
    refusal = swarmtempo_transaction(image, sizeof image, SWARMTEMPO_READ_CELL, 0, 0, out, sizeof out, &written);
    expect(refusal == 0 && written == sizeof out, "a buffer of the right length");
    size_t len = swarmtempo_wr(item, 0, SWARMTEMPO_VIA(SWARMTEMPO_DDRB), 0x04);
    swarmtempo_run(image, sizeof image, item, len, answer, sizeof answer, &consumed, &written);
    expect(ask(image, sizeof image, SWARMTEMPO_READ_CELL, 0, 0, &byte) == SWARMTEMPO_REFUSED_ENABLE, "enable down");
    expect(ask(image, sizeof image - 1, SWARMTEMPO_READ_CELL, 99, 0, &byte) == SWARMTEMPO_REFUSED_STATE, "no image");
    expect(strcmp(swarmtempo_refusal(SWARMTEMPO_REFUSED_ENABLE), "the clock's enable line is down") == 0, "words");
}

int main(void)
{
    clock_of(SWARMTEMPO_CELLS_FIRST, SWARMTEMPO_IMAGE_LEN);
    clock_of(SWARMTEMPO_CELLS_LATER, SWARMTEMPO_IMAGE_LEN_LATER);
    refusals();
    return failures ? EXIT_FAILURE : EXIT_SUCCESS;
}
