/*
 * Runs S2, S4, a save and restore amid a half-sent command, many writes in one item, pulses of the keyboard's
 * clock, the later chip, and a conversion; asks for versions and words, and reads answers. Fails where something
 * differs.
 */
#include <stdio.h>
#include <stdlib.h>
#include <string.h>
#include "swarmtempo.h"

static int failures;

static void expect(int good, const char *what)
{
    if (!good) {
        fprintf(stderr, "check.c: differs: %s\n", what);
        failures++;
    }
}

static void run_of(uint8_t *image, size_t image_len, const uint8_t *list, size_t len, uint8_t *answers, size_t items)
{
    uint64_t consumed = 99, written = 99;
    uint8_t stop = swarmtempo_run(image, image_len, list, len, answers, 8 * items, &consumed, &written);
    expect(stop == SWARMTEMPO_END && consumed == len && written == 8 * items, "stop and counts");
}

static void run(uint8_t *image, const uint8_t *list, size_t len, uint8_t *answers, size_t items)
{
    run_of(image, SWARMTEMPO_IMAGE_LEN, list, len, answers, items);
}

static void fresh(uint8_t *image)
{
    expect(swarmtempo_fresh(image, SWARMTEMPO_IMAGE_LEN, SWARMTEMPO_CELLS_FIRST) == 0, "fresh");
}

static void sample_2(void)
{
    static const uint8_t list[] = {0x08, 0x00, 0x52, 0x44, 0x00, 0x00, 0xFE, 0xE1, 0xEF, 0x00};
    static const uint8_t answer[] = {0x06, 0x00, 0x4F, 0x4B, 0xFF, 0x00, 0x00, 0x01};
    uint8_t image[SWARMTEMPO_IMAGE_LEN], answers[8];
    fresh(image);
    run(image, list, sizeof list, answers, 1);
    expect(memcmp(answers, answer, 8) == 0, "S2");
}

static void sample_4(void)
{
    static const uint8_t answer[] = {6, 0, 'O', 'K', 0, 0, 0, 1, 6, 0, 'O', 'K', 0, 1, 0, 1, 6, 0, 'O', 'K', 0x81, 1, 0, 1};
    uint8_t image[SWARMTEMPO_IMAGE_LEN], list[3 * SWARMTEMPO_ITEM_MAX], answers[24];
    size_t len = 0;
    fresh(image);
    len += swarmtempo_wr(list + len, 0, 0xEFFDFE, 0x81);
    len += swarmtempo_se(list + len, 0);
    len += swarmtempo_rd(list + len, 0, 0xEFFBFE);
    run(image, list, len, answers, 3);
    expect(memcmp(answers, answer, 24) == 0, "S4");
}

/* Every item of a transaction that sets cell 0 to $AA: 3 writes to begin, 32 for the bits, 1 to end. */
static size_t transaction(uint8_t *list)
{
    static const uint8_t bytes[] = {0x41, 0xAA};
    size_t len = 0;
    len += swarmtempo_wr(list + len, 0, SWARMTEMPO_VIA(0), 4);
    len += swarmtempo_wr(list + len, 0, SWARMTEMPO_VIA(2), 7);
    len += swarmtempo_wr(list + len, 0, SWARMTEMPO_VIA(0), 0);
    for (int i = 15; i >= 0; i--) {
        uint8_t bit = bytes[i < 8] >> (i % 8) & 1;
        len += swarmtempo_wr(list + len, 0, SWARMTEMPO_VIA(0), bit);
        len += swarmtempo_wr(list + len, 0, SWARMTEMPO_VIA(0), bit | 2);
    }
    return len + swarmtempo_wr(list + len, 0, SWARMTEMPO_VIA(0), 4);
}

/* Cut after each item: the first part is run, its image kept elsewhere, and the rest run on the copy. */
static void save_and_restore(void)
{
    enum { ITEMS = 36, ITEM = 11 };
    uint8_t list[ITEMS * ITEM], whole[SWARMTEMPO_IMAGE_LEN], answers[8 * ITEMS], parts[8 * ITEMS];
    size_t len = transaction(list);
    expect(len == sizeof list, "length of the transaction");
    fresh(whole);
    run(whole, list, len, answers, ITEMS);
    expect(whole[34] == 0xAA, "cell 0");
    for (size_t cut = 0; cut <= ITEMS; cut++) {
        uint8_t image[SWARMTEMPO_IMAGE_LEN], saved[SWARMTEMPO_IMAGE_LEN];
        fresh(image);
        run(image, list, cut * ITEM, parts, cut);
        memcpy(saved, image, sizeof saved);
        memset(image, 0xEE, sizeof image);
        run(saved, list + cut * ITEM, (ITEMS - cut) * ITEM, parts + 8 * cut, ITEMS - cut);
        expect(memcmp(saved, whole, sizeof whole) == 0, "state after a restore");
        expect(memcmp(parts, answers, sizeof answers) == 0, "answers after a restore");
    }
}

/* The bytes of an MW and of a KC; counts that no MW has. */
static void writers(void)
{
    static const uint8_t values[] = {0xF9, 0xFB};
    static const uint8_t many[] = {11, 0, 'M', 'W', 2, 3, 0xFE, 0xE1, 0xEF, 0, 2, 0xF9, 0xFB, 0xEE};
    static const uint8_t pulse[] = {5, 0, 'K', 'C', 1, 2, 1, 0xEE};
    uint8_t item[SWARMTEMPO_ITEM_MAX + 1], full[SWARMTEMPO_VALUES_MAX + 1] = {0};
    memset(item, 0xEE, sizeof item);
    expect(swarmtempo_mw(item, 1, SWARMTEMPO_VIA(0), full, 0) == 0, "an MW of no values");
    expect(swarmtempo_mw(item, 1, SWARMTEMPO_VIA(0), full, sizeof full) == 0, "an MW of 65 values");
    for (size_t i = 0; i < sizeof item; i++) expect(item[i] == 0xEE, "nothing is written of them");
    expect(swarmtempo_mw(item, 0x0302, SWARMTEMPO_VIA(0), values, 2) == 13 && memcmp(item, many, sizeof many) == 0, "an MW's bytes");
    memset(item, 0xEE, sizeof item);
    expect(swarmtempo_kc(item, 0x0201, 1) == 7 && memcmp(item, pulse, sizeof pulse) == 0, "a KC's bytes");
    expect(swarmtempo_mw(item, 0, SWARMTEMPO_VIA(0), full, SWARMTEMPO_VALUES_MAX) == SWARMTEMPO_ITEM_MAX, "the longest item");
    expect(item[SWARMTEMPO_ITEM_MAX] == 0xEE, "no byte past it");
}

/* W-211: the transaction's writes of port B in one MW leave what they leave one by one. */
static void many_writes(void)
{
    enum { ITEMS = 36, ITEM = 11, VALUES = ITEMS - 2 };
    uint8_t list[ITEMS * ITEM], values[VALUES], item[SWARMTEMPO_ITEM_MAX], answers[8 * ITEMS], answer[8];
    uint8_t single[SWARMTEMPO_IMAGE_LEN], many[SWARMTEMPO_IMAGE_LEN];
    size_t len = transaction(list);
    for (size_t i = 0; i < VALUES; i++) values[i] = list[(2 + i) * ITEM + 10];
    fresh(single);
    fresh(many);
    run(single, list, len, answers, ITEMS);
    run(many, list, 2 * ITEM, answers, 2);
    run(many, item, swarmtempo_mw(item, 0, SWARMTEMPO_VIA(0), values, VALUES), answer, 1);
    expect(many[34] == 0xAA, "cell 0 by an MW");
    expect(memcmp(many, single, sizeof many) == 0, "state after an MW");
    expect(memcmp(answer, answers + 8 * (ITEMS - 1), 8) == 0, "the answer of an MW is that of its last write");
}

/* W-210: eight pulses in leave their levels in register 10 and set flag 2; eight pulses out give them back. */
static void pulses(void)
{
    static const uint8_t modes[] = {0x0C, 0x1C};
    uint8_t image[SWARMTEMPO_IMAGE_LEN], item[SWARMTEMPO_ITEM_MAX], answer[8];
    fresh(image);
    run(image, item, swarmtempo_wr(item, 0, SWARMTEMPO_VIA(SWARMTEMPO_IER), 0x84), answer, 1);
    for (unsigned mode = 0; mode < 2; mode++) {
        run(image, item, swarmtempo_wr(item, 0, SWARMTEMPO_VIA(SWARMTEMPO_ACR), modes[mode]), answer, 1);
        for (unsigned i = 0; i < 8; i++) {
            uint8_t bit = 0xB2 >> (7 - i) & 1;
            expect(image[23] == i, "pulses counted");
            run(image, item, swarmtempo_kc(item, 0, mode ? 0 : bit), answer, 1);
            expect(swarmtempo_answer_value(answer) == (mode ? bit : 0), "the value of a pulse");
            expect(swarmtempo_answer_level(answer) == (i == 7), "the eighth pulse sets flag 2");
        }
        expect(image[18] == 0xB2 && image[23] == 0, "register 10 after eight pulses");
        run(image, item, swarmtempo_rd(item, 0, SWARMTEMPO_VIA(SWARMTEMPO_SR)), answer, 1);
        expect(swarmtempo_answer_value(answer) == 0xB2 && swarmtempo_answer_level(answer) == 0, "reading it clears flag 2");
    }
}

/* $3F $7C $AA on either chip, rise by rise: cell $FF is set at the 24th and not at the 23rd; the first chip ignores it. */
static void later_chip(void)
{
    static const uint8_t bytes[] = {0x3F, 0x7C, 0xAA};
    uint8_t first[SWARMTEMPO_IMAGE_LEN], later[SWARMTEMPO_IMAGE_LEN_LATER], list[3 * SWARMTEMPO_ITEM_MAX], answers[24];
    size_t len = 0;
    fresh(first);
    expect(swarmtempo_fresh(later, sizeof later, SWARMTEMPO_CELLS_LATER) == 0, "fresh with 256 cells");
    expect(first[2] == 'S' && first[3] == 'T' && later[2] == 'S' && later[3] == 'X', "kinds");
    expect(memcmp(first + 4, later + 4, sizeof first - 4) == 0, "what both kinds have");
    len += swarmtempo_wr(list + len, 0, SWARMTEMPO_VIA(0), 4);
    len += swarmtempo_wr(list + len, 0, SWARMTEMPO_VIA(2), 7);
    len += swarmtempo_wr(list + len, 0, SWARMTEMPO_VIA(0), 0);
    run(first, list, len, answers, 3);
    run_of(later, sizeof later, list, len, answers, 3);
    for (int rise = 1; rise <= 24; rise++) {
        uint8_t bit = bytes[(rise - 1) / 8] >> (7 - (rise - 1) % 8) & 1;
        len = swarmtempo_wr(list, 0, SWARMTEMPO_VIA(0), bit);
        len += swarmtempo_wr(list + len, 0, SWARMTEMPO_VIA(0), bit | 2);
        run(first, list, len, answers, 2);
        run_of(later, sizeof later, list, len, answers, 2);
        for (size_t cell = 20; cell < 256; cell++)
            expect(later[104 + cell] == (cell == 255 && rise == 24 ? 0xAA : 0), "cells 20 to 255");
        expect(first[24] == (rise < 8 ? 1 : 4), "the first chip ignores $3F");
    }
    for (size_t cell = 0; cell < 20; cell++) expect(first[34 + cell] == 0 && later[34 + cell] == 0, "cells 0 to 19");
    expect(swarmtempo_fresh(later, 0, 21) == SWARMTEMPO_REFUSED_RANGE, "a number of cells that no chip has");
    expect(swarmtempo_image_len(0) == 0 && swarmtempo_image_len(255) == 0 && swarmtempo_image_len(276) == 0, "its length");
}

static void micros(void)
{
    expect(swarmtempo_ticks_of_micros(0) == 0 && swarmtempo_ticks_of_micros(1) == 1, "few microseconds");
    expect(swarmtempo_ticks_of_micros(12000) == 9401, "12 ms");
    expect(swarmtempo_ticks_of_micros(500000) == 391680, "half a second");
    expect(swarmtempo_ticks_of_micros(0xFFFFFFFF) == 3364505581ul, "most microseconds");
}

static void version(void)
{
    char numbers[32];
    expect(strcmp(swarmtempo_version(), SWARMTEMPO_VERSION) == 0, "version of header and library");
    snprintf(numbers, sizeof numbers, "%d.%d.%d", SWARMTEMPO_VERSION_MAJOR, SWARMTEMPO_VERSION_MINOR, SWARMTEMPO_VERSION_PATCH);
    expect(strcmp(numbers, SWARMTEMPO_VERSION) == 0, "numbers of the version");
}

/* Words for every number of a refusal, 0 to 11, all different; the same ones for all others. */
static void refusals(void)
{
    const char *unknown = swarmtempo_refusal(255);
    expect(strcmp(swarmtempo_refusal(SWARMTEMPO_REFUSED_LENGTH), "length wrong for the kind") == 0, "words of 3");
    for (unsigned i = 0; i < 256; i++) {
        const char *words = swarmtempo_refusal((uint8_t)i);
        expect(words != NULL && *words, "words");
        expect((strcmp(words, unknown) == 0) == (i > SWARMTEMPO_REFUSED_KEY), "numbers that have words");
        for (unsigned j = 0; j < i && j <= SWARMTEMPO_REFUSED_KEY; j++)
            expect(strcmp(words, swarmtempo_refusal((uint8_t)j)) != 0, "words of two numbers");
    }
}

static void readers(void)
{
    static const uint8_t done[] = {6, 0, 'O', 'K', 0x81, 5, SWARMTEMPO_CA1 | SWARMTEMPO_Q7, 1};
    static const uint8_t refused[] = {6, 0, 'N', 'O', 8, 0, 0, 0};
    static const uint8_t none[][8] = {
        {0},
        {5, 0, 'O', 'K', 1, 1, 1, 1},
        {6, 1, 'O', 'K', 1, 1, 1, 1},
        {6, 0, 'O', 'O', 1, 1, 1, 1},
        {6, 0, 'N', 'K', 1, 1, 1, 1},
        {6, 0, 'N', 'O', 0, 0, 0, 0},
    };
    expect(swarmtempo_answer_done(done) == 1 && swarmtempo_answer_refusal(done) == 0, "done");
    expect(swarmtempo_answer_value(done) == 0x81 && swarmtempo_answer_level(done) == 5, "value and level");
    expect(swarmtempo_answer_lines(done) == 0x82 && swarmtempo_answer_sel(done) == 1, "lines and SEL");
    expect(swarmtempo_answer_done(refused) == 0 && swarmtempo_answer_refusal(refused) == SWARMTEMPO_REFUSED_DISK, "refused");
    expect(swarmtempo_answer_value(refused) == 0, "a refusal's number is no value");
    for (size_t i = 0; i < sizeof none / sizeof *none; i++) {
        expect(swarmtempo_answer_refusal(none[i]) == SWARMTEMPO_NO_ANSWER && !swarmtempo_answer_done(none[i]), "no answer");
        expect(!swarmtempo_answer_value(none[i]) && !swarmtempo_answer_level(none[i]), "value and level of no answer");
        expect(!swarmtempo_answer_lines(none[i]) && !swarmtempo_answer_sel(none[i]), "lines and SEL of no answer");
    }
}

/* W-214: a locked disk into the external drive; register 6 has not retired. */
static void conversion(void)
{
    uint8_t list[4 * SWARMTEMPO_ITEM_MAX], expected[64], out[64];
    size_t len = 0, used = 0;
    uint64_t written = 99, count = 99;
    len += swarmtempo_in(list + len, 7, 0, 0);
    len += swarmtempo_sn(list + len, 258, 1, 3, 0);
    len += swarmtempo_sn(list + len, 513, 1, 1, 0);
    len += swarmtempo_sn(list + len, 9, 0, 6, 1);
    used += swarmtempo_in(expected + used, 7, 0, 0);
    used += swarmtempo_in(expected + used, 258, 0, 0);
    used += swarmtempo_in(expected + used, 513, 0, 0);
    used += swarmtempo_di(expected + used, 0, 1, 1, 1, 1);
    used += swarmtempo_sn(expected + used, 9, 0, 6, 1);
    expect(swarmtempo_convert(list, len, out, sizeof out, &written, &count) == 0, "W-214");
    expect(written == used && count == 1 && memcmp(out, expected, used) == 0, "W-214, what is written");
    expect(swarmtempo_convert(list, len, out, used - 1, &written, &count) == SWARMTEMPO_REFUSED_ROOM, "W-214, room");
    expect(swarmtempo_convert(list, len - 1, out, sizeof out, &written, &count) == SWARMTEMPO_REFUSED_CUT, "W-214, a cut record");
    expect(written == used - 9 && count == 1, "W-214, what comes before it");
}

int main(void)
{
    expect(swarmtempo_image_len(SWARMTEMPO_CELLS_FIRST) == SWARMTEMPO_IMAGE_LEN, "image length");
    expect(swarmtempo_image_len(SWARMTEMPO_CELLS_LATER) == SWARMTEMPO_IMAGE_LEN_LATER, "image length with 256 cells");
    if (failures) return EXIT_FAILURE;
    sample_2();
    sample_4();
    micros();
    version();
    refusals();
    readers();
    save_and_restore();
    writers();
    many_writes();
    pulses();
    later_chip();
    conversion();
    return failures ? EXIT_FAILURE : EXIT_SUCCESS;
}
