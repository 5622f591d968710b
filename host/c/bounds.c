/*
 * The boundary with short and odd buffers. Each buffer stands against a page that may not be touched,
 * once at its end and once at its start, so a byte read or written outside ends the program; the bytes
 * around it in its own page are compared afterwards. Buffers of length 0 are NULL too. To be built
 * with the sanitizers too, and run under valgrind.
 */
#define _DEFAULT_SOURCE
#include <stdio.h>
#include <stdlib.h>
#include <string.h>
#include <sys/mman.h>
#include <unistd.h>
#include "swarmtempo.h"

#define GUARD 0x5A

/* Items of the list that is run. */
enum { ITEMS = 8 };

struct buffer {
    uint8_t *page; /* the page that may be touched, between two that may not */
    size_t size;   /* of the page, in bytes */
    uint8_t *at;
    size_t len;
};

static unsigned long calls;

static void fail(const char *what)
{
    fprintf(stderr, "bounds.c: %s\n", what);
    exit(EXIT_FAILURE);
}

static struct buffer make(void)
{
    size_t size = (size_t)sysconf(_SC_PAGESIZE);
    uint8_t *map = mmap(NULL, 3 * size, PROT_NONE, MAP_PRIVATE | MAP_ANONYMOUS, -1, 0);
    if (map == MAP_FAILED || mprotect(map + size, size, PROT_READ | PROT_WRITE)) fail("no memory");
    struct buffer b = {map + size, size, map + size, 0};
    return b;
}

/* Places `len` bytes at the page's end or at its start; the rest of the page is the guard. */
static void place(struct buffer *b, const uint8_t *bytes, size_t len, int at_end)
{
    memset(b->page, GUARD, b->size);
    b->at = at_end ? b->page + b->size - len : b->page;
    b->len = len;
    if (len) memcpy(b->at, bytes, len);
}

static void guards_hold(const struct buffer *b)
{
    for (size_t i = 0; i < b->size; i++) {
        const uint8_t *p = b->page + i;
        if ((p < b->at || p >= b->at + b->len) && *p != GUARD) fail("a byte outside a buffer was written");
    }
}

static struct buffer image, list, answers;

static void call(const uint8_t *state, size_t state_len, const uint8_t *items, size_t items_len, size_t room, int at_end)
{
    static const uint8_t blank[512];
    uint64_t counts[4] = {~0ull, 77, 78, ~0ull};
    place(&image, state, state_len, at_end);
    place(&list, items, items_len, at_end);
    place(&answers, blank, room, at_end);
    memset(answers.at, 0xC3, room);
    /* Both engines, by turns. */
    uint8_t stop = (calls % 2 ? swarmtempo_run_plain : swarmtempo_run)(image.at, state_len, list.at, items_len, answers.at, room, &counts[1], &counts[2]);
    calls++;
    guards_hold(&image);
    guards_hold(&list);
    guards_hold(&answers);
    if (counts[0] != ~0ull || counts[3] != ~0ull) fail("a byte beside the counts was written");
    if (counts[1] > items_len || counts[2] > room || counts[2] % 8) fail("counts past a buffer");
    if (items_len && memcmp(list.at, items, items_len)) fail("the list was written");
    for (size_t i = counts[2]; i < room; i++)
        if (answers.at[i] != 0xC3) fail("answer bytes past those written changed");
    size_t whole = state_len > 3 && state[3] == 'X' ? SWARMTEMPO_IMAGE_LEN_LATER : SWARMTEMPO_IMAGE_LEN;
    if (state_len != whole && stop != SWARMTEMPO_REFUSED_STATE) fail("an image of another length was taken");
    if (stop == SWARMTEMPO_REFUSED_STATE) {
        if (counts[1] || counts[2]) fail("counts on 7");
        if (state_len && memcmp(image.at, state, state_len)) fail("the image was written on 7");
    } else if (stop == SWARMTEMPO_END) {
        if (counts[1] != items_len) fail("the end before the end");
    } else if (stop == SWARMTEMPO_REFUSED_ROOM) {
        if (room - counts[2] >= 8 || counts[1] >= items_len) fail("stop 6 with room");
    } else if (stop != SWARMTEMPO_REFUSED_CUT) {
        fail("a stop number that no run has");
    }
}

/* The list turned over into every room up to twice its length. */
static void conversions(const uint8_t *items, size_t items_len, int at_end)
{
    static const uint8_t blank[512];
    for (size_t room = 0; room <= 2 * items_len; room++) {
        uint64_t counts[4] = {~0ull, 77, 78, ~0ull};
        place(&list, items, items_len, at_end);
        place(&answers, blank, room, at_end);
        memset(answers.at, 0xC3, room);
        uint8_t stop = swarmtempo_convert(list.at, items_len, answers.at, room, &counts[1], &counts[2]);
        calls++;
        guards_hold(&list);
        guards_hold(&answers);
        if (counts[0] != ~0ull || counts[3] != ~0ull) fail("a byte beside the numbers was written");
        if (counts[1] > room || counts[2] > counts[1]) fail("a conversion's numbers");
        if (stop == SWARMTEMPO_REFUSED_ROOM ? counts[1] || counts[2] : stop > SWARMTEMPO_REFUSED_CUT) fail("a conversion's refusal");
        if (items_len && memcmp(list.at, items, items_len)) fail("the list was written");
        for (size_t i = counts[1]; i < room; i++)
            if (answers.at[i] != 0xC3) fail("bytes past those written changed");
    }
}

/* Rooms of every length, with numbers of cells that a chip has and others, those with more bits among them. */
static void fresh_images(void)
{
    static const uint8_t blank[SWARMTEMPO_IMAGE_LEN_LATER + 32];
    static const uint32_t numbers[] = {SWARMTEMPO_CELLS_FIRST, SWARMTEMPO_CELLS_LATER, 0, 19, 21, 255, 257, 276, 65556, 0x80000014u, ~0u};
    for (size_t n = 0; n < sizeof numbers / sizeof *numbers; n++)
        for (size_t len = 0; len < sizeof blank; len++)
            for (int at_end = 0; at_end < 2; at_end++) {
                place(&image, blank, len, at_end);
                uint8_t stop = swarmtempo_fresh(image.at, len, numbers[n]);
                size_t whole = n == 0 ? SWARMTEMPO_IMAGE_LEN : n == 1 ? SWARMTEMPO_IMAGE_LEN_LATER : 0;
                uint8_t expected = n > 1 ? SWARMTEMPO_REFUSED_RANGE : len < whole ? SWARMTEMPO_REFUSED_ROOM : 0;
                calls++;
                guards_hold(&image);
                if (stop != expected || swarmtempo_image_len(numbers[n]) != whole) fail("fresh in this room");
                for (size_t i = stop ? 0 : whole; i < len; i++)
                    if (image.at[i]) fail("fresh wrote past the image");
            }
}

/* Each buffer of length 0 at NULL, alone and together with others. */
static void null_buffers(const uint8_t *state, size_t state_len, const uint8_t *items, size_t len)
{
    for (int i = 0; i < 8; i++) {
        uint8_t copy[SWARMTEMPO_IMAGE_LEN_LATER], room[8 * ITEMS];
        uint64_t consumed = 77, written = 78;
        int no_image = i & 1, no_list = i >> 1 & 1, no_room = i >> 2 & 1;
        memcpy(copy, state, state_len);
        memset(room, 0xC3, sizeof room);
        uint8_t stop = swarmtempo_run(no_image ? NULL : copy, no_image ? 0 : state_len, no_list ? NULL : items, no_list ? 0 : len,
                                      no_room ? NULL : room, no_room ? 0 : sizeof room, &consumed, &written);
        uint8_t expected = no_image ? SWARMTEMPO_REFUSED_STATE : no_room && !no_list ? SWARMTEMPO_REFUSED_ROOM : SWARMTEMPO_END;
        int runs = !no_image && !no_list && !no_room;
        calls++;
        if (stop != expected) fail("a stop with NULL");
        if (consumed != (runs ? len : 0) || written != (runs ? 8u * ITEMS : 0)) fail("counts with NULL");
        if (!runs && memcmp(copy, state, state_len)) fail("the image changed with NULL");
    }
    if (swarmtempo_fresh(NULL, 0, SWARMTEMPO_CELLS_FIRST) != SWARMTEMPO_REFUSED_ROOM) fail("fresh at NULL");
    if (swarmtempo_fresh(NULL, 0, 0) != SWARMTEMPO_REFUSED_RANGE) fail("no cells at NULL");
    uint8_t which = 77;
    uint64_t start = 78, size = 79, written = 80;
    if (swarmtempo_sheet_get(NULL, 0, NULL, 0, 7, &which, &start, &size) || which || start || size) fail("sheets at NULL");
    if (swarmtempo_sheet_compact(NULL, 0, NULL, 0, &written) || written) fail("a sheet at NULL");
    if (swarmtempo_convert(NULL, 0, NULL, 0, &start, &written) || start || written) fail("a capture at NULL");
    uint8_t answered = 81, answer = 82;
    if (swarmtempo_keyboard_fresh(NULL, 0, 3) != SWARMTEMPO_REFUSED_ROOM) fail("a fresh keyboard at NULL");
    if (swarmtempo_keyboard_wait(NULL, 0, 1, &answered, &answer) != SWARMTEMPO_REFUSED_STATE || answered || answer) fail("a keyboard at NULL");
    if (swarmtempo_transaction(NULL, 0, SWARMTEMPO_READ_CELL, 0, 0, NULL, 0, &written) != SWARMTEMPO_REFUSED_STATE || written) fail("a transaction at NULL");
    written = 83;
    if (swarmtempo_transaction(state, state_len, SWARMTEMPO_READ_CELL, 0, 0, NULL, 0, &written) != SWARMTEMPO_REFUSED_ROOM || written) fail("a transaction to NULL");
    calls += 9;
}

/* Transactions of each kind with rooms about their length, images whole and cut. */
static void transactions(const uint8_t *state, size_t state_len)
{
    static const uint8_t blank[704];
    for (uint8_t ask = 0; ask <= 6; ask++)
        for (uint32_t number = 0; number <= 300; number += 1 + number / 4 * 5)
            for (size_t room = 0; room <= sizeof blank; room += room % 88 > 80 || !room ? 1 : 7)
                for (int at_end = 0; at_end < 2; at_end++) {
                    uint64_t counts[3] = {~0ull, 77, ~0ull};
                    size_t len = room % 5 == 4 ? state_len - 1 : state_len;
                    place(&image, state, len, at_end);
                    place(&answers, blank, room, at_end);
                    memset(answers.at, 0xC3, room);
                    uint8_t stop = swarmtempo_transaction(image.at, len, ask, number, 0x5A, answers.at, room, &counts[1]);
                    calls++;
                    guards_hold(&image);
                    guards_hold(&answers);
                    if (counts[0] != ~0ull || counts[2] != ~0ull) fail("a byte beside the count was written");
                    if (memcmp(image.at, state, len)) fail("the image was written");
                    if ((len != state_len) != (stop == SWARMTEMPO_REFUSED_STATE)) fail("an image of another length");
                    if (counts[1] > room || (stop && counts[1]) || (!stop && counts[1] < SWARMTEMPO_WRITE_LEN)) fail("a transaction's count");
                    for (size_t i = counts[1]; i < room; i++)
                        if (answers.at[i] != 0xC3) fail("bytes past the transaction changed");
                }
}

/* Sheets of every length, sound and cut, with every room. */
static void sheets(void)
{
    static const uint8_t blank[64];
    static const uint8_t sheet[25] = {6, 0, 'S', 'V', 1, 2, 2, 10, 5, 0, 'S', 'V', 3, 0, 0, 8, 0, 'S', 'V', 1, 2, 2, 11, 12, 13};
    for (size_t len = 0; len <= sizeof sheet; len++)
        for (size_t room = 0; room <= 32; room++)
            for (int at_end = 0; at_end < 2; at_end++) {
                uint8_t which[3] = {7, 8, 9};
                uint64_t at[4] = {~0ull, 77, 78, ~0ull};
                int sound = len == 0 || len == 8 || len == 15 || len == 25;
                size_t kept = len == 25 ? 17 : len;
                place(&image, sheet, len, at_end);
                place(&list, sheet, 8, at_end);
                place(&answers, blank, room, at_end);
                uint8_t refusal = swarmtempo_sheet_get(image.at, len, list.at, 8, 513, &which[1], &at[1], &at[2]);
                if (refusal != (sound ? 0 : SWARMTEMPO_REFUSED_CUT)) fail("a look-up's refusal");
                if (sound && (which[1] != (len ? SWARMTEMPO_SHEET_BENCH : SWARMTEMPO_SHEET_HOUSE) || at[1] + at[2] > 25)) fail("a look-up");
                if (!sound && (which[1] || at[1] || at[2])) fail("numbers of a broken sheet");
                if (which[0] != 7 || which[2] != 9 || at[0] != ~0ull || at[3] != ~0ull) fail("a byte beside the numbers was written");
                refusal = swarmtempo_sheet_compact(image.at, len, answers.at, room, &at[1]);
                uint8_t expected = !sound ? SWARMTEMPO_REFUSED_CUT : room < kept ? SWARMTEMPO_REFUSED_ROOM : 0;
                if (refusal != expected || at[1] != (refusal ? 0 : kept)) fail("compacting");
                if (at[0] != ~0ull || at[2] > 25) fail("a byte beside the count was written");
                for (size_t i = at[1]; i < room; i++)
                    if (answers.at[i]) fail("bytes past the records were written");
                if (len && memcmp(image.at, sheet, len)) fail("the sheet was written");
                guards_hold(&image);
                guards_hold(&list);
                guards_hold(&answers);
                calls += 2;
            }
}

/* Images of every length, lists of every length with many rooms, and then one byte of each at random. */
static void runs(const uint8_t *state, size_t state_len, const uint8_t *items, size_t len, unsigned long rounds)
{
    uint64_t seed = 1;
    for (int at_end = 0; at_end < 2; at_end++) {
        for (size_t n = 0; n <= 2 * SWARMTEMPO_IMAGE_LEN_LATER; n++) call(state, n, items, len, 8 * ITEMS, at_end);
        for (size_t n = 0; n <= len; n++)
            for (size_t room = 0; room <= 8 * ITEMS + 8; room += 1 + room % 3) call(state, state_len, items, n, room, at_end);
    }
    for (unsigned long i = 0; i < rounds; i++) {
        uint8_t odd_items[256], odd_state[SWARMTEMPO_IMAGE_LEN_LATER];
        seed = seed * 6364136223846793005ull + 1442695040888963407ull;
        memcpy(odd_items, items, len);
        memcpy(odd_state, state, state_len);
        odd_items[(seed >> 33) % len] = (uint8_t)(seed >> 56);
        if (seed >> 20 & 1) odd_state[(seed >> 41) % state_len] = (uint8_t)(seed >> 25);
        call(odd_state, state_len, odd_items, (seed >> 13) % (len + 1), (seed >> 7) % 96, (int)(seed >> 62 & 1));
    }
}

int main(int argc, char **argv)
{
    static const uint32_t cells[] = {SWARMTEMPO_CELLS_FIRST, SWARMTEMPO_CELLS_LATER};
    static const uint8_t values[] = {0x0C, 0x00, 0x1C};
    uint8_t items[256];
    unsigned long rounds = argc > 1 ? strtoul(argv[1], NULL, 10) : 20000;
    size_t len = 0;
    image = make(), list = make(), answers = make();
    fresh_images();
    len += swarmtempo_rd(items + len, 1, SWARMTEMPO_VIA(13));
    len += swarmtempo_wr(items + len, 2, SWARMTEMPO_VIA(0), 2);
    len += swarmtempo_sn(items + len, 65535, 1, 15, 0);
    len += swarmtempo_pw(items + len, 0, 0xFFFFFFFF);
    len += swarmtempo_in(items + len, 0, 4, 0);
    len += swarmtempo_mw(items + len, 3, SWARMTEMPO_VIA(11), values, sizeof values);
    len += swarmtempo_kc(items + len, 4, 1);
    len += swarmtempo_rd(items + len, 0, SWARMTEMPO_IWM(14));
    sheets();
    for (int at_end = 0; at_end < 2; at_end++)
        for (size_t n = 0; n <= len; n++) conversions(items, n, at_end);
    for (size_t i = 0; i < 2; i++) {
        uint8_t state[2 * SWARMTEMPO_IMAGE_LEN_LATER] = {0};
        size_t state_len = (size_t)swarmtempo_image_len(cells[i]);
        if (swarmtempo_fresh(state, sizeof state, cells[i])) fail("fresh");
        null_buffers(state, state_len, items, len);
        transactions(state, state_len);
        runs(state, state_len, items, len, rounds);
    }
    printf("%lu calls\n", calls);
    return EXIT_SUCCESS;
}
