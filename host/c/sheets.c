/* Sheets of settings through the C entry: look-ups, the tool, and its time for 10,000 records. */
#include "swarmtempo.h"

#include <stdio.h>
#include <string.h>
#include <time.h>

#define RECORDS 10000

static uint8_t sheet[RECORDS * SWARMTEMPO_SHEET_RECORD_MAX], out[sizeof sheet];
static int failed;

static void expect(int holds, const char *what)
{
    if (!holds) {
        printf("wrong: %s\n", what);
        failed = 1;
    }
}

/* Writes a record of `size` bytes, each `byte`, and returns its length. */
static size_t record(uint8_t *at, uint16_t setting, uint8_t version, uint8_t byte, size_t size)
{
    const uint8_t head[7] = {(uint8_t)(5 + size), 0, 'S', 'V', (uint8_t)(setting & 0xFF), (uint8_t)(setting >> 8), version};
    memcpy(at, head, sizeof head);
    memset(at + sizeof head, byte, size);
    return sizeof head + size;
}

/* The answer to one look-up in full. */
static void look(const uint8_t *bench, size_t bench_len, const uint8_t *house, size_t house_len, uint16_t setting,
                 uint8_t refusal, uint8_t which, uint64_t start, uint64_t size, const char *what)
{
    uint8_t sheet_number = 9;
    uint64_t at = 9, bytes = 9;
    const uint8_t answer = swarmtempo_sheet_get(bench, bench_len, house, house_len, setting, &sheet_number, &at, &bytes);
    expect(answer == refusal && sheet_number == which && at == start && bytes == size, what);
}

static void samples(void)
{
    uint8_t bench[64], house[64], room[16];
    uint64_t written = 9;
    size_t b = record(bench, 513, 2, 10, 1), h = record(house, 2, 9, 14, 3);
    b += record(bench + b, 3, 0, 0, 0);
    b += record(bench + b, 513, 2, 11, 2);
    h += record(house + h, 513, 200, 15, 1);
    look(bench, b, house, h, 513, 0, SWARMTEMPO_SHEET_BENCH, 22, 2, "the later record of the bench sheet");
    look(bench, b, house, h, 2, 0, SWARMTEMPO_SHEET_HOUSE, 7, 3, "the house sheet");
    look(bench, b, house, h, 3, 0, SWARMTEMPO_SHEET_BENCH, 15, 0, "set, with no bytes");
    look(bench, b, house, h, 4, 0, SWARMTEMPO_SHEET_NONE, 0, 0, "not set");
    look(bench, b, house, h - 1, 513, SWARMTEMPO_REFUSED_CUT, SWARMTEMPO_SHEET_NONE, 0, 0, "a cut house sheet");

    memset(room, 0xE7, sizeof room);
    expect(swarmtempo_sheet_compact(bench, b, room, 15, &written) == SWARMTEMPO_REFUSED_ROOM && written == 0 && room[0] == 0xE7, "too little room");
    expect(swarmtempo_sheet_compact(bench, b - 1, room, 0, &written) == SWARMTEMPO_REFUSED_CUT && written == 0, "a cut sheet");
    expect(swarmtempo_sheet_compact(bench, b, room, sizeof room, &written) == 0 && written == 16, "the counting records");
    expect(memcmp(room, bench + 8, 16) == 0, "their bytes, in their old order");
}

static double seconds(void)
{
    struct timespec now;
    clock_gettime(CLOCK_MONOTONIC, &now);
    return (double)now.tv_sec + (double)now.tv_nsec * 1e-9;
}

int main(void)
{
    size_t length = 0;
    uint64_t written = 0;
    samples();
    for (unsigned i = 0; i < RECORDS; i++)
        length += record(sheet + length, (uint16_t)(i * 7), 1, (uint8_t)i, i % 65);
    const double start = seconds();
    expect(swarmtempo_sheet_compact(sheet, length, out, sizeof out, &written) == 0 && written == length, "10,000 settings");
    const double took = seconds() - start;
    expect(memcmp(sheet, out, length) == 0, "10,000 settings, each kept");
    expect(took < 1.0, "under a second");
    printf("%u records, %zu bytes: %.1f ms\n", RECORDS, length, took * 1e3);
    return failed;
}
