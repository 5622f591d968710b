/* The keyboard through its C entry: a session, save and restore, images that are none. Exit status 0 where all is right. */
#include "swarmtempo.h"
#include <stdio.h>
#include <string.h>

static int wrong;

static void expect(const char *what, unsigned got, unsigned wanted)
{
    if (got != wanted) {
        printf("%s: %u, not %u\n", what, got, wanted);
        wrong = 1;
    }
}

/* The three results of a call as one number: the refusal, whether there is an answer, the answer. */
static unsigned said(uint8_t refusal, uint8_t answered, uint8_t answer)
{
    return (unsigned)refusal << 16 | (unsigned)answered << 8 | answer;
}

static unsigned command(uint8_t *image, size_t len, uint8_t byte)
{
    uint8_t answered = 0xA5, answer = 0x5A;
    uint8_t refusal = swarmtempo_keyboard_command(image, len, byte, &answered, &answer);
    return said(refusal, answered, answer);
}

static unsigned key(uint8_t *image, size_t len, uint8_t code)
{
    uint8_t answered = 0xA5, answer = 0x5A;
    uint8_t refusal = swarmtempo_keyboard_key(image, len, code, &answered, &answer);
    return said(refusal, answered, answer);
}

static unsigned wait_ticks(uint8_t *image, size_t len, uint32_t ticks)
{
    uint8_t answered = 0xA5, answer = 0x5A;
    uint8_t refusal = swarmtempo_keyboard_wait(image, len, ticks, &answered, &answer);
    return said(refusal, answered, answer);
}

int main(void)
{
    uint8_t k[SWARMTEMPO_KEYBOARD_LEN + 1], saved[SWARMTEMPO_KEYBOARD_LEN];
    const size_t len = SWARMTEMPO_KEYBOARD_LEN;
    memset(k, 0xE7, sizeof k);
    expect("length", (unsigned)swarmtempo_keyboard_len(), (unsigned)len);
    expect("short room", swarmtempo_keyboard_fresh(k, len - 1, 0x0B), 6);
    expect("short room is left", k[0], 0xE7);
    expect("fresh", swarmtempo_keyboard_fresh(k, sizeof k, 0x0B), 0);
    expect("byte past the image", k[len], 0xE7);

    expect("Model", command(k, len, SWARMTEMPO_MODEL), 0x10B);
    expect("Test", command(k, len, SWARMTEMPO_TEST), 0x17D);
    expect("Instant, none held", command(k, len, SWARMTEMPO_INSTANT), 0x17B);
    expect("unknown", command(k, len, 0x11), 0);
    expect("Inquiry waits", command(k, len, SWARMTEMPO_INQUIRY), 0);
    expect("a tick before", wait_ticks(k, len, SWARMTEMPO_INQUIRY_TICKS - 1), 0);
    memcpy(saved, k, len);
    expect("a key answers", key(k, len, 0x33), 0x133);
    expect("and is not kept", command(k, len, SWARMTEMPO_INSTANT), 0x17B);
    expect("restored: Null", wait_ticks(saved, len, 1), 0x17B);
    expect("once", wait_ticks(saved, len, 0xFFFFFFFF), 0);

    for (uint8_t code = 1; code <= 8; code++)
        expect("kept", key(k, len, code), 0);
    memcpy(saved, k, len);
    expect("ninth", key(k, len, 9), 11u << 16);
    expect("ninth changes nothing", (unsigned)(memcmp(saved, k, len) != 0), 0);
    for (uint8_t code = 1; code <= 8; code++)
        expect("in order", command(k, len, code % 2 ? SWARMTEMPO_INQUIRY : SWARMTEMPO_INSTANT), 0x100u + code);

    for (size_t other = 0; other <= sizeof k; other++)
        if (other != len)
            expect("another length", command(k, other, SWARMTEMPO_MODEL), 7u << 16);
    k[5] = 9;
    expect("nine codes", wait_ticks(k, len, 1), 7u << 16);
    expect("7 changes nothing", k[5], 9);
    return wrong;
}
