/*
 * Swarmtempo: the VIA, the clock chip and the disk lines of a Macintosh Plus.
 *
 * A run takes a state image, a list of items and room for answers, and leaves the next state in the
 * image. Nothing is kept between calls, and nothing is allocated: every buffer is the caller's, is
 * lent for the call alone, and may have any alignment. A buffer of length 0 may be NULL; no other
 * pointer may be. The three buffers and the two counts must not overlap. Calls on different buffers
 * may run at the same time.
 *
 * Times are in VIA ticks (783,360 a second), in microseconds or in seconds; each name says which.
 * Numbers in buffers are little-endian.
 *
 * Targets: x86-64 with ELF and the System V calling convention (Linux), static or shared. The library
 * calls nothing but, where the compiler copies or compares bytes by them, the C library's memcpy,
 * memmove, memset, memcmp and bcmp.
 *
 * In this file: constants; the functions of the library; writers of items; readers of answers. The
 * last two are inline.
 */
#ifndef SWARMTEMPO_H
#define SWARMTEMPO_H

#include <stddef.h>
#include <stdint.h>

#ifdef __cplusplus
extern "C" {
#endif

/* The version of this header; swarmtempo_version() has that of the library. */
#define SWARMTEMPO_VERSION "0.3.0"
#define SWARMTEMPO_VERSION_MAJOR 0
#define SWARMTEMPO_VERSION_MINOR 3
#define SWARMTEMPO_VERSION_PATCH 0

/* VIA ticks a second. */
#define SWARMTEMPO_TICKS_PER_SECOND 783360ul
/* Bytes of an answer. */
#define SWARMTEMPO_ANSWER_LEN 8
/* Cells of the clock chip, chosen where a machine is made: of the first chip, and of the later one. */
#define SWARMTEMPO_CELLS_FIRST 20u
#define SWARMTEMPO_CELLS_LATER 256u
/*
 * Bytes of a state image of this version, with the first chip (kind ST) and with the later one (kind SX);
 * swarmtempo_image_len(cells) has those of the library.
 */
#define SWARMTEMPO_IMAGE_LEN 124
#define SWARMTEMPO_IMAGE_LEN_LATER 361
/* Values of a swarmtempo_mw at most. */
#define SWARMTEMPO_VALUES_MAX 64
/* Bytes of the longest item that the functions below write: a swarmtempo_mw. Of all others it is 11. */
#define SWARMTEMPO_ITEM_MAX 75

/* How a run stopped (0, 1, 6, 7), and the numbers of NO answers (1 to 5, 8, 9). swarmtempo_fresh has 5 and 6. */
#define SWARMTEMPO_END 0u             /* the end of the list */
#define SWARMTEMPO_REFUSED_CUT 1u     /* a cut record or a length below 2; NO 1 is written, the run stops before it */
#define SWARMTEMPO_REFUSED_KIND 2u    /* unknown kind */
#define SWARMTEMPO_REFUSED_LENGTH 3u  /* length wrong for the kind */
#define SWARMTEMPO_REFUSED_ADDRESS 4u /* none of the 32 addresses */
#define SWARMTEMPO_REFUSED_RANGE 5u   /* line, drive, register, level or count out of range */
#define SWARMTEMPO_REFUSED_ROOM 6u    /* list bytes remain, fewer than 8 answer bytes left; the item is not done */
#define SWARMTEMPO_REFUSED_STATE 7u   /* the image is none of an accepted state; no buffer is changed */
#define SWARMTEMPO_REFUSED_DISK 8u    /* a disk inserted where one is, or removed where none is */
#define SWARMTEMPO_REFUSED_RETIRED 9u /* SN on a register that the drive has itself: 0 to 5, 12, 15 */

/* Address of VIA register r, 0 to 15, and of IWM location k, 0 to 15. */
#define SWARMTEMPO_VIA(r) ((uint32_t)(0xEFE1FEul + 512ul * (r)))
#define SWARMTEMPO_IWM(k) ((uint32_t)(0xDFE1FFul + 512ul * (k)))

/* The VIA's registers, for SWARMTEMPO_VIA. */
#define SWARMTEMPO_ORB 0u
#define SWARMTEMPO_ORA 1u
#define SWARMTEMPO_DDRB 2u
#define SWARMTEMPO_DDRA 3u
#define SWARMTEMPO_T1CL 4u
#define SWARMTEMPO_T1CH 5u
#define SWARMTEMPO_T1LL 6u
#define SWARMTEMPO_T1LH 7u
#define SWARMTEMPO_T2CL 8u
#define SWARMTEMPO_T2CH 9u
#define SWARMTEMPO_SR 10u
#define SWARMTEMPO_ACR 11u
#define SWARMTEMPO_PCR 12u
#define SWARMTEMPO_IFR 13u
#define SWARMTEMPO_IER 14u
#define SWARMTEMPO_ORANH 15u

/*
 * The disk lines, as bits of an answer's disk-line byte. The line of bit i is turned off by an access of
 * SWARMTEMPO_IWM(2 * i) and on by one of SWARMTEMPO_IWM(2 * i + 1).
 */
#define SWARMTEMPO_CA0 0x01u
#define SWARMTEMPO_CA1 0x02u
#define SWARMTEMPO_CA2 0x04u
#define SWARMTEMPO_LSTRB 0x08u
#define SWARMTEMPO_ENABLE 0x10u
#define SWARMTEMPO_SELECT 0x20u
#define SWARMTEMPO_Q6 0x40u
#define SWARMTEMPO_Q7 0x80u

/*
 * ---- The library. What is proved of it stands in docs/PROMISES.md. host/check compares what is
 * declared here with the functions of the library and with the declarations of the Rust crate.
 */

/*
 * Runs a list on the state in `image` (exactly one image, image_len bytes). Which clock chip the machine
 * has is in the image's kind, and no run changes it.
 *
 * Returns how the run stopped. `*consumed` is the number of list bytes of the records answered, but
 * for one refused with 1; `*written` the number of answer bytes, 8 for each answer. Answer bytes past
 * those keep their contents. On 0, 1 and 6 the image is the state reached; on 7 both counts are 0 and
 * all three buffers keep their bytes.
 */
uint8_t swarmtempo_run(uint8_t *image, size_t image_len, const uint8_t *list, size_t list_len,
                       uint8_t *answers, size_t answers_len, uint64_t *consumed, uint64_t *written);

/*
 * The same by the plain engine: the clock chip's command bytes are told by their bit patterns, where
 * swarmtempo_run looks them up in its table. Both are proved to do the same; this one is for those who
 * want to see it.
 */
uint8_t swarmtempo_run_plain(uint8_t *image, size_t image_len, const uint8_t *list, size_t list_len,
                             uint8_t *answers, size_t answers_len, uint64_t *consumed, uint64_t *written);

/*
 * Bytes of a state image of a machine whose clock chip has so many cells: SWARMTEMPO_CELLS_FIRST or
 * SWARMTEMPO_CELLS_LATER. 0 for any other number.
 */
uint64_t swarmtempo_image_len(uint32_t cells);

/*
 * Writes the image of a fresh machine with so many cells. Returns 0; 5 where no chip has so many; else 6
 * where image_len is below swarmtempo_image_len(cells). On 5 and 6 nothing is written. Bytes past the
 * image keep their contents.
 */
uint8_t swarmtempo_fresh(uint8_t *image, size_t image_len, uint32_t cells);

/*
 * Turns a capture over that was made before SN on registers 0 to 5, 12 and 15 retired, begun on a fresh
 * machine: such an SN becomes an IN of the same wait that repeats line 0's level, with a DI after it
 * where the SN items alone change whether a disk is in the drive. All other records pass as they are.
 *
 * Returns 0 at the end of the capture; 1 where a cut record ended the work, what comes before it being
 * written; 6 where out_len is too small, and then nothing is written. Twice list_len is enough.
 * `*written` is the number of bytes written, `*count` the number of SN items replaced without a DI;
 * both are 0 on 6. Bytes past those written keep their contents.
 */
uint8_t swarmtempo_convert(const uint8_t *list, size_t list_len, uint8_t *out, size_t out_len,
                           uint64_t *written, uint64_t *count);

/*
 * ---- Transactions with the clock chip, written as items.
 */
/* What is asked for. */
#define SWARMTEMPO_WRITE_CELL 1u    /* number: the cell; value: the byte */
#define SWARMTEMPO_READ_CELL 2u     /* number: the cell */
#define SWARMTEMPO_WRITE_SECONDS 3u /* number: the seconds byte, 0 (lowest) to 3; value: the byte */
#define SWARMTEMPO_READ_SECONDS 4u  /* number: the seconds byte */
#define SWARMTEMPO_WRITE_PROTECT 5u /* value: 0x80 sets write-protect, 0 clears it; its bit 7 alone counts */

/* Bytes of a transaction, and its items: of cells 20 to 255 (FAR), and of all else. */
#define SWARMTEMPO_WRITE_LEN 396
#define SWARMTEMPO_WRITE_ITEMS 36
#define SWARMTEMPO_READ_LEN 487
#define SWARMTEMPO_READ_ITEMS 45
#define SWARMTEMPO_WRITE_FAR_LEN 572
#define SWARMTEMPO_WRITE_FAR_ITEMS 52
#define SWARMTEMPO_READ_FAR_LEN 663
#define SWARMTEMPO_READ_FAR_ITEMS 61
/* Of the longest. */
#define SWARMTEMPO_TRANSACTION_MAX 663
#define SWARMTEMPO_TRANSACTION_ITEMS_MAX 61

/* The clock's enable line is down: a transaction is under way. */
#define SWARMTEMPO_REFUSED_ENABLE 10u

/*
 * Writes the items of one whole transaction with the clock chip of the state in `image` to `out`, each
 * wait 0 VIA ticks; `*written` is their number of bytes. The image is only read. A run of them on this
 * image, with SWARMTEMPO_ANSWER_LEN bytes for each item, ends with 0, does what was asked for unless
 * write-protect forbids it, and changes nothing else but bits 0 to 2 of port B's outputs and directions.
 * swarmtempo_transaction_byte takes the byte of a read from the answers.
 *
 * Returns 0, or the first of: 7 where no accepted state has this image; 5 where the chip has no such cell or
 * seconds byte, or `ask` is none of the five; 10 where enable is down; 6 where out_len is too little. On
 * these nothing is written and `*written` is 0. `value` is not looked at in a read, `number` is not where
 * write-protect is written. Bytes past those written keep their contents.
 */
uint8_t swarmtempo_transaction(const uint8_t *image, size_t image_len, uint8_t ask, uint32_t number, uint8_t value,
                               uint8_t *out, size_t out_len, uint64_t *written);

/* Microseconds as VIA ticks, rounded up: 12,000 gives 9,401. One wait takes 65,535 ticks at most. */
uint32_t swarmtempo_ticks_of_micros(uint32_t micros);

/*
 * The version of the library, as "0.3.0". While its first number is 0, another second number may
 * have another image: a program asks that the first two are those of its header.
 */
const char *swarmtempo_version(void);

/*
 * What the number of a refusal or of a stop says, in English words: "none" for 0, "unknown number" for
 * one that is none. Never NULL.
 */
const char *swarmtempo_refusal(uint8_t number);

/*
 * ---- Sheets of settings: a bench sheet before a house sheet, each a run of records of kind SV; either may
 * be empty. The two may be one buffer; no other buffers overlap.
 */
/* Bytes of a setting at most, and of the longest record. */
#define SWARMTEMPO_SETTING_MAX 64
#define SWARMTEMPO_SHEET_RECORD_MAX 71

/* Where a setting's bytes are. */
#define SWARMTEMPO_SHEET_NONE 0u  /* not set */
#define SWARMTEMPO_SHEET_BENCH 1u /* in the bench sheet */
#define SWARMTEMPO_SHEET_HOUSE 2u /* in the house sheet */

/*
 * Finds a setting's bytes: `*size` of them from `*start` on in the sheet that `*sheet` names. Returns 0, or
 * 1 where either sheet is broken (a cut record, another kind, a length outside 5 to 69), whichever setting
 * was asked. Where the setting is in neither sheet, and on a refusal, the three numbers are 0.
 */
uint8_t swarmtempo_sheet_get(const uint8_t *bench, size_t bench_len, const uint8_t *house, size_t house_len,
                             uint16_t setting, uint8_t *sheet, uint64_t *start, uint64_t *size);

/*
 * Writes a sheet's counting records to `out`, one for each setting, in their old order; `*written` is their
 * number of bytes, at most sheet_len. Every answer's bytes stay the same. Returns 0, or 1 where the sheet is
 * broken, then 6 where out_len is too little; both write nothing, and `*written` is 0. Bytes past those
 * written keep their contents. Takes 590 kB of stack.
 */
uint8_t swarmtempo_sheet_compact(const uint8_t *sheet, size_t sheet_len, uint8_t *out, size_t out_len,
                                 uint64_t *written);

/*
 * ---- The keyboard, a part of its own: no item of a list reaches it, and its image is in no state image.
 */
/* Bytes of a keyboard's image of this version; swarmtempo_keyboard_len() says the same. */
#define SWARMTEMPO_KEYBOARD_LEN 18
/* VIA ticks after which a waiting Inquiry answers Null. */
#define SWARMTEMPO_INQUIRY_TICKS 195840ul
/* Eight key codes are held already. */
#define SWARMTEMPO_REFUSED_KEY 11u

/* Command bytes. */
#define SWARMTEMPO_INQUIRY 0x10u
#define SWARMTEMPO_INSTANT 0x14u
#define SWARMTEMPO_MODEL 0x16u
#define SWARMTEMPO_TEST 0x36u

/* Bytes of a keyboard's image. */
uint64_t swarmtempo_keyboard_len(void);

/*
 * Writes the image of a keyboard that was just made; `model` is what the command Model answers. Returns
 * 0, or 6 where image_len is below swarmtempo_keyboard_len(), and then writes nothing. Bytes past the
 * image keep their contents.
 */
uint8_t swarmtempo_keyboard_fresh(uint8_t *image, size_t image_len, uint8_t model);

/*
 * A command byte, a key code, and a wait, each on the keyboard in `image` (exactly one image, image_len
 * bytes). Each returns 0, or the refusal: 7 where no accepted keyboard has this image, 11 where a key is
 * one too many. `*answered` is 1 where there is an answer byte, and `*answer` is that byte; else both are
 * 0. On a refusal the image keeps its bytes. A wait may be cut anywhere.
 */
uint8_t swarmtempo_keyboard_command(uint8_t *image, size_t image_len, uint8_t command, uint8_t *answered, uint8_t *answer);
uint8_t swarmtempo_keyboard_key(uint8_t *image, size_t image_len, uint8_t code, uint8_t *answered, uint8_t *answer);
uint8_t swarmtempo_keyboard_wait(uint8_t *image, size_t image_len, uint32_t via_ticks, uint8_t *answered, uint8_t *answer);

/*
 * ---- Writers of items. Each writes one record at `at`, which has room for SWARMTEMPO_ITEM_MAX bytes, and
 * returns its length in bytes. `wait_via_ticks` passes before the item acts.
 */
static inline size_t swarmtempo_item(uint8_t *at, char k0, char k1, uint16_t wait_via_ticks, size_t rest)
{
    at[0] = (uint8_t)(4 + rest);
    at[1] = 0;
    at[2] = (uint8_t)k0;
    at[3] = (uint8_t)k1;
    at[4] = (uint8_t)(wait_via_ticks & 0xFF);
    at[5] = (uint8_t)(wait_via_ticks >> 8);
    return 6 + rest;
}

static inline void swarmtempo_long(uint8_t *at, uint32_t number)
{
    at[0] = (uint8_t)(number & 0xFF);
    at[1] = (uint8_t)(number >> 8 & 0xFF);
    at[2] = (uint8_t)(number >> 16 & 0xFF);
    at[3] = (uint8_t)(number >> 24 & 0xFF);
}

/* Reads a byte. */
static inline size_t swarmtempo_rd(uint8_t *at, uint16_t wait_via_ticks, uint32_t address)
{
    swarmtempo_long(at + 6, address);
    return swarmtempo_item(at, 'R', 'D', wait_via_ticks, 4);
}

/* Writes a byte. */
static inline size_t swarmtempo_wr(uint8_t *at, uint16_t wait_via_ticks, uint32_t address, uint8_t value)
{
    swarmtempo_long(at + 6, address);
    at[10] = value;
    return swarmtempo_item(at, 'W', 'R', wait_via_ticks, 5);
}

/*
 * Writes so many bytes to one address, the first after the wait and the others with none; it has one answer,
 * that of the last write. Returns 0, and writes nothing at `at`, where count is 0 or above
 * SWARMTEMPO_VALUES_MAX; else 11 + count.
 */
static inline size_t swarmtempo_mw(uint8_t *at, uint16_t wait_via_ticks, uint32_t address, const uint8_t *values, size_t count)
{
    if (count == 0 || count > SWARMTEMPO_VALUES_MAX) return 0;
    swarmtempo_long(at + 6, address);
    at[10] = (uint8_t)count;
    for (size_t i = 0; i < count; i++) at[11 + i] = values[i];
    return swarmtempo_item(at, 'M', 'W', wait_via_ticks, 5 + count);
}

/* Vertical blanking. */
static inline size_t swarmtempo_vb(uint8_t *at, uint16_t wait_via_ticks)
{
    return swarmtempo_item(at, 'V', 'B', wait_via_ticks, 0);
}

/* The one-second tick. */
static inline size_t swarmtempo_se(uint8_t *at, uint16_t wait_via_ticks)
{
    return swarmtempo_item(at, 'S', 'E', wait_via_ticks, 0);
}

/* Sets IN line 0 to 6 (mouse switch, X2, Y2, H4, PA7, serial chip asks, programmer's switch) to level 0 or 1. */
static inline size_t swarmtempo_in(uint8_t *at, uint16_t wait_via_ticks, uint8_t line, uint8_t level)
{
    at[6] = line;
    at[7] = level;
    return swarmtempo_item(at, 'I', 'N', wait_via_ticks, 2);
}

/* Sets the level of sense register 6 to 11, 13 or 14 of drive 0 (internal) or 1 (external). */
static inline size_t swarmtempo_sn(uint8_t *at, uint16_t wait_via_ticks, uint8_t drive, uint8_t reg, uint8_t level)
{
    at[6] = drive;
    at[7] = reg;
    at[8] = level;
    return swarmtempo_item(at, 'S', 'N', wait_via_ticks, 3);
}

/*
 * Inserts a disk into drive 0 (internal) or 1 (external), or removes it: insert 1 or 0; locked and
 * double_sided, 0 or 1, count on insertion only.
 */
static inline size_t swarmtempo_di(uint8_t *at, uint16_t wait_via_ticks, uint8_t drive, uint8_t insert, uint8_t locked, uint8_t double_sided)
{
    at[6] = drive;
    at[7] = insert;
    at[8] = locked;
    at[9] = double_sided;
    return swarmtempo_item(at, 'D', 'I', wait_via_ticks, 4);
}

/*
 * A pulse of the keyboard's clock, with level 0 or 1 on its data line. Where ACR bits 4 to 2 are 011 it shifts
 * the level into register 10; where they are 111 it shifts a bit out, which is the answer's value; else it
 * does nothing. Each eighth pulse of either sets flag 2.
 */
static inline size_t swarmtempo_kc(uint8_t *at, uint16_t wait_via_ticks, uint8_t level)
{
    at[6] = level;
    return swarmtempo_item(at, 'K', 'C', wait_via_ticks, 1);
}

/* Reset. */
static inline size_t swarmtempo_rs(uint8_t *at, uint16_t wait_via_ticks)
{
    return swarmtempo_item(at, 'R', 'S', wait_via_ticks, 0);
}

/* Power cut: seconds off. */
static inline size_t swarmtempo_pw(uint8_t *at, uint16_t wait_via_ticks, uint32_t seconds)
{
    swarmtempo_long(at + 6, seconds);
    return swarmtempo_item(at, 'P', 'W', wait_via_ticks, 4);
}

/*
 * ---- Readers of answers. Each takes the SWARMTEMPO_ANSWER_LEN bytes of one answer: the answer to the
 * i-th item of a run, counted from 0, stands at `answers + i * SWARMTEMPO_ANSWER_LEN`.
 */

/* Stands for bytes that are no answer. */
#define SWARMTEMPO_NO_ANSWER 255u

/* 0 where the item was done; the number of the refusal; SWARMTEMPO_NO_ANSWER where the bytes are no answer. */
static inline uint8_t swarmtempo_answer_refusal(const uint8_t *at)
{
    if (at[0] != 6 || at[1] != 0) return SWARMTEMPO_NO_ANSWER;
    if (at[2] == 'O' && at[3] == 'K') return SWARMTEMPO_END;
    if (at[2] == 'N' && at[3] == 'O' && at[4] != 0) return at[4];
    return SWARMTEMPO_NO_ANSWER;
}

/* 1 where the item was done, else 0. What follows is 0 where it was not. */
static inline int swarmtempo_answer_done(const uint8_t *at)
{
    return swarmtempo_answer_refusal(at) == SWARMTEMPO_END;
}

/* The value read, or of swarmtempo_kc the bit shifted out; else 0. */
static inline uint8_t swarmtempo_answer_value(const uint8_t *at)
{
    return swarmtempo_answer_done(at) ? at[4] : 0;
}

/*
 * The interrupt level after the item: 4 for the programmer's switch, plus 2 for the serial chip, plus 1 for
 * the VIA while the serial chip is not asking.
 */
static inline uint8_t swarmtempo_answer_level(const uint8_t *at)
{
    return swarmtempo_answer_done(at) ? at[5] : 0;
}

/* The disk lines after the item, a bit each: SWARMTEMPO_CA0 to SWARMTEMPO_Q7. */
static inline uint8_t swarmtempo_answer_lines(const uint8_t *at)
{
    return swarmtempo_answer_done(at) ? at[6] : 0;
}

/* The level of SEL after the item, 0 or 1. */
static inline uint8_t swarmtempo_answer_sel(const uint8_t *at)
{
    return swarmtempo_answer_done(at) ? at[7] : 0;
}

/*
 * The byte that a read transaction got, of `items` answers, SWARMTEMPO_READ_ITEMS or
 * SWARMTEMPO_READ_FAR_ITEMS of them: bit 0 of its eight looks, the high bit first. The looks are every
 * third item of the 25 at the end.
 */
static inline uint8_t swarmtempo_transaction_byte(const uint8_t *answers, size_t items)
{
    uint8_t byte = 0;
    for (size_t k = 0; k < 8; k++) {
        const uint8_t *at = answers + (items - 24 + 3 * k) * SWARMTEMPO_ANSWER_LEN;
        byte = (uint8_t)(byte << 1 | (swarmtempo_answer_value(at) & 1));
    }
    return byte;
}

#ifdef __cplusplus
}
#endif

#endif
