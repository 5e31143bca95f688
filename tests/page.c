/*
 * The service page from C, in buffers of every length from 0 to 512, with bytes on both sides that nobody may write:
 *   - from MUNTINORRIS_PAGE_BYTES on the first 323 bytes are the page, which is written out here, and the others keep
 *     their content;
 *   - below that the answer is MUNTINORRIS_PAGE_TOO_SHORT and no byte is written;
 *   - neither the record nor the memory beside it is changed.
 * Then on records that no call makes: 17 lines of 18 bytes, each ended by 0AH, and nothing else is written.
 * tests/c_and_rust compiles and runs it.
 */
#include <stdio.h>
#include <string.h>
#include "muntinorris.h"

#define MARGIN 64
#define LONGEST 512
static uint8_t memory[MARGIN + sizeof(struct muntinorris_device) + MARGIN], memory_before[sizeof memory];
static struct muntinorris_device *const device = (struct muntinorris_device *)(memory + MARGIN);
static uint8_t around[MARGIN + LONGEST + MARGIN], around_before[sizeof around];
static uint8_t *const buffer = around + MARGIN;
static int failures;

/*
 * Polyphony 24. The order is 4, 10, 1, 3, 2, 16, 5, 6 with values 0, 2, 12, 12, 20, 24, 100 and 127, so that 5 and 6
 * are listed and masked. Channel 1 has ten notes, two of them sustained, channel 2 three, one of them releasing,
 * channel 10 one.
 */
static const uint8_t song[] = {
    0xF0, 0x7F, 0x7F, 0x0B, 0x01, 3, 0, 9, 2, 0, 12, 2, 12, 1, 20, 15, 24, 4, 100, 5, 127, 0xF7,
    0x90, 60, 64, 61, 64, 62, 64, 63, 64, 64, 64, 65, 64, 66, 64, 67, 64, 68, 64, 69, 64,
    0xB0, 64, 127, 0x90, 60, 0, 61, 0,
    0x91, 60, 64, 61, 64, 62, 64, 61, 0, 0x99, 36, 64};
static const char page[] =
    "CH PR VAL SHR M NT\n"
    " 1  3  12  10 - 10\n"
    " 2  5  20   8 -  2\n"
    " 3  4  12   0 -  0\n"
    " 4  1   0   0 -  0\n"
    " 5  7 100 --- M  0\n"
    " 6  8 127 --- M  0\n"
    " 7 -- --- --- M  0\n"
    " 8 -- --- --- M  0\n"
    " 9 -- --- --- M  0\n"
    "10  2   2   2 -  1\n"
    "11 -- --- --- M  0\n"
    "12 -- --- --- M  0\n"
    "13 -- --- --- M  0\n"
    "14 -- --- --- M  0\n"
    "15 -- --- --- M  0\n"
    "16  6  24   4 -  0\n";

static void check(int holds, const char *what, unsigned length)
{
    if (!holds) {
        printf("FAILED: %s, in a buffer of %u bytes\n", what, length);
        failures++;
    }
}

/*
 * The page in a buffer of this length, all memory as it was before kept aside. The record is lent as one that may not
 * be written.
 */
static unsigned ask(size_t length)
{
    const struct muntinorris_device *lent = device;
    size_t i;

    for (i = 0; i < sizeof around; i++)
        around[i] = 0xA5 ^ i;
    memcpy(around_before, around, sizeof around);
    memcpy(memory_before, memory, sizeof memory);
    return muntinorris_page(lent, buffer, length);
}

/* No byte but the buffer's first n is changed. */
static int is_kept(size_t n)
{
    return memcmp(around, around_before, MARGIN) == 0 &&
           memcmp(buffer + n, around_before + MARGIN + n, sizeof around - MARGIN - n) == 0 &&
           memcmp(memory, memory_before, sizeof memory) == 0;
}

static void lengths(void)
{
    size_t i, length;

    muntinorris_start(device, 24, 0);
    for (i = 0; i < sizeof song; i++)
        muntinorris_byte(device, song[i]);
    check(sizeof page == MUNTINORRIS_PAGE_BYTES + 1, "MUNTINORRIS_PAGE_BYTES", MUNTINORRIS_PAGE_BYTES);
    for (length = 0; length <= LONGEST; length++)
        if (length < 323) {
            check(ask(length) == MUNTINORRIS_PAGE_TOO_SHORT, "number 18", (unsigned)length);
            check(is_kept(0), "no byte is written", (unsigned)length);
        } else {
            check(ask(length) == 0, "no number", (unsigned)length);
            check(memcmp(buffer, page, 323) == 0, "the page", (unsigned)length);
            check(is_kept(323), "the other bytes are kept", (unsigned)length);
        }
    check(muntinorris_page(device, NULL, 0) == MUNTINORRIS_PAGE_TOO_SHORT, "number 18 in no memory", 0);
}

/* Memory that no call makes a record of, full of one byte. */
static void any_record(uint8_t pattern)
{
    unsigned i;

    memset(memory, pattern, sizeof memory);
    check(ask(LONGEST) == 0, "no number for any record", LONGEST);
    check(is_kept(323), "the other bytes are kept for any record", LONGEST);
    check(memcmp(buffer, page, 19) == 0, "the head for any record", LONGEST);
    for (i = 0; i < 323; i++)
        check((buffer[i] == '\n') == (i % 19 == 18), "17 lines of 18 bytes for any record", LONGEST);
}

int main(void)
{
    unsigned pattern;

    lengths();
    for (pattern = 0; pattern < 256; pattern++)
        any_record(pattern);
    if (failures == 0)
        printf("the page is the one written out here, in %u lengths\n", LONGEST + 1);
    return failures != 0;
}
