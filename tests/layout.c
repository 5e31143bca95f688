/*
 * Holds the record of include/muntinorris.h against the library's own. The header says where a field lies; the library
 * shows it by what it writes and reads:
 *   - a start writes every byte of the record and none beside it, whatever was there before;
 *   - after a call the memory is what it was but for the fields that the rules name, each at the header's place;
 *   - a value put at the header's place is what the next call reads;
 *   - each number, state and answer comes under the header's name for it.
 * So it does with the record of a log, whose padding is passed over.
 * tests/c_and_rust compiles and runs it. With the word `print` it writes each struct's size and each field's place and
 * size instead, for the Rust crate to be held against.
 */
#include <stdarg.h>
#include <stddef.h>
#include <stdio.h>
#include <string.h>
#include "muntinorris.h"

#define MARGIN 64
static unsigned char memory[MARGIN + sizeof(struct muntinorris_device) + MARGIN];
static struct muntinorris_device *const device = (struct muntinorris_device *)(memory + MARGIN);
static struct muntinorris_device want; /* what the record must be after the next call, by the header */
static struct muntinorris_answer answer;
static int failures;

static void check(int holds, const char *what)
{
    if (!holds) {
        printf("FAILED: %s\n", what);
        failures++;
    }
}

static void fill(unsigned char pattern)
{
    memset(memory, pattern, sizeof memory);
}

/* The margins still hold the pattern. */
static int kept(unsigned char pattern)
{
    size_t i;

    for (i = 0; i < MARGIN; i++)
        if (memory[i] != pattern || memory[sizeof memory - 1 - i] != pattern)
            return 0;
    return 1;
}

static void start(uint8_t polyphony, uint8_t id)
{
    answer = muntinorris_start(device, polyphony, id);
    want = *device;
}

/* A byte, after which the record is what is wanted. */
static void byte(uint8_t b, const char *what)
{
    answer = muntinorris_byte(device, b);
    check(memcmp(&want, device, sizeof want) == 0 && kept(0xA5), what);
    want = *device;
}

/* A byte whose effect on the record is not looked at. */
static void feed(uint8_t b)
{
    answer = muntinorris_byte(device, b);
    want = *device;
}

static void starts(void)
{
    static const unsigned char patterns[] = {0x00, 0xFF, 0xA5};
    unsigned i;

    for (i = 0; i < sizeof patterns; i++) {
        fill(patterns[i]);
        answer = muntinorris_start(device, 37, 101);
        check(kept(patterns[i]), "a start writes nothing beside the record");
        if (i == 0)
            want = *device;
        check(memcmp(&want, device, sizeof want) == 0, "a start writes the whole record");
    }
    check(device->instrument.polyphony == 37 && device->instrument.id == 101, "polyphony and id");
    check(answer.what == MUNTINORRIS_DONE, "the answer to a start");
    want.instrument.id = 102;
    answer = muntinorris_start(device, 37, 102);
    check(memcmp(&want, device, sizeof want) == 0, "id alone differs");
    for (i = 0; i < 16; i++)
        want.instrument.table.entries[i].value = 38;
    want.instrument.polyphony = 38;
    answer = muntinorris_start(device, 38, 102);
    check(memcmp(&want, device, sizeof want) == 0, "polyphony and the table's values differ");
}

static void parser(void)
{
    unsigned i;

    start(64, 5);
    want.parser.status = 0x93;
    byte(0x93, "parser.status");
    want.parser.count = 1;
    want.parser.bytes[0] = 0x21;
    byte(0x21, "parser.count and parser.bytes[0]");
    want.parser.status = 0xF0;
    want.parser.count = 0;
    want.parser.bytes[0] = 0;
    byte(0xF0, "an open SysEx");
    for (i = 0; i < 37; i++) {
        want.parser.count = i + 1;
        want.parser.bytes[i] = 90 + i;
        byte(90 + i, "parser.bytes");
    }
    memset(&want.parser, 0, sizeof want.parser);
    byte(0xF7, "a parser at rest");
    /* reading: a note-on whose first data byte is already there */
    device->parser.status = 0x94;
    device->parser.count = 1;
    device->parser.bytes[0] = 60;
    feed(100);
    check(answer.what == MUNTINORRIS_NOTE && answer.channel == 5 && answer.key == 60,
          "parser.status, count and bytes are read");
}

/* Controller n of the channel in force, which changes this field and no other. */
static void controller(uint8_t n, uint8_t v, uint8_t *field, const char *what)
{
    *field = v;
    muntinorris_byte(device, n);
    byte(v, what);
}

static void channels(void)
{
    unsigned c;

    start(64, 5);
    for (c = 0; c < 16; c++) {
        struct muntinorris_channel *w = &want.instrument.channels[c];

        feed(0xB0 + c);
        controller(0, 28 + c, &w->bank_msb, "bank_msb");
        controller(32, 29 + c, &w->bank_lsb, "bank_lsb");
        controller(1, 30 + c, &w->modulation, "modulation");
        controller(7, 31 + c, &w->volume, "volume");
        controller(10, 32 + c, &w->pan, "pan");
        controller(11, 33 + c, &w->expression, "expression");
        controller(64, 34 + c, &w->hold, "hold");
        controller(100, 0, &w->rpn_lsb, "rpn_lsb");
        controller(101, 0, &w->rpn_msb, "rpn_msb");
        controller(6, 3 + c, &w->sensitivity, "sensitivity");
        feed(0xC0 + c);
        w->program = 50 + c;
        byte(50 + c, "program");
        feed(0xE0 + c);
        w->bend_lsb = 9 + c;
        muntinorris_byte(device, 9 + c);
        byte(64, "bend_lsb");
        w->bend_msb = 70 + c;
        muntinorris_byte(device, 9 + c);
        byte(70 + c, "bend_msb");
    }
    /* reading: the hold of channel 3 sustains its note */
    start(64, 5);
    feed(0x92);
    feed(60);
    feed(64);
    device->instrument.channels[2].hold = 64;
    want = *device;
    want.instrument.generators.state[0] = MUNTINORRIS_STATE_SUSTAINED;
    muntinorris_byte(device, 60);
    byte(0, "hold is read");
}

static void kind(void)
{
    start(64, 5);
    check(device->instrument.kind == MUNTINORRIS_MELODY && device->instrument.channels[9].bank_msb == 120 &&
              device->instrument.channels[10].bank_msb == 121,
          "the kind and the banks of a start");
    feed(0xBA);
    feed(0);
    feed(120);
    feed(0xCA);
    want.parser.count = 0;
    want.instrument.kind = MUNTINORRIS_RHYTHM;
    want.instrument.channels[10].program = 3;
    byte(3, "kind");
    check(muntinorris_rhythm(device, 11) == 1 && muntinorris_rhythm(device, 10) == 1 &&
              muntinorris_rhythm(device, 12) == 0 && muntinorris_rhythm(device, 0) == 0 &&
              muntinorris_rhythm(device, 255) == 0,
          "the rhythm channels");
    /* reading */
    device->instrument.kind = MUNTINORRIS_MELODY;
    check(muntinorris_rhythm(device, 11) == 0 && muntinorris_rhythm(device, 10) == 1, "kind is read");
    device->instrument.channels[10].bank_msb = 77;
    feed(4);
    check(device->instrument.kind == MUNTINORRIS_MELODY, "bank_msb is read");
}

static void table(void)
{
    static const uint8_t message[] = {0xF0, 0x7F, 0x7F, 0x0B, 0x01, 3, 5, 1, 7, 8, 60, 15, 64};
    static const struct muntinorris_entry entries[] = {
        {.channel = 4, .value = 5},
        {.channel = 2, .value = 7},
        {.channel = 9, .value = 60},
        {.channel = 16, .value = 64}};
    unsigned i;

    start(64, 5);
    for (i = 0; i < sizeof message; i++)
        feed(message[i]);
    memset(&want.parser, 0, sizeof want.parser);
    memset(&want.instrument.table, 0, sizeof want.instrument.table);
    want.instrument.table.count = 4;
    memcpy(want.instrument.table.entries, entries, sizeof entries);
    byte(0xF7, "table.count and table.entries");
    check(answer.what == MUNTINORRIS_DONE, "an accepted MIP message");
    /* reading */
    check(muntinorris_share(device, 9).share == 53 && muntinorris_mask(device, 9).masked == 0, "the table is read");
    check(muntinorris_mask(device, 1).masked == 1 &&
              muntinorris_share(device, 17).number == MUNTINORRIS_NO_SUCH_CHANNEL,
          "masks");
    device->instrument.table.entries[2].value = 50;
    check(muntinorris_share(device, 9).share == 43, "table.entries[].value is read");
    device->instrument.table.entries[2].channel = 1;
    check(muntinorris_share(device, 1).share == 43, "table.entries[].channel is read");
    device->instrument.table.count = 2;
    check(muntinorris_mask(device, 1).masked == 1, "table.count is read");
    device->instrument.polyphony = 6;
    check(muntinorris_mask(device, 2).masked == 1 && muntinorris_mask(device, 4).masked == 0, "polyphony is read");
}

static void generators(void)
{
    struct muntinorris_generators *w = &want.instrument.generators;
    unsigned g;

    start(64, 5);
    for (g = 0; g < 64; g++) {
        unsigned channel = g % 16 + 1;

        feed(0x90 + g % 16);
        w->state[g] = MUNTINORRIS_STATE_HELD;
        w->channel[g] = channel;
        w->key[g] = 127 - g;
        w->ages.count = g + 1;
        w->ages.generator[g] = g;
        muntinorris_byte(device, 127 - g);
        byte(64, "a generator's state, channel, key and age");
        check(answer.what == MUNTINORRIS_NOTE && answer.generator == g && answer.channel == channel &&
                  answer.key == 127 - g && answer.was == MUNTINORRIS_WAS_IDLE,
              "the answer to a note-on");
    }
    w->state[63] = w->channel[63] = w->key[63] = 0;
    w->ages.count = 63;
    w->ages.generator[63] = 0;
    answer = muntinorris_report(device, 63);
    check(memcmp(&want, device, sizeof want) == 0 && answer.what == MUNTINORRIS_DONE, "a report");
    /* reading */
    for (g = 0; g < 64; g++) {
        struct muntinorris_generator_answer a;

        device->instrument.generators.state[g] = 200 - g;
        device->instrument.generators.channel[g] = 100 + g;
        device->instrument.generators.key[g] = 50 + g;
        a = muntinorris_generator(device, g);
        check(a.number == 0 && a.state == 200 - g && a.channel == 100 + g && a.key == 50 + g,
              "state, channel and key are read");
    }
    device->instrument.polyphony = 20;
    check(muntinorris_generator(device, 19).number == 0 &&
              muntinorris_generator(device, 20).number == MUNTINORRIS_NO_SUCH_GENERATOR,
          "polyphony bounds the generators");
}

/* Three releasing generators in an order of age of our own; an own ID of our own. */
static void ages_and_id(void)
{
    static const uint8_t order[] = {2, 0, 1};
    static const uint8_t reset[] = {0xF0, 0x7E, 77, 0x09, 0x01, 0xF7};
    unsigned i;

    start(3, 5);
    for (i = 0; i < 3; i++) {
        device->instrument.generators.state[i] = MUNTINORRIS_STATE_RELEASING;
        device->instrument.generators.ages.generator[i] = order[i];
    }
    device->instrument.generators.ages.count = 3;
    feed(0x90);
    feed(60);
    feed(64);
    check(answer.generator == 2 && answer.was == MUNTINORRIS_WAS_RELEASE, "ages.generator is read");
    check(device->instrument.generators.ages.generator[0] == 0 &&
              device->instrument.generators.ages.generator[1] == 1 &&
              device->instrument.generators.ages.generator[2] == 2,
          "ages.generator is written");
    for (i = 0; i < sizeof reset; i++)
        feed(reset[i]);
    check(answer.what == MUNTINORRIS_NONE, "a reset for another ID");
    device->instrument.id = 77;
    for (i = 0; i < sizeof reset; i++)
        feed(reset[i]);
    check(answer.what == MUNTINORRIS_DONE && device->instrument.id == 77, "id is read");
}

/* What the calls answer under each name of the header. */
static void numbered(unsigned number, unsigned channel, unsigned key, const char *what)
{
    check(answer.what == MUNTINORRIS_NUMBER && answer.number == number && answer.channel == channel &&
              answer.key == key && answer.generator == 0 && answer.was == 0,
          what);
}

static void play(uint8_t polyphony, const uint8_t *bytes, size_t length)
{
    size_t i;

    start(polyphony, 5);
    for (i = 0; i < length; i++)
        feed(bytes[i]);
}

#define PLAY(polyphony, ...) play(polyphony, (const uint8_t[]){__VA_ARGS__}, sizeof((const uint8_t[]){__VA_ARGS__}))
#define MIP 0xF0, 0x7F, 0x7F, 0x0B, 0x01

static void numbers(void)
{
    start(0, 5);
    numbered(MUNTINORRIS_BAD_POLYPHONY, 0, 0, "number 1");
    start(4, 127);
    numbered(MUNTINORRIS_BAD_ID, 0, 0, "number 2");
    PLAY(4, 0x40);
    numbered(MUNTINORRIS_STRAY_DATA, 0, 0, "number 3");
    PLAY(4, 0xF0, 0x7F, 0x90);
    numbered(MUNTINORRIS_SYSEX_CUT, 0, 0, "number 4");
    PLAY(4, MIP, 0, 1, 1, 1, 2, 1, 3, 1, 4, 1, 5, 1, 6, 1, 7, 1, 8, 1, 9, 1, 10, 1, 11, 1, 12, 1, 13, 1, 14, 1, 15, 1,
         0, 0xF7);
    numbered(MUNTINORRIS_MIP_TOO_LONG, 0, 0, "number 5");
    PLAY(4, MIP, 0xF7);
    numbered(MUNTINORRIS_MIP_NO_PAIRS, 0, 0, "number 6");
    PLAY(4, MIP, 16, 1, 0xF7);
    numbered(MUNTINORRIS_MIP_BAD_CHANNEL, 0, 0, "number 7");
    PLAY(4, MIP, 0, 1, 0, 1, 0xF7);
    numbered(MUNTINORRIS_MIP_LISTED_TWICE, 0, 0, "number 8");
    PLAY(4, MIP, 0, 2, 1, 1, 0xF7);
    numbered(MUNTINORRIS_MIP_FALLING, 0, 0, "number 9");
    PLAY(4, MIP, 0, 2, 0xF7, 0x91, 64, 64);
    numbered(MUNTINORRIS_MASKED, 2, 64, "number 10");
    PLAY(1, 0x99, 36, 64, 0x90, 60, 64);
    numbered(MUNTINORRIS_NOTHING_TO_STEAL, 1, 60, "number 11");
    answer = muntinorris_report(device, 1);
    numbered(MUNTINORRIS_NO_SUCH_GENERATOR, 0, 0, "number 12");
    answer = muntinorris_report(device, 0);
    check(answer.what == MUNTINORRIS_DONE && muntinorris_generator(device, 0).state == MUNTINORRIS_STATE_IDLE,
          "a report, and the state idle");
    answer = muntinorris_report(device, 0);
    numbered(MUNTINORRIS_ALREADY_IDLE, 0, 0, "number 13");
    check(muntinorris_mask(device, 0).number == MUNTINORRIS_NO_SUCH_CHANNEL &&
              muntinorris_share(device, 0).number == MUNTINORRIS_NO_SUCH_CHANNEL,
          "number 14");
    check(muntinorris_mask(device, 16).number == 0 && muntinorris_share(device, 16).number == 0,
          "no number for channel 16");
    PLAY(1, 0x90, 60, 64, 0x99, 36, 64);
    check(answer.what == MUNTINORRIS_NOTE && answer.number == 0 && answer.was == MUNTINORRIS_WAS_STOLEN,
          "a stolen generator");
    PLAY(1, 0x90, 60, 64, 60, 0);
    check(muntinorris_generator(device, 0).state == MUNTINORRIS_STATE_RELEASING, "the state releasing");
}

/* Number 18 and no number; what a page is, and that nothing else is written, is held in tests/page.c. */
static void pages(void)
{
    static uint8_t page[MUNTINORRIS_PAGE_BYTES];

    start(64, 5);
    check(muntinorris_page(device, page, sizeof page - 1) == MUNTINORRIS_PAGE_TOO_SHORT && page[0] == 0, "number 18");
    check(muntinorris_page(device, page, sizeof page) == 0 && page[sizeof page - 1] == '\n', "a page");
}

/*
 * A pitch answer's fields, each with a value of its own. Then the pitch of a note, as a driver asks for it (README.md):
 * sensitivity 12, bent down by a third of it and half a sixteenth, of which the floor makes a whole one: position
 * 960 - 65.
 */
static void pitches(void)
{
    struct muntinorris_pitch_answer a = muntinorris_pitch(1, 24, 0);
    const struct muntinorris_channel *c;

    check(a.entry == 69432 && a.octave == -2 && a.number == 0, "the lowest pitch of key 1");
    a = muntinorris_pitch(127, 24, 16383);
    check(a.entry == 97839 && a.octave == 12 && a.number == 0, "the highest pitch");
    a = muntinorris_pitch(127, 25, 16383);
    check(a.entry == 65536 && a.octave == 0 && a.number == MUNTINORRIS_BAD_PITCH, "number 21");
    PLAY(4, 0xB2, 101, 0, 100, 0, 6, 12, 0xE2, 64, 42, 0x92, 60, 100);
    c = &device->instrument.channels[answer.channel - 1];
    a = muntinorris_pitch(answer.key, c->sensitivity, 128 * c->bend_msb + c->bend_lsb);
    check(a.entry == 103657 && a.octave == 4 && a.number == 0, "the pitch of a note by its channel's record");
}

/*
 * The fields of a gains answer, each with a value of its own: at full level, pan 43, the weights are 28378 and 16384 of
 * 32768 (exact here, which is more than the contract asks). Then the gains of a channel as a driver asks for them
 * (README.md), after its volume, pan and expression were sent; and refused ones, of a copy of the channel.
 */
static void gains(void)
{
    struct muntinorris_gains_answer a = muntinorris_gains(127, 127, 43);
    struct muntinorris_channel c;

    check(a.left == 28378.0f / 32768 && a.right == 16384.0f / 32768 && a.number == 0, "the weights of pan 43");
    a = muntinorris_gains(127, 127, 1);
    check(a.left == 1 && a.right == 0 && a.number == 0, "full left");
    a = muntinorris_gains(127, 128, 1);
    check(a.left == 0 && a.right == 0 && a.number == MUNTINORRIS_BAD_LEVEL, "number 24");
    PLAY(4, 0xB2, 7, 64, 10, 127, 11, 96);
    a = muntinorris_channel_gains(&device->instrument.channels[3 - 1]);
    check(a.left == 0 && a.right > 0.145105f && a.right < 0.145108f && a.number == 0,
          "the gains of a channel by its record");
    c = device->instrument.channels[3 - 1];
    c.pan = 128;
    a = muntinorris_channel_gains(&c);
    check(a.left == 0 && a.right == 0 && a.number == MUNTINORRIS_BAD_LEVEL, "number 24 for a channel's numbers");
}

/* From a place on, the buffer of 40 bytes is as it was filled. */
static int is_kept(const uint8_t *song, unsigned from)
{
    for (; from < 40; from++)
        if (song[from] != 0xA5)
            return 0;
    return 1;
}

/*
 * The fields of a song's answer, each with a value of its own, with 300 thefts and more; the buffer before and behind
 * the n-th byte. The song of 21 bytes is played anew on a device as a driver would: 10 notes on 3 generators. Then both
 * numbers, number 1 first, with the whole buffer untouched, and a song of no byte in no memory.
 */
static void songs(void)
{
    static uint8_t longest[65536];
    uint8_t song[40];
    struct muntinorris_song_answer a = muntinorris_write_song(64, sizeof longest, longest, sizeof longest);
    unsigned i, thefts = 0;

    check(a.thefts == 32703 && a.number == 0 && longest[0] == 0x90 && longest[65535] == 127, "the longest song");
    memset(song, 0xA5, sizeof song);
    a = muntinorris_write_song(3, 21, song, sizeof song);
    check(a.thefts == 7 && a.number == 0 && is_kept(song, 21), "a song of 21 bytes");
    muntinorris_start(device, 3, 0);
    for (i = 0; i < 21; i++)
        thefts += muntinorris_byte(device, song[i]).was == MUNTINORRIS_WAS_STOLEN;
    check(thefts == 7, "the thefts of a song played anew");
    memset(song, 0xA5, sizeof song);
    a = muntinorris_write_song(65, 41, song, sizeof song);
    check(a.thefts == 0 && a.number == MUNTINORRIS_BAD_POLYPHONY && is_kept(song, 0), "number 1 for a song");
    a = muntinorris_write_song(64, 41, song, sizeof song);
    check(a.thefts == 0 && a.number == MUNTINORRIS_SONG_TOO_LONG && is_kept(song, 0), "number 25");
    a = muntinorris_write_song(1, 0, NULL, 0);
    check(a.thefts == 0 && a.number == 0, "a song of no byte");
}

/* ---- the record of a log, in memory of its alignment ---- */

static union {
    uint64_t aligned;
    unsigned char bytes[MARGIN + sizeof(struct muntinorris_log) + MARGIN];
} log_memory;
static struct muntinorris_log *const lent = (struct muntinorris_log *)(log_memory.bytes + MARGIN);
static struct muntinorris_log logged; /* what the record must be after the next call, by the header */
static const uint8_t order[16] = {10, 16, 1, 2, 3, 4, 5, 6, 7, 8, 9, 11, 12, 13, 14, 15};
static const uint8_t zeros[38];

static void fill_log(unsigned char pattern)
{
    memset(log_memory.bytes, pattern, sizeof log_memory.bytes);
}

/* The record is what is wanted, field by field, and the memory beside it still holds the pattern. */
static int is_logged(unsigned char pattern)
{
    size_t i;

    for (i = 0; i < MARGIN; i++)
        if (log_memory.bytes[i] != pattern || log_memory.bytes[MARGIN + sizeof(struct muntinorris_log) + i] != pattern)
            return 0;
    return memcmp(&lent->song.device, &logged.song.device, sizeof lent->song.device) == 0 &&
           memcmp(lent->song.order, logged.song.order, sizeof logged.song.order) == 0 &&
           memcmp(lent->song.most, logged.song.most, sizeof logged.song.most) == 0 &&
           lent->song.lines == logged.song.lines && lent->song.number == logged.song.number &&
           lent->line.count == logged.line.count &&
           memcmp(lent->line.bytes, logged.line.bytes, sizeof logged.line.bytes) == 0;
}

static void line_is(const char *text)
{
    memset(&logged.line, 0, sizeof logged.line);
    logged.line.count = strlen(text);
    memcpy(logged.line.bytes, text, strlen(text));
}

/* A part of the log, which answers this number and leaves the record that is wanted. */
static void part(const char *text, unsigned number, const char *what)
{
    check(muntinorris_log_part(lent, (const uint8_t *)text, strlen(text)) == number && is_logged(0xA5), what);
}

static int is_refused(struct muntinorris_mip_answer a, unsigned number, uint64_t line)
{
    return a.number == number && a.line == line && memcmp(a.bytes, zeros, sizeof zeros) == 0;
}

/* The message whose values are those of the record that is wanted. */
static int is_message(struct muntinorris_mip_answer a, uint64_t line)
{
    static const uint8_t head[] = {0xF0, 0x7F, 0x7F, 0x0B, 0x01};
    unsigned k;

    for (k = 0; k < 16; k++)
        if (a.bytes[5 + 2 * k] != logged.song.order[k] - 1 || a.bytes[6 + 2 * k] != logged.song.most[k])
            return 0;
    return a.number == 0 && a.line == line && memcmp(a.bytes, head, sizeof head) == 0 && a.bytes[37] == 0xF7;
}

static struct muntinorris_mip_answer whole(const char *text)
{
    return muntinorris_mip_from_log(order, sizeof order, (const uint8_t *)text, strlen(text));
}

static void log_begins(void)
{
    static const unsigned char patterns[] = {0x00, 0xFF, 0xA5};
    unsigned i;

    memset(&logged, 0, sizeof logged);
    muntinorris_start(&logged.song.device, 64, 0);
    logged.song.number = MUNTINORRIS_BAD_ORDER;
    for (i = 0; i < sizeof patterns; i++) {
        fill_log(patterns[i]);
        check(muntinorris_log_begin(lent, order, 15) == MUNTINORRIS_BAD_ORDER && is_logged(patterns[i]),
              "number 16 for fifteen channels");
    }
    line_is("x");
    part("b,1\nx", MUNTINORRIS_BAD_ORDER, "a part behind number 16");
    check(is_refused(muntinorris_log_end(lent), MUNTINORRIS_BAD_ORDER, 0), "the end behind number 16");
}

/* A log in parts, by what each leaves in the record; then each number, and parts behind one. */
static void log_parts(void)
{
    unsigned k;

    memcpy(logged.song.order, order, sizeof order);
    logged.song.number = 0;
    line_is("");
    check(muntinorris_log_begin(lent, order, sizeof order) == 0 && is_logged(0xA5), "order, and a log that is begun");
    check(is_message(muntinorris_log_end(lent), 0), "the message of no line");
    line_is("b,1");
    part("b,1", 0, "line.count and line.bytes");
    check(is_refused(muntinorris_log_end(lent), MUNTINORRIS_LOG_OTHER_FORM, 1) && is_logged(0xA5), "the end in a line");
    line_is("");
    logged.song.lines = 1;
    muntinorris_byte(&logged.song.device, 159);
    part("59\n", 0, "lines, and the device after a line");
    logged.song.lines = 3;
    muntinorris_byte(&logged.song.device, 60);
    muntinorris_byte(&logged.song.device, 64);
    for (k = 1; k < 16; k++)
        logged.song.most[k] = 1;
    part("b,60\nb,64\n", 0, "most, where channel 16 is second");
    part("", 0, "a part of no byte");
    check(muntinorris_log_part(lent, NULL, 0) == 0 && is_logged(0xA5), "a part of no byte in no memory");
    check(is_message(muntinorris_log_end(lent), 3) && is_logged(0xA5),
          "the message, and a record that it does not change");
    check(is_message(whole("b,159\nb,60\nb,64\n"), 3), "the message of a whole log");
    logged.song.lines = 4;
    muntinorris_report(&logged.song.device, 0);
    part("e,0\n", 0, "a report");
    logged.song.lines = 5;
    logged.song.number = MUNTINORRIS_LOG_OTHER_FORM;
    line_is("b,12345");
    part("b,256\nb,123456789", MUNTINORRIS_LOG_OTHER_FORM, "number 15, and a long line behind it");
    check(is_refused(muntinorris_log_end(lent), MUNTINORRIS_LOG_OTHER_FORM, 5), "the end behind number 15");
    line_is("");
    part("\ne,63\n", MUNTINORRIS_LOG_OTHER_FORM, "lines behind number 15");
    /* 17: the F7 is not played */
    memset(&logged, 0, sizeof logged);
    muntinorris_start(&logged.song.device, 64, 0);
    memcpy(logged.song.order, order, sizeof order);
    logged.song.lines = 6;
    logged.song.number = MUNTINORRIS_LOG_SPOILT;
    muntinorris_byte(&logged.song.device, 0xF0);
    muntinorris_byte(&logged.song.device, 0x7F);
    muntinorris_byte(&logged.song.device, 0x00);
    muntinorris_byte(&logged.song.device, 0x0B);
    muntinorris_byte(&logged.song.device, 0x01);
    check(muntinorris_log_begin(lent, order, sizeof order) == 0, "a log begun again");
    part("b,240\nb,127\nb,0\nb,11\nb,1\nb,247\nb,0\n", MUNTINORRIS_LOG_SPOILT, "number 17");
    check(is_refused(muntinorris_log_end(lent), MUNTINORRIS_LOG_SPOILT, 6), "the end behind number 17");
    check(is_refused(whole("b,240\nb,127\nb,127\nb,11\nb,1\nb,247\nb\n"), MUNTINORRIS_LOG_SPOILT, 6),
          "number 17 of a whole log");
    check(is_refused(whole("b,0\nx\n"), MUNTINORRIS_LOG_OTHER_FORM, 2), "number 15 of a whole log");
    check(is_refused(muntinorris_mip_from_log(NULL, 0, NULL, 0), MUNTINORRIS_BAD_ORDER, 0),
          "number 16 of a whole log, in no memory");
}

/* What is put at the header's places is what the calls read. */
static void log_is_read(void)
{
    unsigned k;

    fill_log(0xA5);
    muntinorris_log_begin(lent, order, sizeof order);
    for (k = 0; k < 16; k++) {
        lent->song.order[k] = logged.song.order[k] = 100 + k;
        lent->song.most[k] = logged.song.most[k] = 200 + k;
    }
    lent->song.lines = 0x0102030405060708;
    check(is_message(muntinorris_log_end(lent), 0x0102030405060708), "order, most and lines are read");
    lent->line.count = 1;
    check(is_refused(muntinorris_log_end(lent), MUNTINORRIS_LOG_OTHER_FORM, 0x0102030405060709), "line.count is read");
    lent->song.number = 99;
    check(is_refused(muntinorris_log_end(lent), 99, 0x0102030405060708), "number is read");
    check(muntinorris_log_part(lent, NULL, 0) == 99, "number is answered");
    /* `b,6` and `0` is the key of a note whose status the device has */
    muntinorris_log_begin(lent, order, sizeof order);
    lent->song.device.parser.status = 0x99;
    lent->line.count = 3;
    memcpy(lent->line.bytes, "b,6", 3);
    check(muntinorris_log_part(lent, (const uint8_t *)"0\nb,64\n", 7) == 0 && lent->song.most[0] == 1 &&
              lent->song.device.instrument.generators.key[0] == 60,
          "device and line.bytes are read");
}

/*
 * Of each struct its size, then of each field its place and size; the fields must fill it, so that none is left out
 * here.
 */
static size_t unlisted;
#define STRUCT(s) \
    (check(unlisted == 0, "every field of the struct before " #s " is listed"), \
     unlisted = sizeof(struct muntinorris_##s), line("%s %u\n", #s, (unsigned)unlisted))
#define FIELD(s, f) \
    (unlisted -= sizeof(((struct muntinorris_##s *)0)->f), \
     line("%s.%s %u %u\n", #s, #f, (unsigned)offsetof(struct muntinorris_##s, f), \
          (unsigned)sizeof(((struct muntinorris_##s *)0)->f)))

static int printing;

static void line(const char *form, ...)
{
    va_list words;

    va_start(words, form);
    if (printing)
        vprintf(form, words);
    va_end(words);
}

static void layout(void)
{
    STRUCT(device), FIELD(device, parser), FIELD(device, instrument);
    STRUCT(parser), FIELD(parser, status), FIELD(parser, count), FIELD(parser, bytes);
    STRUCT(instrument), FIELD(instrument, polyphony), FIELD(instrument, id), FIELD(instrument, table);
    FIELD(instrument, channels), FIELD(instrument, kind), FIELD(instrument, generators);
    STRUCT(table), FIELD(table, count), FIELD(table, entries);
    STRUCT(entry), FIELD(entry, channel), FIELD(entry, value);
    STRUCT(channel), FIELD(channel, program), FIELD(channel, modulation), FIELD(channel, volume), FIELD(channel, pan);
    FIELD(channel, expression), FIELD(channel, hold), FIELD(channel, rpn_msb), FIELD(channel, rpn_lsb);
    FIELD(channel, bend_msb), FIELD(channel, bend_lsb), FIELD(channel, sensitivity), FIELD(channel, bank_msb);
    FIELD(channel, bank_lsb);
    STRUCT(generators), FIELD(generators, state), FIELD(generators, channel), FIELD(generators, key);
    FIELD(generators, ages);
    STRUCT(ages), FIELD(ages, count), FIELD(ages, generator);
    STRUCT(answer), FIELD(answer, what), FIELD(answer, number), FIELD(answer, channel), FIELD(answer, key);
    FIELD(answer, generator), FIELD(answer, was);
    STRUCT(generator_answer), FIELD(generator_answer, number), FIELD(generator_answer, state);
    FIELD(generator_answer, channel), FIELD(generator_answer, key);
    STRUCT(mask_answer), FIELD(mask_answer, number), FIELD(mask_answer, masked);
    STRUCT(share_answer), FIELD(share_answer, number), FIELD(share_answer, share);
    STRUCT(pitch_answer), FIELD(pitch_answer, entry), FIELD(pitch_answer, octave), FIELD(pitch_answer, number);
    unlisted -= 2; /* padding */
    STRUCT(gains_answer), FIELD(gains_answer, left), FIELD(gains_answer, right), FIELD(gains_answer, number);
    unlisted -= 3; /* padding */
    STRUCT(song_answer), FIELD(song_answer, thefts), FIELD(song_answer, number), unlisted -= 3; /* padding */
    STRUCT(mip_answer), FIELD(mip_answer, line), FIELD(mip_answer, number), FIELD(mip_answer, bytes);
    unlisted -= 1; /* padding */
    STRUCT(log), FIELD(log, song), FIELD(log, line);
    STRUCT(logged), FIELD(logged, device), FIELD(logged, order), FIELD(logged, most), FIELD(logged, lines);
    FIELD(logged, number), unlisted -= 11; /* padding */
    STRUCT(log_line), FIELD(log_line, count), FIELD(log_line, bytes);
    check(unlisted == 0, "every field of the last struct is listed");
}

int main(int argc, char **argv)
{
    printing = argc > 1 && strcmp(argv[1], "print") == 0;
    layout();
    if (printing)
        return failures != 0;
    starts();
    fill(0xA5);
    parser();
    channels();
    kind();
    table();
    generators();
    ages_and_id();
    numbers();
    pages();
    pitches();
    gains();
    songs();
    log_begins();
    log_parts();
    log_is_read();
    if (failures == 0)
        printf("the record of %u bytes and that of a log, of %u, are the library's\n",
               (unsigned)sizeof(struct muntinorris_device), (unsigned)sizeof(struct muntinorris_log));
    return failures != 0;
}
