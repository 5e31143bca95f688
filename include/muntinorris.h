/*
 * Muntinorris: a note allocator for sound modules of scalable polyphony, for C and C++.
 *
 * Who owns what. The caller owns the records, struct muntinorris_device and struct muntinorris_log, and keeps them in
 * any memory: static, automatic or allocated. The library has no state of its own, allocates nothing, keeps no pointer
 * after a call returns, and writes nothing but the record or the buffer that it is lent. A record may be copied by
 * assignment; the copy is a device, or a log, of its own.
 *
 * Calls. muntinorris_start makes the record of a device and muntinorris_log_begin that of a log, whatever the memory
 * held before. Every other call that is lent a record wants one that was made so and that only these calls have written
 * since; on a record with other contents it still returns, and writes no memory but what it is lent to write, but the
 * answer means nothing. (A pitch, gains by their numbers, a song and the message of a whole log need no record; the
 * gains of a channel mean what they say for any thirteen bytes.) One record is used by one thread at a time; two
 * records never touch each other.
 *
 * A NULL or misaligned pointer, or one to less memory than the struct or the length that is lent, is the caller's error
 * and is not tested for, and so is an overlap of what is lent for reading with what the same call writes; with length 0
 * the pointer to bytes is not looked at. (The record of a device is made of bytes alone, so its alignment is 1 and
 * every address is aligned for it. That of a log holds a uint64_t and has its alignment: 8 on x86-64.)
 *
 * What a driver does with an answer. Generators change with MUNTINORRIS_DONE and MUNTINORRIS_NOTE and with no other
 * answer. A note's answer names its own generator; which others are to be released or muted stands in the record alone.
 * So keep a copy of instrument.generators.state, all MUNTINORRIS_STATE_IDLE behind a start, and compare it after these
 * two answers, from generator 0 to polyphony - 1:
 *
 *     it was not releasing and is    release it: its key came up, the pedal was lifted, one of the controllers 123 to
 *                                    127, a mask or a change of channel 11's kind ended it, or its key was struck
 *                                    again (step 2 of a note-on)
 *     it was not idle and is         mute it at once: controller 120, a reset, another drum of its group on its
 *                                    channel (step 3; on channel 11 also what still rings of its melody time), or the
 *                                    report that you have just made
 *     it was held and is sustained   nothing: it sounds on
 *     it has the note of the answer  cut off what it plays and begin the note, whatever it was: the answer says what it
 *                                    was behind steps 2 and 3, so that one that was idle may have sounded until this
 *                                    call, and one that was releasing may have been held
 *
 * The velocity of a note is the byte of the very call that answered MUNTINORRIS_NOTE, also under running status;
 * neither an answer nor the record has it. What a channel's other messages set is in instrument.channels after their
 * MUNTINORRIS_DONE.
 *
 * Reports. Call muntinorris_report when a sound has ended, a released one or a drum, but not one that you muted or cut
 * off. Drums above all: a drum's note-off changes nothing, so that its generator stays busy, and counts for its
 * channel, until its end is reported, its key or another of its group is struck, it is stolen, or one of the
 * controllers 120 and 123 to 127, a mask, a reset or, on channel 11, a change of kind ends it. A releasing generator
 * that is not reported is taken again only where none is idle.
 *
 * A report names a generator and not a note. One that comes late, when the generator has a new note already, ends the
 * NEW note and answers MUNTINORRIS_DONE; number 13 comes only where it is idle. So count the notes that were begun on
 * each generator, have the tone generator give that count back with the end, and drop a report whose count is not the
 * last one. Where bytes and reports come from two threads, compare and report under the lock that muntinorris_byte is
 * called under.
 *
 * Modes. The device has one, MIDI 1.0's mode 3 (omni off, poly). Controllers 124 to 127, which elsewhere choose one,
 * end the notes of their channel as 123 does, whatever their value. 120, 121 and 123 act with value 0 only. Rules R6.10
 * to R6.13.
 *
 * Rhythm channels. Channel 10 is one always, channel 11 where a program change made it one: with bank MSB (controller
 * 0) 120 it becomes a rhythm channel and with 121 one of melody; any other MSB leaves it what it is. It starts, and a
 * GM System On leaves it, as melody. Where it really changes, that program change releases what channel 11 holds and
 * sustains. Ask muntinorris_rhythm, or look at instrument.kind, when a note begins, and keep the answer with the note,
 * which may ring on after a change. Who keeps a copy of the kind compares it after each MUNTINORRIS_DONE and each
 * start, and copies program and bank of the channel then: a later Bank Select overwrites the bank before its own
 * program change comes. The banks of all other channels are stored for you, and mean nothing here. Rules R5.12, R6.15,
 * R6.16.
 *
 * The machine. libmuntinorris.a is for programs on x86-64 Linux, on any such processor. It is some 48 KB of code and
 * constants, has no data, and calls memcpy and memset of the C library and nothing else. A byte takes up to some 3.4 KB
 * of stack, a report 1.6 KB; calls that take more say so below, and docs/PERFORMANCE.md has all figures. Those of the
 * stack were measured on the build of an older kit.
 *
 * Channels are 1 to 16, as musicians count them; the wire carries the channel minus 1. What the device does is written
 * as numbered rules in the repository's docs/RULES.md: a rule has a number such as R5.9, and number n below is rule
 * R8.n there. Every call is proved to give exactly the answer and the record of its definition in specs/, for every
 * input; of gains, which are floats, an answer within the definition's bound. That the definitions say what the rules
 * say is for readers to judge: each cites its rules, and docs/TRACE.md puts them side by side.
 */
#ifndef MUNTINORRIS_H
#define MUNTINORRIS_H

#include <stddef.h>
#include <stdint.h>

#ifdef __cplusplus
extern "C" {
#endif

/* ---- answers ---- */

/* What an answer is. */
#define MUNTINORRIS_NONE 0   /* the byte completed nothing that counts */
#define MUNTINORRIS_DONE 1   /* any other complete channel message, an accepted MIP message or reset, an accepted
                              * report, a good start */
#define MUNTINORRIS_NOTE 2   /* a note sounds: its channel and key, its generator, and what the generator was */
#define MUNTINORRIS_NUMBER 3 /* the number says what was wrong */

/* What the generator of a note was. */
#define MUNTINORRIS_WAS_IDLE 0
#define MUNTINORRIS_WAS_RELEASE 1 /* it was releasing: its note had ended */
#define MUNTINORRIS_WAS_STOLEN 2  /* it was busy: its note is lost. Of the channel that loses it was the oldest
                                   * sustained one or, where that had none, the oldest held one (R5.9) */

/* The numbers, and what each leaves behind: rules R8.1 to R8.25. */
#define MUNTINORRIS_BAD_POLYPHONY 1      /* start, song: the polyphony is not 1 to 64. A start leaves a fresh record of
                                          * polyphony 1 and own ID 0, a song the buffer as it was */
#define MUNTINORRIS_BAD_ID 2             /* start: the own ID is above 126. The same */
#define MUNTINORRIS_STRAY_DATA 3         /* a data byte with no status, SysEx or swallowing. No change */
#define MUNTINORRIS_SYSEX_CUT 4          /* a SysEx was cut by a status below F7. The SysEx is dropped, the status
                                          * taken */
#define MUNTINORRIS_MIP_TOO_LONG 5       /* MIP: over 32 bytes after 0B 01. The SysEx is ended and the table kept, as
                                          * with 6 to 9 */
#define MUNTINORRIS_MIP_NO_PAIRS 6       /* MIP: none, or an odd number */
#define MUNTINORRIS_MIP_BAD_CHANNEL 7    /* MIP: a channel byte above 15 */
#define MUNTINORRIS_MIP_LISTED_TWICE 8   /* MIP: a channel listed twice */
#define MUNTINORRIS_MIP_FALLING 9        /* MIP: a value below the one before */
#define MUNTINORRIS_MASKED 10            /* note-on: the channel is masked. The message is consumed, no more */
#define MUNTINORRIS_NOTHING_TO_STEAL 11  /* note-on: the channel that must give way has no busy generator. As 10 */
#define MUNTINORRIS_NO_SUCH_GENERATOR 12 /* report or query: the generator's number is the polyphony or above. No
                                          * change */
#define MUNTINORRIS_ALREADY_IDLE 13      /* report: the generator is idle. No change */
#define MUNTINORRIS_NO_SUCH_CHANNEL 14   /* mask or share query: the channel is not 1 to 16. No change */
#define MUNTINORRIS_LOG_OTHER_FORM 15    /* log: a line is of another form. The record of the log is as it was before
                                          * that line, which is counted; 38 zeros for the message, as with 16 and 17 */
#define MUNTINORRIS_BAD_ORDER 16         /* log: the order is not all sixteen channels once; the log is not looked at. A
                                          * fresh device of polyphony 64 and own ID 0, and zeros */
#define MUNTINORRIS_LOG_SPOILT 17        /* log: a line ends a MIP message for device 7F or 0, or a note is lost at
                                          * it (a theft, or number 11). As 15: the device has not played the line */
#define MUNTINORRIS_PAGE_TOO_SHORT 18    /* page: the buffer has fewer than 323 bytes. It is untouched */
#define MUNTINORRIS_BAD_PITCH 21         /* pitch: key above 127, sensitivity above 24 or bend above 16383. Entry 65536
                                          * and octave 0 */
#define MUNTINORRIS_BAD_LEVEL 24         /* gains: expression, volume or pan above 127. Both gains 0 */
#define MUNTINORRIS_SONG_TOO_LONG 25     /* song: above 65,536 bytes or longer than the buffer, and the polyphony is 1
                                          * to 64. The buffer is untouched */

/*
 * The answer to a start, a byte or a report. number has a meaning with MUNTINORRIS_NUMBER; channel (1 to 16) and key (0
 * to 127) with MUNTINORRIS_NOTE and with the numbers 10 and 11; generator and was with MUNTINORRIS_NOTE. A field
 * without meaning is 0.
 */
struct muntinorris_answer {
    uint8_t what;      /* MUNTINORRIS_NONE, _DONE, _NOTE or _NUMBER */
    uint8_t number;    /* 1 to 14 */
    uint8_t channel;
    uint8_t key;
    uint8_t generator; /* 0 to polyphony - 1 */
    uint8_t was;       /* MUNTINORRIS_WAS_IDLE, _RELEASE or _STOLEN */
};

/* The answers to queries. number is 0, or 12 or 14 where the query was refused, and then the other fields are 0. */
struct muntinorris_generator_answer {
    uint8_t number;
    uint8_t state;   /* MUNTINORRIS_STATE_.. */
    uint8_t channel; /* 1 to 16, 0 while idle */
    uint8_t key;     /* 0 to 127, 0 while idle */
};

struct muntinorris_mask_answer {
    uint8_t number;
    uint8_t masked; /* 1 masked, 0 not */
};

struct muntinorris_share_answer {
    uint8_t number;
    uint8_t share; /* 0 where the channel is masked */
};

/*
 * A pitch: entry times 2 to the power of octave. entry goes from 65536 to 130599 in 192 steps of a sixteenth of a
 * semitone, so that key 0 without bend is octave 0 and 65536, and key 12 octave 1 and 65536. number is 0, or 21 where
 * the call was refused, and then entry is 65536 and octave 0. (Two bytes of padding behind number.)
 */
struct muntinorris_pitch_answer {
    uint32_t entry;
    int8_t octave; /* -2 to 12 */
    uint8_t number;
};

/*
 * The gains of a channel: what the mixer multiplies its samples by, left and right. Each is a number from 0 to 1,
 * neither more nor -0, within one millionth of the exact fraction, and 0 where that is 0. number is 0, or 24 where the
 * call was refused, and then both gains are 0. The processor's rounding mode is taken to be the usual one, to the
 * nearest. (Three bytes of padding behind number.)
 */
struct muntinorris_gains_answer {
    float left;
    float right;
    uint8_t number;
};

/*
 * The thefts of a song. number is 0, or 1 or 25 where the call was refused, and then thefts is 0. (Three bytes of
 * padding behind number.)
 */
struct muntinorris_song_answer {
    uint32_t thefts;
    uint8_t number;
};

/*
 * The message of a log: F0 7F 7F 0B 01, then for each channel of the order the channel minus 1 and its value, then F7.
 * number is 0, or 15, 16 or 17, and then bytes are 38 zeros. (One byte of padding behind bytes.)
 */
struct muntinorris_mip_answer {
    uint64_t line; /* the last line that was looked at, from 1: where the number fell, or with number 0 how many there
                    * are; 0 with 16. (Above 2^64 - 1 as that.) */
    uint8_t number;
    uint8_t bytes[38];
};

/* ---- the record ---- */

/* The state of a generator. HELD and SUSTAINED are busy, IDLE alone makes no sound. */
#define MUNTINORRIS_STATE_IDLE 0
#define MUNTINORRIS_STATE_HELD 1      /* its note is on: its key is down, or it is a drum */
#define MUNTINORRIS_STATE_SUSTAINED 2 /* its key is up and the pedal down */
#define MUNTINORRIS_STATE_RELEASING 3

/* The kind of channel 11. */
#define MUNTINORRIS_MELODY 0
#define MUNTINORRIS_RHYTHM 1 /* a rhythm channel, as channel 10 is always */

/*
 * Between two bytes: the status byte in force, 0 for none, the number of data bytes since (of a SysEx at most 37), and
 * these bytes.
 */
struct muntinorris_parser {
    uint8_t status;
    uint8_t count;
    uint8_t bytes[37];
};

/* A channel of the MIP table, 1 to 16, and the polyphony needed by it and all before it. */
struct muntinorris_entry {
    uint8_t channel;
    uint8_t value;
};

/* The MIP table: its first `count` entries, by falling priority; the others are 0. */
struct muntinorris_table {
    uint8_t count;
    struct muntinorris_entry entries[16];
};

/* The thirteen numbers of a channel. The bank is 121 and 0 at a start, 120 and 0 on channel 10. */
struct muntinorris_channel {
    uint8_t program;
    uint8_t modulation;
    uint8_t volume;
    uint8_t pan;
    uint8_t expression;
    uint8_t hold;
    uint8_t rpn_msb;
    uint8_t rpn_lsb;
    uint8_t bend_msb;
    uint8_t bend_lsb;
    uint8_t sensitivity;
    uint8_t bank_msb; /* controller 0 */
    uint8_t bank_lsb; /* controller 32 */
};

/*
 * The order of assignment: the first `count` numbers are the sounding generators, the oldest first; the others are 0.
 */
struct muntinorris_ages {
    uint8_t count;
    uint8_t generator[64];
};

/* The generators by their number: state, channel (1 to 16) and key; those from the polyphony on stay idle. */
struct muntinorris_generators {
    uint8_t state[64];
    uint8_t channel[64];
    uint8_t key[64];
    struct muntinorris_ages ages;
};

/* All but the parser. channels is indexed by the channel minus 1. */
struct muntinorris_instrument {
    uint8_t polyphony; /* 1 to 64 */
    uint8_t id;        /* own device ID, 0 to 126 */
    struct muntinorris_table table;
    struct muntinorris_channel channels[16];
    uint8_t kind; /* of channel 11: MUNTINORRIS_MELODY or _RHYTHM */
    struct muntinorris_generators generators;
};

/* The device record, 540 bytes without padding. Anyone may read it; only the calls below write it. */
struct muntinorris_device {
    struct muntinorris_parser parser;
    struct muntinorris_instrument instrument;
};

/* ---- the record of a log ---- */

/*
 * The line that is not ended: its first seven bytes, and how many of these there are; the other places are 0. (No line
 * of an event has more than six.)
 */
struct muntinorris_log_line {
    uint8_t count;
    uint8_t bytes[7];
};

/*
 * The log up to its last 0AH. Where a number has fallen, device, order and most are as they were before the line that
 * it fell at, and nothing behind that line is looked at; with 16 the device is fresh and the rest zeros. (Where
 * uint64_t has alignment 8: 4 bytes of padding before lines and 7 behind number, 592 bytes.)
 */
struct muntinorris_logged {
    struct muntinorris_device device; /* polyphony 64, own ID 0, after the lines so far */
    uint8_t order[16];                /* the channels, 1 to 16, by falling priority; zeros where the order was
                                       * refused */
    uint8_t most[16];                 /* for each place of the order: the largest number of busy generators, after a
                                       * line so far, on the channels up to it */
    uint64_t lines;                   /* lines looked at so far, the one that a number fell at included. (Above 2^64 - 1
                                       * as that.) */
    uint8_t number;                   /* 0, or 15, 16 or 17, the number that fell */
};

/*
 * A log as far as it was given, 600 bytes where uint64_t has alignment 8. Anyone may read it; only the calls below
 * write it. What stands in the padding is not said: compare two logs field by field. A byte of the log goes into line,
 * which each 0AH empties; so it does behind a number too, and changes nothing else there.
 */
struct muntinorris_log {
    struct muntinorris_logged song;
    struct muntinorris_log_line line;
};

/* ---- calls ---- */

/*
 * Makes the record a fresh device: MUNTINORRIS_DONE, or number 1 or 2, after which it is a working device of polyphony
 * 1 and own ID 0. Rules R1.10, R8.1 and R8.2.
 */
struct muntinorris_answer muntinorris_start(struct muntinorris_device *d, uint8_t polyphony, uint8_t id);

/* A MIDI byte: MUNTINORRIS_NONE, _DONE, _NOTE, or number 3 to 11. Sections 2 to 6 of the rules. */
struct muntinorris_answer muntinorris_byte(struct muntinorris_device *d, uint8_t byte);

/*
 * The tone generator reports that a generator's sound has ended: MUNTINORRIS_DONE, or number 12 or 13. Whatever note
 * the generator has at this call is ended, one that began after that sound too: see "Reports" above. Rules R7.1, R7.2.
 */
struct muntinorris_answer muntinorris_report(struct muntinorris_device *d, uint8_t generator);

/* Queries: they change nothing (R7.3 to R7.7). Number 12 where there is no such generator. */
struct muntinorris_generator_answer muntinorris_generator(const struct muntinorris_device *d, uint8_t generator);

/* Number 14 where the channel is not 1 to 16. */
struct muntinorris_mask_answer muntinorris_mask(const struct muntinorris_device *d, uint8_t channel);
struct muntinorris_share_answer muntinorris_share(const struct muntinorris_device *d, uint8_t channel);

/*
 * Whether it is a rhythm channel: 1 for channel 10, and for channel 11 where its kind is MUNTINORRIS_RHYTHM; 0 for any
 * other and for what is no channel. It refuses nothing. R7.7.
 */
uint8_t muntinorris_rhythm(const struct muntinorris_device *d, uint8_t channel);

/*
 * The service page: the state of the device as text, in the first 323 bytes of the buffer; its other bytes stay, and no
 * 0 byte is put behind the text. It has 17 lines, each of 18 ASCII characters and a line end, 0AH. Under the head
 *
 *     CH PR VAL SHR M NT
 *
 * stand channels 1 to 16, a line each: the channel, its place in the order of the MIP table (from 1), its value there,
 * its share, `M` if it is masked and `-` if not, and how many generators are busy with it, held or sustained. A number
 * stands at the right of its field, behind blanks. A channel that the table doesn't list has `--` and `---` for place
 * and value, and one that is masked `---` for its share; a channel that is listed and masked has its place and its
 * value.
 *
 * The caller owns record and buffer and lends them for the call: the record is read and not changed, and the two must
 * not overlap. length is the buffer's, in bytes. 0, or number 18. Section 15 of the rules.
 */
#define MUNTINORRIS_PAGE_BYTES 323
uint8_t muntinorris_page(const struct muntinorris_device *d, uint8_t *page, size_t length);

/*
 * The pitch of a key, 0 to 127, with the sensitivity of its channel in semitones, 0 to 24, and the bend, 0 to 16383
 * with centre 8192, which is 128 * bend_msb + bend_lsb of the channel in the record. It is lent nothing and needs no
 * start. Number 21 where one of the three is out of range. Of two pitches, the one of the higher position, in
 * sixteenths of a semitone, is the higher; a full bend up, 16383, is a sixteenth short of the sensitivity. Section 11.
 */
struct muntinorris_pitch_answer muntinorris_pitch(uint8_t key, uint8_t sensitivity, uint16_t bend);

/*
 * The gains of a channel with this expression, volume and pan, each 0 to 127: (expression / 127) squared, times (volume
 * / 127) squared, times the weight of the pan. Pan 0 and 1 are full left (at full level 1, to a millionth, and 0), 64
 * is the centre (0.70709 each), 127 full right; the squares of the two weights come to 1, to 5 parts in 100,000. It is
 * lent nothing and needs no start. Number 24 where one of the three is above 127. Section 12 of the rules.
 */
struct muntinorris_gains_answer muntinorris_gains(uint8_t expression, uint8_t volume, uint8_t pan);

/*
 * The same by a channel's numbers in the record: &d->instrument.channels[channel - 1], with channel 1 to 16. The struct
 * is lent for the call, read and not written; a copy of it serves as well. Ask again after a message that changes one
 * of the three: controllers 7, 10 and 11, controller 121, a GM System On.
 */
struct muntinorris_gains_answer muntinorris_channel_gains(const struct muntinorris_channel *c);

/*
 * The hardest song of n bytes, 0 to 65,536, for a fresh device of this polyphony: it goes into the first n bytes of the
 * buffer, whose other bytes stay. The caller owns the buffer and lends it for the call; length is all that it has, and
 * with length 0 the pointer is not looked at. Each byte is played as it is written, on a device that the call makes for
 * itself, and thefts counts the note-ons that were answered MUNTINORRIS_WAS_STOLEN. They come to (n - 1) / 2, rounded
 * down, less the polyphony, and to 0 up to n = 2 * polyphony + 2; without reports no n bytes make more, whatever they
 * are. It takes some 7 KB of stack (x86-64). The song is 90H, and then for j = 0, 1, 2, .. key j mod 128 and
 * velocity 64. Number 1, else 25. Section 13 of the rules.
 */
struct muntinorris_song_answer muntinorris_write_song(uint8_t polyphony, size_t n, uint8_t *song, size_t length);

/*
 * The MIP message of a song, from its log and an order of all sixteen channels, 1 to 16, by falling priority. A line of
 * the log is a MIDI byte, `b,` and 0 to 255, or the report of a generator, `e,` and 0 to 63, in decimal without leading
 * zeros (`b,144`, `e,7`), and ends with 0AH. The log is played on a fresh device of polyphony 64 and own ID 0, whose
 * numbers up to 10, and 13, do not stop it. The value of a channel is the largest number of generators that were busy
 * together, after some line, on it and the channels before it in the order. Section 14 of the rules.
 *
 * Begins a log with this order of n channels, and makes its record: 0, or number 16. The caller owns the record and
 * lends it to this call and to the two below; the order is lent for this call.
 */
uint8_t muntinorris_log_begin(struct muntinorris_log *log, const uint8_t *order, size_t n);

/*
 * One part more of the log, of any length (0 too), cut anywhere, inside a line as well: the log may be longer than
 * memory. Answers the number that has fallen so far, 15, 16 or 17, or 0; behind a number nothing is looked at any more,
 * and no further part is needed. The part is lent for the call. It takes some 12 KB of stack (x86-64).
 */
uint8_t muntinorris_log_part(struct muntinorris_log *log, const uint8_t *part, size_t n);

/*
 * The message of the log as far as it was given: however it was cut, the one that muntinorris_mip_from_log gives for
 * all its parts together. A last line without 0AH is of another form, number 15; an empty log is right, and all its
 * values are 0. The record is read and not changed: the log may be gone on with.
 */
struct muntinorris_mip_answer muntinorris_log_end(const struct muntinorris_log *log);

/*
 * All in one: the order of n channels, and the whole log of length bytes. Number 16 before 15 and 17; of these the
 * earlier line decides. It takes some 12 KB of stack (x86-64).
 */
struct muntinorris_mip_answer muntinorris_mip_from_log(const uint8_t *order, size_t n, const uint8_t *log,
                                                       size_t length);

#ifdef __cplusplus
}
#endif

#endif
