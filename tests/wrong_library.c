/*
 * A library that is wrong in one place: the proved one, whose functions are renamed to right_.., with one byte of what
 * it gives or leaves changed. tests/faults links it where the proved one belongs and sees the differential test fail.
 * The environment says where: WRONG is one of the words below, AT the byte of it, BY what is added to the byte, 1 if it
 * is not said. With the word `weight` it is the weight at place AT of the pan to which BY is added, and the test of the
 * weights must fail.
 */
#include <stdlib.h>
#include <string.h>
#include "muntinorris.h"

struct muntinorris_answer right_start(struct muntinorris_device *d, uint8_t polyphony, uint8_t id);
struct muntinorris_answer right_byte(struct muntinorris_device *d, uint8_t byte);
struct muntinorris_answer right_report(struct muntinorris_device *d, uint8_t generator);
struct muntinorris_generator_answer right_generator(const struct muntinorris_device *d, uint8_t generator);
struct muntinorris_mask_answer right_mask(const struct muntinorris_device *d, uint8_t channel);
struct muntinorris_share_answer right_share(const struct muntinorris_device *d, uint8_t channel);
uint8_t right_rhythm(const struct muntinorris_device *d, uint8_t channel);
uint8_t right_page(const struct muntinorris_device *d, uint8_t *page, size_t length);
struct muntinorris_pitch_answer right_pitch(uint8_t key, uint8_t sensitivity, uint16_t bend);
struct muntinorris_gains_answer right_gains(uint8_t expression, uint8_t volume, uint8_t pan);
struct muntinorris_gains_answer right_channel_gains(const struct muntinorris_channel *channel);
struct muntinorris_song_answer right_write_song(uint8_t polyphony, size_t n, uint8_t *song, size_t length);
uint8_t right_log_begin(struct muntinorris_log *log, const uint8_t *order, size_t n);
uint8_t right_log_part(struct muntinorris_log *log, const uint8_t *part, size_t n);
struct muntinorris_mip_answer right_log_end(const struct muntinorris_log *log);
struct muntinorris_mip_answer right_mip_from_log(const uint8_t *order, size_t n, const uint8_t *log, size_t length);

static unsigned long calls;

/* The environment is asked once: there are millions of calls. */
static int is_meant(const char *word)
{
    static const char *wrong;

    if (!wrong)
        wrong = getenv("WRONG") ? getenv("WRONG") : "";
    return strcmp(wrong, word) == 0;
}

/* From the thousandth byte on, so that there is something in the record. */
static int is_wrong(const char *word)
{
    return calls >= 1000 && is_meant(word);
}

static void change(void *thing)
{
    const char *at = getenv("AT"), *by = getenv("BY");

    ((unsigned char *)thing)[at ? atoi(at) : 0] += by ? atoi(by) : 1;
}

struct muntinorris_answer muntinorris_start(struct muntinorris_device *d, uint8_t polyphony, uint8_t id)
{
    struct muntinorris_answer a = right_start(d, polyphony, id);

    if (is_wrong("start"))
        change(&a);
    if (is_wrong("started"))
        change(d);
    return a;
}

struct muntinorris_answer muntinorris_byte(struct muntinorris_device *d, uint8_t byte)
{
    struct muntinorris_answer a = right_byte(d, byte);

    calls++;
    if (is_wrong("byte"))
        change(&a);
    if (is_wrong("record") ||
        (is_wrong("swallowing") && d->parser.status >= 0xF1 && d->parser.status <= 0xF3 && d->parser.count == 1) ||
        (is_wrong("rubbish") && d->instrument.polyphony > 64))
        change(d);
    if (is_wrong("stolen") && a.what == MUNTINORRIS_NOTE && a.was == MUNTINORRIS_WAS_STOLEN)
        a.was = MUNTINORRIS_WAS_RELEASE;
    return a;
}

struct muntinorris_answer muntinorris_report(struct muntinorris_device *d, uint8_t generator)
{
    struct muntinorris_answer a = right_report(d, generator);

    if (is_wrong("report"))
        change(&a);
    if (is_wrong("reported"))
        change(d);
    return a;
}

struct muntinorris_generator_answer muntinorris_generator(const struct muntinorris_device *d, uint8_t generator)
{
    struct muntinorris_generator_answer a = right_generator(d, generator);

    if (is_wrong("generator"))
        change(&a);
    return a;
}

struct muntinorris_mask_answer muntinorris_mask(const struct muntinorris_device *d, uint8_t channel)
{
    struct muntinorris_mask_answer a = right_mask(d, channel);

    if (is_wrong("mask"))
        change(&a);
    return a;
}

struct muntinorris_share_answer muntinorris_share(const struct muntinorris_device *d, uint8_t channel)
{
    struct muntinorris_share_answer a = right_share(d, channel);

    if (is_wrong("share"))
        change(&a);
    return a;
}

uint8_t muntinorris_rhythm(const struct muntinorris_device *d, uint8_t channel)
{
    uint8_t a = right_rhythm(d, channel);

    if (is_wrong("rhythm") || (d->instrument.polyphony > 64 && is_meant("rhythm of rubbish")))
        change(&a);
    return a;
}

/*
 * It waits for no byte: there is a page at the start already. AT counts from the beginning of the buffer, and from its
 * end where memory behind it is meant, from the page's end where the buffer behind that is. No record of ours has a
 * polyphony above 64.
 */
uint8_t muntinorris_page(const struct muntinorris_device *d, uint8_t *page, size_t length)
{
    uint8_t number = right_page(d, page, length);
    long at = getenv("AT") ? atol(getenv("AT")) : 0;
    int rubbish = d->instrument.polyphony > 64, nowhere = length == 0 && (uintptr_t)page < 8192;

    if (length > 0 && is_meant(number == 0 ? "memory by a page" : "memory by a refused page"))
        change(at < 0 ? page : page + length);
    if (number == 0 && is_meant("written page"))
        change(page);
    if (number == 0 && at >= 0 && (size_t)at < length - MUNTINORRIS_PAGE_BYTES && is_meant("buffer behind a page"))
        change(page + MUNTINORRIS_PAGE_BYTES);
    if (number != 0 && at >= 0 && (size_t)at < length && is_meant("buffer of a refused page"))
        change(page);
    if (rubbish && length > MUNTINORRIS_PAGE_BYTES && is_meant("page of rubbish"))
        change(page);
    if (is_meant("record of a page") || (rubbish && is_meant("record of a page of rubbish")) ||
        (nowhere && is_meant("record of a page nowhere")))
        change((void *)d);
    if (is_meant(number == 0 ? "number of a page" : "number of a refused page") ||
        (nowhere && is_meant("number of a page nowhere")) ||
        (rubbish && is_meant(number == 0 ? "number of a page of rubbish" : "number of a refused page of rubbish")))
        change(&number);
    return number;
}

/* It has no record, and so waits for no byte. */
struct muntinorris_pitch_answer muntinorris_pitch(uint8_t key, uint8_t sensitivity, uint16_t bend)
{
    struct muntinorris_pitch_answer a = right_pitch(key, sensitivity, bend);

    if (is_meant(a.number == 0 ? "pitch" : "refused pitch"))
        change(&a);
    return a;
}

/* What another weight at one place of the table makes of a gain. */
static void weigh(struct muntinorris_gains_answer *a, uint8_t expression, uint8_t volume, uint8_t pan)
{
    double level = (double)expression * expression * volume * volume / (127.0 * 127 * 127 * 127);
    int at = atoi(getenv("AT")), place = pan ? pan - 1 : 0;

    a->left += at == 126 - place ? level * atoi(getenv("BY")) / 32768 : 0;
    a->right += at == place ? level * atoi(getenv("BY")) / 32768 : 0;
}

/* As a pitch. */
struct muntinorris_gains_answer muntinorris_gains(uint8_t expression, uint8_t volume, uint8_t pan)
{
    struct muntinorris_gains_answer a = right_gains(expression, volume, pan);

    if (a.number == 0 && is_meant("weight"))
        weigh(&a, expression, volume, pan);
    if (is_meant(a.number == 0 ? "gains" : "refused gains"))
        change(&a);
    return a;
}

/* A lone channel is one of no record: no message brings a program above 127. */
struct muntinorris_gains_answer muntinorris_channel_gains(const struct muntinorris_channel *channel)
{
    struct muntinorris_gains_answer a = right_channel_gains(channel);
    int lone = channel->program > 127;

    if (is_meant(a.number == 0 ? "channel gains" : "refused channel gains") ||
        (lone && a.number == 0 && is_meant("lone channel gains")))
        change(&a);
    if (is_meant("written channel") || (lone && is_meant("written lone channel")))
        change((void *)channel);
    return a;
}

/*
 * As a pitch. AT counts from the beginning of the buffer, and from its end where memory behind it is meant, from the
 * song's end where the buffer behind that is.
 */
struct muntinorris_song_answer muntinorris_write_song(uint8_t polyphony, size_t n, uint8_t *song, size_t length)
{
    struct muntinorris_song_answer a = right_write_song(polyphony, n, song, length);
    long at = getenv("AT") ? atol(getenv("AT")) : 0;
    size_t left = a.number == 0 ? length - n : 0;

    if (length > 0 && is_meant(a.number == 0 ? "memory by a song" : "memory by a refused song"))
        change(at < 0 ? song : song + length);
    if (a.number == 0 && at >= 0 && (size_t)at < n && is_meant("written song"))
        change(song);
    if (at >= 0 && (size_t)at < left && is_meant("buffer behind a song"))
        change(song + n);
    if (a.number != 0 && at >= 0 && (size_t)at < length &&
        is_meant(a.number == 1 ? "buffer of a song of a wrong P" : "buffer of a song too long"))
        change(song);
    if (is_meant(a.number == 0 ? "song" : a.number == 1 ? "song of a wrong P" : "song too long"))
        change(&a);
    return a;
}

/* Something that is only lent for reading, if it is long enough. */
static void write_lent(const char *word, const uint8_t *bytes, size_t n)
{
    long at = getenv("AT") ? atol(getenv("AT")) : 0;

    if (at >= 0 && (size_t)at < n && is_meant(word))
        change((void *)bytes);
}

/* As a pitch: a log has a record, but what is wrong in it shows at once. */
uint8_t muntinorris_log_begin(struct muntinorris_log *log, const uint8_t *order, size_t n)
{
    uint8_t number = right_log_begin(log, order, n);

    write_lent("written order", order, n);
    if (is_meant("begun log"))
        change(log);
    if (is_meant(number == 0 ? "log begin" : "refused log begin"))
        change(&number);
    return number;
}

/* No log of ours has a polyphony above 64. */
uint8_t muntinorris_log_part(struct muntinorris_log *log, const uint8_t *part, size_t n)
{
    uint8_t number = right_log_part(log, part, n);

    write_lent("written part", part, n);
    if (is_meant("read log") || (number != 0 && is_meant("read refused log")) ||
        (is_meant("rubbish log") && log->song.device.instrument.polyphony > 64))
        change(log);
    if (is_meant(number == 0 ? "log part" : "refused log part"))
        change(&number);
    return number;
}

struct muntinorris_mip_answer muntinorris_log_end(const struct muntinorris_log *log)
{
    struct muntinorris_mip_answer a = right_log_end(log);

    if (is_meant("ended log"))
        change((void *)log);
    if (is_meant(a.number == 0 ? "log end" : "refused log end"))
        change(&a);
    return a;
}

struct muntinorris_mip_answer muntinorris_mip_from_log(const uint8_t *order, size_t n, const uint8_t *log,
                                                       size_t length)
{
    struct muntinorris_mip_answer a = right_mip_from_log(order, n, log, length);

    write_lent("written order of a whole log", order, n);
    write_lent("written whole log", log, length);
    if (is_meant(a.number == 0 ? "mip from log" : "refused mip from log"))
        change(&a);
    return a;
}
