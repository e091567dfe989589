#include "plain.h"

#include <string.h>

enum { IDLE, HEAD, BODY };
enum { FILLER = 3, START = 12, NONE = 13, UNDECODABLE = 16, DATA = 40, MOST_ROWS = 25 };

static uint8_t nibble[256], harm[256];      /* what a byte decodes to; 1 where it isn't an image */
static const uint8_t image[16] = {
    0x15, 0x02, 0x49, 0x5E, 0x64, 0x73, 0x38, 0x2F, 0xD0, 0xC7, 0x8C, 0x9B, 0xA1, 0xB6, 0xFD, 0xEA,
};

void plain_begin(void)
{
    memset(nibble, UNDECODABLE, sizeof nibble);
    memset(harm, 1, sizeof harm);
    for (unsigned n = 0; n < 16; n++) {
        nibble[image[n]] = (uint8_t)n;
        harm[image[n]] = 0;
        for (unsigned bit = 0; bit < 8; bit++)
            nibble[image[n] ^ 1u << bit] = (uint8_t)n;
    }
}

/* --- The reader ----------------------------------------------------------------- */

void plain_fresh(struct plain_reader *reader)
{
    memset(reader, 0, sizeof *reader);
    reader->index = 15;
}

static void drop(struct plain_reader *r, struct plain_heard *heard)
{
    if (r->run != IDLE) {
        r->run = IDLE;
        heard->dropped = 1;
    }
}

static int finished(const struct plain_reader *r)
{
    return r->run == BODY && r->held == r->head >> 5;
}

static void hand_out(struct plain_reader *r, struct plain_heard *heard, uint8_t *out)
{
    uint8_t *to = out + heard->written;
    to[0] = (uint8_t)r->head;
    to[1] = (uint8_t)(r->head >> 8);
    to[2] = r->part;
    to[3] = r->joined;
    memcpy(to + PLAIN_HEAD, r->store, r->held);
    heard->written += (uint16_t)(PLAIN_HEAD + r->held);
    heard->blocks++;
    r->run = IDLE;
}

/* The running block takes what it needs from d[at] up to d[end]; the place after it. */
static unsigned fill(struct plain_reader *r, struct plain_heard *heard, const uint8_t *d, unsigned at, unsigned end)
{
    while (r->run == HEAD && at < end) {
        unsigned n = nibble[d[at]];
        if (n == UNDECODABLE) {
            drop(r, heard);
            return at;
        }
        r->head = (uint16_t)(r->head >> 4 | n << 12);
        r->part = (uint8_t)(r->part + harm[d[at]]);
        if (++r->got == 4) {
            r->run = BODY;
            r->held = 0;
        }
        at++;
    }
    if (r->run == BODY) {
        unsigned need = (r->head >> 5) - r->held, some = end - at < need ? end - at : need;
        memcpy(r->store + r->held, d + at, some);
        r->held += (uint16_t)some;
        at += some;
    }
    return at;
}

static void go_on(struct plain_reader *r, struct plain_heard *heard, const uint8_t *d, unsigned pointed, uint8_t *out)
{
    unsigned at = fill(r, heard, d, 1, pointed);
    if (pointed == DATA) {              /* pointer 13: what follows a finished block isn't read */
        if (finished(r))
            hand_out(r, heard, out);
        return;
    }
    if (r->run == IDLE)
        return;
    while (at < pointed && nibble[d[at]] == FILLER)
        at++;
    if (at == pointed && finished(r))
        hand_out(r, heard, out);
    else
        drop(r, heard);
}

static void starts(struct plain_reader *r, struct plain_heard *heard, const uint8_t *d, unsigned at, uint8_t *out)
{
    for (;;) {
        while (at < DATA && nibble[d[at]] == FILLER)
            at++;
        if (at == DATA || nibble[d[at]] != START)
            return;
        r->run = HEAD;
        r->got = 0;
        r->head = 0;
        r->part = harm[d[at]];
        r->joined = 0;
        at = fill(r, heard, d, at + 1, DATA);
        if (!finished(r))
            return;
        hand_out(r, heard, out);
    }
}

static void row(struct plain_reader *r, struct plain_heard *heard, unsigned y, const uint8_t *d, uint8_t *out)
{
    unsigned pointer = nibble[d[0]];
    if (y != r->last + 1u || y > r->n)
        drop(r, heard);
    if (y > r->n)
        return;
    r->last = (uint8_t)y;
    if (pointer > NONE) {
        drop(r, heard);
        return;
    }
    if (r->run != IDLE)
        go_on(r, heard, d, 1 + 3 * pointer, out);
    if (pointer != NONE)
        starts(r, heard, d, 1 + 3 * pointer, out);
}

static void packet_0(struct plain_reader *r, struct plain_heard *heard, const struct plain_setting *s, const uint8_t *d)
{
    uint8_t six[6], bad = 0;
    unsigned n;
    if (r->open && r->last < r->n)
        drop(r, heard);
    r->open = 0;
    for (unsigned i = 0; i < 6; i++)
        bad |= six[i] = nibble[d[i]];
    if (bad & UNDECODABLE) {
        drop(r, heard);
        return;
    }
    if (six[0] + 16 * six[1] != s->page || six[4] != s->stream)
        return;
    n = six[3] % 8 + 8 * (six[5] % 4);
    if (n > MOST_ROWS || six[2] != (r->index + 1) % 16)
        drop(r, heard);
    r->index = six[2];
    if (n <= MOST_ROWS) {
        r->open = 1;
        r->n = (uint8_t)n;
        r->last = 0;
        r->joined = 1;                  /* of the block that runs; each that starts sets it anew */
    }
}

struct plain_heard plain_feed(struct plain_reader *r, const struct plain_setting *s,
                              const uint8_t *packet, size_t length, uint8_t *out, size_t room)
{
    struct plain_heard heard = { 0, 0, 0, 0 };
    unsigned one, two, y;
    if (s->magazine < 1 || s->magazine > 8 || s->stream > 15 || s->application > 31 || length != PLAIN_PACKET) {
        heard.no = 16;
        return heard;
    }
    if (room < PLAIN_ROOM) {
        heard.no = 1;
        return heard;
    }
    one = nibble[packet[0]];
    two = nibble[packet[1]];
    if ((one | two) & UNDECODABLE) {
        drop(r, &heard);
        r->open = 0;
        return heard;
    }
    y = one / 8 + 2 * two;
    if (one % 8 != s->magazine % 8u || y > MOST_ROWS)
        return heard;
    if (y == 0)
        packet_0(r, &heard, s, packet + 2);
    else if (r->open)
        row(r, &heard, y, packet + 2, out);
    return heard;
}

/* --- Block reading ----------------------------------------------------------------- */

enum { LI = 7, TI = 8 };

static unsigned field(const uint8_t *control, unsigned at, unsigned width)
{
    uint32_t word;
    memcpy(&word, control + at / 8, 4);     /* x86-64 is little-endian, and so are the fields */
    return word >> at % 8 & ((1u << width) - 1);
}

/* 0, or 10 with the offset of the first byte that can't be decoded. Two nibbles make a byte of control data. */
static unsigned control_of(const uint8_t *raw, unsigned from, unsigned to, uint8_t *control, unsigned *sum,
                           unsigned *mended, size_t *at)
{
    for (unsigned i = from; i < to; i += 2) {
        unsigned low = nibble[raw[i]], high = nibble[raw[i + 1]];
        if ((low | high) & UNDECODABLE) {
            *at = PLAIN_HEAD + i + (low != UNDECODABLE);
            return 10;
        }
        control[i / 2] = (uint8_t)(low | high << 4);
        *sum += low + high;
        *mended += harm[raw[i]] + (unsigned)harm[raw[i + 1]];
    }
    return 0;
}

/* The loops: their bits, or 0 where they run past the end. */
static unsigned loops(const uint8_t *control, unsigned bits, unsigned words)
{
    unsigned at = 58;
    for (unsigned left = field(control, 52, 6); left; left--) {
        if (at + 10 > bits)
            return 0;
        at += 10 + 24 * words * field(control, at + 6, 4);
    }
    return at > bits ? 0 : at;
}

static size_t form_of(const uint8_t *control, unsigned words, uint8_t *form)
{
    size_t to = 6;
    unsigned at = 58, count = field(control, 52, 6);
    form[0] = (uint8_t)field(control, 18, 6);
    form[1] = (uint8_t)field(control, 26, 1);
    form[2] = (uint8_t)field(control, 28, 8);
    form[3] = (uint8_t)field(control, 36, 8);
    form[4] = (uint8_t)field(control, 44, 8);
    form[5] = (uint8_t)count;
    for (; count; count--) {
        unsigned entries = field(control, at + 6, 4);
        form[to++] = (uint8_t)field(control, at, 6);
        form[to++] = (uint8_t)entries;
        at += 10;
        for (unsigned i = 0; i < entries * words; i++, at += 24) {
            unsigned word = field(control, at, 24);
            form[to++] = (uint8_t)(word >> 16);
            form[to++] = (uint8_t)(word >> 8);
            form[to++] = (uint8_t)word;
        }
    }
    return to;
}

unsigned plain_read_block(uint8_t application, const uint8_t *record, size_t length,
                          uint8_t *form, size_t room, size_t *written, size_t *at, unsigned *mended)
{
    static uint8_t result[PLAIN_FORM];
    uint8_t control[1024 + 8] = { 0 };
    const uint8_t *raw = record + PLAIN_HEAD;
    unsigned head, size, kind, words, whole, bits, sum = 0, count = 0;
    *written = *at = 0;
    *mended = 0;
    if (application > 31)
        return 16;
    if (length < PLAIN_HEAD)
        return 13;
    head = record[0] | record[1] << 8;
    size = head >> 5;
    if (length != PLAIN_HEAD + size)
        return 13;
    if (record[2] > 5 || record[3] > 1)
        return 16;
    if (head % 32 != application)
        return 12;
    if (size < 8)
        return 13;
    if (control_of(raw, 0, 8, control, &sum, &count, at))
        return 10;
    kind = field(control, 18, 6);
    if ((kind != TI && kind != LI) || field(control, 24, 2) != 0)
        return 12;
    if (size % 2)
        return 13;
    if (control_of(raw, 8, size, control, &sum, &count, at))
        return 10;
    sum += head % 16 + head / 16 % 16 + head / 256 % 16 + head / 4096;
    sum -= control[0] % 16 + control[0] / 16;
    if ((uint8_t)(control[0] + sum) != 0)
        return 11;
    if (size >= 12 && field(control, 28, 16) % 0x8000 != 0)     /* a number of a later edition */
        return 22;
    words = kind == TI ? 2 : 1;
    bits = 4 * size;
    whole = loops(control, bits, words);
    if (field(control, 8, 10) * 2 != size || whole == 0 || bits - whole > 7)
        return 14;
    *written = form_of(control, words, result);
    if (*written > room) {
        *written = 0;
        return 1;
    }
    memcpy(form, result, *written);
    *mended = record[2] + count;
    return 0;
}

/* --- The desk's lines ----------------------------------------------------------------- */

static char *text(char *to, const char *what)
{
    while (*what)
        *to++ = *what++;
    return to;
}

static char *decimal(char *to, unsigned n)
{
    char digits[10];
    unsigned count = 0;
    do
        digits[count++] = (char)('0' + n % 10);
    while (n /= 10);
    while (count)
        *to++ = digits[--count];
    *to++ = '\n';
    return to;
}

static char *hex(char *to, const uint8_t *word)
{
    for (unsigned i = 0; i < 3; i++) {
        *to++ = "0123456789abcdef"[word[i] >> 4];
        *to++ = "0123456789abcdef"[word[i] & 15];
    }
    *to++ = '\n';
    return to;
}

static char *language(char *to, const uint8_t *word)
{
    for (unsigned i = 0; i < 3; i++)
        if (word[i] < 'a' || word[i] > 'z')
            return hex(to, word);
    memcpy(to, word, 3);
    to[3] = '\n';
    return to + 4;
}

size_t plain_lines(const uint8_t *form, size_t length, unsigned mended, unsigned joined, char *out)
{
    char *to = out;
    size_t at = 6;
    to = text(to, form[0] == TI ? "kind=TI\n" : "kind=LI\n");
    to = decimal(text(to, "block="), form[2] + 256u * form[3]);
    to = decimal(text(to, "network="), form[4]);
    to = decimal(text(to, "mended="), mended);
    if (joined == 1)
        to = text(to, "joined=1\n");
    while (at < length) {
        unsigned entries = form[at + 1];
        to = decimal(text(to, "descriptor="), form[at]);
        at += 2;
        for (; entries; entries--) {
            to = language(text(to, "language="), form + at);
            at += 3;
            if (form[0] == TI) {
                to = hex(text(to, "page="), form + at);
                at += 3;
            }
        }
    }
    return (size_t)(to - out);
}
