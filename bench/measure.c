/*
 * Times one thing after the other on the same input, in one run: libzvbi, the
 * plain C reader (bench/plain.c) and ours (crates/bench and the firmware's
 * static libraries). Every round runs each of them once; the best round counts,
 * in CPU time, so that other work on the machine disturbs little.
 *
 *   measure DENSE BOTH MIXED PES     files that bench/make.py makes
 *   measure DENSE BOTH MIXED         packets alone
 */
#include <libzvbi.h>
#include <stdio.h>
#include <stdlib.h>
#include <string.h>
#include <time.h>

#include "../firmware/guide.h"
#include "plain.h"

/* crates/bench. */
uint8_t bench_decode(const uint8_t *s, size_t n);
uint8_t bench_turn(const uint8_t *s, size_t n);
size_t bench_pes(const uint8_t *packet, size_t n, uint8_t *out, size_t room);
size_t bench_read(const uint8_t *record, size_t n, uint8_t *out, size_t room);
uint64_t bench_feed(const uint8_t *packets, size_t n, uint8_t *out, size_t room);
uint64_t bench_feed_all(const uint8_t *packets, size_t n, uint8_t *out, size_t room);
uint64_t bench_feed_both(const uint8_t *packets, size_t n, uint8_t *out, size_t room);

enum { ROUNDS = 25, BYTES = 1 << 16 };

/* Builds from before two streams came are timed with ONE_STREAM (bench/run --before says so). */

/* The bytes of a record before its raw bytes. Builds from before the part came have two (bench/run --before says so). */
#ifndef RECORD_HEAD
#define RECORD_HEAD 4
#endif

static uint8_t *input, out[1 << 22], records[1 << 22];
static size_t length, blocks;

static void load(const char *name)
{
    FILE *file = fopen(name, "rb");
    long n;
    if (!file || fseek(file, 0, SEEK_END) || (n = ftell(file)) < 0 || fseek(file, 0, SEEK_SET)) {
        perror(name);
        exit(2);
    }
    free(input);
    input = malloc((size_t)n + 1);      /* libzvbi looks at the byte behind a packet */
    if (!input || fread(input, 1, (size_t)n, file) != (size_t)n) {
        perror(name);
        exit(2);
    }
    input[n] = 0x5E;
    length = (size_t)n;
    fclose(file);
}

/* --- What is timed: each goes through the whole input and answers what it found ------- */

static unsigned long found;

static vbi_bool block_came(vbi_pfc_demux *dx, void *data, const vbi_pfc_block *block)
{
    (void)dx, (void)data, (void)block;
    found++;
    return TRUE;
}

static unsigned long zvbi_feed(void)
{
    /* Each packet is copied to where a filler byte stands behind it: the array's next byte would close the page. */
    static uint8_t packet[PLAIN_PACKET + 1] = { [PLAIN_PACKET] = 0x5E };
    vbi_pfc_demux *dx = vbi_pfc_demux_new(0x1DF, 1, block_came, NULL);
    found = 0;
    for (size_t at = 0; at < length; at += PLAIN_PACKET) {
        memcpy(packet, input + at, PLAIN_PACKET);
        vbi_pfc_demux_feed(dx, packet);
    }
    vbi_pfc_demux_delete(dx);
    return found;
}

static unsigned long plain(void)
{
    static const struct plain_setting setting = { 1, 0xDF, 1, 1 };
    static struct plain_reader reader;
    unsigned long blocks = 0;
    plain_fresh(&reader);
    for (size_t at = 0; at < length; at += PLAIN_PACKET)
        blocks += plain_feed(&reader, &setting, input + at, PLAIN_PACKET, out, sizeof out).blocks;
    return blocks;
}

static unsigned long our_feed(void) { return bench_feed(input, length, out, sizeof out); }
static unsigned long our_feed_all(void) { return bench_feed_all(input, length, out, sizeof out); }

#ifndef ONE_STREAM
static uint8_t *both;
static size_t both_length;

/* One stream's packets twice over, and as many of two streams. */
static unsigned long our_feed_twice(void) { return our_feed_all() + our_feed_all(); }
static unsigned long our_feed_both(void) { return bench_feed_both(both, both_length, out, sizeof out); }
#endif

/* How long the record there is, by its size. */
static size_t record_length(const uint8_t *record) { return RECORD_HEAD + (record[0] + 256u * record[1]) / 32; }

/* The records that come of the input's packets. */
static void keep_records(void)
{
    size_t end = 0;
    blocks = bench_feed_all(input, length, records, sizeof records);
    for (size_t i = 0; i < blocks; i++)
        end += record_length(records + end);
    if (end > sizeof records) {
        fprintf(stderr, "measure: too many records\n");
        exit(1);
    }
}

#if RECORD_HEAD == 4
static unsigned long plain_read(void)
{
    unsigned long bytes = 0;
    for (size_t i = 0, at = 0; i < blocks; i++) {
        size_t n = record_length(records + at), written = 0, where;
        unsigned mended;
        if (plain_read_block(1, records + at, n, out, sizeof out, &written, &where, &mended) == 0)
            bytes += written;
        at += n;
    }
    return bytes;
}
#endif

static unsigned long our_read(void)
{
    unsigned long bytes = 0;
    for (size_t i = 0, at = 0; i < blocks; i++) {
        size_t n = record_length(records + at);
        bytes += bench_read(records + at, n, out, sizeof out);
        at += n;
    }
    return bytes;
}

static unsigned long zvbi_decode(void)
{
    uint8_t mix = 0;
    for (size_t i = 0; i < length; i++) {
        int n = vbi_unham8(input[i]);
        mix ^= (uint8_t)(n < 0 ? 16 : n);
    }
    return mix;
}

static unsigned long our_decode(void) { return bench_decode(input, length); }

static unsigned long called_decode(void)
{
    uint8_t mix = 0;
    for (size_t i = 0; i < length; i++)
        mix ^= guide_decode(input[i]);
    return mix;
}

static unsigned long zvbi_turn(void)
{
    uint8_t mix = 0;
    for (size_t i = 0; i < length; i++)
        mix ^= (uint8_t)vbi_rev8(input[i]);
    return mix;
}

static unsigned long our_turn(void) { return bench_turn(input, length); }

static unsigned long called_turn(void)
{
    uint8_t mix = 0;
    for (size_t i = 0; i < length; i++)
        mix ^= guide_turn(input[i]);
    return mix;
}

static vbi_bool frame_came(vbi_dvb_demux *dx, void *data, const vbi_sliced *sliced, unsigned int n, int64_t pts)
{
    (void)dx, (void)data, (void)sliced, (void)pts;
    found += n;
    return TRUE;
}

/* Hands out a frame when the next begins, so the last frame's fifteen lines are still held: they count. */
static unsigned long zvbi_pes(void)
{
    vbi_dvb_demux *dx = vbi_dvb_pes_demux_new(frame_came, NULL);
    found = 15;
    vbi_dvb_demux_feed(dx, input, (unsigned int)length);
    vbi_dvb_demux_delete(dx);
    return found;
}

static unsigned long our_pes(void)
{
    unsigned long lines = 0;
    for (size_t at = 0, n; at < length; at += n) {
        n = 6 + 256u * input[at + 4] + input[at + 5];
        lines += bench_pes(input + at, n, out, sizeof out) / 44;
    }
    return lines;
}

/* --- Timing -------------------------------------------------------------------------- */

struct timed {
    const char *name;
    unsigned long (*run)(void);
    double best;                        /* nanoseconds for one unit */
};

static double now(void)
{
    struct timespec t;
    clock_gettime(CLOCK_PROCESS_CPUTIME_ID, &t);
    return (double)t.tv_sec * 1e9 + (double)t.tv_nsec;
}

/* The first of them is the measure of the others. */
static void measure(const char *what, const char *unit, size_t units, struct timed *timed, size_t n)
{
    unsigned long answer = timed[0].run();
    unsigned repeat = 1 + (unsigned)(4000000 / (units + 1) / (strcmp(unit, "byte") == 0 ? 1 : strcmp(unit, "packet") == 0 ? 40 : 400));
    for (size_t i = 0; i < n; i++)
        if (timed[i].run() != answer) {
            fprintf(stderr, "measure: %s: %s answers otherwise\n", what, timed[i].name);
            exit(1);
        }
    for (unsigned round = 0; round < ROUNDS; round++)
        for (size_t i = 0; i < n; i++) {
            double begin = now(), took;
            for (unsigned k = 0; k < repeat; k++)
                timed[i].run();
            took = (now() - begin) / repeat / (double)units;
            if (round == 0 || took < timed[i].best)
                timed[i].best = took;
        }
    for (size_t i = 0; i < n; i++)
        printf("| %s | %s | %.2f ns a %s | %.2f |\n", what, timed[i].name, timed[i].best, unit, timed[i].best / timed[0].best);
}

#define ALL(list) list, sizeof list / sizeof *list

static void packets(const char *what, const char *name)
{
    struct timed list[] = {
        { "libzvbi, vbi_pfc_demux_feed", zvbi_feed, 0 },
        { "plain C", plain, 0 },
        { "ours, `feed`", our_feed, 0 },
        { "ours, `feed_all`", our_feed_all, 0 },
    };
    load(name);
    measure(what, "packet", length / PLAIN_PACKET, ALL(list));
}

#ifndef ONE_STREAM
static void two_streams(const char *dense, const char *name)
{
    struct timed list[] = {
        { "ours, `feed_all`, all of its stream", our_feed_twice, 0 },
        { "ours, `two::feed_all`, half of each", our_feed_both, 0 },
    };
    load(name);
    both = input, both_length = length, input = NULL;
    load(dense);
    if (both_length != 2 * length) {
        fprintf(stderr, "measure: %s isn't twice as long as %s\n", name, dense);
        exit(1);
    }
    measure("two streams", "packet", both_length / PLAIN_PACKET, ALL(list));
}
#endif

int main(int argc, char **argv)
{
    struct timed read[] = {
#if RECORD_HEAD == 4
        { "plain C", plain_read, 0 },
#endif
        { "ours, `table::read_block`", our_read, 0 },
    };
    struct timed decode[] = {
        { "libzvbi, vbi_unham8 in a loop", zvbi_decode, 0 },
        { "ours, in a loop of ours", our_decode, 0 },
        { "ours, called from C for each byte", called_decode, 0 },
    };
    struct timed turn[] = {
        { "libzvbi, vbi_rev8 in a loop", zvbi_turn, 0 },
        { "ours, in a loop of ours", our_turn, 0 },
        { "ours, called from C for each byte", called_turn, 0 },
    };
    struct timed pes[] = {
        { "libzvbi, vbi_dvb_demux_feed", zvbi_pes, 0 },
        { "ours, `pes::read`", our_pes, 0 },
    };
    if (argc != 4 && argc != 5) {
        fprintf(stderr, "usage: measure DENSE BOTH MIXED [PES]\n");
        return 2;
    }
    plain_begin();
    packets("packets, all of our page", argv[1]);
    packets("packets, one in four of our page", argv[3]);
#ifndef ONE_STREAM
    two_streams(argv[1], argv[2]);
#endif
    load(argv[1]);
    keep_records();
    measure("block reading", "block", blocks, ALL(read));
    if (argc == 4)
        return 0;
    load(argv[3]);
    measure("decoding", "byte", length, ALL(decode));
    measure("turning", "byte", length, ALL(turn));
    load(argv[4]);
    measure("PES reading", "byte", length, ALL(pes));
    return 0;
}
