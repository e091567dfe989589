/* The desk in plain C: 42-byte packets from standard input, the list on standard output. */
#include <stdio.h>
#include <string.h>
#include <unistd.h>

#include "plain.h"

static uint8_t in[PLAIN_PACKET * 1024], records[PLAIN_ROOM], form[PLAIN_FORM];
static char out[1 << 17];
static size_t held;
static unsigned long accepted, refused;

static int flush(void)
{
    size_t at = 0;
    while (at < held) {
        ssize_t n = write(1, out + at, held - at);
        if (n <= 0)
            return 0;
        at += (size_t)n;
    }
    held = 0;
    return 1;
}

static int list(const struct plain_setting *setting, size_t written)
{
    for (size_t at = 0; at < written;) {
        size_t length = PLAIN_HEAD + ((size_t)records[at] + 256 * records[at + 1]) / 32, got, where;
        unsigned mended;
        if (plain_read_block(setting->application, records + at, length, form, sizeof form, &got, &where, &mended)) {
            refused++;
        } else {
            accepted++;
            held += plain_lines(form, got, mended, records[at + 3], out + held);
            if (held >= sizeof out / 2 && !flush())
                return 0;
        }
        at += length;
    }
    return 1;
}

int main(void)
{
    static const struct plain_setting setting = { 1, 0xDF, 1, 1 };
    static struct plain_reader reader;
    size_t have = 0;
    plain_begin();
    plain_fresh(&reader);
    for (;;) {
        ssize_t n = read(0, in + have, sizeof in - have);
        size_t at = 0;
        if (n < 0)
            return 1;
        if (n == 0)
            break;
        have += (size_t)n;
        for (; at + PLAIN_PACKET <= have; at += PLAIN_PACKET) {
            struct plain_heard heard = plain_feed(&reader, &setting, in + at, PLAIN_PACKET, records, sizeof records);
            if (!list(&setting, heard.written))
                return 1;
        }
        memmove(in, in + at, have - at);
        have -= at;
    }
    held += (size_t)sprintf(out + held, "blocks=%lu refused=%lu short=%zu\n", accepted, refused, have);
    return flush() ? 0 : 1;
}
