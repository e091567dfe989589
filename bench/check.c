/*
 * bench/plain.c behind the form of the test programs, so that it is held to the
 * same vectors: `check guide` answers ops 20 and 21 of try_guide, `check table`
 * op 30 of try_table. Cases of other ops, and those that the programs call
 * unknown, are passed over.
 */
#include <stdio.h>
#include <string.h>

#include "plain.h"

enum { LONGEST = 1 << 17 };

static uint8_t payload[LONGEST], out[1 << 16];

static unsigned long number(const uint8_t *p)
{
    return p[0] | (unsigned long)p[1] << 8 | (unsigned long)p[2] << 16 | (unsigned long)p[3] << 24;
}

static void line(unsigned op, unsigned no, size_t at, size_t written)
{
    size_t rest = written;
    while (rest < sizeof out && out[rest] == 0xA5)
        rest++;
    printf("op=%u no=%u at=%zu out=", op, no, at);
    for (size_t i = 0; i < written; i++)
        printf("%02x", out[i]);
    printf(" kept=%s", rest == sizeof out ? "yes" : "no");
}

int main(int argc, char **argv)
{
    int guide = argc == 2 && strcmp(argv[1], "guide") == 0, table = argc == 2 && strcmp(argv[1], "table") == 0;
    struct plain_reader reader;
    struct plain_setting setting = { 0, 0, 0, 0 };
    uint8_t front[9];
    if (!guide && !table)
        return 2;
    plain_begin();
    while (fread(front, 1, sizeof front, stdin) == sizeof front) {
        unsigned op = front[0];
        size_t room = number(front + 1), length = number(front + 5), written, at;
        unsigned mended;
        room = room < sizeof out ? room : sizeof out;
        if (length > sizeof payload || fread(payload, 1, length, stdin) != length)
            break;
        memset(out, 0xA5, sizeof out);
        if (guide && op == 20 && length >= 4) {
            memcpy(&setting, payload, 4);
            plain_fresh(&reader);
            line(20, 0, 0, 0);
        } else if (guide && op == 21) {
            struct plain_heard heard = plain_feed(&reader, &setting, payload, length, out, room);
            line(21, heard.no, 0, heard.written);
            printf(" blocks=%u dropped=%s", heard.blocks, heard.dropped ? "yes" : "no");
        } else if (table && op == 30 && length >= 1) {
            unsigned no = plain_read_block(payload[0], payload + 1, length - 1, out, room, &written, &at, &mended);
            line(30, no, at, written);
            printf(" mended=%u joined=%u", mended, no ? 0u : payload[1 + 3]);
        } else {
            continue;
        }
        putchar('\n');
    }
    return 0;
}
