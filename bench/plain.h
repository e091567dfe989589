/*
 * The loader in plain C, by docs/SCOPE.md: the reader of the guide page, block
 * reading, and the desk's lines. It is here to be measured beside ours and is
 * held to the same vectors (bench/check.c). Nothing of it is proved.
 */
#ifndef PLAIN_H
#define PLAIN_H

#include <stddef.h>
#include <stdint.h>

enum {
    PLAIN_PACKET = 42,
    PLAIN_ROOM = 2112,      /* what one packet can hand out, at the most */
    PLAIN_HEAD = 4,         /* how many bytes of a record stand before its raw bytes */
    PLAIN_FORM = 4096,      /* what one table form can take, at the most */
    PLAIN_LINES = 65536,    /* what one table's lines can take, at the most */
};

struct plain_setting {
    uint8_t magazine, page, stream, application;
};

struct plain_reader {
    uint8_t open, n, last;          /* our page */
    uint8_t index;                  /* our last continuity index */
    uint8_t run, got;               /* the running block: PLAIN_IDLE .., nibbles of its 16 bits */
    uint16_t head, held;
    uint8_t part;                   /* its start and header bytes that weren't images */
    uint8_t joined;                 /* 1: a page of ours was opened while it ran */
    uint8_t store[2047];
};

struct plain_heard {
    uint8_t no;                     /* the refusal's number (SCOPE 2); 0: accepted */
    uint8_t dropped;
    uint16_t blocks, written;
};

/* Fills the tables. Once, before anything else. */
void plain_begin(void);

void plain_fresh(struct plain_reader *reader);

/* One packet. What is finished goes to the front of out, as records. */
struct plain_heard plain_feed(struct plain_reader *reader, const struct plain_setting *setting,
                              const uint8_t *packet, size_t length, uint8_t *out, size_t room);

/* A record's table form in form, its length in *written, and how many of its block's bytes were mended in *mended.
   Answers the number (SCOPE 2); *at is its offset. */
unsigned plain_read_block(uint8_t application, const uint8_t *record, size_t length,
                          uint8_t *form, size_t room, size_t *written, size_t *at, unsigned *mended);

/* The desk's lines of a form and a count that plain_read_block gave, and of its record's second byte; their length. */
size_t plain_lines(const uint8_t *form, size_t length, unsigned mended, unsigned joined, char *text);

#endif
