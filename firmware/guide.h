/*
 * guide.h: the guide loader's functions for the recorder's firmware, in C99 or
 * C++11.
 *
 * At the root of the repository, this makes the library for x86-64 (it needs no
 * other), and compiles and links a program:
 *     firmware/library
 *     cc -std=c99 -Ifirmware -o example firmware/example.c target/staticlib/libfirmware.a
 *
 * Every function takes any value of its arguments and answers; there is no
 * input that stops it. Nothing is kept between calls: no state, no memory, no
 * pointer. So calls may come in any order and from several threads at once.
 * Memory stays the caller's: guide_unit_at reads the bytes that it is lent for
 * the call, and nothing is written.
 *
 * What each function answers is proved for every input, in crates/firmware.
 */
#ifndef GUIDE_H
#define GUIDE_H

#include <stddef.h>
#include <stdint.h>

#ifdef __cplusplus
extern "C" {
#endif

/* What guide_decode answers for a byte that can't be decoded. */
#define GUIDE_UNDECODABLE 16

/*
 * The nibble of a protected byte (EN 300 706): 0 to 15, or GUIDE_UNDECODABLE.
 *
 * The byte is in its protected form, bits P1 D1 P2 D2 P3 D3 P4 D4, the least
 * first. A byte from a PES packet stands the other way round there: turn it
 * first. One of the sixteen images gives its nibble, and so does a byte one bit
 * away from an image (one wrong bit is mended). Every other byte can't be
 * decoded: 112 of the 256.
 */
uint8_t guide_decode(uint8_t b);

/*
 * The byte with its bits in the other order: bit i goes to bit 7 - i.
 *
 * Turns a byte of a PES packet's unit, from the framing byte on, into the
 * protected form, and back: turning twice gives the byte. A unit's line byte
 * is never turned.
 */
uint8_t guide_turn(uint8_t b);

/* Where the first unit of a PES packet begins. */
#define GUIDE_FIRST_UNIT 46

/*
 * Where things stand in a text unit, from its first byte on: the line byte, the
 * framing byte, and the 42 bytes of a teletext packet. The last 43 want turning.
 */
#define GUIDE_UNIT_LINE 2
#define GUIDE_UNIT_FRAMING 3
#define GUIDE_UNIT_PACKET 4
#define GUIDE_PACKET 42

/*
 * What guide_unit_at finds, GUIDE_FOUND of its answer:
 *   GUIDE_END       no byte is left at that place
 *   GUIDE_TEXT      a text unit of 46 bytes, as above
 *   GUIDE_STUFFING  a stuffing unit, which gives nothing
 * or the unit is refused, with a number of the refusal list (docs/SCOPE.md, 2):
 *   GUIDE_OVER_END      only one byte is left, or the unit goes over the end
 *   GUIDE_UNKNOWN_ID    its id is none of 02, 03 and FF
 *   GUIDE_WRONG_LENGTH  a text unit of another length than 2C
 *   GUIDE_WRONG_LINE    a text unit with a line offset that is none of 0 and 07
 *                       to 16, or with another framing byte than E4
 */
#define GUIDE_END 0
#define GUIDE_OVER_END 6
#define GUIDE_UNKNOWN_ID 7
#define GUIDE_WRONG_LENGTH 8
#define GUIDE_WRONG_LINE 9
#define GUIDE_TEXT 254
#define GUIDE_STUFFING 255
#define GUIDE_FOUND(answer) ((int)((answer) & 0xFF))

/*
 * The place that goes with it: where the next unit begins after a text unit or
 * stuffing; of a refusal its offset, which is where the unit begins, or with
 * GUIDE_WRONG_LINE the line byte or the framing byte, whichever is at fault; 0
 * with GUIDE_END.
 */
#define GUIDE_PLACE(answer) ((size_t)((answer) >> 8))

/*
 * What begins at a place of a PES packet (EN 300 472): one step of the walk
 * along its units, from GUIDE_FIRST_UNIT on. Places and offsets count from the
 * packet's first byte. The packet's header isn't looked at.
 *
 * pes points to length bytes. Any place may be asked for. Where length is 0
 * nothing is read, pes may be NULL, and the answer is GUIDE_END for any place.
 * The answer is one number: GUIDE_FOUND and GUIDE_PLACE are its two parts.
 */
uint64_t guide_unit_at(const uint8_t *pes, size_t length, size_t at);

#ifdef __cplusplus
}
#endif

#endif
