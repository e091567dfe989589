/*
 * Our decoding and turning behind the form of the test programs, through the
 * static library that the recorder's firmware links: op 1 decodes one byte, op 3
 * turns it, and a line answers each case.
 */
#include <stdio.h>

#include "../../firmware/guide.h"

int main(void)
{
    unsigned char c[10];    /* op, room, length, one byte of payload */
    while (fread(c, 1, sizeof c, stdin) == sizeof c) {
        if ((c[0] != 1 && c[0] != 3) || c[5] != 1 || c[6] || c[7] || c[8])
            return 2;
        printf("op=%u out=%02x\n", c[0], c[0] == 1 ? guide_decode(c[9]) : guide_turn(c[9]));
    }
    return 0;
}
