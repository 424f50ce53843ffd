/* What the programs of this folder share: the frames' sizes (docs/reference/PROTOCOL.md), and how they end on a fault. */
#ifndef WIRE_H
#define WIRE_H

#include <errno.h>
#include <stdint.h>
#include <stdio.h>
#include <stdlib.h>
#include <string.h>

enum {
    ENTER = 0x01, LEAVE = 0x02, TOP_UP = 0x03, ISSUE = 0x04, ENQUIRY = 0x05, REPLY = 0x81, HOLDING = 0x85,

    /* Whole frames, with the two bytes of their length. The longest request that load sends is a top-up. */
    LONGEST_REQUEST = 21, REPLY_SIZE = 22, HOLDING_SIZE = 16,
};

/* Ends the program where a call was refused. */
static inline void want(int holds, const char *what)
{
    if (!holds) {
        fprintf(stderr, "%s: %s\n", what, strerror(errno));
        exit(1);
    }
}

/* Writes a number of so many bytes, the highest first. Gives the place behind it. */
static inline unsigned char *put(unsigned char *at, int bytes, uint64_t number)
{
    while (bytes-- > 0)
        *at++ = (unsigned char)(number >> (8 * bytes));
    return at;
}

/* The size of the frame that begins here, of which two bytes have come. */
static inline size_t frame_size(const unsigned char *frame)
{
    return 2 + ((size_t)frame[0] << 8 | frame[1]);
}

#endif
