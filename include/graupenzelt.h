/* The box as a C library. docs/PROTOCOL.md says what blocks, tables and answers look like; docs/PROVED.md what is proved of these
   functions. Every function takes any bytes and any lengths and always returns; none keeps a pointer, and none allocates. A pointer
   must be valid for the length that goes with it; where that is 0 nothing is read or written through it, and it may be NULL. A command
   takes up to 6,624 bytes of stack.

   Numbers: 0 success. Refusals, each given exactly when no earlier one applies:
     1  the input is empty or its first byte is not '#'
     2  the second byte is missing or no digit, or a count digit is missing or no digit
     3  the count differs from the number of bytes after the header; open-ended: no newline, or the first one is not last
     4  the payload is shorter than 4 bytes
     5  more than 200 signals or channels, or more than 3,000 pairs; comparing: more than 15 counts, or a count above 200
     6  the payload has not as many bytes as its pairs take; framing: the payload has more than 7,504 bytes
     7  a fill bit is not zero
     8  an entry's signal or channel is not in the table, or its rank is 0 or above the table's
     9  an entry does not stand strictly above the one before
    10  the area is shorter than the whole block to be written
    11  the work area has fewer than 16,384 numbers
   Place: the entry's index for 8 and 9, otherwise 0. All lengths count bytes. On a refusal every field but number and place is 0,
   and nothing is written. */
#ifndef GRAUPENZELT_H
#define GRAUPENZELT_H

#include <stddef.h>
#include <stdint.h>

#ifdef __cplusplus
extern "C" {
#endif

/* How many 16-bit numbers of work area a command needs. */
#define GRAUPENZELT_WORK 16384

/* The longest answer block, in bytes. */
#define GRAUPENZELT_ANSWER 322

struct graupenzelt_opened {
    uint32_t number;
    size_t place;
    size_t start;  /* where the payload begins: the header's end */
    size_t length; /* of the payload, in bytes */
};

struct graupenzelt_framed {
    uint32_t number;
    size_t place;
    size_t length; /* of the block written, in bytes */
};

struct graupenzelt_checked {
    uint32_t number;
    size_t place;
    uint32_t signals;
    uint32_t channels;
    uint32_t ranks;
    uint32_t pairs;
};

struct graupenzelt_compared {
    uint32_t number;
    size_t place;
    int32_t order; /* -1: the first line is the lesser; 1: it is the greater; 0: they are equal */
};

struct graupenzelt_handled {
    uint32_t number;
    size_t place;
    size_t length; /* of the answer block written, in bytes */
};

/* Opens a block (1 to 3). The payload is in[start .. start + length]. */
struct graupenzelt_opened graupenzelt_open(const uint8_t *in, size_t n);

/* Frames a payload of n bytes into an area of m bytes, behind the shortest header that counts its bytes (6, 10). Payload and area must
   not overlap. */
struct graupenzelt_framed graupenzelt_frame(const uint8_t *payload, size_t n, uint8_t *area, size_t m);

/* Checks a bare payload (4 to 9). */
struct graupenzelt_checked graupenzelt_check(const uint8_t *payload, size_t n);

/* Compares two lines of counts, rank 1 first; the shorter one is filled up with zeros (5). */
struct graupenzelt_compared graupenzelt_compare(const uint8_t *a, size_t n, const uint8_t *b, size_t m);

/* Handles a whole command block (1 to 11): writes the answer block, with a best plan of the table and its counts, at the area's
   start. On success the first 16,384 numbers of the work area are zero afterwards. The input, the area and the work area must not
   overlap. */
struct graupenzelt_handled graupenzelt_handle(const uint8_t *in, size_t n, uint8_t *area, size_t m, uint16_t *work, size_t k);

#ifdef __cplusplus
}
#endif

#endif
