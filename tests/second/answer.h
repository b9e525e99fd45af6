/* Answers: the refusal numbers of documents 01 and 02, and how an answer is packed into 64 bits. */
#ifndef ANSWER_H
#define ANSWER_H

#include <stddef.h>
#include <stdint.h>

enum refusal {
    NO_REFUSAL = 0,
    PAYLOAD_TOO_LONG = 1,
    ROOM_SHORT = 2,
    WRONG_FIELD_LENGTH = 3,
    WRONG_BREAK_BIT = 4,
    ESCAPE_FOR_BYTE = 5,
    NOT_A_WORD = 6,
    WRONG_PADDING = 7,
    IDENTIFIER_TOO_LARGE = 8,
    LINE_BYTE_ABOVE_1 = 9,
    SIXTH_EQUAL_BIT = 10,
    WRONG_LINE_LENGTH = 11,
    CRC_DIFFERS = 12,
    WRONG_FIXED_BIT = 13,
    NOT_ACKNOWLEDGED = 20
};

static inline uint64_t refused(enum refusal refusal, size_t place)
{
    return (uint64_t)refusal << 16 | place;
}

/* `also` is the identifier of a line that was read, or the longer of two bounds; else 0. */
static inline uint64_t accepted(size_t length, uint64_t also)
{
    return also << 32 | length;
}

#endif
