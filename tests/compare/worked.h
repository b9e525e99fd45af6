/* What document 01 works by hand, as data: the comparison asks it of both programs, and the page of evidence shows it.
 * Bytes are hexadecimal digits, two for each. */
#ifndef WORKED_H
#define WORKED_H

#include "answer.h"
#include "compare.h"

static const struct worked_coding {
    const char *payload, *field;
} worked_codings[] = {
    {"F0", "EA55"},
    {"00", "90D5"},
    {"FF", "EF15"},
    {"0E", "9555"},
    {"10", "9655"},
    {"74", "BA55"},
    {"7F", "BD95"},
    {"80", "C255"},
    {"0000", "10C86A"},
    {"00000000000000", "90C86432190C8643"},
    {"", ""},
};

/* `low` is the length or, with a refusal, the place. Document 01 says how many bytes some are, and not which. */
static const struct worked_answer {
    enum call call;
    const char *given;
    size_t room;
    enum refusal refusal;
    size_t low;
} worked_answers[] = {
    {ENCODE, "0000000000000000", 8, PAYLOAD_TOO_LONG, 0},
    {DECODE, "EA", 8, WRONG_FIELD_LENGTH, 0},
    {DECODE, "90C86432190C864300", 8, WRONG_FIELD_LENGTH, 0},
    {DECODE, "9095", 8, ESCAPE_FOR_BYTE, 0},
    {DECODE, "EA54", 8, WRONG_PADDING, 0},
    {DECODE, "6A55", 8, WRONG_BREAK_BIT, 0},
    {ENCODE, "F0", 1, ROOM_SHORT, 0},
    {ENCODE, "F0", 2, NO_REFUSAL, 2},
};

static const struct worked_bounds {
    uint32_t identifier;
    size_t size;
    enum refusal refusal;
    size_t least, most;
} worked_bounds[] = {
    {0x555, 1, NO_REFUSAL, 61, 65},
    {0x555, 7, NO_REFUSAL, 108, 112},
    {0, 1, NO_REFUSAL, 63, 67},
    {2048, 1, IDENTIFIER_TOO_LARGE, 0, 0},
};

/* The frame of this identifier and the empty payload: its CRC, the stuff bits in header and in CRC, all bits. */
static const struct worked_frame {
    uint32_t identifier;
    unsigned crc, in_header, in_crc, bits;
} worked_frame = {0, 0, 3, 3, 50};

#define COUNT_OF(list) (sizeof(list) / sizeof *(list))

#endif
