/* Known answers: what document 01 says of words and works by hand, the decided open points, the CRC's check value. */
#include <string.h>

#include "answer.h"
#include "compare.h"
#include "frame.h"
#include "words.h"
#include "worked.h"

struct slice {
    uint8_t byte[160];
    size_t length;
};

/* Hexadecimal digits, two for each byte. */
static struct slice bytes(const char *digits)
{
    struct slice slice = {.length = strlen(digits) / 2};
    for (size_t i = 0; i < 2 * slice.length; i++) {
        int digit = digits[i] <= '9' ? digits[i] - '0' : digits[i] - 'A' + 10;
        slice.byte[i / 2] = (uint8_t)(16 * slice.byte[i / 2] + digit);
    }
    return slice;
}

/* The bits of a line, one digit for each; blanks are for the eye. */
static struct slice bits(const char *digits)
{
    struct slice line = {.length = 0};
    for (; *digits != '\0'; digits++)
        if (*digits != ' ')
            line.byte[line.length++] = (uint8_t)(*digits - '0');
    return line;
}

static struct slice with(struct slice line, size_t place, uint8_t byte)
{
    line.byte[place] = byte;
    return line;
}

static struct slice without(struct slice line, size_t place)
{
    memmove(line.byte + place, line.byte + place + 1, --line.length - place);
    return line;
}

static struct slice cut(struct slice line, size_t length)
{
    line.length = length;
    return line;
}

static struct slice followed_by(struct slice line, uint8_t byte)
{
    line.byte[line.length++] = byte;
    return line;
}

static void codes_as(const char *payload_digits, const char *field_digits)
{
    struct slice payload = bytes(payload_digits), field = bytes(field_digits);
    expect(question(ENCODE, 0, payload.byte, payload.length, field.length), accepted(field.length, 0), field.byte,
           field.length);
    expect(question(DECODE, 0, field.byte, field.length, payload.length), accepted(payload.length, 0), payload.byte,
           payload.length);
}

static void refuses(enum call call, struct slice given, size_t room, enum refusal refusal, size_t place)
{
    expect(question(call, 0, given.byte, given.length, room), refused(refusal, place), NULL, 0);
}

/* Both calls that read a line refuse it alike. */
static void both_refuse(struct slice line, enum refusal refusal, size_t place)
{
    refuses(READ_LINE, line, 8, refusal, place);
    refuses(READ_OWN_LINE, line, 8, refusal, place);
}

/* A line that is right but for what is in its ACK slot: 0 is taken by both calls, 1 by one of them. */
static void reads_as(struct slice line, uint32_t identifier, struct slice payload)
{
    size_t ack_slot = line.length - 9;
    for (uint8_t ack = 0; ack <= 1; ack++) {
        struct slice with_ack = with(line, ack_slot, ack);
        uint64_t read = accepted(payload.length, identifier), unheard = refused(NOT_ACKNOWLEDGED, ack_slot);
        expect(question(READ_LINE, 0, with_ack.byte, with_ack.length, payload.length), ack == 0 ? read : unheard,
               payload.byte, ack == 0 ? payload.length : 0);
        expect(question(READ_OWN_LINE, 0, with_ack.byte, with_ack.length, payload.length), read, payload.byte,
               payload.length);
    }
}

static void bounds(uint32_t identifier, size_t size, uint64_t answer)
{
    expect(question(FRAME_BOUNDS, identifier, NULL, size, 0), answer, NULL, 0);
}

/* What document 01 says of the words that the second program lists. */
static void words(void)
{
    unsigned count = 0, complements = 0;
    for (unsigned number = 0; number < 512; number++)
        count += carried_by(number) != NOTHING;
    for (unsigned byte = 0; byte < 256; byte++)
        complements += (word_of_byte((uint8_t)byte) ^ word_of_byte((uint8_t)(255 - byte))) == 0x1FF;
    check(count == 258, "there are 258 words");
    check(complements == 256, "the word of 255 - x is the complement of the word of x");
    check(carried_by(0x042) == ESCAPE && carried_by(0x1BD) == ESCAPE, "001000010 and 110111101 are the escapes");
}

static void fields(void)
{
    for (size_t i = 0; i < COUNT_OF(worked_codings); i++)
        codes_as(worked_codings[i].payload, worked_codings[i].field);
    for (size_t i = 0; i < COUNT_OF(worked_answers); i++) {
        const struct worked_answer *worked = &worked_answers[i];
        struct slice given = bytes(worked->given);
        expect(question(worked->call, 0, given.byte, given.length, worked->room), refused(worked->refusal, worked->low),
               NULL, 0);
    }
}

static void all_bounds(void)
{
    for (size_t i = 0; i < COUNT_OF(worked_bounds); i++) {
        const struct worked_bounds *worked = &worked_bounds[i];
        uint64_t refusal = refused(worked->refusal, 0);
        bounds(worked->identifier, worked->size, refusal != 0 ? refusal : accepted(worked->least, worked->most));
    }
    bounds(0, 0, accepted(47, 51));
    bounds(0x558, 0, accepted(46, 50));
    bounds(0, SIZE_MAX, refused(PAYLOAD_TOO_LONG, 0));
}

/* The frame that document 01 works by hand, bit by bit. */
static void empty_frame(void)
{
    const struct worked_frame *worked = &worked_frame;
    struct slice line = bits("00000 1 00000 1 00000 1 0000  0 1 00000 1 00000 1 0000  1 1 1 1111111");
    struct row header = header_of(worked->identifier, 0);
    expect(question(FRAME_LENGTH, worked->identifier, NULL, 0, 0), accepted(worked->bits, 0), NULL, 0);
    expect(question(MAKE_FRAME, worked->identifier, NULL, 0, 115), refused(ROOM_SHORT, 0), NULL, 0);
    expect(question(MAKE_FRAME, worked->identifier, NULL, 0, 116), accepted(worked->bits, 0), line.byte, line.length);
    reads_as(line, worked->identifier, bytes(""));
    check(crc_of(header) == worked->crc, "the CRC of the frame worked by hand is as said");
    check(stuffed(&header).length == BASE_HEADER + worked->in_header, "its header has the stuff bits that are said");
    check(line.length == BASE_HEADER + worked->in_header + CRC + worked->in_crc + UNSTUFFED, "its CRC has those said");
}

/* Where the size or the room is refused, the identifier was not. */
static void takes_identifier(uint32_t identifier, size_t room)
{
    struct slice payload = bytes("0000000000000000");
    bounds(identifier, 8, refused(PAYLOAD_TOO_LONG, 0));
    expect(question(FRAME_LENGTH, identifier, payload.byte, 8, 0), refused(PAYLOAD_TOO_LONG, 0), NULL, 0);
    expect(question(MAKE_FRAME, identifier, payload.byte, 8, room), refused(PAYLOAD_TOO_LONG, 0), NULL, 0);
    expect(question(MAKE_FRAME, identifier, payload.byte, 7, room - 1), refused(ROOM_SHORT, 0), NULL, 0);
    check(compare(question(MAKE_FRAME, identifier, payload.byte, 7, room)) >> 16 == 0, "this room is enough");
}

/* 8 comes before 1 and 2. */
static void refuses_identifier(uint32_t identifier)
{
    struct slice payload = bytes("0000000000000000");
    for (size_t size = 0; size <= 8; size += 8) {
        uint64_t answer = refused(IDENTIFIER_TOO_LARGE, 0);
        bounds(identifier, size, answer);
        expect(question(FRAME_LENGTH, identifier, payload.byte, size, 0), answer, NULL, 0);
        expect(question(MAKE_FRAME, identifier, payload.byte, size, 0), answer, NULL, 0);
        expect(question(MAKE_FRAME, identifier, payload.byte, size, 141), answer, NULL, 0);
    }
}

/* The greatest identifier of each form and the next number; bit 31 alone is identifier 0 of the long form. */
static void limits(void)
{
    takes_identifier(0, 116);
    takes_identifier(2047, 116);
    takes_identifier(LONG_FORM, 141);
    takes_identifier(LONG_FORM | 2047, 141);
    takes_identifier(LONG_FORM | 2048, 141);
    takes_identifier(LONG_FORM | 536870911, 141);
    refuses_identifier(2048);
    refuses_identifier(536870911);
    refuses_identifier(536870912);
    refuses_identifier(0x7FFFFFFF);
    refuses_identifier(LONG_FORM | 536870912);
    refuses_identifier(LONG_FORM | 0x40000000);
    refuses_identifier(0xFFFFFFFF);
}

static void frame_is(uint32_t identifier, struct slice payload, size_t room, struct slice line)
{
    expect(question(FRAME_LENGTH, identifier, payload.byte, payload.length, 0), accepted(line.length, 0), NULL, 0);
    expect(question(MAKE_FRAME, identifier, payload.byte, payload.length, room - 1), refused(ROOM_SHORT, 0), NULL, 0);
    expect(question(MAKE_FRAME, identifier, payload.byte, payload.length, room), accepted(line.length, 0), line.byte,
           line.length);
    reads_as(line, identifier, payload);
}

/* The same number in both forms; a long identifier of 0s, of 1s, and one with a stuff bit between SRR and IDE. */
static void long_frames(void)
{
    frame_is(0x555, bytes("F0"), 116,
             bits("0 10101010101 0 0 0 00 1 10  1 110101001 010101  01011111 0 1001011  1 1 1 1111111"));
    frame_is(LONG_FORM | 0x555, bytes("F0"), 141,
             bits("00000 1 00000 1 00 1 1 00000 1 0010101010101 0 00 00 1 10  1 110101001 010101  110101100100011  "
                  "1 1 1 1111111"));
    frame_is(LONG_FORM, bytes(""), 141,
             bits("00000 1 00000 1 00 1 1 00000 1 00000 1 00000 1 000 0 0 1 0 0000 1  100011000010000  1 1 1 1111111"));
    frame_is(LONG_FORM | 0x1FFFFFFF, bytes("FF"), 141,
             bits("0 11111 0 11111 0 1 1 1 11 0 11111 0 11111 0 11111 0 1 0 00 00 1 10  1 110111100 010101  "
                  "011100101101001  1 1 1 1111111"));
    frame_is(LONG_FORM | 0x153C1234, bytes("F0"), 141,
             bits("0 10101001111 1 0 1 00000 1 1001000110100 0 00 1 0010  1 110101001 010101  1011111 0 0000 1 0101  "
                  "1 1 1 1111111"));
    bounds(LONG_FORM, 0, accepted(71, 75));
    bounds(LONG_FORM, 1, accepted(86, 90));
    bounds(LONG_FORM | 0x1FFFFFFF, 0, accepted(71, 75));
    bounds(LONG_FORM | 0x1FFFFFFF, 1, accepted(87, 91));
    bounds(LONG_FORM | 0x15555555, 1, accepted(81, 85));
    bounds(LONG_FORM | 0x15555555, 7, accepted(128, 132));
    bounds(LONG_FORM | 0xC3C3C, 0, accepted(73, 77)); /* nine stuff bits in the header, and no header has more */
    bounds(LONG_FORM | 0xC3C3C, 7, accepted(136, 140));
}

static void lines(void)
{
    both_refuse(bits("0 10101010100 000 1 1111 1"), WRONG_FIELD_LENGTH, 19);
    both_refuse(bits("0 10101011000 0 0 0"), SIXTH_EQUAL_BIT, 14);
    both_refuse(bits(""), WRONG_LINE_LENGTH, 0);
    both_refuse(bits("0 0 0 0 0"), WRONG_LINE_LENGTH, 5);
    both_refuse(bits("1"), WRONG_FIXED_BIT, 0);
    both_refuse(bits("2"), LINE_BYTE_ABOVE_1, 0);
}

/* RTR or SRR is judged once IDE is read: where a stuff bit is due between them, where none is, and where one is due
 * before both or behind both. */
static void bits_before_ide(void)
{
    both_refuse(bits("0 10101001111 1"), WRONG_LINE_LENGTH, 13);
    both_refuse(bits("0 10101001111 1 2"), LINE_BYTE_ABOVE_1, 13);
    both_refuse(bits("0 10101001111 1 1"), SIXTH_EQUAL_BIT, 13);
    both_refuse(bits("0 10101001111 1 0"), WRONG_LINE_LENGTH, 14);
    both_refuse(bits("0 10101001111 1 0 2"), LINE_BYTE_ABOVE_1, 14);
    both_refuse(bits("0 10101001111 1 0 0"), WRONG_FIXED_BIT, 12);
    both_refuse(bits("0 10101001111 1 0 1"), WRONG_LINE_LENGTH, 15);
    both_refuse(bits("0 10101010000 0 0"), SIXTH_EQUAL_BIT, 13);
    both_refuse(bits("0 10101010000 0 1 1"), WRONG_FIXED_BIT, 12);
    both_refuse(bits("0 10101010000 0 1 0"), WRONG_LINE_LENGTH, 15);
    both_refuse(bits("0 10101001111 0 1"), WRONG_FIXED_BIT, 12);
    both_refuse(bits("0 10101010101 0 1"), WRONG_FIXED_BIT, 12);
    both_refuse(bits("0 10101010101 1 0"), WRONG_FIXED_BIT, 12);
    both_refuse(bits("0 10101010101 1"), WRONG_LINE_LENGTH, 13);
    both_refuse(bits("0 10101010101 1 2"), LINE_BYTE_ABOVE_1, 13);
    both_refuse(bits("0 10101010101 1 1"), WRONG_LINE_LENGTH, 14);
    both_refuse(bits("0 10101011111 0 1 0"), WRONG_FIXED_BIT, 13);
    both_refuse(bits("0 10101011111 0 0 1"), WRONG_FIXED_BIT, 13);
    both_refuse(bits("0 10101000111 1 1 1"), SIXTH_EQUAL_BIT, 14);
    both_refuse(bits("0 10101000111 1 0 1"), WRONG_FIXED_BIT, 12);
    both_refuse(bits("0 10101011000 0 1 2"), WRONG_FIXED_BIT, 12);
}

/* What stands behind IDE in the long form: RTR is at 32, the reserved bits at 33 and 34, five 0s end at 36. */
static void long_lines(void)
{
    both_refuse(bits("0 10101010101 1 1 010101010101010101 1"), WRONG_FIXED_BIT, 32);
    both_refuse(bits("0 10101010101 1 1 010101010101010101 0 1"), WRONG_FIXED_BIT, 33);
    both_refuse(bits("0 10101010101 1 1 010101010101010101 0 0 1"), WRONG_FIXED_BIT, 34);
    both_refuse(bits("0 10101010101 1 1 010101010101010101 0 0"), WRONG_LINE_LENGTH, 34);
    both_refuse(bits("0 10101010101 1 1 010101010101010101 0 0 2"), LINE_BYTE_ABOVE_1, 34);
    both_refuse(bits("0 10101010101 1 1 010101010101010101 0 00 00 0"), SIXTH_EQUAL_BIT, 37);
    both_refuse(bits("0 10101010101 1 1 010101010101010101 0 00 00 1 01"), WRONG_FIELD_LENGTH, 39);
    both_refuse(bits("0 10101010101 1 1 010101010101010101 0 00 1001"), WRONG_FIELD_LENGTH, 38);
    both_refuse(bits("0 10101010101 1 1 010101010101001111 1"), WRONG_FIXED_BIT, 32);
    both_refuse(bits("0 10101010101 1 1 010101010101010000 0 0"), SIXTH_EQUAL_BIT, 33);
    both_refuse(bits("0 10101010101 1 1 010101010101010000 0 1 1"), WRONG_FIXED_BIT, 34);
}

/* A line that is refused behind its ACK slot: with 1 there, the default call says so first. */
static void refused_behind(struct slice line, size_t ack_slot, enum refusal refusal, size_t place)
{
    both_refuse(with(line, ack_slot, 0), refusal, place);
    refuses(READ_OWN_LINE, with(line, ack_slot, 1), 8, refusal, place);
    refuses(READ_LINE, with(line, ack_slot, 1), 8, NOT_ACKNOWLEDGED, ack_slot);
}

/* Identifier 0, empty payload, 50 bits: the CRC delimiter is at 40, the ACK slot at 41, the ACK delimiter at 42. */
static void ack_slots(void)
{
    struct slice unheard = bits("00000 1 00000 1 00000 1 0000  0 1 00000 1 00000 1 0000  1 1 1 1111111");
    for (uint8_t ack = 0; ack <= 1; ack++) {
        struct slice line = with(unheard, 41, ack);
        both_refuse(cut(line, 40), WRONG_LINE_LENGTH, 40);
        both_refuse(with(line, 40, 2), LINE_BYTE_ABOVE_1, 40);
        both_refuse(with(line, 40, 0), WRONG_FIXED_BIT, 40);
        both_refuse(cut(line, 41), WRONG_LINE_LENGTH, 41);
    }
    both_refuse(with(unheard, 41, 2), LINE_BYTE_ABOVE_1, 41);
    both_refuse(with(unheard, 41, 255), LINE_BYTE_ABOVE_1, 41);
    refused_behind(cut(unheard, 42), 41, WRONG_LINE_LENGTH, 42);
    refused_behind(with(unheard, 42, 2), 41, LINE_BYTE_ABOVE_1, 42);
    refused_behind(with(unheard, 42, 0), 41, WRONG_FIXED_BIT, 42);
    refused_behind(with(unheard, 49, 0), 41, WRONG_FIXED_BIT, 49);
    refused_behind(followed_by(unheard, 0), 41, WRONG_LINE_LENGTH, 50);
    refused_behind(followed_by(unheard, 2), 41, WRONG_LINE_LENGTH, 50);
}

/* A frame of identifier 0 and 65 bits: the last CRC bit is at 53, a stuff bit at 54, the CRC delimiter at 55, the ACK
 * slot at 56. */
static void stuffed_behind_the_crc(struct slice payload, struct slice line)
{
    uint8_t sixth = line.byte[53];
    struct slice wrong_crc = with(line, 34, !line.byte[34]); /* a data bit, in no run of five either way */
    expect(question(FRAME_LENGTH, 0, payload.byte, 1, 0), accepted(65, 0), NULL, 0);
    expect(question(MAKE_FRAME, 0, payload.byte, 1, 116), accepted(65, 0), line.byte, 65);
    reads_as(line, 0, payload);
    refuses(READ_OWN_LINE, line, 0, ROOM_SHORT, 0);
    refuses(READ_LINE, line, 0, NOT_ACKNOWLEDGED, 56);
    both_refuse(cut(line, 54), WRONG_LINE_LENGTH, 54);
    both_refuse(with(line, 54, 2), LINE_BYTE_ABOVE_1, 54);
    both_refuse(with(line, 54, sixth), SIXTH_EQUAL_BIT, 54);
    both_refuse(cut(line, 55), WRONG_LINE_LENGTH, 55);
    both_refuse(with(line, 55, 2), LINE_BYTE_ABOVE_1, 55);
    both_refuse(with(line, 55, 0), WRONG_FIXED_BIT, 55);
    refused_behind(cut(line, 64), 56, WRONG_LINE_LENGTH, 64);
    both_refuse(wrong_crc, CRC_DIFFERS, 53);
    both_refuse(cut(wrong_crc, 54), CRC_DIFFERS, 53);
    both_refuse(with(wrong_crc, 54, 2), CRC_DIFFERS, 53);
    both_refuse(with(wrong_crc, 54, sixth), CRC_DIFFERS, 53);
}

/* A CRC that ends in five 1s, one that ends in five 0s, and what is said where the stuff bit is missing. */
static void last_stuff_bits(void)
{
    struct slice ones = bits("00000 1 00000 1 00000 1 0010  1 011101100 010101  000011111 0 011111 0  1 1 1 1111111");
    struct slice zeros = bits("00000 1 00000 1 00000 1 0010  1 011001100 010101  1111 0 11000100000 1  1 1 1 1111111");
    struct slice missing = without(zeros, 54);
    stuffed_behind_the_crc(bytes("77"), ones);
    stuffed_behind_the_crc(bytes("5F"), zeros);
    both_refuse(without(ones, 54), SIXTH_EQUAL_BIT, 54);
    refuses(READ_OWN_LINE, missing, 8, WRONG_LINE_LENGTH, 64);
    refuses(READ_LINE, missing, 8, NOT_ACKNOWLEDGED, 56); /* its ACK delimiter stands where the ACK slot must */
    both_refuse(with(missing, 55, 0), WRONG_FIXED_BIT, 55); /* its ACK slot stands where a delimiter must */
}

/* 115 bits, with three stuff bits in the header, and 140 bits in the long form, with eight; both have four in the CRC,
 * the last of them behind it. */
static void longest_frames(void)
{
    struct slice line = bits("00000 1 00000 1 00000 1 1000  1 001000011 001000011 001000011 001000011 001000011 "
                             "100001011 100111011  111 0 0000 1 1111 0 0000 1  1 1 1 1111111");
    struct slice long_line = bits("00000 1 00000 1 11 1 1 0 0000 1 1111 0 0000 1 1111 0 00 0 0 1 0 1000  "
                                  "1 001101011 010111001 010110001 100001100 110110110 101001011 101010100  "
                                  "000 1 1111 0 0000 1 1111 0  1 1 1 1111111");
    check(line.length == 115 && long_line.length == 140, "the longest frames have 115 bits and 140 bits");
    frame_is(0, bytes("000000000082A6"), 116, line);
    frame_is(LONG_FORM | 0xC3C3C, bytes("1E524C83FBB0B7"), 141, long_line);
}

static void crc(void)
{
    struct row row = {.length = 0};
    for (const char *character = "123456789"; *character != '\0'; character++)
        append_number(&row, (unsigned char)*character, 8);
    check(crc_of(row) == 0x059E, "the CRC of the ASCII bytes 123456789 is 059E");
}

void ask_known(void)
{
    words();
    fields();
    all_bounds();
    empty_frame();
    limits();
    long_frames();
    lines();
    bits_before_ide();
    long_lines();
    ack_slots();
    last_stuff_bits();
    longest_frames();
    crc();
}
