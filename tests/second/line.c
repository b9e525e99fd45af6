/* Reading a line: its bits from the left, keeping those that are no stuff bits; the first problem met is the answer. */
#include "answer.h"
#include "field.h"
#include "frame.h"
#include "second.h"

/* The bits of the header by number, stuff bits not counted: what both forms have, then what follows IDE in each. The
 * DLC is a header's last four bits. */
enum { START_OF_FRAME = 0, IDENTIFIER = 1, BEFORE_IDE = 12, IDE = 13 };
enum { BASE_RESERVED = 14 };
enum { LOW_IDENTIFIER = 14, LONG_RTR = 32, LONG_RESERVED_1 = 33, LONG_RESERVED_0 = 34 };

/* What the ACK slot must hold: 0, since with 1 nobody heard the frame, or either. */
enum ack { ONLY_0, EITHER };

/* What is read of a line: its bits without stuff bits, where each of them stands in the line, and what the header says:
 * the form and the field bytes n. Until IDE is read the form is the base form; until the DLC is read n is the most
 * there can be. */
struct reading {
    struct row bits;
    size_t place[CELLS];
    int is_long;
    size_t n;
};

static size_t header_bits(const struct reading *reading)
{
    return reading->is_long ? LONG_HEADER : BASE_HEADER;
}

/* How many bits the CRC covers: header and data field. */
static size_t covered_bits(const struct reading *reading)
{
    return header_bits(reading) + 8 * reading->n;
}

/* How many bits are stuffed: header, data field and CRC. */
static size_t stuffed_bits(const struct reading *reading)
{
    return covered_bits(reading) + CRC;
}

static uint32_t identifier_of(const struct reading *reading)
{
    const struct row *bits = &reading->bits;
    uint32_t high = number_at(bits, IDENTIFIER, 11);
    return reading->is_long ? LONG_FORM | high << LOW_BITS | number_at(bits, LOW_IDENTIFIER, LOW_BITS) : high;
}

static int crc_differs(const struct reading *reading)
{
    struct row covered = reading->bits;
    covered.length = covered_bits(reading);
    return crc_of(covered) != number_at(&reading->bits, covered.length, CRC);
}

/* Whether the header's bit of this number must be 0 and is judged as soon as it is read. */
static int must_be_0(const struct reading *reading, size_t number)
{
    if (reading->is_long)
        return number == LONG_RTR || number == LONG_RESERVED_1 || number == LONG_RESERVED_0;
    return number == START_OF_FRAME || number == BASE_RESERVED;
}

/* Once IDE is read: whether the bit before it is wrong. In the base form it is RTR, 0, in the long form SRR, 1. */
static int wrong_before_ide(const struct reading *reading)
{
    return reading->bits.bit[BEFORE_IDE] != (reading->is_long ? 1 : 0);
}

/* The refusal that the newest bit brings by what it means: 13, 3, 12 or 20. */
static enum refusal newest_refusal(const struct reading *reading, enum ack ack)
{
    size_t n = reading->n, newest = reading->bits.length - 1, crc_delimiter = stuffed_bits(reading);
    size_t last_dlc_bit = header_bits(reading) - 1, last_crc_bit = crc_delimiter - 1, ack_slot = crc_delimiter + 1;
    int bit = reading->bits.bit[newest];
    if (must_be_0(reading, newest))
        return bit == 0 ? NO_REFUSAL : WRONG_FIXED_BIT;
    if (newest == IDE)
        return wrong_before_ide(reading) ? WRONG_FIXED_BIT : NO_REFUSAL;
    if (newest == last_dlc_bit)
        return n == 1 || n > MOST_FIELD ? WRONG_FIELD_LENGTH : NO_REFUSAL;
    if (newest == last_crc_bit)
        return crc_differs(reading) ? CRC_DIFFERS : NO_REFUSAL;
    if (newest == ack_slot)
        return bit == 0 || ack == EITHER ? NO_REFUSAL : NOT_ACKNOWLEDGED;
    if (newest >= crc_delimiter)
        return bit == 1 ? NO_REFUSAL : WRONG_FIXED_BIT;
    return NO_REFUSAL;
}

/* A stuff bit is due after five equal bits that end in the header, the data field or the CRC. */
static int stuff_bit_due(const struct reading *reading, const uint8_t *line, size_t place)
{
    return place >= 5 && all_equal(line + place - 5, 5) && reading->bits.length <= stuffed_bits(reading);
}

/* Keeps the bit at this place of the line. IDE chooses the form; a header's last four bits are the DLC. */
static void keep(struct reading *reading, int bit, size_t place)
{
    struct row *bits = &reading->bits;
    reading->place[bits->length] = place;
    append(bits, bit);
    if (bits->length == IDE + 1)
        reading->is_long = bit;
    if (bits->length == header_bits(reading))
        reading->n = number_at(bits, bits->length - 4, 4);
}

/* Looks at one place of the line: a refusal, or 0. At IDE it is the bit before that can be wrong, and its own place is
 * named. */
static uint64_t look_at(struct reading *reading, const uint8_t *line, size_t line_len, size_t place, enum ack ack)
{
    if (place == line_len)
        return refused(WRONG_LINE_LENGTH, place);
    if (line[place] > 1)
        return refused(LINE_BYTE_ABOVE_1, place);
    if (stuff_bit_due(reading, line, place))
        return line[place] == line[place - 1] ? refused(SIXTH_EQUAL_BIT, place) : 0;
    keep(reading, line[place], place);
    enum refusal refusal = newest_refusal(reading, ack);
    size_t newest = reading->bits.length - 1, judged = newest == IDE ? BEFORE_IDE : newest;
    return refusal == NO_REFUSAL ? 0 : refused(refusal, reading->place[judged]);
}

static uint64_t decode_data(const struct reading *reading, uint8_t *payload, size_t payload_room)
{
    uint8_t field[MOST_FIELD];
    for (size_t i = 0; i < reading->n; i++)
        field[i] = (uint8_t)number_at(&reading->bits, header_bits(reading) + 8 * i, 8);
    return second_decode(field, reading->n, payload, payload_room);
}

static uint64_t read_line(const uint8_t *line, size_t line_len, uint8_t *payload, size_t payload_room, enum ack ack)
{
    struct reading reading;
    reading.bits.length = 0;
    reading.is_long = 0;
    reading.n = MOST_FIELD;
    size_t place = 0;
    for (; reading.bits.length < stuffed_bits(&reading) + UNSTUFFED; place++) {
        uint64_t refusal = look_at(&reading, line, line_len, place, ack);
        if (refusal != 0)
            return refusal;
    }
    if (place < line_len)
        return refused(WRONG_LINE_LENGTH, place);
    uint64_t answer = decode_data(&reading, payload, payload_room);
    int is_accepted = answer >> 16 == 0;
    return is_accepted ? accepted(answer, identifier_of(&reading)) : answer;
}

uint64_t second_read_line(const uint8_t *line, size_t line_len, uint8_t *payload, size_t payload_room)
{
    return read_line(line, line_len, payload, payload_room, ONLY_0);
}

uint64_t second_read_own_line(const uint8_t *line, size_t line_len, uint8_t *payload, size_t payload_room)
{
    return read_line(line, line_len, payload, payload_room, EITHER);
}
