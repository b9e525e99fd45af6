/* The frame on the wire: header, data field, CRC and stuffing; its length and the bounds of its length. */
#include "frame.h"

#include "answer.h"
#include "field.h"
#include "second.h"

static int is_long(uint32_t identifier)
{
    return (identifier & LONG_FORM) != 0;
}

/* The identifier as a number, without the bit that says its form. */
static uint32_t number_of(uint32_t identifier)
{
    return identifier & ~LONG_FORM;
}

size_t frame_room(uint32_t identifier)
{
    return is_long(identifier) ? 141 : 116;
}

static void append_base(struct row *header, uint32_t number)
{
    append_number(header, number, 11);
    append(header, 0); /* RTR */
    append(header, 0); /* IDE */
    append(header, 0); /* reserved bit */
}

static void append_long(struct row *header, uint32_t number)
{
    append_number(header, number >> LOW_BITS, 11);
    append(header, 1); /* SRR */
    append(header, 1); /* IDE */
    append_number(header, number, LOW_BITS);
    append(header, 0); /* RTR */
    append(header, 0); /* reserved bit */
    append(header, 0); /* reserved bit */
}

struct row header_of(uint32_t identifier, unsigned dlc)
{
    struct row header = {.length = 0};
    append(&header, 0); /* start of frame */
    (is_long(identifier) ? append_long : append_base)(&header, number_of(identifier));
    append_number(&header, dlc, 4);
    return header;
}

/* Long division: wherever a bit is still 1, the polynomial is subtracted there. */
unsigned crc_of(struct row bits)
{
    static const int exponent[] = {15, 14, 10, 8, 7, 4, 3, 0};
    size_t length = bits.length;
    append_number(&bits, 0, CRC);
    for (size_t first = 0; first < length; first++)
        if (bits.bit[first] == 1)
            for (size_t term = 0; term < sizeof exponent / sizeof *exponent; term++)
                bits.bit[first + 15 - exponent[term]] ^= 1;
    return number_at(&bits, length, CRC);
}

struct row stuffed(const struct row *bits)
{
    struct row sent = {.length = 0};
    for (size_t i = 0; i < bits->length; i++) {
        append(&sent, bits->bit[i]);
        if (sent.length >= 5 && all_equal(sent.bit + sent.length - 5, 5))
            append(&sent, !bits->bit[i]);
    }
    return sent;
}

struct row line_of(uint32_t identifier, unsigned dlc, const struct row *field)
{
    struct row bits = header_of(identifier, dlc);
    for (size_t i = 0; i < field->length; i++)
        append(&bits, field->bit[i]);
    append_number(&bits, crc_of(bits), CRC);
    struct row line = stuffed(&bits);
    for (int i = 0; i < UNSTUFFED; i++)
        append(&line, 1); /* CRC delimiter, ACK slot, ACK delimiter, seven end bits */
    return line;
}

static enum refusal frame_refusal(uint32_t identifier, size_t payload_len)
{
    if (number_of(identifier) > (is_long(identifier) ? MOST_LONG : MOST_BASE))
        return IDENTIFIER_TOO_LARGE;
    return payload_len > MOST_PAYLOAD ? PAYLOAD_TOO_LONG : NO_REFUSAL;
}

struct row line_of_payload(uint32_t identifier, const uint8_t *payload, size_t size)
{
    struct row field = field_of_payload(payload, size);
    return line_of(identifier, (unsigned)field_bytes(size), &field);
}

uint64_t second_frame_length(uint32_t identifier, const uint8_t *payload, size_t payload_len)
{
    enum refusal refusal = frame_refusal(identifier, payload_len);
    if (refusal != NO_REFUSAL)
        return refused(refusal, 0);
    return accepted(line_of_payload(identifier, payload, payload_len).length, 0);
}

/* 44 + 8n + h and 48 + 8n + h, in the long form 64 and 68, where h stuff bits belong to the header, one after its last
 * bit included. */
uint64_t second_frame_bounds(uint32_t identifier, size_t payload_len)
{
    enum refusal refusal = frame_refusal(identifier, payload_len);
    if (refusal != NO_REFUSAL)
        return refused(refusal, 0);
    size_t n = field_bytes(payload_len);
    struct row header = header_of(identifier, (unsigned)n);
    size_t h = stuffed(&header).length - header.length;
    return is_long(identifier) ? accepted(64 + 8 * n + h, 68 + 8 * n + h) : accepted(44 + 8 * n + h, 48 + 8 * n + h);
}

uint64_t second_make_frame(uint32_t identifier, const uint8_t *payload, size_t payload_len, uint8_t *line,
                           size_t line_room)
{
    enum refusal refusal = frame_refusal(identifier, payload_len);
    if (refusal != NO_REFUSAL)
        return refused(refusal, 0);
    if (line_room < frame_room(identifier))
        return refused(ROOM_SHORT, 0);
    struct row made = line_of_payload(identifier, payload, payload_len);
    for (size_t i = 0; i < made.length; i++)
        line[i] = made.bit[i];
    return accepted(made.length, 0);
}
