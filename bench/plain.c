/* The codec as plain firmware has it: full tables, a bit accumulator, a CRC by bytes, stuffing bit by bit. */
#include "plain.h"

#include <prushgoli.h>
#include <stdbool.h>
#include <string.h>

#include "tables.h"

enum { CRC_BITS = 15, TAIL_BITS = 10, MOST_EQUAL = 5, MOST_IN_CRC = 4 };

/* Both headers begin with start of frame, 11 identifier bits, RTR or SRR, IDE. In the long one the other 18 identifier
 * bits follow. Then come a reserved bit, in the long form RTR and two reserved bits, and the DLC. */
enum { TO_IDE = 14, LOW_BITS = 18, BASE_REST = 5, LONG_REST = 7 };
enum { BASE_HEADER = TO_IDE + BASE_REST, LONG_HEADER = TO_IDE + LOW_BITS + LONG_REST };
enum { START_OF_FRAME = 1 << (TO_IDE - 1), REST_ZEROS = 7 << 4, SRR_AND_IDE = 3 << 25 };

/* Where the lowest bit of an identifier stands in its header, and that of the 11 in a long one. */
enum { IDENTIFIER = 7, HIGH_IDENTIFIER = 27 };
enum { MOST_BASE = 2047, MOST_LONG = 0x1FFFFFFF, LOW_MASK = (1 << LOW_BITS) - 1 };

static uint64_t refused(unsigned refusal, size_t place)
{
    return (uint64_t)refusal << 16 | place;
}

static size_t field_bytes(size_t size)
{
    return size == 0 ? 0 : size + 1;
}

/* The complement of the lowest bit of the DLC, which is one more than the size. */
static unsigned break_bit(size_t size)
{
    return size & 1;
}

static unsigned padding(unsigned count)
{
    return 0x55u >> (8 - count);
}

/* Each word lets one byte go and leaves one bit more behind; the last byte takes these and the padding. */
static void code_field(const uint8_t *payload, size_t size, uint8_t *field)
{
    uint32_t bits = break_bit(size);
    unsigned count = 1;
    for (size_t i = 0; i < size; i++) {
        bits = bits << 9 | word_of[payload[i]];
        field[i] = (uint8_t)(bits >> ++count);
    }
    if (size > 0)
        field[size] = (uint8_t)(bits << (8 - count) | padding(8 - count));
}

uint64_t plain_encode(const uint8_t *payload, size_t payload_len, uint8_t *field, size_t field_room)
{
    if (payload_len > PRUSHGOLI_PAYLOAD_MOST)
        return refused(PRUSHGOLI_PAYLOAD_TOO_LONG, 0);
    if (field_room < field_bytes(payload_len))
        return refused(PRUSHGOLI_ROOM_SHORT, 0);
    code_field(payload, payload_len, field);
    return field_bytes(payload_len);
}

/* Each word takes one more byte in and leaves one bit less behind, the padding in the end. */
static uint64_t decode_field(const uint8_t *field, size_t size, uint8_t *payload)
{
    uint8_t byte[PRUSHGOLI_PAYLOAD_MOST];
    uint32_t bits = field[0];
    unsigned count = 7;
    if (bits >> count != break_bit(size))
        return refused(PRUSHGOLI_BREAK_BIT, 0);
    for (size_t i = 0; i < size; i++) {
        bits = bits << 8 | field[i + 1];
        unsigned symbol = symbol_of[bits >> --count & 0x1FF];
        if (symbol > 0xFF)
            return refused(symbol == ESCAPE ? PRUSHGOLI_ESCAPE : PRUSHGOLI_NO_WORD, i);
        byte[i] = (uint8_t)symbol;
    }
    if ((bits & ((1u << count) - 1)) != padding(count))
        return refused(PRUSHGOLI_PADDING, 0);
    memcpy(payload, byte, size);
    return size;
}

uint64_t plain_decode(const uint8_t *field, size_t field_len, uint8_t *payload, size_t payload_room)
{
    if (field_len == 0)
        return 0;
    if (field_len == 1 || field_len > PRUSHGOLI_FIELD_MOST)
        return refused(PRUSHGOLI_FIELD_LENGTH, 0);
    if (payload_room < field_len - 1)
        return refused(PRUSHGOLI_ROOM_SHORT, 0);
    return decode_field(field, field_len - 1, payload);
}

/* What is sent, before it is stuffed. */
struct frame {
    uint64_t header;
    unsigned header_bits;
    size_t n;
    uint8_t field[PRUSHGOLI_FIELD_MOST];
    unsigned crc;
};

static bool is_long(const struct frame *frame)
{
    return frame->header_bits > BASE_HEADER;
}

static unsigned crc_step(unsigned crc, unsigned byte)
{
    return (crc << 8 ^ crc_of[(crc >> 7 ^ byte) & 0xFF]) & 0x7FFF;
}

/* Zeros in front leave a CRC of 0 as it is, so that the header can be three bytes, or five. */
static unsigned crc_of_frame(const struct frame *frame)
{
    unsigned high = (unsigned)(frame->header >> 24), low = (unsigned)frame->header, crc = 0;
    if (is_long(frame))
        crc = crc_step(crc_step(0, high >> 8), high);
    crc = crc_step(crc_step(crc_step(crc, low >> 16), low >> 8), low);
    for (size_t i = 0; i < frame->n; i++)
        crc = crc_step(crc, frame->field[i]);
    return crc;
}

/* The header of an identifier and a size, or a refusal. */
static inline uint64_t fill_header(struct frame *frame, uint32_t identifier, size_t size)
{
    uint32_t number = identifier & ~PRUSHGOLI_LONG;
    if (number == identifier) {
        if (number > MOST_BASE)
            return refused(PRUSHGOLI_IDENTIFIER, 0);
        frame->header_bits = BASE_HEADER;
        frame->header = number << IDENTIFIER;
    } else {
        if (number > MOST_LONG)
            return refused(PRUSHGOLI_IDENTIFIER, 0);
        frame->header_bits = LONG_HEADER;
        uint64_t high = number >> LOW_BITS, low = number & LOW_MASK;
        frame->header = high << HIGH_IDENTIFIER | SRR_AND_IDE | low << IDENTIFIER;
    }
    if (size > PRUSHGOLI_PAYLOAD_MOST)
        return refused(PRUSHGOLI_PAYLOAD_TOO_LONG, 0);
    frame->n = field_bytes(size);
    frame->header |= frame->n;
    return 0;
}

static uint64_t fill_frame(struct frame *frame, uint32_t identifier, const uint8_t *payload, size_t size)
{
    uint64_t refusal = fill_header(frame, identifier, size);
    if (refusal != 0)
        return refusal;
    code_field(payload, size, frame->field);
    frame->crc = crc_of_frame(frame);
    return 0;
}

/* The newest run of equal bits on the wire; before the first bit the bus is at 1. */
struct run {
    unsigned bit, length;
};
static const struct run idle = {1, 0};

/* A bit is sent. Tells whether a stuff bit follows it, which is the first of the next run. */
static bool stuffs(struct run *run, unsigned bit)
{
    if (bit != run->bit) {
        *run = (struct run){bit, 1};
        return false;
    }
    if (++run->length < MOST_EQUAL)
        return false;
    *run = (struct run){!bit, 1};
    return true;
}

static size_t count_stuffed(struct run *run, uint64_t value, unsigned width)
{
    size_t stuffed = 0;
    while (width-- > 0)
        stuffed += stuffs(run, value >> width & 1);
    return stuffed;
}

uint64_t plain_frame_length(uint32_t identifier, const uint8_t *payload, size_t payload_len)
{
    struct frame frame;
    struct run run = idle;
    uint64_t refusal = fill_frame(&frame, identifier, payload, payload_len);
    if (refusal != 0)
        return refusal;
    size_t stuffed = count_stuffed(&run, frame.header, frame.header_bits);
    for (size_t i = 0; i < frame.n; i++)
        stuffed += count_stuffed(&run, frame.field[i], 8);
    stuffed += count_stuffed(&run, frame.crc, CRC_BITS);
    return frame.header_bits + 8 * frame.n + CRC_BITS + TAIL_BITS + stuffed;
}

uint64_t plain_frame_bounds(uint32_t identifier, size_t payload_len)
{
    struct frame frame;
    struct run run = idle;
    uint64_t refusal = fill_header(&frame, identifier, payload_len);
    if (refusal != 0)
        return refusal;
    size_t stuffed = count_stuffed(&run, frame.header, frame.header_bits);
    uint64_t least = frame.header_bits + 8 * frame.n + CRC_BITS + TAIL_BITS + stuffed;
    return (least + MOST_IN_CRC) << 32 | least;
}

/* Writes the bits of a value, highest first, and their stuff bits; gives where the next bit goes. */
static uint8_t *send(uint8_t *line, struct run *run, uint64_t value, unsigned width)
{
    while (width-- > 0) {
        unsigned bit = value >> width & 1;
        *line++ = (uint8_t)bit;
        if (stuffs(run, bit))
            *line++ = !bit;
    }
    return line;
}

uint64_t plain_make_frame(uint32_t identifier, const uint8_t *payload, size_t payload_len, uint8_t *line,
                          size_t line_room)
{
    struct frame frame;
    struct run run = idle;
    uint64_t refusal = fill_frame(&frame, identifier, payload, payload_len);
    if (refusal != 0)
        return refusal;
    if (line_room < (is_long(&frame) ? PRUSHGOLI_LONG_LINE_ROOM : PRUSHGOLI_LINE_ROOM))
        return refused(PRUSHGOLI_ROOM_SHORT, 0);
    uint8_t *end = send(line, &run, frame.header, frame.header_bits);
    for (size_t i = 0; i < frame.n; i++)
        end = send(end, &run, frame.field[i], 8);
    end = send(end, &run, frame.crc, CRC_BITS);
    memset(end, 1, TAIL_BITS);
    return (uint64_t)(end + TAIL_BITS - line);
}

/* A line of which `place` bits are read, the number that came last, and the refusal, if there is one. */
struct reader {
    const uint8_t *line;
    size_t length, place;
    struct run run;
    uint32_t value;
    uint64_t refusal;
};

/* Refuses the bit that was read last. */
static bool refuse(struct reader *reader, unsigned refusal)
{
    reader->refusal = refused(refusal, reader->place - 1);
    return false;
}

static bool next_bit(struct reader *reader, unsigned *bit)
{
    if (reader->place++ == reader->length)
        return refuse(reader, PRUSHGOLI_LINE_LENGTH);
    *bit = reader->line[reader->place - 1];
    return *bit <= 1 || refuse(reader, PRUSHGOLI_LINE_BYTE);
}

/* The stuff bit that is due; it starts the next run. */
static bool next_stuff_bit(struct reader *reader)
{
    struct run *run = &reader->run;
    unsigned bit;
    if (!next_bit(reader, &bit))
        return false;
    if (bit == run->bit)
        return refuse(reader, PRUSHGOLI_STUFF_BIT);
    *run = (struct run){bit, 1};
    return true;
}

/* The next bit that is no stuff bit. */
static bool next_unstuffed(struct reader *reader, unsigned *bit)
{
    struct run *run = &reader->run;
    if (run->length == MOST_EQUAL && !next_stuff_bit(reader))
        return false;
    if (!next_bit(reader, bit))
        return false;
    *run = (struct run){*bit, *bit == run->bit ? run->length + 1 : 1};
    return true;
}

static bool receive(struct reader *from, unsigned width)
{
    struct reader reader = *from; /* a copy stays in registers */
    unsigned bit;
    for (reader.value = 0; width > 0 && next_unstuffed(&reader, &bit); width--)
        reader.value = reader.value << 1 | bit;
    *from = reader;
    return width == 0;
}

/* The next bits of a header, of which those in `zeros` must be 0. */
static inline bool receive_checked(struct reader *reader, uint64_t *to, unsigned width, unsigned zeros)
{
    uint64_t header = *to;
    unsigned bit;
    while (width-- > 0) {
        if (!next_unstuffed(reader, &bit))
            return false;
        if (bit & zeros >> width)
            return refuse(reader, PRUSHGOLI_FIXED_BIT);
        header = header << 1 | bit;
    }
    *to = header;
    return true;
}

/* IDE was read last. Where five equal bits end two places before it, the place between has a stuff bit. */
static bool refuse_before_ide(struct reader *reader)
{
    const uint8_t *five = reader->line + reader->place - 7;
    reader->place -= memcmp(five, five + 1, 4) == 0 ? 2 : 1;
    return refuse(reader, PRUSHGOLI_FIXED_BIT);
}

/* RTR is 0 where IDE is 0, SRR is 1 where IDE is 1. */
static bool receive_header(struct reader *reader, struct frame *frame)
{
    uint64_t header = 0;
    if (!receive_checked(reader, &header, TO_IDE, START_OF_FRAME))
        return false;
    unsigned ide = header & 1, before_ide = header >> 1 & 1, rest = BASE_REST;
    if (before_ide != ide)
        return refuse_before_ide(reader);
    if (ide) {
        if (!receive(reader, LOW_BITS))
            return false;
        header = header << LOW_BITS | reader->value;
        rest = LONG_REST;
    }
    if (!receive_checked(reader, &header, rest, REST_ZEROS))
        return false;
    frame->header_bits = ide ? LONG_HEADER : BASE_HEADER;
    frame->header = header;
    frame->n = header & 0xF;
    return (frame->n != 1 && frame->n <= PRUSHGOLI_FIELD_MOST) || refuse(reader, PRUSHGOLI_FIELD_LENGTH);
}

static uint32_t identifier_of(const struct frame *frame)
{
    uint32_t low = (uint32_t)(frame->header >> IDENTIFIER), high = (uint32_t)(frame->header >> HIGH_IDENTIFIER);
    return is_long(frame) ? PRUSHGOLI_LONG | high << LOW_BITS | (low & LOW_MASK) : low;
}

static bool receive_field_and_crc(struct reader *reader, struct frame *frame)
{
    for (size_t i = 0; i < frame->n; i++) {
        if (!receive(reader, 8))
            return false;
        frame->field[i] = (uint8_t)reader->value;
    }
    if (!receive(reader, CRC_BITS))
        return false;
    return reader->value == crc_of_frame(frame) || refuse(reader, PRUSHGOLI_CRC);
}

/* A delimiter or an end bit. */
static bool next_one(struct reader *reader)
{
    unsigned bit;
    return next_bit(reader, &bit) && (bit == 1 || refuse(reader, PRUSHGOLI_FIXED_BIT));
}

static bool next_ack(struct reader *reader, unsigned most)
{
    unsigned bit;
    return next_bit(reader, &bit) && (bit <= most || refuse(reader, PRUSHGOLI_NOT_ACKNOWLEDGED));
}

/* The stuff bit that the CRC may draw; CRC delimiter, ACK slot, ACK delimiter and seven end bits; then nothing. */
static bool receive_tail(struct reader *reader, unsigned most_ack)
{
    if (reader->run.length == MOST_EQUAL && !next_stuff_bit(reader))
        return false;
    if (!next_one(reader) || !next_ack(reader, most_ack))
        return false;
    for (unsigned i = 2; i < TAIL_BITS; i++)
        if (!next_one(reader))
            return false;
    return reader->place++ == reader->length || refuse(reader, PRUSHGOLI_LINE_LENGTH);
}

static uint64_t read_line(const uint8_t *line, size_t line_len, uint8_t *payload, size_t payload_room,
                          unsigned most_ack)
{
    struct reader reader = {line, line_len, 0, idle, 0, 0};
    struct frame frame;
    if (!receive_header(&reader, &frame) || !receive_field_and_crc(&reader, &frame) ||
        !receive_tail(&reader, most_ack))
        return reader.refusal;
    uint64_t answer = plain_decode(frame.field, frame.n, payload, payload_room);
    return answer >> 16 == 0 ? (uint64_t)identifier_of(&frame) << 32 | answer : answer;
}

uint64_t plain_read_line(const uint8_t *line, size_t line_len, uint8_t *payload, size_t payload_room)
{
    return read_line(line, line_len, payload, payload_room, 0);
}

uint64_t plain_read_own_line(const uint8_t *line, size_t line_len, uint8_t *payload, size_t payload_room)
{
    return read_line(line, line_len, payload, payload_room, 1);
}
