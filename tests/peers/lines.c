/* Writes lines that the archive makes, and what we say of each: a row of text with identifier (of the long form, with
 * bit 31), DLC, data bytes, CRC, places of the stuff bits, the five bits before a stuff bit behind the last CRC bit,
 * length, the line itself, and the bit in its ACK slot. What there is none of is a -. */
#include "random.h"
#include <prushgoli.h>
#include <stdio.h>
#include <stdlib.h>
#include <string.h>

enum {
    IDENTIFIERS = 0x7F0, /* from here on CAN 2.0 forbids the first eleven bits, and sigrok's decoder warns */
    LOW_BITS = 18,       /* of a long identifier, behind the first eleven */
    BASE_HEADER = 19,
    LONG_HEADER = 39,
    CRC = 15,
    FROM_ACK_SLOT = 9 /* bits to the end of the line */
};

struct frame {
    uint32_t identifier;
    uint8_t payload[PRUSHGOLI_PAYLOAD_MOST];
    size_t size;
    uint8_t ack; /* 1, as it is made, or 0, as a receiver on the bus has it */
};

struct line {
    uint8_t field[PRUSHGOLI_FIELD_MOST], bit[PRUSHGOLI_LONG_LINE_ROOM];
    unsigned header, dlc, length;
};

/* Of a line, what no call tells. */
struct reading {
    unsigned crc, stuff_bits, stuff_place[PRUSHGOLI_LONG_LINE_ROOM];
    const char *five_before;
};

static void must(int holds, const struct frame *frame, const char *what)
{
    if (holds)
        return;
    fprintf(stderr, "tests/peers: identifier %03X, payload of %zu bytes: %s\n", (unsigned)frame->identifier,
            frame->size, what);
    exit(1);
}

/* The line, which has the length that is told of it and is read back, by the default call if it is acknowledged. */
static struct line line_of(const struct frame *frame)
{
    struct line line = {.length = 0};
    uint8_t payload[PRUSHGOLI_PAYLOAD_MOST] = {0};
    prushgoli_answer encoded = prushgoli_encode(frame->payload, frame->size, line.field, sizeof line.field);
    prushgoli_answer made =
        prushgoli_make_frame(frame->identifier, frame->payload, frame->size, line.bit, sizeof line.bit);
    prushgoli_answer read = prushgoli_read_own_line(line.bit, prushgoli_length(made), payload, sizeof payload);
    must(prushgoli_accepted(encoded), frame, "not encoded");
    must(prushgoli_accepted(made), frame, "no frame made");
    must(prushgoli_frame_length(frame->identifier, frame->payload, frame->size) == made, frame, "another length told");
    must(prushgoli_accepted(read), frame, "the line is refused");
    must(prushgoli_identifier(read) == frame->identifier && prushgoli_length(read) == frame->size &&
             memcmp(payload, frame->payload, frame->size) == 0,
         frame, "something else read from the line");
    line.header = frame->identifier & PRUSHGOLI_LONG ? LONG_HEADER : BASE_HEADER;
    line.dlc = prushgoli_length(encoded);
    line.length = prushgoli_length(made);
    line.bit[line.length - FROM_ACK_SLOT] = frame->ack;
    prushgoli_answer unheard = (prushgoli_answer)PRUSHGOLI_NOT_ACKNOWLEDGED << 16 | (line.length - FROM_ACK_SLOT);
    prushgoli_answer from_bus = prushgoli_read_line(line.bit, line.length, payload, sizeof payload);
    must(from_bus == (frame->ack == 0 ? read : unheard), frame, "the default call says something else of the ACK slot");
    return line;
}

/* Goes by places alone: whatever stands behind five equal bits, up to the last CRC bit, is taken for the stuff bit. The
 * CRC is the last fifteen of the others. */
static struct reading reading_of(const struct line *line)
{
    struct reading reading = {.five_before = "-"};
    unsigned bits = 0, bits_with_crc = line->header + 8 * line->dlc + CRC, run = 0;
    for (unsigned place = 0; place < line->length && (bits < bits_with_crc || run == 5); place++) {
        if (run == 5) {
            reading.stuff_place[reading.stuff_bits++] = place;
            if (bits == bits_with_crc)
                reading.five_before = line->bit[place - 1] == 0 ? "00000" : "11111";
            run = 1;
            continue;
        }
        run = place > 0 && line->bit[place] == line->bit[place - 1] ? run + 1 : 1;
        reading.crc = (reading.crc << 1 | line->bit[place]) & 0x7FFF;
        bits++;
    }
    return reading;
}

static void write_row(const struct frame *frame)
{
    struct line line = line_of(frame);
    struct reading reading = reading_of(&line);
    printf("%03X %u ", (unsigned)frame->identifier, line.dlc);
    for (unsigned i = 0; i < line.dlc; i++)
        printf("%02X", line.field[i]);
    printf("%s %04X ", line.dlc == 0 ? "-" : "", reading.crc);
    for (unsigned i = 0; i < reading.stuff_bits; i++)
        printf("%s%u", i == 0 ? "" : ",", reading.stuff_place[i]);
    printf("%s %s %u ", reading.stuff_bits == 0 ? "-" : "", reading.five_before, line.length);
    for (unsigned i = 0; i < line.length; i++)
        putchar('0' + line.bit[i]);
    printf(" %u\n", frame->ack);
}

static void write_random(uint32_t identifier, size_t size, uint8_t ack)
{
    struct frame frame = {.identifier = identifier, .size = size, .ack = ack};
    random_bytes(frame.payload, size);
    write_row(&frame);
}

/* Any bits, or bits that are mostly like the one before: these draw many stuff bits. */
static uint32_t random_low_bits(void)
{
    uint32_t low = 0, bit = 1;
    if (random_below(2) == 0)
        return (uint32_t)random_below(1 << LOW_BITS);
    for (int i = 0; i < LOW_BITS; i++) {
        bit ^= random_below(4) == 0;
        low = low << 1 | bit;
    }
    return low;
}

/* Two whose CRC ends in five 1s and in five 0s; then each identifier with each size: hundreds draw that stuff bit too;
 * then each eleven bits with any others behind them, in the long form. */
int main(void)
{
    for (uint8_t ack = 0; ack < 2; ack++) {
        write_row(&(struct frame){.payload = {0x77}, .size = 1, .ack = ack});
        write_row(&(struct frame){.payload = {0x5F}, .size = 1, .ack = ack});
    }
    for (uint32_t first = 0; first < IDENTIFIERS; first++)
        for (size_t size = 0; size <= PRUSHGOLI_PAYLOAD_MOST; size++)
            write_random(first, size, (first + size) % 2);
    for (uint32_t first = 0; first < IDENTIFIERS; first++)
        for (size_t size = 0; size <= PRUSHGOLI_PAYLOAD_MOST; size++)
            write_random(PRUSHGOLI_LONG | first << LOW_BITS | random_low_bits(), size, (first + size) % 2);
    return fflush(stdout) != 0 || ferror(stdout);
}
