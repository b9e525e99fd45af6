/* The questions: all small payloads, fields, identifiers and rows of bits, and many more from a fixed seed. */
#include "answer.h"
#include "compare.h"
#include "field.h"
#include "frame.h"
#include "second.h"

#define COUNT(array) (sizeof(array) / sizeof *(array))

/* The escapes, 001000010 and 110111101. */
enum { J = 0x042, K = 0x1BD };

/* Lengths and rooms that a number of 8, 16 or 32 bits would cut to a small one. */
static const size_t large[] = {
    8, 9, 20, 255, 256, 258, 65535, 65536, 65543, (size_t)1 << 31, UINT32_MAX, (size_t)1 << 32, ((size_t)1 << 32) + 2,
    ((size_t)1 << 32) + 3, ((size_t)1 << 32) + 8, (size_t)1 << 63, SIZE_MAX - 7, SIZE_MAX,
};

/* Identifiers that stuff the header in many ways: FEW of the base form, then MORE of the long form, one of them with
 * as many stuff bits as there can be, the last with one before SRR, before IDE or behind it. The others are refused. */
enum { FEW = 15, MORE = 25 };
static const uint32_t identifiers[] = {
    0, 1, 0x00F, 0x03E, 0x07C, 0x0F8, 0x1F0, 0x3E0, 0x400, 0x555, 0x558, 0x7C0, 0x7DF, 0x7FE, 2047,
    0x80000000, 0x80000001, 0x80000005, 0x800007FF, 0x80000800, 0x8003FFFF, 0x80040000, 0x80155555, 0x87C1F07C,
    0x8F0F0F0F, 0x90F0F0F0, 0x9555AAAA, 0x95555555, 0x97C3E1F0, 0x9E000000, 0x9FFC0000, 0x9FFFF800, 0x9FFFFFFE,
    0x9FFFFFFF, 0x800C3C3C, 0x957D0000, 0x953C1234, 0x953FFFFF, 0x951C0000, 0x951FFFFF,
    2048, 2049, 4095, 4096, 65535, 65536, 65541, 0x1FFFFFFF, 0x20000000, 0x40000000, 0x40000005, 0x7FFFF800, 0x7FFFFFFF,
    0xA0000000, 0xA0000001, 0xA0000005, 0xBFFFFFFF, 0xC0000000, 0xC0000005, 0xE0000000, 0xFFFFF800, UINT32_MAX,
};

static void random_bytes(uint8_t *byte, size_t count)
{
    for (size_t i = 0; i < count; i++)
        byte[i] = (uint8_t)random_below(256);
}

/* Mostly room enough for any payload. */
static size_t random_room(void)
{
    return random_below(8) == 0 ? random_below(9) : 7 + random_below(3);
}

/* In half of them a bit is mostly like the one before it: they draw many stuff bits. */
static uint32_t random_long(void)
{
    uint32_t number = 0, bit = 0;
    if (random_below(2) == 0)
        return LONG_FORM | (uint32_t)random_below(MOST_LONG + 1);
    for (int i = 0; i < 29; i++) {
        bit ^= random_below(4) == 0;
        number = number << 1 | bit;
    }
    return LONG_FORM | number;
}

/* Of either form. */
static uint32_t random_identifier(void)
{
    if (random_below(8) == 0)
        return identifiers[random_below(FEW + MORE)];
    return random_below(2) == 0 ? (uint32_t)random_below(MOST_BASE + 1) : random_long();
}

static uint32_t random_identifier_or_more(void)
{
    return random_below(32) == 0 ? identifiers[random_below(COUNT(identifiers))] : random_identifier();
}

/* One in eight is too short, often by a byte. */
static size_t random_line_room(uint32_t identifier)
{
    size_t enough = frame_room(identifier);
    return random_below(8) > 0 ? enough : random_below(2) == 0 ? enough - 1 : random_below(enough);
}

static struct row row_of(const uint8_t *byte, size_t count)
{
    struct row row = {.length = 0};
    for (size_t i = 0; i < count; i++)
        append_number(&row, byte[i], 8);
    return row;
}

/* Both calls that read a line are asked; the answer is that of the one for our own lines. */
static uint64_t ask_readers(const struct row *line, size_t claimed, size_t room, int lend_null)
{
    compare((struct question){READ_LINE, 0, line->bit, line->length, claimed, room, lend_null});
    return compare((struct question){READ_OWN_LINE, 0, line->bit, line->length, claimed, room, lend_null});
}

static uint64_t read_row(const struct row *line, size_t room)
{
    return ask_readers(line, line->length, room, 0);
}

/* A whole line as the maker leaves it, with 1 in the ACK slot, or as a receiver on the bus does, with 0. */
static struct row with_ack(struct row line, int ack)
{
    size_t crc_delimiter = line.length - UNSTUFFED;
    line.bit[crc_delimiter + 1] = (uint8_t)ack;
    return line;
}

static void read_with_either_ack(const struct row *line, size_t room)
{
    for (int ack = 0; ack <= 1; ack++) {
        struct row other = with_ack(*line, ack);
        read_row(&other, room);
    }
}

/* All payloads of 0, 1 and 2 bytes and their fields, with room that is short, exact and more; all fields as short. */
static void small_payloads_and_fields(void)
{
    for (size_t length = 0; length <= 2; length++)
        for (unsigned number = 0; number >> 8 * length == 0; number++) {
            uint8_t byte[2] = {(uint8_t)number, (uint8_t)(number >> 8)}, field[MOST_FIELD];
            size_t n = field_bytes(length);
            second_encode(byte, length, field, n);
            for (size_t room = 0; room <= n + 1; room++)
                compare(question(ENCODE, 0, byte, length, room));
            for (size_t room = 0; room <= length + 1; room++)
                compare(question(DECODE, 0, field, n, room));
            for (size_t room = 0; room <= length; room++)
                compare(question(DECODE, 0, byte, length, room));
        }
}

static void change_field(uint8_t *field, size_t n)
{
    struct row bits = row_of(field, n);
    size_t length = bits.length, kind = random_below(4);
    if (kind == 0) { /* any byte */
        bits.length = 8 * random_below(n);
        append_number(&bits, (unsigned)random_below(256), 8);
    } else if (kind == 1) { /* an escape for a word */
        bits.length = 1 + 9 * random_below(n - 1);
        append_number(&bits, random_below(2) == 0 ? J : K, 9);
    } else {
        bits.bit[random_below(length)] ^= 1;
    }
    for (size_t i = 0; i < n; i++)
        field[i] = (uint8_t)number_at(&bits, 8 * i, 8);
}

/* Any 0 to 9 bytes or, mostly, a coded field with one to three changes. Its length is returned. */
static size_t random_field(uint8_t *field)
{
    uint8_t payload[MOST_PAYLOAD];
    size_t size = random_below(MOST_PAYLOAD + 1), n = random_below(10);
    random_bytes(field, n);
    if (random_below(4) == 0)
        return n;
    random_bytes(payload, size);
    n = second_encode(payload, size, field, MOST_FIELD);
    for (uint64_t changes = n == 0 ? 0 : 1 + random_below(3); changes > 0; changes--)
        change_field(field, n);
    return n;
}

static void random_payloads_and_fields(void)
{
    for (int i = 0; i < 1000000; i++) {
        uint8_t payload[10], field[9];
        size_t n = random_field(field), size = random_below(11);
        uint32_t identifier = random_identifier_or_more();
        compare(question(DECODE, 0, field, n, random_room()));
        if (i % 10 > 0)
            continue;
        random_bytes(payload, size);
        compare(question(ENCODE, 0, payload, size, random_room()));
        compare(question(FRAME_LENGTH, identifier, payload, size, 0));
        compare(question(MAKE_FRAME, identifier, payload, size, random_line_room(identifier)));
    }
}

/* An identifier by all sizes, and by each room that matters in one form or the other. */
static void ask_frames(uint32_t identifier)
{
    static const size_t rooms[] = {115, 116, 117, 140, 141, 142};
    uint8_t byte[8];
    for (size_t size = 0; size <= 8; size++) {
        random_bytes(byte, size);
        compare(question(FRAME_LENGTH, identifier, byte, size, 0));
        compare(question(FRAME_BOUNDS, identifier, NULL, size, 0));
        for (size_t i = 0; i < COUNT(rooms); i++)
            compare(question(MAKE_FRAME, identifier, byte, size, rooms[i]));
    }
}

/* The lines of an identifier, of all sizes and with all DLCs, some of them cut at the header's end. */
static void ask_lines(uint32_t identifier)
{
    uint8_t byte[8];
    random_bytes(byte, sizeof byte);
    for (size_t size = 0; size <= MOST_PAYLOAD; size++) {
        struct row line = line_of_payload(identifier, byte, size);
        read_with_either_ack(&line, size);
    }
    for (unsigned dlc = 0; dlc <= 15; dlc++) {
        struct row field = row_of(byte, dlc < 8 ? dlc : 8), line = line_of(identifier, dlc, &field);
        read_with_either_ack(&line, random_room());
        line.length = header_of(identifier, dlc).length - 5 + random_below(10);
        read_row(&line, random_room());
    }
}

/* All identifiers of the base form; the same numbers in the long form; all eleven high bits of a long one. */
static void all_identifiers(void)
{
    for (uint32_t number = 0; number <= MOST_BASE; number++) {
        uint32_t by_high_bits = LONG_FORM | number << LOW_BITS | (random_long() & ((1U << LOW_BITS) - 1));
        ask_frames(number);
        ask_lines(number);
        ask_frames(LONG_FORM | number);
        ask_frames(by_high_bits);
        ask_lines(by_high_bits);
    }
}

static void all_bounds(void)
{
    for (size_t i = 0; i < COUNT(identifiers); i++) {
        for (size_t size = 0; size <= 20; size++)
            compare(question(FRAME_BOUNDS, identifiers[i], NULL, size, 0));
        for (size_t l = 0; l < COUNT(large); l++)
            compare(question(FRAME_BOUNDS, identifiers[i], NULL, large[l], 0));
    }
}

enum change { CUT, FLIP, FLIP_AND_CUT, SET_2, SET_255, INSERT_0, INSERT_1, DELETE, ANY_BITS_FROM_HERE, CHANGES };

static struct row changed(struct row line, enum change change, size_t place)
{
    struct row old = line;
    line.length = place;
    if (change == FLIP || change == FLIP_AND_CUT)
        append(&line, old.bit[place] ^ 1);
    if (change == SET_2 || change == SET_255)
        append(&line, change == SET_2 ? 2 : 255);
    if (change == INSERT_0 || change == INSERT_1)
        append(&line, change == INSERT_1);
    size_t next = change == INSERT_0 || change == INSERT_1 || change == ANY_BITS_FROM_HERE ? place : place + 1;
    if (change == CUT || change == FLIP_AND_CUT)
        next = old.length;
    for (size_t i = next; i < old.length; i++)
        append(&line, change == ANY_BITS_FROM_HERE ? (int)random_below(2) : old.bit[i]);
    return line;
}

/* A byte of a line: a bit, or more than 1. */
static const uint8_t bytes[] = {0, 1, 2, 255};

/* A line with each room, with bits behind it, and with every change at every place. */
static void ask_around(struct row line)
{
    for (size_t room = 0; room <= 8; room++)
        read_row(&line, room);
    for (size_t i = 0; i < COUNT(bytes); i++) {
        struct row longer = line;
        for (int count = 1; count <= 3; count++) {
            append(&longer, bytes[i]);
            read_row(&longer, random_room());
        }
    }
    for (size_t place = 0; place < line.length; place++)
        for (int change = 0; change < CHANGES; change++) {
            struct row other = changed(line, change, place);
            read_row(&other, random_room());
        }
}

/* Lines of all sizes and both forms, with payloads of 00, of FF and of any bytes, with one ACK or the other. */
static void changed_lines(void)
{
    for (size_t size = 0; size <= MOST_PAYLOAD; size++)
        for (int i = 0; i < FEW + MORE + 3; i++) {
            uint8_t payload[MOST_PAYLOAD];
            random_bytes(payload, size);
            for (size_t byte = 0; byte < size && i % 3 < 2; byte++)
                payload[byte] = i % 3 == 0 ? 0x00 : 0xFF;
            struct row line = line_of_payload(i < FEW + MORE ? identifiers[i] : random_identifier(), payload, size);
            ask_around(with_ack(line, (i + (int)size) % 2));
        }
}

/* A line with each of the four bytes as CRC delimiter, as ACK slot and as ACK delimiter: cut before these three and
 * behind each of them, whole, and with a bit too many. */
static void ask_around_ack_slot(struct row line)
{
    size_t whole = line.length, crc_delimiter = whole - UNSTUFFED;
    for (unsigned three = 0; three < 64; three++) {
        for (int i = 0; i < 3; i++)
            line.bit[crc_delimiter + i] = bytes[three >> 2 * i & 3];
        for (line.length = crc_delimiter; line.length <= crc_delimiter + 3; line.length++)
            read_row(&line, random_room());
        for (line.length = whole; line.length <= whole + 1; line.length++)
            read_row(&line, random_room());
    }
}

/* Lines of all sizes. In one of three a bit of the data field is wrong: its refusal must come after the ACK slot's. */
static void ack_slots(void)
{
    for (size_t size = 0; size <= MOST_PAYLOAD; size++)
        for (int i = 0; i < 45; i++) {
            uint8_t payload[MOST_PAYLOAD];
            random_bytes(payload, size);
            struct row field = field_of_payload(payload, size);
            if (i % 3 == 0 && size > 0)
                field.bit[random_below(field.length)] ^= 1;
            ask_around_ack_slot(line_of(random_identifier(), (unsigned)field_bytes(size), &field));
        }
}

/* The line of a frame in which a stuff bit follows the last CRC bit: one frame in thirty is found to be such. */
static struct row stuffed_behind_the_crc(uint32_t *identifier, uint8_t *payload, size_t size)
{
    struct row line;
    do {
        *identifier = random_identifier();
        random_bytes(payload, size);
        line = line_of_payload(*identifier, payload, size);
    } while (!all_equal(line.bit + line.length - 16, 5));
    return line;
}

/* Such frames, their lines with either ACK, with every change from the last CRC bit to the ACK slot, and with one more
 * before it. */
static void last_stuff_bits(void)
{
    for (int i = 0; i < 4000; i++) {
        uint8_t payload[MOST_PAYLOAD];
        uint32_t identifier;
        size_t size = i % (MOST_PAYLOAD + 1);
        struct row line = with_ack(stuffed_behind_the_crc(&identifier, payload, size), i / (MOST_PAYLOAD + 1) % 2);
        size_t stuff_bit = line.length - 11, delimiter = stuff_bit + 1;
        compare(question(FRAME_LENGTH, identifier, payload, size, 0));
        compare(question(MAKE_FRAME, identifier, payload, size, frame_room(identifier)));
        for (size_t place = stuff_bit - 1; place <= delimiter + 1; place++)
            for (int change = 0; change < CHANGES; change++) {
                struct row other = changed(line, change, place), twice = changed(other, FLIP, random_below(place));
                read_row(&other, random_room());
                read_row(&twice, random_room());
            }
        if (i % 50 == 0)
            ask_around(line);
    }
}

/* Lines with a right CRC over any data field, three of four acknowledged, then changed up to three times. */
static void random_lines(void)
{
    for (int i = 0; i < 300000; i++) {
        uint8_t byte[9];
        size_t n = random_field(byte);
        struct row field = row_of(byte, n < 8 ? n : 8);
        struct row line = with_ack(line_of(random_identifier(), (unsigned)n, &field), i % 4 == 0);
        read_row(&line, random_room());
        for (uint64_t changes = random_below(4); changes > 0 && line.length > 0; changes--)
            line = changed(line, random_below(CHANGES), random_below(line.length));
        read_row(&line, random_room());
    }
}

/* The first bits of a header as they are sent, then each row of up to so many bytes. Counts the answers of 13 for the
 * first of these, by whether a stuff bit is due behind it. */
static void ask_behind(struct row header, size_t bits, int most, unsigned long *refused_13)
{
    header.length = bits;
    struct row sent = stuffed(&header);
    for (int count = 0; count <= most; count++)
        for (unsigned which = 0; which >> 2 * count == 0; which++) {
            struct row line = sent;
            for (int i = 0; i < count; i++)
                append(&line, bytes[which >> 2 * i & 3]);
            uint64_t answer = read_row(&line, random_room());
            if (answer == refused(WRONG_FIXED_BIT, sent.length))
                refused_13[all_equal(line.bit + sent.length - 4, 5)]++;
        }
}

/* Behind all eleven bits that stand before RTR or SRR: that bit, a stuff bit if one is due, IDE. Behind some long
 * identifiers: RTR, the reserved bits, a stuff bit if one is due. */
static void fixed_header_bits(void)
{
    unsigned long before_ide[2] = {0}, long_rtr[2] = {0};
    for (uint32_t number = 0; number <= MOST_BASE; number++)
        ask_behind(header_of(number, 0), 12, 3, before_ide);
    for (int i = 0; i < 200; i++)
        ask_behind(header_of(random_long(), 0), 32, 4, long_rtr);
    check(before_ide[0] > 0 && before_ide[1] > 0, "RTR or SRR is refused without and with a stuff bit before IDE");
    check(long_rtr[0] > 0 && long_rtr[1] > 0, "the long form's RTR is refused without and with a stuff bit behind it");
}

/* All rows of up to 16 bits, and rows of any bytes 0, 1 and 2. */
static void any_rows(void)
{
    for (int width = 0; width <= 16; width++)
        for (unsigned number = 0; number >> width == 0; number++) {
            struct row line = {.length = 0};
            append_number(&line, number, width);
            read_row(&line, 8);
        }
    for (int i = 0; i < 50000; i++) {
        struct row line = {.length = 0};
        for (uint64_t length = random_below(160); line.length < length;)
            append(&line, (int)random_below(3));
        read_row(&line, random_room());
    }
}

/* Lengths that are only claimed, where the call refuses before it reads that far, and rooms that are only claimed. */
static void large_numbers(void)
{
    static const uint8_t byte[8] = {0x90, 0xC8, 0x64, 0x32, 0x19, 0x0C, 0x86, 0x43};
    static const uint32_t edges[] = {MOST_BASE, MOST_BASE + 1, LONG_FORM | MOST_LONG, LONG_FORM | (MOST_LONG + 1)};
    struct row field = row_of(byte, 8), line = with_ack(line_of(0x555, 8, &field), 0);
    struct row long_line = with_ack(line_of(LONG_FORM | 0x555, 8, &field), 0);
    for (size_t l = 0; l < COUNT(large); l++) {
        size_t claimed = large[l], longer = claimed > SIZE_MAX / 2 ? claimed : long_line.length + claimed;
        for (size_t i = 0; i < COUNT(edges); i++) {
            compare((struct question){FRAME_LENGTH, edges[i], byte, 8, claimed, 0, 0});
            compare((struct question){MAKE_FRAME, edges[i], byte, 8, claimed, 141, 0});
            compare((struct question){MAKE_FRAME, edges[i], byte, 8, claimed, 0, 0});
            compare(question(MAKE_FRAME, edges[i], byte, 7, claimed));
        }
        compare((struct question){ENCODE, 0, byte, 8, claimed, 8, 0});
        compare((struct question){ENCODE, 0, byte, 8, claimed, 0, 0});
        compare(question(ENCODE, 0, byte, 7, claimed));
        if (claimed > MOST_FIELD)
            compare((struct question){DECODE, 0, byte, 8, claimed, 8, 0});
        compare(question(DECODE, 0, byte, 8, claimed));
        ask_readers(&line, longer, 8, 0);
        read_row(&line, claimed);
        ask_readers(&long_line, longer, 8, 0);
        read_row(&long_line, claimed);
    }
}

/* NULL for what is given, for the lent buffer, and for both. */
static void nulls(void)
{
    static const uint8_t byte[2] = {0xEA, 0x55};
    struct row field = row_of(byte, 2), empty = {.length = 0}, line = with_ack(line_of(0, 2, &field), 0);
    struct row empty_line = with_ack(line_of(0, 0, &empty), 0), long_line = with_ack(line_of(LONG_FORM, 0, &empty), 0);
    for (int call = 0; call < CALLS; call++)
        for (int lend_null = 0; lend_null <= 1; lend_null++) {
            size_t room = lend_null ? 0 : 141;
            for (int is_long = 0; is_long <= 1; is_long++) {
                uint32_t least = is_long ? LONG_FORM : 0, too_large = least + (is_long ? MOST_LONG : MOST_BASE) + 1;
                compare((struct question){call, least, NULL, 0, 0, room, lend_null});
                compare((struct question){call, least, byte, 0, 0, room, lend_null});
                compare((struct question){call, least, byte, 2, 2, room, lend_null});
                compare((struct question){call, too_large, NULL, 0, 0, room, lend_null});
            }
        }
    ask_readers(&line, line.length, 0, 1);
    ask_readers(&empty_line, empty_line.length, 0, 1);
    ask_readers(&long_line, long_line.length, 0, 1);
}

void ask_many(void)
{
    nulls();
    large_numbers();
    all_bounds();
    small_payloads_and_fields();
    fixed_header_bits();
    last_stuff_bits();
    ack_slots();
    changed_lines();
    any_rows();
    all_identifiers();
    random_payloads_and_fields();
    random_lines();
}
