/* Faults: stands between the comparison and the archive (the linker's --wrap) and spoils what the variable FAULT names.
 * Only tests/compare/can-fail links it, to show that the comparison catches each of them. */
#include <prushgoli.h>
#include <stdlib.h>
#include <string.h>

#define ARCHIVE(call) __real_prushgoli_##call
#define SPOILED(call) __wrap_prushgoli_##call

uint64_t ARCHIVE(encode)(const uint8_t *, size_t, uint8_t *, size_t);
uint64_t ARCHIVE(decode)(const uint8_t *, size_t, uint8_t *, size_t);
uint64_t ARCHIVE(frame_length)(uint32_t, const uint8_t *, size_t);
uint64_t ARCHIVE(frame_bounds)(uint32_t, size_t);
uint64_t ARCHIVE(make_frame)(uint32_t, const uint8_t *, size_t, uint8_t *, size_t);

/* Behind the CRC: a stuff bit, if one follows its last bit, and ten bits. */
enum { UNSTUFFED = 10, LINE_MOST = 176 };

/* Bits of a header by number, stuff bits not counted; the last three are those of the long form. */
enum { BEFORE_IDE = 12, IDE = 13, LONG_RTR = 32, LONG_RESERVED_1 = 33, LONG_RESERVED_0 = 34 };

/* The limits of an identifier, the bits of a long one behind IDE, and both halves of an answer of bounds. */
enum { MOST_BASE = 2047, MOST_LONG = 0x1FFFFFFF, LOW_BITS = 18 };
#define BOTH(bits) ((uint64_t)(bits) << 32 | (bits))

/* The two calls that read a line. */
typedef uint64_t reader(const uint8_t *, size_t, uint8_t *, size_t);
reader ARCHIVE(read_line), ARCHIVE(read_own_line);

/* Most names differ at once, and are asked for in every call. */
static int fault(const char *name)
{
    static const char *wanted;
    if (wanted == NULL)
        wanted = getenv("FAULT");
    return wanted != NULL && wanted[0] == name[0] && strcmp(wanted, name) == 0;
}

static uint64_t refused(unsigned refusal, size_t place)
{
    return (uint64_t)refusal << 16 | place;
}

/* The payload itself or, with the misprint of document 002, one where 0E stands for 10: both then have one word. */
static const uint8_t *misprinted(const uint8_t *payload, size_t payload_len, uint8_t *copy)
{
    if (!fault("wrong table entry") || payload_len > PRUSHGOLI_PAYLOAD_MOST)
        return payload;
    for (size_t i = 0; i < payload_len; i++)
        copy[i] = payload[i] == 0x10 ? 0x0E : payload[i];
    return copy;
}

static size_t cut(size_t length)
{
    return fault("length cut to 32 bits") ? (uint32_t)length : length;
}

/* Faults that any call with two slices can have. */
static void spoil_bytes(uint64_t answer, const uint8_t *given, size_t given_len, uint8_t *lent)
{
    int is_refused = prushgoli_refusal(answer) != PRUSHGOLI_ACCEPTED;
    int some_given = given_len > 0 && given_len <= LINE_MOST;
    if (fault("byte written on refusal") && is_refused && lent != NULL)
        lent[0] ^= 1;
    if (fault("byte written behind the result") && !is_refused && lent != NULL)
        lent[prushgoli_length(answer)] ^= 1;
    if (fault("byte written before the buffer") && lent != NULL)
        lent[-1] ^= 1;
    if (fault("given byte changed") && some_given)
        ((uint8_t *)given)[given_len - 1] ^= 0x80;
    if (fault("byte read behind the given ones") && some_given)
        (void)*(const volatile uint8_t *)(given + given_len);
}

static void spoil_payload(uint64_t answer, uint8_t *payload)
{
    for (size_t i = 0; i < prushgoli_length(answer) && fault("wrong reverse entry"); i++)
        payload[i] = payload[i] == 0x0E ? 0x10 : payload[i];
}

/* Whether five equal bits end at this place. */
static int five_equal(const uint8_t *line, size_t place)
{
    return place >= 4 && memcmp(line + place - 4, line + place - 3, 4) == 0;
}

static int sixth_equal(const uint8_t *line, size_t line_len, size_t place)
{
    return place + 1 < line_len && line[place + 1] == line[place] && five_equal(line, place);
}

/* The place of the stuff bit behind the CRC in a line that is accepted; 0 if there is none. */
static size_t last_stuff_bit(uint64_t answer, const uint8_t *line, size_t line_len)
{
    if (prushgoli_refusal(answer) != PRUSHGOLI_ACCEPTED || !five_equal(line, line_len - UNSTUFFED - 2))
        return 0;
    return line_len - UNSTUFFED - 1;
}

/* Makes a line in which no stuff bit follows the last CRC bit. */
static uint64_t make_unstuffed(uint32_t identifier, const uint8_t *payload, size_t payload_len, uint8_t *line)
{
    uint8_t made[PRUSHGOLI_LONG_LINE_ROOM];
    uint64_t answer = ARCHIVE(make_frame)(identifier, payload, payload_len, made, sizeof made);
    size_t stuff_bit = last_stuff_bit(answer, made, prushgoli_length(answer));
    if (stuff_bit > 0) {
        made[stuff_bit] = 1; /* the first of the ten bits 1 */
        answer--;
    }
    memcpy(line, made, prushgoli_length(answer));
    return answer;
}

/* The answer to the line with the right stuff bit at this place, and its last ten bits behind, if that is accepted. */
static uint64_t read_mended(reader *read_line, uint64_t answer, const uint8_t *line, size_t line_len, size_t place,
                            uint8_t *payload, size_t payload_room)
{
    uint8_t mended[LINE_MOST];
    if (place == 0 || place + 1 + UNSTUFFED > LINE_MOST || !five_equal(line, place - 1))
        return answer;
    memcpy(mended, line, place);
    mended[place] = !line[place - 1];
    memcpy(mended + place + 1, line + line_len - UNSTUFFED, UNSTUFFED);
    uint64_t read = read_line(mended, place + 1 + UNSTUFFED, payload, payload_room);
    return prushgoli_refusal(read) == PRUSHGOLI_ACCEPTED ? read : answer;
}

/* Faults at the stuff bit behind the CRC: the answer with the one that is wanted. */
static uint64_t spoil_last_stuff_bit(reader *read_line, uint64_t answer, const uint8_t *line, size_t line_len,
                                     uint8_t *payload, size_t payload_room)
{
    unsigned refusal = prushgoli_refusal(answer), place = prushgoli_place(answer);
    size_t stuff_bit = last_stuff_bit(answer, line, line_len);
    if (fault("stuff bit taken for the CRC delimiter") && stuff_bit > 0)
        return line[stuff_bit] == 0 ? refused(PRUSHGOLI_FIXED_BIT, stuff_bit)
                                    : refused(PRUSHGOLI_LINE_LENGTH, line_len - 1);
    if (fault("line without the stuff bit behind the CRC taken") && line_len > UNSTUFFED &&
        ((refusal == PRUSHGOLI_STUFF_BIT && place == line_len - UNSTUFFED) ||
         (refusal == PRUSHGOLI_LINE_LENGTH && place == line_len)))
        return read_mended(read_line, answer, line, line_len, line_len - UNSTUFFED, payload, payload_room);
    if (fault("stuff bit behind the CRC not looked at") && place + 1 + UNSTUFFED == line_len &&
        (refusal == PRUSHGOLI_STUFF_BIT || refusal == PRUSHGOLI_LINE_BYTE))
        return read_mended(read_line, answer, line, line_len, place, payload, payload_room);
    if (fault("stuff bit judged before the CRC") && refusal == PRUSHGOLI_CRC && sixth_equal(line, line_len, place))
        return refused(PRUSHGOLI_STUFF_BIT, place + 1);
    return answer;
}

static int is_long(uint32_t identifier)
{
    return (identifier & PRUSHGOLI_LONG) != 0;
}

/* The identifier that is asked for where one is given, with the fault of a limit or of the form that is wanted. */
static uint32_t spoiled_identifier(uint32_t identifier)
{
    uint32_t number = identifier & ~PRUSHGOLI_LONG, high = number >> 11, low = number & 0x7FF;
    if (fault("identifier 2048 taken") && identifier == MOST_BASE + 1)
        return MOST_BASE;
    if (fault("identifier 2047 refused") && identifier == MOST_BASE)
        return MOST_BASE + 1;
    if (fault("limit of the long form for the base form") && identifier <= MOST_LONG)
        return identifier & MOST_BASE;
    if (fault("bit 31 of an identifier not looked at"))
        return number;
    if (!is_long(identifier))
        return identifier;
    if (fault("long identifier 536,870,912 taken") && number == MOST_LONG + 1)
        return PRUSHGOLI_LONG | MOST_LONG;
    if (fault("long identifier 536,870,911 refused") && number == MOST_LONG)
        return PRUSHGOLI_LONG | (MOST_LONG + 1);
    if (fault("limit of the base form for the long form") && number > MOST_BASE)
        return UINT32_MAX;
    if (fault("bits 29 and 30 of a long identifier not looked at"))
        return PRUSHGOLI_LONG | (number & MOST_LONG);
    if (fault("same number in both forms taken for one identifier") && number <= MOST_BASE)
        return number;
    if (fault("high and low bits of a long identifier swapped") && number <= MOST_LONG)
        return PRUSHGOLI_LONG | low << LOW_BITS | high;
    return identifier;
}

/* The accepted answer to a line with the fault of the form that is wanted. */
static uint64_t spoil_read_identifier(uint64_t answer)
{
    uint32_t identifier = prushgoli_identifier(answer), number = identifier & ~PRUSHGOLI_LONG;
    uint64_t length = prushgoli_length(answer);
    if (prushgoli_refusal(answer) != PRUSHGOLI_ACCEPTED || !is_long(identifier))
        return answer;
    if (fault("bit 31 of an answer missing") ||
        (fault("same number in both forms taken for one identifier") && number <= MOST_BASE))
        return (uint64_t)number << 32 | length;
    if (fault("high and low bits of a long identifier swapped")) {
        uint32_t low = number >> LOW_BITS, high = number & ((1 << LOW_BITS) - 1);
        return (uint64_t)(PRUSHGOLI_LONG | high << 11 | low) << 32 | length;
    }
    return answer;
}

/* The place of a header's bit; the line's length if it ends before that. */
static size_t place_of(unsigned number, const uint8_t *line, size_t line_len)
{
    unsigned run = 0;
    size_t place = 0;
    for (; place < line_len; place++) {
        int is_stuff_bit = run == 5;
        run = place > 0 && line[place] == line[place - 1] ? run + 1 : 1;
        if (!is_stuff_bit && number-- == 0)
            break;
    }
    return place;
}

/* The header's bit that is not judged, by the fault that is wanted; 0 if there is none. */
static unsigned unjudged_bit(int long_line)
{
    if (fault(long_line ? "SRR of 0 taken" : "RTR of 1 taken in the base form"))
        return BEFORE_IDE;
    if (!long_line)
        return 0;
    if (fault("RTR of 1 taken in the long form"))
        return LONG_RTR;
    if (fault("first reserved bit of the long form not judged"))
        return LONG_RESERVED_1;
    return fault("second reserved bit of the long form not judged") ? LONG_RESERVED_0 : 0;
}

/* Faults at a header's fixed bits: the answer with the one that is wanted. */
static uint64_t spoil_header(reader *read_line, uint64_t answer, const uint8_t *line, size_t line_len, uint8_t *payload,
                             size_t payload_room)
{
    unsigned refusal = prushgoli_refusal(answer), place = prushgoli_place(answer);
    size_t before = place_of(BEFORE_IDE, line, line_len), ide = place_of(IDE, line, line_len), wrong = before;
    if (ide >= line_len || line_len > LINE_MOST)
        return answer;
    unsigned bit = unjudged_bit(line[ide]);
    if (bit > 0)
        wrong = place_of(bit, line, line_len);
    else if (fault("IDE not looked at") && line[ide] == 1)
        bit = IDE;
    if (refusal == PRUSHGOLI_FIXED_BIT && place == wrong && bit > 0) {
        uint8_t other[LINE_MOST];
        memcpy(other, line, line_len);
        other[bit == IDE ? ide : wrong] ^= 1;
        return read_line(other, line_len, payload, payload_room);
    }
    if (fault("13 given for IDE") && is_long(prushgoli_identifier(answer)))
        return refused(PRUSHGOLI_FIXED_BIT, ide);
    if (refusal != PRUSHGOLI_FIXED_BIT || place != before)
        return answer;
    if (fault("13 before IDE at the place of IDE"))
        return refused(PRUSHGOLI_FIXED_BIT, ide);
    return fault("13 before IDE at the place of IDE less one") ? refused(PRUSHGOLI_FIXED_BIT, ide - 1) : answer;
}

/* A bit before IDE that is judged at once, as if it could not be SRR: where the line is refused before IDE is read. */
static uint64_t spoil_before_ide(uint64_t answer, const uint8_t *line)
{
    unsigned refusal = prushgoli_refusal(answer), place = prushgoli_place(answer);
    int early = refusal == PRUSHGOLI_LINE_LENGTH || refusal == PRUSHGOLI_LINE_BYTE || refusal == PRUSHGOLI_STUFF_BIT;
    if (!fault("RTR judged before IDE") || !early)
        return answer;
    size_t before = place_of(BEFORE_IDE, line, place);
    int is_next = before < place && place_of(IDE, line, place) == place;
    return is_next && line[before] == 1 ? refused(PRUSHGOLI_FIXED_BIT, before) : answer;
}

/* Faults in the line of a long frame that is made. */
static uint64_t spoil_long_line(uint64_t answer, uint8_t *line)
{
    size_t length = prushgoli_length(answer);
    if (fault("SRR of 0 made") && length > 0)
        line[place_of(BEFORE_IDE, line, length)] = 0;
    if (fault("one reserved bit of the long form") && length > 0) {
        size_t reserved = place_of(LONG_RESERVED_0, line, length);
        memmove(line + reserved, line + reserved + 1, length - reserved - 1);
        answer--;
    }
    return answer;
}

uint64_t SPOILED(encode)(const uint8_t *payload, size_t payload_len, uint8_t *field, size_t field_room)
{
    uint8_t copy[PRUSHGOLI_PAYLOAD_MOST];
    uint64_t answer = ARCHIVE(encode)(misprinted(payload, payload_len, copy), cut(payload_len), field, cut(field_room));
    spoil_bytes(answer, payload, payload_len, field);
    return answer;
}

uint64_t SPOILED(decode)(const uint8_t *field, size_t field_len, uint8_t *payload, size_t payload_room)
{
    uint8_t copy[PRUSHGOLI_PAYLOAD_MOST];
    uint64_t answer = ARCHIVE(decode)(field, field_len, payload, payload_room);
    spoil_bytes(answer, field, field_len, payload);
    spoil_payload(answer, payload);
    if (fault("break bit judged before room") && prushgoli_refusal(answer) == PRUSHGOLI_ROOM_SHORT) {
        uint64_t with_room = ARCHIVE(decode)(field, field_len, copy, sizeof copy);
        return prushgoli_refusal(with_room) == PRUSHGOLI_BREAK_BIT ? with_room : answer;
    }
    if (fault("wrong place in a field") && prushgoli_refusal(answer) == PRUSHGOLI_NO_WORD)
        return answer + 1;
    return answer;
}

uint64_t SPOILED(frame_length)(uint32_t identifier, const uint8_t *payload, size_t payload_len)
{
    uint8_t copy[PRUSHGOLI_PAYLOAD_MOST], line[PRUSHGOLI_LONG_LINE_ROOM];
    if (fault("stuff bit behind the CRC not counted"))
        return make_unstuffed(identifier, payload, payload_len, line);
    identifier = spoiled_identifier(identifier);
    return ARCHIVE(frame_length)(identifier, misprinted(payload, payload_len, copy), payload_len);
}

uint64_t SPOILED(frame_bounds)(uint32_t identifier, size_t payload_len)
{
    uint64_t answer = ARCHIVE(frame_bounds)(spoiled_identifier(identifier), payload_len);
    int is_accepted = prushgoli_refusal(answer) == PRUSHGOLI_ACCEPTED;
    if (fault("longer bound too long") && payload_len == 3)
        return answer + ((uint64_t)1 << 32);
    if (fault("bounds of the base form for a long identifier") && is_long(identifier) && is_accepted)
        return answer - BOTH(20);
    if (fault("stuff bits behind IDE not in the bounds") && is_long(identifier) && is_accepted)
        return ARCHIVE(frame_bounds)((identifier & ~PRUSHGOLI_LONG) >> LOW_BITS, payload_len) + BOTH(20);
    return answer;
}

/* The room that is told where one is lent, with the fault that is wanted. */
static size_t spoiled_room(uint32_t identifier, size_t room)
{
    if (fault("frame made with room of 115") && room == 115)
        return 116;
    if (fault("room of the long form for the base form") && !is_long(identifier) && room < 141)
        return 0;
    if (fault("long frame made with room of 140") && room == 140)
        return 141;
    return fault("room of the base form for the long form") && room >= 116 && room < 141 ? 141 : room;
}

uint64_t SPOILED(make_frame)(uint32_t identifier, const uint8_t *payload, size_t payload_len, uint8_t *line,
                             size_t line_room)
{
    uint8_t copy[PRUSHGOLI_PAYLOAD_MOST];
    size_t room = spoiled_room(identifier, line_room);
    if (fault("stuff bit behind the CRC not made") && room >= (is_long(identifier) ? 141 : 116))
        return make_unstuffed(identifier, payload, payload_len, line);
    identifier = spoiled_identifier(identifier);
    uint64_t answer = ARCHIVE(make_frame)(identifier, misprinted(payload, payload_len, copy), payload_len, line, room);
    spoil_bytes(answer, payload, payload_len, line);
    return is_long(identifier) ? spoil_long_line(answer, line) : answer;
}

/* Faults that both calls that read a line can have. */
static uint64_t read_spoiled(reader *read_line, const uint8_t *line, size_t line_len, uint8_t *payload,
                             size_t payload_room)
{
    uint64_t answer = read_line(line, line_len, payload, payload_room);
    unsigned refusal = prushgoli_refusal(answer), place = prushgoli_place(answer);
    /* Where the comparison claims more bytes behind a line, they are not there. */
    int few_behind = refusal == PRUSHGOLI_LINE_LENGTH && place < line_len && line_len - place <= 3;
    spoil_bytes(answer, line, line_len, payload);
    spoil_payload(answer, payload);
    if (fault("wrong place in a line") && refusal == PRUSHGOLI_CRC)
        return answer + 1;
    if (fault("identifier with a refusal") && refusal == PRUSHGOLI_PADDING)
        return answer | (uint64_t)0x555 << 32;
    if (fault("bit of 1 behind the line taken") && few_behind && line[place] == 1)
        return read_line(line, place, payload, payload_room);
    if (fault("byte above 1 behind the line judged") && few_behind && line[place] > 1)
        return refused(PRUSHGOLI_LINE_BYTE, place);
    if (fault("stuff bit judged before the DLC") && refusal == PRUSHGOLI_FIELD_LENGTH &&
        sixth_equal(line, line_len, place))
        return refused(PRUSHGOLI_STUFF_BIT, place + 1);
    answer = spoil_header(read_line, answer, line, line_len, payload, payload_room);
    answer = spoil_before_ide(spoil_read_identifier(answer), line);
    return spoil_last_stuff_bit(read_line, answer, line, line_len, payload, payload_room);
}

/* Whether the ACK slot is at this place: where the line ends there, with a 1, it is refused for that 1. */
static int is_ack_slot(const uint8_t *line, size_t place)
{
    uint8_t start[LINE_MOST];
    if (place >= LINE_MOST)
        return 0;
    memcpy(start, line, place);
    start[place] = 1;
    return ARCHIVE(read_line)(start, place + 1, NULL, 0) == refused(PRUSHGOLI_NOT_ACKNOWLEDGED, place);
}

/* Faults of the default call at the ACK slot: the answer with the one that is wanted. */
static uint64_t spoil_ack_slot(uint64_t answer, const uint8_t *line, size_t line_len, size_t payload_room)
{
    unsigned refusal = prushgoli_refusal(answer), place = prushgoli_place(answer);
    if (fault("20 before 9 at the ACK slot") && refusal == PRUSHGOLI_LINE_BYTE && is_ack_slot(line, place))
        return refused(PRUSHGOLI_NOT_ACKNOWLEDGED, place);
    if (fault("0 in the ACK slot refused by the default call") && refusal == PRUSHGOLI_ACCEPTED)
        return refused(PRUSHGOLI_NOT_ACKNOWLEDGED, line_len - UNSTUFFED + 1);
    if (refusal != PRUSHGOLI_NOT_ACKNOWLEDGED)
        return answer;
    if (fault("20 given as 13"))
        return refused(PRUSHGOLI_FIXED_BIT, place);
    if (fault("place of 20 one off"))
        return answer + 1;
    if (fault("ACK delimiter judged before the ACK slot") && place + 1 < line_len && line[place + 1] == 0)
        return refused(PRUSHGOLI_FIXED_BIT, place + 1);
    if (fault("ACK slot judged last")) {
        uint8_t payload[PRUSHGOLI_PAYLOAD_MOST];
        uint64_t own = ARCHIVE(read_own_line)(line, line_len, payload, payload_room);
        return prushgoli_refusal(own) == PRUSHGOLI_ACCEPTED ? answer : own;
    }
    return answer;
}

uint64_t SPOILED(read_line)(const uint8_t *line, size_t line_len, uint8_t *payload, size_t payload_room)
{
    int as_before = fault("1 in the ACK slot taken by the default call") || fault("default and own call swapped");
    reader *read_line = as_before ? ARCHIVE(read_own_line) : ARCHIVE(read_line);
    uint64_t answer = read_spoiled(read_line, line, line_len, payload, payload_room);
    return spoil_ack_slot(answer, line, line_len, payload_room);
}

uint64_t SPOILED(read_own_line)(const uint8_t *line, size_t line_len, uint8_t *payload, size_t payload_room)
{
    int as_default = fault("1 in the ACK slot refused by the own call") || fault("default and own call swapped");
    reader *read_line = as_default ? ARCHIVE(read_line) : ARCHIVE(read_own_line);
    uint64_t answer = read_spoiled(read_line, line, line_len, payload, payload_room);
    size_t ack_slot = line_len - UNSTUFFED + 1;
    if (fault("0 in the ACK slot refused by the own call") && prushgoli_refusal(answer) == PRUSHGOLI_ACCEPTED &&
        line[ack_slot] == 0)
        return refused(PRUSHGOLI_NOT_ACKNOWLEDGED, ack_slot);
    return answer;
}
