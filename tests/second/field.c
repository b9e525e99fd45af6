/* The data field: a payload of 0 to 7 bytes as break bit, words and padding, and back. */
#include "field.h"

#include "answer.h"
#include "second.h"
#include "words.h"

size_t field_bytes(size_t size)
{
    return size == 0 ? 0 : size + 1;
}

/* The complement of the lowest bit of the DLC, not of the payload's size. */
static int break_bit(size_t n)
{
    return n % 2 == 0;
}

struct row field_of_payload(const uint8_t *payload, size_t size)
{
    struct row field = {.length = 0};
    size_t n = field_bytes(size);
    if (n == 0)
        return field;
    append(&field, break_bit(n));
    for (size_t i = 0; i < size; i++)
        append_number(&field, word_of_byte(payload[i]), 9);
    for (int padding = 0; field.length < 8 * n; padding = !padding)
        append(&field, padding);
    return field;
}

uint64_t second_encode(const uint8_t *payload, size_t payload_len, uint8_t *field, size_t field_room)
{
    if (payload_len > MOST_PAYLOAD)
        return refused(PAYLOAD_TOO_LONG, 0);
    size_t n = field_bytes(payload_len);
    if (field_room < n)
        return refused(ROOM_SHORT, 0);
    struct row bits = field_of_payload(payload, payload_len);
    for (size_t i = 0; i < n; i++)
        field[i] = (uint8_t)number_at(&bits, 8 * i, 8);
    return accepted(n, 0);
}

/* The words from the left, then the padding: the answer, and on acceptance the payload. */
static uint64_t decode_words(const struct row *field, size_t size, uint8_t *payload)
{
    unsigned byte[MOST_PAYLOAD];
    for (size_t word = 0; word < size; word++) {
        byte[word] = carried_by(number_at(field, 1 + 9 * word, 9));
        if (byte[word] == ESCAPE)
            return refused(ESCAPE_FOR_BYTE, word);
        if (byte[word] == NOTHING)
            return refused(NOT_A_WORD, word);
    }
    int padding = 0;
    for (size_t i = 1 + 9 * size; i < field->length; i++, padding = !padding)
        if (field->bit[i] != padding)
            return refused(WRONG_PADDING, 0);
    for (size_t word = 0; word < size; word++)
        payload[word] = (uint8_t)byte[word];
    return accepted(size, 0);
}

uint64_t second_decode(const uint8_t *field, size_t field_len, uint8_t *payload, size_t payload_room)
{
    if (field_len == 1 || field_len > MOST_FIELD)
        return refused(WRONG_FIELD_LENGTH, 0);
    if (field_len == 0)
        return accepted(0, 0);
    size_t size = field_len - 1;
    if (payload_room < size)
        return refused(ROOM_SHORT, 0);
    struct row bits = {.length = 0};
    for (size_t i = 0; i < field_len; i++)
        append_number(&bits, field[i], 8);
    if (bits.bit[0] != break_bit(field_len))
        return refused(WRONG_BREAK_BIT, 0);
    return decode_words(&bits, size, payload);
}
