#include "payloads.h"

uint64_t random_number(void)
{
    static uint64_t state = SEED; /* splitmix64 */
    uint64_t number = state += 0x9E3779B97F4A7C15;
    number = (number ^ number >> 30) * 0xBF58476D1CE4E5B9;
    number = (number ^ number >> 27) * 0x94D049BB133111EB;
    return number ^ number >> 31;
}

void random_payload(uint8_t *payload, size_t size)
{
    uint64_t bytes = random_number();
    for (size_t i = 0; i < size; i++)
        payload[i] = (uint8_t)(bytes >> 8 * i);
}

void equal_bits_payload(uint8_t *payload, size_t size, unsigned number)
{
    for (size_t i = 0; i < size; i++)
        payload[i] = number >> i & 1 ? 0xFF : 0x00;
}

struct row plain_line(uint32_t identifier, const uint8_t *payload, size_t size)
{
    struct row field = {.length = 0};
    for (size_t i = 0; i < size; i++)
        append_number(&field, payload[i], 8);
    return line_of(identifier, (unsigned)size, &field);
}
