#include <prushgoli.h>
#include <stdio.h>
#include <string.h>

#include "payloads.h"
#include "shown.h"

/* Its bits alternate, so that no stuff bit in the header hides those of the data. */
enum { IDENTIFIER = 0x555, LENGTHS = 160, RANDOM_PAYLOADS = 100000 };

static unsigned long plain[LENGTHS], coded[LENGTHS];

static void send(const uint8_t *payload, size_t size)
{
    uint8_t line[PRUSHGOLI_LINE_ROOM] = {0};
    plain[plain_line(IDENTIFIER, payload, size).length]++;
    coded[prushgoli_length(prushgoli_make_frame(IDENTIFIER, payload, size, line, sizeof line))]++;
}

static void print_lengths(const char *coding, size_t size, const unsigned long *met)
{
    for (unsigned length = 0; length < LENGTHS; length++)
        if (met[length] > 0)
            printf("one %X %s %zu %u %lu\n", IDENTIFIER, coding, size, length, met[length]);
}

void print_one_identifier(void)
{
    uint8_t payload[PRUSHGOLI_PAYLOAD_MOST];
    for (size_t size = 0; size <= PRUSHGOLI_PAYLOAD_MOST; size++) {
        memset(plain, 0, sizeof plain);
        memset(coded, 0, sizeof coded);
        for (unsigned number = 0; number < 1U << size; number++) {
            equal_bits_payload(payload, size, number);
            send(payload, size);
        }
        for (unsigned frame = 0; frame < RANDOM_PAYLOADS; frame++) {
            random_payload(payload, size);
            send(payload, size);
        }
        print_lengths("plain", size, plain);
        print_lengths("coded", size, coded);
    }
}
