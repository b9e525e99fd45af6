/* The program `trace` of document 01: reads a trace from standard input and writes a line for each record. */
#include <stdio.h>

#include "second.h"

enum { MOST_BYTES = 65536, UNKNOWN_OR_CUT = 14 };

/* The bytes of body that the kind fixes; -1 for an unknown kind. */
static int body_length(uint8_t kind)
{
    if (kind >= 0x10 && kind <= 0x18)
        return kind - 0x10; /* a payload */
    if (kind >= 0x20 && kind <= 0x29)
        return kind - 0x20; /* a data field */
    return -1;
}

static void write_line(unsigned record, char what, unsigned refusal, size_t place, const uint8_t *result, size_t length)
{
    printf("%u %c %u %zu ", record, what, refusal, place);
    for (size_t i = 0; i < length; i++)
        printf("%02X", result[i]);
    printf(length == 0 ? "-\n" : "\n");
}

/* A whole record: its payload encoded or its field decoded. */
static void report(unsigned record, uint8_t kind, const uint8_t *body, size_t length)
{
    int is_payload = kind < 0x20;
    uint8_t result[8];
    uint64_t answer = (is_payload ? second_encode : second_decode)(body, length, result, sizeof result);
    unsigned refusal = (unsigned)(answer >> 16), length_or_place = answer & 0xFFFF;
    if (refusal == 0)
        write_line(record, is_payload ? 'E' : 'D', 0, 0, result, length_or_place);
    else
        write_line(record, is_payload ? 'E' : 'D', refusal, length_or_place, NULL, 0);
}

int main(void)
{
    static uint8_t trace[MOST_BYTES];
    size_t end = fread(trace, 1, sizeof trace, stdin), offset = 0;
    for (unsigned record = 1; offset < end; record++) {
        int length = body_length(trace[offset]);
        if (length < 0 || offset + 1 + length > end) {
            write_line(record, '-', UNKNOWN_OR_CUT, offset, NULL, 0);
            break;
        }
        report(record, trace[offset], trace + offset + 1, length);
        offset += 1 + length;
    }
    return 0;
}
