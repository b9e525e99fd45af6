/* Writes a trace of 65,536 bytes to standard output: payloads and data fields of every length, most of them right. */
#include <prushgoli.h>
#include <stdio.h>
#include <string.h>

#include "plain.h"
#include "random.h"

enum { TRACE = 65536, BODY_MOST = 9, PAYLOADS = 0x10, FIELDS = 0x20 };

static size_t write_payload(uint8_t *record, size_t length)
{
    record[0] = (uint8_t)(PAYLOADS + length);
    random_bytes(record + 1, length);
    return 1 + length;
}

/* Seven in eight are coded, the others any bytes. */
static size_t write_field(uint8_t *record)
{
    size_t length = random_below(BODY_MOST + 1);
    random_bytes(record + 1, length);
    if (random_below(8) > 0) {
        uint8_t payload[PRUSHGOLI_PAYLOAD_MOST];
        size_t size = random_below(sizeof payload + 1);
        random_bytes(payload, size);
        length = plain_encode(payload, size, record + 1, BODY_MOST);
    }
    record[0] = (uint8_t)(FIELDS + length);
    return 1 + length;
}

int main(void)
{
    static uint8_t trace[TRACE];
    for (size_t end = 0; end < TRACE;) {
        uint8_t record[1 + BODY_MOST];
        size_t length = random_below(2) == 0 ? write_payload(record, random_below(BODY_MOST)) : write_field(record);
        if (length > TRACE - end) /* the last one is a payload that fits */
            length = write_payload(record, TRACE - end - 1);
        memcpy(trace + end, record, length);
        end += length;
    }
    return fwrite(trace, 1, TRACE, stdout) == TRACE ? 0 : 1;
}
