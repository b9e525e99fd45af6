/* Runs the archive and prints what it did, a fact to a line: its name, then its numbers. runs.py says what they are. */
#include <prushgoli.h>
#include <stdio.h>
#include <stdlib.h>
#include <string.h>

#include "frames.h"
#include "payloads.h"
#include "shown.h"

enum { IDENTIFIERS = 2048, LENGTHS = 160 };

static void fail(const char *call, prushgoli_answer answer)
{
    fprintf(stderr, "evidence/runs: %s refuses: %s\n", call, prushgoli_reason(prushgoli_refusal(answer)));
    exit(EXIT_FAILURE);
}

static unsigned encode(const uint8_t *payload, size_t size, uint8_t *field)
{
    prushgoli_answer answer = prushgoli_encode(payload, size, field, PRUSHGOLI_FIELD_MOST);
    if (!prushgoli_accepted(answer))
        fail("prushgoli_encode", answer);
    return prushgoli_length(answer);
}

static void print_bytes(void)
{
    for (unsigned byte = 0; byte < 256; byte++) {
        uint8_t payload[] = {(uint8_t)byte}, field[PRUSHGOLI_FIELD_MOST] = {0}, back[PRUSHGOLI_PAYLOAD_MOST] = {0};
        unsigned field_bytes = encode(payload, 1, field);
        prushgoli_answer answer = prushgoli_decode(field, field_bytes, back, sizeof back);
        if (!prushgoli_accepted(answer))
            fail("prushgoli_decode", answer);
        printf("byte %02X ", byte);
        for (unsigned i = 0; i < field_bytes; i++)
            printf("%02X", field[i]);
        printf(" ");
        for (unsigned i = 0; i < prushgoli_length(answer); i++)
            printf("%02X", back[i]);
        printf("\n");
    }
}

/* How many identifiers have these two bounds. */
static unsigned with_bounds[LENGTHS][LENGTHS];

static void ask_bounds(uint32_t identifier, size_t size)
{
    prushgoli_answer answer = prushgoli_frame_bounds(identifier, size);
    if (!prushgoli_accepted(answer))
        fail("prushgoli_frame_bounds", answer);
    unsigned least = prushgoli_least(answer), most = prushgoli_most(answer);
    if (least >= LENGTHS || most >= LENGTHS) {
        fprintf(stderr, "evidence/runs: identifier %08X, size %zu: bounds %u and %u\n", (unsigned)identifier, size,
                least, most);
        exit(EXIT_FAILURE);
    }
    with_bounds[least][most]++;
}

static void print_bounds(const char *form, size_t size)
{
    const uint8_t payload[PRUSHGOLI_PAYLOAD_MOST] = {0};
    uint8_t field[PRUSHGOLI_FIELD_MOST] = {0};
    unsigned field_bytes = encode(payload, size, field);
    for (unsigned least = 0; least < LENGTHS; least++)
        for (unsigned most = 0; most < LENGTHS; most++)
            if (with_bounds[least][most] > 0)
                printf("bounds %s %zu %u %u %u %u\n", form, size, field_bytes, least, most, with_bounds[least][most]);
    memset(with_bounds, 0, sizeof with_bounds);
}

/* All identifiers of the base form, and those of the long form in runs. */
static void ask_all_bounds(size_t size)
{
    for (uint32_t identifier = 0; identifier < IDENTIFIERS; identifier++)
        ask_bounds(identifier, size);
    print_bounds("base", size);
    for (size_t i = 0; i < IN_RUNS; i++)
        ask_bounds(PRUSHGOLI_LONG | identifiers_in_runs()[i], size);
    print_bounds("long", size);
}

int main(void)
{
    print_bytes();
    printf("seed %X\n", SEED);
    for (size_t size = 0; size <= PRUSHGOLI_PAYLOAD_MOST; size++) {
        ask_all_bounds(size);
        send_frames(size);
        send_long_frames(size);
    }
    print_cases();
    print_frame();
    print_one_identifier();
    return EXIT_SUCCESS;
}
