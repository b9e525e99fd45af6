#include <prushgoli.h>
#include <stdio.h>
#include <string.h>

#include "shown.h"
#include "worked.h"

/* Bytes to and from hexadecimal digits; - is for none. */
static size_t bytes_of(const char *digits, uint8_t *bytes)
{
    size_t length = strlen(digits) / 2;
    for (size_t i = 0; i < length; i++) {
        unsigned byte = 0;
        sscanf(digits + 2 * i, "%2X", &byte);
        bytes[i] = (uint8_t)byte;
    }
    return length;
}

static void print_bytes(const uint8_t *bytes, size_t length)
{
    printf(length == 0 ? " -" : " ");
    for (size_t i = 0; i < length; i++)
        printf("%02X", bytes[i]);
}

/* A refusal with its place, or what was accepted. */
static void print_answer(prushgoli_answer answer)
{
    if (!prushgoli_accepted(answer))
        printf(" refusal:%u:%u", prushgoli_refusal(answer), prushgoli_place(answer));
    else if (prushgoli_most(answer) != 0)
        printf(" bounds:%u:%u", prushgoli_least(answer), prushgoli_most(answer));
    else
        printf(" length:%u", prushgoli_length(answer));
}

static void print_coding(const struct worked_coding *worked)
{
    uint8_t payload[16], said[16], field[16] = {0};
    size_t size = bytes_of(worked->payload, payload), said_bytes = bytes_of(worked->field, said);
    prushgoli_answer answer = prushgoli_encode(payload, size, field, said_bytes);
    printf("case coding");
    print_bytes(payload, size);
    print_bytes(said, said_bytes);
    print_bytes(field, prushgoli_length(answer));
    printf("\n");
}

static void print_asked(const struct worked_answer *worked)
{
    uint8_t given[16], lent[16] = {0};
    size_t length = bytes_of(worked->given, given);
    printf("case %s", worked->call == ENCODE ? "encode" : "decode");
    print_bytes(given, length);
    printf(" %zu", worked->room);
    print_answer(refused(worked->refusal, worked->low));
    print_answer((worked->call == ENCODE ? prushgoli_encode : prushgoli_decode)(given, length, lent, worked->room));
    printf("\n");
}

static void print_bounds(const struct worked_bounds *worked)
{
    uint64_t refusal = refused(worked->refusal, 0);
    printf("case bounds %X %zu", (unsigned)worked->identifier, worked->size);
    print_answer(refusal != 0 ? refusal : accepted(worked->least, worked->most));
    print_answer(prushgoli_frame_bounds(worked->identifier, worked->size));
    printf("\n");
}

/* What the archive's line has is counted where its bits are told apart. */
static void print_worked_frame(void)
{
    uint8_t line[PRUSHGOLI_LINE_ROOM] = {0};
    prushgoli_answer answer = prushgoli_make_frame(worked_frame.identifier, NULL, 0, line, sizeof line);
    printf("case frame %X %u:%u:%u:%u ", (unsigned)worked_frame.identifier, worked_frame.crc, worked_frame.in_header,
           worked_frame.in_crc, worked_frame.bits);
    for (unsigned i = 0; i < prushgoli_length(answer); i++)
        printf("%u", line[i]);
    printf("\n");
}

void print_cases(void)
{
    for (size_t i = 0; i < COUNT_OF(worked_codings); i++)
        print_coding(&worked_codings[i]);
    for (size_t i = 0; i < COUNT_OF(worked_answers); i++)
        print_asked(&worked_answers[i]);
    for (size_t i = 0; i < COUNT_OF(worked_bounds); i++)
        print_bounds(&worked_bounds[i]);
    print_worked_frame();
}
