#include <prushgoli.h>
#include <stdio.h>

#include "payloads.h"
#include "shown.h"

/* The weight that the example in C sends, 1,250 g: its zeros are what plain CAN has to stuff. */
enum { IDENTIFIER = 0x155, SIZE = 4, REASONS = 32 };
static const uint8_t payload[SIZE] = {0x00, 0x00, 0x04, 0xE2};

typedef prushgoli_answer reader(const uint8_t *line, size_t line_len, uint8_t *payload, size_t payload_room);

static void print_line(const char *coding, const uint8_t *line, size_t bits)
{
    printf("line %s ", coding);
    for (size_t i = 0; i < bits; i++)
        printf("%u", line[i]);
    printf("\n");
}

/* The line was heard, 0 in its ACK slot, before one bit of it was flipped. */
static void print_flips(const char *name, reader *read, const uint8_t *made, size_t bits)
{
    for (size_t place = 0; place < bits; place++) {
        uint8_t line[PRUSHGOLI_LINE_ROOM], back[PRUSHGOLI_PAYLOAD_MOST] = {0};
        for (size_t i = 0; i < bits; i++)
            line[i] = i == bits - 9 ? 0 : made[i];
        line[place] = !line[place];
        prushgoli_answer answer = read(line, bits, back, sizeof back);
        printf("flip %s %zu %u %u\n", name, place, prushgoli_refusal(answer), prushgoli_place(answer));
    }
}

/* A number that the header has no words for is no refusal. */
static void print_reasons(void)
{
    const char *unknown = prushgoli_reason(REASONS);
    for (unsigned refusal = 0; refusal < REASONS; refusal++)
        if (prushgoli_reason(refusal) != unknown)
            printf("reason %u %s\n", refusal, prushgoli_reason(refusal));
}

void print_frame(void)
{
    uint8_t line[PRUSHGOLI_LINE_ROOM] = {0};
    size_t bits = prushgoli_length(prushgoli_make_frame(IDENTIFIER, payload, SIZE, line, sizeof line));
    struct row plain = plain_line(IDENTIFIER, payload, SIZE);
    printf("shown %03X ", IDENTIFIER);
    for (size_t i = 0; i < SIZE; i++)
        printf("%02X", payload[i]);
    printf("\n");
    print_line("coded", line, bits);
    print_line("plain", plain.bit, plain.length);
    print_flips("read_line", prushgoli_read_line, line, bits);
    print_flips("read_own_line", prushgoli_read_own_line, line, bits);
    print_reasons();
}
