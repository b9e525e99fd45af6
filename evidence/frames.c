/* Sends frames, with the payload as it is (plain) and coded in 8B9B, and counts the lengths met. The 8B9B frame is the
 * archive's. The plain one has the payload's bytes as its data field, and is built by the second program; frames of the
 * long form are sent in 8B9B alone. */
#include "frames.h"

#include <prushgoli.h>
#include <stdio.h>
#include <string.h>

#include "payloads.h"

enum { IDENTIFIERS = 2048, LENGTHS = 160, NO_BIT = 2, FROM_ACK_SLOT = 9 /* bits to the end of a line */ };

/* Of a long identifier; and the frames in runs that are sent, at most, of those with the same bounds. */
enum { LONG_BITS = 29, MOST_IN_RUNS = 2000 };

struct range {
    unsigned shortest, longest;
};

static struct {
    unsigned long frames, reported, within, back, unheard, heard;
    unsigned long plain[LENGTHS + 1], coded[LENGTHS][LENGTHS + 1]; /* coded: by the least bound, then by the length */
} met;

static struct range plain_of[IDENTIFIERS], coded_of[IDENTIFIERS];

static void widen(struct range *range, unsigned length)
{
    if (range->longest == 0 || length < range->shortest)
        range->shortest = length;
    if (length > range->longest)
        range->longest = length;
}

static unsigned widest(const struct range *range)
{
    unsigned most = 0;
    for (size_t i = 0; i < IDENTIFIERS; i++)
        if (range[i].longest - range[i].shortest > most)
            most = range[i].longest - range[i].shortest;
    return most;
}

static void send_plain(uint32_t identifier, const uint8_t *payload, size_t size)
{
    unsigned length = (unsigned)plain_line(identifier, payload, size).length;
    met.plain[length]++;
    widen(&plain_of[identifier], length);
}

/* The bits are counted in the line itself, not taken from an answer. */
static unsigned bits_of(const uint8_t *line, size_t room)
{
    unsigned bits = 0;
    while (bits < room && line[bits] != NO_BIT)
        bits++;
    return bits;
}

typedef prushgoli_answer reader(const uint8_t *line, size_t line_len, uint8_t *payload, size_t payload_room);

static int comes_back(reader *read_line, const uint8_t *line, unsigned bits, uint32_t identifier,
                      const uint8_t *payload, size_t size)
{
    uint8_t back[PRUSHGOLI_PAYLOAD_MOST] = {0};
    prushgoli_answer read = read_line(line, bits, back, sizeof back);
    return prushgoli_accepted(read) && prushgoli_identifier(read) == identifier &&
           prushgoli_length(read) == size && memcmp(back, payload, size) == 0;
}

/* Reads the line as it was made, and as it is once a receiver on the bus has set the ACK slot to 0. */
static void read_back(uint8_t *line, unsigned bits, uint32_t identifier, const uint8_t *payload, size_t size)
{
    uint8_t back[PRUSHGOLI_PAYLOAD_MOST] = {0};
    unsigned ack_slot = bits - FROM_ACK_SLOT;
    prushgoli_answer unheard = prushgoli_read_line(line, bits, back, sizeof back);
    met.back += comes_back(prushgoli_read_own_line, line, bits, identifier, payload, size);
    met.unheard += prushgoli_refusal(unheard) == PRUSHGOLI_NOT_ACKNOWLEDGED && prushgoli_place(unheard) == ack_slot;
    line[ack_slot] = 0;
    met.heard += comes_back(prushgoli_read_line, line, bits, identifier, payload, size);
}

static unsigned send_coded(uint32_t identifier, const uint8_t *payload, size_t size)
{
    uint8_t line[LENGTHS];
    memset(line, NO_BIT, sizeof line);
    prushgoli_answer bounds = prushgoli_frame_bounds(identifier, size);
    prushgoli_answer length = prushgoli_frame_length(identifier, payload, size);
    prushgoli_answer made = prushgoli_make_frame(identifier, payload, size, line, sizeof line);
    unsigned bits = bits_of(line, sizeof line), least = prushgoli_least(bounds);
    met.frames++;
    met.reported += prushgoli_length(length) == bits && prushgoli_length(made) == bits;
    met.within += least <= bits && bits <= prushgoli_most(bounds);
    met.coded[least][bits]++;
    if (bits > FROM_ACK_SLOT)
        read_back(line, bits, identifier, payload, size);
    return bits;
}

static void send(uint32_t identifier, const uint8_t *payload, size_t size)
{
    send_plain(identifier, payload, size);
    widen(&coded_of[identifier], send_coded(identifier, payload, size));
}

static void print_met(const char *form, const char *kind, size_t size)
{
    printf("frames %s %s %zu %lu %lu %lu %lu %lu %lu\n", form, kind, size, met.frames, met.reported, met.within,
           met.back, met.unheard, met.heard);
    for (unsigned length = 0; length <= LENGTHS; length++)
        if (met.plain[length] > 0)
            printf("plain %s %s %zu %u %lu\n", form, kind, size, length, met.plain[length]);
    for (unsigned least = 0; least < LENGTHS; least++)
        for (unsigned length = 0; length <= LENGTHS; length++)
            if (met.coded[least][length] > 0)
                printf("coded %s %s %zu %u %u %lu\n", form, kind, size, least, length, met.coded[least][length]);
}

/* Random identifiers with random payloads. */
static void send_random(size_t size)
{
    uint8_t payload[PRUSHGOLI_PAYLOAD_MOST];
    memset(&met, 0, sizeof met);
    for (unsigned long frame = 0; frame < RANDOM_FRAMES; frame++) {
        random_payload(payload, size);
        send((uint32_t)(random_number() % IDENTIFIERS), payload, size);
    }
    print_met("base", "random", size);
}

/* Every identifier with every payload that has no bytes but 00 and FF. */
static void send_equal_bits(size_t size)
{
    uint8_t payload[PRUSHGOLI_PAYLOAD_MOST];
    memset(&met, 0, sizeof met);
    for (unsigned which = 0; which < 1U << size; which++) {
        equal_bits_payload(payload, size, which);
        for (uint32_t identifier = 0; identifier < IDENTIFIERS; identifier++)
            send(identifier, payload, size);
    }
    print_met("base", "equal-bits", size);
}

void send_frames(size_t size)
{
    memset(plain_of, 0, sizeof plain_of);
    memset(coded_of, 0, sizeof coded_of);
    send_random(size);
    send_equal_bits(size);
    printf("spread %zu %u %u\n", size, widest(plain_of), widest(coded_of));
}

static uint32_t in_runs[IN_RUNS];

/* Lists all that begin with these bits and go on with a run of this bit, so many bits being left; gives where the list
 * ends. */
static uint32_t *list_runs(uint32_t *next, uint32_t begun, int left, uint32_t bit)
{
    for (int run = 2; run <= left; run++) {
        uint32_t number = ((begun + bit) << run) - bit;
        if (run == left)
            *next++ = number;
        else
            next = list_runs(next, number, left - run, !bit);
    }
    return next;
}

const uint32_t *identifiers_in_runs(void)
{
    if (in_runs[IN_RUNS - 1] == 0)
        list_runs(list_runs(in_runs, 0, LONG_BITS, 0), 0, LONG_BITS, 1);
    return in_runs;
}

static void send_long_random(size_t size)
{
    uint8_t payload[PRUSHGOLI_PAYLOAD_MOST];
    memset(&met, 0, sizeof met);
    for (unsigned long frame = 0; frame < LONG_RANDOM_FRAMES; frame++) {
        random_payload(payload, size);
        send_coded(PRUSHGOLI_LONG | (uint32_t)(random_number() >> (64 - LONG_BITS)), payload, size);
    }
    print_met("long", "random", size);
}

static void send_in_runs(size_t size)
{
    const uint32_t *identifiers = identifiers_in_runs();
    unsigned sent[LENGTHS] = {0};
    uint8_t payload[PRUSHGOLI_PAYLOAD_MOST];
    memset(&met, 0, sizeof met);
    for (size_t i = 0; i < IN_RUNS; i++) {
        uint32_t identifier = PRUSHGOLI_LONG | identifiers[i];
        if (sent[prushgoli_least(prushgoli_frame_bounds(identifier, size))]++ >= MOST_IN_RUNS)
            continue;
        random_payload(payload, size);
        send_coded(identifier, payload, size);
    }
    print_met("long", "in-runs", size);
}

void send_long_frames(size_t size)
{
    send_long_random(size);
    send_in_runs(size);
}
