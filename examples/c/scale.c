/*
 * A scale sends its net weight to a labeller over CAN. The firmware hands its controller a data field in 8B9B and
 * leaves header, CRC and stuff bits to it. The controller is a stub here: one mailbox that both sides look into.
 */
#include <inttypes.h>
#include <stdbool.h>
#include <stdio.h>

#include "prushgoli.h"

enum { NET_WEIGHT = 0x155, WEIGHT_BYTES = 4 };

/* An identifier of 29 bits, as forklifts have: bit 31 says so, in every call that takes or gives an identifier. */
static const uint32_t forklift_weight = PRUSHGOLI_LONG | 0x18FF0155;

/* The ACK slot, the ACK delimiter and seven end bits end a line. */
enum { FROM_ACK_SLOT = 9 };

/* As in the registers of a controller, or SocketCAN's struct can_frame. */
struct mailbox {
    uint32_t identifier;
    uint8_t dlc;
    uint8_t data[PRUSHGOLI_FIELD_MOST];
};

/* Every answer goes through here: a refusal is printed. */
static bool accepted(const char *who, prushgoli_answer answer)
{
    if (prushgoli_accepted(answer))
        return true;
    printf("%s: refusal %u, place %u: %s\n", who, prushgoli_refusal(answer), prushgoli_place(answer),
           prushgoli_answer_reason(answer));
    return false;
}

static void print_bytes(const char *what, const uint8_t *bytes, size_t length)
{
    printf("%s", what);
    for (size_t i = 0; i < length; i++)
        printf(" %02X", bytes[i]);
    putchar('\n');
}

/* What 100 weights a second may take of the bus, before any is known. */
static bool plan(void)
{
    prushgoli_answer answer = prushgoli_frame_bounds(NET_WEIGHT, WEIGHT_BYTES);
    if (!accepted("plan", answer))
        return false;
    unsigned least = prushgoli_least(answer), most = prushgoli_most(answer);
    printf("plan: %u to %u bits a frame, at most %u bit/s\n", least, most, most * 100);
    return true;
}

/* The field is coded straight into the mailbox; its length is the DLC. */
static bool send_weight(struct mailbox *box, const uint8_t *payload)
{
    prushgoli_answer answer = prushgoli_encode(payload, WEIGHT_BYTES, box->data, sizeof box->data);
    if (!accepted("scale", answer))
        return false;
    box->identifier = NET_WEIGHT;
    box->dlc = (uint8_t)prushgoli_length(answer);
    print_bytes("scale: field", box->data, box->dlc);
    return true;
}

static bool print_label(const struct mailbox *box)
{
    uint8_t payload[PRUSHGOLI_PAYLOAD_MOST] = {0};
    prushgoli_answer answer = prushgoli_decode(box->data, box->dlc, payload, sizeof payload);
    if (!accepted("labeller", answer))
        return false;
    print_bytes("labeller: payload", payload, prushgoli_length(answer));
    if (box->identifier != NET_WEIGHT || prushgoli_length(answer) != WEIGHT_BYTES)
        return false;
    printf("labeller: %" PRIu32 " g\n",
           (uint32_t)payload[0] << 24 | (uint32_t)payload[1] << 16 | (uint32_t)payload[2] << 8 | payload[3]);
    return true;
}

/* The frame as the wire has it, bit by bit: its length in bits, 0 where it is refused. */
static size_t print_line(const uint8_t *payload, uint8_t *line, size_t room)
{
    prushgoli_answer told = prushgoli_frame_length(NET_WEIGHT, payload, WEIGHT_BYTES);
    prushgoli_answer made = prushgoli_make_frame(NET_WEIGHT, payload, WEIGHT_BYTES, line, room);
    if (!accepted("wire", told) || !accepted("wire", made))
        return 0;
    printf("wire: %u bits\nwire: ", prushgoli_length(told));
    for (size_t i = 0; i < prushgoli_length(made); i++)
        putchar('0' + line[i]);
    putchar('\n');
    return prushgoli_length(made);
}

static bool print_read(const char *who, prushgoli_answer answer, const uint8_t *payload)
{
    if (!accepted(who, answer))
        return false;
    uint32_t identifier = prushgoli_identifier(answer);
    if (identifier & PRUSHGOLI_LONG)
        printf("%s: long identifier %08" PRIX32, who, identifier & ~PRUSHGOLI_LONG);
    else
        printf("%s: identifier %03" PRIX32, who, identifier);
    print_bytes(", payload", payload, prushgoli_length(answer));
    return true;
}

/*
 * A line that we made ourselves has 1 in its ACK slot, since nobody heard it yet: prushgoli_read_own_line takes it. A
 * recorder on the bus asks prushgoli_read_line, which refuses it until a receiver, the labeller, sets the slot to 0.
 */
static bool record(const uint8_t *payload)
{
    uint8_t line[PRUSHGOLI_LINE_ROOM] = {0}, read[PRUSHGOLI_PAYLOAD_MOST] = {0};
    size_t bits = print_line(payload, line, sizeof line);
    if (bits == 0 || !print_read("self-test", prushgoli_read_own_line(line, bits, read, sizeof read), read))
        return false;
    if (print_read("recorder, labeller off", prushgoli_read_line(line, bits, read, sizeof read), read))
        return false;
    line[bits - FROM_ACK_SLOT] = 0;
    return print_read("recorder, labeller on", prushgoli_read_line(line, bits, read, sizeof read), read);
}

/* The same weight for a forklift: a frame of the long form, which wants more room. */
static bool tell_forklift(const uint8_t *payload)
{
    uint8_t line[PRUSHGOLI_LONG_LINE_ROOM] = {0}, read[PRUSHGOLI_PAYLOAD_MOST] = {0};
    prushgoli_answer made = prushgoli_make_frame(forklift_weight, payload, WEIGHT_BYTES, line, sizeof line);
    if (!accepted("forklift", made))
        return false;
    printf("forklift: %u bits\n", prushgoli_length(made));
    return print_read("forklift", prushgoli_read_own_line(line, prushgoli_length(made), read, sizeof read), read);
}

int main(void)
{
    const uint8_t payload[WEIGHT_BYTES] = {0x00, 0x00, 0x04, 0xE2}; /* 1250 g, high byte first */
    struct mailbox box = {0};
    if (!plan() || !send_weight(&box, payload) || !print_label(&box) || !record(payload) || !tell_forklift(payload))
        return 1;
    /* A bit that flips in memory. Some would make another word, and another weight: coding does not replace a CRC. */
    box.data[3] ^= 0x80;
    return print_label(&box) ? 1 : 0;
}
