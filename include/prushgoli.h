/*
 * Prushgoli: CAN data fields in 8B9B. Codes a payload of 0 to 7 bytes into a data field that needs no stuff bit, and
 * back; makes and reads the whole line of bits of a CAN data frame, of the base form (11-bit identifier) and of the
 * long form (29-bit identifier); tells frame lengths. Where a CAN controller makes the frames, prushgoli_encode and
 * prushgoli_decode are enough. For C99 and C++11 on.
 *
 * Initialise output buffers too: every byte that is handed over must have been set to something.
 *
 *     uint8_t field[PRUSHGOLI_FIELD_MOST] = {0};
 *     prushgoli_answer answer = prushgoli_encode(payload, payload_len, field, sizeof field);
 *     if (prushgoli_accepted(answer))
 *         transmit(field, prushgoli_length(answer));
 *     else
 *         complain(prushgoli_answer_reason(answer), prushgoli_place(answer));
 *
 * An answer is neither a truth value nor a length: ask prushgoli_accepted first, then prushgoli_length, or
 * prushgoli_refusal and prushgoli_place. Every call takes every input and gives such an answer.
 *
 * An identifier says its form, in every call that takes or gives one:
 *
 *     base form    the number, 0 to 2047
 *     long form    PRUSHGOLI_LONG | the number, 0 to 536,870,911
 *
 * The same number in the two forms makes two identifiers, and two frames. The bit is that of Linux's can_id: the can_id
 * of a data frame is an identifier as it is; with its bit for remote or error frames it is refused.
 *
 * What holds of every call:
 *   - A refusal leaves every lent buffer with its old bytes. On success only the bytes of the result are written, at
 *     the start of the buffer; those after them keep their values.
 *   - A slice is a pointer and a length: so many bytes, written by nobody else during the call. With length 0 the
 *     pointer is never used and may be NULL.
 *   - The two slices of a call must not overlap: nothing can be coded in place.
 *   - The answer is all there is: no errno, no heap, no global state. Calls are re-entrant.
 *   - A call takes less than 2 KB of stack (measured). It uses vector registers, which an interrupt handler that calls
 *     one has to save, and the 128 bytes below the stack pointer (the red zone of the x86-64 ABI), which every handler
 *     on that stack has to leave alone.
 */
#ifndef PRUSHGOLI_H
#define PRUSHGOLI_H

#include <stddef.h>
#include <stdint.h>

#ifdef __cplusplus
extern "C" {
#endif

/* Of this header, and of the archive beside it. The second number goes up where callers may notice something. */
#define PRUSHGOLI_VERSION_MAJOR 0
#define PRUSHGOLI_VERSION_MINOR 5
#define PRUSHGOLI_VERSION_PATCH 0

/* A call whose answer is discarded draws a warning, where the compiler can. */
#if (defined(__cplusplus) && __cplusplus >= 201703L) || (defined(__STDC_VERSION__) && __STDC_VERSION__ >= 202311L)
#define PRUSHGOLI_NODISCARD [[nodiscard]]
#elif defined(__GNUC__)
#define PRUSHGOLI_NODISCARD __attribute__((warn_unused_result))
#else
#define PRUSHGOLI_NODISCARD
#endif

#define PRUSHGOLI_PAYLOAD_MOST 7     /* bytes of the longest payload */
#define PRUSHGOLI_FIELD_MOST 8       /* bytes of the longest field */
#define PRUSHGOLI_LINE_MOST 115      /* bits of the longest line of the base form */
#define PRUSHGOLI_LONG_LINE_MOST 140 /* bits of the longest line of the long form */
#define PRUSHGOLI_LINE_ROOM 116      /* room that making a frame of the base form asks for: one more than it can need */
#define PRUSHGOLI_LONG_LINE_ROOM 141 /* room that making one of the long form asks for: enough for both forms */

/* The field bytes of a payload of 0 to 7 bytes, which are the frame's DLC. Evaluates payload_len more than once. */
#define PRUSHGOLI_FIELD_BYTES(payload_len) ((payload_len) == 0 ? 0 : (payload_len) + 1)

/* Bit 31 of an identifier: it has the long form, and the other bits are its number. */
#define PRUSHGOLI_LONG UINT32_C(0x80000000)

/*
 * What every call answers. The helpers at the end take it apart; in it are
 *
 *     bits  0 to 15    a length (accepted), or the place (refused)
 *     bits 16 to 31    the number of the refusal, 0 when accepted
 *     bits 32 to 63    when accepted: the identifier (prushgoli_read_line, prushgoli_read_own_line), the longer bound
 *                      (prushgoli_frame_bounds); else 0
 */
typedef uint64_t prushgoli_answer;

/* The refusals, each with its place. Places in a line count its bits from 0, stuff bits included. Numbers that are not
 * here are given by no call of this version. */
enum {
    PRUSHGOLI_ACCEPTED = 0,
    PRUSHGOLI_PAYLOAD_TOO_LONG = 1, /* payload longer than 7 bytes: 0 */
    PRUSHGOLI_ROOM_SHORT = 2,       /* room is short: 0 */
    PRUSHGOLI_FIELD_LENGTH = 3,     /* field of 1 byte or more than 8: 0; in a line, such a DLC: its fourth bit */
    PRUSHGOLI_BREAK_BIT = 4,        /* wrong break bit: 0 */
    PRUSHGOLI_ESCAPE = 5,           /* an escape where a byte must be: number of the word, from 0 */
    PRUSHGOLI_NO_WORD = 6,          /* nine bits that are no word: number of the word, from 0 */
    PRUSHGOLI_PADDING = 7,          /* padding other than 0, 1, 0, 1 and so on: 0 */
    PRUSHGOLI_IDENTIFIER = 8,       /* identifier above 2047, in the long form above 536,870,911: 0 */
    PRUSHGOLI_LINE_BYTE = 9,        /* a line byte above 1: that bit */
    PRUSHGOLI_STUFF_BIT = 10,       /* sixth equal bit where a stuff bit is due: that bit */
    PRUSHGOLI_LINE_LENGTH = 11,     /* line ends too early: its length; bits after the last end bit: first of them */
    PRUSHGOLI_CRC = 12,             /* CRC differs: last CRC bit */
    PRUSHGOLI_FIXED_BIT = 13,       /* start, RTR, SRR, reserved bit, a delimiter or an end bit is wrong: that bit */
    PRUSHGOLI_RECORD = 14,          /* trace record of unknown kind, or its body cut: offset of its kind byte. No call
                                       gives it; the program prushgoli-trace writes it into its report */
    PRUSHGOLI_NOT_ACKNOWLEDGED = 20 /* a 1 in the ACK slot, nobody heard the frame: that bit */
};

/*
 * Codes a payload into its data field. Length: the field's bytes, PRUSHGOLI_FIELD_BYTES(payload_len).
 * Room: those bytes; PRUSHGOLI_FIELD_MOST is enough for all.
 * Refusals, in this order: PRUSHGOLI_PAYLOAD_TOO_LONG, PRUSHGOLI_ROOM_SHORT; place 0.
 */
PRUSHGOLI_NODISCARD
prushgoli_answer prushgoli_encode(const uint8_t *payload, size_t payload_len, uint8_t *field, size_t field_room);

/*
 * Decodes a data field. Length: the payload's bytes. Accepts exactly the fields that prushgoli_encode gives.
 * Room: the payload's bytes, one less than the field's, none for the empty field; PRUSHGOLI_PAYLOAD_MOST is enough for
 * all.
 * Refusals, in this order: PRUSHGOLI_FIELD_LENGTH, PRUSHGOLI_ROOM_SHORT, PRUSHGOLI_BREAK_BIT, place 0; then the words
 * from the left, PRUSHGOLI_ESCAPE or PRUSHGOLI_NO_WORD, place the number of the word; then PRUSHGOLI_PADDING, place 0.
 */
PRUSHGOLI_NODISCARD
prushgoli_answer prushgoli_decode(const uint8_t *field, size_t field_len, uint8_t *payload, size_t payload_room);

/*
 * Tells how long the frame of an identifier and a payload is. Length: its bits on the wire, from the start of frame to
 * the last end bit, stuff bits included.
 * Refusals, in this order: PRUSHGOLI_IDENTIFIER, PRUSHGOLI_PAYLOAD_TOO_LONG; place 0.
 */
PRUSHGOLI_NODISCARD
prushgoli_answer prushgoli_frame_length(uint32_t identifier, const uint8_t *payload, size_t payload_len);

/*
 * Tells between which two lengths, in bits, every frame lies that has this identifier and a payload of payload_len
 * bytes: prushgoli_least and prushgoli_most. With n field bytes and h stuff bits in the header these are 44 + 8n + h
 * and 48 + 8n + h, in the long form 64 + 8n + h and 68 + 8n + h. No payload is asked for. A bound need not be reached.
 * Refusals, in this order: PRUSHGOLI_IDENTIFIER, PRUSHGOLI_PAYLOAD_TOO_LONG (however large payload_len is); place 0.
 */
PRUSHGOLI_NODISCARD
prushgoli_answer prushgoli_frame_bounds(uint32_t identifier, size_t payload_len);

/*
 * Makes the line of a frame: one byte, 0 or 1, for each bit, in the order sent, stuffed to the last CRC bit as in
 * ISO 11898-1; the ACK slot, the ninth bit from the end, is 1, as a sender leaves it: prushgoli_read_own_line reads it
 * back. Length: its bits, as prushgoli_frame_length tells.
 * Room: PRUSHGOLI_LINE_ROOM for every frame of the base form, PRUSHGOLI_LONG_LINE_ROOM for every one of the long form,
 * however many bits it has.
 * Refusals, in this order: PRUSHGOLI_IDENTIFIER, PRUSHGOLI_PAYLOAD_TOO_LONG, PRUSHGOLI_ROOM_SHORT; place 0.
 */
PRUSHGOLI_NODISCARD
prushgoli_answer prushgoli_make_frame(uint32_t identifier, const uint8_t *payload, size_t payload_len, uint8_t *line,
                                      size_t line_room);

/*
 * Reads the line of a frame that was recorded on a live bus: its bits as prushgoli_make_frame writes them, but 0 in the
 * ACK slot. A 1 there is refused, since it means that nobody heard the frame; so is a line of prushgoli_make_frame,
 * unheard, which prushgoli_read_own_line reads.
 * Length: the payload's bytes; prushgoli_identifier: the identifier, of the form that the bit IDE chooses. Who wants
 * the base form alone has to look for PRUSHGOLI_LONG.
 * Room: the payload's bytes; PRUSHGOLI_PAYLOAD_MOST is enough for all.
 * Refusals: the first problem met from the left, and nothing to its right is looked at.
 *   - At one bit: PRUSHGOLI_LINE_LENGTH, PRUSHGOLI_LINE_BYTE, PRUSHGOLI_STUFF_BIT, then PRUSHGOLI_FIXED_BIT or, in the
 *     ACK slot, PRUSHGOLI_NOT_ACKNOWLEDGED.
 *   - PRUSHGOLI_FIELD_LENGTH comes with the fourth DLC bit and PRUSHGOLI_CRC with the last CRC bit, where that bit has
 *     none of the first three; a stuff bit behind it is not yet looked at.
 *   - The bit before IDE, RTR (0) of the base form or SRR (1) of the long one, is judged only once IDE has been read
 *     without refusal; its PRUSHGOLI_FIXED_BIT has its own place, one before IDE's, or two where a stuff bit stands
 *     between.
 *   - Bits after the last end bit: PRUSHGOLI_LINE_LENGTH.
 *   - Then PRUSHGOLI_ROOM_SHORT, and of the data field PRUSHGOLI_BREAK_BIT and what comes after it in prushgoli_decode,
 *     with the places that it gives.
 */
PRUSHGOLI_NODISCARD
prushgoli_answer prushgoli_read_line(const uint8_t *line, size_t line_len, uint8_t *payload, size_t payload_room);

/*
 * Reads a line of our own prushgoli_make_frame, heard or not: the ACK slot may be 0 or 1. Length, identifier and room
 * are those of prushgoli_read_line.
 * Refusals: those of prushgoli_read_line, in its order, without PRUSHGOLI_NOT_ACKNOWLEDGED.
 */
PRUSHGOLI_NODISCARD
prushgoli_answer prushgoli_read_own_line(const uint8_t *line, size_t line_len, uint8_t *payload, size_t payload_room);

/* The number of the refusal, PRUSHGOLI_ACCEPTED if there is none. */
static inline unsigned prushgoli_refusal(prushgoli_answer answer)
{
    return (unsigned)((answer >> 16) & 0xFFFF);
}

/* 1 when accepted, 0 when refused. */
static inline int prushgoli_accepted(prushgoli_answer answer)
{
    return prushgoli_refusal(answer) == PRUSHGOLI_ACCEPTED;
}

/* The length; 0 when refused, so that no place is taken for a length. */
static inline unsigned prushgoli_length(prushgoli_answer answer)
{
    return prushgoli_accepted(answer) ? (unsigned)(answer & 0xFFFF) : 0;
}

/* The place of the refusal; 0 when accepted. */
static inline unsigned prushgoli_place(prushgoli_answer answer)
{
    return prushgoli_accepted(answer) ? 0 : (unsigned)(answer & 0xFFFF);
}

/* Of prushgoli_read_line and prushgoli_read_own_line: the identifier, with its form; 0 when refused. */
static inline uint32_t prushgoli_identifier(prushgoli_answer answer)
{
    return (uint32_t)(answer >> 32);
}

/* Of prushgoli_frame_bounds: the shorter bound; 0 when refused. */
static inline unsigned prushgoli_least(prushgoli_answer answer)
{
    return prushgoli_length(answer);
}

/* Of prushgoli_frame_bounds: the longer bound; 0 when refused. */
static inline unsigned prushgoli_most(prushgoli_answer answer)
{
    return (unsigned)(answer >> 32);
}

/* What the number of a refusal means, in a few words. Of a whole answer: prushgoli_answer_reason. */
static inline const char *prushgoli_reason(unsigned refusal)
{
    switch (refusal) {
    case PRUSHGOLI_ACCEPTED: return "accepted";
    case PRUSHGOLI_PAYLOAD_TOO_LONG: return "payload longer than 7 bytes";
    case PRUSHGOLI_ROOM_SHORT: return "room is short";
    case PRUSHGOLI_FIELD_LENGTH: return "field of 1 byte or more than 8 bytes, or such a DLC";
    case PRUSHGOLI_BREAK_BIT: return "wrong break bit";
    case PRUSHGOLI_ESCAPE: return "an escape where a byte must be";
    case PRUSHGOLI_NO_WORD: return "nine bits that are no word";
    case PRUSHGOLI_PADDING: return "padding other than 0, 1, 0, 1 and so on";
    case PRUSHGOLI_IDENTIFIER: return "identifier above 2047, or above 536,870,911 in the long form";
    case PRUSHGOLI_LINE_BYTE: return "a line byte above 1";
    case PRUSHGOLI_STUFF_BIT: return "sixth equal bit where a stuff bit is due";
    case PRUSHGOLI_LINE_LENGTH: return "line ends too early, or has bits after the last end bit";
    case PRUSHGOLI_CRC: return "CRC differs";
    case PRUSHGOLI_FIXED_BIT: return "a fixed bit is wrong";
    case PRUSHGOLI_RECORD: return "trace record of unknown kind, or its body cut";
    case PRUSHGOLI_NOT_ACKNOWLEDGED: return "1 in the ACK slot: nobody heard the frame";
    default: return "unknown refusal";
    }
}

/* Why an answer is a refusal, in a few words; "accepted" where it is none. */
static inline const char *prushgoli_answer_reason(prushgoli_answer answer)
{
    return prushgoli_reason(prushgoli_refusal(answer));
}

/*
 * What the place of a refusal counts: "word" (of a field), "bit" (of a line), "offset" (in a trace), or "" where the
 * place is always 0. Of a whole answer: prushgoli_answer_unit.
 */
static inline const char *prushgoli_place_unit(unsigned refusal)
{
    switch (refusal) {
    case PRUSHGOLI_ESCAPE:
    case PRUSHGOLI_NO_WORD: return "word";
    case PRUSHGOLI_FIELD_LENGTH:
    case PRUSHGOLI_LINE_BYTE:
    case PRUSHGOLI_STUFF_BIT:
    case PRUSHGOLI_LINE_LENGTH:
    case PRUSHGOLI_CRC:
    case PRUSHGOLI_FIXED_BIT:
    case PRUSHGOLI_NOT_ACKNOWLEDGED: return "bit";
    case PRUSHGOLI_RECORD: return "offset";
    default: return "";
    }
}

/*
 * What the place of an answer counts; "" where it counts nothing. So it is for PRUSHGOLI_FIELD_LENGTH where a field was
 * decoded: the place is then 0, and no bit of a line.
 */
static inline const char *prushgoli_answer_unit(prushgoli_answer answer)
{
    unsigned refusal = prushgoli_refusal(answer);
    return refusal == PRUSHGOLI_FIELD_LENGTH && prushgoli_place(answer) == 0 ? "" : prushgoli_place_unit(refusal);
}

#ifdef __cplusplus
}
#endif

#endif
