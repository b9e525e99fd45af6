/* The counted calls: on each content every program is asked the same, between two marks. What is executed there beside
 * the call is known from a program of one instruction. The plain C and the archive must do the same, and accept. */
#define _DEFAULT_SOURCE
#include <prushgoli.h>
#include <stdio.h>
#include <stdlib.h>
#include <string.h>
#include <unistd.h>

#include "mark.h"
#include "plain.h"
#include "random.h"

enum { CONTENTS = 1000, LENT = 160, FROM_ACK_SLOT = 9 /* bits to the end of a line */ };
enum call { ENCODE, DECODE, FRAME_LENGTH, FRAME_BOUNDS, MAKE_FRAME, READ_LINE, READ_OWN_LINE };
enum form { NO_FORM, BASE, LONG };

typedef uint64_t from_bytes(const uint8_t *, size_t, uint8_t *, size_t);
typedef uint64_t length_of(uint32_t, const uint8_t *, size_t);
typedef uint64_t bounds_of(uint32_t, size_t);
typedef uint64_t line_of(uint32_t, const uint8_t *, size_t, uint8_t *, size_t);

struct program {
    from_bytes *encode, *decode, *read_line, *read_own_line;
    length_of *frame_length;
    bounds_of *frame_bounds;
    line_of *make_frame;
};

/* One instruction, and 202. */
void one(void), known(void);
__asm__("one: ret\n"
        "known: mov $100, %ecx\n"
        "1: dec %ecx\n"
        "jnz 1b\n"
        "ret\n");

#define ALL(name)                                                                                                      \
    {name##_encode,       name##_decode,       name##_read_line, name##_read_own_line,                                 \
     name##_frame_length, name##_frame_bounds, name##_make_frame}
#define EACH(code)                                                                                                     \
    {(from_bytes *)code, (from_bytes *)code, (from_bytes *)code, (from_bytes *)code,                                   \
     (length_of *)code,  (bounds_of *)code,  (line_of *)code}

/* NONE is in the mark before a call. */
enum { NONE, ONE, KNOWN, PLAIN, ARCHIVE, PROGRAMS };
static const struct program programs[PROGRAMS] = {
    [ONE] = EACH(one), [KNOWN] = EACH(known), [PLAIN] = ALL(plain), [ARCHIVE] = ALL(prushgoli)};

struct question {
    enum call call;
    enum form form;
    size_t size;
    uint32_t identifier;
    const uint8_t *given;
    size_t length;
};

static uint64_t ask(const struct program *program, const struct question *asked, uint8_t *lent)
{
    switch (asked->call) {
    case ENCODE: return program->encode(asked->given, asked->length, lent, LENT);
    case DECODE: return program->decode(asked->given, asked->length, lent, LENT);
    case FRAME_LENGTH: return program->frame_length(asked->identifier, asked->given, asked->length);
    case FRAME_BOUNDS: return program->frame_bounds(asked->identifier, asked->length);
    case MAKE_FRAME: return program->make_frame(asked->identifier, asked->given, asked->length, lent, LENT);
    case READ_LINE: return program->read_line(asked->given, asked->length, lent, LENT);
    default: return program->read_own_line(asked->given, asked->length, lent, LENT);
    }
}

/* Not taken apart by the compiler, so that every program is called by the same instructions. */
__attribute__((noipa)) static uint64_t count(int program, const struct question *asked, uint8_t *lent)
{
    syscall(MARK, NONE, 0, 0);
    uint64_t answer = ask(&programs[program], asked, lent);
    syscall(MARK, program, asked->call << 2 | asked->form, asked->size);
    return answer;
}

static unsigned long compared;

static void count_all(struct question asked)
{
    uint8_t old[LENT], lent[PROGRAMS][LENT];
    uint64_t answer[PROGRAMS];
    random_bytes(old, LENT);
    for (int program = ONE; program < PROGRAMS; program++) {
        memcpy(lent[program], old, LENT);
        answer[program] = count(program, &asked, lent[program]);
    }
    compared++;
    int differs = answer[PLAIN] != answer[ARCHIVE] || memcmp(lent[PLAIN], lent[ARCHIVE], LENT) != 0;
    if (differs || prushgoli_refusal(answer[PLAIN]) != PRUSHGOLI_ACCEPTED) {
        printf("bench: counted call %lu, of number %d and size %zu, %s\n", compared, asked.call, asked.size,
               differs ? "differs" : "is refused");
        exit(EXIT_FAILURE);
    }
}

static void count_field(const uint8_t *payload, size_t size)
{
    uint8_t field[PRUSHGOLI_FIELD_MOST];
    size_t n = plain_encode(payload, size, field, sizeof field);
    count_all((struct question){ENCODE, NO_FORM, size, 0, payload, size});
    count_all((struct question){DECODE, NO_FORM, size, 0, field, n});
}

static void count_frame(uint32_t identifier, const uint8_t *payload, size_t size)
{
    enum form form = identifier & PRUSHGOLI_LONG ? LONG : BASE;
    uint8_t line[PRUSHGOLI_LONG_LINE_ROOM];
    size_t bits = plain_make_frame(identifier, payload, size, line, sizeof line);
    count_all((struct question){FRAME_LENGTH, form, size, identifier, payload, size});
    count_all((struct question){FRAME_BOUNDS, form, size, identifier, payload, size});
    count_all((struct question){MAKE_FRAME, form, size, identifier, payload, size});
    count_all((struct question){READ_OWN_LINE, form, size, 0, line, bits});
    line[bits - FROM_ACK_SLOT] = 0;
    count_all((struct question){READ_LINE, form, size, 0, line, bits});
}

/* The first nine contents of a size are one of three bytes all along, with one of three identifiers of each form. */
int main(void)
{
    static const uint8_t bytes[] = {0x00, 0xFF, 0x55};
    static const uint32_t base[] = {0, 0x555, 0x7FF}, longs[] = {0, 0x15555555, 0x1FFFFFFF};
    for (size_t size = 0; size <= PRUSHGOLI_PAYLOAD_MOST; size++)
        for (int i = 0; i < CONTENTS; i++) {
            uint8_t payload[PRUSHGOLI_PAYLOAD_MOST];
            random_bytes(payload, size);
            if (i < 9)
                memset(payload, bytes[i % 3], size);
            count_field(payload, size);
            count_frame(i < 9 ? base[i / 3] : (uint32_t)random_below(1 << 11), payload, size);
            count_frame(PRUSHGOLI_LONG | (i < 9 ? longs[i / 3] : (uint32_t)random_below(1 << 29)), payload, size);
        }
    printf("bench: %lu counted calls compared, 0 differences\n", compared);
    return EXIT_SUCCESS;
}
