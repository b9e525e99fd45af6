/*
 * For tests/archive: every call, in a program without libc. Writes how many bytes of stack were used; the status is 0,
 * or the number of the call that answered wrongly.
 */
#include "prushgoli.h"

enum { STACK = 8192, PAINT = 0xA5 };

/* The program's stack from its first instruction on, painted: where the paint is gone it was used. */
__attribute__((aligned(16))) uint8_t stack[STACK] = {[0 ... STACK - 1] = PAINT};
__asm__(".globl _start\n_start: lea stack + 8192(%rip), %rsp\n call start\n");

static uint8_t payload[PRUSHGOLI_PAYLOAD_MOST] = {0xF0}, field[PRUSHGOLI_FIELD_MOST], line[PRUSHGOLI_LONG_LINE_ROOM];

/* The documents' cases. */
static int wrong_case(void)
{
    if (prushgoli_encode(payload, 1, field, sizeof field) != 2 || field[0] != 0xEA || field[1] != 0x55) return 1;
    payload[0] = 0;
    if (prushgoli_decode(field, 2, payload, sizeof payload) != 1 || payload[0] != 0xF0) return 2;
    if (prushgoli_frame_length(0, NULL, 0) != 50) return 3;
    if (prushgoli_frame_bounds(0x555, 1) != (UINT64_C(65) << 32 | 61)) return 4;
    if (prushgoli_make_frame(0, NULL, 0, line, sizeof line) != 50) return 5;
    if (prushgoli_read_line(line, 50, NULL, 0) != (UINT64_C(20) << 16 | 41)) return 6;
    line[20] = 2;
    if (prushgoli_read_own_line(line, 50, NULL, 0) != (UINT64_C(9) << 16 | 20)) return 7;
    return 0;
}

/* The longest inputs, there and back. */
static int wrong_longest(uint32_t identifier)
{
    if (prushgoli_encode(payload, sizeof payload, field, sizeof field) != sizeof field) return 1;
    if (prushgoli_decode(field, sizeof field, payload, sizeof payload) != sizeof payload) return 2;
    uint64_t bits = prushgoli_frame_length(identifier, payload, sizeof payload);
    uint64_t bounds = prushgoli_frame_bounds(identifier, sizeof payload);
    if (bits < prushgoli_least(bounds) || bits > prushgoli_most(bounds)) return 4;
    if (prushgoli_make_frame(identifier, payload, sizeof payload, line, sizeof line) != bits) return 5;
    uint64_t read = (uint64_t)identifier << 32 | sizeof payload;
    if (prushgoli_read_own_line(line, bits, payload, sizeof payload) != read) return 7;
    line[bits - 9] = 0; /* the ACK slot, as a receiver leaves it */
    if (prushgoli_read_line(line, bits, payload, sizeof payload) != read) return 6;
    return 0;
}

static long system_call(long number, long first, const void *second, long third)
{
    __asm__ volatile("syscall" : "+a"(number) : "D"(first), "S"(second), "d"(third) : "rcx", "r11", "memory");
    return number;
}

__attribute__((noreturn)) void start(void)
{
    int wrong = wrong_case();
    if (wrong == 0) wrong = wrong_longest(2047);
    if (wrong == 0) wrong = wrong_longest(PRUSHGOLI_LONG | 536870911);
    unsigned untouched = 0;
    while (untouched < STACK && ((volatile uint8_t *)stack)[untouched] == PAINT)
        untouched++;
    char digits[4];
    unsigned used = STACK - untouched, first = sizeof digits;
    do
        digits[--first] = (char)('0' + used % 10);
    while ((used /= 10) > 0);
    system_call(1, 1, digits + first, sizeof digits - first); /* write */
    for (;;)
        system_call(60, wrong, NULL, 0); /* exit */
}
