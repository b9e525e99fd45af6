/* Makes the traces of the comparison: each in a file of the current folder, and their names on standard output. */
#include <stdio.h>
#include <stdlib.h>

#include "bits.h"
#include "second.h"

enum { LIMIT = 65536, LONGEST = 200000, J = 0x042, K = 0x1BD };

static uint8_t trace[LONGEST + 10];
static size_t length;

/* A number below the bound, from a fixed seed. */
static unsigned random_below(unsigned bound)
{
    static uint64_t state = 0x8B9B; /* splitmix64 */
    uint64_t number = state += 0x9E3779B97F4A7C15;
    number = (number ^ number >> 30) * 0xBF58476D1CE4E5B9;
    number = (number ^ number >> 27) * 0x94D049BB133111EB;
    return (unsigned)((number ^ number >> 31) % bound);
}

/* The trace is whole: it goes to a file, whose name may hold a number, and the next one begins. */
static void finish(const char *format, unsigned number)
{
    char name[40];
    snprintf(name, sizeof name, format, number);
    FILE *file = fopen(name, "wb");
    if (file == NULL || fwrite(trace, 1, length, file) != length || fclose(file) != 0) {
        perror(name);
        exit(2);
    }
    puts(name);
    length = 0;
}

static int is_known(unsigned kind)
{
    return (kind >= 0x10 && kind <= 0x18) || (kind >= 0x20 && kind <= 0x29);
}

/* A known kind whose body has at least so many bytes. */
static unsigned random_kind(unsigned least)
{
    return random_below(2) == 0 ? 0x10 + least + random_below(9 - least) : 0x20 + least + random_below(10 - least);
}

/* A random payload, or the field of one; 1 and 9 bytes, which are no field, are random. An unknown kind has no body. */
static void put_record(unsigned kind)
{
    uint8_t payload[9], *body = trace + length + 1;
    size_t size = is_known(kind) ? kind % 16 : 0;
    trace[length++] = (uint8_t)kind;
    for (size_t i = 0; i < size; i++)
        trace[length++] = payload[i] = (uint8_t)random_below(256);
    if (kind > 0x21 && kind < 0x29)
        second_encode(payload, size - 1, body, size);
}

/* One bit of the field turned over, or an escape put for a word. */
static void damage(uint8_t *field, unsigned n)
{
    struct row bits = {.length = 0};
    for (unsigned i = 0; i < n; i++)
        append_number(&bits, field[i], 8);
    if (random_below(3) > 0) {
        bits.bit[random_below(8 * n)] ^= 1;
    } else {
        bits.length = 1 + 9 * random_below(n - 1);
        append_number(&bits, random_below(2) == 0 ? J : K, 9);
    }
    for (unsigned i = 0; i < n; i++)
        field[i] = (uint8_t)number_at(&bits, 8 * i, 8);
}

/* A record of any known kind; of the coded fields half are damaged. */
static void put_any_record(void)
{
    unsigned kind = random_kind(0);
    uint8_t *body = trace + length + 1;
    put_record(kind);
    if (kind > 0x21 && kind < 0x29 && random_below(2) == 0)
        for (unsigned count = 1 + random_below(3); count > 0; count--)
            damage(body, kind % 16);
}

static void put_any_records(unsigned count)
{
    while (count-- > 0)
        put_any_record();
}

static void fill(unsigned kind, size_t end)
{
    while (length < end)
        put_record(kind);
    length = end;
}

static void example_and_empty(void)
{
    static const uint8_t example[] = {0x11, 0xF0, 0x22, 0x90, 0x95, 0x22, 0xEA, 0x55, 0x10, 0x30};
    while (length < sizeof example) {
        trace[length] = example[length];
        length++;
    }
    finish("example", 0);
    finish("empty", 0);
}

/* Each kind with its whole body, the body cut by one byte, and one byte more. */
static void each_kind(void)
{
    for (unsigned kind = 0x10; kind <= 0x29; kind++) {
        if (!is_known(kind))
            continue;
        put_record(kind);
        finish("whole-%02X", kind);
        put_record(kind);
        put_record(0x30);
        finish("more-%02X", kind);
        if (kind % 16 == 0)
            continue;
        put_record(kind);
        length--;
        finish("cut-%02X", kind);
    }
}

static void payloads_of_one_byte(void)
{
    for (unsigned byte = 0; byte < 256; byte++) {
        trace[length++] = 0x11;
        trace[length++] = (uint8_t)byte;
    }
    finish("payloads", 0);
}

/* Records of 1 byte; of 8 bytes; of 8 bytes after one of 1, so that the limit cuts a body. Then kinds that stand at the
 * last place before the limit, the input going on. */
static void around_the_limit(void)
{
    static const unsigned sizes[] = {LIMIT - 1, LIMIT, LIMIT + 1, LONGEST}, last[] = {0x10, 0x20, 0x11, 0x21, 0x30};
    for (size_t i = 0; i < sizeof sizes / sizeof *sizes; i++) {
        fill(0x10, sizes[i]);
        finish("limit-10-%u", sizes[i]);
        fill(0x17, sizes[i]);
        finish("limit-17-%u", sizes[i]);
        put_record(0x10);
        fill(0x17, sizes[i]);
        finish("limit-10-17-%u", sizes[i]);
    }
    for (size_t i = 0; i < sizeof last / sizeof *last; i++) {
        fill(0x17, LIMIT - 8);
        fill(0x10, LIMIT - 1);
        put_record(last[i]);
        fill(0x10, LIMIT + 10);
        finish("last-%02X", last[i]);
    }
}

/* The unknown kinds next to known ones and some others: records before, and behind enough for any body. */
static void unknown_kinds(void)
{
    for (unsigned kind = 0x0F; kind < 256; kind += kind < 0x30 ? 1 : 17) {
        if (is_known(kind))
            continue;
        put_any_records(random_below(20));
        put_record(kind);
        put_any_records(20);
        finish("unknown-%02X", kind);
    }
}

/* Some go beyond the limit; of the others half end in a cut body. */
static void random_traces(void)
{
    for (unsigned number = 0; number < 40; number++) {
        put_any_records(random_below(200));
        if (number % 10 == 0) {
            while (length < LIMIT + 10)
                put_any_record();
        } else if (number % 2 == 1) {
            unsigned kind = random_kind(1);
            put_record(kind);
            length -= 1 + random_below(kind % 16);
        }
        finish("random-%02u", number);
    }
}

static void each_byte_alone(void)
{
    for (unsigned byte = 0; byte < 256; byte++) {
        trace[length++] = (uint8_t)byte;
        finish("alone-%02X", byte);
    }
}

int main(void)
{
    example_and_empty();
    each_kind();
    payloads_of_one_byte();
    around_the_limit();
    unknown_kinds();
    random_traces();
    each_byte_alone();
    return 0;
}
