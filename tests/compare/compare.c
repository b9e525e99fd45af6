/* Compares the archive with the second program through the C interface: the whole answer, every byte of the lent
 * buffer and of the guards around it, and what was given. An answer of the documents that is never reached is counted
 * as a difference. */
#define _DEFAULT_SOURCE
#include "compare.h"

#include <prushgoli.h>
#include <signal.h>
#include <stdio.h>
#include <stdlib.h>
#include <string.h>
#include <sys/mman.h>

#include "second.h"

enum { SECOND, ARCHIVE, PROGRAMS };
enum { GUARD = 16, LENT = 160, BUFFER = GUARD + LENT + GUARD, MOST_DIFFERENCES = 10, REFUSALS = 32 };
enum { BASE, LONG, FORMS };

static const char *const calls[CALLS] = {"encode",     "decode",    "frame_length", "frame_bounds",
                                         "make_frame", "read_line", "read_own_line"};

/* What the documents let each call answer: a bit for each refusal number, and bit 0 for acceptance. */
enum {
    OF_A_FIELD = 1 << 0 | 1 << 2 | 1 << 3 | 1 << 4 | 1 << 5 | 1 << 6 | 1 << 7,
    OF_A_LINE = OF_A_FIELD | 1 << 9 | 1 << 10 | 1 << 11 | 1 << 12 | 1 << 13
};
static const unsigned answers[CALLS] = {
    [ENCODE] = 1 << 0 | 1 << 1 | 1 << 2,
    [DECODE] = OF_A_FIELD,
    [FRAME_LENGTH] = 1 << 0 | 1 << 1 | 1 << 8,
    [FRAME_BOUNDS] = 1 << 0 | 1 << 1 | 1 << 8,
    [MAKE_FRAME] = 1 << 0 | 1 << 1 | 1 << 2 | 1 << 8,
    [READ_LINE] = OF_A_LINE | 1 << 20,
    [READ_OWN_LINE] = OF_A_LINE,
};

static unsigned long comparisons, facts, differences, reached[CALLS][FORMS][REFUSALS];

/* The question, and what the two programs did with it. */
static struct question asked;
static uint64_t answer[PROGRAMS];
static uint8_t *given_end[PROGRAMS];
static uint8_t old[BUFFER], buffer[PROGRAMS][BUFFER];

static uint64_t random_number(void)
{
    static uint64_t state = 0x8B9B; /* splitmix64 */
    uint64_t number = state += 0x9E3779B97F4A7C15;
    number = (number ^ number >> 30) * 0xBF58476D1CE4E5B9;
    number = (number ^ number >> 27) * 0x94D049BB133111EB;
    return number ^ number >> 31;
}

uint64_t random_below(uint64_t bound)
{
    return random_number() % bound;
}

/* The end of memory behind which nothing can be touched: reading past what is given stops the run. */
static uint8_t *guarded_end(void)
{
    const size_t half = 65536;
    uint8_t *memory = mmap(NULL, 2 * half, PROT_READ | PROT_WRITE, MAP_PRIVATE | MAP_ANONYMOUS, -1, 0);
    if (memory == MAP_FAILED || mprotect(memory + half, half, PROT_NONE) != 0) {
        perror("compare");
        exit(2);
    }
    return memory + half;
}

static uint64_t ask(int program, const uint8_t *given, uint8_t *lent)
{
    int archive = program == ARCHIVE;
    switch (asked.call) {
    case ENCODE:
        return (archive ? prushgoli_encode : second_encode)(given, asked.claimed, lent, asked.room);
    case DECODE:
        return (archive ? prushgoli_decode : second_decode)(given, asked.claimed, lent, asked.room);
    case FRAME_LENGTH:
        return (archive ? prushgoli_frame_length : second_frame_length)(asked.identifier, given, asked.claimed);
    case FRAME_BOUNDS:
        return (archive ? prushgoli_frame_bounds : second_frame_bounds)(asked.identifier, asked.claimed);
    case MAKE_FRAME:
        return (archive ? prushgoli_make_frame : second_make_frame)(asked.identifier, given, asked.claimed, lent,
                                                                    asked.room);
    case READ_LINE:
        return (archive ? prushgoli_read_line : second_read_line)(given, asked.claimed, lent, asked.room);
    default:
        return (archive ? prushgoli_read_own_line : second_read_own_line)(given, asked.claimed, lent, asked.room);
    }
}

/* The old bytes of the buffers are the same for both, and others each time. */
static void ask_both(void)
{
    for (size_t i = 0; i < BUFFER; i += sizeof(uint64_t))
        memcpy(old + i, &(uint64_t){random_number()}, sizeof(uint64_t));
    for (int program = 0; program < PROGRAMS; program++) {
        uint8_t *given = asked.given == NULL ? NULL : given_end[program] - asked.there;
        if (given != NULL)
            memcpy(given, asked.given, asked.there);
        memcpy(buffer[program], old, BUFFER);
        answer[program] = ask(program, given, asked.lend_null ? NULL : buffer[program] + GUARD);
    }
}

/* The end of the bytes that an accepted call may write; a refused one may write none. */
static size_t result_end(void)
{
    int writes = asked.call != FRAME_LENGTH && asked.call != FRAME_BOUNDS;
    return writes ? GUARD + prushgoli_length(answer[SECOND]) : GUARD;
}

static const char *what_differs(void)
{
    size_t end = result_end();
    if (answer[SECOND] != answer[ARCHIVE])
        return "the answers differ";
    if (memcmp(buffer[SECOND], buffer[ARCHIVE], BUFFER) != 0)
        return "the buffers differ";
    if (memcmp(buffer[ARCHIVE], old, GUARD) != 0 || memcmp(buffer[ARCHIVE] + end, old + end, BUFFER - end) != 0)
        return "both wrote outside the result";
    for (int program = 0; program < PROGRAMS; program++)
        if (asked.there > 0 && memcmp(given_end[program] - asked.there, asked.given, asked.there) != 0)
            return "what was given was changed";
    return NULL;
}

static void print_answer(const char *name, uint64_t packed)
{
    unsigned refusal = prushgoli_refusal(packed);
    printf("  %-8s refusal %u, %s %u, identifier %08X or longer bound %u\n", name, refusal,
           refusal == 0 ? "length" : "place", (unsigned)(packed & 0xFFFF), (unsigned)(packed >> 32),
           (unsigned)(packed >> 32));
}

static void difference(const char *what)
{
    size_t i = 0;
    printf("difference %lu: %s\n", ++differences, what);
    printf("  %s, identifier %08lX, room %zu%s, length %zu%s:", calls[asked.call], (unsigned long)asked.identifier,
           asked.room, asked.lend_null ? " (NULL)" : "", asked.claimed, asked.given == NULL ? " (NULL)" : "");
    for (size_t byte = 0; byte < asked.there; byte++)
        printf(" %02X", asked.given[byte]);
    printf("\n");
    print_answer("second", answer[SECOND]);
    print_answer("archive", answer[ARCHIVE]);
    while (i < BUFFER && buffer[SECOND][i] == buffer[ARCHIVE][i])
        i++;
    if (i < BUFFER)
        printf("  first differing byte of the buffer: number %d, second %02X, archive %02X, before the call %02X\n",
               (int)i - GUARD, buffer[SECOND][i], buffer[ARCHIVE][i], old[i]);
}

static int close_comparison(void)
{
    printf("compare: %lu comparisons, %lu differences\n", comparisons, differences);
    return differences == 0 ? EXIT_SUCCESS : EXIT_FAILURE;
}

static void touched(int signal_number)
{
    (void)signal_number;
    difference("memory was touched that was neither given nor lent (the archive's answer is an older one)");
    exit(close_comparison());
}

/* Whether IDE chooses the long form in a line: it is read without a refusal, and is 1. */
static int is_long_line(const uint8_t *line, size_t length)
{
    int run = 0, bits = 0;
    for (size_t place = 0; place < length && line[place] <= 1 && line[0] == 0; place++) {
        int is_equal = place > 0 && line[place] == line[place - 1], is_stuff_bit = run == 5;
        if (is_stuff_bit && is_equal)
            return 0;
        run = is_equal ? run + 1 : 1;
        bits += !is_stuff_bit;
        if (bits == 14)
            return line[place];
    }
    return 0;
}

/* A field has no form and counts as of the base form, and so does a line in which no IDE is read. */
static int form_asked(void)
{
    switch (asked.call) {
    case ENCODE:
    case DECODE:
        return BASE;
    case READ_LINE:
    case READ_OWN_LINE:
        return is_long_line(asked.given, asked.there) ? LONG : BASE;
    default:
        return (asked.identifier & PRUSHGOLI_LONG) != 0 ? LONG : BASE;
    }
}

uint64_t compare(struct question question)
{
    if (differences >= MOST_DIFFERENCES)
        exit(close_comparison());
    asked = question;
    ask_both();
    comparisons++;
    reached[asked.call][form_asked()][(answer[SECOND] >> 16) % REFUSALS]++;
    const char *what = what_differs();
    if (what != NULL)
        difference(what);
    return answer[SECOND];
}

void expect(struct question question, uint64_t expected, const uint8_t *result, size_t result_len)
{
    compare(question);
    for (int program = 0; program < PROGRAMS; program++)
        if (answer[program] != expected ||
            (result_len > 0 && memcmp(buffer[program] + GUARD, result, result_len) != 0)) {
            difference(program == SECOND ? "the second program is wrong" : "the archive is wrong");
            print_answer("expected", expected);
        }
}

void check(int holds, const char *fact)
{
    comparisons++;
    facts++;
    if (!holds)
        printf("difference %lu: it does not hold that %s\n", ++differences, fact);
}

static void check_reached_by(enum call call, const char *form, const unsigned long *count)
{
    printf("%s%-*s  accepted %lu, refused", calls[call], 19 - (int)strlen(calls[call]), form, count[0]);
    for (int refusal = 0; refusal < REFUSALS; refusal++) {
        if (refusal > 0 && count[refusal] > 0)
            printf("  %d: %lu", refusal, count[refusal]);
        if ((count[refusal] > 0) != (answers[call] >> refusal & 1))
            printf("  (difference %lu: %d is %s)", ++differences, refusal,
                   count[refusal] > 0 ? "no answer of the documents" : "never reached");
    }
    printf("\n");
}

static void check_reached(void)
{
    for (enum call call = 0; call < CALLS; call++) {
        check_reached_by(call, "", reached[call][BASE]);
        if (call != ENCODE && call != DECODE)
            check_reached_by(call, ", long", reached[call][LONG]);
    }
    printf("facts beside the calls  looked at %lu\n", facts);
}

int main(void)
{
    signal(SIGSEGV, touched);
    for (int program = 0; program < PROGRAMS; program++)
        given_end[program] = guarded_end();
    ask_known();
    ask_many();
    check_reached();
    return close_comparison();
}
