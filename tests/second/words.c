/* Words: listed from the rule, in the order of their numbers, when the first one is asked for. */
#include "words.h"

#include "bits.h"

enum { WORDS = 258 };

static unsigned word_at_place[WORDS];
static unsigned carried[512];
static int listed;

static int is_word(unsigned number)
{
    struct row row = {.length = 0};
    append_number(&row, number, 9);
    for (int first = 0; first + 5 <= 9; first++)
        if (all_equal(row.bit + first, 5))
            return 0;
    return !all_equal(row.bit, 3) && !all_equal(row.bit + 6, 3);
}

/* J, at place 0, and K, at the last place, are the escapes; the word at place x + 1 carries byte x. */
static void list_words_once(void)
{
    unsigned place = 0;
    if (listed)
        return;
    for (unsigned number = 0; number < 512; number++) {
        carried[number] = NOTHING;
        if (is_word(number)) {
            carried[number] = place == 0 || place == WORDS - 1 ? ESCAPE : place - 1;
            word_at_place[place++] = number;
        }
    }
    listed = 1;
}

unsigned word_of_byte(uint8_t byte)
{
    list_words_once();
    return word_at_place[byte + 1];
}

unsigned carried_by(unsigned number)
{
    list_words_once();
    return carried[number];
}
