/* Words: the nine-bit numbers that keep the rule of document 01, and the bytes they carry. */
#ifndef WORDS_H
#define WORDS_H

#include <stdint.h>

/* What a nine-bit number can carry instead of a byte. */
enum { ESCAPE = 256, NOTHING = 257 };

unsigned word_of_byte(uint8_t byte);

/* A byte 0 to 255, ESCAPE or NOTHING. */
unsigned carried_by(unsigned number);

#endif
