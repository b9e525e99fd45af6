/* A row of bits in the order they are sent: one cell, 0 or 1, for each bit. */
#ifndef BITS_H
#define BITS_H

#include <stddef.h>
#include <stdint.h>

/* These cells hold the longest line, 157 bits when the form is the long one and the data field any eight bytes, and a
 * few bits more. */
enum { CELLS = 176 };
struct row {
    uint8_t bit[CELLS];
    size_t length;
};

static inline void append(struct row *row, int bit)
{
    row->bit[row->length++] = (uint8_t)bit;
}

/* The `width` bits of a number, highest first. */
static inline void append_number(struct row *row, unsigned number, int width)
{
    for (int exponent = width - 1; exponent >= 0; exponent--)
        append(row, number >> exponent & 1);
}

/* The number that `width` bits from `first` on write, highest first. */
static inline unsigned number_at(const struct row *row, size_t first, int width)
{
    unsigned number = 0;
    for (int i = 0; i < width; i++)
        number = 2 * number + row->bit[first + i];
    return number;
}

static inline int all_equal(const uint8_t *bit, int count)
{
    for (int i = 1; i < count; i++)
        if (bit[i] != bit[0])
            return 0;
    return 1;
}

#endif
