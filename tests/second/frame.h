/* The frame on the wire: what its making shares with the line reader and the comparison. */
#ifndef FRAME_H
#define FRAME_H

#include "bits.h"

/* How many bits, without stuff bits: the header of each form, the CRC, and the ten behind it that are never stuffed. */
enum { BASE_HEADER = 19, LONG_HEADER = 39, CRC = 15, UNSTUFFED = 10 };

/* How many bits of a long identifier stand behind IDE. */
enum { LOW_BITS = 18 };

/* An identifier with this bit has the long form, and its other bits are its number. */
#define LONG_FORM UINT32_C(0x80000000)
enum { MOST_BASE = 2047, MOST_LONG = 536870911 };

/* What making a frame of this identifier's form needs. */
size_t frame_room(uint32_t identifier);

struct row header_of(uint32_t identifier, unsigned dlc);

/* A row as it is sent: after five equal bits, stuff bits among them, comes one of the other value. */
struct row stuffed(const struct row *bits);

/* The 15 CRC bits of these header and data bits, as a number. */
unsigned crc_of(struct row bits);

/* The whole line of a frame with any DLC and any data field. */
struct row line_of(uint32_t identifier, unsigned dlc, const struct row *field);

/* The line of a frame that carries this payload. */
struct row line_of_payload(uint32_t identifier, const uint8_t *payload, size_t size);

#endif
