/* The data field: what its making shares with the frame. */
#ifndef FIELD_H
#define FIELD_H

#include "bits.h"

enum { MOST_PAYLOAD = 7, MOST_FIELD = 8 };

/* The field bytes n, which are also the DLC, of a payload of this size. */
size_t field_bytes(size_t size);

/* The bits of a payload's field: the break bit, the words, the padding. */
struct row field_of_payload(const uint8_t *payload, size_t size);

#endif
