/* Payloads to send, and the frame that carries one as it is, without coding: what all runs of frames share. */
#ifndef PAYLOADS_H
#define PAYLOADS_H

#include <stddef.h>
#include <stdint.h>

#include "frame.h"

enum { SEED = 0x8B9B };

uint64_t random_number(void);

/* Each byte is as likely as any other. */
void random_payload(uint8_t *payload, size_t size);

/* The payloads of bytes 00 and FF alone, 2^size of them, by number. */
void equal_bits_payload(uint8_t *payload, size_t size, unsigned number);

/* The line of a plain frame: the payload's own bytes are its data field. The second program builds it. */
struct row plain_line(uint32_t identifier, const uint8_t *payload, size_t size);

#endif
