/* Many frames of one size and what was met: of the base form, each sent plain and in 8B9B, and of the long form. */
#ifndef FRAMES_H
#define FRAMES_H

#include <stddef.h>
#include <stdint.h>

/* IN_RUNS: so many long identifiers have their 29 bits in runs of two or more equal bits. */
enum { RANDOM_FRAMES = 200000, LONG_RANDOM_FRAMES = 50000, IN_RUNS = 635622 };

/* These identifiers, without the bit for the long form. They are listed when they are first asked for. */
const uint32_t *identifiers_in_runs(void);

/* Sends frames of this payload size and prints what was met: random ones, then every one of the bytes 00 and FF. */
void send_frames(size_t size);

/* The same of the long form: random ones, then some of identifiers in runs, with random payloads. */
void send_long_frames(size_t size);

#endif
