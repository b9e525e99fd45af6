/* The second program: document 01 as #102, #109 and #110 of 02 have it, once more, in plain C, with one array cell for
 * each bit. The calls have the parameters and the packed answer of prushgoli.h, so that both can be asked the same. */
#ifndef SECOND_H
#define SECOND_H

#include <stddef.h>
#include <stdint.h>

uint64_t second_encode(const uint8_t *payload, size_t payload_len, uint8_t *field, size_t field_room);
uint64_t second_decode(const uint8_t *field, size_t field_len, uint8_t *payload, size_t payload_room);
uint64_t second_frame_length(uint32_t identifier, const uint8_t *payload, size_t payload_len);
uint64_t second_frame_bounds(uint32_t identifier, size_t payload_len);
uint64_t second_make_frame(uint32_t identifier, const uint8_t *payload, size_t payload_len, uint8_t *line,
                           size_t line_room);
uint64_t second_read_line(const uint8_t *line, size_t line_len, uint8_t *payload, size_t payload_room);
uint64_t second_read_own_line(const uint8_t *line, size_t line_len, uint8_t *payload, size_t payload_room);

#endif
