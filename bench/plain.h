/* The plain C that the archive is measured against: calls with the parameters and packed answers of prushgoli.h. */
#ifndef PLAIN_H
#define PLAIN_H

#include <stddef.h>
#include <stdint.h>

uint64_t plain_encode(const uint8_t *payload, size_t payload_len, uint8_t *field, size_t field_room);
uint64_t plain_decode(const uint8_t *field, size_t field_len, uint8_t *payload, size_t payload_room);
uint64_t plain_frame_length(uint32_t identifier, const uint8_t *payload, size_t payload_len);
uint64_t plain_frame_bounds(uint32_t identifier, size_t payload_len);
uint64_t plain_make_frame(uint32_t identifier, const uint8_t *payload, size_t payload_len, uint8_t *line,
                          size_t line_room);
uint64_t plain_read_line(const uint8_t *line, size_t line_len, uint8_t *payload, size_t payload_room);
uint64_t plain_read_own_line(const uint8_t *line, size_t line_len, uint8_t *payload, size_t payload_room);

#endif
