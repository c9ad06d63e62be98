/*
 * The scheme in plain C, written by hand with the functions and order of the library: what the benchmark measures it against.
 * It is there twice. As it stands its loops are plain and repair and tracing go position by position, as the library's did before
 * version 0.7.2: by it the library's marks were set. With CLOSED_FORMS all loops are the library's of today, and repair and tracing
 * go by closed forms (closed.h), so that a row compares two compilers.
 */
#ifndef PLAIN_H
#define PLAIN_H

#include "axp.h"

axp_result plain_encode(uint32_t blocks, const uint8_t *payload, size_t payload_len, uint8_t *out, size_t out_len);
axp_result plain_read(uint32_t blocks, const uint8_t *image, size_t image_len, uint8_t *out, size_t out_len);
axp_result plain_repair(uint32_t blocks, uint32_t flags, const uint8_t *image, size_t image_len, uint8_t *out, size_t out_len);
axp_result plain_trace(uint32_t blocks, uint32_t flags, const uint8_t *image, size_t image_len, uint8_t *out, size_t out_len);
axp_result plain_trace_within(uint32_t blocks, uint32_t flags, uint32_t ceiling, const uint8_t *image, size_t image_len, uint8_t *out,
                              size_t out_len);
axp_result plain_repair_spans(uint32_t blocks, const axp_span *spans, size_t spans_len, const uint8_t *image, size_t image_len, uint8_t *out,
                              size_t out_len);
axp_result plain_pack(uint32_t blocks, const uint8_t *image, size_t image_len, uint8_t *out, size_t out_len);
axp_result plain_unpack(uint32_t blocks, const uint8_t *packed, size_t packed_len, uint8_t *out, size_t out_len);
axp_written plain_file_write(uint32_t entries, const uint8_t *bytes, size_t bytes_len, uint8_t *out, size_t out_len);
axp_counted plain_file_count(const uint8_t *file, size_t file_len);
axp_stretch plain_file_entry(const uint8_t *file, size_t file_len, uint32_t index);

#endif
