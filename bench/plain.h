// What the plain C of this folder offers, by reader.c and writer.c: the functions of include/sp3.h that are measured, and the writing of SP3-c. PLAIN
// gives the names their beginning, so that builds of it stand beside each other; this file may be included once for each.
#include "../include/sp3.h"

#ifndef PLAIN
#define PLAIN(name) c_##name
#endif

sp3_reading_t PLAIN(judge_front)(const uint8_t *stretch, size_t length);
sp3_reading_t PLAIN(judge)(const uint8_t *file, size_t length);
sp3_reading_t PLAIN(read)(const uint8_t *file, size_t length, uint64_t *identifiers, size_t identifier_room, uint64_t *exponents,
                          size_t exponent_room, uint8_t *comments, size_t comment_room, int64_t *rows, size_t row_room);
sp3_division_t PLAIN(divide)(const uint8_t *stretch, size_t length, uint64_t *lengths, size_t room);
sp3_measured_t PLAIN(write)(sp3_header_t header, const uint64_t *identifiers, size_t identifier_count, const uint64_t *exponents,
                            size_t exponent_count, const uint8_t *comments, size_t comment_bytes, const int64_t *rows, size_t row_numbers,
                            uint8_t *out, size_t out_room);
sp3_measured_t PLAIN(write_c)(sp3_header_t header, const uint64_t *identifiers, size_t identifier_count, const uint64_t *exponents,
                              size_t exponent_count, const uint8_t *comments, size_t comment_bytes, const int64_t *rows, size_t row_numbers,
                              uint8_t *out, size_t out_room);
