/* Antlophis: records of pinhole fields, for the press controller. Link with libpress.a.
 *
 * Every call accepts all bytes and always returns. Buffers of one call must not overlap. A NULL pointer is allowed only with length 0.
 * The work area is lent: at least 65,536 bytes, whatever they hold. When a call returns, all of it is zero. An output holds the finished
 * result followed by zeros, or only zeros where the call is refused, whatever it held before. Input is only read. */
#ifndef ANTLOPHIS_H
#define ANTLOPHIS_H

#include <stddef.h>
#include <stdint.h>

#ifdef __cplusplus
extern "C" {
#endif

/* number 0: done, with the values the call gives; else the refusal's number, with its value in first. A field not used is 0. */
typedef struct {
    uint64_t number, first, second, third;
} antlophis_answer;

/* A part of the caller's record: length bytes from start on. */
typedef struct {
    uint64_t start, length;
} antlophis_part;

/* Builds the record of a field at the ratio a/b into out: first = bytes written, 6 + 12 * holes + 4 * pairs. holes is x then y of each hole, two
 * bytes each, high byte first. Where out is too short the refusal is 7 and first = bytes needed; 2,107,398 are enough for every field. */
antlophis_answer antlophis_build(const uint8_t *holes, size_t holes_len, uint64_t a, uint64_t b, uint8_t *work, size_t work_len,
                                 uint8_t *out, size_t out_len);

/* Takes a record exactly when it meets document 01's record rules: first = holes, second = pairs. */
antlophis_answer antlophis_check(const uint8_t *record, size_t record_len, uint8_t *work, size_t work_len);

/* The closest two holes: first and second are their numbers, the lower one first, third = their squared distance. Refused with 15 for one hole,
 * with 16 at a ratio of 2 or less. */
antlophis_answer antlophis_closest(const uint8_t *record, size_t record_len, uint8_t *work, size_t work_len);

/* Whether every two holes are at least p apart: first = 1 for yes, 0 for no. Refused with 16 for two holes or more at a ratio of 2 or less. */
antlophis_answer antlophis_pitch(const uint8_t *record, size_t record_len, uint64_t p, uint8_t *work, size_t work_len);

/* For each pair in order the lowest-numbered hole on each side, the smaller number first, two bytes each, high byte first: first = bytes
 * written, 4 * pairs. Refused with 16 at a ratio of 4 or less, with 7 where out is too short. */
antlophis_answer antlophis_links(const uint8_t *record, size_t record_len, uint8_t *work, size_t work_len, uint8_t *out, size_t out_len);

/* The holes, the nodes, the pairs of a record, without their count; the empty part at the start of a record that is refused. */
antlophis_part antlophis_holes(const uint8_t *record, size_t record_len, uint8_t *work, size_t work_len);
antlophis_part antlophis_nodes(const uint8_t *record, size_t record_len, uint8_t *work, size_t work_len);
antlophis_part antlophis_pairs(const uint8_t *record, size_t record_len, uint8_t *work, size_t work_len);

#ifdef __cplusplus
}
#endif

#endif
