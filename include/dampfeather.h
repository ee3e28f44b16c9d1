/* The functions of libexports.a (rt lib in crates/exports), for C on x86-64.
 *
 * Nothing is asked of a caller but that a pointer and the length behind it are those of an array (any pointer where the length is 0), that
 * arrays do not overlap, and that an array whose type says a length has that length.
 *
 * The first number of an answer, or the number returned, says how the call went: 0 is done, any other is a refusal. A refusal writes its
 * answer and nothing else: every other array and value that was lent is as it came. In the answer stand the number, the place or the state
 * as it came, and 0 for everything else. Number 7 has two exceptions: dampfeather_byte_reader_push has then taken and delivered all before
 * the forbidden byte, and dampfeather_decode_nal tells that byte's index.
 *
 * Elements of a lent array past the count that is told as written keep their old values.
 */
#ifndef DAMPFEATHER_H
#define DAMPFEATHER_H

#include <stdbool.h>
#include <stddef.h>
#include <stdint.h>

#ifdef __cplusplus
extern "C" {
#endif

/* The numbers. Where several fit a call, the first of 1, 2, 11, 3 or 9 is told, then the first that reading comes to; 10 is told last. */
enum dampfeather_number {
    DAMPFEATHER_DONE = 0,
    DAMPFEATHER_TOO_LONG = 1,              /* a lent array has over 16,777,216 elements */
    DAMPFEATHER_BAD_STATE = 2,             /* a place past the end; bytes past the room; over 2 zeros; over 7 pending bits, or a value over them */
    DAMPFEATHER_BAD_WIDTH = 3,             /* a width over 32, or a value that needs more bits than its width */
    DAMPFEATHER_BITS_RUN_OUT = 4,          /* fewer bits are left than the call needs */
    DAMPFEATHER_EXP_GOLOMB_TOO_LARGE = 5,  /* more than 31 zeros before a code's one */
    DAMPFEATHER_REMAINING_DATA = 6,        /* the data do not end here */
    DAMPFEATHER_FORBIDDEN_BYTE = 7,        /* 00, 01 or 02 behind two zeros, or behind a removed 03 a byte over 03 */
    DAMPFEATHER_EMPTY_NAL = 8,             /* a NAL of no bytes */
    DAMPFEATHER_NO_CODE = 9,               /* ue value 2^32-1, or se value -2^31 */
    DAMPFEATHER_NO_ROOM = 10,              /* what is to be written does not fit */
    DAMPFEATHER_BAD_GEOMETRY = 11,         /* width 0, size 0, over 36,864 or no multiple of the width; num_slice_groups_minus1 not 1 to 7 */
    DAMPFEATHER_BAD_MAP_TYPE = 12,         /* slice_group_map_type over 6 */
    DAMPFEATHER_BAD_RUN_LENGTH = 13,       /* run_length_minus1 not below the size */
    DAMPFEATHER_INVALID_TOP_LEFT = 14,     /* top_left behind bottom_right, or its column right of bottom_right's */
    DAMPFEATHER_INVALID_BOTTOM_RIGHT = 15, /* bottom_right over the size */
    DAMPFEATHER_BAD_CHANGE_RATE = 16,      /* slice_group_change_rate_minus1 not below the size */
    DAMPFEATHER_BAD_PIC_SIZE = 17,         /* pic_size_in_map_units_minus1 not below the size */
    DAMPFEATHER_BAD_NUM_REF_IDX = 18       /* num_ref_idx over 31 */
};

/* Escaping. A reader's state: zeros at the end of what was taken, bytes yet to drop, and whether it stands behind a removed 03. A new one:
 * 0, skip, false. Where the last is true the first two say nothing, and where bytes are yet to drop the zeros say nothing.
 * answer: number, bytes taken, bytes written, zeros, bytes yet to drop, 1 behind a removed 03. Where no byte was taken, the last three are
 * as they came. */
void dampfeather_byte_reader_push(uint8_t zeros, size_t skip, bool post_three, const uint8_t *chunk, size_t chunk_len, uint8_t *out, size_t out_len,
                                  uint64_t answer[6]);

/* answer: number, bytes taken, bytes written, zeros. A new writer's zeros: 0. */
void dampfeather_byte_writer_push(uint8_t zero_count, const uint8_t *chunk, size_t chunk_len, uint8_t *out, size_t out_len, uint64_t answer[4]);

/* answer: number; 1 where the room was filled, 0 where the NAL's own tail is to be shown; bytes filled, or for number 7 the byte's index. */
void dampfeather_decode_nal(const uint8_t *nal, size_t nal_len, uint8_t *room, size_t room_len, uint64_t answer[3]);

/* Framing. A reader's state: whether a unit is open, and zeros. A new one: false, 0.
 * answer: number, bytes taken, bytes written, marks written, 1 in a unit, zeros. */
void dampfeather_annexb_push(bool in_unit, uint8_t zeros, const uint8_t *chunk, size_t chunk_len, uint8_t *room, size_t room_len, uint64_t *marks,
                             size_t marks_len, uint64_t answer[6]);
void dampfeather_annexb_reset(bool in_unit, uint8_t zeros, uint8_t *room, size_t room_len, uint64_t *marks, size_t marks_len, uint64_t answer[6]);

/* Reading bits from bit `at` on.
 * answer of three: number, value, the place behind it; of two: number, the place behind it. */
void dampfeather_read(size_t at, const uint8_t *s, size_t s_len, uint32_t width, uint64_t answer[3]);
void dampfeather_read_bit(size_t at, const uint8_t *s, size_t s_len, uint64_t answer[3]);
void dampfeather_read_ue(size_t at, const uint8_t *s, size_t s_len, uint64_t answer[3]);
void dampfeather_read_se(size_t at, const uint8_t *s, size_t s_len, int32_t *value, uint64_t answer[2]);
void dampfeather_skip(size_t at, const uint8_t *s, size_t s_len, uint32_t bit_count, uint64_t answer[2]);
bool dampfeather_byte_aligned(size_t at);

/* answer: 1 where a byte starts there, and its place; else 0 and 0. */
void dampfeather_byte_of(size_t at, uint64_t answer[2]);

/* answer: number, 1 for yes. */
void dampfeather_has_more_rbsp_data(size_t at, const uint8_t *s, size_t s_len, uint64_t answer[2]);

/* The number. */
uint8_t dampfeather_finish_rbsp(size_t at, const uint8_t *s, size_t s_len);
uint8_t dampfeather_finish_sei_payload(size_t at, const uint8_t *s, size_t s_len);
uint8_t dampfeather_golomb_to_signed(uint32_t val, int32_t *value);

/* Writing bits. A writer's state: whole bytes of the room, pending bits as a number, and their count. A new one: 0, 0, 0.
 * answer: number, bytes, pending bits, their count. */
void dampfeather_write(size_t written, uint8_t pending, uint8_t count, uint8_t *out, size_t out_len, uint32_t width, uint32_t value,
                       uint64_t answer[4]);
void dampfeather_write_bit(size_t written, uint8_t pending, uint8_t count, uint8_t *out, size_t out_len, bool bit, uint64_t answer[4]);
void dampfeather_write_ue(size_t written, uint8_t pending, uint8_t count, uint8_t *out, size_t out_len, uint32_t value, uint64_t answer[4]);
void dampfeather_write_se(size_t written, uint8_t pending, uint8_t count, uint8_t *out, size_t out_len, int32_t value, uint64_t answer[4]);
void dampfeather_write_rbsp_trailing_bits(size_t written, uint8_t pending, uint8_t count, uint8_t *out, size_t out_len, uint64_t answer[4]);
bool dampfeather_writer_byte_aligned(size_t written, uint8_t pending, uint8_t count);

/* Slice groups, for a picture so wide in macroblocks and of that size in map units.
 * answer of num_ref_idx: number, value, the place behind it. Of a rectangle: number, the place behind it, top_left, bottom_right.
 * Of slice groups: number, the place behind the last field, num_slice_groups_minus1, ids written; group: map type, direction, rate,
 * pic_size_in_map_units_minus1; then the run lengths, and top_left and bottom_right of each rectangle in turn. What the map type does not
 * use is 0. */
void dampfeather_read_num_ref_idx(size_t at, const uint8_t *s, size_t s_len, uint64_t answer[3]);
void dampfeather_read_slice_rect(size_t at, const uint8_t *s, size_t s_len, uint32_t width, uint32_t size, uint64_t answer[4]);
void dampfeather_read_slice_groups(size_t at, const uint8_t *s, size_t s_len, uint32_t num_slice_groups_minus1, uint32_t width, uint32_t size,
                                   uint8_t *ids, size_t ids_len, uint64_t answer[4], uint64_t group[4], uint32_t runs[8], uint32_t rects[14]);

#ifdef __cplusplus
}
#endif

#endif
