/* Calls each function of include/dampfeather.h, and has each of its numbers told at least once, with every array at the very end of its
 * memory: the byte behind it faults. All that a call leaves is compared, what it must not touch too. Prints a line and exits with 0, or with
 * 1 at the first difference. */
#define _DEFAULT_SOURCE
#include "dampfeather.h"

#include <stdio.h>
#include <stdlib.h>
#include <string.h>
#include <sys/mman.h>
#include <unistd.h>

static unsigned checks;

/* ---- memory that ends where an array does */

/* size bytes, 0 each, before a page that may not be touched */
static void *guarded(size_t size) {
    size_t page = (size_t)sysconf(_SC_PAGESIZE), whole = (size + page - 1) / page * page;
    uint8_t *memory = mmap(NULL, whole + page, PROT_READ | PROT_WRITE, MAP_PRIVATE | MAP_ANONYMOUS, -1, 0);
    if (memory == MAP_FAILED || mprotect(memory + whole, page, PROT_NONE) != 0) {
        perror("guarded");
        exit(1);
    }
    return memory + whole - size;
}

/* a copy of what stands there */
static void *lend(const void *content, size_t size) {
    return memcpy(guarded(size), content, size);
}

static void same(int line, const char *what, const void *left, const void *expected, size_t size) {
    checks++;
    if (memcmp(left, expected, size) != 0) {
        printf("guarded.c:%d: %s is not what was expected\n", line, what);
        exit(1);
    }
}

/* an array of its type with these elements, lent; and that it holds these elements */
#define LENT(type, ...) ((type *)lend((type[]){__VA_ARGS__}, sizeof((type[]){__VA_ARGS__})))
#define HOLDS(array, type, ...) same(__LINE__, #array, array, (type[]){__VA_ARGS__}, sizeof((type[]){__VA_ARGS__}))
#define IS(value, expected) same(__LINE__, #value, (bool[]){(value) == (expected)}, (bool[]){true}, sizeof(bool))

/* bytes as a pointer and a length, for a const and for a written one; none at all stand right before the page that faults */
#define BYTES(...) LENT(uint8_t, __VA_ARGS__), sizeof((uint8_t[]){__VA_ARGS__})
#define NONE guarded(0), 0

/* one element too many */
#define MOST 16777216
#define TOO_MANY guarded(MOST + 1), MOST + 1

/* what a lent element is before a call */
#define OLD 0xAA

/* an answer's array */
static uint64_t *answer;

#define ASK(count) (answer = memset(guarded(sizeof(uint64_t[count])), OLD, sizeof(uint64_t[count])))
#define TOLD(...) HOLDS(answer, uint64_t, __VA_ARGS__)

/* ---- escaping */

static void reading_bytes(void) {
    uint8_t *out = LENT(uint8_t, OLD, OLD, OLD, OLD, OLD, OLD, OLD);
    dampfeather_byte_reader_push(0, 1, false, BYTES(0x68, 0x12, 0x34, 0, 0, 3, 0, 0x86), out, 7, ASK(6));
    TOLD(DAMPFEATHER_DONE, 8, 6, 0, 0, 0);
    HOLDS(out, uint8_t, 0x12, 0x34, 0, 0, 0, 0x86, OLD);

    /* all before the forbidden byte is delivered */
    dampfeather_byte_reader_push(0, 0, false, BYTES(0x41, 0, 0, 1), out, 7, ASK(6));
    TOLD(DAMPFEATHER_FORBIDDEN_BYTE, 3, 3, 2, 0, 0);
    HOLDS(out, uint8_t, 0x41, 0, 0, 0, 0, 0x86, OLD);

    /* a refusal, and a push that takes nothing, give any three numbers back as they came */
    dampfeather_byte_reader_push(1, 5, false, TOO_MANY, out, 7, ASK(6));
    TOLD(DAMPFEATHER_TOO_LONG, 0, 0, 1, 5, 0);
    dampfeather_byte_reader_push(9, 5, true, TOO_MANY, out, 7, ASK(6));
    TOLD(DAMPFEATHER_TOO_LONG, 0, 0, 9, 5, 1);
    dampfeather_byte_reader_push(3, 0, false, BYTES(0x41), out, 7, ASK(6));
    TOLD(DAMPFEATHER_BAD_STATE, 0, 0, 3, 0, 0);
    dampfeather_byte_reader_push(9, 5, false, NONE, out, 7, ASK(6));
    TOLD(DAMPFEATHER_DONE, 0, 0, 9, 5, 0);
    dampfeather_byte_reader_push(1, 5, true, BYTES(4), out, 7, ASK(6));
    TOLD(DAMPFEATHER_FORBIDDEN_BYTE, 0, 0, 1, 5, 1);
    HOLDS(out, uint8_t, 0x41, 0, 0, 0, 0, 0x86, OLD);
}

static void writing_bytes(void) {
    uint8_t *out = LENT(uint8_t, OLD, OLD, OLD, OLD, OLD, OLD, OLD, OLD);
    dampfeather_byte_writer_push(0, BYTES(0, 0, 0, 0, 0), out, 8, ASK(4));
    TOLD(DAMPFEATHER_DONE, 5, 7, 1);
    HOLDS(out, uint8_t, 0, 0, 3, 0, 0, 3, 0, OLD);
    dampfeather_byte_writer_push(3, BYTES(0x41), out, 8, ASK(4));
    TOLD(DAMPFEATHER_BAD_STATE, 0, 0, 3);
    dampfeather_byte_writer_push(2, BYTES(1), out, 1, ASK(4));
    TOLD(DAMPFEATHER_DONE, 0, 0, 2);
    HOLDS(out, uint8_t, 0, 0, 3, 0, 0, 3, 0, OLD);
}

static void whole_nals(void) {
    uint8_t *room = LENT(uint8_t, OLD, OLD, OLD, OLD, OLD, OLD, OLD);
    dampfeather_decode_nal(BYTES(0x68, 0xE8, 0x43, 0x8F), NONE, ASK(3));
    TOLD(DAMPFEATHER_DONE, 0, 0);
    dampfeather_decode_nal(NONE, room, 7, ASK(3));
    TOLD(DAMPFEATHER_EMPTY_NAL, 0, 0);
    dampfeather_decode_nal(BYTES(0x68, 0x12, 0x34, 0, 0, 0, 0x86), room, 7, ASK(3));
    TOLD(DAMPFEATHER_FORBIDDEN_BYTE, 0, 5);
    dampfeather_decode_nal(BYTES(0x68, 0x12, 0x34, 0, 0, 3, 0, 0x86), room + 2, 5, ASK(3));
    TOLD(DAMPFEATHER_NO_ROOM, 0, 0);
    HOLDS(room, uint8_t, OLD, OLD, OLD, OLD, OLD, OLD, OLD);
    dampfeather_decode_nal(BYTES(0x68, 0x12, 0x34, 0, 0, 3, 0, 0x86), room + 1, 6, ASK(3));
    TOLD(DAMPFEATHER_DONE, 1, 6);
    HOLDS(room, uint8_t, OLD, 0x12, 0x34, 0, 0, 0, 0x86);
}

/* ---- framing */

static void framing(void) {
    uint8_t *room = LENT(uint8_t, OLD, OLD, OLD, OLD);
    uint64_t *marks = LENT(uint64_t, OLD, OLD);
    dampfeather_annexb_push(false, 0, BYTES(0, 0, 1, 0x68, 0, 0, 1, 0x41, 0x9A, 0), room, 4, marks, 2, ASK(6));
    TOLD(DAMPFEATHER_DONE, 10, 3, 1, 1, 1);
    HOLDS(room, uint8_t, 0x68, 0x41, 0x9A, OLD);
    HOLDS(marks, uint64_t, 1, OLD);
    dampfeather_annexb_push(true, 3, BYTES(0x41), room, 4, marks, 2, ASK(6));
    TOLD(DAMPFEATHER_BAD_STATE, 0, 0, 0, 1, 3);
    dampfeather_annexb_reset(true, 1, room, 4, NONE, ASK(6));
    TOLD(DAMPFEATHER_NO_ROOM, 0, 0, 0, 1, 1);
    HOLDS(room, uint8_t, 0x68, 0x41, 0x9A, OLD);
    dampfeather_annexb_reset(true, 2, room + 2, 2, marks + 1, 1, ASK(6));
    TOLD(DAMPFEATHER_DONE, 0, 2, 1, 0, 0);
    HOLDS(room, uint8_t, 0x68, 0x41, 0, 0);
    HOLDS(marks, uint64_t, 1, 2);
}

/* ---- bits */

static void reading_bits(void) {
    dampfeather_read(3, BYTES(0xA6), 4, ASK(3));
    TOLD(DAMPFEATHER_DONE, 3, 7);
    dampfeather_read(3, BYTES(0xA6), 33, ASK(3));
    TOLD(DAMPFEATHER_BAD_WIDTH, 0, 3);
    dampfeather_read(9, BYTES(0xA6), 4, ASK(3));
    TOLD(DAMPFEATHER_BAD_STATE, 0, 9);
    dampfeather_read_bit(7, BYTES(0xA7), ASK(3));
    TOLD(DAMPFEATHER_DONE, 1, 8);
    dampfeather_read_bit(8, BYTES(0xA7), ASK(3));
    TOLD(DAMPFEATHER_BITS_RUN_OUT, 0, 8);
    dampfeather_read_ue(0, BYTES(0x28), ASK(3));
    TOLD(DAMPFEATHER_DONE, 4, 5);
    dampfeather_read_ue(1, BYTES(0, 0, 0, 0, 0x40), ASK(3));
    TOLD(DAMPFEATHER_EXP_GOLOMB_TOO_LARGE, 0, 1);
    dampfeather_skip(1, BYTES(0xA6), 7, ASK(2));
    TOLD(DAMPFEATHER_DONE, 8);
    dampfeather_skip(1, BYTES(0xA6), 8, ASK(2));
    TOLD(DAMPFEATHER_BITS_RUN_OUT, 1);
    IS(dampfeather_byte_aligned(16), true);
    IS(dampfeather_byte_aligned(17), false);
    dampfeather_byte_of(16, ASK(2));
    TOLD(1, 2);
    dampfeather_byte_of(17, ASK(2));
    TOLD(0, 0);
}

static void signed_values(void) {
    int32_t *value = LENT(int32_t, OLD);
    dampfeather_read_se(1, BYTES(0x07), value, ASK(2));
    TOLD(DAMPFEATHER_BITS_RUN_OUT, 1);
    IS(dampfeather_golomb_to_signed(UINT32_MAX, value), DAMPFEATHER_NO_CODE);
    HOLDS(value, int32_t, OLD);
    dampfeather_read_se(1, BYTES(0x28), value, ASK(2));
    TOLD(DAMPFEATHER_DONE, 4);
    HOLDS(value, int32_t, 1);
    IS(dampfeather_golomb_to_signed(4, value), DAMPFEATHER_DONE);
    HOLDS(value, int32_t, -2);
}

static void ends_of_data(void) {
    dampfeather_has_more_rbsp_data(0, BYTES(0xC0), ASK(2));
    TOLD(DAMPFEATHER_DONE, 1);
    dampfeather_has_more_rbsp_data(9, BYTES(0xC0), ASK(2));
    TOLD(DAMPFEATHER_BAD_STATE, 0);
    IS(dampfeather_finish_rbsp(1, BYTES(0xC0)), DAMPFEATHER_DONE);
    IS(dampfeather_finish_rbsp(0, BYTES(0xC0)), DAMPFEATHER_REMAINING_DATA);
    IS(dampfeather_finish_sei_payload(8, BYTES(0xC0)), DAMPFEATHER_DONE);
    IS(dampfeather_finish_sei_payload(0, BYTES(0xC0)), DAMPFEATHER_REMAINING_DATA);
}

static void writing_bits(void) {
    uint8_t *out = LENT(uint8_t, OLD, OLD, OLD);
    dampfeather_write(1, 1, 1, out, 3, 9, 512, ASK(4));
    TOLD(DAMPFEATHER_BAD_WIDTH, 1, 1, 1);
    dampfeather_write(3, 1, 1, out, 3, 10, 0x2A5, ASK(4));
    TOLD(DAMPFEATHER_NO_ROOM, 3, 1, 1);
    dampfeather_write_bit(1, 2, 1, out, 3, true, ASK(4));
    TOLD(DAMPFEATHER_BAD_STATE, 1, 2, 1);
    dampfeather_write_ue(1, 1, 1, out, 3, UINT32_MAX, ASK(4));
    TOLD(DAMPFEATHER_NO_CODE, 1, 1, 1);
    dampfeather_write_se(1, 1, 1, out, 3, INT32_MIN, ASK(4));
    TOLD(DAMPFEATHER_NO_CODE, 1, 1, 1);
    dampfeather_write_rbsp_trailing_bits(4, 0, 0, out, 3, ASK(4));
    TOLD(DAMPFEATHER_BAD_STATE, 4, 0, 0);
    HOLDS(out, uint8_t, OLD, OLD, OLD);

    dampfeather_write(1, 1, 1, out, 3, 10, 0x2A5, ASK(4));
    TOLD(DAMPFEATHER_DONE, 2, 5, 3);
    HOLDS(out, uint8_t, OLD, 0xD4, OLD);
    dampfeather_write_bit(2, 0x7F, 7, out, 3, true, ASK(4));
    TOLD(DAMPFEATHER_DONE, 3, 0, 0);
    HOLDS(out, uint8_t, OLD, 0xD4, 0xFF);
    dampfeather_write_ue(2, 0, 0, out, 3, 200, ASK(4));
    TOLD(DAMPFEATHER_DONE, 3, 0x49, 7);
    HOLDS(out, uint8_t, OLD, 0xD4, 0x01);
    dampfeather_write_se(0, 0, 0, out, 3, -2, ASK(4));
    TOLD(DAMPFEATHER_DONE, 0, 5, 5);
    dampfeather_write_rbsp_trailing_bits(2, 5, 3, out, 3, ASK(4));
    TOLD(DAMPFEATHER_DONE, 3, 0, 0);
    HOLDS(out, uint8_t, OLD, 0xD4, 0xB0);
    IS(dampfeather_writer_byte_aligned(2, 0, 0), true);
    IS(dampfeather_writer_byte_aligned(2, 1, 1), false);
}

/* ---- slice groups */

static void fields_of_sets(void) {
    dampfeather_read_num_ref_idx(0, BYTES(0x04, 0x00), ASK(3));
    TOLD(DAMPFEATHER_DONE, 31, 11);
    dampfeather_read_num_ref_idx(0, BYTES(0x04, 0x20), ASK(3));
    TOLD(DAMPFEATHER_BAD_NUM_REF_IDX, 0, 0);
    dampfeather_read_slice_rect(3, BYTES(0x62, 0x46, 0x80), 4, 12, ASK(4));
    TOLD(DAMPFEATHER_DONE, 17, 8, 12);
    dampfeather_read_slice_rect(3, BYTES(0x62, 0x47, 0x00), 4, 12, ASK(4));
    TOLD(DAMPFEATHER_INVALID_BOTTOM_RIGHT, 3, 0, 0);
}

/* what a read of slice groups is lent beside its answer */
static uint8_t *ids;
static uint64_t *group;
static uint32_t *runs, *rects;

/* reads from bit 0 on, with room for that many ids */
static void read_groups(const uint8_t *s, size_t s_len, uint32_t num_slice_groups_minus1, uint32_t width, uint32_t size, size_t ids_len) {
    ids = memset(guarded(ids_len), OLD, ids_len);
    group = LENT(uint64_t, OLD, OLD, OLD, OLD);
    runs = LENT(uint32_t, OLD, OLD, OLD, OLD, OLD, OLD, OLD, OLD);
    rects = LENT(uint32_t, OLD, OLD, OLD, OLD, OLD, OLD, OLD, OLD, OLD, OLD, OLD, OLD, OLD, OLD);
    dampfeather_read_slice_groups(0, s, s_len, num_slice_groups_minus1, width, size, ids, ids_len, ASK(4), group, runs, rects);
}

#define NO_RUNS HOLDS(runs, uint32_t, 0, 0, 0, 0, 0, 0, 0, 0)
#define NO_RECTS HOLDS(rects, uint32_t, 0, 0, 0, 0, 0, 0, 0, 0, 0, 0, 0, 0, 0, 0)

/* the number alone: nothing that was lent is touched */
static void refused(uint64_t number) {
    TOLD(number, 0, 0, 0);
    HOLDS(ids, uint8_t, OLD, OLD, OLD);
    HOLDS(group, uint64_t, OLD, OLD, OLD, OLD);
    HOLDS(runs, uint32_t, OLD, OLD, OLD, OLD, OLD, OLD, OLD, OLD);
    HOLDS(rects, uint32_t, OLD, OLD, OLD, OLD, OLD, OLD, OLD, OLD, OLD, OLD, OLD, OLD, OLD, OLD);
}

static void slice_groups(void) {
    read_groups(BYTES(0xD8), 1, 2, 4, 0); /* type 0: runs 0 and 2 */
    TOLD(DAMPFEATHER_DONE, 5, 1, 0);
    HOLDS(group, uint64_t, 0, 0, 0, 0);
    HOLDS(runs, uint32_t, 0, 2, 0, 0, 0, 0, 0, 0);
    NO_RECTS;
    read_groups(BYTES(0x62, 0x46, 0x80), 1, 4, 12, 0); /* type 2: 8 to 12 */
    TOLD(DAMPFEATHER_DONE, 17, 1, 0);
    HOLDS(group, uint64_t, 2, 0, 0, 0);
    NO_RUNS;
    HOLDS(rects, uint32_t, 8, 12, 0, 0, 0, 0, 0, 0, 0, 0, 0, 0, 0, 0);
    read_groups(BYTES(0x25, 0x00), 1, 2, 4, 0); /* type 3: direction 1, rate 1 */
    TOLD(DAMPFEATHER_DONE, 9, 1, 0);
    HOLDS(group, uint64_t, 3, 1, 1, 0);
    NO_RUNS;
    NO_RECTS;
    read_groups(BYTES(0x39, 0x06, 0x80), 2, 2, 4, 5); /* type 6: ids 0 1 2 2 */
    TOLD(DAMPFEATHER_DONE, 18, 2, 4);
    HOLDS(ids, uint8_t, 0, 1, 2, 2, OLD);
    HOLDS(group, uint64_t, 6, 0, 0, 3);
    NO_RUNS;
    NO_RECTS;

    read_groups(BYTES(0xD8), 0, 2, 4, 3);
    refused(DAMPFEATHER_BAD_GEOMETRY);
    read_groups(BYTES(0x10), 1, 2, 4, 3); /* type 7 */
    refused(DAMPFEATHER_BAD_MAP_TYPE);
    read_groups(BYTES(0x94), 1, 2, 4, 3); /* type 0, run 4 */
    refused(DAMPFEATHER_BAD_RUN_LENGTH);
    read_groups(BYTES(0x6A), 1, 2, 4, 3); /* type 2, 1 to 0 */
    refused(DAMPFEATHER_INVALID_TOP_LEFT);
    read_groups(BYTES(0x62, 0x47, 0x00), 1, 4, 12, 3); /* type 2, 8 to 13 */
    refused(DAMPFEATHER_INVALID_BOTTOM_RIGHT);
    read_groups(BYTES(0x20, 0xA0), 1, 2, 4, 3); /* type 3, rate 4 */
    refused(DAMPFEATHER_BAD_CHANGE_RATE);
    read_groups(BYTES(0x39, 0x40), 1, 2, 4, 3); /* type 6, of 5 units */
    refused(DAMPFEATHER_BAD_PIC_SIZE);
    read_groups(BYTES(0x39, 0x06, 0x80), 2, 2, 4, 3); /* four ids */
    refused(DAMPFEATHER_NO_ROOM);
}

int main(void) {
    reading_bytes();
    writing_bytes();
    whole_nals();
    framing();
    reading_bits();
    signed_values();
    ends_of_data();
    writing_bits();
    fields_of_sets();
    slice_groups();
    printf("guarded: %u checks of the C functions, no difference\n", checks);
    return 0;
}
