//! The exported functions as they stand in `include/dampfeather.h`, each behind a safe function: nothing is asked of a caller, so any slices and any
//! numbers may be handed in. An answer is an array of numbers, of which the first is document 01's number: 0 is done.

mod c {
    extern "C" {
        pub fn dampfeather_byte_reader_push(
            zeros: u8,
            skip: usize,
            post_three: bool,
            chunk: *const u8,
            chunk_len: usize,
            out: *mut u8,
            out_len: usize,
            answer: *mut [u64; 6],
        );
        pub fn dampfeather_byte_writer_push(zero_count: u8, chunk: *const u8, chunk_len: usize, out: *mut u8, out_len: usize, answer: *mut [u64; 4]);
        pub fn dampfeather_decode_nal(nal: *const u8, nal_len: usize, room: *mut u8, room_len: usize, answer: *mut [u64; 3]);
        pub fn dampfeather_annexb_push(
            in_unit: bool,
            zeros: u8,
            chunk: *const u8,
            chunk_len: usize,
            room: *mut u8,
            room_len: usize,
            marks: *mut u64,
            marks_len: usize,
            answer: *mut [u64; 6],
        );
        pub fn dampfeather_annexb_reset(
            in_unit: bool,
            zeros: u8,
            room: *mut u8,
            room_len: usize,
            marks: *mut u64,
            marks_len: usize,
            answer: *mut [u64; 6],
        );
        pub fn dampfeather_read(at: usize, s: *const u8, s_len: usize, width: u32, answer: *mut [u64; 3]);
        pub fn dampfeather_read_ue(at: usize, s: *const u8, s_len: usize, answer: *mut [u64; 3]);
        pub fn dampfeather_read_bit(at: usize, s: *const u8, s_len: usize, answer: *mut [u64; 3]);
        pub fn dampfeather_read_se(at: usize, s: *const u8, s_len: usize, value: *mut i32, answer: *mut [u64; 2]);
        pub fn dampfeather_skip(at: usize, s: *const u8, s_len: usize, bit_count: u32, answer: *mut [u64; 2]);
        pub fn dampfeather_has_more_rbsp_data(at: usize, s: *const u8, s_len: usize, answer: *mut [u64; 2]);
        pub fn dampfeather_finish_rbsp(at: usize, s: *const u8, s_len: usize) -> u8;
        pub fn dampfeather_finish_sei_payload(at: usize, s: *const u8, s_len: usize) -> u8;
        pub fn dampfeather_byte_aligned(at: usize) -> bool;
        pub fn dampfeather_golomb_to_signed(val: u32, value: *mut i32) -> u8;
        pub fn dampfeather_write(written: usize, pending: u8, count: u8, out: *mut u8, out_len: usize, width: u32, value: u32, answer: *mut [u64; 4]);
        pub fn dampfeather_write_bit(written: usize, pending: u8, count: u8, out: *mut u8, out_len: usize, bit: bool, answer: *mut [u64; 4]);
        pub fn dampfeather_write_ue(written: usize, pending: u8, count: u8, out: *mut u8, out_len: usize, value: u32, answer: *mut [u64; 4]);
        pub fn dampfeather_write_se(written: usize, pending: u8, count: u8, out: *mut u8, out_len: usize, value: i32, answer: *mut [u64; 4]);
        pub fn dampfeather_write_rbsp_trailing_bits(written: usize, pending: u8, count: u8, out: *mut u8, out_len: usize, answer: *mut [u64; 4]);
        pub fn dampfeather_byte_of(at: usize, answer: *mut [u64; 2]);
        pub fn dampfeather_writer_byte_aligned(written: usize, pending: u8, count: u8) -> bool;
        pub fn dampfeather_read_num_ref_idx(at: usize, s: *const u8, s_len: usize, answer: *mut [u64; 3]);
        pub fn dampfeather_read_slice_rect(at: usize, s: *const u8, s_len: usize, width: u32, size: u32, answer: *mut [u64; 4]);
        pub fn dampfeather_read_slice_groups(
            at: usize,
            s: *const u8,
            s_len: usize,
            num_slice_groups_minus1: u32,
            width: u32,
            size: u32,
            ids: *mut u8,
            ids_len: usize,
            answer: *mut [u64; 4],
            group: *mut [u64; 4],
            runs: *mut [u32; 8],
            rects: *mut [u32; 14],
        );
    }
}

/// Number, bytes taken, bytes written; then the state: zeros, bytes yet to drop, 1 behind a removed 03.
pub fn byte_reader_push(zeros: u8, skip: usize, post_three: bool, chunk: &[u8], out: &mut [u8]) -> [u64; 6] {
    let mut answer = [0; 6];
    unsafe { c::dampfeather_byte_reader_push(zeros, skip, post_three, chunk.as_ptr(), chunk.len(), out.as_mut_ptr(), out.len(), &mut answer) };
    answer
}

/// Number, bytes taken, bytes written, and the state's zeros.
pub fn byte_writer_push(zero_count: u8, chunk: &[u8], out: &mut [u8]) -> [u64; 4] {
    let mut answer = [0; 4];
    unsafe { c::dampfeather_byte_writer_push(zero_count, chunk.as_ptr(), chunk.len(), out.as_mut_ptr(), out.len(), &mut answer) };
    answer
}

/// Number; 1 where the room was filled and 0 where the NAL's own tail is to be shown; the bytes filled, or for number 7 the byte's index.
pub fn decode_nal(nal: &[u8], room: &mut [u8]) -> [u64; 3] {
    let mut answer = [0; 3];
    unsafe { c::dampfeather_decode_nal(nal.as_ptr(), nal.len(), room.as_mut_ptr(), room.len(), &mut answer) };
    answer
}

/// Number, bytes taken, bytes written, marks written; then the state: 1 in a unit, zeros.
pub fn annexb_push(in_unit: bool, zeros: u8, chunk: &[u8], room: &mut [u8], marks: &mut [u64]) -> [u64; 6] {
    let mut answer = [0; 6];
    unsafe {
        c::dampfeather_annexb_push(
            in_unit,
            zeros,
            chunk.as_ptr(),
            chunk.len(),
            room.as_mut_ptr(),
            room.len(),
            marks.as_mut_ptr(),
            marks.len(),
            &mut answer,
        )
    };
    answer
}

/// As [`annexb_push`], of no bytes.
pub fn annexb_reset(in_unit: bool, zeros: u8, room: &mut [u8], marks: &mut [u64]) -> [u64; 6] {
    let mut answer = [0; 6];
    unsafe { c::dampfeather_annexb_reset(in_unit, zeros, room.as_mut_ptr(), room.len(), marks.as_mut_ptr(), marks.len(), &mut answer) };
    answer
}

/// u(width) at bit `at`: number, value, and the place behind it.
pub fn read(at: usize, s: &[u8], width: u32) -> [u64; 3] {
    let mut answer = [0; 3];
    unsafe { c::dampfeather_read(at, s.as_ptr(), s.len(), width, &mut answer) };
    answer
}

/// ue(v): as [`read()`].
pub fn read_ue(at: usize, s: &[u8]) -> [u64; 3] {
    let mut answer = [0; 3];
    unsafe { c::dampfeather_read_ue(at, s.as_ptr(), s.len(), &mut answer) };
    answer
}

/// One bit: as [`read()`].
pub fn read_bit(at: usize, s: &[u8]) -> [u64; 3] {
    let mut answer = [0; 3];
    unsafe { c::dampfeather_read_bit(at, s.as_ptr(), s.len(), &mut answer) };
    answer
}

/// se(v): number, and the place behind it; then the value (0 of a refusal).
pub fn read_se(at: usize, s: &[u8]) -> ([u64; 2], i32) {
    let mut value = 0;
    let mut answer = [0; 2];
    unsafe { c::dampfeather_read_se(at, s.as_ptr(), s.len(), &mut value, &mut answer) };
    (answer, value)
}

/// Number, and the place behind what was skipped.
pub fn skip(at: usize, s: &[u8], bit_count: u32) -> [u64; 2] {
    let mut answer = [0; 2];
    unsafe { c::dampfeather_skip(at, s.as_ptr(), s.len(), bit_count, &mut answer) };
    answer
}

/// Number, and 1 for yes.
pub fn has_more_rbsp_data(at: usize, s: &[u8]) -> [u64; 2] {
    let mut answer = [0; 2];
    unsafe { c::dampfeather_has_more_rbsp_data(at, s.as_ptr(), s.len(), &mut answer) };
    answer
}

/// The number.
pub fn finish_rbsp(at: usize, s: &[u8]) -> u8 {
    unsafe { c::dampfeather_finish_rbsp(at, s.as_ptr(), s.len()) }
}

/// The number.
pub fn finish_sei_payload(at: usize, s: &[u8]) -> u8 {
    unsafe { c::dampfeather_finish_sei_payload(at, s.as_ptr(), s.len()) }
}

/// Whether a byte starts at bit `at`.
pub fn byte_aligned(at: usize) -> bool {
    unsafe { c::dampfeather_byte_aligned(at) }
}

/// The number, and the value (0 of a refusal).
pub fn golomb_to_signed(val: u32) -> (u8, i32) {
    let mut value = 0;
    let number = unsafe { c::dampfeather_golomb_to_signed(val, &mut value) };
    (number, value)
}

/// u(width) of `value`: number; then the writer: bytes written, pending bits as a number, and their count.
pub fn write(written: usize, pending: u8, count: u8, out: &mut [u8], width: u32, value: u32) -> [u64; 4] {
    let mut answer = [0; 4];
    unsafe { c::dampfeather_write(written, pending, count, out.as_mut_ptr(), out.len(), width, value, &mut answer) };
    answer
}

/// One bit: as [`write()`].
pub fn write_bit(written: usize, pending: u8, count: u8, out: &mut [u8], bit: bool) -> [u64; 4] {
    let mut answer = [0; 4];
    unsafe { c::dampfeather_write_bit(written, pending, count, out.as_mut_ptr(), out.len(), bit, &mut answer) };
    answer
}

/// ue(v): as [`write()`].
pub fn write_ue(written: usize, pending: u8, count: u8, out: &mut [u8], value: u32) -> [u64; 4] {
    let mut answer = [0; 4];
    unsafe { c::dampfeather_write_ue(written, pending, count, out.as_mut_ptr(), out.len(), value, &mut answer) };
    answer
}

/// se(v): as [`write()`].
pub fn write_se(written: usize, pending: u8, count: u8, out: &mut [u8], value: i32) -> [u64; 4] {
    let mut answer = [0; 4];
    unsafe { c::dampfeather_write_se(written, pending, count, out.as_mut_ptr(), out.len(), value, &mut answer) };
    answer
}

/// A one, then zeros to the byte boundary: as [`write()`].
pub fn write_rbsp_trailing_bits(written: usize, pending: u8, count: u8, out: &mut [u8]) -> [u64; 4] {
    let mut answer = [0; 4];
    unsafe { c::dampfeather_write_rbsp_trailing_bits(written, pending, count, out.as_mut_ptr(), out.len(), &mut answer) };
    answer
}

/// 1 where a byte starts at bit `at`, and that byte's place.
pub fn byte_of(at: usize) -> [u64; 2] {
    let mut answer = [0; 2];
    unsafe { c::dampfeather_byte_of(at, &mut answer) };
    answer
}

/// Whether no bit is pending.
pub fn writer_byte_aligned(written: usize, pending: u8, count: u8) -> bool {
    unsafe { c::dampfeather_writer_byte_aligned(written, pending, count) }
}

/// num_ref_idx: as [`read()`].
pub fn read_num_ref_idx(at: usize, s: &[u8]) -> [u64; 3] {
    let mut answer = [0; 3];
    unsafe { c::dampfeather_read_num_ref_idx(at, s.as_ptr(), s.len(), &mut answer) };
    answer
}

/// Number, the place behind the rectangle, top_left, bottom_right.
pub fn read_slice_rect(at: usize, s: &[u8], width: u32, size: u32) -> [u64; 4] {
    let mut answer = [0; 4];
    unsafe { c::dampfeather_read_slice_rect(at, s.as_ptr(), s.len(), width, size, &mut answer) };
    answer
}

/// The numbers of a slice-group read.
#[derive(Clone, Debug, Default, PartialEq, Eq)]
pub struct Groups {
    /// number, the place behind the last field, num_slice_groups_minus1, ids written
    pub answer: [u64; 4],
    /// map type, direction, rate, pic_size_in_map_units_minus1
    pub group: [u64; 4],
    /// run_length_minus1 of each group
    pub runs: [u32; 8],
    /// top_left and bottom_right of each rectangle in turn
    pub rects: [u32; 14],
}

/// Slice groups from the map type on. Ids go into the lent bytes.
pub fn read_slice_groups(at: usize, s: &[u8], num_slice_groups_minus1: u32, width: u32, size: u32, ids: &mut [u8]) -> Groups {
    let mut g = Groups::default();
    unsafe {
        c::dampfeather_read_slice_groups(
            at,
            s.as_ptr(),
            s.len(),
            num_slice_groups_minus1,
            width,
            size,
            ids.as_mut_ptr(),
            ids.len(),
            &mut g.answer,
            &mut g.group,
            &mut g.runs,
            &mut g.rects,
        )
    };
    g
}
