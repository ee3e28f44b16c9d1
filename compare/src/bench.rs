//! Times the original and the port on the same inputs, in turns, in one process. The best of many turns counts, and what is printed is the ratio of
//! times: below 1 the port is faster.
mod recorder;

use crate::make::Random;
use dampfeather::raw;
use h264_reader::annexb::AnnexBReader;
use h264_reader::push::NalFragmentHandler;
use h264_reader::rbsp::{self, BitRead, BitWrite};
use std::hint::black_box;
use std::io::{BufRead, Write};
use std::time::{Duration, Instant};

const SIZE: usize = 16 << 20;

fn best(turns: usize, sides: [&mut dyn FnMut(); 2]) -> [Duration; 2] {
    let mut best = [Duration::MAX; 2];
    let [one, two] = sides;
    for _ in 0..turns {
        for (side, least) in [&mut *one as &mut dyn FnMut(), &mut *two].into_iter().zip(&mut best) {
            let start = Instant::now();
            side();
            *least = start.elapsed().min(*least);
        }
    }
    best
}

fn print(call: &str, data: &str, bytes: usize, [original, port]: [Duration; 2]) {
    let rate = |t: Duration| bytes as f64 / 1e6 / t.as_secs_f64();
    println!("{call:12} {data:14} {:>10.0} {:>10.0} {:>8.2}", rate(original), rate(port), port.as_secs_f64() / original.as_secs_f64());
}

/// Streams that no byte of is forbidden, and what they are called.
fn streams(random: &mut Random) -> Vec<(&'static str, Vec<u8>)> {
    let no_zeros: Vec<u8> = (0..SIZE).map(|_| 1 + (random.next() % 255) as u8).collect();
    let mut few = no_zeros.clone();
    for at in (500..SIZE - 4).step_by(1024) {
        few[at..at + 4].copy_from_slice(&[0, 0, 3, 1]);
    }
    let uniform: Vec<u8> = (0..SIZE).map(|_| random.next() as u8).collect();
    let dense: Vec<u8> = (0..SIZE).map(|_| if random.chance(2) { 0 } else { random.next() as u8 }).collect();
    vec![("no zeros", no_zeros), ("few escapes", few), ("uniform", uniform), ("dense zeros", dense)]
}

/// The RBSP escaped, so that it can be read; cut to the size.
fn readable(rbsp: &[u8]) -> Vec<u8> {
    let mut writer = rbsp::ByteWriter::new(Vec::with_capacity(rbsp.len() * 2));
    writer.write_all(rbsp).unwrap();
    let mut nal = writer.into_writer();
    nal.truncate(SIZE);
    nal
}

/// The NAL bytes as units of 1.4 KB; cut to the size.
fn in_units(nal: &[u8]) -> Vec<u8> {
    let mut stream = Vec::with_capacity(2 * SIZE);
    for unit in nal.chunks(1400) {
        stream.extend([0, 0, 1]);
        stream.extend(unit);
    }
    stream.truncate(SIZE);
    stream
}

/// Copies what it is handed into a room.
struct Copies<'a> {
    room: &'a mut [u8],
    filled: usize,
    ends: usize,
}

impl NalFragmentHandler for Copies<'_> {
    fn nal_fragment(&mut self, bufs: &[&[u8]], end: bool) {
        for buf in bufs {
            self.room[self.filled..self.filled + buf.len()].copy_from_slice(buf);
            self.filled += buf.len();
        }
        self.ends += end as usize;
    }
}

fn bytes(turns: usize, random: &mut Random) {
    let mut room = vec![0u8; SIZE];
    for (name, s) in streams(random) {
        let nal = readable(&s);
        let out = std::cell::RefCell::new(&mut room);
        let times = best(
            turns,
            [
                &mut || {
                    let out = &mut out.borrow_mut()[..SIZE];
                    let mut reader = rbsp::ByteReader::without_skip(&nal[..]);
                    let mut w = 0;
                    loop {
                        let buf = reader.fill_buf().unwrap();
                        let n = buf.len();
                        if n == 0 {
                            break;
                        }
                        out[w..w + n].copy_from_slice(buf);
                        reader.consume(n);
                        w += n;
                    }
                    black_box(w);
                },
                &mut || {
                    let a = raw::byte_reader_push(0, 0, false, &nal, &mut out.borrow_mut()[..SIZE]);
                    assert_eq!(a[0], 0);
                    black_box(a);
                },
            ],
        );
        print("unescape", name, nal.len(), times);
        // a lent room has 16 MiB at most: half of that is escaped at a time
        let half = &s[..SIZE / 2];
        let times = best(
            turns,
            [
                &mut || {
                    let mut out = out.borrow_mut();
                    let mut writer = rbsp::ByteWriter::new(&mut out[..SIZE]);
                    writer.write_all(half).unwrap();
                },
                &mut || {
                    let a = raw::byte_writer_push(0, half, &mut out.borrow_mut()[..SIZE]);
                    assert_eq!(a[1], half.len() as u64);
                    black_box(a);
                },
            ],
        );
        print("escape", name, half.len(), times);
        let stream = in_units(&nal);
        let mut marks = vec![0u64; SIZE / 8];
        let times = best(
            turns,
            [
                &mut || {
                    let mut out = out.borrow_mut();
                    let mut reader = AnnexBReader::for_fragment_handler(Copies { room: &mut out[..SIZE], filled: 0, ends: 0 });
                    reader.push(&stream);
                    black_box(reader.into_fragment_handler().ends);
                },
                &mut || {
                    let a = raw::annexb_push(false, 0, &stream, &mut out.borrow_mut()[..SIZE], &mut marks);
                    assert_eq!(a[1], stream.len() as u64);
                    black_box(a);
                },
            ],
        );
        print("framing", name, stream.len(), times);
        if name == "no zeros" {
            // the same copy on both sides: what the machine can do, and how far two timings of one thing are apart
            let copy = || black_box(&mut out.borrow_mut()[..SIZE]).copy_from_slice(black_box(&s));
            let times = best(turns, [&mut || copy(), &mut || copy()]);
            print("memcpy", name, SIZE, times);
        }
    }
}

fn reads(turns: usize, random: &mut Random) {
    let s: Vec<u8> = (0..SIZE).map(|_| random.next() as u8).collect();
    for width in [1, 8, 13, 32] {
        let count = 1 << 20;
        let times = best(
            turns,
            [
                &mut || {
                    let mut reader = rbsp::BitReader::new(&s[..]);
                    let mut sum = 0u32;
                    for _ in 0..count {
                        sum ^= reader.read_var::<u32>(width, "").unwrap();
                    }
                    black_box(sum);
                },
                &mut || {
                    let (mut at, mut sum) = (0, 0);
                    for _ in 0..count {
                        let a = raw::read(at, &s, width);
                        (at, sum) = (a[2] as usize, sum ^ a[1]);
                    }
                    black_box(sum);
                },
            ],
        );
        print("read u(n)", &format!("{width} bits"), count * width as usize / 8, times);
    }
    for (name, shift) in [("small values", 28), ("wide values", 8)] {
        let values: Vec<u32> = (0..1 << 20).map(|_| (random.next() as u32) >> (shift + random.below(4))).collect();
        let mut writer = rbsp::BitWriter::new(Vec::new());
        values.iter().for_each(|&v| writer.write_ue(v).unwrap());
        writer.write_rbsp_trailing_bits().unwrap();
        let codes = writer.into_writer();
        let times = best(
            turns,
            [
                &mut || {
                    let mut reader = rbsp::BitReader::new(&codes[..]);
                    let mut sum = 0u32;
                    for _ in 0..values.len() {
                        sum ^= reader.read_ue("").unwrap();
                    }
                    black_box(sum);
                },
                &mut || {
                    let (mut at, mut sum) = (0, 0);
                    for _ in 0..values.len() {
                        let a = raw::read_ue(at, &codes);
                        (at, sum) = (a[2] as usize, sum ^ a[1]);
                    }
                    black_box(sum);
                },
            ],
        );
        print("read ue", name, codes.len(), times);
        let mut vec_room = Vec::with_capacity(codes.len() + 8);
        let mut room = vec![0u8; codes.len() + 8];
        let times = best(
            turns,
            [
                &mut || {
                    vec_room.clear();
                    let mut writer = rbsp::BitWriter::new(&mut vec_room);
                    for &v in &values {
                        writer.write_ue(v).unwrap();
                    }
                },
                &mut || {
                    let mut state = (0, 0, 0);
                    for &v in &values {
                        let a = raw::write_ue(state.0, state.1, state.2, &mut room, v);
                        state = (a[1] as usize, a[2] as u8, a[3] as u8);
                    }
                    black_box(state);
                },
            ],
        );
        print("write ue", name, codes.len(), times);
    }
}

pub fn run(turns: usize) {
    let mut random = Random::new(1);
    println!("{:12} {:14} {:>10} {:>10} {:>8}", "call", "data", "orig MB/s", "port MB/s", "ratio");
    bytes(turns, &mut random);
    recorder::run(turns, &mut random);
    reads(turns, &mut random);
}
