//! Writes a sample of the original's answers, for the program `replay` to hold the port to with no Rust at hand.
//!
//! A case is nine words of 32 bits, highest byte first, and then its input and its output:
//! call, a, b, c (what goes in), x, y, z (what comes out), bytes of input, bytes of output.
use crate::escaping::{self, good_nal};
use crate::framing;
use crate::groups::{good_groups, original_groups, original_rect, picture};
use crate::make::{every, Random};
use crate::reading;
use crate::writing;
use h264_reader::rbsp;
use std::borrow::Cow;
use std::path::Path;

#[derive(Default)]
struct Sheet {
    bytes: Vec<u8>,
    cases: usize,
}

impl Sheet {
    fn case(&mut self, call: u32, [a, b, c]: [usize; 3], [x, y, z]: [u64; 3], input: &[u8], output: &[u8]) {
        assert!(input.len() + output.len() <= 4096);
        for word in [call as usize, a, b, c, x as usize, y as usize, z as usize, input.len(), output.len()] {
            self.bytes.extend(u32::try_from(word).unwrap().to_be_bytes());
        }
        self.bytes.extend(input);
        self.bytes.extend(output);
        self.cases += 1;
    }
}

/// Calls 0, 1 and 2: a reader, a writer, a whole NAL.
fn escape(sheet: &mut Sheet, random: &mut Random) {
    let mut one = |s: &[u8], random: &mut Random| {
        let cut = random.below(s.len() + 1);
        let skip = random.below(3);
        let (delivered, taken, forbidden) = escaping::original_reads(s, skip);
        sheet.case(0, [skip, cut, 0], [if forbidden { 7 } else { 0 }, taken as u64, 0], s, &delivered);
        sheet.case(1, [0, cut, 0], [0, s.len() as u64, 0], s, &escaping::original_escape(&[s]));
        match rbsp::decode_nal(s) {
            Ok(Cow::Borrowed(tail)) => sheet.case(2, [0; 3], [0, 0, 0], s, tail),
            Ok(Cow::Owned(all)) => sheet.case(2, [0; 3], [0, 1, 0], s, &all),
            Err(_) => sheet.case(2, [0; 3], [7, 0, escaping::original_reads(s, 1).1 as u64], s, &[]),
        }
    };
    every(&[0, 1, 3, 4], 5, &(), &mut |(), s| one(s, random));
    for _ in 0..120 {
        let good = good_nal(random);
        one(&good, random);
        let bad = random.damage(&good);
        if !bad.is_empty() {
            one(&bad, random);
        }
    }
}

/// Call 3: a stream, cut in two, and a reset. The output is the joined bytes (y of them), and two bytes for each end (x of them).
fn frame(sheet: &mut Sheet, random: &mut Random) {
    let mut one = |s: &[u8], random: &mut Random| {
        let (bytes, ends) = framing::original_units(s);
        let mut output = bytes.clone();
        ends.iter().for_each(|&end| output.extend((end as u16).to_be_bytes()));
        if s.len() + output.len() <= 4000 {
            sheet.case(3, [0, random.below(s.len() + 1), 0], [ends.len() as u64, bytes.len() as u64, 0], s, &output);
        }
    };
    every(&[0, 1, 9], 7, &(), &mut |(), s| one(s, random));
    for _ in 0..100 {
        let good = framing::good_stream(random);
        one(&good, random);
        let bad = random.damage(&good);
        one(&bad, random);
    }
}

/// Calls 4 to 11: reads at bit a, with b the width or the count; x is the number, y the value (of se its magnitude, and c is 1 where it is negative),
/// z the place behind it.
fn read(sheet: &mut Sheet, random: &mut Random) {
    let mut one = |s: &[u8], at: usize, call: reading::Call| {
        let (number, value, behind) = reading::original(s, at, usize::MAX, call);
        let (kind, b) = match call {
            reading::Call::Read(n) => (4, n),
            reading::Call::ReadBit => (5, 0),
            reading::Call::ReadUe => (6, 0),
            reading::Call::ReadSe => (7, 0),
            reading::Call::Skip(n) => (8, n),
            reading::Call::HasMore => (9, 0),
            reading::Call::FinishRbsp => (10, 0),
            reading::Call::FinishSei => (11, 0),
        };
        sheet.case(kind, [at, b as usize, (value < 0) as usize], [number, value.unsigned_abs(), behind as u64], s, &[]);
    };
    for round in 0..800 {
        let s = match round % 3 {
            0 => writing::good_rbsp(random),
            1 => (0..random.below(12)).map(|_| if random.chance(2) { 0 } else { (random.next() as u8) >> random.below(8) }).collect(),
            _ => {
                let good = writing::good_rbsp(random);
                random.damage(&good)
            }
        };
        let at = random.below(8 * s.len() + 1);
        for call in [reading::Call::ReadUe, reading::any_call(random), reading::any_call(random)] {
            one(&s, at, call);
        }
    }
}

/// Calls 12 to 16: a write by a writer with a pending bits of value b. c is the value written (of se its magnitude), y and z are the pending bits after it
/// and their count; the input holds the width, or 1 where se's value is negative.
fn write(sheet: &mut Sheet, random: &mut Random) {
    for _ in 0..1600 {
        let count = random.below(8);
        let pending = random.below(1 << count);
        let call = writing::Call::any(random);
        let (after, bytes, left, left_count) = writing::original(&[writing::Call::Write(count as u32, pending as u32), call]);
        let (kind, value, more) = match call {
            writing::Call::Write(width, value) => (12, value, width as u8),
            writing::Call::WriteBit(bit) => (13, bit as u32, 0),
            writing::Call::WriteUe(value) => (14, value, 0),
            writing::Call::WriteSe(value) => (15, value.unsigned_abs(), (value < 0) as u8),
            writing::Call::Trailing => (16, 0, 0),
        };
        sheet.case(kind, [count, pending, value as usize], [after[1].0, left as u64, left_count as u64], &[more], &bytes);
    }
}

/// Calls 17 to 19: slice groups, a rectangle, num_ref_idx, at bit a. b is num_slice_groups_minus1, c the picture's width and size in 16 bits each; x is the
/// number, y the place behind the last field. The output of slice groups: map type, direction, rate and pic_size_in_map_units_minus1, the run lengths and
/// the rectangles' corners, in words of 32 bits, and the ids.
fn group(sheet: &mut Sheet, random: &mut Random) {
    let pictures = [picture(1, 1), picture(3, 2), picture(5, 7), picture(11, 9), picture(256, 144)];
    for round in 0..700 {
        let p = &pictures[random.below(pictures.len())];
        let (good, at, n) = good_groups(random, p, 300);
        let s = if round % 3 == 0 { random.damage(&good) } else { good };
        let at = at.min(8 * s.len());
        let picture = (p.width << 16 | p.size) as usize;
        let (told, ids) = original_groups(&p.context, &s, at, n);
        let mut output = Vec::new();
        if told.answer[0] == 0 {
            let words = told.group.iter().map(|&w| w as u32).chain(told.runs).chain(told.rects);
            words.for_each(|w| output.extend(w.to_be_bytes()));
            output.extend(ids);
        }
        sheet.case(17, [at, n as usize, picture], [told.answer[0], told.answer[1], 0], &s, &output);
        let [number, behind, top_left, bottom_right] = original_rect(p, &s, at);
        let mut output = Vec::new();
        output.extend((top_left as u32).to_be_bytes());
        output.extend((bottom_right as u32).to_be_bytes());
        sheet.case(18, [at, 0, picture], [number, behind, 0], &s, &output);
        let [number, value, behind] = crate::groups::original_num_ref_idx(p, &s, at);
        sheet.case(19, [at, 0, 0], [number, value, behind], &s, &[]);
    }
}

pub fn run(folder: &Path, seed: u64) {
    type Make = fn(&mut Sheet, &mut Random);
    let sheets: [(&str, &[Make]); 4] = [("escaping", &[escape]), ("framing", &[frame]), ("bits", &[read, write]), ("groups", &[group])];
    let mut told = String::new();
    for (name, makes) in sheets {
        let mut random = Random::new(seed);
        let mut sheet = Sheet::default();
        makes.iter().for_each(|make| make(&mut sheet, &mut random));
        assert!(sheet.bytes.len() < 1_000_000, "{name}: {} bytes", sheet.bytes.len());
        let file = folder.join("data").join(format!("{name}.bin"));
        std::fs::create_dir_all(file.parent().unwrap()).unwrap();
        std::fs::write(&file, &sheet.bytes).unwrap();
        println!("{name}: {} cases, {} bytes", sheet.cases, sheet.bytes.len());
        told += &format!("{name}: {} cases, 0 differences\n", sheet.cases);
    }
    std::fs::write(folder.join("stdout"), told).unwrap();
}
