//! Reading bits: `BitReader` beside the port's.
use crate::escaping::Pieces;
use crate::make::Random;
use crate::tally::{differ, hex, How, Tally};
use dampfeather::raw;
use h264_reader::rbsp::{BitRead, BitReader, BitReaderError};
use std::io::ErrorKind;

#[derive(Clone, Copy, Debug, PartialEq)]
pub enum Call {
    Read(u32),
    ReadBit,
    ReadUe,
    ReadSe,
    Skip(u32),
    HasMore,
    FinishRbsp,
    FinishSei,
}

impl Call {
    pub fn name(self) -> &'static str {
        match self {
            Call::Read(_) => "BitReader::read",
            Call::ReadBit => "BitReader::read_bit",
            Call::ReadUe => "BitReader::read_ue",
            Call::ReadSe => "BitReader::read_se",
            Call::Skip(_) => "BitReader::skip",
            Call::HasMore => "has_more_rbsp_data",
            Call::FinishRbsp => "finish_rbsp",
            Call::FinishSei => "finish_sei_payload",
        }
    }
}

/// Number, value, and the place behind it (as it came where the call was refused, or does not move).
pub type Answer = (u64, i64, usize);

/// Document 01's number for an error of the original.
pub fn number(e: &BitReaderError) -> u64 {
    match e {
        BitReaderError::ReaderError(_, e) if e.kind() == ErrorKind::UnexpectedEof => 4,
        BitReaderError::ReaderError(_, e) if e.kind() == ErrorKind::InvalidInput => 3,
        BitReaderError::ReaderError(_, e) => panic!("{e:?}"),
        BitReaderError::ExpGolombTooLarge(_) => 5,
        BitReaderError::RemainingData => 6,
    }
}

pub fn reader_at(s: &[u8], at: usize, piece: usize) -> BitReader<Pieces<'_>> {
    let mut reader = BitReader::new(Pieces { rest: s, piece });
    reader.skip(at as u32, "").unwrap();
    reader
}

/// How far a reader has come: it takes whole bytes, so the bits up to the next byte are read and taken off.
pub fn place(s: &[u8], mut reader: BitReader<Pieces<'_>>) -> usize {
    let mut ahead = 0;
    while !reader.byte_aligned() {
        reader.read_bit("").unwrap();
        ahead += 1;
    }
    8 * (s.len() - reader.into_reader().rest.len()) - ahead
}

/// A call that leaves the reader to be asked again.
fn ask<R: std::io::BufRead + Clone>(reader: &mut BitReader<R>, call: Call) -> Result<i64, BitReaderError> {
    match call {
        Call::Read(width) => reader.read_var::<u32>(width, "").map(i64::from),
        Call::ReadBit => reader.read_bit("").map(i64::from),
        Call::ReadUe => reader.read_ue("").map(i64::from),
        Call::ReadSe => reader.read_se("").map(i64::from),
        Call::Skip(n) => reader.skip(n, "").map(|()| 0),
        Call::HasMore => reader.has_more_rbsp_data("").map(i64::from),
        Call::FinishRbsp | Call::FinishSei => unreachable!("these take the reader"),
    }
}

pub fn original(s: &[u8], at: usize, piece: usize, call: Call) -> Answer {
    let mut reader = reader_at(s, at, piece);
    let value = match call {
        Call::FinishRbsp => return (reader.finish_rbsp().map_or_else(|e| number(&e), |()| 0), 0, at),
        Call::FinishSei => return (reader.finish_sei_payload().map_or_else(|e| number(&e), |()| 0), 0, at),
        other => ask(&mut reader, other),
    };
    match value {
        Ok(v) => (0, v, place(s, reader)),
        // how far a failed read has moved is not compared
        Err(e) => (number(&e), 0, at),
    }
}

pub fn port(s: &[u8], at: usize, call: Call) -> Answer {
    let with_value = |a: [u64; 3]| (a[0], a[1] as i64, a[2] as usize);
    match call {
        Call::Read(width) => with_value(raw::read(at, s, width)),
        Call::ReadBit => with_value(raw::read_bit(at, s)),
        Call::ReadUe => with_value(raw::read_ue(at, s)),
        Call::ReadSe => {
            let (a, value) = raw::read_se(at, s);
            (a[0], i64::from(value), a[1] as usize)
        }
        Call::Skip(n) => {
            let a = raw::skip(at, s, n);
            (a[0], 0, a[1] as usize)
        }
        Call::HasMore => {
            let a = raw::has_more_rbsp_data(at, s);
            (a[0], a[1] as i64, at)
        }
        Call::FinishRbsp => (raw::finish_rbsp(at, s).into(), 0, at),
        Call::FinishSei => (raw::finish_sei_payload(at, s).into(), 0, at),
    }
}

fn compare(tally: &mut Tally, how: How, s: &[u8], at: usize, piece: usize, call: Call) -> usize {
    let expected = original(s, at, piece, call);
    let answer = port(s, at, call);
    if answer != expected {
        differ(call.name(), &format!("{} at bit {at}, {call:?}", hex(s)), &format!("{expected:?}"), &format!("{answer:?}"));
    }
    tally.count(call.name(), how);
    answer.2
}

const PLAIN: [Call; 6] = [Call::ReadBit, Call::ReadUe, Call::ReadSe, Call::HasMore, Call::FinishRbsp, Call::FinishSei];

/// Every call at every place of a stream.
fn everywhere(tally: &mut Tally, how: How, s: &[u8], widths: &[u32]) {
    for at in 0..=8 * s.len() {
        for call in PLAIN {
            compare(tally, how, s, at, usize::MAX, call);
        }
        for &n in widths {
            compare(tally, how, s, at, usize::MAX, Call::Read(n));
            compare(tally, how, s, at, usize::MAX, Call::Skip(n));
        }
        if raw::byte_aligned(at) != reader_at(s, at, 1).byte_aligned() {
            differ("BitReader::byte_aligned", &format!("bit {at}"), "", "");
        }
        tally.count("BitReader::byte_aligned", how);
    }
}

fn exhaustive(tally: &mut Tally) {
    let some = [0, 1, 2, 3, 7, 8, 9, 15, 16, 17, 31, 32, 33, 64, u32::MAX];
    everywhere(tally, How::Exhaustive, &[], &some);
    for a in 0..=255 {
        everywhere(tally, How::Exhaustive, &[a], &some);
        for b in 0..=255 {
            everywhere(tally, How::Exhaustive, &[a, b], &[0, 5, 8, 13]);
        }
    }
    // streams around the longest codes: so many zeros, a one, and what is behind it
    let every_width: Vec<u32> = (0..=34).collect();
    for zeros in 0..=70usize {
        for len in zeros / 8..=zeros / 8 + 6 {
            let mut s = vec![0u8; len];
            everywhere(tally, How::Exhaustive, &s, &[32]);
            if zeros / 8 < len {
                s[zeros / 8] |= 0x80 >> (zeros % 8);
                everywhere(tally, How::Exhaustive, &s, &every_width);
                for fill in [0xFF, 0x5A, 0x01] {
                    let mut t = s.clone();
                    for b in t[zeros / 8 + 1..].iter_mut() {
                        *b = fill;
                    }
                    everywhere(tally, How::Exhaustive, &t, &[1, 31, 32]);
                }
            }
        }
    }
}

pub fn any_call(random: &mut Random) -> Call {
    match random.below(12) {
        0..=2 => Call::Read(random.below(36) as u32),
        3..=5 => Call::ReadUe,
        6 => Call::ReadSe,
        7 => Call::ReadBit,
        8 => Call::Skip(random.below(70) as u32),
        9 => Call::HasMore,
        10 => Call::FinishRbsp,
        _ => Call::FinishSei,
    }
}

/// Calls one after another, each from where the port's last one stopped.
fn sequence(tally: &mut Tally, how: How, random: &mut Random, s: &[u8], calls: usize) {
    let mut at = 0;
    for _ in 0..calls {
        let piece = 1 + random.below(20);
        at = compare(tally, how, s, at, piece, any_call(random));
    }
    // and by one reader of the original, until a call that fails or takes it
    let mut reader = BitReader::new(s);
    let mut at = 0;
    for _ in 0..calls {
        let call = any_call(random);
        let value = match call {
            Call::FinishRbsp | Call::FinishSei => continue,
            other => ask(&mut reader, other),
        };
        let expected = value.as_ref().map_or_else(number, |_| 0);
        let answer = port(s, at, call);
        if (answer.0, answer.1) != (expected, value.as_ref().map_or(0, |v| *v)) {
            differ(call.name(), &format!("{} at bit {at} of a sequence, {call:?}", hex(s)), &format!("{expected} {value:?}"), &format!("{answer:?}"));
        }
        tally.count(call.name(), How::Sequences);
        if expected != 0 {
            return;
        }
        at = answer.2;
    }
}

/// What the original cannot be asked: the limit, and a place past the end.
fn desk(tally: &mut Tally) {
    const MOST: usize = 16_777_216;
    let long = vec![0x55u8; MOST + 1];
    let mut held = |call: Call, s: &[u8], at: usize, expected: Answer| {
        let answer = port(s, at, call);
        if answer != expected {
            differ(call.name(), &format!("{} bytes at bit {at}, {call:?}", s.len()), &format!("document 01: {expected:?}"), &format!("{answer:?}"));
        }
        tally.count(call.name(), How::Desk);
    };
    for call in PLAIN.into_iter().chain([Call::Read(0), Call::Read(32), Call::Read(33), Call::Skip(0)]) {
        for at in [0, 5, 8 * MOST + 9, usize::MAX] {
            held(call, &long, at, (1, 0, at));
        }
        for (s, at) in [(&[][..], 1), (&[0x80], 9), (&[0x80, 0x80], usize::MAX), (&long[1..], 8 * MOST + 1)] {
            held(call, s, at, (2, 0, at));
        }
    }
    held(Call::Read(8), &long[1..], 8 * MOST - 8, (0, 0x55, 8 * MOST));
    held(Call::ReadUe, &long[1..], 8 * MOST - 2, (4, 0, 8 * MOST - 2));
    held(Call::FinishRbsp, &long[1..], 8 * MOST - 1, (0, 0, 8 * MOST - 1));
    held(Call::HasMore, &long[1..], 0, (0, 1, 0));
}

/// se(v)'s mapping: the original's is private, and read through the codes.
fn mapping(tally: &mut Tally, random: &mut Random, rounds: usize) {
    let mut one = |k: u32| {
        let s = crate::writing::code_of(k);
        let expected = original(&s, 0, usize::MAX, Call::ReadSe);
        let (number, value) = raw::golomb_to_signed(k);
        if (u64::from(number), i64::from(value)) != (expected.0, expected.1) {
            differ("golomb_to_signed", &format!("{k}"), &format!("{expected:?}"), &format!("{number} {value}"));
        }
        tally.count("golomb_to_signed", if k < 70_000 { How::Exhaustive } else { How::Random });
    };
    for k in 0..70_000 {
        one(k);
    }
    for bits in 17..32 {
        for near in 0..5 {
            one((1u32 << bits) - 2 + near);
        }
    }
    one(u32::MAX - 1);
    for _ in 0..rounds {
        one((random.next() as u32).saturating_sub(1));
    }
    let (number, value) = raw::golomb_to_signed(u32::MAX);
    assert_eq!((number, value), (9, 0));
    tally.count("golomb_to_signed", How::Desk);
}

pub fn run(tally: &mut Tally, random: &mut Random, rounds: usize) {
    exhaustive(tally);
    mapping(tally, random, rounds);
    for _ in 0..rounds {
        let len = random.below(40);
        // many zeros make long codes
        let s: Vec<u8> = (0..len).map(|_| if random.chance(2) { 0 } else { (random.next() as u8) >> random.below(8) }).collect();
        sequence(tally, How::Random, random, &s, 20);
        let good = crate::writing::good_rbsp(random);
        sequence(tally, How::Random, random, &good, 20);
        let bad = random.damage(&good);
        sequence(tally, How::Damaged, random, &bad, 20);
    }
    desk(tally);
}
