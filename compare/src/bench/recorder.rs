//! What a recorder does with a stream: units out of a `Read`, their payloads, and escaping through `Read` and `Write`.
use super::{best, in_units, print, readable, streams, SIZE};
use crate::make::Random;
use dampfeather::{EscapingWriter, UnescapingReader, Units};
use h264_reader::annexb::AnnexBReader;
use h264_reader::nal::{Nal, RefNal};
use h264_reader::push::NalInterest;
use h264_reader::rbsp;
use std::cell::RefCell;
use std::io::{BufRead, Read, Write};

const CHUNK: usize = 64 * 1024;

/// How many units were seen, and bytes of them.
type Seen = (usize, usize);

/// The original: it is pushed what is read, and calls back with each whole unit.
fn accumulated(mut stream: impl Read, mut unit: impl FnMut(RefNal<'_>) -> usize) -> Seen {
    let mut seen = (0, 0);
    let mut reader = AnnexBReader::accumulate(|nal: RefNal<'_>| {
        if nal.is_complete() {
            seen = (seen.0 + 1, seen.1 + unit(nal));
        }
        NalInterest::Buffer
    });
    let mut chunk = vec![0; CHUNK];
    loop {
        match stream.read(&mut chunk).unwrap() {
            0 => break,
            n => reader.push(&chunk[..n]),
        }
    }
    reader.reset();
    drop(reader);
    seen
}

fn vector(nal: &RefNal<'_>) -> Vec<u8> {
    let mut unit = Vec::new();
    nal.reader().read_to_end(&mut unit).unwrap();
    unit
}

/// The length of a unit, none of whose bytes are copied.
fn looked_at(nal: RefNal<'_>) -> usize {
    let mut pieces = nal.reader();
    let mut length = 0;
    loop {
        match pieces.fill_buf().unwrap().len() {
            0 => return length,
            n => {
                length += n;
                pieces.consume(n);
            }
        }
    }
}

/// The port's lending call.
fn lent<R: Read>(mut units: Units<R>, mut unit: impl FnMut(&[u8]) -> usize) -> Seen {
    let mut seen = (0, 0);
    while let Some(bytes) = units.next_unit().unwrap() {
        seen = (seen.0 + 1, seen.1 + unit(bytes));
    }
    seen
}

/// Times both, and sees that both saw the same.
fn row(turns: usize, call: &str, data: &str, bytes: usize, mut original: impl FnMut() -> Seen, mut port: impl FnMut() -> Seen) {
    assert_eq!(original(), port(), "{call}, {data}");
    let times = best(
        turns,
        [
            &mut || {
                original();
            },
            &mut || {
                port();
            },
        ],
    );
    print(call, data, bytes, times);
}

pub fn run(turns: usize, random: &mut Random) {
    let room = RefCell::new(vec![0u8; SIZE]);
    for (name, s) in streams(random) {
        let nal = readable(&s);
        let stream = in_units(&nal);
        // each unit as a vector, then the same with its payload
        row(
            turns,
            "units",
            name,
            stream.len(),
            || accumulated(&stream[..], |nal| vector(&nal).len()),
            || dampfeather::units(&stream[..]).fold((0, 0), |seen, unit| (seen.0 + 1, seen.1 + unit.unwrap().len())),
        );
        row(
            turns,
            "units+decode",
            name,
            stream.len(),
            || accumulated(&stream[..], |nal| rbsp::decode_nal(&vector(&nal)).unwrap().len()),
            || {
                dampfeather::units(&stream[..])
                    .fold((0, 0), |seen, unit| (seen.0 + 1, seen.1 + dampfeather::decode_nal(&unit.unwrap()).unwrap().len()))
            },
        );
        // each unit lent, then the same with its payload in a room of the caller's
        row(turns, "next_unit", name, stream.len(), || accumulated(&stream[..], looked_at), || lent(dampfeather::units(&stream[..]), <[u8]>::len));
        let payload = |nal: RefNal<'_>| {
            let mut bytes = nal.rbsp_bytes();
            let mut room = room.borrow_mut();
            let mut filled = 0;
            loop {
                match bytes.read(&mut room[filled..]).unwrap() {
                    0 => return filled,
                    n => filled += n,
                }
            }
        };
        row(
            turns,
            "next+decode",
            name,
            stream.len(),
            || accumulated(&stream[..], payload),
            || {
                let mut room = room.borrow_mut();
                lent(dampfeather::units(&stream[..]), |unit| dampfeather::decode_nal_into(unit, &mut room).unwrap().len())
            },
        );
        let drain = |reader: &mut dyn Read| {
            let mut room = room.borrow_mut();
            let mut seen = (0, 0);
            loop {
                match reader.read(&mut room[..CHUNK]).unwrap() {
                    0 => return seen,
                    n => seen.1 += n,
                }
            }
        };
        row(
            turns,
            "io::Read",
            name,
            nal.len(),
            || drain(&mut rbsp::ByteReader::without_skip(&nal[..])),
            || drain(&mut UnescapingReader::without_skip(&nal[..])),
        );
        let half = &s[..SIZE / 2];
        row(
            turns,
            "io::Write",
            name,
            half.len(),
            || {
                let mut room = room.borrow_mut();
                let mut writer = rbsp::ByteWriter::new(&mut room[..]);
                writer.write_all(half).unwrap();
                (0, SIZE - writer.into_writer().len())
            },
            || {
                let mut room = room.borrow_mut();
                let mut writer = EscapingWriter::new(&mut room[..]);
                writer.write_all(half).unwrap();
                writer.flush().unwrap();
                (0, SIZE - writer.into_parts().0.len())
            },
        );
    }
}
