//! `AnnexBReader`: every cut, short rooms, saved states, refusals.
mod common;
use common::{framed, places, STREAMS};
use dampfeather::{AnnexBReader, Error, MOST};

/// The units of the chunks, pushed one after another into rooms of that size, and closed by a reset. The reader is made anew from its numbers
/// before every call.
fn pushed(chunks: &[&[u8]], room: usize, marks: usize) -> Vec<Vec<u8>> {
    let (mut units, mut open) = (Vec::new(), Vec::new());
    let mut take = |bytes: &[u8], marks: &[u64]| {
        let mut from = 0;
        for &mark in marks {
            open.extend_from_slice(&bytes[from..mark as usize]);
            from = mark as usize;
            units.push(std::mem::take(&mut open));
        }
        open.extend_from_slice(&bytes[from..]);
    };
    let (mut bytes, mut ends) = (vec![0; room], vec![0; marks]);
    let mut reader = AnnexBReader::new();
    for chunk in chunks {
        let mut rest = *chunk;
        while !rest.is_empty() {
            reader = AnnexBReader { in_unit: reader.in_unit, zeros: reader.zeros };
            let framed = reader.push(rest, &mut bytes, &mut ends).unwrap();
            assert!(framed.taken > 0, "3 bytes and 1 mark take a byte");
            take(&bytes[..framed.written], &ends[..framed.marks]);
            rest = &rest[framed.taken..];
        }
    }
    let framed = reader.reset(&mut bytes, &mut ends).unwrap();
    take(&bytes[..framed.written], &ends[..framed.marks]);
    assert_eq!(reader, AnnexBReader::new());
    assert!(open.is_empty());
    units
}

#[test]
fn every_cut_and_short_rooms() {
    for stream in STREAMS {
        for cuts in places(stream.len()) {
            let mut chunks = Vec::new();
            let mut from = 0;
            for cut in cuts {
                chunks.push(&stream[from..cut]);
                from = cut;
            }
            chunks.push(&stream[from..]);
            for (room, marks) in [(3, 1), (4, 1), (5, 2), (64, 1), (64, 64)] {
                assert_eq!(pushed(&chunks, room, marks), framed(stream), "{chunks:02X?} {room} {marks}");
            }
        }
    }
}

#[test]
fn what_is_held_is_the_state() {
    let mut reader = AnnexBReader::new();
    let (mut room, mut marks) = ([0; 8], [0; 2]);
    for (byte, in_unit, zeros) in
        [(0, false, 1), (0, false, 2), (1, true, 0), (0x68, true, 0), (0, true, 1), (0, true, 2), (0, false, 2), (1, true, 0)]
    {
        reader.push(&[byte], &mut room, &mut marks).unwrap();
        assert_eq!(reader, AnnexBReader { in_unit, zeros });
    }
}

#[test]
fn a_refusal_moves_nothing() {
    let long = vec![0; MOST + 1];
    let mut long_room = long.clone();
    let mut long_marks = vec![0; MOST + 1];
    for in_unit in [false, true] {
        for zeros in 0..=2 {
            let reader = AnnexBReader { in_unit, zeros };
            let mut tried = reader.clone();
            assert_eq!(tried.push(&long, &mut [], &mut []), Err(Error::TooLong));
            assert_eq!(tried.push(&[1], &mut long_room, &mut []), Err(Error::TooLong));
            assert_eq!(tried.push(&[1], &mut [], &mut long_marks), Err(Error::TooLong));
            assert_eq!(tried.reset(&mut long_room, &mut []), Err(Error::TooLong));
            assert_eq!(tried, reader);
            if in_unit {
                let mut room = vec![0xAA; zeros as usize];
                assert_eq!(tried.reset(&mut room, &mut []), Err(Error::NoRoom));
                if zeros > 0 {
                    assert_eq!(tried.reset(&mut room[1..], &mut [9]), Err(Error::NoRoom));
                }
                assert_eq!((tried, room), (reader, vec![0xAA; zeros as usize]));
            }
        }
    }
    for bad in [3, 4, 255] {
        let mut tried = AnnexBReader { in_unit: true, zeros: bad };
        let (mut room, mut marks) = ([0xAA; 4], [9; 2]);
        assert_eq!(tried.push(&[1], &mut room, &mut marks), Err(Error::BadState));
        assert_eq!(tried.reset(&mut room, &mut marks), Err(Error::BadState));
        assert_eq!((tried, room, marks), (AnnexBReader { in_unit: true, zeros: bad }, [0xAA; 4], [9; 2]));
    }
}
