//! `ByteReader`, `ByteWriter`, `decode_nal`: every cut, short rooms, saved states, forbidden bytes, refusals.
mod common;
use common::escaped;
use dampfeather::{decode_nal, decode_nal_into, ByteReader, ByteWriter, Error, ParseState, MOST};
use std::borrow::Cow;
use std::num::NonZeroUsize;

/// Every string of at most `most` bytes over those that mean something to escaping, and one that does not.
fn strings(most: usize) -> Vec<Vec<u8>> {
    let mut all = vec![vec![]];
    let mut last = all.clone();
    for _ in 0..most {
        last = last.iter().flat_map(|s| [0, 1, 2, 3, 4].map(|b| [&s[..], &[b]].concat())).collect();
        all.extend(last.clone());
    }
    all
}

/// What is delivered of a NAL, and the index of a forbidden byte (Rec 7.4.1), read from the whole NAL.
fn unescaped(nal: &[u8], skip: usize) -> (Vec<u8>, Option<usize>) {
    // since where zeros count: behind the skipped bytes, or behind the last removed 03
    let (mut rbsp, mut since) = (Vec::new(), skip);
    for i in skip..nal.len() {
        let removed = i == since && i > skip;
        let two_zeros = i >= since + 2 && nal[i - 2..i] == [0, 0];
        match nal[i] {
            b if removed && b > 3 => return (rbsp, Some(i)),
            0..=2 if two_zeros => return (rbsp, Some(i)),
            3 if two_zeros => since = i + 1,
            b => rbsp.push(b),
        }
    }
    (rbsp, None)
}

#[test]
fn reading_under_every_cut() {
    for nal in strings(6) {
        for skip in [0, 1, 3] {
            let (rbsp, forbidden) = unescaped(&nal, skip);
            for cut in 0..=nal.len() {
                for room in [1, 2, 16] {
                    let mut reader = ByteReader::skipping_bytes(skip);
                    let (mut got, mut taken, mut met) = (Vec::new(), 0, false);
                    for until in [cut, nal.len()] {
                        while taken < until && !met {
                            // from a state that was kept
                            reader = ByteReader { state: reader.state };
                            let mut out = vec![0xAA; room];
                            let pushed = reader.push(&nal[taken..until], &mut out).unwrap();
                            assert!(pushed.taken > 0 || pushed.forbidden, "room for one takes a byte");
                            assert!(out[pushed.written..].iter().all(|&b| b == 0xAA));
                            got.extend(&out[..pushed.written]);
                            taken += pushed.taken;
                            met = pushed.forbidden;
                        }
                    }
                    assert_eq!((&got, met.then_some(taken)), (&rbsp, forbidden), "{nal:02X?} {skip} {cut} {room}");
                    assert_eq!(taken, forbidden.unwrap_or(nal.len()));
                    if met {
                        let state = reader.state;
                        let again = reader.push(&nal[taken..], &mut []).unwrap();
                        assert_eq!((again.taken, again.written, again.forbidden, reader.state), (0, 0, true, state));
                    }
                }
            }
        }
    }
}

#[test]
fn writing_under_every_cut() {
    for rbsp in strings(6) {
        for cut in 0..=rbsp.len() {
            for room in [2, 3, 16] {
                let mut writer = ByteWriter::new();
                let (mut got, mut taken) = (Vec::new(), 0);
                for until in [cut, rbsp.len()] {
                    while taken < until {
                        writer = ByteWriter { zero_count: writer.zero_count };
                        let mut out = vec![0xAA; room];
                        let pushed = writer.push(&rbsp[taken..until], &mut out).unwrap();
                        assert!(pushed.taken > 0 && !pushed.forbidden);
                        got.extend(&out[..pushed.written]);
                        taken += pushed.taken;
                    }
                }
                assert_eq!(got, escaped(&rbsp), "{rbsp:02X?} {cut} {room}");
                assert_eq!(unescaped(&got, 0), (rbsp.clone(), None));
            }
        }
    }
}

#[test]
fn the_states_between() {
    let skip = |n| ParseState::Skip(NonZeroUsize::new(n).unwrap());
    let mut reader = ByteReader::skipping_bytes(2);
    assert_eq!(reader.state, skip(2));
    for (byte, state) in [
        (0, skip(1)),
        (0, ParseState::Start(0)),
        (0, ParseState::Start(1)),
        (0, ParseState::Start(2)),
        (3, ParseState::PostThree),
        (0, ParseState::Start(1)),
        (5, ParseState::Start(0)),
    ] {
        reader.push(&[byte], &mut [0; 1]).unwrap();
        assert_eq!(reader.state, state);
    }
    assert_eq!(ByteReader::skipping_bytes(0), ByteReader::without_skip());
    assert_eq!(ByteReader::skipping_bytes(1), ByteReader::skipping_h264_header());
    let mut writer = ByteWriter::new();
    for (byte, zero_count) in [(0, 1), (0, 2), (0, 1), (7, 0)] {
        writer.push(&[byte], &mut [0; 2]).unwrap();
        assert_eq!(writer, ByteWriter { zero_count });
    }
}

#[test]
fn a_refusal_moves_nothing() {
    let mut long = vec![0; MOST + 1];
    for state in [ParseState::Start(2), ParseState::Skip(NonZeroUsize::MAX), ParseState::PostThree] {
        let mut reader = ByteReader { state };
        assert_eq!(reader.push(&long, &mut [0; 1]), Err(Error::TooLong));
        assert_eq!(reader.push(&[1], &mut long), Err(Error::TooLong));
        assert_eq!(reader, ByteReader { state });
    }
    let mut writer = ByteWriter { zero_count: 2 };
    assert_eq!(writer.push(&long, &mut [0; 1]), Err(Error::TooLong));
    assert_eq!(writer.push(&[1], &mut long), Err(Error::TooLong));
    assert_eq!(writer, ByteWriter { zero_count: 2 });
    for bad in [3, 255] {
        let mut out = [0xAA; 4];
        let mut reader = ByteReader { state: ParseState::Start(bad) };
        assert_eq!(reader.push(&[4], &mut out), Err(Error::BadState));
        assert_eq!(reader.state, ParseState::Start(bad));
        let mut writer = ByteWriter { zero_count: bad };
        assert_eq!(writer.push(&[4], &mut out), Err(Error::BadState));
        assert_eq!((writer.zero_count, out), (bad, [0xAA; 4]));
    }
}

#[test]
fn whole_nals() {
    for tail in strings(6) {
        let nal = [&[0x68], &tail[..]].concat();
        let expected = match unescaped(&nal, 1) {
            (rbsp, None) => Ok(rbsp),
            (_, Some(index)) => Err(Error::ForbiddenByte(index)),
        };
        let decoded = decode_nal(&nal);
        assert_eq!(decoded.clone().map(Cow::into_owned), expected);
        if let Ok(decoded) = decoded {
            assert_eq!(matches!(decoded, Cow::Borrowed(_)), decoded == tail, "{nal:02X?}");
        }
        for size in 0..8 {
            let mut room = vec![0xAA; size];
            // what was not removed needs no room
            let shown = match &expected {
                Ok(rbsp) if *rbsp != tail && rbsp.len() > size => Err(Error::NoRoom),
                other => other.clone(),
            };
            assert_eq!(decode_nal_into(&nal, &mut room).map(<[u8]>::to_vec), shown, "{nal:02X?} {size}");
            let filled = shown.map_or(0, |rbsp| if rbsp == tail { 0 } else { rbsp.len() });
            assert!(room[filled..].iter().all(|&b| b == 0xAA));
        }
    }
    assert_eq!(decode_nal(&[]), Err(Error::EmptyNal));
    assert_eq!(decode_nal_into(&[], &mut []), Err(Error::EmptyNal));
    assert_eq!(decode_nal(&vec![1; MOST + 1]), Err(Error::TooLong));
    assert_eq!(decode_nal_into(&[1], &mut vec![0; MOST + 1]), Err(Error::TooLong));
}
