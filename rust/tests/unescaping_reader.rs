//! `UnescapingReader`: sources that fail between any two bytes, forbidden bytes, buffers of any size.
mod common;
use common::{places, Source, PASSING};
use dampfeather::{decode_nal, ByteReader, Error, UnescapingReader, MOST};
use std::io::{BufReader, ErrorKind, Read};

/// NALs with a 03 to remove at every kind of place, two of them at the end, and some with a forbidden byte.
const NALS: [&[u8]; 8] = [
    b"\x68",
    b"\x68\x12\x34\x00\x00\x03\x00\x86",
    b"\x68\x00\x00\x03",
    b"\x00\x00\x00\x03\x00\x00\x03\x01\x00\x00\x03",
    b"\x68\x12\x34\x00\x00\x00\x86",
    b"\x68\x00\x00\x03\x04\x05",
    b"\x00\x00\x00\x01",
    b"\x68\x00\x00\x02",
];

/// Reads to the end or to the refusal through a buffer of that size, again after each passing error: what came, the refusal, and errors told.
fn read(mut reader: impl Read, size: usize) -> (Vec<u8>, Option<Error>, usize) {
    let (mut got, mut told, mut buf) = (Vec::new(), 0, vec![0; size]);
    loop {
        match reader.read(&mut buf) {
            Ok(0) => return (got, None, told),
            Ok(n) => got.extend(&buf[..n]),
            Err(e) if e.kind() == ErrorKind::InvalidData => return (got, Some(e.downcast::<Error>().unwrap()), told),
            Err(_) => told += 1,
        }
    }
}

/// What one push into enough room delivers, and the forbidden byte as `ByteReader` tells it.
fn expected(nal: &[u8], skip: usize) -> (Vec<u8>, Option<Error>) {
    let mut out = vec![0; nal.len()];
    let pushed = ByteReader::skipping_bytes(skip).push(nal, &mut out).unwrap();
    out.truncate(pushed.written);
    (out, pushed.forbidden.then_some(Error::ForbiddenByte(pushed.taken)))
}

#[test]
fn errors_between_any_two_bytes_lose_nothing() {
    for kind in PASSING {
        for nal in NALS {
            for skip in [0, 1, 2] {
                let (rbsp, refusal) = expected(nal, skip);
                for faults in places(nal.len()) {
                    for size in [1, 2, 64] {
                        let mut reader = UnescapingReader::skipping_bytes(Source::new(nal, faults.clone(), kind), skip);
                        let (got, met, told) = read(&mut reader, size);
                        assert_eq!((&got, met), (&rbsp, refusal), "{kind:?} {nal:02X?} {skip} {faults:?} {size}");
                        let source = reader.into_reader();
                        assert_eq!(told, if kind == ErrorKind::Interrupted { 0 } else { source.failed });
                        if met.is_none() {
                            assert_eq!(source.failed, faults.len());
                        }
                    }
                }
            }
        }
    }
}

#[test]
fn the_index_is_that_of_the_whole_nal() {
    for nal in NALS {
        let (_, refusal, _) = read(UnescapingReader::skipping_h264_header(nal), 1);
        assert_eq!(refusal, decode_nal(nal).err());
    }
    let (_, refusal, _) = read(UnescapingReader::without_skip(&b"\x00\x00\x01"[..]), 1);
    assert_eq!(refusal, Some(Error::ForbiddenByte(2)));
}

#[test]
fn a_forbidden_byte_is_told_again_and_not_consumed() {
    let mut reader = UnescapingReader::skipping_h264_header(&b"\x68\x12\x00\x00\x01\x41"[..]);
    assert_eq!(read(&mut reader, 64), (b"\x12\x00\x00".to_vec(), Some(Error::ForbiddenByte(4)), 0));
    assert_eq!(read(&mut reader, 64), (vec![], Some(Error::ForbiddenByte(4)), 0));
    assert_eq!(*reader.reader(), b"\x01\x41");
    assert_eq!(reader.into_reader(), b"\x01\x41");
}

#[test]
fn no_room_reads_nothing() {
    let mut reader = UnescapingReader::without_skip(&b"\x00\x00\x01"[..]);
    assert_eq!(reader.read(&mut []).unwrap(), 0);
    assert_eq!(reader.into_reader().len(), 3);
}

/// Buffers and slices that are longer than a lent slice may be.
#[test]
fn longer_than_a_lent_slice() {
    let nal = [0x68, 0, 0, 3, 1].repeat(4_000_000);
    let rbsp = [0, 0, 1, 0x68].repeat(4_000_000);
    let mut reader = UnescapingReader::skipping_h264_header(&nal[..]);
    let mut buf = vec![0; nal.len()];
    let first = reader.read(&mut buf).unwrap();
    assert!(0 < first && first <= MOST);
    let mut got = buf[..first].to_vec();
    reader.read_to_end(&mut got).unwrap();
    assert!(got == rbsp[..rbsp.len() - 1]);

    let mut got = Vec::new();
    UnescapingReader::skipping_h264_header(BufReader::with_capacity(7, &nal[..500_000])).read_to_end(&mut got).unwrap();
    assert!(got == rbsp[..400_000 - 1]);
}
