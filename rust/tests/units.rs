//! Units of a source that fails: none is lost, none is given twice, and no error is swallowed.
mod common;
use common::{framed, places, Source, PASSING, STREAMS};
use dampfeather::units;
use std::io::{self, ErrorKind, Read};

/// All units, by the iterator and by the lending call, and how many errors were told.
fn read(source: Source<'_>, lending: bool) -> (Vec<Vec<u8>>, usize) {
    let mut units = units(source);
    let (mut given, mut told) = (Vec::new(), 0);
    loop {
        let next = if lending { units.next_unit().map(|unit| unit.map(<[u8]>::to_vec)) } else { units.next().transpose() };
        match next {
            Ok(Some(unit)) => given.push(unit),
            Ok(None) => break,
            Err(_) => told += 1,
        }
    }
    assert!(units.next().is_none() && units.next_unit().unwrap().is_none(), "more behind the end");
    assert_eq!(units.reader().rest(), b"", "bytes were not read");
    (given, told)
}

#[test]
fn the_rule_of_these_tests_is_the_documents() {
    assert_eq!(framed(b"\x00\x00\x01\x68\x80\x00\x00\x01\x41\x9A"), [b"\x68\x80", b"\x41\x9A"]);
    assert_eq!(framed(b"\x00\x00\x01\x00\x00\x01"), [b"", b""]);
    assert_eq!(framed(b"\x00\x00\x01\x68\x00\x00"), [b"\x68\x00\x00"]);
    assert_eq!(framed(b"\x00\x00\x01\x68\x00\x00\x00\x00\x01"), [&b"\x68"[..], b""]);
}

#[test]
fn errors_between_any_two_bytes_lose_nothing() {
    for kind in PASSING {
        for stream in STREAMS {
            for faults in places(stream.len()) {
                for lending in [false, true] {
                    let (given, told) = read(Source::new(stream, faults.clone(), kind), lending);
                    assert_eq!(given, framed(stream), "{kind:?} {stream:02X?} {faults:?}");
                    let expected = if kind == ErrorKind::Interrupted { 0 } else { faults.len() };
                    assert_eq!(told, expected, "{kind:?} {stream:02X?} {faults:?}");
                }
            }
        }
    }
}

#[test]
fn a_source_that_ends_after_an_error() {
    let stream = b"\x00\x00\x01\x68\x42\x00\x00\x01\x41\x00";
    let mut units = units(Source::new(stream, [stream.len()], ErrorKind::ConnectionReset));
    assert_eq!(units.next_unit().unwrap(), Some(&b"\x68\x42"[..]));
    assert_eq!(units.next_unit().unwrap_err().kind(), ErrorKind::ConnectionReset);
    assert_eq!(units.next_unit().unwrap(), Some(&b"\x41\x00"[..]));
    assert_eq!(units.next_unit().unwrap(), None);
    assert_eq!(units.next_unit().unwrap(), None);
}

#[test]
fn units_before_an_error_come_before_it() {
    let stream = b"\x00\x00\x01\x68\x00\x00\x01\x00\x00\x01\x41\x00\x00\x01\x09";
    let mut units = units(Source::new(stream, [stream.len()], ErrorKind::WouldBlock));
    let mut given = Vec::new();
    let error = loop {
        match units.next().unwrap() {
            Ok(unit) => given.push(unit),
            Err(e) => break e,
        }
    };
    assert_eq!(given, [&b"\x68"[..], b"", b"\x41"]);
    assert_eq!(error.kind(), ErrorKind::WouldBlock);
    assert_eq!(units.next().unwrap().unwrap(), b"\x09");
    assert!(units.next().is_none());
}

/// The end is the source's first answer of 0 bytes: it is not asked again.
#[test]
fn the_end_is_the_end() {
    struct Twice(u8);
    impl Read for Twice {
        fn read(&mut self, buf: &mut [u8]) -> io::Result<usize> {
            self.0 += 1;
            match self.0 {
                1 => (&b"\x00\x00\x01\x68"[..]).read(buf),
                2 => Ok(0),
                _ => panic!("asked again after its end"),
            }
        }
    }
    let mut units = units(Twice(0));
    assert_eq!(units.next().unwrap().unwrap(), b"\x68");
    assert!(units.next().is_none() && units.next().is_none());
    assert_eq!(units.reader().0, 2);
}

/// More units than a push has marks, units across many reads, and one that is longer than a lent slice may be.
#[test]
fn many_and_long_units() {
    let mut stream = Vec::new();
    let mut expected = Vec::new();
    for i in 0..3000 {
        let unit: Vec<u8> = (0..i % 7).map(|k| 1 + (i + k) as u8 % 255).collect();
        stream.extend([0, 0, 1]);
        stream.extend(&unit);
        expected.push(unit);
    }
    for length in [65_535, 65_536, 65_537, 200_000, 16_777_216, 40_000_000, 5] {
        let unit: Vec<u8> = (0..length).map(|k| 1 + (k % 251) as u8).collect();
        stream.extend([0, 0, 0, 1]);
        stream.extend(&unit);
        expected.push(unit);
    }
    let mut lent = units(&stream[..]);
    for (i, unit) in expected.iter().enumerate() {
        assert!(lent.next_unit().unwrap() == Some(unit), "unit {i}");
    }
    assert!(lent.next_unit().unwrap().is_none());
    assert!(units(&stream[..]).map(Result::unwrap).eq(expected));
}
