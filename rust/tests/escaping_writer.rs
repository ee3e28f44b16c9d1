//! `EscapingWriter`: a writer behind it that fails between any two bytes or takes few, and what dropping does.
mod common;
use common::{escaped, places, Sink, PASSING};
use dampfeather::EscapingWriter;
use std::io::{self, ErrorKind, Write};
use std::panic::{catch_unwind, AssertUnwindSafe};

const RBSPS: [&[u8]; 4] = [b"", b"\x12\x00\x00\x00\x86", b"\x00\x00\x00\x00\x00\x00", b"\x01\x00\x00\x03\x00\x00\x02\x04\x00\x00"];

/// Asks again until it is well. Errors that were told are counted.
fn insist<T>(told: &mut usize, mut call: impl FnMut() -> io::Result<T>) -> T {
    loop {
        match call() {
            Ok(answer) => return answer,
            Err(_) => *told += 1,
        }
    }
}

#[test]
fn errors_between_any_two_bytes_lose_and_double_nothing() {
    for kind in PASSING {
        for rbsp in RBSPS {
            let nal = escaped(rbsp);
            for faults in places(nal.len()).into_iter().filter(|f| f.last() != Some(&nal.len())) {
                for piece in [1, 2, usize::MAX] {
                    for flush_each in [false, true] {
                        let mut told = 0;
                        let mut writer = EscapingWriter::new(Sink::new(piece, faults.clone(), kind));
                        for byte in rbsp {
                            assert_eq!(insist(&mut told, || writer.write(&[*byte])), 1);
                            if flush_each {
                                insist(&mut told, || writer.flush());
                            }
                        }
                        insist(&mut told, || writer.flush());
                        let (sink, held) = writer.into_parts();
                        assert_eq!((&sink.got, &held), (&nal, &vec![]), "{kind:?} {rbsp:02X?} {faults:?} {piece}");
                        assert_eq!(told, if kind == ErrorKind::Interrupted { 0 } else { faults.len() });
                        assert!(sink.flushed > 0);
                    }
                }
            }
        }
    }
}

/// A full buffer before a writer that fails: what `write` took is there, once, and what it did not take is not.
#[test]
fn full_buffers() {
    let rbsp = [0, 0, 0, 1, 2, 0, 0, 3, 0, 9].repeat(60_000);
    let faults = (0..900_000).step_by(9_973);
    for piece in [1_000, 50_000, usize::MAX] {
        let mut writer = EscapingWriter::new(Sink::new(piece, faults.clone(), ErrorKind::WouldBlock));
        let (mut taken, mut told) = (0, 0);
        while taken < rbsp.len() {
            taken += match writer.write(&rbsp[taken..]) {
                Ok(n) => n,
                Err(e) => {
                    assert_eq!(e.kind(), ErrorKind::WouldBlock);
                    told += 1;
                    // nothing was taken, and nothing is held twice
                    assert!(escaped(&rbsp[..taken]).starts_with(&writer.writer().got));
                    0
                }
            }
        }
        insist(&mut told, || writer.flush());
        assert!(told > 50);
        assert!(writer.into_parts().0.got == escaped(&rbsp));
    }
}

#[test]
fn what_was_not_written_comes_with_the_writer() {
    let mut writer = EscapingWriter::new(Sink::new(2, [2], ErrorKind::WouldBlock));
    assert_eq!(writer.write(b"\x12\x00\x00\x01").unwrap(), 4);
    assert_eq!(writer.flush().unwrap_err().kind(), ErrorKind::WouldBlock);
    let (sink, held) = writer.into_parts();
    assert_eq!((&sink.got[..], &held[..]), (&b"\x12\x00"[..], &b"\x00\x03\x01"[..]));
}

#[test]
fn a_writer_that_takes_nothing() {
    let mut room = [0; 3];
    let mut writer = EscapingWriter::new(&mut room[..]);
    writer.write_all(b"\x12\x34\x00\x00\x00").unwrap();
    assert_eq!(writer.flush().unwrap_err().kind(), ErrorKind::WriteZero);
    assert_eq!(writer.into_parts().1, b"\x00\x03\x00");
    assert_eq!(room, *b"\x12\x34\x00");
}

/// Start codes stay as they are, and zeros before them do not count behind them.
#[test]
fn units_behind_start_codes() {
    let mut writer = EscapingWriter::new(Vec::new());
    writer.write_all(b"\x68\x00\x00").unwrap();
    writer.write_unescaped(b"\x00\x00\x01\x09\x00\x00").unwrap();
    writer.write_all(b"\x01").unwrap();
    writer.flush().unwrap();
    assert_eq!(writer.into_parts().0, b"\x68\x00\x00\x00\x00\x01\x09\x00\x00\x01");
}

/// All or nothing, however long, and escaping goes on in a room that has grown.
#[test]
fn long_unescaped_pieces() {
    let piece = vec![0; 20_000_000];
    let mut writer = EscapingWriter::new(Sink::new(usize::MAX, [1], ErrorKind::TimedOut));
    writer.write_all(b"\x00\x00\x00").unwrap();
    assert_eq!(writer.write_unescaped(&piece).unwrap_err().kind(), ErrorKind::TimedOut);
    assert_eq!(writer.write(b"\x00").unwrap(), 1);
    writer.write_unescaped(&piece).unwrap();
    writer.write_all(b"\x00\x00\x00").unwrap();
    writer.flush().unwrap();
    let expected = [&b"\x00\x00\x03\x00\x00"[..], &piece, b"\x00\x00\x03\x00"].concat();
    assert!(writer.into_parts().0.got == expected);
}

#[test]
fn dropping_writes_what_is_held() {
    let mut sink = Sink::new(1, [3], ErrorKind::Interrupted);
    EscapingWriter::new(&mut sink).write_all(b"\x00\x00\x01").unwrap();
    assert_eq!((&sink.got[..], sink.flushed), (&b"\x00\x00\x03\x01"[..], 0));

    // a failure is not told: the rest is lost
    let mut sink = Sink::new(1, [3], ErrorKind::BrokenPipe);
    EscapingWriter::new(&mut sink).write_all(b"\x00\x00\x01").unwrap();
    assert_eq!(sink.got, b"\x00\x00\x03");
}

/// A writer that took bytes and then panicked is not given them again.
#[test]
fn a_panic_doubles_nothing() {
    struct Panics<'a>(&'a mut Vec<u8>);
    impl Write for Panics<'_> {
        fn write(&mut self, buf: &[u8]) -> io::Result<usize> {
            self.0.extend(buf);
            panic!("behind the bytes")
        }
        fn flush(&mut self) -> io::Result<()> {
            Ok(())
        }
    }
    let mut got = Vec::new();
    let mut writer = EscapingWriter::new(Panics(&mut got));
    writer.write_all(b"\x12").unwrap();
    assert!(catch_unwind(AssertUnwindSafe(|| writer.flush())).is_err());
    drop(writer);
    assert_eq!(got, b"\x12");
}
