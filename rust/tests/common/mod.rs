//! Sources and writers that fail, and the rules as a reader of the Recommendation would write them down, to hold the crate against.
#![allow(dead_code)]
use std::collections::BTreeSet;
use std::io::{self, BufRead, ErrorKind, Read, Write};

/// Errors of a socket or a file that say nothing of its end.
pub const PASSING: [ErrorKind; 4] = [ErrorKind::WouldBlock, ErrorKind::TimedOut, ErrorKind::Interrupted, ErrorKind::Other];

/// Gives the bytes in order. At each place of `faults` it fails, once, before the byte there (or the end) is given.
pub struct Source<'a> {
    bytes: &'a [u8],
    at: usize,
    faults: BTreeSet<usize>,
    kind: ErrorKind,
    /// how often it failed
    pub failed: usize,
}

impl<'a> Source<'a> {
    pub fn new(bytes: &'a [u8], faults: impl IntoIterator<Item = usize>, kind: ErrorKind) -> Self {
        Source { bytes, at: 0, faults: faults.into_iter().collect(), kind, failed: 0 }
    }

    pub fn rest(&self) -> &'a [u8] {
        &self.bytes[self.at..]
    }
}

impl BufRead for Source<'_> {
    fn fill_buf(&mut self) -> io::Result<&[u8]> {
        if self.faults.remove(&self.at) {
            self.failed += 1;
            return Err(self.kind.into());
        }
        let until = self.faults.first().map_or(self.bytes.len(), |&fault| fault.min(self.bytes.len()));
        Ok(&self.bytes[self.at..until])
    }

    fn consume(&mut self, n: usize) {
        self.at += n;
    }
}

impl Read for Source<'_> {
    fn read(&mut self, buf: &mut [u8]) -> io::Result<usize> {
        let given = self.fill_buf()?.read(buf)?;
        self.consume(given);
        Ok(given)
    }
}

/// Takes at most `piece` bytes at a time. Before each byte of `faults` it fails, once.
pub struct Sink {
    pub got: Vec<u8>,
    piece: usize,
    faults: BTreeSet<usize>,
    kind: ErrorKind,
    pub flushed: usize,
}

impl Sink {
    pub fn new(piece: usize, faults: impl IntoIterator<Item = usize>, kind: ErrorKind) -> Self {
        Sink { got: Vec::new(), piece, faults: faults.into_iter().collect(), kind, flushed: 0 }
    }
}

impl Write for Sink {
    fn write(&mut self, buf: &[u8]) -> io::Result<usize> {
        let at = self.got.len();
        if self.faults.remove(&at) {
            return Err(self.kind.into());
        }
        let until = self.faults.first().map_or(usize::MAX, |&fault| fault - at);
        let taken = buf.len().min(self.piece).min(until);
        self.got.extend_from_slice(&buf[..taken]);
        Ok(taken)
    }

    fn flush(&mut self) -> io::Result<()> {
        self.flushed += 1;
        Ok(())
    }
}

/// Every set of no, one or two places in 0 to `last`, and all of them.
pub fn places(last: usize) -> Vec<Vec<usize>> {
    let mut sets = vec![vec![], (0..=last).collect()];
    for one in 0..=last {
        sets.push(vec![one]);
        sets.extend((one + 1..=last).map(|two| vec![one, two]));
    }
    sets
}

/// The units of a whole stream (Rec B.1): from behind 00 00 01 up to the next 00 00 00 or 00 00 01, or the end.
pub fn framed(stream: &[u8]) -> Vec<Vec<u8>> {
    let place = |s: &[u8], lasts: &[u8]| s.windows(3).position(|w| w[..2] == [0, 0] && lasts.contains(&w[2]));
    let mut units = Vec::new();
    let mut rest = stream;
    while let Some(code) = place(rest, &[1]) {
        let unit = &rest[code + 3..];
        let end = place(unit, &[0, 1]).unwrap_or(unit.len());
        units.push(unit[..end].to_vec());
        rest = &unit[end..];
    }
    units
}

/// An RBSP with a 03 before each byte 00 to 03 that would stand behind two zeros (Rec 7.4.1).
pub fn escaped(rbsp: &[u8]) -> Vec<u8> {
    let mut nal = Vec::new();
    for &b in rbsp {
        // what was written ends in two zeros: one behind a 03 counts from that 03
        if b <= 3 && nal.ends_with(&[0, 0]) {
            nal.push(3);
        }
        nal.push(b);
    }
    nal
}

/// Streams whose every cut tells something: start codes of three and four bytes, empty units, zeros at the end of units and of the stream, bytes
/// before the first start code, escaped zeros.
pub const STREAMS: [&[u8]; 9] = [
    b"",
    b"\x00\x00",
    b"\x68\x42\x00\x01",
    b"\x00\x00\x01",
    b"\x00\x00\x01\x68\x42\x00\x00\x01\x41",
    b"\x00\x00\x01\x00\x00\x01\x00\x00\x00\x01",
    b"\xFF\x00\x00\x00\x01\x68\x00\x00\x03\x00\x86\x00\x00\x00\x09\x00\x00\x01\x10\x00",
    b"\x00\x00\x01\x68\x00\x00",
    b"\x00\x00\x01\x00\x02\x00\x00\x02\x00\x00\x01\x01\x00\x00\x00\x00\x00\x01\x01\x00",
];
