//! The units of a stream that is read.
use crate::AnnexBReader;
use std::io::{self, Read};

/// Bytes asked of the stream at a time.
const CHUNK: usize = 64 * 1024;
/// Units that end in one push, at most. Where more do, the rest of the chunk waits.
const MARKS: usize = 256;

/// The units of a stream: see [`units()`].
pub struct Units<R> {
    stream: R,
    /// what was read; `chunk[taken..read]` was not taken yet
    chunk: Box<[u8]>,
    taken: usize,
    read: usize,
    reader: AnnexBReader,
    /// bytes of units: `room[start..filled]` are those of the units that wait, and behind them of the open one
    room: Vec<u8>,
    start: usize,
    filled: usize,
    /// `marks[next..marked]` are the places in the room where the waiting units end
    marks: Box<[u64]>,
    next: usize,
    marked: usize,
    ended: bool,
}

/// The units of an Annex B stream, each as its bytes, empty ones too. The last one is ended by the end of the stream.
///
/// As an iterator it gives each unit as a vector:
///
/// ```
/// let stream = b"\x00\x00\x01\x68\x80\x00\x00\x01\x41\x9A";
/// let units: Vec<_> = dampfeather::units(&stream[..]).map(Result::unwrap).collect();
/// assert_eq!(units, [[0x68, 0x80], [0x41, 0x9A]]);
/// ```
///
/// [`next_unit`](Units::next_unit) lends the bytes instead. Nothing is lost by an error of the stream, such as that of a socket that would block or
/// timed out: it is told once the units before it are given, and who asks again goes on where it was. `Interrupted` is not told. After the stream's
/// end there is `None` for ever.
///
/// A unit is held whole in memory, and may be of any length. To limit that, use [`AnnexBReader`].
pub fn units<R: Read>(stream: R) -> Units<R> {
    Units {
        stream,
        chunk: vec![0; CHUNK].into(),
        taken: 0,
        read: 0,
        reader: AnnexBReader::new(),
        room: Vec::new(),
        start: 0,
        filled: 0,
        marks: vec![0; MARKS].into(),
        next: 0,
        marked: 0,
        ended: false,
    }
}

impl<R> Units<R> {
    /// The stream, for instance to wait until it is ready. What is read from it here is missing from the units.
    pub fn reader(&mut self) -> &mut R {
        &mut self.stream
    }
}

impl<R: Read> Units<R> {
    /// The bytes of the next unit, lent until the next call; `None` after the last. No vector is made for a unit.
    ///
    /// ```
    /// use std::io::{Error, ErrorKind, Read};
    ///
    /// // a socket with nothing to give between two packets
    /// struct Socket(Vec<Option<&'static [u8]>>);
    /// impl Read for Socket {
    ///     fn read(&mut self, buf: &mut [u8]) -> std::io::Result<usize> {
    ///         match self.0.pop() {
    ///             Some(Some(packet)) => (&packet[..]).read(buf),
    ///             Some(None) => Err(Error::from(ErrorKind::WouldBlock)),
    ///             None => Ok(0),
    ///         }
    ///     }
    /// }
    ///
    /// let mut units = dampfeather::units(Socket(vec![Some(b"\x42\x00\x00\x01\x41"), None, Some(b"\x00\x00\x01\x68")]));
    /// let mut lengths = Vec::new();
    /// loop {
    ///     match units.next_unit() {
    ///         Ok(Some(unit)) => lengths.push(unit.len()),
    ///         Ok(None) => break,
    ///         Err(e) if e.kind() == ErrorKind::WouldBlock => {} // wait here
    ///         Err(e) => panic!("{e}"),
    ///     }
    /// }
    /// assert_eq!(lengths, [2, 1]);
    /// ```
    pub fn next_unit(&mut self) -> io::Result<Option<&[u8]>> {
        while self.next == self.marked {
            if self.ended {
                return Ok(None);
            }
            self.advance()?;
        }
        let unit = self.start..self.marks[self.next] as usize;
        self.start = unit.end;
        self.next += 1;
        Ok(Some(&self.room[unit]))
    }

    /// No unit waits: one more call of the reader, on what was read, or at the end. What was read stays until it is taken, so that an error loses
    /// nothing.
    fn advance(&mut self) -> io::Result<()> {
        if self.taken == self.read {
            match self.stream.read(&mut self.chunk) {
                Ok(read) => (self.taken, self.read) = (0, read),
                Err(e) if e.kind() == io::ErrorKind::Interrupted => return Ok(()),
                Err(e) => return Err(e),
            }
        }
        // the open unit goes to the front: at most once for each unit, since `start` moves only when one was given
        if self.start > 0 {
            self.room.copy_within(self.start..self.filled, 0);
            (self.start, self.filled) = (0, self.filled - self.start);
        }
        // with the two zeros that may be held: room never stops a push, and no more is lent, since a lent slice has its limit
        let most = self.filled + (self.read - self.taken) + 2;
        if self.room.len() < most {
            self.room.resize(most.max(2 * self.room.len()), 0);
        }
        let room = &mut self.room[self.filled..most];
        let framed = match self.read {
            0 => self.reader.reset(room, &mut self.marks)?,
            read => self.reader.push(&self.chunk[self.taken..read], room, &mut self.marks)?,
        };
        for mark in &mut self.marks[..framed.marks] {
            *mark += self.filled as u64;
        }
        (self.next, self.marked) = (0, framed.marks);
        self.filled += framed.written;
        self.taken += framed.taken;
        self.ended = self.read == 0;
        Ok(())
    }
}

impl<R: Read> Iterator for Units<R> {
    type Item = io::Result<Vec<u8>>;

    fn next(&mut self) -> Option<Self::Item> {
        self.next_unit().map(|unit| unit.map(<[u8]>::to_vec)).transpose()
    }
}

impl<R: Read> std::iter::FusedIterator for Units<R> {}

#[cfg(test)]
mod tests {
    use super::units;
    use crate::{AnnexBReader, Error};

    /// The library refuses nothing that is asked here. If it did, what was read would wait.
    #[test]
    fn a_refusal_loses_nothing() {
        let mut units = units(&b"\x00\x00\x01\x68\x42\x00\x00\x01\x41"[..]);
        for _ in 0..2 {
            units.reader = AnnexBReader { in_unit: false, zeros: 3 };
            assert_eq!(units.next_unit().unwrap_err().downcast::<Error>().unwrap(), Error::BadState);
        }
        units.reader = AnnexBReader::new();
        assert_eq!(units.next_unit().unwrap(), Some(&b"\x68\x42"[..]));
        let open = std::mem::replace(&mut units.reader, AnnexBReader { in_unit: true, zeros: 3 });
        assert!(units.next_unit().is_err(), "at the end too");
        units.reader = open;
        assert_eq!(units.next_unit().unwrap(), Some(&b"\x41"[..]));
        assert_eq!(units.next_unit().unwrap(), None);
    }
}
