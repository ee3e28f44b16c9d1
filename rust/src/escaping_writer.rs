//! A `std::io::Write` that escapes.
use crate::ByteWriter;
use std::io::{self, Write};

/// Escaped bytes that are held, at least: enough that the writer behind gets large pieces.
const ROOM: usize = 64 * 1024;

/// Escapes what is written to it, and writes that on: h264-reader's `ByteWriter<W>`, with a buffer.
///
/// ```
/// use dampfeather::EscapingWriter;
/// use std::io::Write;
///
/// let mut stream = EscapingWriter::new(Vec::new());
/// stream.write_unescaped(b"\x00\x00\x01\x68")?;
/// stream.write_all(b"\x12\x00\x00\x00\x86")?;
/// stream.write_unescaped(b"\x00\x00\x01\x09")?;
/// stream.write_all(b"\x10")?;
/// stream.flush()?;
/// assert_eq!(stream.into_parts().0, b"\x00\x00\x01\x68\x12\x00\x00\x03\x00\x86\x00\x00\x01\x09\x10");
/// # Ok::<(), std::io::Error>(())
/// ```
///
/// `write` answers how many bytes it took: those are escaped and held, and go on in one piece with others when the buffer is full, or by `flush`.
/// The writer behind may take any part of a piece, or fail: what it took is not given to it again, and the rest waits. A `write` that fails took
/// nothing. So who calls `write` or `flush` again goes on where it was; `Interrupted` is not told. (After a failed `write_all` nobody knows how
/// much of its bytes was taken: that is so with every writer.)
///
/// Dropping it writes what is held, but cannot tell a failure, and does not flush the writer behind: call `flush` before.
pub struct EscapingWriter<W: Write> {
    /// there until `into_parts`
    inner: Option<W>,
    writer: ByteWriter,
    /// `room[start..end]` is held
    room: Vec<u8>,
    start: usize,
    end: usize,
    /// within a call of the writer behind: where that panics nobody knows what it took, and dropping this must not give it again
    calling: bool,
}

impl<W: Write> EscapingWriter<W> {
    /// Of the start of an RBSP.
    pub fn new(inner: W) -> Self {
        EscapingWriter { inner: Some(inner), writer: ByteWriter::new(), room: vec![0; ROOM], start: 0, end: 0, calling: false }
    }

    /// The writer behind. What is written to it here comes before the bytes that are held.
    pub fn writer(&mut self) -> &mut W {
        self.inner.as_mut().expect("it is there until into_parts, which takes this away")
    }

    /// The writer behind, and the escaped bytes that it has not got: none after a `flush` that was well.
    pub fn into_parts(mut self) -> (W, Vec<u8>) {
        let held = self.room[self.start..self.end].to_vec();
        let inner = self.inner.take().expect("it is there until here");
        (inner, held)
    }

    /// Bytes that go on as they are, such as a start code and a header. Behind them escaping starts anew, as for a new RBSP. All are taken, or none
    /// where this fails.
    pub fn write_unescaped(&mut self, bytes: &[u8]) -> io::Result<()> {
        if self.room.len() - self.end < bytes.len() {
            self.drain()?;
            self.room.resize(bytes.len().max(ROOM), 0);
        }
        self.room[self.end..self.end + bytes.len()].copy_from_slice(bytes);
        self.end += bytes.len();
        self.writer = ByteWriter::new();
        Ok(())
    }

    /// Writes what is held.
    fn drain(&mut self) -> io::Result<()> {
        let Some(inner) = &mut self.inner else { return Ok(()) };
        while self.start < self.end {
            self.calling = true;
            let written = inner.write(&self.room[self.start..self.end]);
            self.calling = false;
            match written {
                Ok(0) => return Err(io::ErrorKind::WriteZero.into()),
                Ok(n) => self.start += n,
                Err(e) if e.kind() == io::ErrorKind::Interrupted => {}
                Err(e) => return Err(e),
            }
        }
        (self.start, self.end) = (0, 0);
        Ok(())
    }
}

impl<W: Write> Write for EscapingWriter<W> {
    fn write(&mut self, buf: &[u8]) -> io::Result<usize> {
        // a byte needs room for two
        if self.room.len() - self.end < 2 {
            self.drain()?;
        }
        // a lent slice has its limit: no more of either than one call is to do
        let chunk = &buf[..buf.len().min(ROOM)];
        let until = self.room.len().min(self.end + 2 * ROOM);
        let pushed = self.writer.push(chunk, &mut self.room[self.end..until])?;
        self.end += pushed.written;
        Ok(pushed.taken)
    }

    fn flush(&mut self) -> io::Result<()> {
        self.drain()?;
        self.writer().flush()
    }
}

impl<W: Write> Drop for EscapingWriter<W> {
    fn drop(&mut self) {
        if !self.calling {
            let _ = self.drain();
        }
    }
}

#[cfg(test)]
mod tests {
    use super::EscapingWriter;
    use crate::ByteWriter;
    use std::io::Write;

    /// The library refuses nothing that is asked here. If it did, nothing would be taken.
    #[test]
    fn a_refusal_takes_nothing() {
        let mut writer = EscapingWriter::new(Vec::new());
        writer.write_all(b"\x00\x00").unwrap();
        let state = std::mem::replace(&mut writer.writer, ByteWriter { zero_count: 3 });
        assert!(writer.write(b"\x01").is_err());
        writer.writer = state;
        writer.write_all(b"\x02").unwrap();
        writer.flush().unwrap();
        assert_eq!(writer.into_parts().0, b"\x00\x00\x03\x02");
    }
}
