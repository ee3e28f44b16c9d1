//! A `std::io::Read` that unescapes.
use crate::{ByteReader, Error, MOST};
use std::io::{self, BufRead, Read};

/// Reads the RBSP of a NAL of any length: the first bytes are dropped unexamined, then the emulation prevention bytes are removed. It stands where
/// h264-reader has `ByteReader<R>`.
///
/// It holds nothing back: a byte of the source is consumed when it is delivered, dropped or removed. So an error of the source loses nothing, and who
/// reads again goes on where it was; `Interrupted` is not told.
///
/// A forbidden byte (Rec 7.4.1) is told, after all before it was delivered, as an [`io::Error`] of the kind `InvalidData` that carries
/// [`Error::ForbiddenByte`]. Its index is the count of bytes consumed of the source since this reader was made, dropped ones too: in a NAL the
/// index that [`decode_nal`](crate::decode_nal) tells. It is not consumed, so that each further read tells it again.
///
/// ```
/// use dampfeather::{Error, UnescapingReader};
/// use std::io::Read;
///
/// let mut rbsp = Vec::new();
/// UnescapingReader::skipping_h264_header(&b"\x68\x12\x34\x00\x00\x03\x00\x86"[..]).read_to_end(&mut rbsp).unwrap();
/// assert_eq!(rbsp, b"\x12\x34\x00\x00\x00\x86");
///
/// rbsp.clear();
/// let error = UnescapingReader::skipping_h264_header(&b"\x68\x12\x34\x00\x00\x00\x86"[..]).read_to_end(&mut rbsp).unwrap_err();
/// assert_eq!(error.downcast::<Error>().unwrap(), Error::ForbiddenByte(5));
/// assert_eq!(rbsp, b"\x12\x34\x00\x00");
/// ```
///
/// Anything that implements [`Read`] is a source behind a [`std::io::BufReader`].
#[derive(Clone, Debug)]
pub struct UnescapingReader<R> {
    source: R,
    reader: ByteReader,
    /// bytes consumed of the source
    consumed: usize,
}

impl<R: BufRead> UnescapingReader<R> {
    /// Of NAL bytes behind the header.
    pub fn without_skip(source: R) -> Self {
        Self::skipping_bytes(source, 0)
    }

    /// Of a whole NAL: its first byte is dropped.
    pub fn skipping_h264_header(source: R) -> Self {
        Self::skipping_bytes(source, 1)
    }

    /// The first bytes are dropped, unexamined: 2 for the header of an H.265 NAL.
    pub fn skipping_bytes(source: R, skip: usize) -> Self {
        UnescapingReader { source, reader: ByteReader::skipping_bytes(skip), consumed: 0 }
    }
}

impl<R> UnescapingReader<R> {
    /// The source. What is consumed of it here is missing from what is read.
    pub fn reader(&mut self) -> &mut R {
        &mut self.source
    }

    /// The source, whose next byte is the first that was not taken.
    pub fn into_reader(self) -> R {
        self.source
    }
}

impl<R: BufRead> Read for UnescapingReader<R> {
    fn read(&mut self, buf: &mut [u8]) -> io::Result<usize> {
        let room = buf.len().min(MOST);
        if room == 0 {
            return Ok(0);
        }
        loop {
            let chunk = match self.source.fill_buf() {
                Ok(chunk) => &chunk[..chunk.len().min(MOST)],
                Err(e) if e.kind() == io::ErrorKind::Interrupted => continue,
                Err(e) => return Err(e),
            };
            let pushed = self.reader.push(chunk, &mut buf[..room])?;
            let ended = chunk.is_empty();
            self.source.consume(pushed.taken);
            self.consumed += pushed.taken;
            // bytes may be taken and none delivered: then there is more to come, unless this is the end
            match pushed.written {
                0 if pushed.forbidden => return Err(Error::ForbiddenByte(self.consumed).into()),
                0 if !ended => {}
                written => return Ok(written),
            }
        }
    }
}

#[cfg(test)]
mod tests {
    use super::UnescapingReader;
    use crate::{ByteReader, ParseState};
    use std::io::Read;

    /// The library refuses nothing that is asked here but a forbidden byte. If it did, the source would be as it was.
    #[test]
    fn a_refusal_loses_nothing() {
        let mut reader = UnescapingReader::without_skip(&b"\x12\x00\x00\x03\x01"[..]);
        reader.reader = ByteReader { state: ParseState::Start(3) };
        assert!(reader.read(&mut [0; 8]).is_err());
        reader.reader = ByteReader::without_skip();
        let mut rbsp = Vec::new();
        reader.read_to_end(&mut rbsp).unwrap();
        assert_eq!(rbsp, b"\x12\x00\x00\x01");
    }
}
