//! Escaping (Rec 7.3.1, 7.4.1) between slices.
use crate::{raw, Error};
use std::borrow::Cow;
use std::num::NonZeroUsize;

/// What a push did. Where the room is too short, bytes of the chunk are left: push them again, into more room.
#[derive(Clone, Copy, Debug, PartialEq, Eq, Hash)]
pub struct Pushed {
    /// bytes of the chunk that were taken
    pub taken: usize,
    /// bytes of the room that were written
    pub written: usize,
    /// the next byte of the chunk is forbidden (Rec 7.4.1): all before it was taken and delivered
    pub forbidden: bool,
}

/// Where a [`ByteReader`] stands between two pushes.
#[derive(Clone, Copy, Debug, PartialEq, Eq, Hash)]
pub enum ParseState {
    /// behind so many zeros: 0, 1 or 2
    Start(u8),
    /// so many bytes are yet to be dropped unexamined
    Skip(NonZeroUsize),
    /// right behind a removed 03
    PostThree,
}

/// Removes the emulation prevention bytes from NAL bytes, a push at a time. See [`UnescapingReader`](crate::UnescapingReader) for a
/// [`std::io::Read`].
///
/// ```
/// use dampfeather::ByteReader;
///
/// let mut reader = ByteReader::skipping_h264_header();
/// let mut rbsp = [0; 16];
/// let first = reader.push(b"\x68\x12\x34\x00\x00", &mut rbsp).unwrap();
/// let second = reader.push(b"\x03\x00\x86", &mut rbsp[first.written..]).unwrap();
/// assert_eq!(&rbsp[..first.written + second.written], b"\x12\x34\x00\x00\x00\x86");
///
/// // a forbidden byte is told, and what stands before it is delivered
/// let pushed = ByteReader::without_skip().push(b"\x41\x00\x00\x01", &mut rbsp).unwrap();
/// assert!(pushed.forbidden && pushed.taken == 3 && pushed.written == 3);
/// ```
///
/// The state is plain data, to be kept anywhere and taken up again. Over 2 zeros are [`Error::BadState`] to every push.
///
/// ```
/// use dampfeather::{ByteReader, Error, ParseState};
///
/// let mut reader = ByteReader::without_skip();
/// reader.push(&[0x12, 0, 0], &mut [0; 3]).unwrap();
/// let saved = reader.state;
/// assert_eq!(saved, ParseState::Start(2));
///
/// let mut later = ByteReader { state: saved };
/// assert!(later.push(&[1], &mut [0; 1]).unwrap().forbidden);
/// assert_eq!(ByteReader { state: ParseState::Start(3) }.push(&[1], &mut [0; 1]), Err(Error::BadState));
/// ```
#[derive(Clone, Debug, PartialEq, Eq, Hash)]
pub struct ByteReader {
    /// where it stands
    pub state: ParseState,
}

impl ByteReader {
    /// Of NAL bytes behind the header.
    pub fn without_skip() -> Self {
        Self::skipping_bytes(0)
    }

    /// Of a whole NAL: its first byte is dropped.
    pub fn skipping_h264_header() -> Self {
        Self::skipping_bytes(1)
    }

    /// The first bytes are dropped, unexamined: 2 for the header of an H.265 NAL.
    pub fn skipping_bytes(skip: usize) -> Self {
        ByteReader { state: NonZeroUsize::new(skip).map_or(ParseState::Start(0), ParseState::Skip) }
    }

    /// Takes bytes from the front of the chunk, while what the next one releases fits: room for 1 always takes one, unless it is forbidden.
    pub fn push(&mut self, chunk: &[u8], out: &mut [u8]) -> Result<Pushed, Error> {
        let (zeros, skip, post_three) = match self.state {
            ParseState::Start(zeros) => (zeros, 0, false),
            ParseState::Skip(left) => (0, left.get(), false),
            ParseState::PostThree => (0, 0, true),
        };
        let a = raw::byte_reader_push(zeros, skip, post_three, chunk, out);
        if a[0] != 7 {
            Error::check(a[0], 0)?;
        }
        self.state = match (a[3], NonZeroUsize::new(a[4] as usize), a[5]) {
            (_, _, 1) => ParseState::PostThree,
            (_, Some(left), _) => ParseState::Skip(left),
            (zeros, None, _) => ParseState::Start(zeros as u8),
        };
        Ok(Pushed { taken: a[1] as usize, written: a[2] as usize, forbidden: a[0] == 7 })
    }
}

/// Inserts the emulation prevention bytes into an RBSP, a push at a time. See [`EscapingWriter`](crate::EscapingWriter) for a [`std::io::Write`].
///
/// ```
/// let mut writer = dampfeather::ByteWriter::new();
/// let mut nal = [0; 16];
/// let pushed = writer.push(&[0; 5], &mut nal).unwrap();
/// assert_eq!(&nal[..pushed.written], [0, 0, 3, 0, 0, 3, 0]);
///
/// // the state is plain data: a writer that stands behind two zeros
/// let pushed = dampfeather::ByteWriter { zero_count: 2 }.push(&[1], &mut nal).unwrap();
/// assert_eq!(&nal[..pushed.written], [3, 1]);
/// ```
#[derive(Clone, Debug, Default, PartialEq, Eq, Hash)]
pub struct ByteWriter {
    /// zeros at the end of what was written, since the last inserted 03: 0, 1 or 2. More are [`Error::BadState`] to every push.
    pub zero_count: u8,
}

impl ByteWriter {
    /// Of the start of an RBSP.
    pub fn new() -> Self {
        Self::default()
    }

    /// Takes bytes from the front of the chunk, while what the next one releases fits: room for 2 always takes one.
    pub fn push(&mut self, chunk: &[u8], out: &mut [u8]) -> Result<Pushed, Error> {
        let a = raw::byte_writer_push(self.zero_count, chunk, out);
        Error::check(a[0], 0)?;
        self.zero_count = a[3] as u8;
        Ok(Pushed { taken: a[1] as usize, written: a[2] as usize, forbidden: false })
    }
}

/// The RBSP of a NAL: its header and its emulation prevention bytes are removed. Borrowed where nothing else was removed.
///
/// ```
/// use dampfeather::{decode_nal, Error};
/// use std::borrow::Cow;
///
/// assert!(matches!(
///     decode_nal(b"\x68\x12\x34\x00\x00\x03\x00\x86").unwrap(),
///     Cow::Owned(s) if s == b"\x12\x34\x00\x00\x00\x86"));
/// assert!(matches!(decode_nal(b"\x68\xE8\x43\x8F").unwrap(), Cow::Borrowed(b"\xE8\x43\x8F")));
/// assert_eq!(decode_nal(b"\x68\x12\x34\x00\x00\x00\x86"), Err(Error::ForbiddenByte(5)));
/// assert_eq!(decode_nal(b""), Err(Error::EmptyNal));
/// ```
pub fn decode_nal(nal: &[u8]) -> Result<Cow<'_, [u8]>, Error> {
    // asked once, with room for whatever is kept
    let mut room = vec![0; nal.len()];
    let a = raw::decode_nal(nal, &mut room);
    Error::check(a[0], a[2] as usize)?;
    if a[1] == 0 {
        return Ok(Cow::Borrowed(&nal[1..]));
    }
    room.truncate(a[2] as usize);
    Ok(Cow::Owned(room))
}

/// As [`decode_nal`], into a room of the caller's: what is shown is the NAL's own tail, or the filled front of the room.
///
/// ```
/// let mut room = [0; 8];
/// assert_eq!(dampfeather::decode_nal_into(b"\x68\x00\x00\x03", &mut room), Ok(&[0, 0][..]));
/// ```
pub fn decode_nal_into<'a>(nal: &'a [u8], room: &'a mut [u8]) -> Result<&'a [u8], Error> {
    let a = raw::decode_nal(nal, room);
    Error::check(a[0], a[2] as usize)?;
    Ok(if a[1] == 0 { &nal[1..] } else { &room[..a[2] as usize] })
}
