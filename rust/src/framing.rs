//! Units out of a byte stream (Rec Annex B), between slices.
use crate::{raw, Error};

/// What a call handed out.
#[derive(Clone, Copy, Debug, PartialEq, Eq, Hash)]
pub struct Framed {
    /// bytes of the chunk that were taken
    pub taken: usize,
    /// bytes of units that were written
    pub written: usize,
    /// units that ended: each mark is the count of bytes that this call wrote before that end
    pub marks: usize,
}

/// Finds the units of an Annex B stream, a push at a time.
/// See [`units()`](crate::units()) for the units of a [`std::io::Read`].
///
/// ```
/// use dampfeather::AnnexBReader;
///
/// let mut reader = AnnexBReader::new();
/// let (mut bytes, mut marks) = ([0; 16], [0; 4]);
/// let framed = reader.push(b"\x00\x00\x01\x68\x80\x00\x00\x01\x41\x00", &mut bytes, &mut marks).unwrap();
/// assert_eq!((&bytes[..framed.written], &marks[..framed.marks]), (&[0x68, 0x80, 0x41][..], &[2][..]));
///
/// // the zero was held: the next byte could have made it a start code
/// let framed = reader.reset(&mut bytes, &mut marks).unwrap();
/// assert_eq!((&bytes[..framed.written], &marks[..framed.marks]), (&[0][..], &[1][..]));
/// ```
///
/// The state is plain data, to be kept anywhere and taken up again.
///
/// ```
/// use dampfeather::{AnnexBReader, Error};
///
/// let mut later = AnnexBReader { in_unit: true, zeros: 2 };
/// let (mut bytes, mut marks) = ([0; 3], [0; 1]);
/// assert_eq!(later.push(b"\x01", &mut bytes, &mut marks).unwrap().marks, 1);
/// assert_eq!(AnnexBReader { in_unit: true, zeros: 3 }.push(b"\x01", &mut bytes, &mut marks), Err(Error::BadState));
/// ```
#[derive(Clone, Debug, Default, PartialEq, Eq, Hash)]
pub struct AnnexBReader {
    /// a unit is open
    pub in_unit: bool,
    /// zeros that the next byte decides on: 0, 1 or 2. More are [`Error::BadState`] to every call.
    pub zeros: u8,
}

impl AnnexBReader {
    /// Of the start of a stream, or of any place in it: bytes before the next start code are dropped.
    pub fn new() -> Self {
        Self::default()
    }

    fn after(&mut self, a: [u64; 6]) -> Result<Framed, Error> {
        Error::check(a[0], 0)?;
        *self = AnnexBReader { in_unit: a[4] != 0, zeros: a[5] as u8 };
        Ok(Framed { taken: a[1] as usize, written: a[2] as usize, marks: a[3] as usize })
    }

    /// Takes bytes from the front of the chunk, while what the next one releases fits: at most 3 bytes and 1 mark.
    pub fn push(&mut self, chunk: &[u8], room: &mut [u8], marks: &mut [u64]) -> Result<Framed, Error> {
        self.after(raw::annexb_push(self.in_unit, self.zeros, chunk, room, marks))
    }

    /// Ends an open unit, and forgets all. Needs room for 2 bytes and 1 mark at most: [`Error::NoRoom`] where what there is to give does not fit.
    pub fn reset(&mut self, room: &mut [u8], marks: &mut [u64]) -> Result<Framed, Error> {
        self.after(raw::annexb_reset(self.in_unit, self.zeros, room, marks))
    }
}
