//! Bits and Exp-Golomb codes (Rec 7.2, 9.1) of slices.
use crate::{raw, Error};

/// Reads the bits of an RBSP, highest first (Rec 7.2, 9.1). A read that is refused moves nothing.
///
/// ```
/// use dampfeather::{BitReader, Error};
///
/// // u(3) 5, ue 2, se -1, one bit, and the trailing bits
/// let rbsp = [0b1010_1101, 0b1110_0000];
/// let mut reader = BitReader::new(&rbsp);
/// assert_eq!(reader.read(3), Ok(5));
/// assert_eq!(reader.read_ue(), Ok(2));
/// assert_eq!(reader.read_se(), Ok(-1));
/// assert_eq!(reader.has_more_rbsp_data(), Ok(true));
/// assert_eq!(reader.read_bit(), Ok(true));
/// assert_eq!(reader.has_more_rbsp_data(), Ok(false));
/// assert_eq!(reader.read(9), Err(Error::BitsRunOut));
/// assert_eq!(reader.position(), 10);
/// assert_eq!(reader.finish_rbsp(), Ok(()));
/// ```
///
/// Its state is the position alone: [`BitReader::at`] goes on from one that was kept.
#[derive(Clone, Debug, PartialEq, Eq, Hash)]
pub struct BitReader<'a> {
    bytes: &'a [u8],
    at: usize,
}

impl<'a> BitReader<'a> {
    /// From the first bit on.
    pub fn new(bytes: &'a [u8]) -> Self {
        BitReader { bytes, at: 0 }
    }

    /// From that bit on. A place past the end is [`Error::BadState`] to every call that reads.
    pub fn at(bytes: &'a [u8], at: usize) -> Self {
        BitReader { bytes, at }
    }

    /// The bytes that it reads, all of them.
    pub fn bytes(&self) -> &'a [u8] {
        self.bytes
    }

    /// The place of the next bit.
    pub fn position(&self) -> usize {
        self.at
    }

    pub(crate) fn value(&mut self, a: [u64; 3]) -> Result<u32, Error> {
        Error::check(a[0], 0)?;
        self.at = a[2] as usize;
        Ok(a[1] as u32)
    }

    pub(crate) fn moved(&mut self, number: u64, at: u64) -> Result<(), Error> {
        Error::check(number, 0)?;
        self.at = at as usize;
        Ok(())
    }

    /// u(width), of 0 to 32 bits. [`Error::BadWidth`] of more.
    pub fn read(&mut self, width: u32) -> Result<u32, Error> {
        self.value(raw::read(self.at, self.bytes, width))
    }

    /// One bit.
    pub fn read_bit(&mut self) -> Result<bool, Error> {
        self.value(raw::read_bit(self.at, self.bytes)).map(|v| v == 1)
    }

    /// ue(v). [`Error::ExpGolombTooLarge`] where over 31 zeros stand before a one, [`Error::BitsRunOut`] where no one follows at all.
    pub fn read_ue(&mut self) -> Result<u32, Error> {
        self.value(raw::read_ue(self.at, self.bytes))
    }

    /// se(v), refused as [`BitReader::read_ue`].
    pub fn read_se(&mut self) -> Result<i32, Error> {
        let (a, value) = raw::read_se(self.at, self.bytes);
        self.moved(a[0], a[1])?;
        Ok(value)
    }

    /// Moves on by so many bits, if so many are left.
    pub fn skip(&mut self, bit_count: u32) -> Result<(), Error> {
        let a = raw::skip(self.at, self.bytes, bit_count);
        self.moved(a[0], a[1])
    }

    /// Is this place the start of a byte?
    pub fn byte_aligned(&self) -> bool {
        raw::byte_aligned(self.at)
    }

    /// Is this place before the trailing bits: is there a one behind it?
    pub fn has_more_rbsp_data(&self) -> Result<bool, Error> {
        let a = raw::has_more_rbsp_data(self.at, self.bytes);
        Error::check(a[0], 0)?;
        Ok(a[1] == 1)
    }

    /// Is this the place of the stop bit, the last one? [`Error::RemainingData`] before it, [`Error::BitsRunOut`] behind it.
    pub fn finish_rbsp(self) -> Result<(), Error> {
        Error::check(raw::finish_rbsp(self.at, self.bytes).into(), 0)
    }

    /// Is this the place of the stop bit, or the end of the bytes? [`Error::RemainingData`] otherwise.
    pub fn finish_sei_payload(self) -> Result<(), Error> {
        Error::check(raw::finish_sei_payload(self.at, self.bytes).into(), 0)
    }
}

/// What a ue value stands for in se(v).
///
/// ```
/// use dampfeather::golomb_to_signed;
/// assert_eq!((0..5).map(|k| golomb_to_signed(k).unwrap()).collect::<Vec<_>>(), [0, 1, -1, 2, -2]);
/// ```
pub fn golomb_to_signed(val: u32) -> Result<i32, Error> {
    let (number, value) = raw::golomb_to_signed(val);
    Error::check(number.into(), 0)?;
    Ok(value)
}

/// Writes bits into a room, highest first. A write that is refused writes nothing.
///
/// ```
/// use dampfeather::{BitWriter, Error};
///
/// let mut room = [0; 2];
/// let mut writer = BitWriter::new(&mut room);
/// writer.write(3, 5).unwrap();
/// writer.write_ue(2).unwrap();
/// writer.write_se(-1).unwrap();
/// assert_eq!(writer.write(16, 0), Err(Error::NoRoom));
/// writer.write_rbsp_trailing_bits().unwrap();
/// assert_eq!(writer.written(), [0b1010_1101, 0b1100_0000]);
/// ```
///
/// The state is plain data, to be kept anywhere and taken up again on the same room, or on a copy of it.
///
/// ```
/// use dampfeather::{BitWriter, BitWriterState, Error};
///
/// let mut room = [0; 2];
/// let mut writer = BitWriter::new(&mut room);
/// writer.write(3, 5).unwrap();
/// let saved = writer.state();
/// assert_eq!(saved, BitWriterState { written: 0, pending: 5, count: 3 });
///
/// let mut later = BitWriter::from_state(&mut room, saved);
/// later.write(5, 1).unwrap();
/// assert_eq!(later.written(), [0b1010_0001]);
/// assert_eq!(BitWriter::from_state(&mut room, BitWriterState { count: 8, ..saved }).write_bit(true), Err(Error::BadState));
/// ```
#[derive(Debug)]
pub struct BitWriter<'a> {
    out: &'a mut [u8],
    state: BitWriterState,
}

/// Where a [`BitWriter`] stands between two writes. Bytes past the room, a count over 7 and pending bits of more than their count are
/// [`Error::BadState`] to every write.
#[derive(Clone, Copy, Debug, Default, PartialEq, Eq, Hash)]
pub struct BitWriterState {
    /// whole bytes of the room
    pub written: usize,
    /// the bits behind them, as a number
    pub pending: u8,
    /// how many these are: 0 to 7
    pub count: u8,
}

impl<'a> BitWriter<'a> {
    /// From the front of a room on.
    pub fn new(out: &'a mut [u8]) -> Self {
        Self::from_state(out, BitWriterState::default())
    }

    /// Goes on in a room whose first bytes were written before.
    pub fn from_state(out: &'a mut [u8], state: BitWriterState) -> Self {
        BitWriter { out, state }
    }

    /// To go on from later: the whole bytes are those of the room.
    pub fn state(&self) -> BitWriterState {
        self.state
    }

    /// The whole bytes. Up to seven bits behind them are pending. Of a bad state, whose bytes pass the room, there are none.
    pub fn written(&self) -> &[u8] {
        self.out.get(..self.state.written).unwrap_or(&[])
    }

    /// Is no bit pending?
    pub fn byte_aligned(&self) -> bool {
        let BitWriterState { written, pending, count } = self.state;
        raw::writer_byte_aligned(written, pending, count)
    }

    /// One write, by an exported function that is lent the state and the room.
    fn put(&mut self, write: impl FnOnce(usize, u8, u8, &mut [u8]) -> [u64; 4]) -> Result<(), Error> {
        let BitWriterState { written, pending, count } = self.state;
        let a = write(written, pending, count, self.out);
        Error::check(a[0], 0)?;
        self.state = BitWriterState { written: a[1] as usize, pending: a[2] as u8, count: a[3] as u8 };
        Ok(())
    }

    /// u(width) of `value`. [`Error::BadWidth`] of over 32 bits, or of a value that needs more bits.
    pub fn write(&mut self, width: u32, value: u32) -> Result<(), Error> {
        self.put(|written, pending, count, out| raw::write(written, pending, count, out, width, value))
    }

    /// One bit.
    pub fn write_bit(&mut self, bit: bool) -> Result<(), Error> {
        self.put(|written, pending, count, out| raw::write_bit(written, pending, count, out, bit))
    }

    /// ue(v). `u32::MAX` is [`Error::NoCode`].
    pub fn write_ue(&mut self, value: u32) -> Result<(), Error> {
        self.put(|written, pending, count, out| raw::write_ue(written, pending, count, out, value))
    }

    /// se(v). `i32::MIN` is [`Error::NoCode`].
    pub fn write_se(&mut self, value: i32) -> Result<(), Error> {
        self.put(|written, pending, count, out| raw::write_se(written, pending, count, out, value))
    }

    /// A one, then zeros to the byte boundary.
    pub fn write_rbsp_trailing_bits(&mut self) -> Result<(), Error> {
        self.put(raw::write_rbsp_trailing_bits)
    }
}
