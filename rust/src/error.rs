//! The numbers of refusals, as an enum.

/// Why a call was refused. [`number`](Error::number) gives the number of the library's table, and the text says when that number is given.
///
/// ```
/// use dampfeather::{decode_nal, Error};
///
/// let error = decode_nal(b"\x68\x00\x00\x01").unwrap_err();
/// assert_eq!(error, Error::ForbiddenByte(3));
/// assert_eq!(error.number(), 7);
/// assert!(error.to_string().starts_with("the byte at index 3 is forbidden"));
/// ```
#[derive(Clone, Copy, Debug, PartialEq, Eq, Hash)]
#[non_exhaustive]
pub enum Error {
    /// 1: a slice has over 16,777,216 elements
    TooLong,
    /// 2: bad saved state
    BadState,
    /// 3: a width over 32, or a value that needs more bits than its width
    BadWidth,
    /// 4: the bits run out
    BitsRunOut,
    /// 5: more than 31 zeros before a code's one
    ExpGolombTooLarge,
    /// 6: data is left where none should be
    RemainingData,
    /// 7: a forbidden byte, with its index from 0: in the slice handed in, or in all that [`UnescapingReader`](crate::UnescapingReader) took of its
    /// source
    ForbiddenByte(usize),
    /// 8: an empty NAL
    EmptyNal,
    /// 9: a value that no code has
    NoCode,
    /// 10: no room
    NoRoom,
    /// 11: no geometry of a picture, or num_slice_groups_minus1 not 1 to 7
    BadGeometry,
    /// 12: a map type over 6
    BadMapType,
    /// 13: run_length_minus1 not below the picture's size
    BadRunLength,
    /// 14: top_left over bottom_right, or its column over bottom_right's
    InvalidTopLeft,
    /// 15: bottom_right over the picture's size
    InvalidBottomRight,
    /// 16: slice_group_change_rate_minus1 not below the picture's size
    BadChangeRate,
    /// 17: pic_size_in_map_units_minus1 not below the picture's size
    BadPicSize,
    /// 18: num_ref_idx over 31
    BadNumRefIdx,
}

impl Error {
    /// All of them, in the order of their numbers: the first is 1.
    const ALL: [Error; 18] = [
        Error::TooLong,
        Error::BadState,
        Error::BadWidth,
        Error::BitsRunOut,
        Error::ExpGolombTooLarge,
        Error::RemainingData,
        Error::ForbiddenByte(0),
        Error::EmptyNal,
        Error::NoCode,
        Error::NoRoom,
        Error::BadGeometry,
        Error::BadMapType,
        Error::BadRunLength,
        Error::InvalidTopLeft,
        Error::InvalidBottomRight,
        Error::BadChangeRate,
        Error::BadPicSize,
        Error::BadNumRefIdx,
    ];

    /// The refusal of a number, if it is not 0. `index` goes with 7.
    pub(crate) fn check(number: u64, index: usize) -> Result<(), Error> {
        match number {
            0 => Ok(()),
            7 => Err(Error::ForbiddenByte(index)),
            1..=18 => Err(Error::ALL[number as usize - 1]),
            other => unreachable!("the library gives no number {other}"),
        }
    }

    /// The number of this refusal in the library's table, 1 to 18. 0 is no refusal.
    pub fn number(self) -> u8 {
        self.told().0
    }

    /// The number, and when it is given.
    fn told(self) -> (u8, &'static str) {
        match self {
            Error::TooLong => (1, "a slice that was handed in has over 16,777,216 elements"),
            Error::BadState => (2, "the saved state is bad: a place past the end, over 7 pending bits or a value of more, or over 2 zeros"),
            Error::BadWidth => (3, "the width is over 32 bits, or the value needs more bits than its width"),
            Error::BitsRunOut => (4, "the bits run out"),
            Error::ExpGolombTooLarge => (5, "more than 31 zeros stand before the one of an Exp-Golomb code"),
            Error::RemainingData => (6, "data is left before the trailing bits"),
            Error::ForbiddenByte(_) => (7, "is forbidden: 00, 01 or 02 behind two zeros, or a byte over 03 behind an emulation prevention byte"),
            Error::EmptyNal => (8, "the NAL is empty"),
            Error::NoCode => (9, "the value has no code: 2^32-1 in ue(v), or -2^31 in se(v)"),
            Error::NoRoom => (10, "there is no room for what is to be written"),
            Error::BadGeometry => (11, "width or size is 0, size is no multiple of width or over 36,864, or num_slice_groups_minus1 is not 1 to 7"),
            Error::BadMapType => (12, "the slice group map type is over 6"),
            Error::BadRunLength => (13, "run_length_minus1 is not below the picture's size in map units"),
            Error::InvalidTopLeft => (14, "top_left is over bottom_right, or its column is over bottom_right's"),
            Error::InvalidBottomRight => (15, "bottom_right is over the picture's size in map units"),
            Error::BadChangeRate => (16, "slice_group_change_rate_minus1 is not below the picture's size in map units"),
            Error::BadPicSize => (17, "pic_size_in_map_units_minus1 is not below the picture's size in map units"),
            Error::BadNumRefIdx => (18, "num_ref_idx is over 31"),
        }
    }
}

impl std::fmt::Display for Error {
    fn fmt(&self, f: &mut std::fmt::Formatter<'_>) -> std::fmt::Result {
        let (number, when) = self.told();
        if let Error::ForbiddenByte(index) = self {
            write!(f, "the byte at index {index} ")?;
        }
        write!(f, "{when} (number {number})")
    }
}

impl std::error::Error for Error {}

/// Of the kind `InvalidData`, with the refusal inside.
impl From<Error> for std::io::Error {
    fn from(e: Error) -> Self {
        std::io::Error::new(std::io::ErrorKind::InvalidData, e)
    }
}

#[cfg(test)]
mod tests {
    use super::Error;

    #[test]
    fn every_number_has_its_refusal() {
        assert_eq!(Error::check(0, 5), Ok(()));
        for number in 1..=18 {
            let error = Error::check(number, 5).unwrap_err();
            assert_eq!(u64::from(error.number()), number);
            assert_eq!(matches!(error, Error::ForbiddenByte(5)), number == 7);
        }
    }
}
