//! `Error`: its number, its text, and its way into `std::io::Error`.
use dampfeather::Error;
use std::collections::BTreeSet;
use std::io::{self, ErrorKind};

/// In the order of the table's numbers, with a word that its row has.
const TABLE: [(Error, &str); 18] = [
    (Error::TooLong, "16,777,216"),
    (Error::BadState, "saved state"),
    (Error::BadWidth, "width"),
    (Error::BitsRunOut, "run out"),
    (Error::ExpGolombTooLarge, "31 zeros"),
    (Error::RemainingData, "left"),
    (Error::ForbiddenByte(5), "index 5"),
    (Error::EmptyNal, "empty"),
    (Error::NoCode, "no code"),
    (Error::NoRoom, "no room"),
    (Error::BadGeometry, "36,864"),
    (Error::BadMapType, "map type"),
    (Error::BadRunLength, "run_length_minus1"),
    (Error::InvalidTopLeft, "top_left"),
    (Error::InvalidBottomRight, "bottom_right"),
    (Error::BadChangeRate, "slice_group_change_rate_minus1"),
    (Error::BadPicSize, "pic_size_in_map_units_minus1"),
    (Error::BadNumRefIdx, "num_ref_idx"),
];

#[test]
fn numbers_and_texts() {
    let mut texts = BTreeSet::new();
    for ((error, word), number) in TABLE.into_iter().zip(1..) {
        assert_eq!(error.number(), number);
        let text = error.to_string();
        assert!(text.contains(word) && text.ends_with(&format!("(number {number})")), "{text}");
        assert!(!text.contains(&format!("{error:?}")), "{text}");
        assert!(texts.insert(text));
    }
}

#[test]
fn within_an_error_of_the_standard_library() {
    for (error, _) in TABLE {
        let told = io::Error::from(error);
        assert_eq!((told.kind(), told.to_string()), (ErrorKind::InvalidData, error.to_string()));
        assert_eq!(told.downcast::<Error>().unwrap(), error);
    }
}
