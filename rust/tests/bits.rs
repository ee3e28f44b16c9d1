//! `BitReader`, `BitWriter`, `golomb_to_signed`: values at every place, codes there and back, saved states, refusals.
use dampfeather::{golomb_to_signed, BitReader, BitWriter, BitWriterState, Error, MOST};

const BYTES: [u8; 9] = [0x9A, 0x00, 0xFF, 0x5C, 0x01, 0x80, 0x37, 0xE0, 0x0F];

/// The value of `width` bits at a place, by their digits.
fn digits(bytes: &[u8], at: usize, width: u32) -> Option<u32> {
    let text: String = bytes.iter().map(|b| format!("{b:08b}")).collect();
    let bits = text.get(at..at + width as usize)?;
    Some(if bits.is_empty() { 0 } else { u32::from_str_radix(bits, 2).unwrap() })
}

#[test]
fn every_width_at_every_place() {
    for at in 0..=8 * BYTES.len() {
        for width in 0..=33 {
            let mut reader = BitReader::at(&BYTES, at);
            let expected = if width > 32 { Err(Error::BadWidth) } else { digits(&BYTES, at, width).ok_or(Error::BitsRunOut) };
            assert_eq!(reader.read(width), expected, "{at} {width}");
            assert_eq!(reader.position(), at + expected.map_or(0, |_| width as usize));
        }
        let mut reader = BitReader::at(&BYTES, at);
        assert_eq!(reader.read_bit(), digits(&BYTES, at, 1).map(|bit| bit == 1).ok_or(Error::BitsRunOut));
        assert_eq!(reader.byte_aligned(), reader.position() % 8 == 0);
    }
    assert_eq!(BitReader::new(&BYTES).bytes(), BYTES);
    assert_eq!(BitReader::new(&BYTES), BitReader::at(&BYTES, 0));
}

#[test]
fn skipping() {
    for count in [0, 1, 7, 8, 71, 72, 73, u32::MAX] {
        let mut reader = BitReader::new(&BYTES);
        let expected = if count <= 72 { Ok(()) } else { Err(Error::BitsRunOut) };
        assert_eq!(reader.skip(count), expected);
        assert_eq!(reader.position(), if count <= 72 { count as usize } else { 0 });
    }
}

#[test]
fn golomb_codes() {
    for (k, code) in [(0, 0x80), (1, 0x40), (2, 0x60), (3, 0x20), (4, 0x28)] {
        assert_eq!(BitReader::new(&[code]).read_ue(), Ok(k));
    }
    // 31 zeros and 32 ones; 32 zeros and a one; no one at all, however many zeros
    let last = [0, 0, 0, 1, 0xFF, 0xFF, 0xFF, 0xFE];
    assert_eq!(BitReader::new(&last).read_ue(), Ok(u32::MAX - 1));
    let too_large = [0, 0, 0, 0, 0x80, 0, 0, 0, 0];
    let nothing = [0; 9];
    for (bytes, error) in [(&too_large, Error::ExpGolombTooLarge), (&nothing, Error::BitsRunOut)] {
        let mut reader = BitReader::new(bytes);
        assert_eq!(reader.read_ue(), Err(error));
        assert_eq!(reader.read_se(), Err(error));
        assert_eq!(reader.position(), 0);
    }
    for (k, value) in [(0, 0), (1, 1), (2, -1), (3, 2), (4, -2), (u32::MAX - 2, i32::MAX), (u32::MAX - 1, -i32::MAX)] {
        assert_eq!(golomb_to_signed(k), Ok(value));
    }
    assert_eq!(golomb_to_signed(u32::MAX), Err(Error::NoCode));
}

/// A writer that is made anew from its numbers before every write writes the same bits, and they read back.
#[test]
fn written_and_read_back() {
    let values = [0, 1, 2, 3, 7, 8, 254, 255, 256, 65_535, u32::MAX - 1];
    let signed = [0, 1, -1, 2, -2, 1000, -1000, i32::MAX, -i32::MAX];
    let mut room = [0xAA; 256];
    let mut state = BitWriterState::default();
    let mut text = String::new();
    let ue = |k: u32| format!("{:0>width$b}", u64::from(k) + 1, width = 2 * (u64::from(k) + 1).ilog2() as usize + 1);
    for &k in &values {
        let mut writer = BitWriter::from_state(&mut room, state);
        writer.write_ue(k).unwrap();
        state = writer.state();
        text += &ue(k);
    }
    for &v in &signed {
        let mut writer = BitWriter::from_state(&mut room, state);
        writer.write_se(v).unwrap();
        state = writer.state();
        text += &ue(if v > 0 { 2 * v as u32 - 1 } else { 2 * v.unsigned_abs() });
    }
    for width in 0..=32 {
        let value = (0xDEAD_BEEF_u64 & ((1 << width) - 1)) as u32;
        let mut writer = BitWriter::from_state(&mut room, state);
        writer.write(width, value).unwrap();
        assert_eq!(writer.byte_aligned(), writer.state().count == 0);
        state = writer.state();
        if width > 0 {
            text += &format!("{value:0>width$b}", width = width as usize);
        }
    }
    let mut writer = BitWriter::from_state(&mut room, state);
    writer.write_bit(true).unwrap();
    writer.write_bit(false).unwrap();
    writer.write_rbsp_trailing_bits().unwrap();
    text += "101";
    assert!(writer.byte_aligned());
    let written = writer.written().to_vec();
    let bits: String = written.iter().map(|b| format!("{b:08b}")).collect();
    assert!(bits.len() - text.len() < 8 && bits.trim_end_matches('0') == text.trim_end_matches('0'));
    assert!(room[written.len()..].iter().all(|&b| b == 0xAA));

    let mut reader = BitReader::new(&written);
    assert!(values.iter().all(|&k| reader.read_ue() == Ok(k)));
    assert!(signed.iter().all(|&v| reader.read_se() == Ok(v)));
    for width in 0..=32 {
        assert_eq!(reader.read(width), Ok((0xDEAD_BEEF_u64 & ((1 << width) - 1)) as u32));
    }
    assert_eq!((reader.has_more_rbsp_data(), reader.clone().finish_rbsp()), (Ok(true), Err(Error::RemainingData)));
    assert_eq!((reader.read_bit(), reader.read_bit()), (Ok(true), Ok(false)));
    assert_eq!((reader.has_more_rbsp_data(), reader.finish_rbsp()), (Ok(false), Ok(())));
}

#[test]
fn finishing() {
    for (bytes, at, rbsp, payload) in [
        (&[0x80, 0, 0][..], 0, Ok(()), Ok(())),
        (&[0xC0], 0, Err(Error::RemainingData), Err(Error::RemainingData)),
        (&[0xC0], 1, Ok(()), Ok(())),
        (&[0x00], 0, Err(Error::BitsRunOut), Err(Error::RemainingData)),
        (&[0x40], 0, Err(Error::RemainingData), Err(Error::RemainingData)),
        (&[0xFF], 8, Err(Error::BitsRunOut), Ok(())),
        (&[], 1, Err(Error::BadState), Err(Error::BadState)),
    ] {
        assert_eq!(BitReader::at(bytes, at).finish_rbsp(), rbsp, "{bytes:02X?} {at}");
        assert_eq!(BitReader::at(bytes, at).finish_sei_payload(), payload, "{bytes:02X?} {at}");
    }
}

#[test]
fn a_reading_refusal_moves_nothing() {
    let long = vec![0xFF; MOST + 1];
    for (bytes, at, error) in [(&long[..], 3, Error::TooLong), (&[0xFF][..], 9, Error::BadState), (&[0xFF], usize::MAX, Error::BadState)] {
        let mut reader = BitReader::at(bytes, at);
        assert_eq!(reader.read(1), Err(error));
        assert_eq!(reader.read_bit(), Err(error));
        assert_eq!(reader.read_ue(), Err(error));
        assert_eq!(reader.read_se(), Err(error));
        assert_eq!(reader.skip(0), Err(error));
        assert_eq!(reader.has_more_rbsp_data(), Err(error));
        assert_eq!(reader.position(), at);
    }
}

/// Every write is refused, and neither the state nor the room moves.
fn refused(room: &mut [u8], state: BitWriterState, error: Error) {
    let before = room.to_vec();
    let mut writer = BitWriter::from_state(room, state);
    assert_eq!(writer.write(32, 0), Err(error), "{state:?}");
    assert_eq!(writer.write_bit(true), Err(error));
    assert_eq!(writer.write_ue(0), Err(error));
    assert_eq!(writer.write_se(1), Err(error));
    assert_eq!(writer.write_rbsp_trailing_bits(), Err(error));
    assert_eq!(writer.state(), state);
    assert!(room == before);
}

#[test]
fn a_writing_refusal_moves_nothing() {
    let good = BitWriterState { written: 1, pending: 0b101_0101, count: 7 };
    refused(&mut [0xAA; 1], good, Error::NoRoom);
    refused(&mut vec![0xAA; MOST + 1], good, Error::TooLong);
    for bad in [
        BitWriterState { written: 3, ..good },
        BitWriterState { written: usize::MAX, ..good },
        BitWriterState { count: 8, ..good },
        BitWriterState { pending: 128, ..good },
        BitWriterState { count: 6, ..good },
        BitWriterState { pending: 1, count: 0, ..good },
    ] {
        refused(&mut [0xAA; 2], bad, Error::BadState);
    }
    // what is asked after a bad state does not panic
    assert_eq!(BitWriter::from_state(&mut [1, 2], BitWriterState { written: 3, ..good }).written(), []);
    assert_eq!(BitWriter::from_state(&mut [1, 2], good).written(), [1]);

    let mut room = [0xAA; 8];
    let mut writer = BitWriter::new(&mut room);
    assert_eq!(writer.write(33, 0), Err(Error::BadWidth));
    assert_eq!(writer.write(3, 8), Err(Error::BadWidth));
    assert_eq!(writer.write_ue(u32::MAX), Err(Error::NoCode));
    assert_eq!(writer.write_se(i32::MIN), Err(Error::NoCode));
    assert_eq!(writer.state(), BitWriterState::default());
    assert_eq!(room, [0xAA; 8]);
}
