//! `SliceGroup`, `SliceRect`, `read_num_ref_idx`: every map type, every refusal.
use dampfeather::{read_num_ref_idx, BitReader, BitWriter, Error, Geometry, SliceGroup, SliceGroupChangeType, SliceRect, MOST};

fn picture(width: u32, size: u32) -> Geometry {
    Geometry { pic_width_in_mbs: width, pic_size_in_map_units: size }
}

/// The ue codes of these values, then what `more` writes, behind three bits that are no part of it.
fn coded(values: &[u32], more: impl FnOnce(&mut BitWriter<'_>)) -> Vec<u8> {
    let mut room = [0; 256];
    let mut writer = BitWriter::new(&mut room);
    writer.write(3, 0b101).unwrap();
    values.iter().for_each(|&v| writer.write_ue(v).unwrap());
    more(&mut writer);
    writer.write_rbsp_trailing_bits().unwrap();
    writer.written().to_vec()
}

/// What is read from bit 3 on, if the reader stands at the trailing bits behind it; of a refusal, if it stands where it was.
fn read(bytes: &[u8], n: u32, picture: Geometry) -> Result<SliceGroup, Error> {
    let mut reader = BitReader::at(bytes, 3);
    let groups = SliceGroup::read(&mut reader, n, picture);
    match groups {
        Ok(_) => assert_eq!(reader.finish_rbsp(), Ok(())),
        Err(_) => assert_eq!(reader.position(), 3),
    }
    groups
}

#[test]
fn every_map_type() {
    let small = picture(4, 12);
    for n in 1..=7 {
        let runs: Vec<u32> = (0..=n).map(|i| i % 12).collect();
        let bytes = coded(&[&[0], &runs[..]].concat(), |_| ());
        assert_eq!(read(&bytes, n, small), Ok(SliceGroup::Interleaved { run_length_minus1: runs }));

        assert_eq!(read(&coded(&[1], |_| ()), n, small), Ok(SliceGroup::Dispersed { num_slice_groups_minus1: n }));

        let rectangles: Vec<_> = (0..n).map(|i| SliceRect { top_left: i % 3, bottom_right: 8 + i % 3 }).collect();
        let corners: Vec<u32> = rectangles.iter().flat_map(|r| [r.top_left, r.bottom_right]).collect();
        let bytes = coded(&[&[2], &corners[..]].concat(), |_| ());
        assert_eq!(read(&bytes, n, small), Ok(SliceGroup::ForegroundAndLeftover { rectangles }));

        for (map_type, change_type) in [(3, SliceGroupChangeType::BoxOut), (4, SliceGroupChangeType::RasterScan), (5, SliceGroupChangeType::WipeOut)]
        {
            for slice_group_change_direction_flag in [false, true] {
                let bytes = coded(&[map_type], |w| {
                    w.write_bit(slice_group_change_direction_flag).unwrap();
                    w.write_ue(11).unwrap();
                });
                let expected = SliceGroup::Changing {
                    change_type,
                    num_slice_groups_minus1: n,
                    slice_group_change_direction_flag,
                    slice_group_change_rate_minus1: 11,
                };
                assert_eq!(read(&bytes, n, small), Ok(expected));
            }
        }

        // 2 groups have ids of 1 bit, 3 and 4 of 2, 5 to 8 of 3; there may be fewer ids than units
        let bits = [1, 2, 2, 3, 3, 3, 3][n as usize - 1];
        for count in [1, 5, 12] {
            let slice_group_id: Vec<u8> = (0..count).map(|i| (i % (n + 1)) as u8).collect();
            let bytes = coded(&[6, count - 1], |w| slice_group_id.iter().for_each(|&id| w.write(bits, id.into()).unwrap()));
            assert_eq!(read(&bytes, n, small), Ok(SliceGroup::ExplicitAssignment { num_slice_groups_minus1: n, slice_group_id }));
        }
    }
}

#[test]
fn every_refusal() {
    let small = picture(4, 12);
    let rectangle = |a, b| coded(&[2, a, b], |_| ());
    for (bytes, n, picture, error) in [
        (coded(&[1], |_| ()), 0, small, Error::BadGeometry),
        (coded(&[1], |_| ()), 8, small, Error::BadGeometry),
        (coded(&[1], |_| ()), u32::MAX, small, Error::BadGeometry),
        (coded(&[1], |_| ()), 1, picture(0, 12), Error::BadGeometry),
        (coded(&[1], |_| ()), 1, picture(4, 0), Error::BadGeometry),
        (coded(&[1], |_| ()), 1, picture(4, 13), Error::BadGeometry),
        (coded(&[1], |_| ()), 1, picture(1, 36_865), Error::BadGeometry),
        (coded(&[1], |_| ()), 1, picture(1, u32::MAX), Error::BadGeometry),
        (coded(&[7], |_| ()), 1, small, Error::BadMapType),
        (coded(&[0, 11, 12], |_| ()), 1, small, Error::BadRunLength),
        (coded(&[0, 11], |_| ()), 2, small, Error::BitsRunOut),
        (rectangle(2, 1), 1, small, Error::InvalidTopLeft),
        (rectangle(3, 4), 1, small, Error::InvalidTopLeft),
        (rectangle(2, 13), 1, small, Error::InvalidBottomRight),
        (coded(&[4], |w| w.write(8, 0b0000_1101).unwrap()), 1, small, Error::BadChangeRate),
        (coded(&[6, 12], |_| ()), 1, small, Error::BadPicSize),
        (coded(&[6, 11], |_| ()), 1, small, Error::BitsRunOut),
        (vec![0, 0, 0, 0, 0x10], 1, small, Error::ExpGolombTooLarge),
        (vec![], 1, small, Error::BadState),
        (vec![0xFF; MOST + 1], 1, small, Error::TooLong),
    ] {
        let shown = &bytes[..bytes.len().min(9)];
        assert_eq!(read(&bytes, n, picture), Err(error), "{shown:02X?} {n} {picture:?}");
    }
    // the largest picture
    assert!(read(&coded(&[1], |_| ()), 1, picture(1, 36_864)).is_ok());
}

#[test]
fn rectangles() {
    for (corners, picture, expected) in [
        ([8, 12], picture(4, 12), Ok(SliceRect { top_left: 8, bottom_right: 12 })),
        ([0, 0], picture(1, 1), Ok(SliceRect { top_left: 0, bottom_right: 0 })),
        ([8, 13], picture(4, 12), Err(Error::InvalidBottomRight)),
        ([9, 8], picture(4, 12), Err(Error::InvalidTopLeft)),
        ([7, 8], picture(4, 12), Err(Error::InvalidTopLeft)),
        ([0, 0], picture(5, 12), Err(Error::BadGeometry)),
    ] {
        let bytes = coded(&corners, |_| ());
        let mut reader = BitReader::at(&bytes, 3);
        assert_eq!(SliceRect::read(&mut reader, picture), expected);
        match expected {
            Ok(_) => assert_eq!(reader.finish_rbsp(), Ok(())),
            Err(_) => assert_eq!(reader.position(), 3),
        }
    }
}

#[test]
fn num_ref_idx() {
    for value in [0, 1, 31, 32, 1000] {
        let bytes = coded(&[value], |_| ());
        let mut reader = BitReader::at(&bytes, 3);
        let expected = if value <= 31 { Ok(value) } else { Err(Error::BadNumRefIdx) };
        assert_eq!(read_num_ref_idx(&mut reader), expected);
        match expected {
            Ok(_) => assert_eq!(reader.finish_rbsp(), Ok(())),
            Err(_) => assert_eq!(reader.position(), 3),
        }
    }
}
