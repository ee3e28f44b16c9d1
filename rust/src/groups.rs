//! Slice groups of a picture parameter set (Rec 7.3.2.2, 7.4.2.2).
use crate::{raw, BitReader, Error};

/// The picture that slice groups are read for.
#[derive(Clone, Copy, Debug, PartialEq, Eq)]
pub struct Geometry {
    /// not 0
    pub pic_width_in_mbs: u32,
    /// a multiple of the width, of 36,864 at most
    pub pic_size_in_map_units: u32,
}

/// A rectangle of map units, by the places of two corners.
#[derive(Clone, Copy, Debug, PartialEq, Eq)]
pub struct SliceRect {
    /// its column is not right of that of `bottom_right`
    pub top_left: u32,
    /// not over the picture's size
    pub bottom_right: u32,
}

impl SliceRect {
    /// top_left and bottom_right, each ue(v). A refusal leaves the reader as it was.
    pub fn read(r: &mut BitReader<'_>, picture: Geometry) -> Result<SliceRect, Error> {
        let a = raw::read_slice_rect(r.position(), r.bytes(), picture.pic_width_in_mbs, picture.pic_size_in_map_units);
        r.moved(a[0], a[1])?;
        Ok(SliceRect { top_left: a[2] as u32, bottom_right: a[3] as u32 })
    }
}

/// How a slice group grows.
#[derive(Clone, Copy, Debug, PartialEq, Eq)]
pub enum SliceGroupChangeType {
    /// map type 3
    BoxOut,
    /// map type 4
    RasterScan,
    /// map type 5
    WipeOut,
}

/// Slice groups of a picture parameter set (Rec 7.3.2.2), from the map type on.
///
/// ```
/// use dampfeather::{BitReader, Geometry, SliceGroup, SliceRect};
///
/// let picture = Geometry { pic_width_in_mbs: 4, pic_size_in_map_units: 12 };
/// let mut reader = BitReader::new(&[0x62, 0x46, 0x80]);
/// let groups = SliceGroup::read(&mut reader, 1, picture).unwrap();
/// assert_eq!(groups, SliceGroup::ForegroundAndLeftover { rectangles: vec![SliceRect { top_left: 8, bottom_right: 12 }] });
/// assert_eq!(reader.position(), 17);
/// ```
#[derive(Clone, Debug, PartialEq, Eq)]
pub enum SliceGroup {
    /// map type 0
    Interleaved {
        /// of each group
        run_length_minus1: Vec<u32>,
    },
    /// map type 1
    Dispersed {
        /// as it was given
        num_slice_groups_minus1: u32,
    },
    /// map type 2
    ForegroundAndLeftover {
        /// of each group but the last
        rectangles: Vec<SliceRect>,
    },
    /// map types 3, 4 and 5
    Changing {
        /// which of them
        change_type: SliceGroupChangeType,
        /// as it was given
        num_slice_groups_minus1: u32,
        /// one bit
        slice_group_change_direction_flag: bool,
        /// below the picture's size
        slice_group_change_rate_minus1: u32,
    },
    /// map type 6
    ExplicitAssignment {
        /// as it was given
        num_slice_groups_minus1: u32,
        /// of each map unit; there may be fewer than the picture has, and ids over `num_slice_groups_minus1`
        slice_group_id: Vec<u8>,
    },
}

impl SliceGroup {
    /// From slice_group_map_type on. A refusal leaves the reader as it was.
    pub fn read(r: &mut BitReader<'_>, num_slice_groups_minus1: u32, picture: Geometry) -> Result<SliceGroup, Error> {
        // a picture that is refused needs no room for ids
        let mut ids = vec![0; picture.pic_size_in_map_units.min(36_864) as usize];
        let (width, size) = (picture.pic_width_in_mbs, picture.pic_size_in_map_units);
        let g = raw::read_slice_groups(r.position(), r.bytes(), num_slice_groups_minus1, width, size, &mut ids);
        r.moved(g.answer[0], g.answer[1])?;
        let n = num_slice_groups_minus1;
        Ok(match g.group[0] {
            0 => SliceGroup::Interleaved { run_length_minus1: g.runs[..n as usize + 1].to_vec() },
            1 => SliceGroup::Dispersed { num_slice_groups_minus1: n },
            2 => {
                let rect = |c: &[u32]| SliceRect { top_left: c[0], bottom_right: c[1] };
                SliceGroup::ForegroundAndLeftover { rectangles: g.rects.chunks(2).take(n as usize).map(rect).collect() }
            }
            6 => {
                ids.truncate(g.answer[3] as usize);
                SliceGroup::ExplicitAssignment { num_slice_groups_minus1: n, slice_group_id: ids }
            }
            change => SliceGroup::Changing {
                change_type: match change {
                    3 => SliceGroupChangeType::BoxOut,
                    4 => SliceGroupChangeType::RasterScan,
                    _ => SliceGroupChangeType::WipeOut,
                },
                num_slice_groups_minus1: n,
                slice_group_change_direction_flag: g.group[1] == 1,
                slice_group_change_rate_minus1: g.group[2] as u32,
            },
        })
    }
}

/// num_ref_idx_l0_default_active_minus1 or its fellow: ue(v) of at most 31.
///
/// ```
/// use dampfeather::{read_num_ref_idx, BitReader, Error};
///
/// // ue 1; ue 32 is over 31
/// assert_eq!(read_num_ref_idx(&mut BitReader::new(&[0x40])), Ok(1));
/// assert_eq!(read_num_ref_idx(&mut BitReader::new(&[0x04, 0x20])), Err(Error::BadNumRefIdx));
/// ```
pub fn read_num_ref_idx(r: &mut BitReader<'_>) -> Result<u32, Error> {
    let a = raw::read_num_ref_idx(r.position(), r.bytes());
    r.value(a)
}
