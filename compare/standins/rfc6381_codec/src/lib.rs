// Stands in for a crate that one function of the original's sps.rs names. Nothing of it is called.
pub struct Codec;

impl Codec {
    pub fn avc1(_profile: u8, _constraints: u8, _level: u8) -> Codec {
        Codec
    }
}
