//! Inputs: every string over some bytes, random streams, damaged copies; and rooms whose every byte is known.

/// Bytes that mean something to escaping or framing, and two that do not.
pub const TELLING: [u8; 6] = [0x00, 0x01, 0x02, 0x03, 0x04, 0xFF];

/// Calls `f` on every string over `alphabet` of at most `most` bytes, shorter ones before those that they begin. `f` gets what it returned for the
/// string without its last byte.
pub fn every<T>(alphabet: &[u8], most: usize, first: &T, f: &mut impl FnMut(&T, &[u8]) -> T) {
    fn grow<T>(alphabet: &[u8], most: usize, s: &mut Vec<u8>, before: &T, f: &mut impl FnMut(&T, &[u8]) -> T) {
        for &b in alphabet {
            s.push(b);
            let here = f(before, s);
            if s.len() < most {
                grow(alphabet, most, s, &here, f);
            }
            s.pop();
        }
    }
    grow(alphabet, most, &mut Vec::new(), first, f);
}

/// SplitMix64.
pub struct Random(u64);

impl Random {
    pub fn new(seed: u64) -> Self {
        Random(seed)
    }

    pub fn next(&mut self) -> u64 {
        self.0 = self.0.wrapping_add(0x9E37_79B9_7F4A_7C15);
        let mut z = self.0;
        z = (z ^ (z >> 30)).wrapping_mul(0xBF58_476D_1CE4_E5B9);
        z = (z ^ (z >> 27)).wrapping_mul(0x94D0_49BB_1331_11EB);
        z ^ (z >> 31)
    }

    pub fn below(&mut self, n: usize) -> usize {
        (self.next() % n as u64) as usize
    }

    pub fn chance(&mut self, one_in: usize) -> bool {
        self.below(one_in) == 0
    }

    /// A byte; `zeros` of 8 are 00 and as many 00 to 04.
    pub fn byte(&mut self, zeros: usize) -> u8 {
        let k = self.below(8);
        if k < zeros {
            0
        } else if k < 2 * zeros {
            self.below(5) as u8
        } else {
            self.next() as u8
        }
    }

    pub fn bytes(&mut self, len: usize, zeros: usize) -> Vec<u8> {
        (0..len).map(|_| self.byte(zeros)).collect()
    }

    /// A length around a limit: the original's chunks of 128, a word, a page.
    pub fn length(&mut self) -> usize {
        let near = [0, 1, 3, 8, 16, 64, 128, 129, 256, 384, 512];
        if self.chance(3) {
            return self.below(300);
        }
        let at = near[self.below(near.len())];
        (at + self.below(7)).saturating_sub(3)
    }

    /// A copy with one to three bytes changed, left out or put in.
    pub fn damage(&mut self, good: &[u8]) -> Vec<u8> {
        let mut bad = good.to_vec();
        for _ in 0..1 + self.below(3) {
            let at = self.below(bad.len() + 1);
            match self.below(3) {
                0 if at < bad.len() => bad[at] = self.byte(3),
                1 if at < bad.len() => {
                    bad.remove(at);
                }
                _ => {
                    let b = self.byte(3);
                    bad.insert(at, b);
                }
            }
        }
        bad
    }
}

/// What stands in a room before it is lent.
pub fn stain(i: usize) -> u8 {
    (i as u8).wrapping_mul(37) ^ 0xA5
}

pub fn room(len: usize) -> Vec<u8> {
    (0..len).map(stain).collect()
}

/// The room holds `bytes` and behind them what was there.
pub fn holds(room: &[u8], bytes: &[u8]) -> bool {
    room.starts_with(bytes) && (bytes.len()..room.len()).all(|i| room[i] == stain(i))
}

/// The same of marks.
pub fn mark_room(len: usize) -> Vec<u64> {
    (0..len).map(|i| u64::from(stain(i)) << 40).collect()
}

pub fn holds_marks(room: &[u64], marks: &[u64]) -> bool {
    room.starts_with(marks) && (marks.len()..room.len()).all(|i| room[i] == u64::from(stain(i)) << 40)
}
