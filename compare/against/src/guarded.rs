//! A buffer with watched bytes before and after the part that is lent.

use std::ops::Range;

/// Watched bytes after the lent part.
const AFTER: usize = 96;

/// Bytes of which a part is lent.
pub struct Guarded {
    bytes: Vec<u8>,
    lent: Range<usize>,
}

impl Guarded {
    /// A copy of the bytes, behind some watched ones; how many sets its alignment, which is free.
    pub fn new(bytes: &[u8], before: usize) -> Guarded {
        let lent = before..before + bytes.len();
        let mut all = Vec::with_capacity(lent.end + AFTER);
        all.extend((0..before).map(guard));
        all.extend(bytes);
        all.extend((lent.end..lent.end + AFTER).map(guard));
        Guarded { bytes: all, lent }
    }

    /// The part to lend.
    pub fn lend(&mut self) -> &mut [u8] {
        &mut self.bytes[self.lent.clone()]
    }

    /// The lent part after the call, where no watched byte was written.
    pub fn back(self, name: &str) -> Result<Vec<u8>, String> {
        let watched = (0..self.lent.start).chain(self.lent.end..self.bytes.len());
        for place in watched {
            if self.bytes[place] != guard(place) {
                let from_start = place as i64 - self.lent.start as i64;
                let length = self.lent.len();
                return Err(format!(
                    "byte {from_start} of the {name}, which has {length}, was written"
                ));
            }
        }
        Ok(self.bytes[self.lent].to_vec())
    }
}

/// The watched byte of a place; never zero, and not one byte all over.
fn guard(place: usize) -> u8 {
    0xA0 | (place % 13) as u8
}
