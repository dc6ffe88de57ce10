//! Little-endian numbers in a record (01: "numbers little-endian").

/// The 16-bit number at bytes `place` and `place + 1`.
#[inline(always)]
pub fn get16(record: &[u8], place: usize) -> u16 {
    u16::from_le_bytes([record[place], record[place + 1]])
}

/// The 32-bit number at bytes `place` to `place + 3`.
#[inline(always)]
pub fn get32(record: &[u8], place: usize) -> u32 {
    u32::from_le_bytes([
        record[place],
        record[place + 1],
        record[place + 2],
        record[place + 3],
    ])
}

/// Writes a 16-bit number at bytes `place` and `place + 1`.
#[inline(always)]
pub fn put16(record: &mut [u8], place: usize, number: u16) {
    record[place..place + 2].copy_from_slice(&number.to_le_bytes());
}

/// Writes a 32-bit number at bytes `place` to `place + 3`.
#[inline(always)]
pub fn put32(record: &mut [u8], place: usize, number: u32) {
    record[place..place + 4].copy_from_slice(&number.to_le_bytes());
}

/// Whether every byte is zero.
pub fn zeros(bytes: &[u8]) -> bool {
    bytes.iter().all(|&byte| byte == 0)
}
