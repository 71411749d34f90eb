//! A block's bytes: its numbers, its sums, and the layout of block 0.

pub const BLOCK: usize = 512;

pub fn check_holds(block: &[u8; BLOCK]) -> bool {
    sums(block) == (u16_at(block, 508), u16_at(block, 510))
}

/// Both sums modulo 65,536, in 16-bit arithmetic.
pub fn sums(block: &[u8; BLOCK]) -> (u16, u16) {
    let (mut plain, mut placed) = (0u16, 0u16);
    for (at, &byte) in block[..508].iter().enumerate() {
        plain = plain.wrapping_add(byte.into());
        placed = placed.wrapping_add(u16::from(byte).wrapping_mul(at as u16 + 1));
    }
    (plain, placed)
}

pub fn head_laid_out(head: &[u8; BLOCK]) -> bool {
    let marks = head[26];
    head.starts_with(b"RPMB")
        && [1, 2].contains(&u16_at(head, 4))
        && marks < 32
        && [8, 12, 16, 20, 28].iter().enumerate().all(|(bit, &at)| marks >> bit & 1 == 1 || u32_at(head, at) == 0)
        && head[27] == 0
        && zero(&head[32..508])
}

pub fn zero(bytes: &[u8]) -> bool {
    bytes.iter().fold(0, |all, byte| all | byte) == 0
}

pub fn u16_at(bytes: &[u8], at: usize) -> u16 {
    u16::from_le_bytes(bytes[at..at + 2].try_into().unwrap())
}

pub fn u32_at(bytes: &[u8], at: usize) -> u32 {
    u32::from_le_bytes(bytes[at..at + 4].try_into().unwrap())
}
