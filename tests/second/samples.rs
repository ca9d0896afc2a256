//! What vectors.rs and sheets.rs have in common: the samples that they try, and how they print bytes.

pub fn hex(bytes: &[u8]) -> String {
    bytes.iter().map(|b| format!("{b:02x}")).collect()
}

pub fn units(text: &str) -> Vec<u16> {
    text.encode_utf16().collect()
}

/// 00 to 0f.
pub fn rising() -> [u8; 16] {
    std::array::from_fn(|i| i as u8)
}

/// 00 to ff by steps of 11: the salt of 000 8.1, the verifier of 000 8.4, the block of FIPS 197 appendix C.
pub fn stepping() -> [u8; 16] {
    std::array::from_fn(|i| 0x11 * i as u8)
}

/// Byte i is i modulo 251.
pub fn pattern(n: u32) -> Vec<u8> {
    (0..n).map(|i| (i % 251) as u8).collect()
}
