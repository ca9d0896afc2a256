//! The three algorithms (01, "EncryptionInfo, byte for byte"; their rounds are FIPS 197's, section 5).

#[derive(Clone, Copy, Debug, PartialEq)]
pub struct Algorithm {
    /// AlgID.
    pub id: u32,
    /// KeySize, as the file counts it.
    pub bits: u32,
    pub rounds: usize,
}

pub const ALGORITHMS: [Algorithm; 3] = [
    Algorithm { id: 0x660e, bits: 128, rounds: 10 },
    Algorithm { id: 0x660f, bits: 192, rounds: 12 },
    Algorithm { id: 0x6610, bits: 256, rounds: 14 },
];

impl Algorithm {
    pub fn of_id(id: u32) -> Option<Algorithm> {
        ALGORITHMS.into_iter().find(|a| a.id == id)
    }

    pub fn of_bits(bits: u64) -> Option<Algorithm> {
        ALGORITHMS.into_iter().find(|a| u64::from(a.bits) == bits)
    }

    /// The key's length in bytes.
    pub fn key_size(self) -> u32 {
        self.bits / 8
    }
}
