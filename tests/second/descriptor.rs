//! EncryptionInfo read from its front to its end (01, "EncryptionInfo, byte for byte"; replies 1 to 10, then 19). Each reply is given
//! where the reading first meets what is wrong, so that the order of the replies is the order of the code.
use crate::{algorithms::Algorithm, require, schemes::Scheme};

#[derive(Debug, PartialEq)]
pub struct Descriptor {
    pub major: u16,
    pub minor: u16,
    pub algorithm: Algorithm,
    pub name_place: u32,
    pub name_length: u32,
    pub salt: [u8; 16],
    pub verifier: [u8; 16],
    pub hash: [u8; 32],
    pub scheme: Scheme,
}

impl Descriptor {
    /// The 88 bytes in which the outside interface hands a descriptor over.
    pub fn bytes(&self) -> Vec<u8> {
        let mut out = [self.major.to_le_bytes(), self.minor.to_le_bytes()].concat();
        for number in [self.algorithm.id, self.algorithm.key_size(), self.name_place, self.name_length] {
            out.extend(number.to_le_bytes());
        }
        [&out[..], &self.salt, &self.verifier, &self.hash, &(self.scheme as u32).to_le_bytes()].concat()
    }
}

/// What is left to read.
struct Reader<'a>(&'a [u8]);

impl Reader<'_> {
    fn take<const N: usize>(&mut self) -> [u8; N] {
        let (front, rest) = self.0.split_at(N);
        self.0 = rest;
        front.try_into().unwrap()
    }

    fn two(&mut self) -> u16 {
        u16::from_le_bytes(self.take())
    }

    fn four(&mut self) -> u32 {
        u32::from_le_bytes(self.take())
    }
}

pub fn parse(info: &[u8], scheme: u64) -> Result<Descriptor, u16> {
    require(info.len() >= 12, 1)?;
    let mut rest = Reader(info);
    let (major, minor, _flags) = (rest.two(), rest.two(), rest.four());
    require(minor == 2 && (2..=4).contains(&major), 2)?;
    let header_size = rest.four();
    require((32..=4_096).contains(&header_size), 3)?;
    require(info.len() == header_size as usize + 84, 4)?;

    let (_flags, size_extra, alg_id, alg_id_hash) = (rest.four(), rest.four(), rest.four(), rest.four());
    let (key_bits, _provider, _reserved1, _reserved2) = (rest.four(), rest.four(), rest.four(), rest.four());
    let name_length = (header_size - 32).checked_sub(size_extra).filter(|n| n % 2 == 0).ok_or(5u16)?;
    let algorithm = Algorithm::of_id(alg_id).ok_or(6u16)?;
    require(alg_id_hash == 0x8004, 7)?;
    require(key_bits == algorithm.bits, 8)?;
    let name_place = (info.len() - rest.0.len()) as u32;
    rest.0 = &rest.0[header_size as usize - 32..];

    let (salt_size, salt, verifier) = (rest.four(), rest.take(), rest.take());
    require(salt_size == 16, 9)?;
    let (hash_size, hash) = (rest.four(), rest.take());
    require(hash_size == 20, 10)?;
    let scheme = Scheme::of_number(scheme).ok_or(19u16)?;
    Ok(Descriptor { major, minor, algorithm, name_place, name_length, salt, verifier, hash, scheme })
}
