//! Chained packages (request 2026-04; 001, "EncryptedPackage decryption (AES-CBC, 0x1000 segments)", and 003): AES-CBC in segments that
//! know nothing of each other. How many there are is told by the package's size, whatever the ciphertext's length.
use crate::{aes::Aes, sha1::sha1};

const SEGMENT: usize = 4_096;

/// What a segment starts from: the first 16 bytes of SHA-1(salt then its number in 4 bytes, low byte first), counted from 0.
pub fn starting_vector(salt: &[u8; 16], number: u32) -> [u8; 16] {
    *sha1(&[&salt[..], &number.to_le_bytes()].concat()).first_chunk().unwrap()
}

/// The segments of a package of so many bytes with its filling, or of its ciphertext, each with what it starts from. The last one has all
/// that is left, an extra block too; where the ciphertext is cut, the one that the cut is in is shorter and those after it are empty.
fn segments<'a>(salt: &'a [u8; 16], size: usize, bytes: &'a [u8]) -> impl Iterator<Item = ([u8; 16], &'a [u8])> {
    let count = size.div_ceil(SEGMENT);
    (0..count).map(move |i| {
        let end = if i + 1 == count { bytes.len() } else { bytes.len().min(SEGMENT * (i + 1)) };
        (starting_vector(salt, i as u32), &bytes[end.min(SEGMENT * i)..end])
    })
}

fn sum(a: [u8; 16], b: [u8; 16]) -> [u8; 16] {
    std::array::from_fn(|i| a[i] ^ b[i])
}

/// A package of so many bytes with its filling, encrypted: each block is added to the cipher block before it, then encrypted.
pub fn encrypt_all(aes: &Aes, salt: &[u8; 16], size: usize, plain: &[u8]) -> Vec<u8> {
    let mut out = vec![];
    for (mut before, segment) in segments(salt, size, plain) {
        for block in segment.chunks(16) {
            before = aes.encrypt(sum(block.try_into().unwrap(), before));
            out.extend(before);
        }
    }
    out
}

/// The ciphertext of a package of so many bytes, decrypted: each block is decrypted, then added to the cipher block before it.
pub fn decrypt_all(aes: &Aes, salt: &[u8; 16], size: usize, ciphertext: &[u8]) -> Vec<u8> {
    let mut out = vec![];
    for (mut before, segment) in segments(salt, size, ciphertext) {
        for block in segment.chunks(16) {
            let block = block.try_into().unwrap();
            out.extend(sum(aes.decrypt(block), before));
            before = block;
        }
    }
    out
}
