//! A new EncryptionInfo (request 2026-01; the layout is 01's, "EncryptionInfo, byte for byte"; replies 3, 5, 8, 11 and 16): what is
//! written, or the reply.
use crate::{
    aes::Aes,
    algorithms::Algorithm,
    key::{UNITS, keyed},
    require,
    sha1::sha1,
};

/// The whole stream, given the room of the output.
pub fn write_info(
    bits: u64,
    password: &[u16],
    name: &[u8],
    salt: [u8; 16],
    verifier: [u8; 16],
    filling: [u8; 12],
    room: usize,
) -> Result<Vec<u8>, u16> {
    require(name.len() <= 4_064, 3)?;
    require(name.len() % 2 == 0, 5)?;
    let algorithm = Algorithm::of_bits(bits).ok_or(8u16)?;
    require(password.len() <= UNITS, 11)?;
    require(room >= 116 + name.len(), 16)?;
    let aes = keyed(algorithm, &salt, password);
    Ok([header(algorithm, name), locked(&aes, salt, verifier, filling)].concat())
}

/// Version 3.2, Flags and HeaderSize, then EncryptionHeader (004 2.3.2).
fn header(algorithm: Algorithm, name: &[u8]) -> Vec<u8> {
    let mut out = vec![3, 0, 2, 0];
    for number in [0x24, 32 + name.len() as u32, 0x24, 0, algorithm.id, 0x8004, algorithm.bits, 24, 0, 0] {
        out.extend(number.to_le_bytes());
    }
    [&out[..], name].concat()
}

/// EncryptionVerifier (004 2.3.3) of a verifier that is still to be encrypted.
pub fn locked(aes: &Aes, salt: [u8; 16], verifier: [u8; 16], filling: [u8; 12]) -> Vec<u8> {
    let hash = [&sha1(&verifier)[..], &filling].concat();
    encryption_verifier(&salt, &aes.encrypt(verifier), &aes.encrypt_all(&hash))
}

/// EncryptionVerifier with these fields.
pub fn encryption_verifier(salt: &[u8], verifier: &[u8], hash: &[u8]) -> Vec<u8> {
    [&[16, 0, 0, 0], salt, verifier, &[20, 0, 0, 0], hash].concat()
}
