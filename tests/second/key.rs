//! From password to key, and the verdict (01, "From password to key"; replies 11 and 12), by the steps of the text.
use crate::{
    aes::Aes,
    algorithms::Algorithm,
    descriptor::{Descriptor, parse},
    require,
    sha1::sha1,
};

/// The most units of a password.
pub const UNITS: usize = 255;

pub struct Derived {
    pub h: [u8; 20],
    pub b: [u8; 20],
    pub key: Vec<u8>,
}

pub fn derive(salt: &[u8], password: &[u16]) -> Derived {
    let text: Vec<u8> = password.iter().flat_map(|u| u.to_le_bytes()).collect();
    let mut h = sha1(&[salt, &text].concat());
    for i in 0..50_000u32 {
        h = sha1(&[&i.to_le_bytes()[..], &h].concat());
    }
    let b = sha1(&[&h[..], &[0; 4]].concat());
    let half = |mask: u8| {
        let mut block = [mask; 64];
        for (byte, x) in block.iter_mut().zip(b) {
            *byte ^= x;
        }
        sha1(&block)
    };
    Derived { h, b, key: [half(0x36), half(0x5c)].concat() }
}

/// AES under the password's key.
pub fn keyed(algorithm: Algorithm, salt: &[u8], password: &[u16]) -> Aes {
    Aes::new(&derive(salt, password).key[..algorithm.key_size() as usize]).unwrap()
}

/// Whether the hash of the decrypted verifier is the first 20 bytes of the decrypted hash.
pub fn matches(aes: &Aes, verifier: [u8; 16], hash: [u8; 32]) -> bool {
    sha1(&aes.decrypt(verifier)) == aes.decrypt_all(&hash)[..20]
}

/// The cipher under the password's key with the descriptor, or the first reply that applies: 1 to 10, 19, 11 and 12.
pub fn unlock(info: &[u8], password: &[u16], scheme: u64) -> Result<(Aes, Descriptor), u16> {
    let d = parse(info, scheme)?;
    require(password.len() <= UNITS, 11)?;
    let aes = keyed(d.algorithm, &d.salt, password);
    require(matches(&aes, d.verifier, d.hash), 12)?;
    Ok((aes, d))
}
