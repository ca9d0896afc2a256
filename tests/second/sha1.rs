//! SHA-1 from FIPS 180-4, in the form of section 6.1.3: the schedule is kept as sixteen words in a ring, so that it has little in
//! common with the array of eighty that the crates prove.
use crate::require;

const H: [u32; 5] = [0x6745_2301, 0xefcd_ab89, 0x98ba_dcfe, 0x1032_5476, 0xc3d2_e1f0];

/// The function and the constant of round `t` (4.1.1, 4.2.1).
fn of_round(t: usize, x: u32, y: u32, z: u32) -> (u32, u32) {
    match t / 20 {
        0 => (z ^ (x & (y ^ z)), 0x5a82_7999),
        1 => (x ^ y ^ z, 0x6ed9_eba1),
        2 => ((x & y) | (z & (x | y)), 0x8f1b_bcdc),
        _ => (x ^ y ^ z, 0xca62_c1d6),
    }
}

fn compress(h: &mut [u32; 5], block: &[u8]) {
    let mut ring = [0u32; 16];
    for (w, four) in ring.iter_mut().zip(block.chunks(4)) {
        *w = u32::from_be_bytes(four.try_into().unwrap());
    }
    let [mut a, mut b, mut c, mut d, mut e] = *h;
    for t in 0..80 {
        let s = t & 15;
        if t >= 16 {
            ring[s] = (ring[(s + 13) & 15] ^ ring[(s + 8) & 15] ^ ring[(s + 2) & 15] ^ ring[s]).rotate_left(1);
        }
        let (f, k) = of_round(t, b, c, d);
        let sum = a.rotate_left(5).wrapping_add(f).wrapping_add(e).wrapping_add(k).wrapping_add(ring[s]);
        (a, b, c, d, e) = (sum, a, b.rotate_left(30), c, d);
    }
    for (word, add) in h.iter_mut().zip([a, b, c, d, e]) {
        *word = word.wrapping_add(add);
    }
}

pub fn sha1(message: &[u8]) -> [u8; 20] {
    let mut padded = message.to_vec();
    padded.push(0x80);
    while padded.len() % 64 != 56 {
        padded.push(0);
    }
    padded.extend((8 * message.len() as u64).to_be_bytes());
    let mut h = H;
    for block in padded.chunks(64) {
        compress(&mut h, block);
    }
    let mut digest = [0; 20];
    for (four, word) in digest.chunks_mut(4).zip(h) {
        four.copy_from_slice(&word.to_be_bytes());
    }
    digest
}

/// The hash as a part of the product, or reply 18 for a message that is too long for it.
pub fn hashed(message: &[u8]) -> Result<[u8; 20], u16> {
    require(message.len() <= 65_536, 18)?;
    Ok(sha1(message))
}
