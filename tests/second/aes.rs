//! AES from FIPS 197, in the tables' own terms: the substitution is computed from the field, products are by logarithms, and the
//! state is a matrix of rows, so that it has little in common with the flat lists and written tables that the crates prove.
use crate::algorithms::Algorithm;

/// A product in the field modulo x^8 + x^4 + x^3 + x + 1 (4.2).
fn product(mut a: u8, mut b: u8) -> u8 {
    let mut sum = 0;
    while b != 0 {
        if b & 1 == 1 {
            sum ^= a;
        }
        a = (a << 1) ^ if a & 0x80 != 0 { 0x1b } else { 0 };
        b >>= 1;
    }
    sum
}

/// The substitution and its inverse, from powers of the generator 3 (5.1.1, 5.3.2).
fn substitutions() -> ([u8; 256], [u8; 256]) {
    let (mut there, mut back) = ([0u8; 256], [0u8; 256]);
    let (mut power, mut inverse) = (1u8, 1u8);
    let third = 0xf6; // the inverse of 3
    let mut put = |x: u8, i: u8| {
        let s = i ^ i.rotate_left(1) ^ i.rotate_left(2) ^ i.rotate_left(3) ^ i.rotate_left(4) ^ 0x63;
        there[x as usize] = s;
        back[s as usize] = x;
    };
    put(0, 0);
    for _ in 0..255 {
        put(power, inverse);
        power = product(power, 3);
        inverse = product(inverse, third);
    }
    (there, back)
}

pub struct Aes {
    keys: Vec<[u8; 16]>,
    there: [u8; 256],
    back: [u8; 256],
}

impl Aes {
    /// The expanded key (5.2), or reply 8 for one that is not of 16, 24 or 32 bytes.
    pub fn new(key: &[u8]) -> Result<Aes, u16> {
        let rounds = Algorithm::of_bits(8 * key.len() as u64).ok_or(8u16)?.rounds;
        let (there, back) = substitutions();
        let words = key.len() / 4;
        let mut w: Vec<[u8; 4]> = key.chunks(4).map(|c| c.try_into().unwrap()).collect();
        let mut constant = 1;
        for i in words..4 * (rounds + 1) {
            let mut t = w[i - 1];
            if i % words == 0 {
                t.rotate_left(1);
                t = t.map(|b| there[b as usize]);
                t[0] ^= constant;
                constant = product(constant, 2);
            } else if words == 8 && i % words == 4 {
                t = t.map(|b| there[b as usize]);
            }
            let before = w[i - words];
            w.push(std::array::from_fn(|j| before[j] ^ t[j]));
        }
        let keys = w.chunks(4).map(|four| four.concat().try_into().unwrap()).collect();
        Ok(Aes { keys, there, back })
    }

    pub fn rounds(&self) -> usize {
        self.keys.len() - 1
    }

    pub fn last_round_key(&self) -> [u8; 16] {
        self.keys[self.rounds()]
    }

    pub fn encrypt(&self, block: [u8; 16]) -> [u8; 16] {
        let mut s = add(block, self.keys[0]);
        for r in 1..=self.rounds() {
            s = shift(s.map(|b| self.there[b as usize]), 1);
            if r < self.rounds() {
                s = mix(s, [2, 3, 1, 1]);
            }
            s = add(s, self.keys[r]);
        }
        s
    }

    pub fn decrypt(&self, block: [u8; 16]) -> [u8; 16] {
        let mut s = block;
        for r in (1..=self.rounds()).rev() {
            s = add(s, self.keys[r]);
            if r < self.rounds() {
                s = mix(s, [14, 11, 13, 9]);
            }
            s = shift(s, 3).map(|b| self.back[b as usize]);
        }
        add(s, self.keys[0])
    }

    /// Whole blocks, each encrypted by itself.
    pub fn encrypt_all(&self, bytes: &[u8]) -> Vec<u8> {
        each_block(bytes, |b| self.encrypt(b))
    }

    /// Whole blocks, each decrypted by itself.
    pub fn decrypt_all(&self, bytes: &[u8]) -> Vec<u8> {
        each_block(bytes, |b| self.decrypt(b))
    }
}

fn each_block(bytes: &[u8], turn: impl Fn([u8; 16]) -> [u8; 16]) -> Vec<u8> {
    bytes.chunks(16).flat_map(|c| turn(c.try_into().unwrap())).collect()
}

fn add(s: [u8; 16], k: [u8; 16]) -> [u8; 16] {
    std::array::from_fn(|i| s[i] ^ k[i])
}

/// Row r moved left by `times` r columns (5.1.2; three times as far is as far to the right, 5.3.1).
fn shift(s: [u8; 16], times: usize) -> [u8; 16] {
    std::array::from_fn(|i| s[4 * ((i / 4 + times * (i % 4)) % 4) + i % 4])
}

/// Each column by a matrix of which each row is the one before moved right (5.1.3, 5.3.3).
fn mix(s: [u8; 16], row: [u8; 4]) -> [u8; 16] {
    std::array::from_fn(|i| (0..4).fold(0, |sum, j| sum ^ product(row[(j + 4 - i % 4) % 4], s[i / 4 * 4 + j])))
}
