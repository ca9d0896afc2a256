//! The extra block of request 2026-02: packages sealed with each choice and streams of lengths around it, with the answers that no. 15
//! and no. 16 give, and the two streams of one package.
use crate::inputs::{Cases, Lock, Random, lock, rooms};
use second::{
    algorithms::ALGORITHMS,
    samples::units,
    schemes::{SCHEMES, Scheme},
};

/// Sizes of packages, each with the length of its ciphertext and with the length that it has with an extra block.
const LENGTHS: [(usize, usize, usize); 12] = [
    (0, 0, 0),
    (1, 16, 16),
    (15, 16, 16),
    (16, 16, 16),
    (17, 32, 32),
    (4_080, 4_080, 4_080),
    (4_095, 4_096, 4_096),
    (4_096, 4_096, 4_112),
    (4_097, 4_112, 4_112),
    (8_192, 8_192, 8_208),
    (12_288, 12_288, 12_304),
    (65_536, 65_536, 65_552),
];

/// Any number but 0 is the choice, also one that a narrower number would take for 0. Each scheme has every second.
const CHOICES: [u64; 6] = [0, 0, 1, 2, 1 << 32, 1 << 63];

impl Cases {
    pub fn extra_blocks(&mut self) {
        for size in 0..self.locks.len() {
            for (n, least, most) in LENGTHS {
                for (extra, scheme) in CHOICES.into_iter().zip(SCHEMES.into_iter().cycle()) {
                    self.chosen(size, scheme, n, extra, if extra == 0 { least } else { most });
                }
                for more in [-16, -1, 0, 1, 15, 16, 17, 32] {
                    let Some(length) = least.checked_add_signed(more) else { continue };
                    self.lengthened(size, n, length, length == least || length == most);
                }
            }
        }
    }

    /// Sealed into so many bytes and the 8 before them.
    fn chosen(&mut self, size: usize, scheme: Scheme, n: usize, extra: u64, length: usize) {
        let (package, filling) = (self.r.bytes(n), self.r.sixteen());
        for (room, answer) in rooms(8 + length) {
            let call = self.locks[size].seal(scheme.number(), &package, filling, extra, room);
            self.known("extra block, sealed with each choice", call, answer);
        }
    }

    /// Any bytes are a ciphertext, if they are as many as there may be.
    fn lengthened(&mut self, size: usize, n: usize, length: usize, allowed: bool) {
        let stream = [&(n as u64).to_le_bytes()[..], &self.r.bytes(length)].concat();
        for (room, answer) in rooms(n) {
            let call = self.locks[size].open(self.r.scheme().number(), &stream, room);
            self.known("extra block, lengths of streams", call, if allowed { answer } else { 15 });
        }
    }
}

/// The package sealed with each choice into streams of these lengths: the same up to the extra block, and both open to it.
fn both(l: &Lock, scheme: Scheme, package: &[u8], filling: [u8; 16], least: usize, most: usize) -> Result<(), String> {
    let without = l.seal(scheme.number(), package, filling, 0, 8 + least).filled()?;
    let with = l.seal(scheme.number(), package, filling, 1, 8 + most).filled()?;
    if with[..8 + least] != without {
        return Err(format!("another stream with the extra block, {scheme:?}, of {} bytes", package.len()));
    }
    l.opens_to(scheme, &without, package)?;
    l.opens_to(scheme, &with, package)
}

/// A package has two streams where it may have an extra block, and one where it may not.
pub fn both_streams(seed: u64) -> Result<u64, String> {
    let (mut r, mut calls) = (Random(seed), 0);
    for algorithm in ALGORITHMS {
        let l = lock(&mut r, algorithm, units("one sheet, two streams"));
        for (n, least, most) in LENGTHS {
            for scheme in SCHEMES {
                both(&l, scheme, &r.bytes(n), r.sixteen(), least, most)?;
                calls += 4;
            }
        }
    }
    Ok(calls)
}
