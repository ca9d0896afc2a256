//! The schemes of request 2026-04: each call under numbers that are one and numbers that are none, and packages that were sealed under one
//! and are opened under the other, which nothing can refuse.
use crate::archive::Call;
use crate::inputs::{Cases, Lock, Random, lock};
use second::{
    algorithms::ALGORITHMS,
    samples::units,
    schemes::{SCHEMES, Scheme},
};

/// Sizes of packages, of a block at least, in one segment, two and more.
const SIZES: [usize; 10] = [16, 17, 4_095, 4_096, 4_097, 4_112, 8_191, 8_192, 8_193, 65_536];

impl Cases {
    /// The first numbers, each scheme with one bit turned, and numbers that a narrower one would take for a scheme.
    pub fn schemes(&mut self) {
        let numbers = SCHEMES.map(Scheme::number);
        let turned = numbers.into_iter().flat_map(|n| (0..64).map(move |i| n ^ (1 << i)));
        let moved = numbers.into_iter().flat_map(|n| [n << 8, n << 16, n << 32, n << 62, n.wrapping_neg(), !n, (1 << 16) + n]);
        for scheme in (0..=64).chain(turned).chain(moved) {
            let answer = if scheme == 1 || scheme == 2 { 0 } else { 19 };
            let (size, package, filling) = (self.r.below(3), self.r.bytes(31), self.r.sixteen());
            let l = &self.locks[size];
            let stream = l.sealed(Scheme::Ecb, &package, filling, 0);
            let parse = Call::Parse { info: l.info.clone(), scheme };
            let opened = [l.open(scheme, &stream, 40), l.rescue(scheme, &stream, 40)];
            for call in [parse, l.verdict(scheme), l.seal(scheme, &package, filling, 0, 50)].into_iter().chain(opened) {
                self.known("schemes, each number", call, answer);
            }
        }
    }
}

/// Sealed under one scheme and opened under it, and under the other: answer 0, and each block another.
fn swapped(l: &Lock, one: Scheme, other: Scheme, package: &[u8], filling: [u8; 16]) -> Result<(), String> {
    let stream = l.seal(one.number(), package, filling, 0, 8 + package.len().next_multiple_of(16)).filled()?;
    l.opens_to(one, &stream, package)?;
    let wrong = l.open(other.number(), &stream, package.len()).filled()?;
    if wrong.chunks_exact(16).zip(package.chunks_exact(16)).any(|(a, b)| a == b) {
        return Err(format!("a block sealed {one:?} is the same {other:?}, of {} bytes", package.len()));
    }
    Ok(())
}

/// Each scheme's streams as the other's.
pub fn both_ways(seed: u64) -> Result<u64, String> {
    let (mut r, mut calls) = (Random(seed), 0);
    for algorithm in ALGORITHMS {
        let l = lock(&mut r, algorithm, units("one stream, two schemes"));
        for n in SIZES {
            let (package, filling) = (r.bytes(n), r.sixteen());
            swapped(&l, Scheme::Ecb, Scheme::Chained, &package, filling)?;
            swapped(&l, Scheme::Chained, Scheme::Ecb, &package, filling)?;
            calls += 6;
        }
    }
    Ok(calls)
}
