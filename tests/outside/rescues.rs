//! Rescues (request 2026-13): streams cut and too long, with the answers that no. 13, 14 and 16 give, beside the second implementation; and
//! every cut of some sheets, beside the package that was sealed, beside opening and beside the cut before it.
use crate::archive::{GUARD, Outcome, parts};
use crate::inputs::{Cases, Lock, Random, lock, rooms};
use second::{
    algorithms::ALGORITHMS,
    package::{LIMIT, rescued},
    samples::units,
    schemes::{SCHEMES, Scheme},
};
use std::collections::BTreeSet;

/// Sizes of packages, and the choice of an extra block; a stream without one is a cut of the same with it.
const SHEETS: [(usize, u64); 9] = [(0, 0), (1, 0), (15, 0), (16, 0), (17, 0), (33, 0), (300, 0), (4_096, 1), (4_097, 0)];

/// As many bytes stand behind a stream that is too long, or fewer.
const PAST: usize = 50;

/// Places in a stream of that length and past its end: around StreamSize, the first block and the end, a block from it and two.
fn edges(length: usize) -> BTreeSet<usize> {
    let ends = [length.saturating_sub(16), length, length + 16, length + 40];
    let around = ends.into_iter().flat_map(|end| [end.saturating_sub(1), end, end + 1]);
    [0, 7, 8, 9, 23, 24, 25].into_iter().chain(around).collect()
}

impl Cases {
    pub fn rescues(&mut self) {
        for (scheme, (n, extra)) in SCHEMES.into_iter().flat_map(|scheme| SHEETS.map(|sheet| (scheme, sheet))) {
            let (size, package, filling, past) = (self.r.below(3), self.r.bytes(n), self.r.sixteen(), self.r.bytes(PAST));
            let stream = self.locks[size].sealed(scheme, &package, filling, extra);
            let longer = [&stream[..], &past].concat();
            for cut in edges(stream.len()) {
                for (room, answer) in rooms(n) {
                    let call = self.locks[size].rescue(scheme.number(), &longer[..cut], room);
                    self.known("rescue, cut at edges", call, if cut < 8 { 13 } else { answer });
                }
            }
            self.resized(size, scheme, n as u64, &stream[8..]);
        }
    }

    /// A ciphertext of n bytes' package behind other StreamSizes, which it is too short for, or too long.
    fn resized(&mut self, size: usize, scheme: Scheme, n: u64, ciphertext: &[u8]) {
        let near = [n.wrapping_sub(16), n.wrapping_sub(1), n + 1, n + 16, 4_095, 4_096, 4_097];
        let far = [8, 16, 27, 28, 29, 32, 48, 63].map(|shift| n + (1 << shift));
        for told in near.into_iter().chain(far).chain([LIMIT as u64, LIMIT as u64 + 1, u64::MAX]) {
            let stream = [&told.to_le_bytes()[..], ciphertext].concat();
            let answer = if told > LIMIT as u64 { 14 } else { u16::from(told > 70_000) * 16 };
            let call = self.locks[size].rescue(scheme.number(), &stream, 70_000);
            self.known("rescue, another StreamSize", call, answer);
        }
    }
}

/// A package and its stream, with bytes behind its end.
struct Sheet<'a> {
    lock: &'a Lock,
    scheme: Scheme,
    package: Vec<u8>,
    longer: Vec<u8>,
    length: usize,
}

/// The bytes that a call says it recovered.
fn recovered(got: &Outcome) -> &[u8] {
    &got.memory[GUARD..GUARD + got.counts[1] as usize]
}

impl Sheet<'_> {
    /// What the first n bytes of the stream leave by the archive, which is what the second implementation gives and, of what is recovered,
    /// the package's own bytes.
    fn cut(&self, n: usize) -> Result<Outcome, String> {
        let (part, size) = (&self.longer[..n], self.package.len());
        let call = self.lock.rescue(self.scheme.number(), part, size + 37);
        let got = call.by_archive();
        let given = part.get(8..).map(|c| rescued(&self.lock.aes, &self.lock.salt, self.scheme, size, c)).ok_or(13);
        if got != call.left_rescued(given) {
            return Err(format!("another rescue, {}, counts {:x?}", parts(got.word), got.counts));
        }
        if n >= 8 && !self.package.starts_with(recovered(&got)) {
            return Err("what was recovered is not the package's".to_string());
        }
        Ok(got)
    }

    /// That the archive opens the same bytes to what was rescued from them, nothing zeroed and no surplus, or answers with 15 or as here.
    fn beside_opening(&self, n: usize, got: &Outcome) -> Result<(), String> {
        let size = self.package.len() as u64;
        let opened = self.lock.open(self.scheme.number(), &self.longer[..n], size as usize + 37).by_archive();
        let agree = match opened.word % 65_536 {
            0 => got.word == opened.word && got.memory == opened.memory && got.counts[1..4] == [size, 0, 0],
            15 => got.word == 65_536 * size,
            _ => got.word == opened.word,
        };
        if agree { Ok(()) } else { Err(format!("{}, and opening {}", parts(got.word), parts(opened.word))) }
    }

    /// Every cut, the empty one first: each recovers what the one before it did, or more. Opening stands beside all cuts of a short stream,
    /// and of a long one beside those at the ends of blocks and around its end. How many cuts, and how many of them with opening.
    fn cuts(&self) -> Result<(u64, u64), String> {
        let (mut before, mut beside) = (vec![], 0);
        for n in 0..=self.longer.len() {
            let told = |what| format!("{what}: {n} bytes of the {} of {}, {:?}", self.length, self.package.len(), self.scheme);
            let got = self.cut(n).map_err(told)?;
            if self.length < 1_000 || n % 16 == 8 || n + 20 > self.length {
                self.beside_opening(n, &got).map_err(told)?;
                beside += 1;
            }
            if n >= 8 {
                if !recovered(&got).starts_with(&before) {
                    return Err(told("less than one byte before".to_string()));
                }
                before = recovered(&got).to_vec();
            }
        }
        if before != self.package {
            return Err(format!("not all of {} bytes recovered, {:?}", self.package.len(), self.scheme));
        }
        Ok((self.longer.len() as u64 + 1, beside))
    }
}

/// Every length of each sheet's stream, from none of it to all and some bytes more, under both schemes.
pub fn every_cut(seed: u64) -> Result<u64, String> {
    let (mut r, mut cuts, mut beside) = (Random(seed), 0, 0);
    for (turn, (n, extra)) in SHEETS.into_iter().enumerate() {
        let lock = &lock(&mut r, ALGORITHMS[turn % 3], units("a cut download"));
        for scheme in SCHEMES {
            let package = r.bytes(n);
            let stream = lock.sealed(scheme, &package, r.sixteen(), extra);
            let (length, longer) = (stream.len(), [stream, r.bytes(PAST)].concat());
            let counted = Sheet { lock, scheme, package, longer, length }.cuts()?;
            (cuts, beside) = (cuts + counted.0, beside + counted.1);
        }
    }
    println!("{cuts:>6} rescue, every cut of {} streams, {beside} of them opened as well", 2 * SHEETS.len());
    Ok(cuts + beside)
}

/// The largest package with its stream cut in half, within a block.
pub fn half_of_the_largest(lock: &Lock, scheme: Scheme, stream: &[u8], package: &[u8]) -> Result<u64, String> {
    let got = lock.rescue(scheme.number(), &stream[..8 + LIMIT / 2 + 5], LIMIT).by_archive();
    let (front, rest) = got.memory[GUARD..GUARD + LIMIT].split_at(LIMIT / 2);
    let counted = got.counts[1..4] == [LIMIT as u64 / 2, LIMIT as u64 / 2, 0];
    if got.word == 65_536 * LIMIT as u64 && counted && front == &package[..LIMIT / 2] && rest.iter().all(|&byte| byte == 0) {
        Ok(1)
    } else {
        Err(format!("half of the largest package, {scheme:?}: {}, counts {:?}", parts(got.word), &got.counts[1..4]))
    }
}
