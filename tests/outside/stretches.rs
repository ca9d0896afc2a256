//! Stretches of packages (request 2026-05): their ends around those of blocks, of segments and of the package, with the answers that no. 20
//! and no. 16 give; what of the ciphertext counts for a stretch and what does not; and stretches side by side.
use crate::archive::parts;
use crate::inputs::{Cases, Lock, Random, lock, rooms};
use second::{
    algorithms::ALGORITHMS,
    samples::units,
    schemes::{SCHEMES, Scheme},
};
use std::{collections::BTreeSet, ops::Range};

/// Sizes of packages, and the choice of an extra block. Of the last two every end is tried with every other.
#[rustfmt::skip]
const SHEETS: [(usize, u64); 10] = [
    (0, 0), (1, 0), (16, 0), (17, 0), (4_096, 0), (4_097, 0), (4_112, 0), (8_192, 0), (4_096, 1), (8_193, 0),
];

/// How many pairs of ends are tried of the others.
const PAIRS: usize = 30;

/// Places in a package of that size, and past it: around the ends of blocks and segments and its own, and the largest number, which is one
/// less than 0.
fn places(size: usize) -> Vec<u64> {
    let ends = [0, 15, 16, 17, 4_095, 4_096, 4_097, 4_112, size as u64];
    let around = ends.into_iter().flat_map(|end| [end.wrapping_sub(1), end, end + 1]);
    around.collect::<BTreeSet<u64>>().into_iter().collect()
}

/// Every place with every other, in both orders, and with itself.
fn pairs(size: usize) -> Vec<(u64, u64)> {
    let places = places(size);
    places.iter().flat_map(|&from| places.iter().map(move |&to| (from, to))).collect()
}

impl Cases {
    pub fn stretches(&mut self) {
        for scheme in SCHEMES {
            for (turn, (n, extra)) in SHEETS.into_iter().enumerate() {
                let all = pairs(n);
                let chosen = if turn < SHEETS.len() - 2 { self.some(&all) } else { all };
                self.stretches_of("stretch, ends at edges", scheme, n, extra, &chosen);
            }
            let n = 20_000 + self.r.below(50_000);
            let (edges, inner) = (self.some(&pairs(n)), self.within(n));
            self.stretches_of("stretch, ends anywhere", scheme, n, 0, &[edges, inner].concat());
        }
    }

    /// Some of the pairs.
    fn some(&mut self, all: &[(u64, u64)]) -> Vec<(u64, u64)> {
        (0..PAIRS).map(|_| all[self.r.below(all.len())]).collect()
    }

    /// Ends anywhere in a package of that size.
    fn within(&mut self, size: usize) -> Vec<(u64, u64)> {
        let mut place = || self.r.below(size + 1) as u64;
        (0..PAIRS).map(|_| (place(), place())).map(|(a, b)| (a.min(b), a.max(b))).collect()
    }

    /// Stretches with these ends of one package.
    fn stretches_of(&mut self, group: &'static str, scheme: Scheme, n: usize, extra: u64, ends: &[(u64, u64)]) {
        let (size, package, filling) = (self.r.below(3), self.r.bytes(n), self.r.sixteen());
        let stream = self.locks[size].sealed(scheme, &package, filling, extra);
        for &(from, to) in ends {
            let known: Vec<(usize, u16)> =
                if from <= to && to <= n as u64 { rooms((to - from) as usize).collect() } else { vec![(self.r.below(64), 20)] };
            for (room, answer) in known {
                let call = self.locks[size].stretch(scheme.number(), &stream, from, to, room);
                self.known(group, call, answer);
            }
        }
    }
}

/// A package and its stream, from which stretches are taken by the archive alone.
struct Sheet<'a> {
    lock: &'a Lock,
    scheme: Scheme,
    package: Vec<u8>,
    stream: Vec<u8>,
}

impl Sheet<'_> {
    /// Whether a block of the package is chained to the one before it: not under ECB, and not at the beginning of a segment.
    fn chained(&self, block: usize) -> bool {
        self.scheme == Scheme::Chained && block % 256 != 0
    }

    /// Where in the stream stands what counts for a stretch: the blocks that it meets, and the one before to which they are chained.
    fn counting(&self, from: usize, to: usize) -> Range<usize> {
        if from == to {
            return 0..0;
        }
        let first = from / 16 - usize::from(self.chained(from / 16));
        8 + 16 * first..8 + 16 * to.div_ceil(16)
    }

    /// That the stretch of a stream is these bytes, with zeros after them where there is more room, and all else as it was.
    fn gives(&self, what: &str, stream: &[u8], from: usize, to: usize, bytes: &[u8]) -> Result<(), String> {
        let call = self.lock.stretch(self.scheme.number(), stream, from as u64, to as u64, to - from + 37);
        let got = call.by_archive();
        if got == call.left(Ok(bytes.to_vec())) {
            return Ok(());
        }
        let (size, scheme) = (self.package.len(), self.scheme);
        Err(format!("{what}: another stretch from {from} to {to} of {size} bytes, {scheme:?}: {}", parts(got.word)))
    }

    /// What does not count is changed: none of it, all of it, the bytes beside what counts, and others, one at a time.
    fn alone(&self, r: &mut Random, from: usize, to: usize) -> Result<u64, String> {
        let counting = self.counting(from, to);
        let others: Vec<usize> = (8..self.stream.len()).filter(|at| !counting.contains(at)).collect();
        let mut changes = vec![vec![], others.clone()];
        changes.extend(others.iter().filter(|&at| at + 1 == counting.start || *at == counting.end).map(|&at| vec![at]));
        changes.extend((0..others.len().min(4)).map(|_| vec![others[r.below(others.len())]]));
        for places in &changes {
            let mut stream = self.stream.clone();
            places.iter().for_each(|&at| stream[at] ^= 1 + r.below(255) as u8);
            self.gives("bytes that do not count", &stream, from, to, &self.package[from..to])?;
        }
        Ok(changes.len() as u64)
    }

    /// A byte of the block before is changed, the one that a chained block's byte is added to: the same bits of that byte are turned, and
    /// nothing else. Where the block is not chained to it, nothing is.
    fn linked(&self, r: &mut Random, from: usize, to: usize) -> Result<u64, String> {
        if from < 16 || from == to {
            return Ok(0);
        }
        let (bits, mut bytes, mut stream) = (1 << r.below(8), self.package[from..to].to_vec(), self.stream.clone());
        stream[8 + from - 16] ^= bits;
        if self.chained(from / 16) {
            bytes[0] ^= bits;
        }
        self.gives("the block before", &stream, from, to, &bytes)?;
        Ok(1)
    }

    /// Stretches between these places, from the package's beginning to its end, are together the package.
    fn side_by_side(&self, cuts: &[usize]) -> Result<u64, String> {
        let mut joined = vec![];
        for pair in cuts.windows(2) {
            let (from, to) = (pair[0], pair[1]);
            joined.extend(self.lock.stretch(self.scheme.number(), &self.stream, from as u64, to as u64, to - from).filled()?);
        }
        if joined != self.package {
            return Err(format!("stretches side by side are not the package, cut at {cuts:?}"));
        }
        Ok(cuts.len() as u64 - 1)
    }
}

/// In one block and in several, in one segment and in both, and empty ones.
#[rustfmt::skip]
const STRETCHES: [(usize, usize); 20] = [
    (0, 0), (0, 1), (0, 16), (15, 17), (16, 16), (16, 32), (17, 31), (17, 48), (31, 33), (4_080, 4_096),
    (4_095, 4_097), (4_096, 4_096), (4_096, 4_097), (4_096, 4_112), (4_097, 4_113), (4_112, 4_128), (100, 5_000),
    (0, 8_192), (8_191, 8_192), (8_192, 8_192),
];

/// Each stretch of a package, some more at random, and the package cut at random.
fn of(sheet: &Sheet, r: &mut Random) -> Result<u64, String> {
    let size = sheet.package.len();
    let mut random = |n: usize| {
        let mut places: Vec<usize> = (0..n).map(|_| r.below(size + 1)).collect();
        places.sort();
        places
    };
    let more = [random(2), random(2), random(2)].map(|ends| (ends[0], ends[1]));
    let cuts = [vec![0], random(12), vec![size]].concat();
    let mut calls = sheet.side_by_side(&cuts)?;
    for (from, to) in STRETCHES.into_iter().chain(more) {
        calls += sheet.alone(r, from, to)? + sheet.linked(r, from, to)?;
    }
    Ok(calls)
}

/// What counts for a stretch, and what does not: of a package that ends with a segment, with its extra block, and of one a byte longer.
pub fn by_blocks(seed: u64) -> Result<u64, String> {
    let (mut r, mut calls) = (Random(seed), 0);
    for algorithm in ALGORITHMS {
        let lock = &lock(&mut r, algorithm, units("one stretch of a sheet"));
        for scheme in SCHEMES {
            for (n, extra) in [(8_192, 1), (8_193, 0)] {
                let package = r.bytes(n);
                let stream = lock.sealed(scheme, &package, r.sixteen(), extra);
                calls += of(&Sheet { lock, scheme, package, stream }, &mut r)?;
            }
        }
    }
    Ok(calls)
}
