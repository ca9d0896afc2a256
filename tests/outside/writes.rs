//! What the writer of EncryptionInfo is called with, and what it writes, taken up by the other calls.
use crate::archive::{Call, Writing};
use crate::inputs::{Cases, Lock, Random};
use second::{
    algorithms::{ALGORITHMS, Algorithm},
    descriptor::Descriptor,
    key::unlock,
    samples::units,
    schemes::Scheme,
};

/// The writer's rules, in their order.
const RULES: [u16; 5] = [3, 5, 8, 11, 16];

/// The sizes of keys in bits, as the numbers that cross.
fn key_sizes() -> [u64; 3] {
    ALGORITHMS.map(|algorithm| algorithm.bits.into())
}

/// Breaks no rule, where bits is the size of a key: a name of so many bytes, and just enough room.
fn valid(r: &mut Random, bits: u64, name: usize) -> Writing {
    let (password, room) = (units("Ropeshadow 42"), 116 + name);
    Writing { bits, password, name: r.bytes(name), salt: r.sixteen(), verifier: r.sixteen(), filling: r.sixteen(), room }
}

/// Breaks the rule of that number alone, where there is room for a name so much longer.
fn broken(w: &mut Writing, rule: u16) {
    match rule {
        3 => w.name.extend([0; 4_066]),
        5 => w.name.push(0),
        8 => w.bits += 1,
        11 => w.password = vec![0x41; 256],
        16 => w.room = 115 + w.name.len(),
        _ => panic!("no rule of writing"),
    }
}

impl Cases {
    pub fn writes(&mut self) {
        self.broken_together();
        self.names();
        self.bits();
        self.units();
        self.rooms();
        self.fillings();
        self.random_writes();
    }

    fn write(&mut self, group: &'static str, writing: Writing, answer: u16) {
        self.known(group, Call::Write(writing), answer);
    }

    /// Every set of rules broken at once: the first is the answer.
    fn broken_together(&mut self) {
        for bits in key_sizes() {
            for set in 0..1 << RULES.len() {
                let mut w = Writing { room: 5_000, ..valid(&mut self.r, bits, 108) };
                let rules: Vec<u16> = (0..RULES.len()).filter(|i| set >> i & 1 == 1).map(|i| RULES[i]).collect();
                // from the last rule to the first, since a longer name needs more room
                rules.iter().rev().for_each(|&rule| broken(&mut w, rule));
                self.write("write, each set of rules broken", w, rules.first().copied().unwrap_or(0));
            }
        }
    }

    fn names(&mut self) {
        for bits in key_sizes() {
            for n in (0..=9).chain(104..=112).chain(4_057..=4_071).chain([8_128, 65_535, 65_536, 65_537, 65_644]) {
                let w = valid(&mut self.r, bits, n);
                self.write("write, lengths of the name", w, if n > 4_064 { 3 } else { 5 * (n % 2) as u16 });
            }
        }
    }

    /// Each number of bits up to twice the largest, and others that a narrower number would take for one of the three.
    fn bits(&mut self) {
        let sizes = key_sizes();
        let turned = sizes.into_iter().flat_map(|bits| (0..64).map(move |i| bits ^ (1 << i)));
        let moved = sizes.into_iter().flat_map(|bits| [bits / 8, bits << 8, bits << 16, bits << 32, bits.wrapping_neg(), !bits]);
        for bits in (0..=512).chain(turned).chain(moved) {
            let w = valid(&mut self.r, bits, 108);
            self.write("write, numbers of bits", w, if sizes.contains(&bits) { 0 } else { 8 });
        }
    }

    fn units(&mut self) {
        for bits in key_sizes() {
            for n in [0, 1, 2, 254, 255, 256, 257, 511, 512, 65_535, 65_536, 65_549] {
                let w = Writing { password: self.r.units(n), ..valid(&mut self.r, bits, 108) };
                self.write("write, lengths of the password", w, if n > 255 { 11 } else { 0 });
            }
        }
    }

    fn rooms(&mut self) {
        for bits in key_sizes() {
            for name in [0, 2, 108, 4_064] {
                let least = 116 + name;
                for room in [0, 1, 16, 115, least - 2, least - 1, least, least + 1, least + 37] {
                    let w = Writing { room, ..valid(&mut self.r, bits, name) };
                    self.write("write, rooms", w, if room < least { 16 } else { 0 });
                }
            }
        }
    }

    /// The last four of the filling's sixteen bytes, which don't count.
    fn fillings(&mut self) {
        for bits in key_sizes() {
            let w = valid(&mut self.r, bits, 108);
            for last in [[0; 4], [0xff; 4], [1, 0, 0, 0], [0, 0, 0, 0x80]] {
                let mut w = w.clone();
                w.filling[12..].copy_from_slice(&last);
                self.write("write, fillings", w, 0);
            }
        }
    }

    /// Anything at all, mostly within the limits.
    fn random_writes(&mut self) {
        for _ in 0..250 {
            let rarely = |r: &mut Random| r.below(6) == 0;
            let bits = if rarely(&mut self.r) { self.r.next() >> self.r.below(64) } else { key_sizes()[self.r.below(3)] };
            let name = if rarely(&mut self.r) { self.r.below(4_200) } else { 2 * self.r.below(100) };
            let units = if rarely(&mut self.r) { self.r.below(300) } else { self.r.below(40) };
            let room = if rarely(&mut self.r) { self.r.below(117 + name) } else { 116 + name + self.r.below(100) };
            let w = Writing { password: self.r.units(units), room, ..valid(&mut self.r, bits, name) };
            self.add("write, random", Call::Write(w));
        }
    }
}

/// The descriptor that a parse of what was written gives, in which the encrypted fields are those of the stream.
fn described(w: &Writing, info: &[u8], scheme: Scheme) -> Vec<u8> {
    let part = |from_end: usize| &info[info.len() - from_end..];
    let (algorithm, name_length) = (Algorithm::of_bits(w.bits).unwrap(), w.name.len() as u32);
    let (verifier, hash) = (*part(52).first_chunk().unwrap(), *part(32).first_chunk().unwrap());
    Descriptor { major: 3, minor: 2, algorithm, name_place: 44, name_length, salt: w.salt, verifier, hash, scheme }.bytes()
}

/// Written, parsed, judged, sealed under and opened.
fn followed(w: Writing, scheme: Scheme, package: &[u8], filling: [u8; 16]) -> Result<(), String> {
    let (info, number) = (Call::Write(w.clone()).filled()?, scheme.number());
    if (Call::Parse { info: info.clone(), scheme: number }).filled()? != described(&w, &info, scheme) {
        return Err(format!("another descriptor than was written, of {w:02x?}"));
    }
    let (aes, _) = unlock(&info, &w.password, number).map_err(|answer| format!("answer {answer} by the second implementation to {w:02x?}"))?;
    let l = Lock { info, password: w.password, salt: w.salt, aes };
    l.verdict(number).filled()?;
    let stream = l.seal(number, package, filling, 0, 8 + package.len().next_multiple_of(16)).filled()?;
    l.opens_to(scheme, &stream, package)
}

/// What the archive writes is a descriptor that it opens and seals with.
pub fn taken_up(seed: u64) -> Result<u64, String> {
    let (mut r, mut calls) = (Random(seed), 0);
    for bits in key_sizes() {
        for units in [0, 1, 255] {
            for name in [0, 108, 4_064] {
                let w = Writing { password: r.units(units), ..valid(&mut r, bits, name) };
                let n = r.below(100);
                followed(w, r.scheme(), &r.bytes(n), r.sixteen())?;
                calls += 5;
            }
        }
    }
    Ok(calls)
}
