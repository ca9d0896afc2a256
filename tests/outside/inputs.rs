//! What the archive is called with: every input that decides a rule, around each limit, and seeded random ones.
use crate::archive::Call;
use second::{
    aes::Aes,
    algorithms::{ALGORITHMS, Algorithm},
    key::keyed,
    package::{LIMIT, sealed},
    samples::units,
    schemes::{SCHEMES, Scheme},
    writer::{encryption_verifier, locked},
};

/// SplitMix64: the same numbers for the same seed on every machine.
pub struct Random(pub u64);

impl Random {
    pub fn next(&mut self) -> u64 {
        self.0 = self.0.wrapping_add(0x9e37_79b9_7f4a_7c15);
        let mut z = self.0;
        z = (z ^ (z >> 30)).wrapping_mul(0xbf58_476d_1ce4_e5b9);
        z = (z ^ (z >> 27)).wrapping_mul(0x94d0_49bb_1331_11eb);
        z ^ (z >> 31)
    }

    pub fn below(&mut self, n: usize) -> usize {
        (self.next() % n as u64) as usize
    }

    pub fn bytes(&mut self, n: usize) -> Vec<u8> {
        (0..n).map(|_| self.next() as u8).collect()
    }

    pub fn sixteen(&mut self) -> [u8; 16] {
        self.bytes(16).try_into().unwrap()
    }

    pub fn units(&mut self, n: usize) -> Vec<u16> {
        (0..n).map(|_| self.next() as u16).collect()
    }

    /// The choice of an extra block: none, or a number with bits at its low end, its high end or anywhere.
    pub fn choice(&mut self) -> u64 {
        [0, 1, self.next() << 32, self.next()][self.below(4)]
    }

    pub fn scheme(&mut self) -> Scheme {
        SCHEMES[self.below(2)]
    }

    /// The number of a scheme, mostly; else one beside them, one that a narrower number would take for one of them, or any.
    pub fn scheme_number(&mut self) -> u64 {
        let others = [0, 3, (1 << 32) + 1, (1 << 32) + 2, u64::MAX, self.next()];
        if self.below(6) == 0 { others[self.below(6)] } else { self.scheme().number() }
    }
}

/// A descriptor with the password that it is for.
pub struct Lock {
    pub info: Vec<u8>,
    pub password: Vec<u16>,
    pub salt: [u8; 16],
    pub aes: Aes,
}

impl Lock {
    pub fn verdict(&self, scheme: u64) -> Call {
        Call::Verdict { info: self.info.clone(), password: self.password.clone(), scheme }
    }

    pub fn open(&self, scheme: u64, stream: &[u8], room: usize) -> Call {
        Call::Open { info: self.info.clone(), password: self.password.clone(), scheme, stream: stream.to_vec(), room }
    }

    pub fn stretch(&self, scheme: u64, stream: &[u8], from: u64, to: u64, room: usize) -> Call {
        let (info, password, stream) = (self.info.clone(), self.password.clone(), stream.to_vec());
        Call::Stretch { info, password, scheme, stream, from, to, room }
    }

    pub fn rescue(&self, scheme: u64, stream: &[u8], room: usize) -> Call {
        Call::Rescue { info: self.info.clone(), password: self.password.clone(), scheme, stream: stream.to_vec(), room }
    }

    pub fn seal(&self, scheme: u64, package: &[u8], filling: [u8; 16], extra: u64, room: usize) -> Call {
        let (info, password, package) = (self.info.clone(), self.password.clone(), package.to_vec());
        Call::Seal { info, password, scheme, package, filling, extra, room }
    }

    /// The stream of a package by the second implementation.
    pub fn sealed(&self, scheme: Scheme, package: &[u8], filling: [u8; 16], extra: u64) -> Vec<u8> {
        sealed(&self.aes, &self.salt, scheme, package, filling, extra != 0)
    }

    /// That the archive opens a stream to this package.
    pub fn opens_to(&self, scheme: Scheme, stream: &[u8], package: &[u8]) -> Result<(), String> {
        if self.open(scheme.number(), stream, package.len()).filled()? == package {
            Ok(())
        } else {
            Err(format!("another package than was sealed, {scheme:?}, of {} bytes", package.len()))
        }
    }
}

/// EncryptionInfo of that shape, with EncryptionVerifier at its end: what is not judged is random.
fn info_of(r: &mut Random, major: u16, header: u32, extra: u32, algorithm: Algorithm, verifier: &[u8]) -> Vec<u8> {
    let Algorithm { id, bits, .. } = algorithm;
    let mut info = [major.to_le_bytes(), 2u16.to_le_bytes()].concat();
    for number in [r.next() as u32, header, r.next() as u32, extra, id, 0x8004, bits, r.next() as u32, r.next() as u32, r.next() as u32] {
        info.extend(number.to_le_bytes());
    }
    [info, r.bytes(header as usize - 32), verifier.to_vec()].concat()
}

pub fn lock(r: &mut Random, algorithm: Algorithm, password: Vec<u16>) -> Lock {
    let salt = r.sixteen();
    let aes = keyed(algorithm, &salt, &password);
    let verifier = locked(&aes, salt, r.sixteen(), *r.bytes(12).first_chunk().unwrap());
    let major = 2 + r.below(3) as u16;
    Lock { info: info_of(r, major, 140, 0, algorithm, &verifier), password, salt, aes }
}

/// A call, with the answer where it is known without the second implementation.
pub struct Case {
    pub group: &'static str,
    pub call: Call,
    pub answer: Option<u16>,
}

pub struct Cases {
    pub list: Vec<Case>,
    pub r: Random,
    pub locks: Vec<Lock>,
}

/// The places of EncryptionInfo's four-byte numbers where HeaderSize is 140, and the values around each limit.
const NUMBERS: [usize; 12] = [0, 4, 8, 12, 16, 20, 24, 28, 32, 36, 152, 188];
#[rustfmt::skip]
const VALUES: [u32; 44] = [
    0, 1, 2, 15, 16, 17, 19, 20, 21, 30, 31, 32, 33, 34, 106, 107, 108, 109, 110, 127, 128, 129, 139, 140, 141, 191, 192, 193, 255, 256, 257,
    4_095, 4_096, 4_097, 0x660d, 0x660e, 0x660f, 0x6610, 0x6611, 0x6801, 0x8003, 0x8004, 0x8005, u32::MAX,
];

/// The rules of opening a stretch, in their order; those of opening are the same without 20, and a rescue's those of opening without 15.
const RULES: [u16; 18] = [1, 2, 3, 4, 5, 6, 7, 8, 9, 10, 19, 11, 12, 13, 14, 15, 20, 16];

/// What is broken, or left as it is, for an opening: the descriptor, the password, the scheme, the stream, the end of a stretch from its
/// start on, and the room.
#[derive(Clone)]
struct Opening {
    info: Vec<u8>,
    password: Vec<u16>,
    scheme: u64,
    stream: Vec<u8>,
    to: u64,
    room: usize,
}

fn put(bytes: &mut [u8], place: usize, number: u32) {
    bytes[place..place + 4].copy_from_slice(&number.to_le_bytes());
}

/// Breaks the rule of that number and no earlier one, where HeaderSize is 140.
fn broken(o: &mut Opening, rule: u16) {
    match rule {
        1 => o.info.truncate(11),
        2 => o.info[2] = 4,
        3 => put(&mut o.info, 8, 31),
        4 => o.info.push(0),
        5 => put(&mut o.info, 16, 107),
        6 => put(&mut o.info, 20, 0x6801),
        7 => put(&mut o.info, 24, 0x8003),
        8 => put(&mut o.info, 28, 129),
        9 => put(&mut o.info, 152, 17),
        10 => put(&mut o.info, 188, 0),
        11 => o.password = vec![0x41; 256],
        12 => o.password[0] ^= 1,
        13 => o.stream.truncate(3),
        14 => put(&mut o.stream, 4, 1),
        15 => o.stream.push(0),
        16 => o.room -= 1,
        19 => o.scheme += 1 << 32,
        20 => o.to += 1 << 32,
        _ => panic!("no rule of opening"),
    }
}

/// Just enough room, one byte less where there is such a room, and more; with the answers.
pub fn rooms(least: usize) -> impl Iterator<Item = (usize, u16)> {
    let less = least.checked_sub(1).map(|room| (room, 16));
    [(least, 0), (least + 37, 0)].into_iter().chain(less)
}

impl Cases {
    pub fn new(seed: u64) -> Cases {
        let mut r = Random(seed);
        let locks = ALGORITHMS.into_iter().map(|algorithm| lock(&mut r, algorithm, units("Ropeshadow 42"))).collect();
        let mut cases = Cases { list: vec![], r, locks };
        cases.hashes();
        cases.blocks();
        cases.shapes();
        cases.flips();
        cases.lengths();
        cases.numbers();
        cases.pairs();
        cases.passwords();
        cases.packages();
        cases.streams();
        cases.random();
        cases.extra_blocks();
        cases.schemes();
        cases.stretches();
        cases.rescues();
        cases.writes();
        cases
    }

    pub fn add(&mut self, group: &'static str, call: Call) {
        self.list.push(Case { group, call, answer: None });
    }

    pub fn known(&mut self, group: &'static str, call: Call, answer: u16) {
        self.list.push(Case { group, call, answer: Some(answer) });
    }

    fn hashes(&mut self) {
        for n in (0..=200).chain(4_090..=4_100).chain([65_535, 65_536, 65_537, 65_600, 200_000]) {
            let message = self.r.bytes(n);
            self.add("hash, each length", Call::Sha1 { message });
        }
        for _ in 0..1_500 {
            let n = self.r.below(400);
            let message = self.r.bytes(n);
            self.add("hash, random", Call::Sha1 { message });
        }
    }

    fn block(&mut self, group: &'static str, n: usize) {
        let (key, block) = (self.r.bytes(n), self.r.sixteen());
        self.add(group, Call::Encrypt { key: key.clone(), block });
        self.add(group, Call::Decrypt { key, block });
    }

    fn blocks(&mut self) {
        for n in (0..=70).chain([128, 192, 256, 65_536]) {
            self.block("block, each key length", n);
        }
        for algorithm in ALGORITHMS {
            for _ in 0..1_000 {
                self.block("block, random", algorithm.key_size() as usize);
            }
        }
    }

    /// Descriptors that are valid but for the password, of every shape at its limits.
    fn shapes(&mut self) {
        for algorithm in ALGORITHMS {
            for major in [2, 3, 4] {
                for header in [32, 33, 34, 35, 140, 4_094, 4_095, 4_096] {
                    for extra in [0, 1, 2, header - 32] {
                        let verifier = encryption_verifier(&self.r.bytes(16), &self.r.bytes(16), &self.r.bytes(32));
                        let info = info_of(&mut self.r, major, header, extra, algorithm, &verifier);
                        let scheme = self.r.scheme_number();
                        self.add("descriptor, each shape", Call::Parse { info, scheme });
                    }
                }
            }
        }
    }

    /// Each bit of a valid descriptor turned, and each byte for the calls that go on from there.
    fn flips(&mut self) {
        let filling = self.r.sixteen();
        let package = self.r.bytes(33);
        for size in 0..3 {
            let (info, password) = (self.locks[size].info.clone(), self.locks[size].password.clone());
            let sealed = SCHEMES.map(|scheme| self.locks[size].sealed(scheme, &package, filling, 0));
            for at in 0..info.len() {
                let turned = |bits: u8| {
                    let mut info = info.clone();
                    info[at] ^= bits;
                    info
                };
                for bit in 0..8 {
                    let scheme = self.r.scheme_number();
                    self.add("descriptor, each bit turned", Call::Parse { info: turned(1 << bit), scheme });
                }
                let info = turned(1 << self.r.below(8));
                let (password, scheme, package) = (password.clone(), self.r.scheme(), package.clone());
                let (stream, scheme) = (sealed[scheme as usize - 1].clone(), scheme.number());
                let call = match (at + size) % 3 {
                    0 => Call::Verdict { info, password, scheme },
                    1 => Call::Open { info, password, scheme, stream, room: 40 },
                    _ => Call::Seal { info, password, scheme, package, filling, extra: self.r.choice(), room: 60 },
                };
                self.add("each byte of the descriptor changed", call);
            }
        }
    }

    /// Each length of EncryptionInfo up to a few bytes more than is right.
    fn lengths(&mut self) {
        for size in 0..3 {
            let (info, password) = (self.locks[size].info.clone(), self.locks[size].password.clone());
            let longer = [&info[..], &self.r.bytes(4)].concat();
            for n in 0..=longer.len() {
                let (info, scheme) = (longer[..n].to_vec(), self.r.scheme_number());
                self.add("descriptor, each length", Call::Parse { info: info.clone(), scheme });
                self.add("verdict, each length", Call::Verdict { info, password: password.clone(), scheme });
            }
        }
    }

    /// Each number of the descriptor at each value, in a stream as long as before and in one as long as HeaderSize says.
    fn numbers(&mut self) {
        for size in 0..3 {
            for place in NUMBERS {
                for value in VALUES {
                    let (mut info, scheme) = (self.locks[size].info.clone(), self.r.scheme_number());
                    put(&mut info, place, value);
                    if place == 8 && value <= 8_192 {
                        let mut resized = info.clone();
                        resized.resize(value as usize + 84, 0);
                        self.add("descriptor, numbers at limits", Call::Parse { info: resized, scheme });
                    }
                    self.add("descriptor, numbers at limits", Call::Parse { info, scheme });
                }
            }
        }
    }

    /// Two rules broken at once, under each scheme: the earlier one is the answer.
    fn pairs(&mut self) {
        for (size, scheme) in (0..3).flat_map(|size| SCHEMES.map(|scheme| (size, scheme))) {
            let package = self.r.bytes(17);
            let filling = self.r.sixteen();
            let l = &self.locks[size];
            let stream = l.sealed(scheme, &package, filling, 0);
            let valid = Opening { info: l.info.clone(), password: l.password.clone(), scheme: scheme.number(), stream, to: 17, room: 17 };
            for (place, &first) in RULES.iter().enumerate() {
                for &second in &RULES[place..] {
                    let mut o = valid.clone();
                    // from the last rule to the first, since a stream or a descriptor that is cut has no later places
                    broken(&mut o, second);
                    if first != second {
                        broken(&mut o, first);
                    }
                    self.broken_calls(o, &package, filling, first, second);
                }
            }
        }
    }

    /// The calls that judge the second of the two rules, each answered with the first.
    fn broken_calls(&mut self, o: Opening, package: &[u8], filling: [u8; 16], first: u16, second: u16) {
        let Opening { info, password, scheme, stream, to, room } = o;
        let group = "two rules broken";
        if second <= 10 || second == 19 {
            self.known(group, Call::Parse { info: info.clone(), scheme }, first);
        }
        if second <= 12 || second == 19 {
            self.known(group, Call::Verdict { info: info.clone(), password: password.clone(), scheme }, first);
            let (info, password, package, extra) = (info.clone(), password.clone(), package.to_vec(), self.r.choice());
            self.known(group, Call::Seal { info, password, scheme, package, filling, extra, room: 39 }, first);
        }
        let neither = |rule: u16| first != rule && second != rule;
        if neither(20) {
            let (info, password, stream) = (info.clone(), password.clone(), stream.clone());
            self.known(group, Call::Open { info, password, scheme, stream, room }, first);
        }
        if neither(20) && neither(15) {
            let (info, password, stream) = (info.clone(), password.clone(), stream.clone());
            self.known(group, Call::Rescue { info, password, scheme, stream, room }, first);
        }
        self.known(group, Call::Stretch { info, password, scheme, stream, from: 0, to, room }, first);
    }

    /// Each length of a password, the right one and one with a unit changed.
    fn passwords(&mut self) {
        for n in 0..=257 {
            let password = self.r.units(n);
            let mut l = lock(&mut self.r, ALGORITHMS[n % 3], password);
            let scheme = self.r.scheme().number();
            self.known("password, each length", l.verdict(scheme), if n > 255 { 11 } else { 0 });
            if n > 0 && n % 4 == 0 && n < 256 {
                l.password[self.r.below(n)] ^= 1 << self.r.below(16);
                self.known("password, one unit changed", l.verdict(scheme), 12);
            }
        }
    }

    /// Each length of a package, sealed and opened: with just enough room, with one byte less and with more.
    fn packages(&mut self) {
        for size in 0..3 {
            for n in (0..=100).chain(4_093..=4_099).chain(65_533..=65_539) {
                self.package("sealed, each length", "opened, each length", size, Scheme::Ecb, n);
            }
            // whole segments, and what a byte or a block more or less makes of the last one
            for n in (0..=34).chain(4_079..=4_113).chain([8_191, 8_192, 8_193, 12_288, 65_535, 65_536, 65_537]) {
                self.package("sealed, chained", "opened, chained", size, Scheme::Chained, n);
            }
        }
    }

    fn package(&mut self, sealing: &'static str, opening: &'static str, size: usize, scheme: Scheme, n: usize) {
        let (package, filling, extra) = (self.r.bytes(n), self.r.sixteen(), self.r.choice());
        let stream = self.locks[size].sealed(scheme, &package, filling, extra);
        for (room, answer) in rooms(stream.len()) {
            let call = self.locks[size].seal(scheme.number(), &package, filling, extra, room);
            self.known(sealing, call, answer);
        }
        for (room, answer) in rooms(n) {
            let call = self.locks[size].open(scheme.number(), &stream, room);
            self.known(opening, call, answer);
        }
    }

    /// Streams that are cut, too long, of another StreamSize, or with a byte changed.
    fn streams(&mut self) {
        for (turn, (size, n)) in [(0, 0), (0, 33), (1, 16), (1, 79), (2, 31), (2, 48)].into_iter().enumerate() {
            let (package, filling, scheme) = (self.r.bytes(n), self.r.sixteen(), SCHEMES[turn % 2]);
            let stream = self.locks[size].sealed(scheme, &package, filling, 0);
            let scheme = scheme.number();
            let longer = [&stream[..], &self.r.bytes(17)].concat();
            for cut in 0..=longer.len() {
                self.add("stream, each length", self.locks[size].open(scheme, &longer[..cut], 96));
            }
            let around = [n as u64 + 1, (n as u64).wrapping_sub(1), n as u64 + 16, (n as u64).wrapping_sub(16)];
            let high = [8, 16, 24, 28, 29, 32, 40, 48, 56, 63].map(|shift| n as u64 + (1 << shift));
            for told in around.into_iter().chain(high).chain([LIMIT as u64, LIMIT as u64 + 1, u64::MAX]) {
                let changed = [&told.to_le_bytes()[..], &stream[8..]].concat();
                self.add("stream, another StreamSize", self.locks[size].open(scheme, &changed, 96));
            }
            for at in 0..stream.len() {
                let mut changed = stream.clone();
                changed[at] ^= 1 << self.r.below(8);
                self.add("stream, each byte changed", self.locks[size].open(scheme, &changed, 96));
            }
        }
    }

    /// Anything at all, mostly in the shape of what it should be.
    fn random(&mut self) {
        for turn in 0..2_000 {
            let size = self.r.below(3);
            let mut info = self.locks[size].info.clone();
            for _ in 0..self.r.below(3) {
                let at = self.r.below(48); // where the rules look
                info[at] = self.r.next() as u8;
            }
            if turn % 4 == 0 {
                let n = self.r.below(260);
                info = self.r.bytes(n);
            }
            let mut password = self.locks[size].password.clone();
            if self.r.below(8) == 0 {
                let n = self.r.below(300);
                password = self.r.units(n);
            }
            let (n, room) = (self.r.below(400), self.r.below(600));
            let (package, filling, extra) = (self.r.bytes(n), self.r.sixteen(), self.r.choice());
            let mut stream = self.locks[size].sealed(self.r.scheme(), &package, filling, extra);
            let scheme = self.r.scheme_number();
            if self.r.below(4) == 0 {
                let n = self.r.below(64);
                stream = self.r.bytes(n);
            }
            self.add(
                "random",
                match turn % 3 {
                    0 => Call::Open { info, password, scheme, stream, room },
                    1 => Call::Rescue { info, password, scheme, stream, room },
                    _ => Call::Seal { info, password, scheme, package, filling, extra, room },
                },
            );
        }
    }
}
