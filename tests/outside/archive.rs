//! A call of the outside interface, made through the archive and made by the second implementation. Either way the outcome is the
//! returned number and the whole memory in which `out` and a rescue's counts lay, guards before and after them included.
use second::{
    aes::Aes,
    descriptor, key,
    package::{self, Rescued},
    sha1, writer,
};

#[link(name = "ropeshadow", kind = "static")]
#[rustfmt::skip]
extern "C" {
    fn ropeshadow_sha1(message: *const u8, size: usize, out: *mut u8) -> u64;
    fn ropeshadow_aes_encrypt(key: *const u8, key_size: usize, low: u64, high: u64, out: *mut u8) -> u64;
    fn ropeshadow_aes_decrypt(key: *const u8, key_size: usize, low: u64, high: u64, out: *mut u8) -> u64;
    fn ropeshadow_parse(info: *const u8, info_size: usize, scheme: u64, out: *mut u8) -> u64;
    fn ropeshadow_verdict(info: *const u8, info_size: usize, password: *const u16, units: usize, scheme: u64) -> u64;
    fn ropeshadow_open(info: *const u8, info_size: usize, password: *const u16, units: usize, scheme: u64,
                       stream: *const u8, stream_size: usize, out: *mut u8, room: usize) -> u64;
    fn ropeshadow_stretch(info: *const u8, info_size: usize, password: *const u16, units: usize, scheme: u64,
                          stream: *const u8, stream_size: usize, from: u64, to: u64, out: *mut u8, room: usize) -> u64;
    fn ropeshadow_rescue(info: *const u8, info_size: usize, password: *const u16, units: usize, scheme: u64,
                         stream: *const u8, stream_size: usize, out: *mut u8, room: usize, counts: *mut u64) -> u64;
    fn ropeshadow_seal(info: *const u8, info_size: usize, password: *const u16, units: usize, scheme: u64,
                       package: *const u8, package_size: usize, low: u64, high: u64, extra: u64, out: *mut u8, room: usize) -> u64;
    fn ropeshadow_write_info(bits: u64, password: *const u16, units: usize, name: *const u8, name_size: usize,
                             salt_low: u64, salt_high: u64, verifier_low: u64, verifier_high: u64,
                             filling_low: u64, filling_high: u64, out: *mut u8, room: usize) -> u64;
}

/// What a new EncryptionInfo is written from. Of the filling, which crosses as sixteen bytes, twelve count.
#[derive(Clone, Debug, PartialEq)]
pub struct Writing {
    pub bits: u64,
    pub password: Vec<u16>,
    pub name: Vec<u8>,
    pub salt: [u8; 16],
    pub verifier: [u8; 16],
    pub filling: [u8; 16],
    pub room: usize,
}

#[derive(Clone, Debug, PartialEq)]
pub enum Call {
    Sha1 { message: Vec<u8> },
    Encrypt { key: Vec<u8>, block: [u8; 16] },
    Decrypt { key: Vec<u8>, block: [u8; 16] },
    Parse { info: Vec<u8>, scheme: u64 },
    Verdict { info: Vec<u8>, password: Vec<u16>, scheme: u64 },
    Open { info: Vec<u8>, password: Vec<u16>, scheme: u64, stream: Vec<u8>, room: usize },
    Stretch { info: Vec<u8>, password: Vec<u16>, scheme: u64, stream: Vec<u8>, from: u64, to: u64, room: usize },
    Rescue { info: Vec<u8>, password: Vec<u16>, scheme: u64, stream: Vec<u8>, room: usize },
    Seal { info: Vec<u8>, password: Vec<u16>, scheme: u64, package: Vec<u8>, filling: [u8; 16], extra: u64, room: usize },
    Write(Writing),
}

#[derive(Debug, PartialEq)]
pub struct Outcome {
    pub word: u64,
    pub memory: Vec<u8>,
    /// What was recovered, what was zeroed and the surplus, between their guards.
    pub counts: [u64; 5],
}

const OLD: u8 = 0xa5;
pub const GUARD: usize = 64;
const OLD_COUNTS: [u64; 5] = [u64::from_ne_bytes([OLD; 8]); 5];

/// A returned number, taken apart.
pub fn parts(word: u64) -> String {
    format!("answer {} size {}", word % 65_536, word / 65_536)
}

/// Sixteen bytes as the two numbers that they cross as.
fn halves(bytes: &[u8; 16]) -> (u64, u64) {
    let (low, high) = bytes.split_at(8);
    (u64::from_le_bytes(low.try_into().unwrap()), u64::from_le_bytes(high.try_into().unwrap()))
}

impl Call {
    /// The length of `out`.
    pub fn room(&self) -> usize {
        match self {
            Call::Sha1 { .. } => 20,
            Call::Encrypt { .. } | Call::Decrypt { .. } => 16,
            Call::Parse { .. } => 88,
            Call::Verdict { .. } => 0,
            Call::Open { room, .. } | Call::Stretch { room, .. } | Call::Rescue { room, .. } | Call::Seal { room, .. } => *room,
            Call::Write(Writing { room, .. }) => *room,
        }
    }

    /// `out` between its guards, before a call.
    fn memory(&self) -> Vec<u8> {
        vec![OLD; GUARD + self.room() + GUARD]
    }

    /// Whether the returned number has a size.
    fn sized(&self) -> bool {
        matches!(self, Call::Open { .. } | Call::Stretch { .. } | Call::Rescue { .. } | Call::Seal { .. } | Call::Write(_))
    }

    /// Whether a call that is answered so has derived a key.
    pub fn derives(&self, answer: u16) -> bool {
        match self {
            Call::Verdict { .. } | Call::Open { .. } | Call::Stretch { .. } | Call::Rescue { .. } | Call::Seal { .. } => {
                !(1..=11).contains(&answer) && answer != 19
            }
            Call::Write(_) => answer == 0,
            _ => false,
        }
    }

    pub fn by_archive(&self) -> Outcome {
        let mut memory = self.memory();
        let out = memory[GUARD..].as_mut_ptr();
        let mut counts = OLD_COUNTS;
        // SAFETY: each pointer is of a vector with its count beside it, `out` has the room that is told, the counts are three, and neither
        // overlaps anything.
        let word = unsafe {
            match self {
                Call::Sha1 { message: m } => ropeshadow_sha1(m.as_ptr(), m.len(), out),
                Call::Encrypt { key: k, block } => {
                    let (low, high) = halves(block);
                    ropeshadow_aes_encrypt(k.as_ptr(), k.len(), low, high, out)
                }
                Call::Decrypt { key: k, block } => {
                    let (low, high) = halves(block);
                    ropeshadow_aes_decrypt(k.as_ptr(), k.len(), low, high, out)
                }
                Call::Parse { info: i, scheme } => ropeshadow_parse(i.as_ptr(), i.len(), *scheme, out),
                Call::Verdict { info: i, password: p, scheme } => ropeshadow_verdict(i.as_ptr(), i.len(), p.as_ptr(), p.len(), *scheme),
                Call::Open { info: i, password: p, scheme, stream: s, room } => {
                    ropeshadow_open(i.as_ptr(), i.len(), p.as_ptr(), p.len(), *scheme, s.as_ptr(), s.len(), out, *room)
                }
                Call::Stretch { info: i, password: p, scheme, stream: s, from, to, room } => {
                    ropeshadow_stretch(i.as_ptr(), i.len(), p.as_ptr(), p.len(), *scheme, s.as_ptr(), s.len(), *from, *to, out, *room)
                }
                Call::Rescue { info: i, password: p, scheme, stream: s, room } => {
                    let counts = counts[1..4].as_mut_ptr();
                    ropeshadow_rescue(i.as_ptr(), i.len(), p.as_ptr(), p.len(), *scheme, s.as_ptr(), s.len(), out, *room, counts)
                }
                Call::Seal { info: i, password: p, scheme, package: s, filling, extra, room } => {
                    let (low, high) = halves(filling);
                    ropeshadow_seal(i.as_ptr(), i.len(), p.as_ptr(), p.len(), *scheme, s.as_ptr(), s.len(), low, high, *extra, out, *room)
                }
                Call::Write(Writing { bits, password: p, name: n, salt, verifier, filling, room }) => {
                    let [s, v, f] = [salt, verifier, filling].map(halves);
                    ropeshadow_write_info(*bits, p.as_ptr(), p.len(), n.as_ptr(), n.len(), s.0, s.1, v.0, v.1, f.0, f.1, out, *room)
                }
            }
        };
        Outcome { word, memory, counts }
    }

    /// `out` after a call of the archive that is done and fills it, or the answer.
    pub fn filled(&self) -> Result<Vec<u8>, String> {
        let (got, room) = (self.by_archive(), self.room());
        if got.word == if self.sized() { 65_536 * room as u64 } else { 0 } {
            Ok(got.memory[GUARD..GUARD + room].to_vec())
        } else {
            Err(format!("{}, and not a room of {room} bytes filled", parts(got.word)))
        }
    }

    pub fn by_second(&self) -> Outcome {
        let given = match self {
            Call::Sha1 { message } => sha1::hashed(message).map(|hash| hash.to_vec()),
            Call::Encrypt { key, block } => Aes::new(key).map(|aes| aes.encrypt(*block).to_vec()),
            Call::Decrypt { key, block } => Aes::new(key).map(|aes| aes.decrypt(*block).to_vec()),
            Call::Parse { info, scheme } => descriptor::parse(info, *scheme).map(|d| d.bytes()),
            Call::Verdict { info, password, scheme } => key::unlock(info, password, *scheme).map(|_| vec![]),
            Call::Open { info, password, scheme, stream, room } => package::open(info, password, *scheme, stream, *room),
            Call::Stretch { info, password, scheme, stream, from, to, room } => {
                package::stretch(info, password, *scheme, stream, *from, *to, *room)
            }
            Call::Rescue { info, password, scheme, stream, room } => {
                return self.left_rescued(package::rescue(info, password, *scheme, stream, *room));
            }
            Call::Seal { info, password, scheme, package, filling, extra, room } => {
                package::seal(info, password, *scheme, package, *filling, *extra != 0, *room)
            }
            Call::Write(w) => {
                let filling = *w.filling.first_chunk().unwrap();
                writer::write_info(w.bits, &w.password, &w.name, w.salt, w.verifier, filling, w.room)
            }
        };
        self.left(given)
    }

    /// What a call leaves that gives these bytes, with zeros after them, or that is answered so.
    pub fn left(&self, given: Result<Vec<u8>, u16>) -> Outcome {
        let mut memory = self.memory();
        let word = match given {
            Err(answer) => u64::from(answer),
            Ok(bytes) => {
                memory[GUARD..GUARD + self.room()].fill(0);
                memory[GUARD..GUARD + bytes.len()].copy_from_slice(&bytes);
                if self.sized() { 65_536 * bytes.len() as u64 } else { 0 }
            }
        };
        Outcome { word, memory, counts: OLD_COUNTS }
    }

    /// The same of a rescue, with its counts.
    pub fn left_rescued(&self, given: Result<Rescued, u16>) -> Outcome {
        let mut counts = OLD_COUNTS;
        let package = given.map(|r| {
            counts[1..4].copy_from_slice(&[r.recovered, r.zeroed, r.surplus].map(|n| n as u64));
            r.package
        });
        Outcome { counts, ..self.left(package) }
    }
}
