//! The lines on stretches (request 2026-05): their ends around those of blocks, of segments and of the package, under both schemes, the
//! room for them, and their refusals in order.
use crate::{CHAINED, ECB, info, line, sealed, zeros};
use second::{
    package::stretch,
    samples::{pattern, rising, stepping, units},
};

/// In the first two blocks, around the end of the first segment and in the blocks after it, and around the end of the second: the last
/// three end past a package of 8,192 bytes, whether or not it has an extra block.
#[rustfmt::skip]
const SHORT: [(u64, u64); 31] = [
    (0, 0), (0, 1), (0, 15), (0, 16), (0, 17), (15, 15), (15, 16), (15, 17),
    (16, 16), (16, 17), (16, 32), (17, 17), (17, 31), (17, 49),
    (4_095, 4_095), (4_095, 4_096), (4_095, 4_097), (4_096, 4_096), (4_096, 4_097), (4_096, 4_112),
    (4_097, 4_097), (4_097, 4_112), (4_097, 4_113), (4_112, 4_112), (4_112, 4_128),
    (8_175, 8_192), (8_191, 8_192), (8_192, 8_192), (8_191, 8_193), (8_192, 8_193), (8_193, 8_193),
];

/// Over many blocks.
#[rustfmt::skip]
const LONG: [(u64, u64); 8] = [
    (0, 8_192), (0, 8_193), (15, 4_096), (16, 4_097), (17, 4_112), (4_095, 8_192), (4_096, 8_192), (4_097, 8_191),
];

fn opened(what: &str, info: &[u8], password: &[u16], scheme: u64, stream: &[u8], (from, to): (u64, u64), room: usize) {
    let result = stretch(info, password, scheme, stream, from, to, room);
    line(&format!("stretch {what}from {from} to {to}"), &result, room);
}

/// Stretches of the first n bytes of the pattern.
fn table(name: &str, bits: u64, salt: [u8; 16], scheme: u64, n: u32, extra: bool) {
    let (info, right) = (info(bits, salt), units("password"));
    let stream = sealed(name, &info, "password", scheme, &pattern(n), extra, 8_300).unwrap();
    let open = |what: &str, ends: (u64, u64), room: usize| opened(what, &info, &right, scheme, &stream, ends, room);
    SHORT.into_iter().for_each(|ends| open("", ends, 40));
    LONG.into_iter().for_each(|ends| open("", ends, 8_300));
    open("room for it alone, ", (4_095, 4_112), 17);
    open("room one byte short, ", (4_095, 4_112), 16);
}

/// Of 17 bytes: 20, with ends that are read whole; then 20 with 16 broken too, and 16 alone.
#[rustfmt::skip]
const OF_17: [(u64, u64); 9] = [
    (1, 0), (17, 16), (17, 18), (1 << 32, (1 << 32) + 1), ((1 << 32) + 1, 17), (u64::MAX, 17),
    (0, 18), (0, u64::MAX), (0, 17),
];

/// 20 and 16, and then what comes before them, with 20 broken too.
fn refusals(scheme: u64) {
    let (info, right) = (info(128, stepping()), units("password"));
    let mut unhashed = info.clone();
    unhashed[188] = 0;
    let valid = zeros(17, 40);
    OF_17.into_iter().for_each(|ends| opened("of 17 bytes, ", &info, &right, scheme, &valid, ends, 16));
    let backward = |what: &str, info: &[u8], password: &[u16], scheme: u64, stream: &[u8]| {
        opened(what, info, password, scheme, stream, (1, 0), 16);
    };
    backward("of 7 bytes of StreamSize 2^64 - 1, ", &info, &right, scheme, &zeros(u64::MAX, 7));
    backward("of StreamSize 2^32 + 17, ", &info, &right, scheme, &zeros((1 << 32) + 17, 40));
    backward("of one block more than StreamSize 17, ", &info, &right, scheme, &zeros(17, 56));
    backward("256 units, ", &info, &[0x61; 256], scheme, &valid);
    backward("a wrong password, ", &info, &[], scheme, &valid);
    backward("scheme 3, ", &info, &right, 3, &valid);
    backward("VerifierHashSize 0, ", &unhashed, &right, scheme, &valid);
}

pub fn all() {
    println!("AES-128, stretches");
    table("8,193 bytes", 128, stepping(), ECB, 8_193, false);
    println!("AES-192, stretches");
    table("8,192 bytes with an extra block", 192, rising(), ECB, 8_192, true);
    println!("AES-128, stretches, chained");
    table("8,193 bytes", 128, stepping(), CHAINED, 8_193, false);
    println!("AES-256, stretches, chained");
    table("8,192 bytes with an extra block", 256, rising(), CHAINED, 8_192, true);
    println!("stretches refused");
    refusals(ECB);
    println!("stretches refused, chained");
    refusals(CHAINED);
}
