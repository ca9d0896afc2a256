//! The lines on schemes (request 2026-04): packages chained, there and back, packages opened as the other scheme's, the refusals of a
//! chained package, and numbers that are no scheme.
use crate::{CHAINED, ECB, LETTERS, info, opened, sealed, verdict};
use second::samples::{pattern, rising, stepping, units};

/// Sizes on both sides of a segment's end.
fn round_trips(bits: u64, salt: [u8; 16]) {
    println!("AES-{bits}, chained");
    let info = info(bits, salt);
    let trip = |name: &str, package: &[u8], extra: bool, room: usize| {
        let stream = sealed(name, &info, "password", CHAINED, package, extra, room).unwrap();
        opened(name, &info, &units("password"), CHAINED, &stream, room);
    };
    for (n, name) in [(0, "0 bytes"), (1, "1 byte"), (16, "16 bytes"), (17, "17 bytes")] {
        trip(name, &LETTERS[..n], false, 48);
    }
    for (n, name, extra) in [
        (4_095, "4,095 bytes", false),
        (4_096, "4,096 bytes", false),
        (4_096, "4,096 bytes with an extra block", true),
        (4_097, "4,097 bytes", false),
        (4_112, "4,112 bytes", false),
        (8_192, "8,192 bytes", false),
        (8_192, "8,192 bytes with an extra block", true),
        (8_193, "8,193 bytes", false),
    ] {
        trip(name, &pattern(n), extra, 8_300);
    }
}

/// Nothing in a stream tells its scheme: it opens under either, and gives the package under one.
fn swapped(info: &[u8]) {
    for (name, one, other) in [("chained, then opened as ECB", CHAINED, ECB), ("ECB, then opened as chained", ECB, CHAINED)] {
        let name = format!("17 bytes {name}");
        let stream = sealed(&name, info, "password", one, LETTERS, false, 48).unwrap();
        opened(&name, info, &units("password"), other, &stream, 48);
    }
}

/// 11 to 16 of a chained package, each but the last with a later rule broken too.
fn refusals(info: &[u8]) {
    let right = units("password");
    let open = |name: &str, password: &[u16], size: u64, n: usize| {
        let mut stream = size.to_le_bytes().to_vec();
        stream.resize(n, 0);
        opened(&format!("chained, {name}"), info, password, CHAINED, &stream[..n], 16);
    };
    open("256 units, 3 bytes", &[0x61; 256], 0, 3);
    open("a wrong password, 3 bytes", &[], 0, 3);
    open("7 bytes of StreamSize 2^64 - 1", &right, u64::MAX, 7);
    open("StreamSize 2^32 + 17", &right, (1 << 32) + 17, 40);
    open("one block long at StreamSize 17", &right, 17, 56);
    open("an extra block at StreamSize 4,112", &right, 4_112, 4_136);
    open("room one byte short", &right, 17, 40);
    let _ = sealed("chained, 1 byte with a wrong password", info, "", CHAINED, b"a", false, 23);
    let _ = sealed("chained, 1 byte, room one byte short", info, "password", CHAINED, b"a", false, 23);
}

/// Each call under a number that is no scheme, and no other rule broken.
fn unnumbered(info: &[u8]) {
    let (right, mut stream) = (units("password"), 16u64.to_le_bytes().to_vec());
    stream.resize(24, 0);
    for (name, scheme) in [("scheme 0", 0), ("scheme 3", 3), ("scheme 2^32 + 1", (1 << 32) + 1), ("scheme 2^64 - 1", u64::MAX)] {
        verdict(name, info, &right, scheme);
        opened(name, info, &right, scheme, &stream, 16);
        let _ = sealed(name, info, "password", scheme, b"a", false, 24);
    }
}

/// 19 where a later rule is broken too, and the rules before it.
fn ordered(info: &[u8]) {
    let (right, long) = (units("password"), [0x61; 256]);
    let mut unhashed = info.to_vec();
    unhashed[188] = 0;
    verdict("scheme 3, 256 units", info, &long, 3);
    verdict("scheme 3, a wrong password", info, &[], 3);
    verdict("scheme 3, VerifierHashSize 0", &unhashed, &right, 3);
    opened("scheme 3, 256 units, 3 bytes", info, &long, 3, &[0; 3], 16);
    opened("scheme 3, a wrong password, 3 bytes", info, &[], 3, &[0; 3], 16);
    opened("scheme 3, VerifierHashSize 0, 256 units", &unhashed, &long, 3, &[0; 3], 16);
    opened("scheme 3, 11 bytes of EncryptionInfo", &info[..11], &right, 3, &[0; 3], 16);
    let _ = sealed("scheme 3, a wrong password, room one byte short", info, "", 3, b"a", false, 23);
    let _ = sealed("scheme 3, VerifierHashSize 0, room one byte short", &unhashed, "password", 3, b"a", false, 23);
}

pub fn all() {
    round_trips(128, stepping());
    round_trips(192, rising());
    round_trips(256, rising());
    let info = info(128, stepping());
    swapped(&info);
    refusals(&info);
    unnumbered(&info);
    ordered(&info);
}
