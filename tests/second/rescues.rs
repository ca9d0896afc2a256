//! The lines on rescues (request 2026-13): sheets that are cut, whole, and with bytes too many, under both schemes, streams that opening
//! answers with 15, and the refusals in order.
use crate::{CHAINED, ECB, info, line, opened, sealed, zeros};
use second::{
    package::rescue,
    samples::{pattern, rising, stepping, units},
};

/// How long the stream is that is left, 8 bytes of StreamSize with it. Of 33 bytes: with no ciphertext, in each block and at its end, whole,
/// and with a surplus of 1, 16 and 40.
const OF_33: [usize; 13] = [8, 9, 23, 24, 25, 39, 40, 41, 55, 56, 57, 72, 96];
/// Of 0 bytes: whole, and with the same surplus.
const OF_0: [usize; 4] = [8, 9, 24, 48];
/// Of 4,096: in the segment, at its end, in the extra block, with all of it, and with the same surplus.
const OF_4096: [usize; 12] = [8, 23, 4_087, 4_088, 4_103, 4_104, 4_105, 4_119, 4_120, 4_121, 4_136, 4_160];
/// Of 8,193: in the first segment, at its end, in the second, at its end, in the third, whole, and with the same surplus.
const OF_8193: [usize; 13] = [8, 24, 4_103, 4_104, 4_105, 4_120, 5_000, 8_200, 8_215, 8_216, 8_217, 8_232, 8_256];

fn rescued(what: &str, info: &[u8], password: &[u16], scheme: u64, stream: &[u8], room: usize) {
    let result = rescue(info, password, scheme, stream, room);
    let [recovered, zeroed, surplus] = result.as_ref().map_or([0; 3], |r| [r.recovered, r.zeroed, r.surplus]);
    let counts = format!("recovered {recovered} zeroed {zeroed} surplus {surplus}");
    line(&format!("rescue {what}, a stream of {}, {counts}", stream.len()), &result.map(|r| r.package), room);
}

/// What is left of the first n bytes of the pattern, with zeros after the whole stream.
fn table(name: &str, info: &[u8], scheme: u64, n: u32, lengths: &[usize], room: usize) {
    let mut stream = sealed(name, info, "password", scheme, &pattern(n), true, 8_300).unwrap();
    stream.resize(8_300, 0);
    for &length in lengths {
        rescued(name, info, &units("password"), scheme, &stream[..length], room);
    }
}

fn tables(scheme: u64) {
    table("33 bytes", &info(128, stepping()), scheme, 33, &OF_33, 40);
    table("0 bytes", &info(128, stepping()), scheme, 0, &OF_0, 40);
    table("4,096 bytes with an extra block", &info(192, rising()), scheme, 4_096, &OF_4096, 4_200);
    table("8,193 bytes", &info(256, rising()), scheme, 8_193, &OF_8193, 8_300);
}

/// Opened, which 15 forbids, and rescued.
fn unopened(info: &[u8], scheme: u64) {
    for (name, size, n) in [
        ("one block long at StreamSize 0", 0, 24),
        ("one block long at StreamSize 16", 16, 40),
        ("one block short at StreamSize 17", 17, 24),
        ("one byte short at StreamSize 17", 17, 39),
        ("one byte long at StreamSize 17", 17, 41),
    ] {
        let (right, stream) = (units("password"), zeros(size, n));
        opened(name, info, &right, scheme, &stream, 48);
        rescued(name, info, &right, scheme, &stream, 48);
    }
}

/// 13, 14 and 16, and then what comes before them; each but 16 with a later rule broken too.
fn refusals(info: &[u8], scheme: u64) {
    let right = units("password");
    let mut unhashed = info.to_vec();
    unhashed[188] = 0;
    for (what, size, n) in [
        ("StreamSize 2^64 - 1", u64::MAX, 7),
        ("StreamSize 2^32 + 17", (1 << 32) + 17, 40),
        ("StreamSize 268,435,457", 268_435_457, 40),
        ("StreamSize 268,435,456", 268_435_456, 40),
        ("StreamSize 17, room one byte short", 17, 40),
        ("StreamSize 17, room one byte short", 17, 8),
    ] {
        rescued(what, info, &right, scheme, &zeros(size, n), 16);
    }
    rescued("256 units", info, &[0x61; 256], scheme, &[0; 3], 16);
    rescued("a wrong password", info, &[], scheme, &[0; 3], 16);
    rescued("scheme 3, a wrong password", info, &[], 3, &[0; 3], 16);
    rescued("scheme 3, VerifierHashSize 0", &unhashed, &right, 3, &[0; 3], 16);
}

pub fn all() {
    let info = info(128, stepping());
    for (how, scheme) in [("", ECB), (", chained", CHAINED)] {
        println!("rescues{how}");
        tables(scheme);
        unopened(&info, scheme);
        println!("rescues refused{how}");
        refusals(&info, scheme);
    }
}
