//! The lines of opening, of a package and of its stretches, rescuing, sealing and writing that crates/cases prints, by the second
//! implementation. A buffer is full of a5 before each call.
mod chained;
mod rescues;
mod stretches;

use second::{
    key::unlock,
    package::{open, seal},
    samples::{hex, pattern, rising, stepping, units},
    schemes::Scheme,
    sha1::sha1,
    writer::write_info,
};

const LETTERS: &[u8; 17] = b"abcdefghijklmnopq";
const ECB: u64 = Scheme::Ecb as u64;
const CHAINED: u64 = Scheme::Chained as u64;

type Result = std::result::Result<Vec<u8>, u16>;

/// What a call leaves: its reply and the whole buffer.
fn line(name: &str, result: &Result, room: usize) {
    let mut out = vec![0xa5; room];
    let (answer, size) = match result {
        Ok(written) => {
            out.fill(0);
            out[..written.len()].copy_from_slice(written);
            (0, written.len())
        }
        Err(answer) => (*answer, 0),
    };
    let shown = if room <= 64 { format!("out {}", hex(&out)) } else { format!("SHA-1 of out {}", hex(&sha1(&out))) };
    println!("{name}: answer {answer} size {size} {shown}");
}

/// The bytes of the usual provider name and its zero unit.
fn provider() -> Vec<u8> {
    "Microsoft Enhanced RSA and AES Cryptographic Provider\0".encode_utf16().flat_map(u16::to_le_bytes).collect()
}

/// EncryptionInfo for the password "password", with the usual provider name.
fn info(bits: u64, salt: [u8; 16]) -> Vec<u8> {
    write_info(bits, &units("password"), &provider(), salt, stepping(), [0; 12], 224).unwrap()
}

/// The first n bytes of zeros after a StreamSize.
fn zeros(size: u64, n: usize) -> Vec<u8> {
    size.to_le_bytes().into_iter().chain(std::iter::repeat(0)).take(n).collect()
}

/// Sealed with filling f0 to ff.
fn sealed(name: &str, info: &[u8], password: &str, scheme: u64, package: &[u8], extra: bool, room: usize) -> Result {
    let filling = std::array::from_fn(|i| 0xf0 + i as u8);
    let result = seal(info, &units(password), scheme, package, filling, extra, room);
    line(&format!("seal {name}"), &result, room);
    result
}

fn opened(name: &str, info: &[u8], password: &[u16], scheme: u64, stream: &[u8], room: usize) {
    line(&format!("open {name}"), &open(info, password, scheme, stream, room), room);
}

fn round_trips(bits: u64, salt: [u8; 16]) {
    println!("AES-{bits}");
    let info = info(bits, salt);
    let short = [(0, "0 bytes"), (1, "1 byte"), (15, "15 bytes"), (16, "16 bytes"), (17, "17 bytes")];
    let trip = |name: &str, package: &[u8], extra: bool, room: usize| {
        let stream = sealed(name, &info, "password", ECB, package, extra, room).unwrap();
        opened(name, &info, &units("password"), ECB, &stream, room);
    };
    short.iter().for_each(|(n, name)| trip(name, &LETTERS[..*n], false, 48));
    trip("4,096 bytes", &pattern(4_096), false, 4_200);
    trip("4,096 bytes with an extra block", &pattern(4_096), true, 4_200);
}

fn refusals(info: &[u8]) {
    let right = units("password");
    let mut stream = sealed("the stream below", info, "password", ECB, LETTERS, false, 56).unwrap();
    stream.resize(56, 0);
    for (name, size, n) in [
        ("0 bytes", 17, 0),
        ("7 bytes of StreamSize 2^64 - 1", u64::MAX, 7),
        ("StreamSize 2^64 - 1", u64::MAX, 40),
        ("StreamSize 2^32 + 17", (1 << 32) + 17, 40),
        ("StreamSize 268,435,457", 268_435_457, 40),
        ("StreamSize 268,435,456", 268_435_456, 40),
        ("StreamSize 16", 16, 40),
        ("one block short", 17, 24),
        ("one block long", 17, 56),
        ("one byte long", 17, 41),
        ("room one byte short", 17, 40),
    ] {
        let resized = [&size.to_le_bytes()[..], &stream[8..]].concat();
        opened(name, info, &right, ECB, &resized[..n], 16);
    }
    opened("11 bytes of EncryptionInfo, 3 of the stream", &info[..11], &[], ECB, &stream[..3], 16);
    opened("256 units, 3 bytes", info, &[0x61; 256], ECB, &stream[..3], 16);
    opened("a wrong password, 3 bytes", info, &[], ECB, &stream[..3], 16);
    let _ = sealed("1 byte with a wrong password", info, "", ECB, b"a", false, 23);
    let _ = sealed("1 byte, room one byte short", info, "password", ECB, b"a", false, 23);
}

/// Sealing with the choice of an extra block: at sizes that have none, and a byte of room too few for it.
fn chosen(info: &[u8]) {
    for (name, n) in [("17 bytes", 17), ("16 bytes", 16), ("0 bytes", 0)] {
        let _ = sealed(&format!("{name}, extra block chosen and ignored"), info, "password", ECB, &LETTERS[..n], true, 48);
    }
    let _ = sealed("4,096 bytes with an extra block, room one byte short", info, "password", ECB, &pattern(4_096), true, 4_119);
}

/// Streams of n bytes, zeros after StreamSize: what else than the least length is opened.
fn lengthened(info: &[u8]) {
    for (name, size, n, room) in [
        ("an extra block at StreamSize 4,096", 4_096, 4_120, 4_096),
        ("an extra block at StreamSize 4,096, room one byte short", 4_096, 4_120, 4_095),
        ("two extra blocks at StreamSize 4,096", 4_096, 4_136, 16),
        ("15 bytes more at StreamSize 4,096", 4_096, 4_119, 16),
        ("17 bytes more at StreamSize 4,096", 4_096, 4_121, 16),
        ("an extra block at StreamSize 0", 0, 24, 16),
        ("an extra block at StreamSize 16", 16, 40, 16),
        ("an extra block at StreamSize 17", 17, 56, 16),
        ("an extra block at StreamSize 4,080", 4_080, 4_104, 16),
        ("an extra block at StreamSize 2^32 + 4,096", (1 << 32) + 4_096, 4_120, 16),
        ("an extra block at StreamSize 268,439,552", 268_439_552, 4_120, 16),
    ] {
        let mut stream = u64::to_le_bytes(size).to_vec();
        stream.resize(n, 0);
        opened(name, info, &units("password"), ECB, &stream, room);
    }
}

/// The two blocks of 000 8.1 as a package of 32 bytes.
fn published(info: &[u8]) {
    let blocks = [0xdcb1367fc380378657fc11e7b968b3a6u128, 0x28bff7d8aca261ceca0591bcd81b0075];
    let stream = [&32u64.to_le_bytes()[..], &blocks.map(u128::to_be_bytes).concat()].concat();
    opened("000 8.1", info, &units("password"), ECB, &stream, 48);
}

/// Written with salt 00 to 0f and filling f0 to fb.
fn written(what: &str, bits: u64, password: &[u16], name: &[u8], room: usize) -> Result {
    let filling = std::array::from_fn(|i| 0xf0 + i as u8);
    let result = write_info(bits, password, name, rising(), stepping(), filling, room);
    line(&format!("write {what}"), &result, room);
    result
}

fn verdict(what: &str, info: &[u8], password: &[u16], scheme: u64) {
    println!("verdict {what}: answer {}", unlock(info, password, scheme).err().unwrap_or(0));
}

/// Written for the password "password", and the verdicts on what was written.
fn judged(what: &str, bits: u64, name: &[u8], room: usize) {
    let right = units("password");
    let info = written(what, bits, &right, name, room).unwrap();
    verdict("right", &info, &right, ECB);
    verdict("wrong", &info, &[], ECB);
}

fn written_infos() {
    judged("AES-128", 128, &provider(), 240);
    judged("AES-192", 192, &provider(), 240);
    judged("AES-256", 256, &provider(), 240);
    judged("no name", 128, &[], 116);
    judged("a name of 4,064 bytes", 256, &pattern(4_064), 4_200);
}

/// 3, 5, 8, 11 and 16; then those before 16 in a room of 16 bytes, so that a later rule is broken too.
fn unwritten() {
    let (right, long, usual) = (units("password"), [0x61; 256], provider());
    for (what, bits, password, name, room) in [
        ("a name of 4,065 bytes", 128, &right[..], &pattern(4_065)[..], 4_200),
        ("a name of 4,066 bytes", 128, &right, &pattern(4_066), 4_200),
        ("a name of 107 bytes", 128, &right, &usual[..107], 240),
        ("127 bits", 127, &right, &usual, 240),
        ("0 bits", 0, &right, &usual, 240),
        ("512 bits", 512, &right, &usual, 240),
        ("256 units", 128, &long, &usual, 240),
        ("room one byte short", 128, &right, &usual, 223),
        ("a name of 4,065 bytes, room of 16", 128, &right, &pattern(4_065), 16),
        ("a name of 4,066 bytes, 127 bits, room of 16", 127, &right, &pattern(4_066), 16),
        ("a name of 107 bytes, 127 bits, room of 16", 127, &right, &usual[..107], 16),
        ("127 bits, 256 units, room of 16", 127, &long, &usual, 16),
        ("256 units, room of 16", 128, &long, &usual, 16),
    ] {
        let _ = written(what, bits, password, name, room);
    }
}

fn main() {
    round_trips(128, stepping());
    round_trips(192, rising());
    round_trips(256, rising());
    refusals(&info(128, stepping()));
    chosen(&info(128, stepping()));
    lengthened(&info(128, stepping()));
    published(&info(128, stepping()));
    written_infos();
    unwritten();
    chained::all();
    stretches::all();
    rescues::all();
}
