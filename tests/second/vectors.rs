//! The published vectors by the second implementation: the lines that crates/vectors prints. The gate compares the two.
use second::{
    aes::Aes,
    algorithms::Algorithm,
    chaining::starting_vector,
    key::{derive, keyed, matches},
    samples::{hex, pattern, rising, stepping, units},
    sha1::hashed,
};

fn bytes(digits: &str) -> Vec<u8> {
    (0..digits.len()).step_by(2).map(|i| u8::from_str_radix(&digits[i..i + 2], 16).unwrap()).collect()
}

/// An answer with its bytes, which are zeros where it is not 0.
fn answered<const N: usize>(result: Result<[u8; N], u16>) -> String {
    format!("answer {} {}", result.err().unwrap_or(0), hex(&result.unwrap_or([0; N])))
}

// ---- SHA-1 (FIPS 180-4)

fn hash_line(name: &str, message: &[u8]) {
    println!("sha1 {name}: {}", answered(hashed(message)));
}

fn hashes() {
    hash_line("empty", b"");
    hash_line("abc", b"abc");
    hash_line("two blocks", b"abcdbcdecdefdefgefghfghighijhijkijkljklmklmnlmnomnopnopq");
    for n in [1, 55, 56, 63, 64, 65, 119, 120, 4_096, 65_536, 65_537] {
        hash_line(&format!("pattern {n}"), &pattern(n));
    }
}

// ---- AES (FIPS 197, appendices A and C)

fn ciphers() {
    for key in [
        "2b7e151628aed2a6abf7158809cf4f3c",
        "8e73b0f7da0e6452c810f32b809079e562f8ead2522c6b7b",
        "603deb1015ca71be2b73aef0857d77811f352c073b6108d72d9810a30914dff4",
    ] {
        let (n, aes) = (key.len() / 2, Aes::new(&bytes(key)).unwrap());
        println!("aes key {n}: rounds {} last round key {}", aes.rounds(), hex(&aes.last_round_key()));
    }
    for n in [16, 24, 32, 0, 15, 17, 23, 31, 33] {
        let key: Vec<u8> = (0..n).collect();
        let there = Aes::new(&key).map(|aes| aes.encrypt(stepping()));
        println!("aes key {n}: encrypt {}", answered(there));
        let back = Aes::new(&key).map(|aes| aes.decrypt(there.unwrap()));
        println!("aes key {n}: decrypt {}", answered(back));
    }
}

// ---- the key derivation and the verdict (000 section 8, 002)

fn key_line(name: &str, salt: &[u8], password: &[u16]) {
    let d = derive(salt, password);
    let key = |n: usize| hex(&d.key[..n]);
    println!("key {name}: H {} B {} 16 {} 24 {} 32 {}", hex(&d.h), hex(&d.b), key(16), key(24), key(32));
}

fn keys() {
    key_line("password, rising salt", &rising(), &units("password"));
    key_line("Password1234_", &bytes("e88266490c5bd1eebd2b4394e3f830ef"), &units("Password1234_"));
    key_line("password, salt 00 to ff", &stepping(), &units("password"));
    key_line("empty, rising salt", &rising(), &[]);
    key_line("0 and half a pair, rising salt", &rising(), &[0, 0xd800, 0xffff]);
    let verifier: [u8; 16] = bytes("2589aebb860b8a41fa690e76ed56b0be").try_into().unwrap();
    let hash: [u8; 32] = bytes("deddb6b29f9cd382a0a204a51b7fdf7eb1233f14fe5c99d96f5de4db083d925e").try_into().unwrap();
    let aes_256 = Algorithm::of_bits(256).unwrap();
    for (name, password) in [("000 8.4", "password"), ("000 8.4, one unit off", "passwore")] {
        let aes = keyed(aes_256, &rising(), &units(password));
        let answer = if matches(&aes, verifier, hash) { 0 } else { 12 };
        println!("verdict {name}: answer {answer}");
    }
}

// ---- what segments start from (002, 8 and 8.1; 003, "IV derivation")

fn starting_line(name: &str, salt: &[u8; 16], number: u32) {
    println!("starting vector {name}: {}", hex(&starting_vector(salt, number)));
}

/// The two that are published, then other segments: the second, the last of the largest package, and one whose number has four bytes that
/// differ.
fn starts() {
    starting_line("002 8", &rising(), 0);
    starting_line("002 8.1", &bytes("e88266490c5bd1eebd2b4394e3f830ef").try_into().unwrap(), 0);
    for (name, number) in [("segment 1", 1), ("segment 65,535", 65_535), ("segment 0x01020304", 0x0102_0304)] {
        starting_line(&format!("{name}, rising salt"), &rising(), number);
    }
}

fn main() {
    hashes();
    ciphers();
    keys();
    starts();
}
