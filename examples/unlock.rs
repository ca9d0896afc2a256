//! unlock INFO STREAM PASSWORD-FILE OPENED: opens the stream EncryptedPackage under the stream EncryptionInfo, each given as a file.
//!
//!     rustc -O -L target/lib -o unlock examples/unlock.rs
use std::{env, fs, io, process};

#[link(name = "ropeshadow", kind = "static")]
extern "C" {
    fn ropeshadow_open(
        info: *const u8, info_size: usize, password: *const u16, units: usize, scheme: u64,
        stream: *const u8, stream_size: usize, out: *mut u8, room: usize,
    ) -> u64;
}

/// How Office encrypts a package. Nothing in the two streams tells it from the other scheme, 2, chained.
const ECB: u64 = 1;

/// The package, or the number of the first broken rule.
fn open(info: &[u8], password: &str, stream: &[u8]) -> Result<Vec<u8>, u64> {
    let units: Vec<u16> = password.encode_utf16().collect();
    let mut out = vec![0; stream.len()];
    // SAFETY: each pointer is of a slice with the count beside it, none is null, and `out` overlaps nothing.
    let word = unsafe {
        ropeshadow_open(
            info.as_ptr(), info.len(), units.as_ptr(), units.len(), ECB,
            stream.as_ptr(), stream.len(), out.as_mut_ptr(), out.len(),
        )
    };
    out.truncate((word / 65_536) as usize);
    match word % 65_536 {
        0 => Ok(out),
        answer => Err(answer),
    }
}

/// Written under another name, then renamed: there is never a half workbook.
fn save(path: &str, contents: &[u8]) -> io::Result<()> {
    let half = format!("{path}.half");
    let saved = fs::write(&half, contents).and_then(|()| fs::rename(&half, path));
    if saved.is_err() {
        let _ = fs::remove_file(&half);
    }
    saved
}

fn main() -> io::Result<()> {
    let names: Vec<String> = env::args().skip(1).collect();
    let [info, stream, password, opened] = &names[..] else {
        eprintln!("use: unlock INFO STREAM PASSWORD-FILE OPENED");
        process::exit(2)
    };
    let password = fs::read_to_string(password)?;
    match open(&fs::read(info)?, password.lines().next().unwrap_or(""), &fs::read(stream)?) {
        Ok(package) => {
            save(opened, &package)?;
            println!("{opened}: opened, {} bytes", package.len());
            Ok(())
        }
        Err(answer) => {
            eprintln!("unlock: not opened, answer {answer}");
            process::exit(1)
        }
    }
}
