//! The package stream (01, "The package stream", with the extra block of request 2026-02, the schemes of 2026-04, the stretches of 2026-05
//! and the rescues of 2026-13; replies 13 to 16, and 20), on whole vectors: what is written, or the reply.
use crate::{aes::Aes, chaining, descriptor::Descriptor, key::unlock, require, schemes::Scheme};

/// The most bytes of a package.
pub const LIMIT: usize = 268_435_456;

/// How long the ciphertext of a package of so many bytes is, without an extra block and with it: the same where it has none.
fn lengths(size: usize) -> [usize; 2] {
    let least = size.next_multiple_of(16);
    if size > 0 && size % 4_096 == 0 { [least, least + 16] } else { [least, least] }
}

/// A stream of which 1 to 14 hold: the key and the descriptor, StreamSize, and the ciphertext behind it.
struct Unlocked<'a> {
    aes: Aes,
    descriptor: Descriptor,
    size: usize,
    blocks: &'a [u8],
}

impl Unlocked<'_> {
    /// The same, if 15 holds too.
    fn complete(self) -> Result<Self, u16> {
        require(lengths(self.size).contains(&self.blocks.len()), 15)?;
        Ok(self)
    }

    fn package(&self) -> Vec<u8> {
        decrypted(&self.aes, &self.descriptor.salt, self.descriptor.scheme, self.size, self.blocks)
    }
}

/// The ciphertext of a package of so many bytes, as many whole blocks as there are, decrypted, less what follows the package.
fn decrypted(aes: &Aes, salt: &[u8; 16], scheme: Scheme, size: usize, blocks: &[u8]) -> Vec<u8> {
    let mut whole = match scheme {
        Scheme::Ecb => aes.decrypt_all(blocks),
        Scheme::Chained => chaining::decrypt_all(aes, salt, size, blocks),
    };
    whole.truncate(size);
    whole
}

/// What opening, a stretch and a rescue judge alike: 1 to 10, 19, and 11 to 14.
fn unlocked<'a>(info: &[u8], password: &[u16], scheme: u64, stream: &'a [u8]) -> Result<Unlocked<'a>, u16> {
    let (aes, descriptor) = unlock(info, password, scheme)?;
    let (size, blocks) = stream.split_first_chunk::<8>().ok_or(13u16)?;
    let size = u64::from_le_bytes(*size);
    require(size <= LIMIT as u64, 14)?;
    Ok(Unlocked { aes, descriptor, size: size as usize, blocks })
}

/// The package of a stream, given the room of the output.
pub fn open(info: &[u8], password: &[u16], scheme: u64, stream: &[u8], room: usize) -> Result<Vec<u8>, u16> {
    let sheet = unlocked(info, password, scheme, stream)?.complete()?;
    require(room >= sheet.size, 16)?;
    Ok(sheet.package())
}

/// The bytes of a stream's package from one place up to, not including, another, given the room of the output.
pub fn stretch(info: &[u8], password: &[u16], scheme: u64, stream: &[u8], from: u64, to: u64, room: usize) -> Result<Vec<u8>, u16> {
    let sheet = unlocked(info, password, scheme, stream)?.complete()?;
    require(from <= to && to <= sheet.size as u64, 20)?;
    let (from, to) = (from as usize, to as usize);
    require(room >= to - from, 16)?;
    Ok(sheet.package()[from..to].to_vec())
}

/// What is there of a package, with zeros for the rest of it: how many bytes are which, and how many bytes of ciphertext no package of its
/// size has.
pub struct Rescued {
    pub package: Vec<u8>,
    pub recovered: usize,
    pub zeroed: usize,
    pub surplus: usize,
}

/// The package of a stream of any length, given the room of the output.
pub fn rescue(info: &[u8], password: &[u16], scheme: u64, stream: &[u8], room: usize) -> Result<Rescued, u16> {
    let sheet = unlocked(info, password, scheme, stream)?;
    require(room >= sheet.size, 16)?;
    Ok(rescued(&sheet.aes, &sheet.descriptor.salt, sheet.descriptor.scheme, sheet.size, sheet.blocks))
}

/// A package of so many bytes, as far as the whole blocks of a ciphertext go.
pub fn rescued(aes: &Aes, salt: &[u8; 16], scheme: Scheme, size: usize, ciphertext: &[u8]) -> Rescued {
    let [_, longest] = lengths(size);
    let surplus = ciphertext.len().saturating_sub(longest);
    let whole = ciphertext.len() - ciphertext.len() % 16;
    let mut package = decrypted(aes, salt, scheme, size, &ciphertext[..whole]);
    let recovered = package.len();
    package.resize(size, 0);
    Rescued { package, recovered, zeroed: size - recovered, surplus }
}

/// The whole stream of a package, given the choice of an extra block and the room of the output.
pub fn seal(
    info: &[u8],
    password: &[u16],
    scheme: u64,
    package: &[u8],
    filling: [u8; 16],
    extra: bool,
    room: usize,
) -> Result<Vec<u8>, u16> {
    let (aes, d) = unlock(info, password, scheme)?;
    require(package.len() <= LIMIT, 14)?;
    require(room >= lengths(package.len())[usize::from(extra)] + 8, 16)?;
    Ok(sealed(&aes, &d.salt, d.scheme, package, filling, extra))
}

/// StreamSize, then package and filling encrypted.
pub fn sealed(aes: &Aes, salt: &[u8; 16], scheme: Scheme, package: &[u8], filling: [u8; 16], extra: bool) -> Vec<u8> {
    let needed = lengths(package.len())[usize::from(extra)] - package.len();
    let whole = [package, &filling[..needed]].concat();
    let blocks = match scheme {
        Scheme::Ecb => aes.encrypt_all(&whole),
        Scheme::Chained => chaining::encrypt_all(aes, salt, package.len(), &whole),
    };
    [&(package.len() as u64).to_le_bytes()[..], &blocks].concat()
}
