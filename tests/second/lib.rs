//! What 01 and the requests after it ask of the product, once more, by code that shares nothing with the crates: written from the
//! standards and from these alone, in another language, with no library for what it checks. vectors.rs prints the published vectors with
//! it and sheets.rs the cases of opening, sealing and writing, and the outside test compares every call of the archive with it.
pub mod aes;
pub mod algorithms;
pub mod chaining;
pub mod descriptor;
pub mod key;
pub mod package;
pub mod samples;
pub mod schemes;
pub mod sha1;
pub mod writer;

/// The reply, unless what it asks for holds.
fn require(holds: bool, reply: u16) -> Result<(), u16> {
    if holds { Ok(()) } else { Err(reply) }
}
