//! How the blocks of a package are encrypted (request 2026-04). The file does not say it, so a number beside it does.

#[derive(Clone, Copy, Debug, PartialEq)]
pub enum Scheme {
    /// Each block by itself.
    Ecb = 1,
    /// In segments, each block with the one before it.
    Chained = 2,
}

pub const SCHEMES: [Scheme; 2] = [Scheme::Ecb, Scheme::Chained];

impl Scheme {
    pub fn of_number(number: u64) -> Option<Scheme> {
        SCHEMES.into_iter().find(|scheme| scheme.number() == number)
    }

    pub fn number(self) -> u64 {
        self as u64
    }
}
