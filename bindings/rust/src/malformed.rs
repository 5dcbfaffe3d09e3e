use core::{error, fmt};

/// Bytes that are no record, or a tree that no record can say.
#[derive(Clone, Copy, Debug, PartialEq, Eq)]
pub struct Malformed {
    at: usize,
    why: &'static str,
}

impl Malformed {
    pub(crate) fn new(at: usize, why: &'static str) -> Malformed {
        Malformed { at, why }
    }

    /// The same, so many bytes further on.
    #[cfg(feature = "std")]
    pub(crate) fn after(self, bytes: usize) -> Malformed {
        Malformed { at: bytes + self.at, ..self }
    }

    /// The place in the bytes, read or to be written, of the part that is wrong; for a rule on a whole record, where
    /// that record begins.
    pub fn at(&self) -> usize {
        self.at
    }
}

impl fmt::Display for Malformed {
    fn fmt(&self, f: &mut fmt::Formatter<'_>) -> fmt::Result {
        write!(f, "malformed at byte {}: {}", self.at, self.why)
    }
}

impl error::Error for Malformed {}
