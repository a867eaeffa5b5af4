//! Stands in for the crate `smol_str`: a short string held by value.

use std::{borrow::Borrow, cmp::Ordering, fmt, hash, ops::Deref};

/// An attribute name: four lower-case hexadecimal digits, so that the order of
/// strings is the order of numbers.
#[derive(Clone, Copy, PartialEq, Eq)]
pub struct SmolStr([u8; 4]);

const DIGITS: &[u8; 16] = b"0123456789abcdef";

impl SmolStr {
    pub fn from_number(n: u16) -> SmolStr {
        let digit = |shift: u16| DIGITS[(n >> shift) as usize & 15];
        SmolStr([digit(12), digit(8), digit(4), digit(0)])
    }

    pub fn number(&self) -> u16 {
        let value = |c: &u8| match c {
            b'a'..=b'f' => (c - b'a') as u16 + 10,
            _ => (c - b'0') as u16,
        };
        self.0.iter().fold(0, |n, c| n * 16 + value(c))
    }

    pub fn as_str(&self) -> &str {
        std::str::from_utf8(&self.0).expect("digits are ASCII")
    }
}

impl Deref for SmolStr {
    type Target = str;
    fn deref(&self) -> &str {
        self.as_str()
    }
}

impl Borrow<str> for SmolStr {
    fn borrow(&self) -> &str {
        self.as_str()
    }
}

impl PartialOrd for SmolStr {
    fn partial_cmp(&self, other: &SmolStr) -> Option<Ordering> {
        Some(self.cmp(other))
    }
}

impl Ord for SmolStr {
    fn cmp(&self, other: &SmolStr) -> Ordering {
        self.as_str().cmp(other.as_str())
    }
}

impl hash::Hash for SmolStr {
    fn hash<H: hash::Hasher>(&self, state: &mut H) {
        self.as_str().hash(state)
    }
}

impl PartialEq<SmolStr> for str {
    fn eq(&self, other: &SmolStr) -> bool {
        self == other.as_str()
    }
}

impl fmt::Display for SmolStr {
    fn fmt(&self, f: &mut fmt::Formatter<'_>) -> fmt::Result {
        f.write_str(self.as_str())
    }
}

impl fmt::Debug for SmolStr {
    fn fmt(&self, f: &mut fmt::Formatter<'_>) -> fmt::Result {
        fmt::Debug::fmt(self.as_str(), f)
    }
}
