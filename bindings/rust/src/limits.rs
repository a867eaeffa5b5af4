//! How large forms may be.

use crate::answers::yes_or_no;
use crate::{ffi, Refusal};

/// How many levels and how many bytes a type or a value may have; a step or an
/// answer has no more bytes either. The default are the standard limits, 16
/// levels and 4,096 bytes.
///
/// ```
/// use tirncheav::{are_types_disjoint, Limits, Refusal};
/// let one = Limits::new(1, 64).unwrap();
/// // Long and {} are whole at one level, a set of Long and {1: Long} are not.
/// assert_eq!(are_types_disjoint(one, &[4], &[8, 0, 0, 0]), Ok(false));
/// assert_eq!(are_types_disjoint(one, &[7, 4], &[4]), Err(Refusal::First));
/// let record = [8, 0, 1, 0, 1, 0, 1, 1, 0, 4];
/// assert_eq!(are_types_disjoint(one, &[4], &record), Err(Refusal::Second));
/// assert_eq!(are_types_disjoint(Limits::default(), &[7, 4], &record), Ok(false));
/// ```
#[derive(Clone, Copy, Debug, PartialEq, Eq, Hash)]
pub struct Limits {
    levels: usize,
    bytes: usize,
}

impl Limits {
    /// Levels from 1 to 32 and bytes from 64 to 8,192.
    ///
    /// ```
    /// use tirncheav::{Limits, Refusal};
    /// let largest = Limits::new(32, 8192).unwrap();
    /// assert_eq!((largest.levels(), largest.bytes()), (32, 8192));
    /// assert_eq!(Limits::new(16, 4096), Ok(Limits::default()));
    /// for (levels, bytes) in [(0, 4096), (33, 4096), (16, 63), (16, 8193)] {
    ///     assert_eq!(Limits::new(levels, bytes), Err(Refusal::Limits));
    /// }
    /// ```
    pub fn new(levels: usize, bytes: usize) -> Result<Limits, Refusal> {
        // The library knows the ranges. Long is whole under any limits; each
        // pointer stands with the length of its array.
        let long = [4];
        yes_or_no(unsafe {
            ffi::tirncheav_are_types_disjoint(levels, bytes, long.as_ptr(), 1, long.as_ptr(), 1)
        })?;
        Ok(Limits { levels, bytes })
    }

    /// How many levels a form may have.
    pub fn levels(self) -> usize {
        self.levels
    }

    /// How many bytes a form may have: a result buffer of so many holds any
    /// answer, a workspace of twice as many serves any step.
    pub fn bytes(self) -> usize {
        self.bytes
    }
}

impl Default for Limits {
    fn default() -> Limits {
        Limits {
            levels: 16,
            bytes: 4096,
        }
    }
}
