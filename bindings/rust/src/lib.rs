//! The type rules of Cedar policies, over a static library whose every answer
//! is proved equal to its definition.
//!
//! Types, values, lists and schemas are byte forms; any bytes are safe to pass,
//! and what is not whole is refused. How large forms may be is the caller's
//! choice, [`Limits`]. A schema is checked once and kept with its block and its
//! limits:
//!
//! ```
//! use tirncheav::{Mode, Refusal, Schema, Written};
//!
//! // No entity types, actions or functions.
//! let schema = Schema::check(&[0; 6]).unwrap();
//!
//! // True is a subtype of Bool.
//! assert_eq!(schema.is_subtype(Mode::Strict, &[1], &[3]), Ok(true));
//!
//! // {1: Long} and {1: String}.
//! let long = [8, 0, 1, 0, 1, 0, 1, 1, 0, 4];
//! let string = [8, 0, 1, 0, 1, 0, 1, 1, 0, 5];
//! let mut out = [0; tirncheav::FORM_BYTES];
//!
//! // Permissive: field 1 is lost, and the record is open. Both types have two
//! // levels, and what is written has one.
//! let bound = schema.least_upper_bound(Mode::Permissive, &long, &string, &mut out);
//! assert_eq!(bound, Ok(Written { form: &[8, 1, 0, 0], levels: 1 }));
//!
//! // Strict: there is none, and the result buffer stays as it was.
//! let bound = schema.least_upper_bound(Mode::Strict, &long, &string, &mut out);
//! assert_eq!(bound, Err(Refusal::NoBound));
//! ```
//!
//! A form is measured, [`measure_type`] and [`measure_value`], before a stack is
//! lent to go down it; a type that a call writes comes with its levels,
//! [`Written`] and [`Attribute`].

mod answers;
#[rustfmt::skip]
mod ffi;
mod limits;
mod refusal;
mod schema;

pub use answers::{Attribute, Measured, Part, Written};
pub use limits::Limits;
pub use refusal::Refusal;
pub use schema::Schema;

use answers::{measured, written, yes_or_no};

/// The longest form under any limits: a result buffer of so many bytes holds
/// any answer.
///
/// ```
/// use tirncheav::{Limits, FORM_BYTES};
/// assert!(Limits::new(32, FORM_BYTES).is_ok());
/// assert!(Limits::new(32, FORM_BYTES + 1).is_err());
/// ```
pub const FORM_BYTES: usize = 8192;

/// A workspace of so many bytes serves any step under any limits.
pub const WORK_BYTES: usize = 2 * FORM_BYTES;

/// How strictly types are joined and compared.
#[derive(Clone, Copy, Debug, PartialEq, Eq, Hash)]
pub enum Mode {
    Strict = 0,
    Permissive = 1,
    /// As permissive, but sets whose elements have no bound are joined to the
    /// untyped set.
    ///
    /// ```
    /// use tirncheav::{Mode, Refusal, Schema, Written};
    /// let schema = Schema::check(&[0; 6]).unwrap();
    /// // A set of Long and a set of String.
    /// let (longs, strings) = ([7, 4], [7, 5]);
    /// let mut out = [0; 1];
    /// let bound = schema.least_upper_bound(Mode::Loose, &longs, &strings, &mut out);
    /// assert_eq!(bound, Ok(Written { form: &[6], levels: 1 }));
    /// let bound = schema.least_upper_bound(Mode::Permissive, &longs, &strings, &mut out);
    /// assert_eq!(bound, Err(Refusal::NoBound));
    /// ```
    Loose = 2,
}

/// A function of the library that measures a form.
type OfOne = unsafe extern "C" fn(usize, usize, *const u8, usize) -> u64;

fn of_one(measure: OfOne, limits: Limits, form: &[u8]) -> Result<Measured, Refusal> {
    let (levels, bytes) = (limits.levels(), limits.bytes());
    // The pointer stands with the length of its slice.
    measured(unsafe { measure(levels, bytes, form.as_ptr(), form.len()) })
}

/// How long a type is and how many levels it has.
///
/// ```
/// use tirncheav::{measure_type, Limits, Measured, Refusal};
/// let standard = Limits::default();
/// let levels = |t: &[u8]| measure_type(standard, t).unwrap().levels;
/// // Long, {}, {1: Long}, {1: a set of Long}.
/// assert_eq!(levels(&[4]), 1);
/// assert_eq!(levels(&[8, 0, 0, 0]), 1);
/// assert_eq!(levels(&[8, 0, 1, 0, 1, 0, 1, 1, 0, 4]), 2);
/// assert_eq!(levels(&[8, 0, 1, 0, 1, 0, 1, 2, 0, 7, 4]), 3);
///
/// // A set of sets of Long, under limits of just so many levels and of one fewer.
/// let sets = [7, 7, 4];
/// let [two, three] = [2, 3].map(|levels| Limits::new(levels, 64).unwrap());
/// assert_eq!(measure_type(three, &sets), Ok(Measured { length: 3, levels: 3 }));
/// assert_eq!(measure_type(two, &sets), Err(Refusal::First));
/// ```
pub fn measure_type(limits: Limits, t: &[u8]) -> Result<Measured, Refusal> {
    of_one(ffi::tirncheav_measure_type, limits, t)
}

/// How long a value is and how many levels it has. Every string of it must be
/// UTF-8.
///
/// ```
/// use tirncheav::{measure_value, Limits, Measured, Refusal};
/// let standard = Limits::default();
/// // The empty set; a set of true; a call of function 2 with that set.
/// let (empty, set) = ([5, 0, 0], [5, 1, 0, 1, 0, 1]);
/// let call = [7, 2, 0, 1, 0, 6, 0, 5, 1, 0, 1, 0, 1];
/// assert_eq!(measure_value(standard, &empty), Ok(Measured { length: 3, levels: 1 }));
/// assert_eq!(measure_value(standard, &set), Ok(Measured { length: 6, levels: 2 }));
/// assert_eq!(measure_value(standard, &call), Ok(Measured { length: 13, levels: 3 }));
///
/// // A value of three levels is not whole where two are allowed; a string of
/// // broken bytes is whole and no text.
/// let two = Limits::new(2, 64).unwrap();
/// assert_eq!(measure_value(two, &call), Err(Refusal::Value));
/// assert_eq!(measure_value(two, &[3, 1, 0, 0xff]), Err(Refusal::Text));
/// ```
pub fn measure_value(limits: Limits, value: &[u8]) -> Result<Measured, Refusal> {
    of_one(ffi::tirncheav_measure_value, limits, value)
}

/// A function of the library that asks something of two types.
type OfTwo = unsafe extern "C" fn(usize, usize, *const u8, usize, *const u8, usize) -> u64;

fn of_two(ask: OfTwo, limits: Limits, t0: &[u8], t1: &[u8]) -> Result<bool, Refusal> {
    let (levels, bytes) = (limits.levels(), limits.bytes());
    // Each pointer stands with the length of its slice.
    yes_or_no(unsafe { ask(levels, bytes, t0.as_ptr(), t0.len(), t1.as_ptr(), t1.len()) })
}

/// Whether both types are of kind 10 or 11 and share no name, so that no value
/// has both. A no says nothing.
///
/// ```
/// use tirncheav::{are_types_disjoint, Limits};
/// // The entity types 2 and 4.
/// let (two, four) = ([10, 1, 0, 2, 0], [10, 1, 0, 4, 0]);
/// assert_eq!(are_types_disjoint(Limits::default(), &two, &four), Ok(true));
/// ```
pub fn are_types_disjoint(limits: Limits, t0: &[u8], t1: &[u8]) -> Result<bool, Refusal> {
    of_two(ffi::tirncheav_are_types_disjoint, limits, t0, t1)
}

/// Whether a type is consistent with a plain one, by the Rust's test: neither
/// answer says whether a value has both.
///
/// ```
/// use tirncheav::{is_consistent_with, Limits, Refusal};
/// // Long with Long; True is not plain.
/// assert_eq!(is_consistent_with(Limits::default(), &[4], &[4]), Ok(true));
/// assert_eq!(is_consistent_with(Limits::default(), &[4], &[1]), Err(Refusal::Plain));
/// ```
pub fn is_consistent_with(limits: Limits, t0: &[u8], t1: &[u8]) -> Result<bool, Refusal> {
    of_two(ffi::tirncheav_is_consistent_with, limits, t0, t1)
}

/// The core type of a type, written to the front of `out`.
///
/// ```
/// use tirncheav::{convert, Limits, Written};
/// let mut out = [0; 5];
/// // True becomes Bool.
/// let core = convert(Limits::default(), &[1], &mut out);
/// assert_eq!(core, Ok(Written { form: &[3], levels: 1 }));
/// // An action with {1: Long}, two levels, becomes an entity, which has one.
/// let action = [11, 3, 0, 1, 0, 1, 0, 1, 1, 0, 4];
/// let core = convert(Limits::default(), &action, &mut out);
/// assert_eq!(core, Ok(Written { form: &[10, 1, 0, 3, 0], levels: 1 }));
/// ```
pub fn convert<'b>(limits: Limits, t: &[u8], out: &'b mut [u8]) -> Result<Written<'b>, Refusal> {
    // Each pointer stands with the length of its slice, and `out` is lent alone.
    let number = unsafe {
        ffi::tirncheav_convert(
            limits.levels(),
            limits.bytes(),
            t.as_ptr(),
            t.len(),
            out.as_mut_ptr(),
            out.len(),
        )
    };
    written(number, out)
}
