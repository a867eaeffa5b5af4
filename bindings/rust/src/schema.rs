//! A schema that is checked once and kept with its block.

use crate::answers::{attribute, names, part, written, written_or_none, yes_or_no};
use crate::ffi;
use crate::{Attribute, Limits, Mode, Part, Refusal, Written};

/// A whole schema and the limits of every call on it. The block stays lent, so
/// it cannot change after the check.
#[derive(Clone, Copy, Debug)]
pub struct Schema<'a> {
    block: &'a [u8],
    limits: Limits,
    check: u64,
}

/// An entry with this schema, then numbers, forms and what is lent to be written.
/// Each pointer stands with the length of its slice, what is written is lent
/// alone, and the number is the one that the check of this very block gave.
macro_rules! asked {
    ($schema:ident, $entry:ident, [$($number:expr),*], [$($form:ident),*], [$($lent:ident),*]) => {
        unsafe {
            ffi::$entry(
                $schema.block.as_ptr(),
                $schema.block.len(),
                $schema.check,
                $($number,)*
                $($form.as_ptr(), $form.len(),)*
                $($lent.as_mut_ptr(), $lent.len(),)*
            )
        }
    };
}

impl<'a> Schema<'a> {
    /// Checks a schema under the standard limits.
    ///
    /// ```
    /// use tirncheav::{Refusal, Schema};
    /// assert!(Schema::check(&[0; 6]).is_ok());
    /// assert_eq!(Schema::check(&[0; 5]).unwrap_err(), Refusal::Schema);
    /// ```
    pub fn check(block: &'a [u8]) -> Result<Schema<'a>, Refusal> {
        Schema::check_under(Limits::default(), block)
    }

    /// Checks a schema under limits, and keeps them.
    ///
    /// ```
    /// use tirncheav::{Limits, Mode, Refusal, Schema, Written, FORM_BYTES};
    /// // An entity of 2,047 types has 4,097 bytes.
    /// let mut entity = vec![10, 0xff, 0x07];
    /// entity.extend((1..=2047).flat_map(|n: u16| (2 * n).to_le_bytes()));
    /// let mut out = [0; FORM_BYTES];
    ///
    /// let standard = Schema::check(&[0; 6]).unwrap();
    /// assert_eq!(standard.limits(), Limits::default());
    /// let bound = standard.least_upper_bound(Mode::Strict, &entity, &entity, &mut out);
    /// assert_eq!(bound, Err(Refusal::First));
    ///
    /// let limits = Limits::new(16, 4097).unwrap();
    /// let larger = Schema::check_under(limits, &[0; 6]).unwrap();
    /// assert_eq!(larger.limits(), limits);
    /// let bound = larger.least_upper_bound(Mode::Strict, &entity, &entity, &mut out);
    /// assert_eq!(bound, Ok(Written { form: &entity, levels: 1 }));
    /// ```
    ///
    /// The bodies of a schema are forms too:
    ///
    /// ```
    /// use tirncheav::{Limits, Refusal, Schema};
    /// // The entity type 2 with {1: Long}, two levels.
    /// let block = [
    ///     1, 0, 0, 0, 0, 0, 2, 0, 0, 10, 0, 8, 0, 1, 0, 1, 0, 1, 1, 0, 4,
    /// ];
    /// let [one, two] = [1, 2].map(|levels| Limits::new(levels, 64).unwrap());
    /// assert!(Schema::check_under(two, &block).is_ok());
    /// assert_eq!(Schema::check_under(one, &block).unwrap_err(), Refusal::Schema);
    /// ```
    pub fn check_under(limits: Limits, block: &'a [u8]) -> Result<Schema<'a>, Refusal> {
        let (levels, bytes) = (limits.levels(), limits.bytes());
        // The pointer stands with the length of its slice.
        let check =
            unsafe { ffi::tirncheav_check_schema(levels, bytes, block.as_ptr(), block.len()) };
        let schema = Schema {
            block,
            limits,
            check,
        };
        // Any call tells whether the schema is whole; this one asks about Long.
        schema.may_have_attr(0, &[4])?;
        Ok(schema)
    }

    /// The limits of every call on the schema.
    pub fn limits(&self) -> Limits {
        self.limits
    }

    /// Whether t0 is a subtype of t1.
    pub fn is_subtype(&self, mode: Mode, t0: &[u8], t1: &[u8]) -> Result<bool, Refusal> {
        yes_or_no(asked!(
            self,
            tirncheav_is_subtype_checked,
            [mode as u8],
            [t0, t1],
            []
        ))
    }

    /// The least upper bound of two types, written to the front of `out`. It has
    /// no more levels than the deeper of the two.
    ///
    /// ```
    /// use tirncheav::{Mode, Schema, Written};
    /// let schema = Schema::check(&[0; 6]).unwrap();
    /// let mut out = [0; 12];
    ///
    /// // {1: a set of sets of Long}, four levels, and {1: Long}, two. Permissive,
    /// // the attribute is lost, and its levels with it.
    /// let deep = [8, 0, 1, 0, 1, 0, 1, 3, 0, 7, 7, 4];
    /// let flat = [8, 0, 1, 0, 1, 0, 1, 1, 0, 4];
    /// let bound = schema.least_upper_bound(Mode::Permissive, &deep, &flat, &mut out);
    /// assert_eq!(bound, Ok(Written { form: &[8, 1, 0, 0], levels: 1 }));
    ///
    /// // With itself it keeps them.
    /// let bound = schema.least_upper_bound(Mode::Strict, &deep, &deep, &mut out);
    /// assert_eq!(bound, Ok(Written { form: &deep, levels: 4 }));
    ///
    /// // Sets of sets of Long and of String, loose: a set of untyped sets.
    /// let bound = schema.least_upper_bound(Mode::Loose, &[7, 7, 4], &[7, 7, 5], &mut out);
    /// assert_eq!(bound, Ok(Written { form: &[7, 6], levels: 2 }));
    /// ```
    pub fn least_upper_bound<'b>(
        &self,
        mode: Mode,
        t0: &[u8],
        t1: &[u8],
        out: &'b mut [u8],
    ) -> Result<Written<'b>, Refusal> {
        let number = asked!(
            self,
            tirncheav_least_upper_bound_checked,
            [mode as u8],
            [t0, t1],
            [out]
        );
        written(number, out)
    }

    /// The least upper bound of a list of types, from Never, written to the
    /// front of `out`; `work` is all zero after.
    ///
    /// ```
    /// use tirncheav::{Mode, Schema, Written, FORM_BYTES, WORK_BYTES};
    /// let schema = Schema::check(&[0; 6]).unwrap();
    /// let (mut out, mut work) = ([0; FORM_BYTES], [0; WORK_BYTES]);
    ///
    /// // Sets of True and of False.
    /// let list = [2, 0, 2, 0, 2, 0, 7, 1, 7, 2];
    /// let bound = schema.reduce_to_least_upper_bound(Mode::Strict, &list, &mut out, &mut work);
    /// assert_eq!(bound, Ok(Written { form: &[7, 3], levels: 2 }));
    ///
    /// // Nothing: Never, which has one level.
    /// let bound = schema.reduce_to_least_upper_bound(Mode::Strict, &[0, 0], &mut out, &mut work);
    /// assert_eq!(bound, Ok(Written { form: &[0], levels: 1 }));
    /// ```
    pub fn reduce_to_least_upper_bound<'b>(
        &self,
        mode: Mode,
        list: &[u8],
        out: &'b mut [u8],
        work: &mut [u8],
    ) -> Result<Written<'b>, Refusal> {
        let number = asked!(
            self,
            tirncheav_reduce_to_least_upper_bound_checked,
            [mode as u8],
            [list],
            [out, work]
        );
        written(number, out)
    }

    /// The attribute of a type, its own type written to the front of `out`;
    /// `work` is all zero after.
    ///
    /// ```
    /// use tirncheav::{Attribute, Schema, FORM_BYTES, WORK_BYTES};
    /// let schema = Schema::check(&[0; 6]).unwrap();
    /// // {1: Long}, optional.
    /// let t = [8, 0, 1, 0, 1, 0, 0, 1, 0, 4];
    /// let (mut out, mut work) = ([0; FORM_BYTES], [0; WORK_BYTES]);
    /// let found = schema.lookup_attribute_type(1, &t, &mut out, &mut work);
    /// let long = Attribute { required: false, form: &[4], levels: 1 };
    /// assert_eq!(found, Ok(Some(long)));
    /// assert_eq!(schema.lookup_attribute_type(2, &t, &mut out, &mut work), Ok(None));
    /// ```
    pub fn lookup_attribute_type<'b>(
        &self,
        attr: u16,
        t: &[u8],
        out: &'b mut [u8],
        work: &mut [u8],
    ) -> Result<Option<Attribute<'b>>, Refusal> {
        let number = asked!(
            self,
            tirncheav_lookup_attribute_type_checked,
            [attr],
            [t],
            [out, work]
        );
        attribute(number, out)
    }

    /// The attribute of a record or an action, its type as the part of the
    /// form that was passed: nothing is copied.
    ///
    /// ```
    /// use tirncheav::Schema;
    /// let schema = Schema::check(&[0; 6]).unwrap();
    /// // {1: Long}, required.
    /// let t = [8, 0, 1, 0, 1, 0, 1, 1, 0, 4];
    /// let found = schema.own_attribute_type(1, &t).unwrap().unwrap();
    /// assert_eq!((found.required, found.form), (true, &t[9..]));
    /// ```
    pub fn own_attribute_type<'t>(
        &self,
        attr: u16,
        t: &'t [u8],
    ) -> Result<Option<Part<'t>>, Refusal> {
        let number = asked!(self, tirncheav_own_attribute_type_checked, [attr], [t], []);
        part(number, t)
    }

    /// Whether a value of a type may have an attribute.
    pub fn may_have_attr(&self, attr: u16, t: &[u8]) -> Result<bool, Refusal> {
        yes_or_no(asked!(
            self,
            tirncheav_may_have_attr_checked,
            [attr],
            [t],
            []
        ))
    }

    /// The names of a type's attributes, two bytes each, low byte first,
    /// written to the front of `out`; `work` is all zero after.
    ///
    /// ```
    /// use tirncheav::Schema;
    /// let schema = Schema::check(&[0; 6]).unwrap();
    /// // {1: Long}.
    /// let t = [8, 0, 1, 0, 1, 0, 1, 1, 0, 4];
    /// assert_eq!(schema.all_attributes(&t, &mut [0; 2], &mut []), Ok(&[1, 0][..]));
    /// ```
    pub fn all_attributes<'b>(
        &self,
        t: &[u8],
        out: &'b mut [u8],
        work: &mut [u8],
    ) -> Result<&'b [u8], Refusal> {
        let number = asked!(self, tirncheav_all_attributes_checked, [], [t], [out, work]);
        names(number, out)
    }

    /// Whether a value has a type. A call's arguments are compared with those
    /// that its function declares up to the end of the shorter list.
    ///
    /// ```
    /// use tirncheav::Schema;
    /// let schema = Schema::check(&[0; 6]).unwrap();
    /// // The value true and the type Bool.
    /// assert_eq!(schema.typecheck_restricted_expr(&[3], &[1]), Ok(true));
    /// ```
    ///
    /// Every string of the value must be UTF-8, whether or not the type looks at
    /// it:
    ///
    /// ```
    /// use tirncheav::{Refusal, Schema};
    /// let schema = Schema::check(&[0; 6]).unwrap();
    /// // A character of two bytes, and the first of them alone.
    /// let (text, broken) = ([3, 2, 0, 0xc3, 0xa4], [3, 1, 0, 0xc3]);
    /// assert_eq!(schema.typecheck_restricted_expr(&[5], &text), Ok(true));
    /// assert_eq!(schema.typecheck_restricted_expr(&[5], &broken), Err(Refusal::Text));
    /// // Where a Long is asked, text is a no.
    /// assert_eq!(schema.typecheck_restricted_expr(&[4], &text), Ok(false));
    /// assert_eq!(schema.typecheck_restricted_expr(&[4], &broken), Err(Refusal::Text));
    /// ```
    pub fn typecheck_restricted_expr(&self, t: &[u8], value: &[u8]) -> Result<bool, Refusal> {
        yes_or_no(asked!(
            self,
            tirncheav_typecheck_restricted_expr_checked,
            [],
            [t, value],
            []
        ))
    }

    /// Whether a value has a type and each call that the walk reaches, inside
    /// arguments too, has as many arguments as its function declares.
    ///
    /// ```
    /// use tirncheav::Schema;
    /// // One function, 2, which takes nothing and returns extension 7.
    /// let block = [0, 0, 0, 0, 1, 0, 2, 0, 1, 7, 0, 0, 0];
    /// let schema = Schema::check(&block).unwrap();
    /// // A call of it with the argument true.
    /// let (extension, call) = ([12, 7, 0], [7, 2, 0, 1, 0, 1, 0, 1]);
    /// assert_eq!(schema.typecheck_restricted_expr(&extension, &call), Ok(true));
    /// assert_eq!(schema.typecheck_restricted_expr_exact(&extension, &call), Ok(false));
    /// ```
    ///
    /// Every string must be UTF-8 here too, in an argument too many as well:
    ///
    /// ```
    /// use tirncheav::{Refusal, Schema};
    /// let block = [0, 0, 0, 0, 1, 0, 2, 0, 1, 7, 0, 0, 0];
    /// let schema = Schema::check(&block).unwrap();
    /// // A call with the argument ff, a byte that no text has.
    /// let (extension, call) = ([12, 7, 0], [7, 2, 0, 1, 0, 4, 0, 3, 1, 0, 0xff]);
    /// let told = schema.typecheck_restricted_expr_exact(&extension, &call);
    /// assert_eq!(told, Err(Refusal::Text));
    /// ```
    pub fn typecheck_restricted_expr_exact(&self, t: &[u8], value: &[u8]) -> Result<bool, Refusal> {
        yes_or_no(asked!(
            self,
            tirncheav_typecheck_restricted_expr_exact_checked,
            [],
            [t, value],
            []
        ))
    }

    /// The type of a uid, written to the front of `out`; none where the schema
    /// lacks it.
    ///
    /// ```
    /// use tirncheav::{Schema, Written};
    /// let schema = Schema::check(&[0; 6]).unwrap();
    /// // The entity 3 of type 2, which an empty schema does not have.
    /// assert_eq!(schema.euid_literal(&[4, 2, 0, 3, 0], &mut []), Ok(None));
    ///
    /// // The action 0 of type 3 with {1: Long}: its type has the levels of its body.
    /// let block = [
    ///     0, 0, 1, 0, 0, 0, 3, 0, 0, 0, 10, 0, 8, 0, 1, 0, 1, 0, 1, 1, 0, 4,
    /// ];
    /// let schema = Schema::check(&block).unwrap();
    /// let mut out = [0; 11];
    /// let action = Written { form: &[11, 3, 0, 1, 0, 1, 0, 1, 1, 0, 4], levels: 2 };
    /// assert_eq!(schema.euid_literal(&[4, 3, 0, 0, 0], &mut out), Ok(Some(action)));
    /// ```
    pub fn euid_literal<'b>(
        &self,
        uid: &[u8],
        out: &'b mut [u8],
    ) -> Result<Option<Written<'b>>, Refusal> {
        let number = asked!(self, tirncheav_euid_literal_checked, [], [uid], [out]);
        written_or_none(number, out)
    }
}
