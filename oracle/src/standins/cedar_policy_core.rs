//! Stands in for the crate `cedar-policy-core`, as far as the published text
//! leans on it. README.md gives for each part the sentence it rests on.

pub mod ast {
    use crate::smol_str::SmolStr;
    use std::fmt;

    /// The name of an extension or of a function.
    #[derive(Clone, Copy, Debug, PartialEq, Eq, Hash, PartialOrd, Ord)]
    pub struct Name(pub u16);

    impl fmt::Display for Name {
        fn fmt(&self, f: &mut fmt::Formatter<'_>) -> fmt::Result {
            write!(f, "N{:04x}", self.0)
        }
    }

    /// The name of an entity type; an odd number is an action type.
    #[derive(Clone, Copy, Debug, PartialEq, Eq, Hash, PartialOrd, Ord)]
    pub struct EntityType(pub u16);

    impl EntityType {
        pub fn is_action(&self) -> bool {
            self.0 % 2 == 1
        }
    }

    impl fmt::Display for EntityType {
        fn fmt(&self, f: &mut fmt::Formatter<'_>) -> fmt::Result {
            write!(f, "E{:04x}", self.0)
        }
    }

    #[derive(Clone, Copy, Debug, PartialEq, Eq, Hash, PartialOrd, Ord)]
    pub struct EntityUID {
        pub ty: EntityType,
        pub eid: u16,
    }

    impl EntityUID {
        pub fn entity_type(&self) -> &EntityType {
            &self.ty
        }

        pub fn is_action(&self) -> bool {
            self.ty.is_action()
        }
    }

    /// A value as 01 writes it.
    #[derive(Clone, Debug)]
    pub enum RestrictedExpr {
        Bool(bool),
        Long(i64),
        String(String),
        Euid(EntityUID),
        Set(Vec<RestrictedExpr>),
        Record(Vec<(SmolStr, RestrictedExpr)>),
        Call(Name, Vec<RestrictedExpr>),
    }

    /// A value that is not partial.
    #[derive(Clone, Debug)]
    pub struct Value(pub RestrictedExpr);

    /// Residuals are left out: there is no expression of this type.
    #[derive(Clone, Debug)]
    pub enum Expr {}

    #[derive(Clone, Debug)]
    pub enum PartialValue {
        Value(Value),
        Residual(Expr),
    }

    impl From<Value> for RestrictedExpr {
        fn from(value: Value) -> RestrictedExpr {
            value.0
        }
    }

    impl RestrictedExpr {
        pub fn as_borrowed(&self) -> BorrowedRestrictedExpr<'_> {
            BorrowedRestrictedExpr(self)
        }
    }

    #[derive(Clone, Copy, Debug)]
    pub struct BorrowedRestrictedExpr<'a>(&'a RestrictedExpr);

    type Exprs<'a> = Box<dyn Iterator<Item = BorrowedRestrictedExpr<'a>> + 'a>;
    type Pairs<'a> = Box<dyn Iterator<Item = (&'a SmolStr, BorrowedRestrictedExpr<'a>)> + 'a>;

    impl<'a> BorrowedRestrictedExpr<'a> {
        pub fn new(expr: &'a Expr) -> Result<BorrowedRestrictedExpr<'a>, ()> {
            match *expr {}
        }

        pub fn as_bool(&self) -> Option<bool> {
            match self.0 {
                RestrictedExpr::Bool(b) => Some(*b),
                _ => None,
            }
        }

        pub fn as_long(&self) -> Option<i64> {
            match self.0 {
                RestrictedExpr::Long(n) => Some(*n),
                _ => None,
            }
        }

        pub fn as_string(&self) -> Option<&'a str> {
            match self.0 {
                RestrictedExpr::String(s) => Some(s),
                _ => None,
            }
        }

        pub fn as_euid(&self) -> Option<&'a EntityUID> {
            match self.0 {
                RestrictedExpr::Euid(e) => Some(e),
                _ => None,
            }
        }

        pub fn as_set_elements(&self) -> Option<Exprs<'a>> {
            match self.0 {
                RestrictedExpr::Set(s) => Some(Box::new(s.iter().map(BorrowedRestrictedExpr))),
                _ => None,
            }
        }

        pub fn as_record_pairs(&self) -> Option<Pairs<'a>> {
            match self.0 {
                RestrictedExpr::Record(pairs) => Some(Box::new(
                    pairs.iter().map(|(k, v)| (k, BorrowedRestrictedExpr(v))),
                )),
                _ => None,
            }
        }

        pub fn as_extn_fn_call(&self) -> Option<(&'a Name, Exprs<'a>)> {
            match self.0 {
                RestrictedExpr::Call(name, args) => Some((
                    name,
                    Box::new(args.iter().map(BorrowedRestrictedExpr)) as Exprs<'a>,
                )),
                _ => None,
            }
        }
    }
}

pub mod parser {
    /// Source locations are left out.
    #[derive(Clone, Debug)]
    pub enum Loc {}
}

pub mod entities {
    use super::ast::{EntityType, Name};
    use crate::smol_str::SmolStr;
    use std::collections::BTreeMap;

    /// The core type; written as plain forms.
    #[derive(Clone, Debug, PartialEq, Eq)]
    pub enum SchemaType {
        Bool,
        Long,
        String,
        Set {
            element_ty: Box<SchemaType>,
        },
        EmptySet,
        Record {
            attrs: BTreeMap<SmolStr, AttributeType>,
            open_attrs: bool,
        },
        Entity {
            ty: EntityType,
        },
        Extension {
            name: Name,
        },
    }

    #[derive(Clone, Debug, PartialEq, Eq)]
    pub struct AttributeType {
        attr_type: SchemaType,
        required: bool,
    }

    impl AttributeType {
        pub fn required(attr_type: SchemaType) -> AttributeType {
            AttributeType {
                attr_type,
                required: true,
            }
        }

        pub fn optional(attr_type: SchemaType) -> AttributeType {
            AttributeType {
                attr_type,
                required: false,
            }
        }

        pub fn is_required(&self) -> bool {
            self.required
        }

        pub fn schema_type(&self) -> &SchemaType {
            &self.attr_type
        }
    }

    pub mod conformance {
        use super::super::{ast::BorrowedRestrictedExpr, extensions::Extensions};
        use super::SchemaType;

        /// Kind of value for Bool, Long and String; for an extension, a call of
        /// a known function that returns it and whose arguments fit by this
        /// rule, pairwise to the shorter end.
        pub fn typecheck_restricted_expr_against_schematype(
            expr: BorrowedRestrictedExpr<'_>,
            expected: &SchemaType,
            extensions: &Extensions<'_>,
        ) -> Result<(), ()> {
            let fits = match expected {
                SchemaType::Bool => expr.as_bool().is_some(),
                SchemaType::Long => expr.as_long().is_some(),
                SchemaType::String => expr.as_string().is_some(),
                SchemaType::Extension { .. } => return call_fits(expr, expected, extensions),
                _ => false,
            };
            fits.then_some(()).ok_or(())
        }

        fn call_fits(
            expr: BorrowedRestrictedExpr<'_>,
            expected: &SchemaType,
            extensions: &Extensions<'_>,
        ) -> Result<(), ()> {
            let (name, args) = expr.as_extn_fn_call().ok_or(())?;
            let func = extensions.func(name).map_err(|_| ())?;
            if func.return_type() != Some(expected) {
                return Err(());
            }
            for (actual, expected) in args.zip(func.arg_types()) {
                typecheck_restricted_expr_against_schematype(actual, expected, extensions)?;
            }
            Ok(())
        }
    }
}

pub mod extensions {
    use super::{ast::Name, entities::SchemaType};
    use std::{collections::BTreeMap, marker::PhantomData};

    /// The function is not in the schema.
    #[derive(Clone, Debug)]
    pub struct ExtensionFunctionLookupError;

    #[derive(Clone, Debug)]
    pub struct ExtensionFunction {
        return_type: Option<SchemaType>,
        arg_types: Vec<SchemaType>,
    }

    impl ExtensionFunction {
        pub fn new(return_type: Option<SchemaType>, arg_types: Vec<SchemaType>) -> Self {
            ExtensionFunction {
                return_type,
                arg_types,
            }
        }

        pub fn return_type(&self) -> Option<&SchemaType> {
            self.return_type.as_ref()
        }

        pub fn arg_types(&self) -> &[SchemaType] {
            &self.arg_types
        }
    }

    /// The functions of the schema.
    #[derive(Clone, Debug, Default)]
    pub struct Extensions<'a> {
        functions: BTreeMap<Name, ExtensionFunction>,
        lifetime: PhantomData<&'a ()>,
    }

    impl Extensions<'_> {
        pub fn of(functions: BTreeMap<Name, ExtensionFunction>) -> Self {
            Extensions {
                functions,
                lifetime: PhantomData,
            }
        }

        /// These, and one more.
        pub fn with(&self, name: Name, function: ExtensionFunction) -> Self {
            let mut all = self.clone();
            all.functions.insert(name, function);
            all
        }

        pub fn func(
            &self,
            name: &Name,
        ) -> Result<&ExtensionFunction, ExtensionFunctionLookupError> {
            self.functions.get(name).ok_or(ExtensionFunctionLookupError)
        }
    }
}
