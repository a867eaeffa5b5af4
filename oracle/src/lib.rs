//! The published Rust as judge of the type rules.
//!
//! `types`, `schema`, `validation_errors` and the mode are the published text,
//! cut by build.rs. `cedar_policy_core`, `smol_str`, `itertools` and `nonempty`
//! stand in for the crates that text leans on.

#[path = "standins/cedar_policy_core.rs"]
pub mod cedar_policy_core;
#[path = "standins/itertools.rs"]
pub mod itertools;
#[path = "standins/nonempty.rs"]
pub mod nonempty;
#[path = "standins/smol_str.rs"]
pub mod smol_str;

#[allow(dead_code)]
pub mod types {
    include!(concat!(env!("OUT_DIR"), "/types.rs"));

    impl EntityLUB {
        /// The union of names, at least one, that the bound of each with the
        /// next gives.
        pub fn of_names(names: impl IntoIterator<Item = EntityType>) -> EntityLUB {
            let lub_elements = names.into_iter().collect();
            EntityLUB { lub_elements }
        }
    }
}

#[allow(dead_code)]
pub mod schema {
    use crate::cedar_policy_core::ast::{EntityType, EntityUID};
    use std::collections::HashMap;

    pub mod action {
        include!(concat!(env!("OUT_DIR"), "/action.rs"));
    }
    pub mod entity_type {
        include!(concat!(env!("OUT_DIR"), "/entity_type.rs"));
    }
    pub use action::ValidatorActionId;
    pub use entity_type::{ValidatorEntityType, ValidatorEntityTypeKind};

    include!(concat!(env!("OUT_DIR"), "/schema_struct.rs"));
    include!(concat!(env!("OUT_DIR"), "/schema_impl.rs"));
}

pub mod validation_errors {
    include!(concat!(env!("OUT_DIR"), "/lub_help.rs"));
}

include!(concat!(env!("OUT_DIR"), "/validation_mode.rs"));

pub mod arguments;
pub mod candidates;
pub mod coverage;
pub mod deep;
pub mod exhaustive;
pub mod forms;
pub mod full;
pub mod generate;
pub mod harness;
pub mod jobs;
pub mod levels;
pub mod library;
pub mod limits;
pub mod loose;
pub mod model;
pub mod noted;
pub mod programs;
pub mod properties;
pub mod published;
pub mod questions;
pub mod rooms;
pub mod rounds;
pub mod sample;
pub mod trees;
