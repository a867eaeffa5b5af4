//! Reads the published text and writes it, cut, below OUT_DIR.
//!
//! The folder is `CEDAR_SRC`, or `../shared/docs/src` seen from the root of
//! the repository. A cut that does not find its text as often as it expects
//! stops the build. With the feature `library` the static library is linked.

use std::{env, fs, path::PathBuf};

/// One published file, with what is left of it.
struct Text {
    file: &'static str,
    text: String,
}

impl Text {
    fn read(file: &'static str) -> Text {
        let path = folder().join("src").join(file);
        println!("cargo:rerun-if-changed={}", path.display());
        let text = fs::read_to_string(&path)
            .unwrap_or_else(|e| panic!("cannot read {}: {e}", path.display()));
        Text { file, text }
    }

    /// Replace `old` by `new`; it must stand there exactly `times` times.
    fn swap(mut self, old: &str, new: &str, times: usize) -> Text {
        let found = self.text.matches(old).count();
        if found != times {
            panic!(
                "{}: expected {times} times, found {found} times: {old:?}",
                self.file
            );
        }
        self.text = self.text.replace(old, new);
        self
    }

    /// Remove `old`, which must stand there exactly `times` times.
    fn drop(self, old: &str, times: usize) -> Text {
        self.swap(old, "", times)
    }

    /// Remove the lines that start with `start`; there must be `times` of them.
    fn drop_lines(mut self, start: &str, times: usize) -> Text {
        let found = self.text.lines().filter(|l| l.starts_with(start)).count();
        if found != times {
            panic!(
                "{}: expected {times} lines, found {found}: {start:?}",
                self.file
            );
        }
        let kept = self.text.lines().filter(|l| !l.starts_with(start));
        self.text = kept.map(|l| format!("{l}\n")).collect();
        self
    }

    /// The places of the lines that are `start`, or else that start with it.
    fn places(&self, start: &str) -> Vec<usize> {
        let at = |test: &dyn Fn(&str) -> bool| -> Vec<usize> {
            let lines = self.text.lines().enumerate();
            lines.filter(|(_, l)| test(l)).map(|(at, _)| at).collect()
        };
        let same = at(&|l| l == start);
        match same.is_empty() {
            true => at(&|l| l.starts_with(start)),
            false => same,
        }
    }

    /// The one place of such a line.
    fn place(&self, start: &str) -> usize {
        let places = self.places(start);
        if places.len() != 1 {
            panic!(
                "{}: expected one line, found {}: {start:?}",
                self.file,
                places.len()
            );
        }
        places[0]
    }

    /// The lines from one that starts with `start` to the next that starts
    /// with `end`.
    fn span(&self, start: &str, end: &str) -> String {
        let first = self.place(start);
        let lines: Vec<&str> = self.text.lines().skip(first).collect();
        let last = lines.iter().position(|l| l.starts_with(end));
        let last = last.unwrap_or_else(|| panic!("{}: no {end:?} after {start:?}", self.file));
        lines[..=last].iter().map(|l| format!("{l}\n")).collect()
    }

    /// Remove such a span.
    fn drop_span(self, start: &str, end: &str) -> Text {
        let span = self.span(start, end);
        self.drop(&span, 1)
    }

    /// The item that starts with `first`, up to the closing brace in the same
    /// column.
    fn item(&self, first: &str) -> String {
        let indent = first.len() - first.trim_start().len();
        self.span(first, &format!("{}}}", &first[..indent]))
    }

    /// Remove the item that starts with `first`.
    fn drop_item(self, first: &str) -> Text {
        let item = self.item(first);
        self.drop(&item, 1)
    }

    /// Keep only the items that start so, in that order.
    fn keep_items(mut self, firsts: &[&str]) -> Text {
        self.text = firsts.iter().map(|f| self.item(f)).collect();
        self
    }

    fn write(self, name: &str) {
        let out = PathBuf::from(env::var("OUT_DIR").expect("OUT_DIR"));
        fs::write(out.join(name), self.text).expect("cannot write below OUT_DIR");
    }
}

fn folder() -> PathBuf {
    if let Ok(given) = env::var("CEDAR_SRC") {
        return PathBuf::from(given);
    }
    let here = PathBuf::from(env::var("CARGO_MANIFEST_DIR").expect("CARGO_MANIFEST_DIR"));
    here.join("../../shared/docs/src")
}

fn main() {
    println!("cargo:rerun-if-env-changed=CEDAR_SRC");
    println!("cargo:rerun-if-changed=build.rs");
    if env::var_os("CARGO_FEATURE_LIBRARY").is_some() {
        link_library();
    }
    types();
    entity_type();
    action();
    schema();
    validation_mode();
    lub_help();
}

/// libexports.a, from the folder `TIRNCHEAV_LIB` or from where
/// `./archive` puts it.
fn link_library() {
    println!("cargo:rerun-if-env-changed=TIRNCHEAV_LIB");
    let here = PathBuf::from(env::var_os("CARGO_MANIFEST_DIR").expect("cargo sets it"));
    let made = here.join("../target/staticlib");
    let folder = env::var_os("TIRNCHEAV_LIB").map_or(made, PathBuf::from);
    println!("cargo:rerun-if-changed={}", folder.display());
    println!("cargo:rustc-link-search=native={}", folder.display());
    println!("cargo:rustc-link-lib=static=exports");
}

/// types.rs, whole.
fn types() {
    let text = Text::read("types.rs.txt")
        .drop_lines("//!", 2)
        .drop("mod capability;\npub use capability::*;\n", 1)
        .drop("mod request_env;\n", 1)
        .drop("use educe::Educe;\n", 1)
        .drop("pub use request_env::*;\n", 1)
        .drop("use serde::Serialize;\n", 1)
        .swap("use itertools::", "use crate::itertools::", 1)
        .swap("use smol_str::", "use crate::smol_str::", 1)
        .swap(
            "use cedar_policy_core::{",
            "use crate::cedar_policy_core::{",
            1,
        )
        .drop(", Serialize", 7)
        .drop_lines("        #[serde(rename = ", 2)
        .drop_lines("#[serde(rename_all = ", 1)
        .swap("PartialOrd, Educe,", "PartialOrd, Eq, PartialEq, Hash,", 1)
        .drop_lines("#[educe(Eq, PartialEq, Hash)]", 1)
        .drop("// PANIC SAFETY unit tests\n", 2)
        .drop("#[allow(clippy::panic)]\n", 1)
        .drop("#[allow(clippy::indexing_slicing)]\n", 1);
    pair_order(text).write("types.rs");
}

/// The conformance walk takes a record's pairs in ascending order of names.
fn pair_order(text: Text) -> Text {
    if env::var("CARGO_FEATURE_HASH_ORDER").is_ok() {
        return text;
    }
    text.swap("let record: HashMap<", "let record: BTreeMap<", 1)
        .swap("HashMap, HashSet", "HashSet", 1)
}

/// schema/entity_type.rs, whole but for the edges between entity types.
fn entity_type() {
    Text::read("schema/entity_type.rs.txt")
        .drop_lines("//!", 1)
        .swap("use nonempty::", "use crate::nonempty::", 1)
        .drop("use serde::Serialize;\n", 1)
        .swap("use smol_str::", "use crate::smol_str::", 1)
        .swap(
            "use cedar_policy_core::",
            "use crate::cedar_policy_core::",
            1,
        )
        .drop(", transitive_closure::TCNode", 1)
        .drop(", Serialize", 3)
        .drop_lines("    #[serde(skip)]", 1)
        .drop_lines("    #[serde(skip_serializing_if = ", 1)
        .drop_item("impl TCNode<EntityType> for ValidatorEntityType {")
        .write("entity_type.rs");
}

/// schema/action.rs, without edges and without the resolution of names.
fn action() {
    Text::read("schema/action.rs.txt")
        .drop_lines("//!", 1)
        .swap(
            "use cedar_policy_core::{",
            "use crate::cedar_policy_core::{",
            1,
        )
        .drop("    transitive_closure::TCNode,\n", 1)
        .swap("use smol_str::", "use crate::smol_str::", 1)
        .drop("use super::internal_name_to_entity_type;\n", 1)
        .drop("    partition_nonempty::PartitionNonEmpty,\n", 1)
        .drop("    schema::{AllDefs, SchemaError},\n", 1)
        .drop("    ConditionalName,\n", 1)
        .drop_item("impl TCNode<EntityUID> for ValidatorActionId {")
        .drop_item("impl ValidatorApplySpec<ConditionalName> {")
        .write("action.rs");
}

/// Of schema.rs: the schema's two maps, their constructor, and the finders.
fn schema() {
    Text::read("schema.rs.txt")
        .keep_items(&["pub struct ValidatorSchema {"])
        .drop_span("    /// For easy lookup", "    pub(crate) actions:")
        .wrap("#[derive(Clone, Debug)]\n", "")
        .write("schema_struct.rs");
    Text::read("schema.rs.txt")
        .keep_items(&[
            "    pub fn new(",
            "    fn new_from_maps(",
            "    pub fn get_action_id(",
            "    pub fn get_entity_type<'a>(",
        ])
        .drop_span("        let actions =", "            .collect();")
        .drop("            actions,\n", 1)
        .wrap("impl ValidatorSchema {\n", "}\n")
        .write("schema_impl.rs");
}

/// Of lib.rs: the mode.
fn validation_mode() {
    Text::read("lib.rs.txt")
        .keep_items(&["pub enum ValidationMode {", "impl ValidationMode {"])
        .drop_item("    fn is_partial(self) -> bool {")
        .wrap(
            "#[derive(Default, Eq, PartialEq, Copy, Clone, Debug)]\n",
            "",
        )
        .write("validation_mode.rs");
}

/// Of diagnostics/validation_errors.rs: the reasons.
fn lub_help() {
    Text::read("diagnostics/validation_errors.rs.txt")
        .keep_items(&["pub enum LubHelp {"])
        .drop_lines("    #[error(", 5)
        .wrap("#[derive(Debug, Clone, Hash, Eq, PartialEq)]\n", "")
        .write("lub_help.rs");
}

impl Text {
    /// Put what an item had around it back.
    fn wrap(mut self, before: &str, after: &str) -> Text {
        self.text = format!("{before}{}{after}", self.text);
        self
    }
}
