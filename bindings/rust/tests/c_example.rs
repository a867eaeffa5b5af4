//! The C example compiles without a warning, runs, and prints the lines beside
//! it.

use std::path::Path;
use std::process::Command;

#[test]
fn the_c_example_runs() {
    let root = Path::new(env!("CARGO_MANIFEST_DIR")).join("../..");
    let program = Path::new(env!("CARGO_TARGET_TMPDIR")).join("example");
    let library = Path::new(env!("TIRNCHEAV_LIB")).join("libexports.a");
    let built = Command::new("cc")
        .args(["-std=c99", "-Wall", "-Wextra", "-Werror", "-O2", "-I"])
        .arg(root.join("include"))
        .arg(root.join("bindings/c/example.c"))
        .arg(library)
        .arg("-o")
        .arg(&program)
        .status()
        .expect("cc runs");
    assert!(built.success(), "the example does not compile");
    let ran = Command::new(&program).output().expect("the example runs");
    assert!(ran.status.success());
    let lines = include_str!("../../c/example.stdout");
    assert_eq!(String::from_utf8_lossy(&ran.stdout), lines);
}
