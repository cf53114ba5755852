//! With feature `before`: links the archive that `BOHRALI_BEFORE` names beside that of this tree. The
//! two define the same names, so those of the other get a prefix; names that it only uses (memcpy) stay.

use std::env;
use std::process::Command;

const PREFIX: &str = "before_";

fn main() {
    println!("cargo:rerun-if-env-changed=BOHRALI_BEFORE");
    println!("cargo:rerun-if-changed=build.rs");
    if env::var_os("CARGO_FEATURE_BEFORE").is_none() {
        return;
    }
    let archive = env::var("BOHRALI_BEFORE").expect("BOHRALI_BEFORE names an archive");
    println!("cargo:rerun-if-changed={archive}");
    let folder = env::var("OUT_DIR").expect("a folder for what is built");
    let renamed = format!("{folder}/libbohrali_before.a");
    let renames = defined(&archive)
        .into_iter()
        .map(|name| format!("--redefine-sym={name}={PREFIX}{name}"));
    run(Command::new("objcopy")
        .args(renames)
        .args([&archive, &renamed]));
    println!("cargo:rustc-link-search=native={folder}");
    println!("cargo:rustc-link-lib=static=bohrali_before");
}

/// The global names that an archive defines.
fn defined(archive: &str) -> Vec<String> {
    let listed = run(Command::new("nm")
        .args(["--defined-only", "--extern-only", "--format=posix"])
        .arg(archive));
    // A line is name, type, value and size, or else the name of a member.
    let symbols = listed.lines().filter(|line| line.contains(' '));
    let names = symbols.filter_map(|line| line.split(' ').next());
    names.map(String::from).collect()
}

/// What a program prints.
fn run(program: &mut Command) -> String {
    let output = program.output().expect("binutils are installed");
    let said = String::from_utf8_lossy(&output.stderr);
    assert!(output.status.success(), "{program:?}: {said}");
    String::from_utf8(output.stdout).expect("names are text")
}
