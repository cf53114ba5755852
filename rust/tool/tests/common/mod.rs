//! The command run as its user runs it.

#![allow(dead_code)] // each test file uses some of it

pub mod browser;
pub mod json;
pub mod packed;

use std::ffi::OsStr;
use std::fs;
use std::path::{Path, PathBuf};
use std::process::{Command, Output};

/// The folder of the example, in which the stored commands are run.
pub fn example() -> PathBuf {
    Path::new(env!("CARGO_MANIFEST_DIR")).join("../../examples/playtest")
}

/// A chart of the repository.
pub fn chart(name: &str) -> PathBuf {
    let folder = Path::new(env!("CARGO_MANIFEST_DIR")).join("../../charts");
    folder.join(format!("{name}.chart"))
}

/// The flow of one of the front end's programs that are written by hand.
pub fn flow(unit: &str) -> String {
    let folder = Path::new(env!("CARGO_MANIFEST_DIR")).join("../frontend/tests/flows/O2/hand");
    folder.join(format!("{unit}.flow")).display().to_string()
}

pub fn run<T: AsRef<OsStr>>(words: &[T]) -> Output {
    Command::new(env!("CARGO_BIN_EXE_bohrali"))
        .args(words)
        .current_dir(example())
        .env_remove("BOHRALI_REPLAY")
        .output()
        .expect("the command is run")
}

/// The status, standard output and standard error.
pub fn told<T: AsRef<OsStr>>(words: &[T]) -> (i32, String, String) {
    let output = run(words);
    let text = |x: Vec<u8>| String::from_utf8(x).expect("text is printed");
    let status = output.status.code().expect("the command ends by itself");
    (status, text(output.stdout), text(output.stderr))
}

/// The result of a command that ends well.
#[track_caller]
pub fn good<T: AsRef<OsStr>>(words: &[T]) -> String {
    let (status, out, err) = told(words);
    assert_eq!((status, err.as_str()), (0, ""), "{out}");
    out
}

/// The messages of a command that is refused.
#[track_caller]
pub fn refused<T: AsRef<OsStr>>(words: &[T]) -> String {
    let (status, out, err) = told(words);
    assert_eq!((status, out.as_str()), (2, ""), "{err}");
    err
}

/// A folder of a test's own, empty at first.
pub fn folder(test: &str) -> PathBuf {
    let folder = Path::new(env!("CARGO_TARGET_TMPDIR")).join(test);
    fs::remove_dir_all(&folder).ok();
    fs::create_dir_all(&folder).expect("a folder");
    folder
}

/// A file with this content in a test's folder.
pub fn file(folder: &Path, name: &str, content: impl AsRef<[u8]>) -> String {
    let path = folder.join(name);
    fs::write(&path, content).expect("a file");
    path.to_str().expect("a path that is text").into()
}

/// The page of files, made in a folder of a test's own.
pub fn page(test: &str, files: &[&str]) -> String {
    let out = folder(test).join("page.html");
    let out = out.to_str().expect("a path that is text");
    let printed = good(&[&["page"], files, &["-o", out, "--source", "."]].concat());
    let page = fs::read_to_string(out).expect("the page");
    let bytes = format!("{} bytes\n", page.len());
    assert!(printed.ends_with(&bytes), "{printed}");
    page
}

/// The one data block of a page.
pub fn data(page: &str) -> json::Value {
    const OPEN: &str = r#"<script type="application/json" id="data">"#;
    let blocks: Vec<&str> = page.split(OPEN).collect();
    assert_eq!(blocks.len(), 2, "one data block");
    let block = blocks[1].split("</script>").next().expect("a block");
    json::Value::read(&format!("{block}\n"))
}
