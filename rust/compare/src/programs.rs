//! The programs that the kit builds from the proved crates, in target/bin.

use std::io::Write;
use std::path::Path;
use std::process::{Command, Stdio};
use std::thread;

/// What a program prints for these bytes on its standard input. A program that is not there, or does
/// not end well, ends the test.
pub fn printed(program: &str, input: &[u8]) -> String {
    let folder = Path::new(env!("CARGO_MANIFEST_DIR")).join("../../target/bin");
    let mut child = Command::new(folder.join(program))
        .stdin(Stdio::piped())
        .stdout(Stdio::piped())
        .spawn()
        .unwrap_or_else(|error| {
            panic!("target/bin/{program}, which `make proved` builds: {error}")
        });
    let mut pipe = child.stdin.take().expect("standard input is a pipe");
    let output = thread::scope(|scope| {
        // beside the reading, since a pipe holds only so much; a program need not read all of it
        scope.spawn(move || pipe.write_all(input).ok());
        child.wait_with_output().expect("the program's output")
    });
    let status = output.status;
    assert!(status.success(), "{program}: {status}, input {input:02X?}");
    String::from_utf8(output.stdout).expect("a program prints text")
}
