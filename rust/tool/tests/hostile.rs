//! What is no region, no file or no end: a clear error, soon and in little memory, and never a panic.

mod common;

use charts::random::Random;
use common::{example, file, folder, good, refused, told};
use std::fs::{self, File};
use std::io::Write;
use std::os::unix::ffi::OsStringExt;
use std::process::{Command, Stdio};

const TABLE: &str = "playtest.csv";

#[test]
fn what_is_no_file() {
    let folder = folder("hostile-files");
    let fifo = folder.join("fifo");
    let made = Command::new("mkfifo").arg(&fifo).status().expect("mkfifo");
    assert!(made.success());
    let fifo = fifo.to_str().expect("a path that is text");
    let ordinary = "this is no ordinary file, which is expected\n";
    assert_eq!(refused(&["check", fifo]), format!("{fifo}: {ordinary}"));
    assert_eq!(
        refused(&["sheet", "/dev/zero"]),
        format!("/dev/zero: {ordinary}")
    );
    assert_eq!(
        refused(&["locks", "."]),
        ".: this is a directory, a file is expected\n"
    );
    assert_eq!(
        refused(&["judge", TABLE, "no-such"]),
        "no-such: there is no such file\n"
    );
    assert_eq!(
        refused(&["replay", TABLE, fifo]),
        format!("{fifo}: {ordinary}")
    );
    assert_eq!(refused(&["races", "", "x"]), ": there is no such file\n");
}

#[test]
fn what_is_too_long() {
    let folder = folder("hostile-long");
    let huge = folder.join("huge.csv");
    File::create(&huge)
        .and_then(|x| x.set_len(1 << 30))
        .expect("a file of a gigabyte");
    let huge = huge.to_str().expect("a path that is text");
    for words in [
        ["check", huge].as_slice(),
        &["judge", TABLE, huge],
        &["replay", TABLE, huge],
        &["tidy", huge],
    ] {
        let told = refused(words);
        assert!(told.contains("the file is longer than the "), "{told}");
    }
    let table = fs::read_to_string(example().join(TABLE)).expect("the table");
    let long = file(
        &folder,
        "long.csv",
        format!("{table}49,{}", "x".repeat(1_000_000)),
    );
    assert_eq!(
        refused(&["check", &long]),
        format!("{long}: row 51: the row has 1000003 bytes; 8192 are the most\n")
    );
    let rows = file(
        &folder,
        "rows.csv",
        format!("{table}{}", "49,plain,,,1,\n".repeat(200_000)),
    );
    let told = refused(&["check", &rows]);
    assert!(
        told.contains("row 194: this is row 193 under the heading"),
        "{told}"
    );
}

#[test]
fn long_lists() {
    let folder = folder("hostile-lists");
    let claims = file(&folder, "long.claims", "never 4 4\n".repeat(100_000));
    assert!(good(&["judge", TABLE, &claims]).contains("all 100000 claims hold"));
    let wrong = file(&folder, "wrong.claims", "x\n".repeat(100_000));
    assert_eq!(refused(&["judge", TABLE, &wrong]).lines().count(), 21);
}

#[test]
fn standard_input_is_a_file_too() {
    let mut child = Command::new(env!("CARGO_BIN_EXE_bohrali"))
        .args(["check", "-"])
        .stdin(Stdio::piped())
        .stdout(Stdio::piped())
        .spawn()
        .expect("the command");
    let mut input = child.stdin.take().expect("a pipe");
    input.write_all(b"l{S{s}nb}").expect("a listing");
    drop(input);
    let output = child.wait_with_output().expect("an end");
    let text = String::from_utf8(output.stdout).expect("text");
    assert_eq!(
        text,
        "-: listing, admitted: 7 nodes, 3 barriers, 4 phases, 1 construct\n"
    );
}

#[test]
fn a_reader_that_goes_is_no_error() {
    let mut child = Command::new(env!("CARGO_BIN_EXE_bohrali"))
        .args(["sheet", TABLE, "--json"])
        .current_dir(example())
        .stdout(Stdio::piped())
        .stderr(Stdio::piped())
        .spawn()
        .expect("the command");
    drop(child.stdout.take());
    let output = child.wait_with_output().expect("an end");
    assert_eq!((output.status.code(), output.stderr.len()), (Some(0), 0));
}

#[test]
fn names_that_are_not_utf_8() {
    let folder = folder("hostile-names");
    let name = std::ffi::OsString::from_vec(b"caf\xE9.csv".to_vec());
    fs::copy(example().join(TABLE), folder.join(&name)).expect("a copy");
    let words = ["check".into(), folder.join(&name).into_os_string()];
    assert!(good(&words).contains("admitted: 49 nodes"));
}

/// Colour is for a terminal, which `script` makes, and not under NO_COLOR.
#[test]
fn colour_on_a_terminal_alone() {
    let printed = |shell: &str| {
        let command = format!("{shell} {} sheet {TABLE}", env!("CARGO_BIN_EXE_bohrali"));
        let mut script = Command::new("script");
        script
            .args(["-qec", &command, "/dev/null"])
            .current_dir(example());
        script
            .stdin(Stdio::null())
            .env_remove("NO_COLOR")
            .env("TERM", "xterm");
        script
            .output()
            .map(|x| String::from_utf8_lossy(&x.stdout).into_owned())
    };
    assert!(!good(&["sheet", TABLE]).contains('\u{1b}'));
    let Ok(coloured) = printed("") else {
        println!("script is not there: colour is not tried");
        return;
    };
    assert!(coloured.contains("\u{1b}[33;1m0\u{1b}[0m"), "{coloured}");
    for plain in [printed("NO_COLOR=1"), printed("TERM=dumb")] {
        assert!(!plain.expect("script is there").contains('\u{1b}'));
    }
}

/// Damaged files of every form, given to every command.
#[test]
fn damaged_files_are_refused_or_answered() {
    let folder = folder("hostile-damage");
    let mut random = Random::new(5);
    let table = fs::read(example().join(TABLE)).expect("the table");
    let claims = fs::read(example().join("playtest.claims")).expect("the claims");
    let claims = file(&folder, "claims", claims);
    for turn in 0..60 {
        let mut bytes = match turn % 3 {
            0 => table.clone(),
            1 => charts::draw(&mut random).1,
            _ => charts::listings::any(&mut random),
        };
        for _ in 0..random.below(4) {
            let at = random.below(bytes.len().max(1)).min(bytes.len());
            bytes.insert(at, random.byte());
        }
        let damaged = file(&folder, "damaged", &bytes);
        let commands: [&[&str]; 11] = [
            &["check", &damaged, "--json"],
            &["sheet", &damaged],
            &["pair", &damaged, "1", "2"],
            &["judge", &damaged, &claims],
            &["judge", TABLE, &damaged],
            &["locks", &damaged],
            &["races", TABLE, &damaged],
            &["diff", TABLE, &damaged, "--by", "where"],
            &["phases", &damaged],
            &["tidy", &damaged],
            &["replay", TABLE, &damaged],
        ];
        for words in commands {
            let (status, out, err) = told(words);
            assert!(
                status <= 2 && !err.contains("panicked"),
                "{words:?} {status} {out} {err}"
            );
        }
    }
}
