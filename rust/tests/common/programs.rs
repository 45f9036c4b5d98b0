//! The example programs, run on files.

use std::io::Write;
use std::path::PathBuf;
use std::process::{Command, Output, Stdio};
use std::sync::atomic::{AtomicUsize, Ordering};
use std::{env, fs};

/// The model of docs/RULES.md, "Frames", with four shots: D1, D0, both, and D1 with another true observable.
pub const RECORDED: &str = "0100020001
023fd0000000000000010100000000
023fd0000000000000020000000001
04
050000000000000002
060000000000000001
050000000000000001
060000000000000001
050000000000000003
060000000000000000
050000000000000002
060000000000000000
";

/// The pair edge alone, and one shot, which it does not explain.
pub const STUCK: &str = "0100020001
023fd0000000000000020000000001
04
050000000000000002
060000000000000000
";

/// A mechanism of one detector, and one of three that nothing covers.
pub const NO_COVER: &str = "0100030000
023fd000000000000001000000
023fd00000000000000300000000010002
04
";

/// The program, which `cargo test` builds beside the tests; built here where one test is run alone.
fn program(example: &str) -> PathBuf {
    let tests = env::current_exe().unwrap();
    let program = tests.parent().unwrap().parent().unwrap().join("examples").join(example);
    if !program.is_file() {
        let built = Command::new(env!("CARGO")).args(["build", "--offline", "--example", example]).status().unwrap();
        assert!(built.success());
    }
    program
}

/// Runs an example in a folder that has these files alone, with this standard input.
pub fn run(example: &str, arguments: &[&str], files: &[(&str, &str)], input: &str) -> Output {
    static RUNS: AtomicUsize = AtomicUsize::new(0);
    let run = RUNS.fetch_add(1, Ordering::Relaxed);
    let folder = env::temp_dir().join(format!("pavrenni-{example}-{}-{run}", std::process::id()));
    fs::create_dir_all(&folder).unwrap();
    for (name, text) in files {
        fs::write(folder.join(name), text).unwrap();
    }
    let mut command = Command::new(program(example));
    command.args(arguments).current_dir(&folder).stdin(Stdio::piped()).stdout(Stdio::piped()).stderr(Stdio::piped());
    let mut child = command.spawn().unwrap();
    child.stdin.take().unwrap().write_all(input.as_bytes()).unwrap();
    let output = child.wait_with_output().unwrap();
    fs::remove_dir_all(&folder).unwrap();
    output
}

pub fn text(bytes: &[u8]) -> &str {
    std::str::from_utf8(bytes).unwrap()
}

/// It wrote this, and ended with exit status 0.
#[track_caller]
pub fn writes(output: &Output, expected: &str) {
    assert_eq!((text(&output.stdout), text(&output.stderr), output.status.code()), (expected, "", Some(0)));
}

/// It wrote this, then the message to standard error, and ended with exit status 1.
#[track_caller]
pub fn fails_after(output: &Output, written: &str, message: &str) {
    assert_eq!((text(&output.stdout), text(&output.stderr), output.status.code()), (written, &*format!("{message}\n"), Some(1)));
}

/// It wrote nothing but the message, and ended with exit status 1.
#[track_caller]
pub fn fails(output: &Output, message: &str) {
    fails_after(output, "", message);
}
