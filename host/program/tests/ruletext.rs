//! The program ruletext as a process: texts with and without a newline, inputs past every limit, and reads and writes
//! that fail.

use std::env;
use std::fs::{File, OpenOptions};
use std::io::Write;
use std::path::{Path, PathBuf};
use std::process::{Command, Output, Stdio};
use std::thread;

/// Names another program to try in the place of the repository's own.
const PROGRAM_VARIABLE: &str = "RULETEXT";
const MOST_CHARACTERS: usize = 1280;

/// The program: the one that is named, or where `tools/programs` puts it.
fn program() -> PathBuf {
    let program = match env::var_os(PROGRAM_VARIABLE) {
        Some(named) => PathBuf::from(named),
        None => Path::new(env!("CARGO_MANIFEST_DIR")).join("../../target/bin/ruletext"),
    };
    assert!(
        program.is_file(),
        "there is no ruletext at {}: run `tools/programs` in the repository's root",
        program.display()
    );
    program
}

/// A line of shell, in which `"$0"` is the program, on these bytes.
fn run_by(line: &str, input: Vec<u8>, output: Stdio) -> Output {
    let mut shell = Command::new("sh");
    shell.arg("-c").arg(line).arg(program());
    let shell = shell.stdin(Stdio::piped()).stdout(output);
    let mut child = shell.stderr(Stdio::piped()).spawn().expect("a process");
    let mut stdin = child.stdin.take().expect("its input");
    // Whoever reads may stop early: that is for the test to find.
    let writer = thread::spawn(move || stdin.write_all(&input).is_ok());
    let output = child.wait_with_output().expect("its end");
    writer.join().expect("the writer");
    output
}

fn says(input: &[u8], line: &str) {
    let output = run_by("exec \"$0\"", input.to_vec(), Stdio::piped());
    let stdout = String::from_utf8_lossy(&output.stdout).into_owned();
    assert_eq!(stdout, format!("{line}\n"));
    assert_eq!(output.stderr, b"");
    assert!(output.status.success());
}

/// Nothing on standard output, and one line on standard error that says why.
fn has_no_answer(output: &Output, why: &str) {
    let said = String::from_utf8_lossy(&output.stderr).into_owned();
    assert_eq!(output.stdout, b"");
    assert_eq!(said.lines().count(), 1, "{said:?}");
    assert!(said.starts_with("ruletext: "), "{said:?}");
    assert!(said.contains("no answer") && said.contains(why), "{said:?}");
}

#[test]
fn a_newline_may_close_the_text() {
    for text in [&b"{p0;{{p1}[*];p2}}"[..], b"{p0;{{p1}[*];p2}}\n"] {
        says(text, "12 10 01 00 12 17 10 01 01 10 01 02");
    }
    says(b"p0\n\n", "refused 31 at 2");
    says(b"\n", "refused 31 at 0");
    says(b"", "refused 31 at 0");
    says(b"p0\r\n", "refused 31 at 2");
}

#[test]
fn the_longest_text_and_one_character_more() {
    let deep = vec![b'{'; MOST_CHARACTERS];
    let last = "refused 31 at 1280";
    says(&deep, last);
    says(&[&deep[..], b"\n"].concat(), last);
    says(&[&deep[..], b"\n\n"].concat(), "refused 30 at 0");
    says(&[&deep[..], b"\n", &deep].concat(), "refused 30 at 0");
    says(&[&deep[..], b"{"].concat(), "refused 30 at 0");
    says(&[&deep[..], b"{\n"].concat(), "refused 30 at 0");
    says(&vec![b'!'; 3_000_000], "refused 30 at 0");
}

#[test]
fn reads_and_writes_that_fail() {
    let closed = run_by("exec \"$0\" <&-", Vec::new(), Stdio::piped());
    has_no_answer(&closed, "standard input could not be read");
    let folder = run_by("exec \"$0\" </", Vec::new(), Stdio::piped());
    has_no_answer(&folder, "standard input could not be read");
    let full: File = OpenOptions::new()
        .write(true)
        .open("/dev/full")
        .expect("/dev/full");
    let full = run_by("exec \"$0\"", b"p0".to_vec(), Stdio::from(full));
    has_no_answer(&full, "standard output could not be written");
    let closed = run_by("exec \"$0\" >&-", b"p0".to_vec(), Stdio::null());
    has_no_answer(&closed, "standard output could not be written");
}
