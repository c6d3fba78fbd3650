//! Reads and writes that fail: no verdict, a message, and status 2. A closed pipe ends quietly.

use crate::shell::{text, Folder};
use std::io::{pipe, Read, Write};
use std::os::unix::process::ExitStatusExt;
use std::process::{Output, Stdio};

const SIGPIPE: i32 = 13;

fn run(line: &str) -> Output {
    Folder::with_files().run(line)
}

/// Nothing on standard output, status 2, and a message that says why.
fn is_trouble(line: &str, why: &str) {
    let output = run(line);
    let said = text(&output.stderr);
    assert_eq!(text(&output.stdout), "", "{line}");
    assert_eq!(output.status.code(), Some(2), "{line}: {said}");
    assert!(
        said.starts_with("gongcollar: ") && said.contains(why),
        "{line}: {said}"
    );
}

const COMMANDS: [&str; 10] = [
    "check jobs.txt '{{true}[*];{write;write}}'",
    "check jobs.txt p0 --json",
    "model jobs.txt",
    "table p0",
    "judge p0 p0",
    "follow p0 jobs.events",
    "text 11",
    "bytes p0",
    "draw jobs.txt --rule p0",
    "--help",
];

#[test]
fn a_full_disk() {
    for command in COMMANDS {
        let why = "standard output could not be written: No space left on device";
        is_trouble(
            &format!("echo 1 > jobs.events; gongcollar {command} > /dev/full"),
            why,
        );
    }
}

#[test]
fn no_standard_output() {
    for command in COMMANDS {
        let why = "standard output could not be written: Bad file descriptor";
        is_trouble(
            &format!("echo 1 > jobs.events; gongcollar {command} >&-"),
            why,
        );
    }
}

#[test]
fn no_standard_input() {
    for command in [
        "check - p0",
        "check --bytes - p0",
        "check jobs.txt --rules -",
        "model -",
        "follow p0",
    ] {
        let why = "standard input could not be read: Bad file descriptor";
        is_trouble(&format!("gongcollar {command} <&-"), why);
        is_trouble(&format!("gongcollar {command} < ."), "Is a directory");
    }
}

/// Standard error that is closed is no reason for another verdict.
#[test]
fn no_standard_error() {
    let output = run("gongcollar check half.txt '{expire;thin}' 2>&-");
    assert_eq!(output.status.code(), Some(1));
    assert!(text(&output.stdout).contains("found"));
}

#[test]
fn a_reader_that_is_gone() {
    for command in COMMANDS {
        let (reader, writer) = pipe().expect("a pipe");
        drop(reader);
        let folder = Folder::with_files();
        folder.write("jobs.events", "1\n");
        let output = folder
            .command(&format!("exec gongcollar {command}"))
            .stdout(writer)
            .stderr(Stdio::piped())
            .output()
            .expect("a shell");
        assert_eq!(output.status.signal(), Some(SIGPIPE), "{command}");
        assert_eq!(text(&output.stderr), "", "{command}");
    }
}

/// Where the signal is ignored, as some hosts have it, the end is as quiet, and it is no verdict.
#[test]
fn a_reader_that_is_gone_and_no_signal() {
    let (reader, writer) = pipe().expect("a pipe");
    drop(reader);
    let output = Folder::with_files()
        .command("trap '' PIPE; exec gongcollar check jobs.txt '{{true}[*];{write;write}}'")
        .stdout(writer)
        .stderr(Stdio::piped())
        .output()
        .expect("a shell");
    assert_eq!(output.status.code(), Some(2));
    assert_eq!(text(&output.stderr), "");
}

/// The first match is told while the events still come.
#[test]
fn follow_tells_a_match_as_it_comes() {
    let folder = Folder::with_files();
    let mut child = folder
        .command("exec gongcollar follow '{expire;thin}' --names jobs.txt")
        .stdin(Stdio::piped())
        .stdout(Stdio::piped())
        .spawn()
        .expect("a process");
    let mut events = child.stdin.take().expect("its input");
    let mut out = child.stdout.take().expect("its output");
    events.write_all(b"expire\nthin\n").expect("events");
    let wanted = "first match after 2 events (line 2)\n";
    let mut seen = vec![0; wanted.len()];
    out.read_exact(&mut seen).expect("a line");
    assert_eq!(text(&seen), wanted);
    events.write_all(b"write\n").expect("an event");
    drop(events);
    let mut rest = String::new();
    out.read_to_string(&mut rest).expect("the rest");
    assert_eq!(rest, "end after 3 events; the whole row does not match\n");
    assert_eq!(child.wait().expect("its end").code(), Some(1));
}

/// Many rules on a terminal: a bar, and the same lines.
#[test]
fn progress_is_for_terminals() {
    let folder = Folder::with_files();
    folder.write("many.txt", "{expire;thin}\n".repeat(3000));
    let lines = "first=$(gongcollar check jobs.txt --rules many.txt 2>stderr | cksum); test ! -s stderr; \
                 script -qec 'gongcollar check jobs.txt --rules many.txt > stdout' typescript > /dev/null; \
                 test \"$(cksum < stdout)\" = \"$first\" && grep -c 'of 3000 rules' typescript > count; cat count";
    let output = folder.run(lines);
    assert_ne!(text(&output.stdout).trim(), "0", "{}", text(&output.stderr));
    assert_ne!(text(&output.stdout), "", "{}", text(&output.stderr));
}
