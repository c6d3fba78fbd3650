//! Transcripts: lines of shell with what they print and how they end.
//!
//!     $ a line of shell
//!     | a line of standard output
//!     ! a line of standard error
//!     = the status
//!
//! All else is remarks. With GONGCOLLAR_TRANSCRIBE set, what comes out is written in the place of what is expected.

use crate::shell::{text, Folder};
use std::env;
use std::fmt::Write;
use std::fs;
use std::path::Path;

fn transcribe(transcript: &str) -> String {
    let folder = Folder::with_files();
    let mut out = String::new();
    for line in transcript.lines() {
        match line.get(..1) {
            Some("|" | "!" | "=") => {}
            Some("$") => run(&folder, &line[2..], &mut out),
            _ => writeln!(out, "{line}").expect("a line"),
        }
    }
    out
}

fn run(folder: &Folder, line: &str, out: &mut String) {
    let output = folder.run(line);
    let code = output
        .status
        .code()
        .map_or("a signal".into(), |code| code.to_string());
    writeln!(out, "$ {line}").expect("a line");
    for (mark, bytes) in [('|', &output.stdout), ('!', &output.stderr)] {
        for line in text(bytes).lines() {
            writeln!(out, "{}", format!("{mark} {line}").trim_end()).expect("a line");
        }
    }
    writeln!(out, "= {code}").expect("a line");
}

#[test]
fn every_transcript_is_what_comes_out() {
    let folder = Path::new(env!("CARGO_MANIFEST_DIR")).join("tests/transcripts");
    let mut commands = 0;
    for file in fs::read_dir(folder).expect("the transcripts") {
        let path = file.expect("a transcript").path();
        let expected = fs::read_to_string(&path).expect("a text");
        let seen = transcribe(&expected);
        commands += seen.lines().filter(|line| line.starts_with('$')).count();
        if env::var_os("GONGCOLLAR_TRANSCRIBE").is_some() {
            fs::write(&path, &seen).expect("a transcript");
            continue;
        }
        for (number, (expected, seen)) in expected.lines().zip(seen.lines()).enumerate() {
            assert_eq!(expected, seen, "{}:{}", path.display(), number + 1);
        }
        assert_eq!(expected, seen, "{}", path.display());
    }
    assert!(commands > 100, "{commands}");
}
