//! Inputs, and pipes to give them by.

use cases::models::{bytes_of, State};
use std::fs::{File, OpenOptions};
use std::io::{pipe, PipeReader, PipeWriter, Write};
use std::os::fd::AsRawFd;
use std::os::unix::fs::OpenOptionsExt;
use std::thread;

/// `O_NONBLOCK` of Linux on the processors that rulecheck is made for.
const NON_BLOCKING: i32 = 0o4000;
/// A state's bytes.
pub const RECORD: usize = 11;

/// The example: p0;{p1[*];p2} and its three states, of which the last goes to the first.
pub fn example() -> Vec<u8> {
    let rule = [
        0x12, 0x10, 0x01, 0x00, 0x12, 0x17, 0x10, 0x01, 0x01, 0x10, 0x01, 0x02,
    ];
    let states = [(1, 1, 0b010), (2, 0, 0b110), (4, 0, 0b001)];
    let states = states.map(|(letter, flag, successors)| State {
        letter,
        flag,
        successors,
    });
    cases::line_input(&rule, &bytes_of(&states))
}

/// What is said of it.
pub const EXAMPLE_LINE: &str = "found 3 pairs 3: 0 1 2 uses 0 1 2";

/// A pipe that these bytes come through, to its end.
pub fn piped(bytes: Vec<u8>) -> PipeReader {
    let (reader, mut writer) = pipe().expect("a pipe");
    // Whoever reads may stop early: that is for the test to find.
    thread::spawn(move || writer.write_all(&bytes));
    reader
}

/// The reading end of a pipe, which fails where it would wait.
pub fn impatient_reader(reader: &PipeReader) -> File {
    let mut options = OpenOptions::new();
    reopened(options.read(true), reader.as_raw_fd())
}

/// The writing end of a pipe, which fails where it would wait.
pub fn impatient_writer(writer: &PipeWriter) -> File {
    let mut options = OpenOptions::new();
    reopened(options.write(true), writer.as_raw_fd())
}

fn reopened(options: &mut OpenOptions, end: i32) -> File {
    let path = format!("/proc/self/fd/{end}");
    let opened = options.custom_flags(NON_BLOCKING).open(path);
    opened.expect("the pipe by its name under /proc")
}
