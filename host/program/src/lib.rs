//! Starts rulecheck as a process, and waits for what it says. For Linux: the tests use its pipes, its sockets and /proc.

#![deny(missing_docs)]
#![forbid(unsafe_code)]

use std::env;
use std::io::Read;
use std::path::{Path, PathBuf};
use std::process::{Child, Command, ExitStatus, Stdio};
use std::thread::{self, JoinHandle};
use std::time::{Duration, Instant};

/// Names another program to try in the place of the repository's own.
const PROGRAM_VARIABLE: &str = "RULECHECK";
/// No run of the tests takes nearly as long.
const PATIENCE: Duration = Duration::from_secs(60);
const PAUSE: Duration = Duration::from_millis(2);

/// The program: the one that is named, or where `tools/programs` puts it.
fn program() -> PathBuf {
    let program = match env::var_os(PROGRAM_VARIABLE) {
        Some(named) => PathBuf::from(named),
        None => Path::new(env!("CARGO_MANIFEST_DIR")).join("../../target/bin/rulecheck"),
    };
    assert!(
        program.is_file(),
        "there is no rulecheck at {}: run `tools/programs` in the repository's root",
        program.display()
    );
    program
}

/// What a run has written once it has ended.
#[derive(Debug)]
pub struct Ended {
    /// On standard output; empty where that was no pipe of ours.
    pub stdout: String,
    /// On standard error.
    pub stderr: String,
    /// How it ended.
    pub status: ExitStatus,
}

impl Ended {
    /// It printed this line, and had nothing to complain of.
    pub fn says(&self, line: &str) {
        assert_eq!(self.stdout, format!("{line}\n"));
        assert_eq!(self.stderr, "");
        assert!(self.status.success());
    }

    /// It printed no verdict, and one line of its own that says so and why.
    pub fn has_no_verdict(&self, why: &str) {
        assert_eq!(self.stdout, "");
        self.complains(why);
    }

    /// One line on standard error, which says that there is no verdict and why. The status says nothing of it.
    pub fn complains(&self, why: &str) {
        let said = &self.stderr;
        assert_eq!(said.lines().count(), 1, "{said:?}");
        assert!(said.ends_with('\n'), "{said:?}");
        assert!(said.starts_with("rulecheck: "), "{said:?}");
        assert!(said.contains("no verdict"), "{said:?}");
        assert!(said.contains(why), "{said:?} and not {why:?}");
        assert!(self.status.success());
    }
}

/// A run that may not have ended.
#[derive(Debug)]
pub struct Run {
    child: Child,
    stdout: Option<JoinHandle<String>>,
    stderr: Option<JoinHandle<String>>,
}

/// Starts rulecheck on an input, its output into a pipe that is read.
pub fn start(input: impl Into<Stdio>) -> Run {
    start_with(input, Stdio::piped())
}

/// Starts rulecheck on an input and an output.
pub fn start_with(input: impl Into<Stdio>, output: impl Into<Stdio>) -> Run {
    run(Command::new(program()).stdin(input).stdout(output))
}

/// Starts rulecheck by a line of shell, in which `"$0"` is the program.
pub fn start_by(line: &str, input: impl Into<Stdio>, output: impl Into<Stdio>) -> Run {
    let mut shell = Command::new("sh");
    shell.arg("-c").arg(line).arg(program());
    run(shell.stdin(input).stdout(output))
}

fn run(command: &mut Command) -> Run {
    let mut child = command.stderr(Stdio::piped()).spawn().expect("a process");
    Run {
        stdout: child.stdout.take().map(collect),
        stderr: child.stderr.take().map(collect),
        child,
    }
}

/// Reads to the end beside the test, so that no pipe fills up.
fn collect(mut from: impl Read + Send + 'static) -> JoinHandle<String> {
    thread::spawn(move || {
        let mut bytes = Vec::new();
        from.read_to_end(&mut bytes).expect("what a run writes");
        String::from_utf8(bytes).expect("text")
    })
}

impl Run {
    /// The process's number.
    pub fn id(&self) -> u32 {
        self.child.id()
    }

    /// Waits for the end; a run that does not end fails the test.
    pub fn end(mut self) -> Ended {
        let started = Instant::now();
        let status = loop {
            match self.child.try_wait().expect("a process to wait for") {
                Some(status) => break status,
                None if started.elapsed() < PATIENCE => thread::sleep(PAUSE),
                None => {
                    let _ = self.child.kill();
                    panic!("rulecheck did not end within {PATIENCE:?}");
                }
            }
        };
        let text = |collected: Option<JoinHandle<String>>| {
            collected.map_or_else(String::new, |text| text.join().expect("text"))
        };
        Ended {
            stdout: text(self.stdout),
            stderr: text(self.stderr),
            status,
        }
    }
}
