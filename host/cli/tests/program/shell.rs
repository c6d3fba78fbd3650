//! Lines of shell in a folder of their own, with the built program in the path.

use std::env;
use std::fs;
use std::path::{Path, PathBuf};
use std::process::{Command, Output, Stdio};
use std::sync::atomic::{AtomicUsize, Ordering};

/// The repository's root.
pub fn root() -> PathBuf {
    Path::new(env!("CARGO_MANIFEST_DIR")).join("../..")
}

/// The files that tests begin with.
pub fn files() -> PathBuf {
    Path::new(env!("CARGO_MANIFEST_DIR")).join("tests/files")
}

/// A folder that is gone with its value.
pub struct Folder(PathBuf);

impl Folder {
    pub fn new() -> Folder {
        static COUNT: AtomicUsize = AtomicUsize::new(0);
        let number = COUNT.fetch_add(1, Ordering::Relaxed);
        let name = format!("gongcollar-{}-{number}", std::process::id());
        let folder = env::temp_dir().join(name);
        fs::create_dir(&folder).expect("a new folder");
        Folder(folder)
    }

    /// A folder with the tests' files in it.
    pub fn with_files() -> Folder {
        let folder = Folder::new();
        for file in fs::read_dir(files()).expect("the files") {
            let file = file.expect("a file");
            fs::copy(
                file.path(),
                folder.path(&file.file_name().to_string_lossy()),
            )
            .expect("a copy");
        }
        folder
    }

    pub fn path(&self, name: &str) -> PathBuf {
        self.0.join(name)
    }

    pub fn write(&self, name: &str, content: impl AsRef<[u8]>) {
        fs::write(self.path(name), content).expect("a file");
    }

    /// What a line of shell does in this folder.
    pub fn run(&self, line: &str) -> Output {
        self.command(line).output().expect("a shell")
    }

    /// A line of shell in this folder. It has no terminal, and nothing to read.
    pub fn command(&self, line: &str) -> Command {
        let program = Path::new(env!("CARGO_BIN_EXE_gongcollar"));
        let folder = program.parent().expect("the program's folder");
        let path = env::var("PATH").unwrap_or_default();
        let mut shell = Command::new("sh");
        shell
            .arg("-c")
            .arg(line)
            .current_dir(&self.0)
            .stdin(Stdio::null());
        shell.env("PATH", format!("{}:{path}", folder.display()));
        shell.env("LC_ALL", "C");
        shell
    }
}

impl Drop for Folder {
    fn drop(&mut self) {
        let _ = fs::remove_dir_all(&self.0);
    }
}

/// What was written, as text.
pub fn text(bytes: &[u8]) -> String {
    String::from_utf8(bytes.to_vec()).expect("text")
}
