//! Files and standard input, read whole or not at all.

use crate::model::Model;
use crate::output::warn;
use crate::trouble::Trouble;
use std::fs::File;
use std::io::{self, Read};
use std::os::fd::AsFd;
use std::path::Path;

/// The most bytes of a model as text, or of its bytes.
const MODEL_BYTES: u64 = 1 << 20;
/// The most bytes of a file of rules.
const RULES_BYTES: u64 = 1 << 26;
/// The ending of files that hold a model's bytes.
const BYTES_ENDING: &str = "gcm";

/// Whether a path stands for standard input.
pub fn is_standard(path: &Path) -> bool {
    path.as_os_str() == "-"
}

/// What a file is called in messages.
pub fn called(path: &Path) -> String {
    match is_standard(path) {
        true => "standard input".into(),
        false => path.display().to_string(),
    }
}

/// Opens a file, or standard input.
pub fn open(path: &Path) -> Result<File, Trouble> {
    let opened = match is_standard(path) {
        true => io::stdin().as_fd().try_clone_to_owned().map(File::from),
        false => File::open(path),
    };
    opened.map_err(|error| Trouble::read(&called(path), &error))
}

fn whole(path: &Path, most: u64) -> Result<Vec<u8>, Trouble> {
    let mut bytes = Vec::new();
    let read = open(path)?.take(most + 1).read_to_end(&mut bytes);
    read.map_err(|error| Trouble::read(&called(path), &error))?;
    match bytes.len() as u64 > most {
        true => Err(Trouble::new(format!(
            "{} has more than {most} bytes",
            called(path)
        ))),
        false => Ok(bytes),
    }
}

/// Warns of a last line that has no newline: its end may be missing, and what is left may be good too.
pub fn warn_if_cut(source: &str, bytes: &[u8]) {
    if !bytes.is_empty() && !bytes.ends_with(b"\n") {
        warn(format!(
            "{source}: the last line has no newline: it may be cut off"
        ));
    }
}

/// A whole file as text; the hint helps where it is none.
fn text(path: &Path, most: u64, hint: &str, warns: bool) -> Result<String, Trouble> {
    let bytes = whole(path, most)?;
    if warns {
        warn_if_cut(&called(path), &bytes);
    }
    String::from_utf8(bytes).map_err(|error| {
        let good = error.utf8_error().valid_up_to();
        let line = error.as_bytes()[..good]
            .iter()
            .filter(|&&byte| byte == b'\n')
            .count()
            + 1;
        Trouble::new(format!("{}: line {line} is no text", called(path))).hint(hint)
    })
}

/// The model of a file: its bytes if that is said or the file ends in `.gcm`, else its text, perhaps with a warning.
pub fn model(path: &Path, bytes: bool, warns: bool) -> Result<Model, Trouble> {
    let source = called(path);
    if bytes
        || path
            .extension()
            .is_some_and(|ending| ending == BYTES_ENDING)
    {
        return Model::from_bytes(&source, &whole(path, MODEL_BYTES)?);
    }
    let hint = "a model's bytes are read with --bytes, or from a file that ends in .gcm";
    Model::from_text(&source, &text(path, MODEL_BYTES, hint, warns)?)
}

/// The text of a file of rules, perhaps with a warning.
pub fn rules(path: &Path, warns: bool) -> Result<String, Trouble> {
    let hint = "expected a line for each rule, in UTF-8";
    text(path, RULES_BYTES, hint, warns)
}
