//! What README shows of the program is what comes out, in a folder that is empty at first.

use crate::shell::{root, text, Folder};
use std::fs;

/// Each with how many commands it has at least.
const SECTIONS: [(&str, usize); 2] = [
    ("\n## `gongcollar`, the program to type", 9),
    ("\n#### The same as a file, for `gongcollar`", 6),
];
const MARK: &str = "<<<<";

/// A line of shell, perhaps with a document behind it, and what README shows of its output.
struct Shown {
    command: String,
    output: String,
}

/// The commands of the section's blocks, in order: `$ ` begins one.
fn shown(section: &str) -> Vec<Shown> {
    let mut all: Vec<Shown> = Vec::new();
    let mut document: Option<String> = None;
    for line in section.lines() {
        let Some(line) = line.strip_prefix("    ") else {
            continue;
        };
        if let Some(last) = all.last_mut().filter(|_| document.is_some()) {
            last.command += &format!("\n{line}");
            if Some(line) == document.as_deref() {
                document = None;
            }
        } else if let Some(command) = line.strip_prefix("$ ") {
            document = command
                .split("<<")
                .nth(1)
                .map(|end| end.trim_matches(['\'', ' ']).into());
            all.push(Shown {
                command: command.into(),
                output: String::new(),
            });
        } else if let Some(last) = all.last_mut() {
            last.output += &format!("{line}\n");
        }
    }
    all
}

#[test]
fn readme_shows_what_comes_out() {
    let readme = fs::read_to_string(root().join("README.md")).expect("README.md");
    for (heading, least) in SECTIONS {
        let section = readme.split(heading).nth(1).expect("the section");
        let section = section.split("\n#").next().expect("its end");
        let shown = shown(section);
        assert!(shown.len() >= least, "{}", shown.len());
        comes_out(&shown);
    }
}

fn comes_out(shown: &[Shown]) {
    // One shell for all, since the status of a command is asked for by the next.
    let mut script = String::from("exec 2>&1\n");
    for Shown { command, .. } in shown {
        script += &format!("status=$?; echo '{MARK}'; (exit $status)\n{command}\n");
    }
    let output = text(&Folder::new().run(&script).stdout);
    let seen: Vec<&str> = output.split(&format!("{MARK}\n")).skip(1).collect();
    assert_eq!(seen.len(), shown.len(), "{output}");
    for (shown, seen) in shown.iter().zip(seen) {
        assert_eq!(shown.output, seen, "{}", shown.command);
    }
}
