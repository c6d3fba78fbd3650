//! Pictures, as graphviz takes them. It has to be there.

use crate::shell::{root, text, Folder};
use cases::{models, Draws};
use std::fs;

/// Has graphviz draw what a command prints, and answers the picture.
fn drawn(folder: &Folder, command: &str) -> String {
    let output = folder.run(&format!("{command} > picture.dot && dot -Tsvg picture.dot"));
    assert!(
        output.status.success(),
        "{command}: {}",
        text(&output.stderr)
    );
    assert_eq!(text(&output.stderr), "", "{command}");
    let picture = text(&output.stdout);
    assert!(
        picture.contains("<svg") && picture.ends_with("</svg>\n"),
        "{command}"
    );
    picture
}

#[test]
fn graphviz_takes_every_kind_of_picture() {
    let folder = Folder::with_files();
    for command in [
        "gongcollar model jobs.txt --dot",
        "gongcollar model half.txt --dot",
        "gongcollar model example.gcm --dot",
        "gongcollar table '{{(p0|!p1)}[*2..3];p2[=1..2]}' --dot",
        "gongcollar table '{{(p0|!p1)}[*2..3];p2[=1..2]}' --dot --trim",
        "gongcollar draw half.txt --rule 'a: {expire;thin}' --no-warnings",
        "gongcollar draw jobs.txt --rule '{thin;write}' --anywhere",
        "gongcollar draw jobs.txt --rule '{expire}[*15..15]'",
        "gongcollar model scheduler.txt --dot",
        "gongcollar draw scheduler.txt --rule '{true;{written;deleted}}'",
        "gongcollar draw scheduler.txt --rule '{true;{(written&p3);verified}}'",
    ] {
        drawn(&folder, command);
    }
    folder.write("empty.gcm", "");
    drawn(&folder, "gongcollar model empty.gcm --dot");
}

#[test]
fn a_picture_has_the_names_and_the_run() {
    let folder = Folder::with_files();
    let picture = drawn(
        &folder,
        "gongcollar draw jobs.txt --rule '{thin;write}' --anywhere",
    );
    for seen in [
        "idle",
        "expire",
        "{thin;write}: found",
        "#c0392b",
        "#2e6da4",
    ] {
        assert!(picture.contains(seen), "{seen}");
    }
}

#[test]
fn graphviz_takes_generated_models() {
    let mut draws = Draws::new(21);
    let folder = Folder::new();
    for _ in 0..10 {
        folder.write("model.gcm", models::accepted(&mut draws));
        drawn(
            &folder,
            "gongcollar draw model.gcm --rule '{{true}[*];{true}[*3..15]}' --no-warnings",
        );
    }
}

/// The picture in docs/ is the one that README says how to make, up to the version of graphviz.
#[test]
fn the_picture_in_docs_is_this_one() {
    let folder = Folder::new();
    for file in ["jobs.txt", "rules.txt"] {
        let from = root().join("examples").join(file);
        fs::copy(from, folder.path(file)).expect("an example");
    }
    let rule = "'late: {write;{{!verify}[*];delete}}'";
    let now = drawn(
        &folder,
        &format!("gongcollar draw jobs.txt --anywhere --rule {rule}"),
    );
    let kept = fs::read_to_string(root().join("docs/jobs.svg")).expect("docs/jobs.svg");
    let words = |picture: &str| -> Vec<String> {
        let lines = picture
            .lines()
            .filter(|line| line.contains("<title>") || line.contains("<text"));
        lines
            .map(|line| line.split('>').skip(1).collect::<Vec<_>>().join(">"))
            .collect()
    };
    assert_eq!(words(&kept), words(&now));
}
