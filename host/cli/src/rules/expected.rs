//! What could stand at a place of a rule: the proved reader is asked for each character in turn.

use crate::names::Names;
use gongcollar::{Refusal, Rule};

/// What a rule that begins so can go on with, in words.
pub fn expected(beginning: &str, names: &Names) -> Vec<String> {
    let mut said = Vec::new();
    if proposition_fits(beginning) {
        said.push(names.propositions_in_words());
    }
    for next in ' '..='~' {
        match next {
            _ if !goes_on(beginning, next) => {}
            'p' => {}
            't' => said.push("`true`".into()),
            'f' => said.push("`false`".into()),
            other => said.push(format!("`{other}`")),
        }
    }
    if ends(beginning) {
        said.push("the end of the rule".into());
    }
    said
}

/// Whether a proposition can stand after a beginning.
pub fn proposition_fits(beginning: &str) -> bool {
    goes_on(beginning, 'p')
}

/// Whether some rule text begins so and goes on with this character.
fn goes_on(beginning: &str, next: char) -> bool {
    let text = format!("{beginning}{next}");
    match Rule::from_text(&text) {
        Err(Refusal::NoText { place }) => place as usize >= text.len(),
        Err(Refusal::TextTooLong { .. }) => false,
        _ => true,
    }
}

/// Whether the beginning is a rule's whole text.
fn ends(beginning: &str) -> bool {
    !matches!(
        Rule::from_text(beginning),
        Err(Refusal::NoText { .. } | Refusal::TextTooLong { .. })
    )
}

#[cfg(test)]
mod tests {
    use super::*;

    #[test]
    fn the_proved_reader_says_what_fits() {
        let names = Names::default();
        let begin = ["p0 to p5", "`!`", "`(`", "`[`", "`false`", "`true`", "`{`"];
        assert_eq!(expected("", &names), begin);
        assert_eq!(
            expected("{p0", &names),
            ["`&`", "`:`", "`;`", "`[`", "`|`", "`}`"]
        );
        assert_eq!(expected("{p0}", &names), ["`[`"]);
        assert_eq!(expected("p0", &names), ["`[`", "the end of the rule"]);
        assert_eq!(expected("{p0;p1}", &names), ["the end of the rule"]);
    }
}
