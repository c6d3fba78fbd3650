//! The C interface as three texts have it: the header, the crate's declarations, and the source that is proved. Each is
//! read into the same form, in C's terms, so that they can be compared.

/// A field or a parameter: its name and its C type.
#[derive(Debug, Clone, PartialEq, Eq)]
pub struct Part {
    pub name: String,
    pub kind: String,
}

/// What a call answers, field by field.
#[derive(Debug, Clone, PartialEq, Eq)]
pub struct Answer {
    pub name: String,
    pub fields: Vec<Part>,
}

/// A call, parameter by parameter.
#[derive(Debug, Clone, PartialEq, Eq)]
pub struct Call {
    pub name: String,
    pub parameters: Vec<Part>,
    pub answer: String,
}

/// All answers and all calls, by their names.
#[derive(Debug, Clone, PartialEq, Eq)]
pub struct Interface {
    pub answers: Vec<Answer>,
    pub calls: Vec<Call>,
}

impl Interface {
    /// The order in which a text has them says nothing.
    pub fn of(mut answers: Vec<Answer>, mut calls: Vec<Call>) -> Interface {
        answers.sort_by(|a, b| a.name.cmp(&b.name));
        calls.sort_by(|a, b| a.name.cmp(&b.name));
        Interface { answers, calls }
    }

    /// What stands in one of two alone, a line for each.
    pub fn unlike(&self, other: &Interface) -> Vec<String> {
        let (ours, theirs) = (self.lines(), other.lines());
        let alone = |a: &[String], b: &[String], sign| {
            let lines = a.iter().filter(|line| !b.contains(line));
            lines
                .map(|line| format!("{sign} {line}"))
                .collect::<Vec<_>>()
        };
        [alone(&ours, &theirs, '+'), alone(&theirs, &ours, '-')].concat()
    }

    fn lines(&self) -> Vec<String> {
        let answers = self
            .answers
            .iter()
            .map(|answer| format!("{}: {}", answer.name, told(&answer.fields)));
        let calls = self.calls.iter().map(|call| {
            let parameters = told(&call.parameters);
            format!("{}({parameters}): {}", call.name, call.answer)
        });
        answers.chain(calls).collect()
    }
}

fn told(parts: &[Part]) -> String {
    let parts = parts
        .iter()
        .map(|part| format!("{} {}", part.kind, part.name));
    parts.collect::<Vec<_>>().join(", ")
}

/// A field or a parameter of a C type.
pub fn part(name: &str, kind: &str) -> Part {
    Part {
        name: name.to_string(),
        kind: kind.to_string(),
    }
}

/// The C type for a Rust or a Rattle one: `uint64_t` for `u64`, `gc_rule` for `GcRule`.
pub fn c_type(ours: &str) -> String {
    match ours {
        "usize" => "size_t".into(),
        "u8" | "u16" | "u32" | "u64" => format!("uint{}_t", &ours[1..]),
        answer => snake(answer),
    }
}

fn snake(name: &str) -> String {
    let mut out = String::new();
    for letter in name.chars() {
        if letter.is_uppercase() && !out.is_empty() {
            out.push('_');
        }
        out.extend(letter.to_lowercase());
    }
    out
}

/// What stands between `open` and the next `close`, at each place where `open` stands.
pub fn between<'a>(text: &'a str, open: &str, close: &str) -> Vec<&'a str> {
    let rests = text.split(open).skip(1);
    rests
        .map(|rest| rest.split(close).next().unwrap_or(rest))
        .collect()
}

/// The parts of a list, without the comma that may close it.
pub fn listed(list: &str) -> impl Iterator<Item = &str> {
    list.split(',')
        .map(str::trim)
        .filter(|part| !part.is_empty())
}

/// The text with each run of blanks and line ends as one blank, without what a line comment says.
pub fn bare(text: &str) -> String {
    let code = text
        .lines()
        .map(|line| line.split_once("//").map_or(line, |(code, _)| code));
    let words = code.flat_map(str::split_whitespace).collect::<Vec<_>>();
    words.join(" ")
}
