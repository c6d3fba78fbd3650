//! The second way's evaluator: whether a formula holds of a state and the next one, by its text.
//!
//! Nothing is shared with the reader, which goes from the whole to the parts: here each bracket is replaced by its value
//! as it closes.

/// A formula's text, cut by its signs.
#[derive(Debug)]
pub struct Formula {
    pieces: Vec<Piece>,
}

#[derive(Debug, Clone, Copy, PartialEq, Eq)]
enum Piece {
    Sign(char),
    Value(bool),
    Now(usize),
    Next(usize),
}

impl Formula {
    /// The formula of a text, if its words have a meaning. The propositions are named from p0 on.
    pub fn cut(text: &str, propositions: &[String]) -> Option<Formula> {
        let mut spaced = text.to_string();
        for sign in ["!", "(", ")", "&", "|"] {
            spaced = spaced.replace(sign, &format!(" {sign} "));
        }
        let words: Vec<&str> = spaced.split_whitespace().collect();
        let means = |word: &str| {
            (0..6).find(|bit| {
                propositions.get(*bit).is_some_and(|name| name == word)
                    || word.strip_prefix('p') == Some(&bit.to_string())
            })
        };
        let mut pieces = Vec::new();
        let mut rest = &words[..];
        while let Some((&word, after)) = rest.split_first() {
            rest = after;
            pieces.push(match (word, after) {
                ("next", ["(", name, ")", behind @ ..]) => {
                    rest = behind;
                    Piece::Next(means(name)?)
                }
                ("true", _) => Piece::Value(true),
                ("false", _) => Piece::Value(false),
                ("!" | "(" | ")" | "&" | "|", _) => Piece::Sign(word.chars().next()?),
                (name, _) => Piece::Now(means(name)?),
            });
        }
        Some(Formula { pieces })
    }

    /// Whether it holds of a letter and the next one; none if it is no whole formula.
    pub fn holds(&self, now: usize, next: usize) -> Option<bool> {
        let mut stack: Vec<Piece> = Vec::new();
        for &piece in &self.pieces {
            let mut value = match piece {
                Piece::Sign(')') => closed(&mut stack)?,
                Piece::Sign(_) => {
                    stack.push(piece);
                    continue;
                }
                Piece::Value(value) => value,
                Piece::Now(bit) => now & 1 << bit != 0,
                Piece::Next(bit) => next & 1 << bit != 0,
            };
            while stack.last() == Some(&Piece::Sign('!')) {
                stack.pop();
                value = !value;
            }
            stack.push(Piece::Value(value));
        }
        match stack[..] {
            [Piece::Value(value)] => Some(value),
            _ => None,
        }
    }
}

/// The value of the bracket that closes, which goes from the stack.
fn closed(stack: &mut Vec<Piece>) -> Option<bool> {
    let from = stack.len().checked_sub(4)?;
    let value = match stack[from..] {
        [Piece::Sign('('), Piece::Value(a), Piece::Sign('&'), Piece::Value(b)] => a && b,
        [Piece::Sign('('), Piece::Value(a), Piece::Sign('|'), Piece::Value(b)] => a || b,
        _ => return None,
    };
    stack.truncate(from);
    Some(value)
}
