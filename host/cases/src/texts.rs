//! Texts of rules made bad, or perhaps good in another way.

use crate::draws::Draws;

/// The most characters that a text may have.
pub const MOST_CHARACTERS: usize = 1280;

/// A character that often means something where it lands.
pub fn likely_character(draws: &mut Draws) -> u8 {
    match draws.below(8) {
        0 => draws.byte(),
        1 => draws.one_of(b" \t\n\0PRxq6789[*1]="),
        _ => draws.one_of(b"p012345truefals!()&|{};:[*]+0=.."),
    }
}

/// The text with one character deleted, inserted, changed or doubled, or cut anywhere.
pub fn damaged(draws: &mut Draws, text: &[u8]) -> Vec<u8> {
    let mut out = text.to_vec();
    let at = draws.below(text.len());
    match draws.below(5) {
        0 if !text.is_empty() => drop(out.remove(at)),
        1 => out.insert(draws.below(text.len() + 1), likely_character(draws)),
        2 if !text.is_empty() => out[at] = likely_character(draws),
        3 if !text.is_empty() => out.insert(at, text[at]),
        _ => out.truncate(draws.below(text.len() + 1)),
    }
    out
}

/// Characters with no plan.
pub fn random(draws: &mut Draws, most: usize) -> Vec<u8> {
    let count = draws.between(0, most);
    (0..count).map(|_| likely_character(draws)).collect()
}

/// Texts at the limits and past them: nesting as deep as the characters allow, of 1,280 and 1,281 characters.
pub fn hostile() -> Vec<Vec<u8>> {
    let mut texts = Vec::new();
    for count in [MOST_CHARACTERS - 1, MOST_CHARACTERS, MOST_CHARACTERS + 1] {
        for character in b"{!([pt }&" {
            texts.push(vec![*character; count]);
        }
        texts.push([&b"!".repeat(count - 2)[..], b"p0"].concat());
        texts.push([&b"!".repeat(count - 1)[..], b"p"].concat());
        texts.push(b"{".repeat(count - 4).into_iter().chain(*b"[*0]").collect());
    }
    texts.push(Vec::new());
    // The longest that are accepted, the first that are not, and broken ones whose bytes would be too many.
    for count in [252, 253, 254] {
        let nots = b"!".repeat(count);
        texts.push([&nots[..], b"p0"].concat());
        texts.push([&nots[..], b"true"].concat());
        texts.push([&nots[..], b"p0x"].concat());
        texts.push([&b"{".repeat(count)[..], b"p5", &b"}[*]".repeat(count)].concat());
        texts.push([&b"{".repeat(count)[..], b"[*0]", &b"}[+]".repeat(count)].concat());
    }
    for count in [84, 85, 126, 127, 128] {
        texts.push(row(b"p0", b";", count));
        texts.push(row(b"[*0]", b"&&", count));
        texts.push(row(b"[*0]", b"&", count));
    }
    for count in [31, 32, 33, 63, 64, 65] {
        texts.push(row(b"true", b":", count));
        texts.push(row(b"[*0]", b"|", count));
        texts.push(row(b"[*0]", b";", count));
    }
    texts.extend(counts());
    texts
}

/// Counts as deep as characters, bytes and weight allow, and past them; counts that are none, and counts cut anywhere.
fn counts() -> Vec<Vec<u8>> {
    let mut texts = Vec::new();
    let deep = |count: usize, operand: &[u8], counts: &str| {
        let close = format!("}}[*{counts}]").into_bytes();
        [&b"{".repeat(count)[..], operand, &close.repeat(count)].concat()
    };
    for counts in [
        "0..0", "1..1", "0..1", "15..15", "10..15", "0..15", "2..1", "16..16",
    ] {
        for count in [1, 2, 3, 83, 84, 85, 125, 126, 127, 128, 158, 159, 160, 161] {
            texts.push(deep(count, b"p0", counts));
            texts.push(deep(count, b"[*0]", counts));
            texts.push([&deep(count, b"true", counts)[..], b"x"].concat());
        }
        for count in [1, 3, 4, 31, 32, 33, 50, 51, 52] {
            let operand = format!("p5[={counts}]").into_bytes();
            texts.push(row(&operand, b";", count));
            texts.push(row(&operand, b"&&", count));
        }
        for stem in ["p0[=", "!(p0|true)[=", "{p0}[*", "{p0;{p1}[*"] {
            let text = format!("{stem}{counts}]}}]").into_bytes();
            for length in stem.len() - 2..=text.len() {
                texts.push(text[..length].to_vec());
            }
        }
    }
    // No parts of what is far too heavy.
    texts.push([b"{", &row(b"true", b"&&", 60)[..], b"}[*0..0]"].concat());
    texts.push([b"{", &row(b"true", b"&&", 60)[..], b"}[*0..1]"].concat());
    for stem in [&b"p0[="[..], b"{p0}[*", b"p0[=1..", b"p0[=12.."] {
        for character in b"01259.]" {
            texts.push([stem, &[*character; 9]].concat());
            texts.push([stem, &[*character; MOST_CHARACTERS - 8]].concat());
        }
    }
    texts
}

/// So many operands, each pair in braces, the last the deepest.
fn row(operand: &[u8], sign: &[u8], count: usize) -> Vec<u8> {
    let link = [b"{", operand, sign].concat();
    [
        &link.repeat(count - 1)[..],
        operand,
        &b"}".repeat(count - 1),
    ]
    .concat()
}

#[cfg(test)]
mod tests {
    use super::*;

    #[test]
    fn rows_are_braced() {
        assert_eq!(row(b"p0", b"&&", 3), b"{p0&&{p0&&p0}}");
        assert_eq!(row(b"p0", b";", 1), b"p0");
    }

    #[test]
    fn damage_is_small() {
        let mut draws = Draws::new(3);
        for _ in 0..1000 {
            assert!(damaged(&mut draws, b"{p0;p1}").len() <= 8);
            assert!(damaged(&mut draws, b"").len() <= 1);
        }
    }
}
