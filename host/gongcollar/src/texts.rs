//! Rules as text.

use crate::models::front;
use crate::raw;
use crate::rules::{read_rule, RuleInfo};
use crate::{Propositions, Refusal, RULE_BYTES, TEXT_BYTES};
use std::fmt;
use std::str::FromStr;

/// An accepted rule: its bytes in the house form, and what is known of it.
///
/// A rule has exactly one text. A formula is `p0` to `p5`, `true`, `false`, `!f`, `(f&f)` or `(f|f)`. A rule is a
/// formula, `[*0]` for the empty sequence, `{r;r}`, `{r:r}`, `{r|r}`, `{r&r}`, `{r&&r}`, `{r}[*]`, `{r}[+]`, `{r}[*i..j]`
/// for i to j parts in a row, or `f[=i..j]` for i to j letters that satisfy the formula, others anywhere; i is at most j
/// and j at most 15, in decimal without leading zeros. There are no blanks.
///
/// ```
/// use gongcollar::Rule;
///
/// let rule: Rule = "{p0;{{p1}[*];p2}}".parse()?;
/// assert_eq!(rule.bytes(), [0x12, 0x10, 0x01, 0x00, 0x12, 0x17, 0x10, 0x01, 0x01, 0x10, 0x01, 0x02]);
/// assert_eq!(rule.weight(), 6);
/// assert_eq!(rule.to_string(), "{p0;{{p1}[*];p2}}");
/// assert!(gongcollar::judge(rule.bytes(), &[1, 2, 4])?);
///
/// // Three to five expiries in a row, and among other letters.
/// let row: Rule = "{p0}[*3..5]".parse()?;
/// assert_eq!((row.bytes(), row.weight()), (&[0x19, 3, 5, 0x10, 0x01, 0x00][..], 10));
/// let among: Rule = "p0[=3..5]".parse()?;
/// assert_eq!((among.bytes(), among.weight()), (&[0x1A, 3, 5, 0x01, 0x00][..], 7));
/// assert!(!gongcollar::judge(row.bytes(), &[1, 0, 1, 1])?);
/// assert!(gongcollar::judge(among.bytes(), &[1, 0, 1, 1])?);
///
/// let refusal = "{p0; p1}".parse::<Rule>().unwrap_err();
/// assert_eq!((refusal.number(), refusal.place()), (31, 4));
/// # Ok::<(), gongcollar::Refusal>(())
/// ```
#[derive(Debug, Clone, PartialEq, Eq)]
pub struct Rule {
    bytes: Vec<u8>,
    info: RuleInfo,
}

impl Rule {
    /// The rule that has this text.
    pub fn from_text(text: &str) -> Result<Rule, Refusal> {
        let mut out = [0; RULE_BYTES];
        let (bytes, info) = read_text_into(text.as_bytes(), &mut out)?;
        let bytes = bytes.to_vec();
        Ok(Rule { bytes, info })
    }

    /// The rule of these bytes.
    ///
    /// ```
    /// let rule = gongcollar::Rule::from_bytes(&[0x13, 0x10, 0x01, 0x00, 0x10, 0x02])?;
    /// assert_eq!(rule.to_string(), "{p0:true}");
    /// # Ok::<(), gongcollar::Refusal>(())
    /// ```
    pub fn from_bytes(bytes: &[u8]) -> Result<Rule, Refusal> {
        let info = read_rule(bytes)?;
        let bytes = bytes.to_vec();
        Ok(Rule { bytes, info })
    }

    /// The bytes in the house form, as every call of this crate takes them.
    pub fn bytes(&self) -> &[u8] {
        &self.bytes
    }

    /// The number of states of the rule's table, 1 to 64.
    pub fn weight(&self) -> u64 {
        self.info.weight
    }

    /// The propositions that the rule names, whether or not they matter to its meaning.
    pub fn uses(&self) -> Propositions {
        self.info.uses
    }

    /// What is known of the rule.
    pub fn info(&self) -> RuleInfo {
        self.info
    }
}

impl FromStr for Rule {
    type Err = Refusal;

    fn from_str(text: &str) -> Result<Rule, Refusal> {
        Rule::from_text(text)
    }
}

impl TryFrom<&[u8]> for Rule {
    type Error = Refusal;

    fn try_from(bytes: &[u8]) -> Result<Rule, Refusal> {
        Rule::from_bytes(bytes)
    }
}

impl AsRef<[u8]> for Rule {
    fn as_ref(&self) -> &[u8] {
        self.bytes()
    }
}

/// The rule's text.
impl fmt::Display for Rule {
    fn fmt(&self, f: &mut fmt::Formatter<'_>) -> fmt::Result {
        let mut out = [0; TEXT_BYTES];
        // An accepted rule always has a text, of at most five characters a byte.
        let (text, _) = write_text_into(&self.bytes, &mut out).map_err(|_| fmt::Error)?;
        f.pad(&String::from_utf8_lossy(text))
    }
}

/// Reads a text into the bytes of its rule, which the output then begins with; 255 bytes are always enough. A refusal
/// changes nothing.
///
/// ```
/// let mut out = [7; 5];
/// let (bytes, rule) = gongcollar::read_text_into(b"!p2", &mut out)?;
/// assert_eq!((bytes, rule.weight), (&[0x10, 0x04, 0x01, 0x02][..], 2));
/// assert_eq!(out[4], 7);
/// assert_eq!(gongcollar::read_text_into(b"!p2", &mut out[..3]).unwrap_err().number(), 32);
/// # Ok::<(), gongcollar::Refusal>(())
/// ```
pub fn read_text_into<'a>(text: &[u8], out: &'a mut [u8]) -> Result<(&'a [u8], RuleInfo), Refusal> {
    written(raw::read_text(text, out), out)
}

/// Writes the text of a rule's bytes, which the output then begins with; 1,280 characters are always enough. A refusal
/// changes nothing.
///
/// ```
/// let mut out = [0; 4];
/// let (text, _) = gongcollar::write_text_into(&[0x11], &mut out)?;
/// assert_eq!(text, b"[*0]");
/// assert_eq!(gongcollar::write_text_into(&[0x11, 0x11], &mut out).unwrap_err().number(), 6);
/// # Ok::<(), gongcollar::Refusal>(())
/// ```
pub fn write_text_into<'a>(
    rule: &[u8],
    out: &'a mut [u8],
) -> Result<(&'a [u8], RuleInfo), Refusal> {
    written(raw::write_text(rule, out), out)
}

/// What was written, and what is known of the rule.
fn written(answer: raw::Text, out: &[u8]) -> Result<(&[u8], RuleInfo), Refusal> {
    let info = RuleInfo {
        weight: answer.weight,
        uses: Propositions::from_bits(answer.uses),
    };
    Refusal::unless(
        answer.refused,
        answer.place,
        (front(out, answer.length), info),
    )
}
