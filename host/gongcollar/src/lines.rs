//! The line that the program rulecheck prints for an input.

use crate::models::front;
use crate::raw;
use crate::LINE_BYTES;

/// The line for an input, without its newline: a byte that is the rule's length, the rule, then the model.
///
/// ```
/// // The rule p0, and a model of one state in which it holds.
/// let input = [
///     0x03, 0x10, 0x01, 0x00,
///     0x20, 0x01, 0x01, 0x01, 0, 0, 0, 0, 0, 0, 0,
/// ];
/// assert_eq!(gongcollar::rulecheck(&input), "found 1 pairs 1: 0 uses 0");
/// assert_eq!(gongcollar::rulecheck(&[]), "refused 2 at 0");
/// ```
pub fn rulecheck(input: &[u8]) -> String {
    let mut out = vec![0; LINE_BYTES];
    let length = raw::rulecheck(input, &mut out);
    String::from_utf8_lossy(front(&out, length)).into_owned()
}

/// The same line into a lent slice of [`LINE_BYTES`] bytes or more; nothing, and no byte written, if it is shorter.
///
/// ```
/// let mut out = [0; gongcollar::LINE_BYTES];
/// assert_eq!(gongcollar::rulecheck_into(&[1, 0x11], &mut out), Some(&b"none pairs 0 uses -"[..]));
/// assert_eq!(gongcollar::rulecheck_into(&[1, 0x11], &mut [0; 100]), None);
/// ```
pub fn rulecheck_into<'a>(input: &[u8], out: &'a mut [u8]) -> Option<&'a [u8]> {
    // No line is empty, so that a length of 0 says that there was no room.
    match raw::rulecheck(input, out) {
        0 => None,
        length => Some(front(out, length)),
    }
}
