//! The kind bytes of the house form.

pub(crate) const PROPOSITION: u8 = 0x01;
pub(crate) const TRUE: u8 = 0x02;
pub(crate) const FALSE: u8 = 0x03;
pub(crate) const NOT: u8 = 0x04;
pub(crate) const AND: u8 = 0x05;
pub(crate) const OR: u8 = 0x06;
pub(crate) const LETTER: u8 = 0x10;
pub(crate) const EMPTY: u8 = 0x11;
pub(crate) const THEN: u8 = 0x12;
pub(crate) const OVERLAP: u8 = 0x13;
pub(crate) const EITHER: u8 = 0x14;
pub(crate) const WITHIN: u8 = 0x15;
pub(crate) const BOTH: u8 = 0x16;
pub(crate) const STAR: u8 = 0x17;
pub(crate) const PLUS: u8 = 0x18;
pub(crate) const COUNTED: u8 = 0x19;
pub(crate) const OCCURS: u8 = 0x1A;
