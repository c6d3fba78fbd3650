//! Why a call gives no answer.

use std::error::Error;
use std::fmt;

/// The refusals, each with its number and what is said of it.
macro_rules! refusals {
    ($($name:ident = $number:literal: $says:literal;)*) => {
        /// Why a call gives no answer, and where. Nothing that was lent to the call has changed.
        #[derive(Debug, Clone, Copy, PartialEq, Eq, Hash)]
        #[non_exhaustive]
        pub enum Refusal {
            $(
                #[doc = concat!($number, ": ", $says, ".")]
                $name {
                    /// See [`Refusal::place`].
                    place: u64,
                },
            )*
            /// A refusal that this crate has no name for.
            Unnamed {
                /// See [`Refusal::number`].
                number: u64,
                /// See [`Refusal::place`].
                place: u64,
            },
        }

        impl Refusal {
            fn of(number: u64, place: u64) -> Refusal {
                match number {
                    $($number => Refusal::$name { place },)*
                    number => Refusal::Unnamed { number, place },
                }
            }

            /// The refusal's number.
            pub fn number(&self) -> u64 {
                match *self {
                    $(Refusal::$name { .. } => $number,)*
                    Refusal::Unnamed { number, .. } => number,
                }
            }

            /// The offset of the byte in the rule, the formulas, the model or the text, or the index of the letter; 0 where
            /// there is none.
            pub fn place(&self) -> u64 {
                match *self {
                    $(Refusal::$name { place } => place,)*
                    Refusal::Unnamed { place, .. } => place,
                }
            }

            /// What is said of it, without its number and its place.
            pub fn says(&self) -> &'static str {
                match self {
                    $(Refusal::$name { .. } => $says,)*
                    Refusal::Unnamed { .. } => "a refusal without a name",
                }
            }
        }

        #[cfg(test)]
        const NUMBERS: &[u64] = &[$($number),*];
    };
}

refusals! {
    RuleTooLong = 1: "the rule has more than 255 bytes";
    RuleEnded = 2: "the bytes end where another is needed";
    UnknownKind = 3: "no kind of rule or formula";
    WrongSort = 4: "a kind out of its place, as a formula for a rule or a rule for a formula";
    UnknownProposition = 5: "a proposition above 5";
    BytesAfterRule = 6: "bytes after what is complete";
    TooHeavy = 7: "the rule weighs more than 64";
    BadCounts = 8: "counts of which the first exceeds the second, or the second 15";
    FormulasTooLong = 9: "the formulas have more than 255 bytes";
    TooManyStates = 11: "the model goes on after 64 states";
    NotAState = 12: "a record of the model that is no state";
    StateCutShort = 13: "the model ends inside a state";
    StateLetter = 14: "a state's letter above 63";
    StateFlag = 15: "a state's flag that is neither 0 nor 1";
    MissingSuccessor = 16: "a successor that does not exist";
    ShortSlice = 21: "a lent slice below 4,096 entries, or below 704 bytes for a model";
    EventLetter = 22: "an event's letter above 63";
    TooManyLetters = 23: "more than 16 letters to judge";
    NoTable = 24: "no table of the stated weight and finals";
    FullCount = 25: "a walker that has taken 4,294,967,295 letters";
    TextTooLong = 30: "the text has more than 1,280 characters";
    NoText = 31: "no rule text goes on so, or the text ends too early";
    ShortOutput = 32: "the output is shorter than what would be written";
}

impl Refusal {
    /// The answer, unless the call refused.
    pub(crate) fn unless<T>(refused: u64, place: u64, answer: T) -> Result<T, Refusal> {
        match refused {
            0 => Ok(answer),
            number => Err(Refusal::of(number, place)),
        }
    }
}

impl fmt::Display for Refusal {
    fn fmt(&self, f: &mut fmt::Formatter<'_>) -> fmt::Result {
        write!(
            f,
            "refused {} at {}: {}",
            self.number(),
            self.place(),
            self.says()
        )
    }
}

impl Error for Refusal {}

#[cfg(test)]
mod tests {
    use super::*;

    #[test]
    fn numbers_and_places_come_back() {
        for &number in NUMBERS {
            let refusal = Refusal::of(number, number + 100);
            assert_eq!(refusal.number(), number);
            assert_eq!(refusal.place(), number + 100);
            assert!(!matches!(refusal, Refusal::Unnamed { .. }));
        }
    }

    #[test]
    fn a_number_without_a_name_is_kept() {
        let refusal = Refusal::unless(99, 7, ()).unwrap_err();
        let unnamed = Refusal::Unnamed {
            number: 99,
            place: 7,
        };
        assert_eq!(refusal, unnamed);
        assert_eq!(
            refusal.to_string(),
            "refused 99 at 7: a refusal without a name"
        );
    }

    #[test]
    fn no_number_is_an_answer() {
        assert_eq!(Refusal::unless(0, 0, 5), Ok(5));
    }
}
