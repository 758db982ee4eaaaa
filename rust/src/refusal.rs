//! Why a call was refused.

use std::fmt;

macro_rules! causes {
    ($($number:literal $name:ident $text:literal,)*) => {
        /// A cause of document 01, with its number.
        #[derive(Clone, Copy, Debug, PartialEq, Eq, PartialOrd, Ord, Hash)]
        pub enum Cause {
            $(#[doc = $text] $name = $number,)*
        }

        impl Cause {
            /// The cause of a number.
            pub fn of(number: u64) -> Option<Cause> {
                match number {
                    $($number => Some(Cause::$name),)*
                    _ => None,
                }
            }

            fn text(self) -> &'static str {
                match self {
                    $(Cause::$name => $text,)*
                }
            }
        }
    };
}

causes! {
    1 WrongKind "a call or a batch file of the wrong kind",
    2 TooLong "a batch over 32 items, a list over 32 entries, or a key or value over 32 bytes",
    3 Incomplete "a Put without value or file, an entry without a file, or indexes that are not consecutive",
    4 OutOfRange "an index above 2^63−1 or an entry length above 2^25",
    5 WrongQueue "a file that is not of the queue that the call writes",
    6 NotRewritable "a Del or Compact in a live rewrite",
    7 BadMark "two marks, a status above 2, or an item of another group in a marked batch",
    8 FilesGoBack "files of an atomic group go back",
    9 GroupAbsent "the group is absent",
    10 BadRange "a start above the end, or a count of 0",
    11 EntryCompacted "entries below the first one",
    12 EntryNotFound "entries that are not held",
    13 BelowFirst "a live append below the first entry",
    14 AboveLast "an append above the last entry + 1",
    15 AppendLeft "a live rewrite that would leave an Append entry before it",
    16 AlreadyRewritten "a gated rewrite that meets a Rewrite entry",
    17 KeyGoesBack "a key rewrite to a lower sequence number",
    18 LimitPassed "a limit is passed",
    19 ListTooShort "an answer longer than the lent list",
}

/// A refused call: document 01's number, and the position of the item that was refused, if an item was.
#[derive(Clone, Copy, Debug, PartialEq, Eq, Hash)]
pub struct Refusal {
    number: u64,
    place: Option<usize>,
}

impl Refusal {
    #[inline]
    pub(crate) fn new(number: u64, place: Option<usize>) -> Refusal {
        Refusal { number, place }
    }

    /// Document 01's number of the cause.
    pub fn number(&self) -> u64 {
        self.number
    }

    /// The cause by its name; every number that a call gives has one.
    pub fn cause(&self) -> Option<Cause> {
        Cause::of(self.number)
    }

    /// The position of the item that was refused, counted from 0.
    pub fn place(&self) -> Option<usize> {
        self.place
    }
}

impl fmt::Display for Refusal {
    fn fmt(&self, f: &mut fmt::Formatter<'_>) -> fmt::Result {
        match self.cause() {
            Some(cause) => write!(f, "refused: {} ({})", cause.text(), self.number)?,
            None => write!(f, "refused: {}", self.number)?,
        }
        match self.place {
            Some(place) => write!(f, ", at item {place}"),
            None => Ok(()),
        }
    }
}

impl std::error::Error for Refusal {}
