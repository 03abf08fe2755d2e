//! The refusals and their numbers.
use std::{error::Error, fmt};

/// Why an input is turned away: the refusals of document 01, then those that document 02 has added, in the order of their
/// numbers. More may be added.
#[derive(Clone, Copy, Debug, PartialEq, Eq)]
#[non_exhaustive]
pub enum Refusal {
    Alphabet,
    TextLength,
    TextByte,
    MisplacedSign,
    Depth,
    Count,
    Bracket,
    Foreign,
    Letters,
    FormMemory,
    BadForm,
    Matrix,
    /// A cost over 1,000,000, except [`BARRED`](crate::BARRED).
    Cost,
    OutputMemory,
    Work,
    /// No path without a barred label collapses to an accepted word; this may be so although there are columns enough.
    NoReading,
    Label,
    /// Given by the sheet program alone.
    Sheet,
    ClassName,
    /// An empty or a repeated line, or no final newline.
    WordList,
    /// A refusal of a newer library, by its number, which none of [`Refusal::ALL`] has.
    Other(u32),
}

impl Refusal {
    /// All refusals, in the order of their numbers.
    pub const ALL: [Refusal; 20] = [
        Refusal::Alphabet,
        Refusal::TextLength,
        Refusal::TextByte,
        Refusal::MisplacedSign,
        Refusal::Depth,
        Refusal::Count,
        Refusal::Bracket,
        Refusal::Foreign,
        Refusal::Letters,
        Refusal::FormMemory,
        Refusal::BadForm,
        Refusal::Matrix,
        Refusal::Cost,
        Refusal::OutputMemory,
        Refusal::Work,
        Refusal::NoReading,
        Refusal::Label,
        Refusal::Sheet,
        Refusal::ClassName,
        Refusal::WordList,
    ];

    /// The refusal's number.
    pub const fn number(self) -> u32 {
        match self {
            Refusal::Alphabet => 1,
            Refusal::TextLength => 2,
            Refusal::TextByte => 3,
            Refusal::MisplacedSign => 4,
            Refusal::Depth => 5,
            Refusal::Count => 6,
            Refusal::Bracket => 7,
            Refusal::Foreign => 8,
            Refusal::Letters => 9,
            Refusal::FormMemory => 10,
            Refusal::BadForm => 11,
            Refusal::Matrix => 12,
            Refusal::Cost => 13,
            Refusal::OutputMemory => 14,
            Refusal::Work => 15,
            Refusal::NoReading => 16,
            Refusal::Label => 17,
            Refusal::Sheet => 18,
            Refusal::ClassName => 19,
            Refusal::WordList => 21,
            Refusal::Other(number) => number,
        }
    }

    /// The refusal of this number, [`Refusal::Other`] if none here has it; none for 0, which a call returns when it succeeds.
    ///
    /// ```
    /// use kavurehy::Refusal;
    ///
    /// assert_eq!(Refusal::from_number(0), None);
    /// assert_eq!(Refusal::from_number(16), Some(Refusal::NoReading));
    /// assert_eq!(Refusal::from_number(99), Some(Refusal::Other(99)));
    /// ```
    pub fn from_number(number: u32) -> Option<Refusal> {
        let known = Refusal::ALL.into_iter().find(|r| r.number() == number);
        match number {
            0 => None,
            _ => Some(known.unwrap_or(Refusal::Other(number))),
        }
    }

    /// What a call's number means: success for 0, else a refusal.
    pub(crate) fn check(number: u32) -> Result<(), Refusal> {
        Refusal::from_number(number).map_or(Ok(()), Err)
    }
}

impl fmt::Display for Refusal {
    fn fmt(&self, f: &mut fmt::Formatter<'_>) -> fmt::Result {
        let name = match self {
            Refusal::Alphabet => "alphabet",
            Refusal::TextLength => "text length",
            Refusal::TextByte => "text byte",
            Refusal::MisplacedSign => "misplaced sign",
            Refusal::Depth => "depth",
            Refusal::Count => "count",
            Refusal::Bracket => "bracket",
            Refusal::Foreign => "foreign",
            Refusal::Letters => "letters",
            Refusal::FormMemory => "form memory",
            Refusal::BadForm => "bad form",
            Refusal::Matrix => "matrix",
            Refusal::Cost => "cost",
            Refusal::OutputMemory => "output memory",
            Refusal::Work => "work",
            Refusal::NoReading => "no reading",
            Refusal::Label => "label",
            Refusal::Sheet => "sheet",
            Refusal::ClassName => "class name",
            Refusal::WordList => "word list",
            Refusal::Other(_) => "a refusal of a newer library",
        };
        write!(f, "refused {}: {name}", self.number())
    }
}

impl Error for Refusal {}

#[cfg(test)]
mod tests {
    use super::Refusal;

    #[test]
    fn numbers() {
        assert_eq!(Refusal::from_number(0), None);
        assert_eq!(Refusal::check(0), Ok(()));
        let numbers: Vec<u32> = (1..=19).chain([21]).collect();
        assert_eq!(Refusal::ALL.map(Refusal::number)[..], numbers);
        for refusal in Refusal::ALL {
            checked(refusal);
        }
        for number in [20, 22, 99, u32::MAX] {
            assert_eq!(Refusal::Other(number).number(), number);
            checked(Refusal::Other(number));
        }
    }

    /// Its number means this refusal.
    fn checked(refusal: Refusal) {
        let number = refusal.number();
        assert_eq!(Refusal::from_number(number), Some(refusal));
        assert_eq!(Refusal::check(number), Err(refusal));
    }

    #[test]
    fn printed() {
        assert_eq!(Refusal::Alphabet.to_string(), "refused 1: alphabet");
        assert_eq!(Refusal::Sheet.to_string(), "refused 18: sheet");
        assert_eq!(Refusal::ClassName.to_string(), "refused 19: class name");
        assert_eq!(Refusal::WordList.to_string(), "refused 21: word list");
        let other = Refusal::Other(99).to_string();
        assert_eq!(other, "refused 99: a refusal of a newer library");
    }
}
