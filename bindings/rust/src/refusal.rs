//! Why a call wrote no sheet.

use core::error::Error;
use core::fmt;

/// Why a call wrote no sheet; the store is zeroed. Where several apply, 1 to 4 come first,
/// over the whole input, then 5, 6, 10, 7, 9 and 8.
///
/// ```
/// use sheet::Refusal;
///
/// let refusal = sheet::render(b"no job", &mut []).unwrap_err();
/// assert_eq!(refusal, Refusal::CrookedRecord);
/// assert_eq!(refusal.number(), 1);
/// ```
#[derive(Clone, Copy, Debug, PartialEq, Eq)]
pub enum Refusal {
    /// 1: a field breaks the format, is missing or out of place, or a call has over 16 cells; a
    /// number of rows off 1 to 16; a hole that ends past its border.
    CrookedRecord,
    /// 2: the width of a block, cell, hanging cell or sheet is 0.
    NoWidth,
    /// 3: a text, name or prefix is not well-formed UTF-8 or has a character off the list;
    /// outside a job's text also a control.
    StrangeCharacter,
    /// 4: a job's text bytes, name bytes and one for each name are more than 4,096.
    OverfullJob,
    /// 5: a character is wider than its line, and overflow is not allowed.
    TooNarrow,
    /// 6: collapsing meets a cell, a hanging one too, that starts with a border, and the sheet does
    /// not end in one.
    NoBorderAbove,
    /// 7: a line of the result, with the names that it took, or a hanging cell has more than 65,535 bytes.
    LongLine,
    /// 8: the sheet is longer than the store; the length needed.
    StoreShort(usize),
    /// 9: the result has more than 65,535 lines.
    LongSheet,
    /// 10: a border with holes that becomes text has a hole that begins before the one ahead of it
    /// ends; a new hole ends past the border below its row; or a hanging cell took the place of a
    /// cell, is wider than the whole row and has too few lines for it.
    OverhangMisfit,
}

impl Refusal {
    /// The refusal's number, 1 to 10.
    pub fn number(self) -> u8 {
        match self {
            Refusal::CrookedRecord => 1,
            Refusal::NoWidth => 2,
            Refusal::StrangeCharacter => 3,
            Refusal::OverfullJob => 4,
            Refusal::TooNarrow => 5,
            Refusal::NoBorderAbove => 6,
            Refusal::LongLine => 7,
            Refusal::StoreShort(_) => 8,
            Refusal::LongSheet => 9,
            Refusal::OverhangMisfit => 10,
        }
    }

    /// The refusal of a call's number and length; none for 0. The calls' contracts leave no
    /// other number.
    pub(crate) fn of(number: u8, length: usize) -> Option<Refusal> {
        Some(match number {
            0 => return None,
            1 => Refusal::CrookedRecord,
            2 => Refusal::NoWidth,
            3 => Refusal::StrangeCharacter,
            4 => Refusal::OverfullJob,
            5 => Refusal::TooNarrow,
            6 => Refusal::NoBorderAbove,
            7 => Refusal::LongLine,
            8 => Refusal::StoreShort(length),
            9 => Refusal::LongSheet,
            10 => Refusal::OverhangMisfit,
            _ => unreachable!("no call gives {number}"),
        })
    }
}

impl fmt::Display for Refusal {
    fn fmt(&self, out: &mut fmt::Formatter<'_>) -> fmt::Result {
        let words = match self {
            Refusal::CrookedRecord => "a field breaks the format",
            Refusal::NoWidth => "a width is 0",
            Refusal::StrangeCharacter => "a character is off the list",
            Refusal::OverfullJob => "the job has more than 4,096 units",
            Refusal::TooNarrow => "a character is wider than its line",
            Refusal::NoBorderAbove => "the sheet does not end in a border",
            Refusal::LongLine => "a line or a hanging cell has more than 65,535 bytes",
            Refusal::StoreShort(length) => {
                return write!(out, "the store is too short: the sheet has {length} bytes");
            }
            Refusal::LongSheet => "the sheet has more than 65,535 lines",
            Refusal::OverhangMisfit => "a hanging cell or a hole does not fit",
        };
        out.write_str(words)
    }
}

impl Error for Refusal {}

#[cfg(test)]
mod tests {
    use super::*;

    #[test]
    fn numbers_go_there_and_back() {
        assert_eq!(Refusal::of(0, 7), None);
        for number in 1..=10 {
            assert_eq!(Refusal::of(number, 7).unwrap().number(), number);
        }
        assert_eq!(Refusal::of(8, 7), Some(Refusal::StoreShort(7)));
    }
}
