//! Why a call was refused.
#![forbid(unsafe_code)]

use std::error::Error;
use std::fmt;

/// Why a call was refused. Of the conditions that hold, the one with the smallest number is given; but a levelled list is
/// refused with 18 and 19 before 9, an added row with 20 after 2 and before 3, and a dated build with 20 after 6 and
/// before 7.
///
/// A refused edit leaves the board as it was, a refused build zeroes its slices, a refused navigation, sum, pull or
/// replay writes nothing, and a refused climber stays. The names and numbers are those of the C header,
/// `FLOWPEWTER_REFUSED_UNSOUND_BOARD` and so on.
///
/// ```
/// use flowpewter::{Board, Refusal, Row};
///
/// let mut board = Board::EMPTY;
/// let refusal = board.add(Row::new(0, 0, 1, 5)).unwrap_err();
/// assert_eq!(refusal, Refusal::NumeralZero);
/// assert_eq!(refusal.number(), 2);
/// ```
#[derive(Clone, Copy, Debug, PartialEq, Eq, Hash)]
#[non_exhaustive]
#[repr(u32)]
pub enum Refusal {
    /// The board isn't sound.
    UnsoundBoard = 1,
    /// An added row has numeral 0.
    NumeralZero = 2,
    /// A row is added to 1,024 rows.
    FullBoard = 3,
    /// A withdrawn or remarked row number is 0 or above the count, or a pulled one is 0.
    NoSuchRow = 4,
    /// Undo finds no kept step.
    NothingKept = 5,
    /// The option code is above 23.
    UnknownCode = 6,
    /// A depth is given and orphans aren't ignored; of a dated build also without a depth.
    DepthWithOrphans = 7,
    /// Orphans are to be adopted, there is one, on an island too, and there is no start row to adopt it.
    NoStartRow = 8,
    /// There are over 65,535 nodes, or more than one of the slices holds.
    TooManyNodes = 9,
    /// A node closes a cycle, and cycles are refused.
    ClosingNode = 10,
    /// Nodes share a numeral in a way that is refused.
    SharedNumeral = 11,
    /// A row ends no regular path, and orphans are refused.
    UnreachedRow = 12,
    /// The slice has no table of contents that fits it, or a sum or a pull gets too few totals.
    NoIndex = 13,
    /// A rank is 0 or above the number of nodes.
    NoSuchRank = 14,
    /// The words of the index or the totals contradict themselves, or a pull would bring a total beyond
    /// 2<sup>47</sup>.
    DamagedIndex = 15,
    /// The list found is longer than its slice.
    ListTooLong = 16,
    /// Redo finds no undone step.
    NothingUndone = 17,
    /// A levelled list has a width of 0 or above 8, or its cells are no whole number of lines.
    NotWholeLines = 18,
    /// A levelled list has more than 512 lines.
    TooManyLines = 19,
    /// The first day of an added row, or of a window, is after its last.
    NoDays = 20,
    /// Replay: the words are no whole number of calls.
    PartOfCall = 101,
    /// Replay: a call is of no known kind.
    UnknownCall = 102,
    /// Replay: there is less than one word for each call's refusal number.
    FewRefusalWords = 103,
}

/// All refusals, in the order of their numbers.
pub const REFUSALS: [Refusal; 23] = [
    Refusal::UnsoundBoard,
    Refusal::NumeralZero,
    Refusal::FullBoard,
    Refusal::NoSuchRow,
    Refusal::NothingKept,
    Refusal::UnknownCode,
    Refusal::DepthWithOrphans,
    Refusal::NoStartRow,
    Refusal::TooManyNodes,
    Refusal::ClosingNode,
    Refusal::SharedNumeral,
    Refusal::UnreachedRow,
    Refusal::NoIndex,
    Refusal::NoSuchRank,
    Refusal::DamagedIndex,
    Refusal::ListTooLong,
    Refusal::NothingUndone,
    Refusal::NotWholeLines,
    Refusal::TooManyLines,
    Refusal::NoDays,
    Refusal::PartOfCall,
    Refusal::UnknownCall,
    Refusal::FewRefusalWords,
];

impl Refusal {
    /// The number of the refusal, the same as in C.
    pub fn number(self) -> u32 {
        self as u32
    }

    /// The refusal that has a number.
    pub fn of_number(number: u32) -> Option<Refusal> {
        REFUSALS.into_iter().find(|refusal| refusal.number() == number)
    }

    /// Nothing for 0, else the refusal. Every call's contract says that its number is 0 or one of these.
    pub(crate) fn check(number: u32) -> Result<(), Refusal> {
        if number == 0 {
            return Ok(());
        }
        Err(Refusal::of_number(number).expect("a refusal number"))
    }
}

impl fmt::Display for Refusal {
    fn fmt(&self, f: &mut fmt::Formatter<'_>) -> fmt::Result {
        let reason = match self {
            Refusal::UnsoundBoard => "the board isn't sound",
            Refusal::NumeralZero => "the added row has numeral 0",
            Refusal::FullBoard => "the board has 1,024 rows already",
            Refusal::NoSuchRow => "there is no row of that number",
            Refusal::NothingKept => "there is no kept step to undo",
            Refusal::UnknownCode => "the option code is above 23",
            Refusal::DepthWithOrphans => "a depth or a window is given and orphans aren't ignored",
            Refusal::NoStartRow => "there is an orphan and no start row to adopt it",
            Refusal::TooManyNodes => "there are more nodes than 65,535 or than the slices hold",
            Refusal::ClosingNode => "a node closes a cycle",
            Refusal::SharedNumeral => "nodes share a numeral",
            Refusal::UnreachedRow => "a row ends no regular path",
            Refusal::NoIndex => "the slice holds no index, or the totals are too few for it",
            Refusal::NoSuchRank => "the index has no such rank",
            Refusal::DamagedIndex => "the index or the totals contradict themselves",
            Refusal::ListTooLong => "the list found is longer than its slice",
            Refusal::NothingUndone => "there is no undone step to redo",
            Refusal::NotWholeLines => "the cells are no whole number of lines of 1 to 8 cells",
            Refusal::TooManyLines => "the list has more than 512 lines",
            Refusal::NoDays => "the first day is after the last",
            Refusal::PartOfCall => "the words are no whole number of calls",
            Refusal::UnknownCall => "a call is of no known kind",
            Refusal::FewRefusalWords => "there are fewer refusal words than calls",
        };
        write!(f, "refused {}: {}", self.number(), reason)
    }
}

impl Error for Refusal {}
