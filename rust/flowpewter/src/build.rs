//! The build: the forest of a board's paths as an index, and the running totals.
#![forbid(unsafe_code)]

use crate::board::Board;
use crate::refusal::Refusal;
use crate::sys;

/// What becomes of rows that no path from a start row reaches.
///
/// With [`Adopt`](Orphan::Adopt) and [`Root`](Orphan::Root) every row ends a node. Rows that those without a parent among
/// the rows don't lead to are islands: rings, and what hangs from them. They get entries, behind all other orphans: a
/// node without a row, of row number 0 and 0 minutes, with the numeral of the lowest row whose numeral is on a ring of
/// the rows that are left, and what is below it; then the next, until no row is left.
#[derive(Clone, Copy, Debug, PartialEq, Eq, Hash, Default)]
pub enum Orphan {
    /// They are left over. The only choice that takes a [depth](Options::depth), or a window.
    Ignore = 0,
    /// The build is refused.
    Error = 1,
    /// Those without a parent among the rows hang from the last start row, and what is below them follows; then entries
    /// of islands do.
    Adopt = 2,
    /// Those without a parent among the rows are roots after all others, and what is below them follows; then entries of
    /// islands are. The default.
    #[default]
    Root = 3,
}

/// Whether nodes may share a numeral.
#[derive(Clone, Copy, Debug, PartialEq, Eq, Hash, Default)]
pub enum Multi {
    /// They may.
    #[default]
    Allow = 0,
    /// Only nodes with nothing below them may.
    Leaves = 1,
    /// The build is refused if any do.
    Error = 2,
}

/// What becomes of a path that comes back to a numeral it has.
#[derive(Clone, Copy, Debug, PartialEq, Eq, Hash, Default)]
pub enum Cycle {
    /// It ends there, with a closing node.
    #[default]
    BreakUp = 0,
    /// The build is refused.
    Error = 1,
}

/// Which rows paths start from.
#[derive(Clone, Copy, Debug, PartialEq, Eq, Hash, Default)]
pub enum Start<'a> {
    /// Rows with parent 0.
    #[default]
    ParentZero,
    /// Rows whose numeral is in the list.
    Numerals(&'a [u32]),
}

impl<'a> Start<'a> {
    /// None for parent 0.
    pub(crate) fn list(self) -> Option<&'a [u32]> {
        match self {
            Start::ParentZero => None,
            Start::Numerals(list) => Some(list),
        }
    }
}

/// How to build. By default orphans are roots, numerals may be shared and cycles are broken up (option code 3), there
/// is no depth, and paths start from rows with parent 0. Then every row ends a node, and a build of a sound board is
/// refused only with [`Refusal::TooManyNodes`].
#[derive(Clone, Copy, Debug, PartialEq, Eq, Hash, Default)]
pub struct Options<'a> {
    pub orphan: Orphan,
    pub multi: Multi,
    pub cycle: Cycle,
    /// With depth d a path has at most d + 1 rows; a negative d gives no path. Only with [`Orphan::Ignore`]: else the
    /// build is refused with [`Refusal::DepthWithOrphans`].
    pub depth: Option<i32>,
    pub start: Start<'a>,
}

impl Options<'_> {
    /// The option code of the three choices.
    ///
    /// ```
    /// use flowpewter::{Cycle, Options, Orphan};
    ///
    /// let options = Options { orphan: Orphan::Adopt, cycle: Cycle::Error, ..Options::default() };
    /// assert_eq!(options.code(), 14);
    /// assert_eq!(Options::default().code(), 3);
    /// ```
    pub fn code(&self) -> u32 {
        self.orphan as u32 + 4 * self.multi as u32 + 12 * self.cycle as u32
    }
}

/// The number of nodes, and the number of rows or lines that have none.
#[derive(Clone, Copy, Debug, PartialEq, Eq, Hash)]
pub struct Built {
    /// Entries of islands among them.
    pub nodes: u32,
    /// Rows that end no node: 0 with [`Orphan::Adopt`] and [`Orphan::Root`]; of the shortest placement also rows whose
    /// numeral stands by another row; of a dated build also rows without days left. Of a levelled list, lines wholly
    /// blank.
    pub left: u32,
}

/// Builds the index of a board and its running totals into the two slices; words beyond stay. A node comes before the
/// nodes below it, and siblings by their order, then by their numeral, then by their row number.
/// Refused with 1 or 6 to 12, and then both slices are zeroed.
///
/// ```
/// use flowpewter::{build, index_len, subtree_sum, totals_len, Board, Built, Options, Refusal, Row};
///
/// let mut board = Board::EMPTY;
/// board.add(Row::new(0, 10, 1, 30))?;
/// board.add(Row::new(10, 40, 1, 12))?;
/// let mut index = [0; index_len(2)];
/// let mut totals = [0; totals_len(2)];
/// let built = build(&board, &Options::default(), &mut index, &mut totals)?;
/// assert_eq!(built, Built { nodes: 2, left: 0 });
/// assert_eq!(subtree_sum(&index, &totals, 1)?, 42);
///
/// let refused = build(&board, &Options::default(), &mut index[..19], &mut totals);
/// assert_eq!(refused, Err(Refusal::TooManyNodes));
/// assert_eq!(totals, [0; 3]);
/// # Ok::<(), Refusal>(())
/// ```
///
/// A gasket whose flange, numeral 50, isn't drawn yet is a root of its own by default. Where only what hangs from start
/// rows is wanted, or a depth, the options say so:
///
/// ```
/// use flowpewter::{
///     bodies, build, index_len, span, totals_len, Board, Built, Options, Orphan, Refusal, Row,
/// };
///
/// let mut board = Board::EMPTY;
/// board.add(Row::new(0, 10, 1, 90))?;
/// board.add(Row::new(10, 20, 1, 45))?;
/// board.add(Row::new(50, 51, 1, 20))?;
/// let mut index = [0; index_len(3)];
/// let mut totals = [0; totals_len(3)];
/// let built = build(&board, &Options::default(), &mut index, &mut totals)?;
/// assert_eq!(built, Built { nodes: 3, left: 0 });
/// let gasket = bodies(span(&index, 3)?).next().unwrap();
/// assert_eq!((gasket.numeral, gasket.parent, gasket.orphan), (51, 0, true));
///
/// let attached = Options { orphan: Orphan::Ignore, ..Options::default() };
/// let built = build(&board, &attached, &mut index, &mut totals)?;
/// assert_eq!(built, Built { nodes: 2, left: 1 });
///
/// let shallow = Options { depth: Some(0), ..attached };
/// let built = build(&board, &shallow, &mut index, &mut totals)?;
/// assert_eq!(built, Built { nodes: 1, left: 2 });
///
/// let refused = Options { depth: Some(0), ..Options::default() };
/// let refused = build(&board, &refused, &mut index, &mut totals);
/// assert_eq!(refused, Err(Refusal::DepthWithOrphans));
/// # Ok::<(), Refusal>(())
/// ```
///
/// A gear train that was entered as a ring, with no way in, gets an entry when orphans are roots:
///
/// ```
/// use flowpewter::{
///     bodies, build, index_len, span, subtree_sum, totals_len, Board, Built, Options, Orphan, Refusal, Row,
/// };
///
/// let mut board = Board::EMPTY;
/// board.add(Row::new(30, 10, 1, 5))?;
/// board.add(Row::new(10, 20, 1, 7))?;
/// board.add(Row::new(20, 30, 1, 11))?;
/// let mut index = [0; index_len(4)];
/// let mut totals = [0; totals_len(4)];
/// let built = build(&board, &Options::default(), &mut index, &mut totals)?;
/// assert_eq!(built, Built { nodes: 4, left: 0 });
///
/// let nodes: Vec<_> =
///     bodies(span(&index, 1)?).map(|body| (body.numeral, body.row, body.closing)).collect();
/// assert_eq!(nodes, [(10, 0, false), (20, 2, false), (30, 3, false), (10, 1, true)]);
/// assert_eq!(subtree_sum(&index, &totals, 1)?, 23);
///
/// // No row of it hangs from a start row.
/// let attached = Options { orphan: Orphan::Ignore, ..Options::default() };
/// let built = build(&board, &attached, &mut index, &mut totals)?;
/// assert_eq!(built, Built { nodes: 0, left: 3 });
/// # Ok::<(), Refusal>(())
/// ```
pub fn build(
    board: &Board,
    options: &Options<'_>,
    index: &mut [u32],
    totals: &mut [i64],
) -> Result<Built, Refusal> {
    build_with_code(board, options.code(), options.depth, options.start, index, totals)
}

/// As [`build`], by an option code that may come from anywhere.
///
/// ```
/// use flowpewter::{build_with_code, Board, Refusal, Start};
///
/// let refused = build_with_code(&Board::EMPTY, 24, None, Start::ParentZero, &mut [0; 8], &mut [0]);
/// assert_eq!(refused, Err(Refusal::UnknownCode));
/// ```
pub fn build_with_code(
    board: &Board,
    code: u32,
    depth: Option<i32>,
    start: Start<'_>,
    index: &mut [u32],
    totals: &mut [i64],
) -> Result<Built, Refusal> {
    let built = sys::build(board, code, depth, start.list(), index, totals);
    Refusal::check(built.refusal)?;
    Ok(Built { nodes: built.nodes, left: built.left })
}
