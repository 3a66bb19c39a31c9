//! The shortest placement: each numeral of a board once, as close to a start row as it can stand.
#![forbid(unsafe_code)]

use crate::board::Board;
use crate::build::{Built, Start};
use crate::refusal::Refusal;
use crate::sys;

/// Builds the index of a board's shortest placement, and its running totals, into the two slices; words beyond stay.
/// Refused with 1 or 9, and then both slices are zeroed.
///
/// For each numeral that a path from a start row reaches, the path with fewest rows is kept, and of several the first by
/// rank: by the first row in which they differ, the one that comes first among siblings. The nodes are the kept paths,
/// with every beginning of one. So each numeral stands once, there are at most as many nodes as rows, no node closes and
/// none is an orphan's; what is below a node, and its sums, are over the kept paths alone.
///
/// [`Built::left`] counts the rows that end no node: those that no path reaches, and those whose numeral stands by
/// another row.
///
/// The numeral list beside figure 1, where the valve, numeral 40, is shown in three places, and stands where it is
/// closest to the pump:
///
/// ```
/// use flowpewter::{
///     bodies, build_shortest, index_check, index_len, span, subtree_sum, totals_len, Board, Built, Refusal, Row,
///     Start,
/// };
///
/// let mut board = Board::EMPTY;
/// board.add(Row::new(0, 10, 1, 90))?; // pump
/// board.add(Row::new(10, 20, 1, 45))?; // housing
/// board.add(Row::new(20, 40, 1, 12))?; // valve, in the housing
/// board.add(Row::new(10, 30, 2, 60))?; // cover
/// board.add(Row::new(30, 40, 1, 15))?; // valve, in the cover
/// board.add(Row::new(10, 40, 3, 30))?; // valve, beside the pump
/// board.add(Row::new(40, 41, 1, 8))?; // spring
/// let mut index = [0; index_len(7)];
/// let mut totals = [0; totals_len(7)];
/// let built = build_shortest(&board, Start::ParentZero, &mut index, &mut totals)?;
/// assert_eq!(built, Built { nodes: 5, left: 2 });
///
/// // Numeral, level and row: the valve by row 6, with the spring below it.
/// let list: Vec<_> =
///     bodies(span(&index, 1)?).map(|body| (body.numeral, body.level, body.row)).collect();
/// assert_eq!(list, [(10, 1, 1), (20, 2, 2), (30, 2, 4), (40, 2, 6), (41, 3, 7)]);
/// assert_eq!(subtree_sum(&index, &totals, 1)?, 90 + 45 + 60 + 30 + 8);
/// assert!(index_check(&index));
///
/// // From the housing and the cover the valve is as close: it stands by the first of the two.
/// let built = build_shortest(&board, Start::Numerals(&[30, 20]), &mut index, &mut totals)?;
/// assert_eq!(built, Built { nodes: 4, left: 3 });
/// assert_eq!(bodies(span(&index, 1)?).map(|body| body.row).collect::<Vec<_>>(), [2, 3, 7]);
/// assert_eq!(bodies(span(&index, 4)?).map(|body| body.row).collect::<Vec<_>>(), [4]);
/// # Ok::<(), Refusal>(())
/// ```
///
/// Slices too short for the kept paths:
///
/// ```
/// use flowpewter::{build_shortest, index_len, totals_len, Board, Refusal, Row, Start};
///
/// let mut board = Board::EMPTY;
/// board.add(Row::new(0, 10, 1, 30))?;
/// board.add(Row::new(10, 10, 1, 12))?; // closes: numeral 10 stands by the row above
/// let (mut index, mut totals) = ([7; index_len(1)], [7; totals_len(1)]);
/// assert_eq!(build_shortest(&board, Start::ParentZero, &mut index, &mut totals)?.nodes, 1);
///
/// let refused = build_shortest(&board, Start::ParentZero, &mut index, &mut totals[..1]);
/// assert_eq!(refused, Err(Refusal::TooManyNodes));
/// assert_eq!((index, totals), ([0; index_len(1)], [0, 30]));
/// # Ok::<(), Refusal>(())
/// ```
pub fn build_shortest(
    board: &Board,
    start: Start<'_>,
    index: &mut [u32],
    totals: &mut [i64],
) -> Result<Built, Refusal> {
    let built = sys::build_shortest(board, start.list(), index, totals);
    Refusal::check(built.refusal)?;
    Ok(Built { nodes: built.nodes, left: built.left })
}
