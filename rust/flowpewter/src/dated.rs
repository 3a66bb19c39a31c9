//! The dated build: the forest of a board's paths as they were in a window of days.
#![forbid(unsafe_code)]

use crate::board::Board;
use crate::build::{Built, Options, Start};
use crate::days::Days;
use crate::refusal::Refusal;
use crate::sys;

/// Words of the days of so many nodes, the first and the last of each.
pub const fn days_len(nodes: usize) -> usize {
    2 * nodes
}

/// The days of a rank, counted from 1, that [`build_dated`] has written; none where the slice has no words for it.
pub fn node_days(days: &[u32], rank: u32) -> Option<Days> {
    let place = (rank as usize).checked_sub(1)?;
    let words = days.get(days_len(place)..days_len(place + 1))?;
    Some(Days::new(words[0], words[1]))
}

/// Builds the index of a board's paths as they were in a window of days, its running totals and the days of each node
/// into the three slices; words beyond stay. Refused with 1, 6, 20, 7 or 9 to 11, in this order, and then all three
/// slices are zeroed.
///
/// A path's days are those that all its rows and the window have in common; it is a node only if there are any. So a
/// node's days, which [`node_days`] reads, are within its parent's. What is refused, counted, listed and summed is over
/// the paths with days left: one without closes no cycle and shares no numeral. [`Built::left`] counts the rows that end
/// no node, those without days left too.
///
/// Orphans must be ignored ([`Orphan::Ignore`](crate::Orphan::Ignore)): any other choice is refused with
/// [`Refusal::DepthWithOrphans`], with a depth or without.
///
/// A valve that was moved from the housing to the pump on day 400:
///
/// ```
/// use flowpewter::{
///     bodies, build_dated, days_len, index_len, node_days, span, subtree_sum, totals_len, Board, Built, Days,
///     Options, Orphan, Refusal, Row, LAST_DAY,
/// };
///
/// let mut board = Board::EMPTY;
/// board.add(Row::new(0, 10, 1, 90))?; // pump
/// board.add(Row::new(10, 20, 1, 45))?; // housing
/// board.add(Row::new(20, 40, 1, 12).on(0, 399))?; // valve, in the housing
/// board.add(Row::new(10, 40, 2, 30).on(400, LAST_DAY))?; // valve, beside the pump
/// board.add(Row::new(40, 41, 1, 8).on(300, 499))?; // spring
/// let attached = Options { orphan: Orphan::Ignore, ..Options::default() };
/// let mut index = [0; index_len(6)];
/// let mut totals = [0; totals_len(6)];
/// let mut days = [0; days_len(6)];
///
/// // As the parts were on day 200: rows 4 and 5 end no node.
/// let window = Days::new(200, 200);
/// let built = build_dated(&board, &attached, window, &mut index, &mut totals, &mut days)?;
/// assert_eq!(built, Built { nodes: 3, left: 2 });
/// assert_eq!(bodies(span(&index, 1)?).map(|body| body.row).collect::<Vec<_>>(), [1, 2, 3]);
/// assert_eq!(subtree_sum(&index, &totals, 1)?, 90 + 45 + 12);
///
/// // On all days the spring hangs from both valves, from each on their common days.
/// let built = build_dated(&board, &attached, Days::ALL, &mut index, &mut totals, &mut days)?;
/// assert_eq!(built, Built { nodes: 6, left: 0 });
/// assert_eq!(bodies(span(&index, 1)?).map(|body| body.row).collect::<Vec<_>>(), [1, 2, 3, 5, 4, 5]);
/// assert_eq!(node_days(&days, 4), Some(Days::new(300, 399)));
/// assert_eq!(node_days(&days, 6), Some(Days::new(400, 499)));
/// assert_eq!(node_days(&days, 7), None);
/// # Ok::<(), Refusal>(())
/// ```
///
/// What is refused:
///
/// ```
/// use flowpewter::{build_dated, days_len, index_len, totals_len, Board, Days, Options, Orphan, Refusal, Row};
///
/// let mut board = Board::EMPTY;
/// board.add(Row::new(0, 10, 1, 30).on(0, 399))?;
/// let attached = Options { orphan: Orphan::Ignore, ..Options::default() };
/// let (mut index, mut totals, mut days) = ([7; index_len(1)], [7; totals_len(1)], [7; days_len(1)]);
/// let mut refusal = |options: &Options, window, words| {
///     build_dated(&board, options, window, &mut index, &mut totals, &mut days[..words]).err()
/// };
/// assert_eq!(refusal(&attached, Days::new(6, 5), 2), Some(Refusal::NoDays));
/// assert_eq!(refusal(&Options::default(), Days::ALL, 2), Some(Refusal::DepthWithOrphans));
/// assert_eq!(refusal(&attached, Days::ALL, 1), Some(Refusal::TooManyNodes));
/// assert_eq!(refusal(&attached, Days::new(400, 500), 0), None); // no node, and no words for days
/// # Ok::<(), Refusal>(())
/// ```
pub fn build_dated(
    board: &Board,
    options: &Options<'_>,
    window: Days,
    index: &mut [u32],
    totals: &mut [i64],
    days: &mut [u32],
) -> Result<Built, Refusal> {
    let Options { depth, start, .. } = *options;
    build_dated_with_code(board, options.code(), depth, start, window, index, totals, days)
}

/// As [`build_dated`], by an option code that may come from anywhere.
///
/// ```
/// use flowpewter::{build_dated_with_code, Board, Days, Refusal, Start};
///
/// let (mut index, mut totals) = ([7; 8], [7; 1]);
/// let mut refusal = |code, window| {
///     let (board, start) = (Board::EMPTY, Start::ParentZero);
///     build_dated_with_code(&board, code, None, start, window, &mut index, &mut totals, &mut []).err()
/// };
/// assert_eq!(refusal(24, Days::new(6, 5)), Some(Refusal::UnknownCode));
/// assert_eq!(refusal(23, Days::new(6, 5)), Some(Refusal::NoDays));
/// assert_eq!(refusal(23, Days::ALL), Some(Refusal::DepthWithOrphans));
/// assert_eq!(refusal(20, Days::ALL), None);
/// ```
#[allow(clippy::too_many_arguments)]
pub fn build_dated_with_code(
    board: &Board,
    code: u32,
    depth: Option<i32>,
    start: Start<'_>,
    window: Days,
    index: &mut [u32],
    totals: &mut [i64],
    days: &mut [u32],
) -> Result<Built, Refusal> {
    let built = sys::build_dated(board, code, depth, start.list(), window, index, totals, days);
    Refusal::check(built.refusal)?;
    Ok(Built { nodes: built.nodes, left: built.left })
}
