//! Navigation over an index that anybody may have written.
#![forbid(unsafe_code)]

use crate::refusal::Refusal;
use crate::sys;
use std::ops::RangeInclusive;

/// Words in the table of contents.
pub const CONTENTS: usize = 8;
/// Words in a body.
pub const BODY: usize = 6;
/// Most nodes that an index holds.
pub const MAX_NODES: usize = 65_535;
/// The bits of the level in a body's last word.
pub const LEVEL_MASK: u32 = 0xffff;
/// The bit in a body's last word that tells a closing path.
pub const CLOSING_BIT: u32 = 1 << 30;
/// The bit in a body's last word that tells an orphan's path, or one that begins with an entry.
pub const ORPHAN_BIT: u32 = 1 << 31;

/// Words of an index of so many nodes.
pub const fn index_len(nodes: usize) -> usize {
    CONTENTS + BODY * nodes
}

/// Running totals of an index of so many nodes.
pub const fn totals_len(nodes: usize) -> usize {
    nodes + 1
}

/// A node's six words, unpacked. Ranks and row numbers are counted from 1.
#[derive(Clone, Copy, Debug, PartialEq, Eq, Hash)]
pub struct Body {
    pub numeral: u32,
    /// Number of the row that the node's path ends with; 0 for the entry of an island, which is no row. Of a levelled
    /// list, the place in the sorted order of the first line that has the node's beginning.
    pub row: u32,
    /// The node and all nodes below it.
    pub size: u32,
    /// Rank of the parent, 0 for a root.
    pub parent: u32,
    /// Rank of the root above the node.
    pub root: u32,
    /// Above the parent's. On an index built from a board 1 for a root, else the parent's and 1; on one of a levelled
    /// list the number of the numeral's column.
    pub level: u32,
    /// The path closes a cycle: its last numeral stands on it before.
    pub closing: bool,
    /// The node is on an orphan's path, or on one that begins with an entry.
    pub orphan: bool,
}

impl Body {
    /// Unpacks the words of a body.
    ///
    /// ```
    /// use flowpewter::{Body, CLOSING_BIT};
    ///
    /// let body = Body::of_words([40, 6, 1, 2, 1, 3 | CLOSING_BIT]);
    /// assert_eq!((body.numeral, body.parent, body.level), (40, 2, 3));
    /// assert!(body.closing && !body.orphan);
    /// ```
    pub fn of_words(words: [u32; BODY]) -> Body {
        let [numeral, row, size, parent, root, last] = words;
        Body {
            numeral,
            row,
            size,
            parent,
            root,
            level: last & LEVEL_MASK,
            closing: last & CLOSING_BIT != 0,
            orphan: last & ORPHAN_BIT != 0,
        }
    }
}

/// The bodies of a part of an index, as [`span`] gives it.
///
/// ```
/// use flowpewter::{bodies, span};
///
/// // Numeral 10 with 20 and 30 below it.
/// let index = [
///     3, 8, 6, 82, 0, 0, 0, 0,
///     10, 1, 3, 0, 1, 1,
///     20, 2, 1, 1, 1, 2,
///     30, 3, 1, 1, 1, 2,
/// ];
/// let numerals: Vec<u32> = bodies(span(&index, 1)?).map(|body| body.numeral).collect();
/// assert_eq!(numerals, [10, 20, 30]);
/// # Ok::<(), flowpewter::Refusal>(())
/// ```
pub fn bodies(words: &[u32]) -> impl ExactSizeIterator<Item = Body> + '_ {
    words.chunks_exact(BODY).map(|body| Body::of_words(body.try_into().expect("six words")))
}

/// The words of the bodies of a node and all nodes below it. Refused with 13, 14 or 15.
pub fn span(index: &[u32], rank: u32) -> Result<&[u32], Refusal> {
    let span = sys::span(index, rank);
    Refusal::check(span.refusal)?;
    Ok(&index[span.start..span.start + span.words])
}

/// The ranks of a node and all nodes below it whose distance, levels further down, is in the range, rising.
/// They are put to the front of `list` and returned; the rest of it stays. Refused with 13 to 16, and then nothing is written.
///
/// ```
/// use flowpewter::descendants;
///
/// let index = [
///     3, 8, 6, 82, 0, 0, 0, 0,
///     10, 1, 3, 0, 1, 1,
///     20, 2, 1, 1, 1, 2,
///     30, 3, 1, 1, 1, 2,
/// ];
/// let mut list = [0; 3];
/// assert_eq!(descendants(&index, 1, 1..=i32::MAX, &mut list)?, [2, 3]);
/// # Ok::<(), flowpewter::Refusal>(())
/// ```
pub fn descendants<'a>(
    index: &[u32],
    rank: u32,
    distances: RangeInclusive<i32>,
    list: &'a mut [u32],
) -> Result<&'a [u32], Refusal> {
    let listed = sys::descendants(index, rank, *distances.start(), *distances.end(), list);
    Refusal::check(listed.refusal)?;
    Ok(&list[..listed.len])
}

/// The ranks that [`ancestors`] lists, and the parent links that it followed.
#[derive(Clone, Copy, Debug, PartialEq, Eq)]
pub struct Ancestors<'a> {
    pub ranks: &'a [u32],
    /// Links to rank 0 aren't counted: on an index built from a board this is the level less 1, on one of a levelled list
    /// the number of shorter beginnings that are nodes.
    pub links: usize,
}

/// The ranks of a node and its ancestors, from the node up, whose distance (0 or less on a built index) is in the range.
/// They are put to the front of `list` and returned; the rest of it stays. Refused with 13 to 16, and then nothing is written.
///
/// ```
/// use flowpewter::ancestors;
///
/// let index = [
///     2, 8, 6, 45, 0, 0, 0, 0,
///     10, 1, 2, 0, 1, 1,
///     20, 2, 1, 1, 1, 2,
/// ];
/// let mut list = [0; 2];
/// let found = ancestors(&index, 2, i32::MIN..=0, &mut list)?;
/// assert_eq!((found.ranks, found.links), ([2, 1].as_slice(), 1));
/// # Ok::<(), flowpewter::Refusal>(())
/// ```
pub fn ancestors<'a>(
    index: &[u32],
    rank: u32,
    distances: RangeInclusive<i32>,
    list: &'a mut [u32],
) -> Result<Ancestors<'a>, Refusal> {
    let climbed = sys::ancestors(index, rank, *distances.start(), *distances.end(), list);
    Refusal::check(climbed.refusal)?;
    Ok(Ancestors { ranks: &list[..climbed.len], links: climbed.links })
}

/// All ranks with the same parent rank, the node included, rising; roots are siblings. It reads the whole index, and is the
/// call for one that nobody checked.
/// They are put to the front of `list` and returned; the rest of it stays. Refused with 13, 14 or 16, and then nothing is written.
pub fn siblings<'a>(index: &[u32], rank: u32, list: &'a mut [u32]) -> Result<&'a [u32], Refusal> {
    let listed = sys::siblings(index, rank, list);
    Refusal::check(listed.refusal)?;
    Ok(&list[..listed.len])
}

/// The ranks that [`siblings_by_hops`] lists, and the hops that it made.
#[derive(Clone, Copy, Debug, PartialEq, Eq)]
pub struct SiblingsByHops<'a> {
    pub ranks: &'a [u32],
    /// One for each rank listed: on an index that [`index_check`] accepts the number of siblings.
    pub hops: usize,
}

/// Siblings by hops: the first is the rank after the parent's, rank 1 for roots, and each hop goes by the size of a tree to
/// the rank after it, up to the parent's end, or to the last node. It reads the node, its parent and the siblings alone, and
/// is the call for a panel that redraws siblings at each click; where a large part of all nodes are siblings, [`siblings`]
/// takes less time.
/// They are put to the front of `list` and returned; the rest of it stays. Refused with 13 to 16, and then nothing is written.
///
/// On an index that [`index_check`] accepts, as it does every built one, the ranks are those of [`siblings`]. On any other
/// they may differ, since sizes alone say which ranks are met: ranks with another parent rank may be listed, and the node
/// itself may be missing.
///
/// ```
/// use flowpewter::{index_check, siblings, siblings_by_hops, Refusal};
///
/// // Numeral 10 with 20 and 30 below it, and 40 below 20.
/// let mut index = [
///     4, 8, 6, 134, 0, 0, 0, 0,
///     10, 1, 4, 0, 1, 1,
///     20, 2, 2, 1, 1, 2,
///     40, 4, 1, 2, 1, 3,
///     30, 3, 1, 1, 1, 2,
/// ];
/// assert!(index_check(&index));
/// let mut list = [0; 4];
/// let found = siblings_by_hops(&index, 4, &mut list)?;
/// assert_eq!((found.ranks, found.hops), ([2, 4].as_slice(), 2));
///
/// // Without a size there is no hop.
/// index[16] = 0;
/// assert_eq!(siblings_by_hops(&index, 4, &mut list), Err(Refusal::DamagedIndex));
/// assert_eq!(siblings(&index, 4, &mut list)?, [2, 4]);
/// # Ok::<(), flowpewter::Refusal>(())
/// ```
pub fn siblings_by_hops<'a>(
    index: &[u32],
    rank: u32,
    list: &'a mut [u32],
) -> Result<SiblingsByHops<'a>, Refusal> {
    let hopped = sys::siblings_by_hops(index, rank, list);
    Refusal::check(hopped.refusal)?;
    Ok(SiblingsByHops { ranks: &list[..hopped.len], hops: hopped.hops })
}

/// Where two nodes meet: the smallest assembly that holds both parts, for the caption of a leader that joins them. Of all
/// ranks that are ancestors of both nodes, themselves included, it is the largest; none exactly where there is no such rank.
/// The two may be the same, or one above the other, in either order. The time is that of the two climbs, however large the
/// index is. Both run to rank 0: above the meeting place, too, a parent rank that isn't below its own is refused. Refused
/// with 13, 14 or 15.
///
/// On every built index the answer is the longest common beginning of the two nodes' paths that is a node, and there is none
/// exactly where their root ranks differ. A [`Climber`](crate::Climber) from either comes through the answer, or starts there.
///
/// ```
/// use flowpewter::{meet, Refusal};
///
/// // Numeral 10 with 20 and 30 below it, 40 below 20; and numeral 50, of no assembly.
/// let mut index = [
///     5, 8, 6, 196, 0, 0, 0, 0,
///     10, 1, 4, 0, 1, 1,
///     20, 2, 2, 1, 1, 2,
///     40, 4, 1, 2, 1, 3,
///     30, 3, 1, 1, 1, 2,
///     50, 5, 1, 0, 5, 1,
/// ];
/// assert_eq!(meet(&index, 3, 4)?, Some(1));
/// assert_eq!(meet(&index, 3, 2)?, Some(2));
/// assert_eq!(meet(&index, 3, 5)?, None);
///
/// // 10 is its own parent: 40 and 20 meet below it, and the climbs go on.
/// index[11] = 1;
/// assert_eq!(meet(&index, 3, 2), Err(Refusal::DamagedIndex));
/// # Ok::<(), flowpewter::Refusal>(())
/// ```
pub fn meet(index: &[u32], a: u32, b: u32) -> Result<Option<u32>, Refusal> {
    let meeting = sys::meet(index, a, b);
    Refusal::check(meeting.refusal)?;
    Ok(meeting.found.then_some(meeting.rank))
}

/// The minutes of a node and all nodes below it. Refused with 13, 14 or 15.
///
/// ```
/// use flowpewter::{path_sum, subtree_sum};
///
/// let index = [
///     2, 8, 6, 45, 0, 0, 0, 0,
///     10, 1, 2, 0, 1, 1,
///     20, 2, 1, 1, 1, 2,
/// ];
/// let totals = [0, 30, 42];
/// assert_eq!(subtree_sum(&index, &totals, 2)?, 12);
/// assert_eq!(path_sum(&index, &totals, 2)?, 42);
/// # Ok::<(), flowpewter::Refusal>(())
/// ```
pub fn subtree_sum(index: &[u32], totals: &[i64], rank: u32) -> Result<i64, Refusal> {
    let summed = sys::subtree_sum(index, totals, rank);
    Refusal::check(summed.refusal)?;
    Ok(summed.sum)
}

/// The minutes of a node and all its ancestors. Refused with 13, 14 or 15.
pub fn path_sum(index: &[u32], totals: &[i64], rank: u32) -> Result<i64, Refusal> {
    let summed = sys::path_sum(index, totals, rank);
    Refusal::check(summed.refusal)?;
    Ok(summed.sum)
}

/// The pull of one part: corrects the totals for new minutes of one row, without a build. Each node that ends in the row gets
/// `difference` more minutes, less if it is negative: the totals from that node on move by it, so that each of the n + 1
/// totals of n nodes moves by the difference times the number of nodes up to its rank that end in the row. A row number that
/// no node has changes nothing. Totals beyond the n + 1 are neither judged nor written.
///
/// Refused with 4, 13 or 15, and then the totals are as they were: with 15 where any of the n + 1 is beyond 2<sup>47</sup>
/// either side, even if no node has the row or the difference is 0, or would come beyond it; 2<sup>47</sup> itself is allowed.
/// Nothing overflows, whatever the difference. The time is linear in the number of nodes, however many of them end in the row:
/// row numbers and totals are gone through once, and where the call is refused with 15 those up to the total that it is refused
/// for once more.
///
/// It is the call after [`Board::remark`](crate::Board::remark), and after an undo or a redo of one: with the new minutes
/// less the old, the totals that any build of the board left become those of a new build with the same options, and the index
/// is that of the new build already, as are the days of a dated one. Where the row's minutes and the difference together fit
/// an `i32`, a pull of what a build left is never refused with 15. Any other edit wants a new build. On an index of a levelled
/// list the row is a line, by its place among the sorted ones.
///
/// ```
/// use flowpewter::{
///     build, index_len, pull, subtree_sum, totals_len, Board, Options, Refusal, Row,
/// };
///
/// // A spring, row 4, in the valve, which is shown in the housing and beside it.
/// let mut board = Board::EMPTY;
/// board.add(Row::new(0, 20, 1, 45))?;
/// board.add(Row::new(20, 40, 1, 12))?;
/// board.add(Row::new(0, 40, 2, 30))?;
/// board.add(Row::new(40, 41, 1, 8))?;
/// let mut index = [0; index_len(5)];
/// let mut totals = [0; totals_len(5)];
/// build(&board, &Options::default(), &mut index, &mut totals)?;
/// assert_eq!(totals, [0, 45, 57, 65, 95, 103]);
///
/// // It takes 3 minutes more.
/// board.remark(4, 11)?;
/// pull(&index, &mut totals, 4, 11 - 8)?;
/// assert_eq!(totals, [0, 45, 57, 68, 98, 109]);
/// assert_eq!(subtree_sum(&index, &totals, 1)?, 68);
///
/// // A new build leaves the same words.
/// let (mut rebuilt, mut sums) = ([0; index_len(5)], [0; totals_len(5)]);
/// build(&board, &Options::default(), &mut rebuilt, &mut sums)?;
/// assert_eq!((rebuilt, sums), (index, totals));
///
/// // Twice 2^46 and the 109 minutes would come beyond the limit.
/// assert_eq!(pull(&index, &mut totals, 4, 1 << 46), Err(Refusal::DamagedIndex));
/// assert_eq!(pull(&index, &mut totals, 0, 1), Err(Refusal::NoSuchRow));
/// assert_eq!(totals, sums);
/// # Ok::<(), Refusal>(())
/// ```
pub fn pull(index: &[u32], totals: &mut [i64], row: u32, difference: i64) -> Result<(), Refusal> {
    Refusal::check(sys::pull(index, totals, row, difference))
}

/// Whether the slice holds an index whose words agree with each other, as every index that an accepted build leaves does.
/// A root may have any level from 1, and any other node any above its parent's.
///
/// ```
/// use flowpewter::index_check;
///
/// let mut index = [1, 8, 6, 13, 0, 0, 0, 0, 10, 0, 1, 0, 1, 1];
/// assert!(index_check(&index));
/// index[8] = 11;
/// assert!(!index_check(&index));
///
/// // The root of a levelled list may stand in the third column.
/// assert!(index_check(&[1, 8, 6, 15, 0, 0, 0, 0, 10, 0, 1, 0, 1, 3]));
/// ```
pub fn index_check(index: &[u32]) -> bool {
    sys::index_check(index)
}
