//! A climber over an index that anybody may have written.
#![forbid(unsafe_code)]

use crate::refusal::Refusal;
use crate::sys;
use std::iter::FusedIterator;

/// Where a climber's call has led.
#[derive(Clone, Copy, Debug, PartialEq, Eq, Hash)]
pub enum Up {
    /// Up to the parent, which has this rank.
    To(u32),
    /// Nowhere: the climber is at a root, and stays.
    Root,
}

/// A climber keeps the lent index and the rank it has come to, and goes up one parent for each call.
///
/// As an iterator it gives the rank of each parent that it comes to, from the nearest to the root. A refusal is given
/// once, and ends it.
///
/// ```
/// use flowpewter::{Climber, Refusal, Up};
///
/// // Numeral 10 with 20 and 30 below it, and 40 below 20.
/// let mut index = [
///     4, 8, 6, 134, 0, 0, 0, 0,
///     10, 1, 4, 0, 1, 1,
///     20, 2, 2, 1, 1, 2,
///     40, 4, 1, 2, 1, 3,
///     30, 3, 1, 1, 1, 2,
/// ];
/// let mut climber = Climber::new(&index, 3);
/// assert_eq!(climber.up()?, Up::To(2));
/// assert_eq!(climber.up()?, Up::To(1));
/// assert_eq!(climber.up()?, Up::Root);
/// assert_eq!(climber.rank(), 1);
///
/// let parents: Vec<u32> = Climber::new(&index, 3).collect::<Result<_, _>>()?;
/// assert_eq!(parents, [2, 1]);
///
/// // The parent of 20 comes after it.
/// index[17] = 4;
/// let mut climber = Climber::new(&index, 3);
/// assert_eq!(climber.up()?, Up::To(2));
/// assert_eq!(climber.up(), Err(Refusal::DamagedIndex));
/// assert_eq!(climber.rank(), 2);
///
/// let mut climber = Climber::new(&index, 3);
/// assert_eq!(climber.next(), Some(Ok(2)));
/// assert_eq!(climber.next(), Some(Err(Refusal::DamagedIndex)));
/// assert_eq!(climber.next(), None);
/// # Ok::<(), flowpewter::Refusal>(())
/// ```
#[derive(Clone, Debug)]
pub struct Climber<'a> {
    index: &'a [u32],
    rank: u32,
    /// Whether the iterator has given a refusal.
    refused: bool,
}

impl<'a> Climber<'a> {
    /// On any slice, at any rank: its calls are refused, not this.
    pub const fn new(index: &'a [u32], rank: u32) -> Climber<'a> {
        Climber { index, rank, refused: false }
    }

    /// The rank it has come to.
    pub const fn rank(&self) -> u32 {
        self.rank
    }

    /// Goes up one parent. At a root, or refused, it stays. Only the link that it follows is judged, none further up.
    /// Refused with 13, 14 or 15.
    pub fn up(&mut self) -> Result<Up, Refusal> {
        let climbed = sys::climb(self.index, self.rank);
        Refusal::check(climbed.refusal)?;
        if climbed.root {
            return Ok(Up::Root);
        }
        self.rank = climbed.rank;
        Ok(Up::To(climbed.rank))
    }
}

impl Iterator for Climber<'_> {
    type Item = Result<u32, Refusal>;

    fn next(&mut self) -> Option<Result<u32, Refusal>> {
        if self.refused {
            return None;
        }
        match self.up() {
            Ok(Up::To(rank)) => Some(Ok(rank)),
            Ok(Up::Root) => None,
            Err(refusal) => {
                self.refused = true;
                Some(Err(refusal))
            }
        }
    }
}

impl FusedIterator for Climber<'_> {}
