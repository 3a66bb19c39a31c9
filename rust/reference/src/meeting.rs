//! Where two nodes meet, and the climber that goes up from a node. Refusals 13 to 15 in order.

use crate::navigation::{climb, enter, link};

/// Where two nodes meet: not found and rank 0 where they don't, or where the call is refused.
#[derive(Clone, Copy, Debug, PartialEq, Eq)]
pub struct Meeting {
    pub refusal: u32,
    pub found: bool,
    pub rank: u32,
}

/// The largest of "all ranks that are ancestors of both nodes, themselves included". Both ranks are
/// judged by 14 before either climb is by 15, and both climbs run to rank 0: a broken link above the
/// meeting place is refused as well.
pub fn meet(index: &[u32], a: u32, b: u32) -> Meeting {
    let found = || -> Result<Option<u32>, u32> {
        enter(index, a)?;
        enter(index, b)?;
        let above_a = climb(index, a)?;
        let above_b = climb(index, b)?;
        let both = above_a.into_iter().filter(|rank| above_b.contains(rank));
        Ok(both.max())
    };
    match found() {
        Ok(Some(rank)) => Meeting { refusal: 0, found: true, rank },
        Ok(None) => Meeting { refusal: 0, found: false, rank: 0 },
        Err(refusal) => Meeting { refusal, found: false, rank: 0 },
    }
}

/// What a call of a climber answers: whether it is at a root, and the rank it has come to. At a root,
/// or refused, that is the rank it was at.
#[derive(Clone, Copy, Debug, PartialEq, Eq)]
pub struct Step {
    pub refusal: u32,
    pub root: bool,
    pub rank: u32,
}

/// "A climber keeps the lent index and the rank it has come to."
#[derive(Clone, Copy, Debug, PartialEq, Eq)]
pub struct Climber<'a> {
    pub index: &'a [u32],
    pub rank: u32,
}

impl<'a> Climber<'a> {
    /// A climber on any index at any rank; its calls are refused, not this.
    pub fn at(index: &'a [u32], rank: u32) -> Climber<'a> {
        Climber { index, rank }
    }

    /// Goes up one parent. Only the link followed is judged, not those above.
    pub fn up(&mut self) -> Step {
        let parent = enter(self.index, self.rank).and_then(|_| link(self.index, self.rank));
        match parent {
            Err(refusal) => Step { refusal, root: false, rank: self.rank },
            Ok(0) => Step { refusal: 0, root: true, rank: self.rank },
            Ok(parent) => {
                self.rank = parent;
                Step { refusal: 0, root: false, rank: parent }
            }
        }
    }
}
