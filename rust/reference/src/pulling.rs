//! The pull of one part: the totals brought up to date where the minutes of one row change. Refusals
//! 4, 13 and 15 in order.

use crate::forest::Body;
use crate::navigation::{enter_totals, total, within_use};

/// Moves each total by "the difference × the number of nodes" up to its rank "that end in the row",
/// and gives the refusal, 0 for none. The image isn't written, and of it only the node count and the
/// row numbers are read: "a row number that no node has changes nothing", whatever the board's count.
/// "If any of the n + 1 totals is or would come beyond 2^47 either side", none is moved; those beyond
/// aren't judged.
pub fn pull(index: &[u32], totals: &mut [i64], row: u32, difference: i64) -> u32 {
    let found = || -> Result<Vec<i64>, u32> {
        if row == 0 {
            return Err(4);
        }
        let n = enter_totals(index, totals)?;
        let mut moved = Vec::new();
        let mut ending = 0;
        for rank in 0..=n {
            if rank != 0 && Body::read(index, rank).row == row {
                ending += 1;
            }
            // At most 65,535 nodes: no product leaves i128.
            let pulled = total(totals, rank)? + difference as i128 * ending;
            moved.push(within_use(pulled)? as i64);
        }
        Ok(moved)
    };
    match found() {
        Ok(moved) => {
            totals[..moved.len()].copy_from_slice(&moved);
            0
        }
        Err(refusal) => refusal,
    }
}
