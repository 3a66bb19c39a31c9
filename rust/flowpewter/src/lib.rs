//! Parts lists with undo and redo, their forest of paths as an index, navigation and sums.
//!
//! * [`Board`]: rows with a parent, a numeral, an order, minutes and days; add, withdraw, remark, undo and redo.
//! * [`build`]: the forest of a board's paths as an index, and running totals of the minutes; by default no row is left
//!   out of it.
//! * [`build_dated`]: the paths as they were in a window of days, as such an index, and the days of each node.
//! * [`build_shortest`]: each numeral of a board once, as close to a start row as it can stand, as such an index.
//! * [`build_levelled`]: the forest of a levelled list, whose columns are levels, as such an index.
//! * [`span`], [`descendants`], [`ancestors`], [`siblings`], [`siblings_by_hops`]: navigation by rank.
//! * [`meet`]: the smallest assembly that holds two parts. [`Climber`]: the way up from a node, parent by parent.
//! * [`subtree_sum`], [`path_sum`]: minutes below a node and on the way up from it.
//! * [`pull`]: the totals brought up to date where one row gets other minutes, without a build.
//! * [`index_check`]: whether a slice from anywhere is an index.
//! * [`replay`]: a list of edits as words.
//!
//! Every call takes every argument: what can't be done is refused, by a [`Refusal`], and never a panic.
//!
//! Boards are passed by value and working space is on the stack: a replay takes some 210 KB of it, a build or an edit
//! up to 170 KB, and a board in a variable is 41 KB more. That is little for the 2 MB of a Rust thread; a thread made
//! with `Builder::stack_size` wants 512 KB. The library that is linked is compiled for x86-64 Linux alone.
#![deny(unsafe_code)]

mod board;
mod build;
mod climber;
mod dated;
mod days;
mod index;
mod levelled;
mod refusal;
mod shortest;
pub mod sys;

pub use board::{
    replay, Board, Call, Entry, Row, CALL_WORDS, JOURNAL_PLACES, MAX_KEPT, MAX_ROWS, MAX_UNDONE,
};
pub use build::{build, build_with_code, Built, Cycle, Multi, Options, Orphan, Start};
pub use climber::{Climber, Up};
pub use dated::{build_dated, build_dated_with_code, days_len, node_days};
pub use days::{Days, LAST_DAY};
pub use index::{
    ancestors, bodies, descendants, index_check, index_len, meet, path_sum, pull, siblings,
    siblings_by_hops, span, subtree_sum, totals_len, Ancestors, Body, SiblingsByHops, BODY,
    CLOSING_BIT, CONTENTS, LEVEL_MASK, MAX_NODES, ORPHAN_BIT,
};
pub use levelled::{build_levelled, MAX_LINES, MAX_WIDTH};
pub use refusal::{Refusal, REFUSALS};
pub use shortest::build_shortest;
