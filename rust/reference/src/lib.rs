//! Reference implementation of numeral trees, as plain as the paper's sentences.
//!
//! * [`machine`]: the plain machine, a row list R, a list K of earlier row lists and a list F of
//!   undone ones.
//! * [`board`]: the board record, its soundness and the edits on it.
//! * [`forest`]: paths, nodes, their order and the build of the index image, with any options or by
//!   default.
//! * [`shortest`]: the paths that shortest placement keeps, and the build from them.
//! * [`dated`]: the regular paths with days left in a window, and the build from them.
//! * [`levelled`]: beginnings of the lines of a levelled list, and the build from them.
//! * [`navigation`]: span, descendants, ancestors, siblings, also by hops, and sums on any slices.
//! * [`meeting`]: where two nodes meet, and the climber, on any slices.
//! * [`pulling`]: the pull of one part, on any slices.
//! * [`check`]: the index check.
//! * [`listing`]: the listing program as a function from input to output.
//!
//! A refusal is the paper's number; 0 stands for none.
#![forbid(unsafe_code)]
// Conditions are written as the sentences have them.
#![allow(clippy::int_plus_one, clippy::manual_range_contains, clippy::should_implement_trait)]

pub mod board;
pub mod check;
pub mod dated;
pub mod forest;
pub mod levelled;
pub mod listing;
pub mod machine;
pub mod meeting;
pub mod navigation;
pub mod pulling;
pub mod shortest;

pub use board::{Board, Edited, Entry, Row};
pub use check::index_check;
pub use dated::{build_dated, build_dated_board, Asked, Days};
pub use forest::{
    build, build_board, build_default, build_default_board, Body, Built, Forest, IslandEntry, Node,
    Options, Start,
};
pub use levelled::{build_levelled, Levelled, LevelledNode};
pub use listing::numerals;
pub use machine::{Call, Machine};
pub use meeting::{meet, Climber, Meeting, Step};
pub use navigation::{
    ancestors, descendants, path_sum, siblings, siblings_by_hops, span, subtree_sum, Climbed,
    Hopped, Listed, Spanned, Summed,
};
pub use pulling::pull;
pub use shortest::{build_shortest, build_shortest_board};

/// Places for rows on a board.
pub const MAX_ROWS: usize = 1_024;
/// Most kept steps on a board.
pub const MAX_KEPT: usize = 256;
/// Most undone steps on a board.
pub const MAX_UNDONE: usize = 256;
/// Places for journal entries on a board.
pub const JOURNAL_PLACES: usize = MAX_KEPT + MAX_UNDONE;
/// Most cells in a line of a levelled list.
pub const MAX_WIDTH: u32 = 8;
/// Most lines of a levelled list.
pub const MAX_LINES: usize = 512;
/// Most nodes an index may hold.
pub const MAX_NODES: usize = 65_535;
/// Words in the table of contents.
pub const CONTENTS: usize = 8;
/// Words in a body.
pub const BODY: usize = 6;
