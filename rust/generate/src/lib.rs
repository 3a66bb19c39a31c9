//! Deterministic random cases for boards, builds, shortest placements, dated builds, levelled
//! lists, navigation, meetings of two nodes, pulls of one part, the index check and the listing
//! program.
//!
//! Every generator is a plain function of a [`Random`]; the same seed gives the
//! same cases. The reference is used only to learn how long a slice a case
//! needs, to obtain built indexes to damage, and to follow the rows that the
//! entries of a journal lead to.
//!
//! [`ties`] tells which siblings of a built index have equal orders, [`islands`] which
//! entries were made for rings, [`shortest`] what other rows and paths a placed numeral
//! has, [`dated`] which rows a window or other rows' days cut off, [`levelled`] where lists
//! have blanks and equal lines, [`hops`] how the walk over siblings ends on a damaged index,
//! [`meetings`] where two climbs meet or break, and [`pulls`] which totals a pull moves, and which are
//! beyond the limit of use, so that tests can count what their cases reach.
#![forbid(unsafe_code)]

pub mod boards;
pub mod builds;
pub mod dated;
pub mod histories;
pub mod hops;
pub mod indexes;
pub mod islands;
pub mod levelled;
pub mod listings;
pub mod meetings;
pub mod pulls;
pub mod random;
mod rings;
pub mod shortest;
pub mod ties;

pub use boards::{bare_board, holding, small_boards, sound_boards, stepped_board, unsound_boards};
pub use builds::{
    build_case, build_case_of, default_case, default_case_of, island_case, island_case_of, rows,
    BuildCase, Shape, SHAPES,
};
pub use dated::{dated_case, small_dated_boards, DatedCase};
pub use histories::{history, history_on, History, HISTORIES};
pub use hops::hop_case;
pub use indexes::{index, navigation_case, totals, NavigationCase};
pub use levelled::{levelled_case, LevelledCase};
pub use listings::listing;
pub use meetings::{meeting_case, MeetingCase};
pub use pulls::{large_pull_case, pull_case, remark, PullCase, Remark};
pub use random::Random;
pub use shortest::{shortest_case, ShortestCase};
