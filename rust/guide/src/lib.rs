//! The example tables of the SAP HANA Hierarchy Developer Guide (2.0 SPS 06) as
//! data, and its examples as functions over any implementation of [`Engine`].
//!
//! What the guide prints is kept as text and compared row by row with what the
//! engine gives. `run_examples!(engine)` makes one test of each example.
//!
//! What the guide leaves open and the papers decide, and where they differ:
//! * Orphaned cycles: the guide adds an edge to a node of the cycle, and doesn't say
//!   to which; the papers take the numeral of the lowest row whose numeral is on a
//!   ring (`s3_1_orphaned_cycle`).
//! * Orphans of which nothing is said: the guide ignores them; by request 2.7 of paper 02 they are roots
//!   (`deviation_default`). So every other comparison names the options.
//! * Siblings of equal order: the guide leaves their order open; the paper takes
//!   the smaller numeral, then the smaller row number (`deviation_ties`).
//! * Spanning trees: the guide keeps a node once for each start node that leads to it, the
//!   papers once in all (`deviation_spanning_tree`); so its table is compared start by
//!   start (`s3_2_spanning_tree`).
//! * Start conditions: the guide takes any SQL condition; the paper takes parent
//!   0 or a list of numerals. A condition on another column is expressed by
//!   giving the rows that meet it parent 0.
//! * Validity: the guide takes columns of many types, and bounds that may be excluded; the papers
//!   take days, both included. An excluded upper bound is the day before it, and a point in
//!   time is a window of one day (`s3_3_until_excluded`, `s3_3_point_in_time`).
//! * Levelled sources: the guide takes columns of many types, any number of them, and a
//!   sibling order; the papers take numbers, 0 for NULL, at most 8 columns and 512 lines,
//!   in one order (`s3_4_all_columns`, `s8_10_dates`). Lines that are equal or wholly NULL
//!   the guide doesn't mention (`deviation_levelled_lines`).
//! * Sources: the guide also navigates a complete subtree cut out of a
//!   hierarchy; here the whole hierarchy is navigated and the result restricted
//!   to the span of the subtree's root.
#![forbid(unsafe_code)]

pub mod examples;
pub mod levelled;
pub mod tables;
mod view;

use reference::{Asked, Body, Row, Start};

/// An implementation under test. A refusal is the scope paper's number.
pub trait Engine {
    /// Builds over `rows` into slices of the engine's choice, which hold at least
    /// 1,000 nodes.
    fn build(
        &self,
        rows: &[Row],
        code: u32,
        depth: Option<i32>,
        start: Start,
    ) -> Result<Image, u32>;

    /// Builds over `rows` by default, into slices of the engine's choice, which hold at least
    /// 1,000 nodes.
    fn build_default(&self, rows: &[Row]) -> Result<Image, u32>;

    /// Builds over lines of `width` cells into slices of the engine's choice, which
    /// hold at least 1,000 nodes.
    fn build_levelled(&self, cells: &[u32], width: u32) -> Result<Image, u32>;

    /// Builds shortest placement over `rows` into slices of the engine's choice, which hold
    /// at least 1,000 nodes.
    fn build_shortest(&self, rows: &[Row], start: Start) -> Result<Image, u32>;

    /// Builds over `rows` with a window into slices of the engine's choice, which hold at least
    /// 1,000 nodes.
    fn build_dated(&self, rows: &[Row], asked: Asked) -> Result<DatedImage, u32>;

    /// Ranks of the node's span within the limits.
    fn descendants(
        &self,
        index: &[u32],
        rank: u32,
        lower: i32,
        upper: i32,
    ) -> Result<Vec<u32>, u32>;

    /// Ranks of the climb within the limits, and the parent links followed.
    fn ancestors(
        &self,
        index: &[u32],
        rank: u32,
        lower: i32,
        upper: i32,
    ) -> Result<(Vec<u32>, u32), u32>;

    /// Ranks with the same parent rank.
    fn siblings(&self, index: &[u32], rank: u32) -> Result<Vec<u32>, u32>;

    /// The same ranks by hops of tree size, and the hops made.
    fn siblings_by_hops(&self, index: &[u32], rank: u32) -> Result<(Vec<u32>, u32), u32>;

    /// The nearest common ancestor of two nodes, which may be one of them, or none.
    fn meet(&self, index: &[u32], a: u32, b: u32) -> Result<Option<u32>, u32>;

    /// The parent to which one call of a climber from the rank comes, or none at a root.
    fn climb(&self, index: &[u32], rank: u32) -> Result<Option<u32>, u32>;

    /// The words of the node's span.
    fn span(&self, index: &[u32], rank: u32) -> Result<Vec<u32>, u32>;

    /// Sum over the node and its descendants.
    fn subtree_sum(&self, index: &[u32], totals: &[i64], rank: u32) -> Result<i64, u32>;

    /// Sum over the node and its ancestors.
    fn path_sum(&self, index: &[u32], totals: &[i64], rank: u32) -> Result<i64, u32>;

    /// Moves the totals by the difference for each node that ends in the row.
    fn pull(&self, index: &[u32], totals: &mut [i64], row: u32, difference: i64)
        -> Result<(), u32>;

    /// Whether the slice holds an index.
    fn index_check(&self, index: &[u32]) -> bool;
}

/// What a build left: the two slices and the number of rows that end no node, or of lines
/// wholly blank.
#[derive(Clone, Debug, PartialEq, Eq)]
pub struct Image {
    pub index: Vec<u32>,
    pub totals: Vec<i64>,
    pub left: u32,
}

/// What a dated build left: the first and the last day of each node, too.
#[derive(Clone, Debug, PartialEq, Eq)]
pub struct DatedImage {
    pub image: Image,
    pub days: Vec<u32>,
}

impl Image {
    /// Node count.
    pub fn nodes(&self) -> u32 {
        self.index[0]
    }

    /// The body of a rank, counted from 1.
    pub fn body(&self, rank: u32) -> Body {
        Body::read(&self.index, rank as usize)
    }

    /// All bodies in rank order.
    pub fn bodies(&self) -> Vec<Body> {
        (1..=self.nodes()).map(|rank| self.body(rank)).collect()
    }
}

/// An example, run through an engine; it panics where the engine gives another table.
pub type Example = fn(&dyn Engine);

macro_rules! list_examples {
    ($($name:ident)*) => {
        /// All examples with their names.
        pub const EXAMPLES: &[(&str, Example)] = &[$((stringify!($name), examples::$name)),*];

        /// Makes one test of each example, run through the engine.
        #[macro_export]
        macro_rules! run_examples {
            ($engine:expr) => {
                $(
                    #[test]
                    fn $name() {
                        $crate::examples::$name(&$engine);
                    }
                )*
            };
        }
    };
}

list_examples! {
    s3_1_all_attributes
    s3_1_depth_2
    s3_1_orphan_root
    s3_1_orphan_adopt
    s3_1_orphaned_cycle
    s3_1_reversed_source
    s3_1_multiparent_error
    s3_1_multiparent_leaves
    s3_1_multiparent_leaves_error
    s3_1_multiparent
    s3_1_cycle_error
    s3_1_cycle_breakup
    s3_2_spanning_tree
    s3_2_well_formed_tree
    s3_3_until_excluded
    s3_3_interval
    s3_3_point_in_time
    s3_3_closed_bounds
    s3_3_start_and_depth
    s3_3_multiparent_and_cycle
    s3_4_all_columns
    s3_4_level_columns
    s4_1_levels_of_columns
    s5_1_h_demo
    s5_1_subtree_b2
    s5_2_distance_window
    s5_2_two_start_nodes
    s5_2_subordinate_leaves
    s5_2_in_subtree
    s5_3_ancestors_of_c4
    s5_3_grandparents
    s5_3_in_subtree
    s5_4_siblings_of_c4
    s5_4_in_subtree
    s5_5_descendants_aggregate
    s5_5_by_descendants
    s5_6_ancestors_aggregate
    s5_7_subtree
    s5_7_children
    s5_7_leaves
    s5_7_level_members
    s5_7_parents
    s5_7_roots
    s5_7_first_and_previous_sibling
    s5_7_next_and_last_sibling
    s5_7_following_nodes
    s5_7_preceding_nodes
    s8_1_is_leaf_and_is_root
    s8_1_drill_state
    s8_1_postorder_rank
    s8_1_path
    s8_1_path_by_two_hierarchies
    s8_1_root
    s8_1_following_node
    s8_2_parametrized
    s8_3_orphan_collector
    s8_3_cycle_reconstruction
    s8_3_spanning_tree
    s8_4_limited_query
    s8_4_partial_tree
    s8_5_multiplied_nodes
    s8_5_number_of_roots
    s8_5_top_level_orphans
    s8_6_composite_identifiers
    s8_7_connectivity
    s8_8_nearest_common_ancestor
    s8_9_synthetic_data
    s8_10_dates
    s8_11_drill_down
    s8_12_graphviz
    deviation_ties
    deviation_default
    deviation_spanning_tree
    deviation_levelled_lines
}
