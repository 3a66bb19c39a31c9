//! The guide's examples, by section. Each compares what the guide prints with
//! what the engine gives, row by row and in the printed order; "-" is an empty
//! field.

use crate::levelled::LevelledView;
use crate::tables::{
    self, cell_name, date, date_name, dates, day, id, numeral, t_demo, t_demo_err, t_demo_lvl,
    t_demo_time, unordered,
};
use crate::view::{code, lines, Pick, View};
use crate::Engine;
use reference::{Asked, Days, Row, Start};
use std::cmp::Reverse;

const ANY: (i32, i32) = (i32::MIN, i32::MAX);

/// H_DEMO of section 5.1.
fn h_demo(engine: &dyn Engine) -> View<'_> {
    View::by_code(engine, t_demo(), code(0, 0, 0))
}

/// H_DEMO_ERR of section 5.1.
fn h_demo_err(engine: &dyn Engine) -> View<'_> {
    View::by_code(engine, t_demo_err(&[0, 1, 2, 3]), code(0, 0, 0))
}

/// Sorts result rows by node id.
fn by_node_id(view: &View, mut picks: Vec<Pick>) -> Vec<Pick> {
    picks.sort_by_key(|pick| view.image.body(pick.rank).numeral);
    picks
}

/// Sorts result rows by rank.
fn by_rank(mut picks: Vec<Pick>) -> Vec<Pick> {
    picks.sort_by_key(|pick| pick.rank);
    picks
}

// 3.1 HIERARCHY

/// All attributes, starting from the default condition.
pub fn s3_1_all_attributes(engine: &dyn Engine) {
    let view = h_demo(engine);
    view.check(
        &view.all(),
        "RANK TREE_SIZE PARENT_RANK LEVEL ROOT_RANK IS_CYCLE IS_ORPHAN PARENT_ID NODE_ID
         1 10 0 1 1 0 0 - A1
         2 3 1 2 1 0 0 A1 B1
         3 1 2 3 1 0 0 B1 C1
         4 1 2 3 1 0 0 B1 C2
         5 6 1 2 1 0 0 A1 B2
         6 3 5 3 1 0 0 B2 C3
         7 1 6 4 1 0 0 C3 D1
         8 1 6 4 1 0 0 C3 D2
         9 2 5 3 1 0 0 B2 C4
         10 1 9 4 1 0 0 C4 D3",
    );
    assert_eq!(view.image.left, 0);
}

/// DEPTH 2, level above 1, ordered by node id.
pub fn s3_1_depth_2(engine: &dyn Engine) {
    let view = View::new(engine, t_demo(), code(0, 0, 0), Some(2), Start::ParentZero);
    let mut picks = by_node_id(&view, view.all());
    picks.retain(|pick| view.image.body(pick.rank).level > 1);
    view.check(
        &picks,
        "RANK TREE_SIZE PARENT_RANK LEVEL IS_CYCLE IS_ORPHAN PARENT_ID NODE_ID
         2 3 1 2 0 0 A1 B1
         5 3 1 2 0 0 A1 B2
         3 1 2 3 0 0 B1 C1
         4 1 2 3 0 0 B1 C2
         6 1 5 3 0 0 B2 C3
         7 1 5 3 0 0 B2 C4",
    );
    assert_eq!(view.image.left, 3);
}

/// Start from B1 and B2, ORPHAN ROOT.
pub fn s3_1_orphan_root(engine: &dyn Engine) {
    let start = [numeral("B1"), numeral("B2")];
    let view = View::new(engine, t_demo(), code(3, 0, 0), None, Start::Numerals(&start));
    view.check(
        &view.all(),
        "RANK TREE_SIZE PARENT_RANK ROOT_RANK LEVEL IS_CYCLE IS_ORPHAN PARENT_ID NODE_ID
         1 3 0 1 1 0 0 A1 B1
         2 1 1 1 2 0 0 B1 C1
         3 1 1 1 2 0 0 B1 C2
         4 6 0 4 1 0 0 A1 B2
         5 3 4 4 2 0 0 B2 C3
         6 1 5 4 3 0 0 C3 D1
         7 1 5 4 3 0 0 C3 D2
         8 2 4 4 2 0 0 B2 C4
         9 1 8 4 3 0 0 C4 D3
         10 1 0 10 1 0 1 - A1",
    );
}

/// Start from node ids like B%, ORPHAN ADOPT.
pub fn s3_1_orphan_adopt(engine: &dyn Engine) {
    let start = [numeral("B1"), numeral("B2")];
    let view = View::new(engine, t_demo(), code(2, 0, 0), None, Start::Numerals(&start));
    view.check(
        &view.all(),
        "RANK TREE_SIZE PARENT_RANK ROOT_RANK LEVEL IS_CYCLE IS_ORPHAN PARENT_ID NODE_ID
         1 3 0 1 1 0 0 A1 B1
         2 1 1 1 2 0 0 B1 C1
         3 1 1 1 2 0 0 B1 C2
         4 7 0 4 1 0 0 A1 B2
         5 3 4 4 2 0 0 B2 C3
         6 1 5 4 3 0 0 C3 D1
         7 1 5 4 3 0 0 C3 D2
         8 2 4 4 2 0 0 B2 C4
         9 1 8 4 3 0 0 C4 D3
         10 1 4 4 2 0 1 - A1",
    );
}

/// Orphaned cycles: T_DEMO_ERR without F5 below E3, so that no root leads to the cycle F5, G3, H2.
///
/// The guide prints no table, so that its sentences are compared, under ORPHAN ROOT and ADOPT:
/// 1. "only edges that have not been traversed when starting from a regular root node are considered.
///    For these edges, the HIERARCHY_IS_ORPHAN value is set to 1. The original source attribute values
///    are retained."
/// 2. "In the case of an orphaned cycle, an additional edge is introduced in order to define a root node
///    or adopt the orphaned cycle by an existing root node."
/// 3. "Since there is no corresponding input data for this edge, its source attributes are set to NULL,
///    except for NODE_ID, which reflects the value of the end point of the newly introduced edge."
///
/// Which node of the cycle is the end point it leaves open. By the papers it is that of the first row
/// entered.
pub fn s3_1_orphaned_cycle(engine: &dyn Engine) {
    let mut rows = t_demo_err(&[0, 1, 2, 3]);
    rows.retain(|row| (row.parent, row.numeral) != (numeral("E3"), numeral("F5")));
    // H2 over F5 was entered before the other rows of the cycle; now F5 over G3.
    let mut moved = rows.clone();
    let place = moved.iter().position(|row| row.numeral == numeral("G3")).expect("a row of G3");
    moved[..=place].rotate_right(1);

    let view = View::by_code(engine, rows.clone(), code(3, 0, 0));
    orphaned_cycle_by_the_sentences(&view, false);
    view.check(
        &view.all()[12..],
        "RANK TREE_SIZE PARENT_RANK LEVEL ROOT_RANK IS_CYCLE IS_ORPHAN PARENT_ID NODE_ID
         13 1 0 1 13 0 0 - E3
         14 1 0 1 14 0 1 E4 F6
         15 5 0 1 15 0 1 - F5
         16 4 15 2 15 0 1 F5 G3
         17 1 16 3 15 0 1 G3 H1
         18 2 16 3 15 0 1 G3 H2
         19 1 18 4 15 1 1 H2 F5",
    );
    let view = View::by_code(engine, moved, code(2, 0, 0));
    orphaned_cycle_by_the_sentences(&view, true);
    view.check(
        &view.all()[12..],
        "RANK TREE_SIZE PARENT_RANK LEVEL ROOT_RANK IS_CYCLE IS_ORPHAN PARENT_ID NODE_ID
         13 7 0 1 13 0 0 - E3
         14 1 13 2 13 0 1 E4 F6
         15 5 13 2 13 0 1 - G3
         16 1 15 3 13 0 1 G3 H1
         17 3 15 3 13 0 1 G3 H2
         18 2 17 4 13 0 1 H2 F5
         19 1 18 5 13 1 1 F5 G3",
    );

    // "Orphans are silently ignored"; "If the input data contains any orphans, an error is raised."
    let view = View::by_code(engine, rows.clone(), code(0, 0, 0));
    assert_eq!((view.image.nodes(), view.image.left), (13, 5));
    let built = engine.build(&rows, code(1, 0, 0), None, Start::ParentZero);
    assert_eq!(built.err(), Some(12));
}

/// The guide's sentences on orphans, of T_DEMO_ERR without F5 below E3.
fn orphaned_cycle_by_the_sentences(view: &View, adopt: bool) {
    let ids = |row: Row| (id(row.parent), id(row.numeral));
    let not_traversed = [("E4", "F6"), ("F5", "G3"), ("G3", "H1"), ("G3", "H2"), ("H2", "F5")];
    let (orphans, regular): (Vec<u32>, Vec<u32>) =
        view.ranks().into_iter().partition(|rank| view.image.body(*rank).orphan);
    let (edges, added): (Vec<u32>, Vec<u32>) =
        orphans.into_iter().partition(|rank| view.source(*rank).is_some());

    // 1. The orphans are the edges not traversed, each once, with their source attributes.
    let mut found: Vec<(String, String)> =
        edges.iter().map(|rank| ids(view.source(*rank).unwrap())).collect();
    found.sort();
    let expected = not_traversed.map(|(parent, node)| (parent.to_string(), node.to_string()));
    assert_eq!(found, expected);
    for rank in regular {
        let (parent, node) = ids(view.source(rank).expect("regular edges have source rows"));
        assert!(!not_traversed.contains(&(&parent, &node)));
    }
    assert_eq!(view.image.left, 0);

    // 2. One edge is added, of a root or of a child of the last root; the cycle is below it and closes on it.
    let [added] = added[..] else { panic!("added edges: {added:?}") };
    let body = view.image.body(added);
    match adopt {
        true => assert_eq!((view.id_of(body.parent), body.level), ("E3".to_string(), 2)),
        false => assert_eq!((body.parent, body.level), (0, 1)),
    }
    assert!(!body.closing);
    for rank in edges {
        let own = view.image.body(rank);
        assert_eq!(view.in_span(rank, added), view.id_of(rank) != "F6");
        assert_eq!(own.closing, own.numeral == body.numeral);
    }

    // 3. It has no source row, so no parent, and a node of the cycle as its end point.
    let pick = Pick { rank: added, start: added };
    view.check(&[pick], &format!("PARENT_ID NODE_ID\n- {}", view.id_of(added)));
    assert!(["F5", "G3", "H2"].contains(&view.id_of(added).as_str()));
}

/// Ancestors of D1 by a source with node and parent exchanged.
///
/// The start condition is on the source's own node id, here the parent; the row
/// that meets it gets parent 0. The row of A1 has no node id then and is left out.
pub fn s3_1_reversed_source(engine: &dyn Engine) {
    let reversed: Vec<Row> = t_demo()
        .iter()
        .filter(|row| row.parent != 0)
        .map(|row| Row { parent: row.numeral, numeral: row.parent, ..*row })
        .collect();
    let start = numeral("D1");
    let rows = reversed
        .iter()
        .map(|row| Row { parent: if row.parent == start { 0 } else { row.parent }, ..*row })
        .collect();
    let mut view = View::by_code(engine, rows, code(0, 0, 0));
    view.rows = reversed;
    view.check(
        &view.all(),
        "RANK TREE_SIZE PARENT_RANK LEVEL IS_CYCLE IS_ORPHAN NODE_ID PARENT_ID
         1 3 0 1 0 0 C3 D1
         2 2 1 2 0 0 B2 C3
         3 1 2 3 0 0 A1 B2",
    );
}

/// MULTIPARENT ERROR on trees 1 and 2: an error, here refusal 11.
pub fn s3_1_multiparent_error(engine: &dyn Engine) {
    let built = engine.build(&t_demo_err(&[1, 2]), code(0, 2, 0), None, Start::ParentZero);
    assert_eq!(built.err(), Some(11));
}

/// MULTIPARENT LEAVES on tree 1.
pub fn s3_1_multiparent_leaves(engine: &dyn Engine) {
    let view = View::by_code(engine, t_demo_err(&[1]), code(0, 1, 0));
    view.check(
        &view.all(),
        "HIERARCHY_RANK NODE_ID
         1 E1
         2 F1
         3 G1
         4 F2
         5 G1",
    );
}

/// MULTIPARENT LEAVES on tree 2: an error, here refusal 11.
pub fn s3_1_multiparent_leaves_error(engine: &dyn Engine) {
    let built = engine.build(&t_demo_err(&[2]), code(0, 1, 0), None, Start::ParentZero);
    assert_eq!(built.err(), Some(11));
}

/// MULTIPARENT on trees 1 and 2.
pub fn s3_1_multiparent(engine: &dyn Engine) {
    let view = View::by_code(engine, t_demo_err(&[1, 2]), code(0, 0, 0));
    view.check(
        &view.all(),
        "HIERARCHY_RANK NODE_ID
         1 E1
         2 F1
         3 G1
         4 F2
         5 G1
         6 E2
         7 F3
         8 G2
         9 H1
         10 F4
         11 G2
         12 H1",
    );
}

/// CYCLE ERROR on tree 3: an error, here refusal 10.
pub fn s3_1_cycle_error(engine: &dyn Engine) {
    let built = engine.build(&t_demo_err(&[3]), code(0, 0, 1), None, Start::ParentZero);
    assert_eq!(built.err(), Some(10));
}

/// CYCLE BREAKUP on tree 3.
pub fn s3_1_cycle_breakup(engine: &dyn Engine) {
    let view = View::by_code(engine, t_demo_err(&[3]), code(0, 0, 0));
    view.check(
        &view.all(),
        "HIERARCHY_RANK HIERARCHY_IS_CYCLE NODE_ID
         1 0 E3
         2 0 F5
         3 0 G3
         4 0 H1
         5 0 H2
         6 1 F5",
    );
}

// 3.2 HIERARCHY_SPANTREE

/// The spanning tree of T_DEMO_ERR.
///
/// The guide prints "only the first shortest path between each start and result node": H1 stands
/// below E2 and below E3. The papers keep each numeral once in all, so that the tree of each start
/// node is built by itself, over all rows. Its ranks begin at 1; the printed ones are larger by the
/// nodes of the trees before.
pub fn s3_2_spanning_tree(engine: &dyn Engine) {
    let printed = "RANK TREE_SIZE PARENT_RANK ROOT_RANK LEVEL PARENT_ID NODE_ID TREE
                   1 4 0 1 1 - E1 1
                   2 2 1 1 2 E1 F1 1
                   3 1 2 1 3 F1 G1 1
                   4 1 1 1 2 E1 F2 1
                   5 5 0 5 1 - E2 2
                   6 3 5 5 2 E2 F3 2
                   7 2 6 5 3 F3 G2 2
                   8 1 7 5 4 G2 H1 2
                   9 1 5 5 2 E2 F4 2
                   10 5 0 10 1 - E3 3
                   11 4 10 10 2 E3 F5 3
                   12 3 11 10 3 F5 G3 3
                   13 1 12 10 4 G3 H1 3
                   14 1 12 10 4 G3 H2 3";
    let mut printed = lines(printed);
    let header = printed.remove(0);
    let mut before = 0;
    // Each node is one of the 18 rows; all others are left over.
    for (id, nodes, left) in [("E1", 4, 14), ("E2", 5, 13), ("E3", 5, 13)] {
        let start = [numeral(id)];
        let view = View::shortest(engine, t_demo_err(&[0, 1, 2, 3]), Start::Numerals(&start));
        assert_eq!((view.image.nodes(), view.image.left), (nodes, left), "{id}");
        let tree: Vec<String> =
            printed.drain(..nodes as usize).map(|line| moved(&line, before)).collect();
        view.check(&view.all(), &format!("{header}\n{}", tree.join("\n")));
        before += nodes;
    }
    assert_eq!((before, printed.len()), (14, 0));
}

/// A line that begins with rank, tree size, parent rank and root rank, the ranks made smaller by the
/// nodes before; parent rank 0 stays 0.
fn moved(line: &str, before: u32) -> String {
    let mut fields: Vec<String> = line.split(' ').map(str::to_string).collect();
    for place in [0, 2, 3] {
        let rank: u32 = fields[place].parse().expect("a rank");
        fields[place] = rank.saturating_sub(before).to_string();
    }
    fields.join(" ")
}

/// "If the recursive relations contained in the source data describe a well-formed tree, the output of
/// HIERARCHY_SPANTREE is the same as the output of the HIERARCHY Generator Function": T_DEMO, from
/// its root and from B2.
pub fn s3_2_well_formed_tree(engine: &dyn Engine) {
    let b2 = [numeral("B2")];
    for start in [Start::ParentZero, Start::Numerals(&b2)] {
        let tree = View::shortest(engine, t_demo(), start).image;
        let hierarchy = View::new(engine, t_demo(), code(0, 0, 0), None, start).image;
        assert_eq!(tree.bodies(), hierarchy.bodies());
        let totals = ..=tree.nodes() as usize;
        assert_eq!(tree.totals[totals], hierarchy.totals[totals]);
        assert_eq!(tree.left, hierarchy.left);
    }
}

// 3.3 HIERARCHY_TEMPORAL

/// VALID FROM and UNTIL two dates, both included; orphans are always ignored.
fn valid(from: &str, until: &str) -> Asked<'static> {
    let window = Days::new(day(from), day(until));
    Asked { code: code(0, 0, 0), depth: None, start: Start::ParentZero, window }
}

/// VALID AT a date: a window of one day.
fn valid_at(date: &str) -> Asked<'static> {
    valid(date, date)
}

/// VALID FROM '2011-04-01' UNTIL '2013-12-31' EXCLUDED, which holds for the source too: all last days
/// are those before the dates given, and the dates printed are those after the last days.
///
/// In rank 4 the guide prints V1, a misprint: the row valid from 2013-01-01 is inserted as V2.
pub fn s3_3_until_excluded(engine: &dyn Engine) {
    let mut asked = valid("2011-04-01", "2013-12-31");
    asked.window.last -= 1;
    let mut view = View::dated(engine, t_demo_time(true), asked);
    view.until = |last| date(last + 1);
    view.check(
        &view.all(),
        "RANK TREE_SIZE PARENT_RANK LEVEL PARENT_ID NODE_ID VALID_FROM VALID_UNTIL
         1 4 0 1 - T1 2011-04-01 2013-12-31
         2 3 1 2 T1 U1 2011-07-01 2013-12-31
         3 1 2 3 U1 V1 2011-07-01 2012-12-31
         4 1 2 3 U1 V2 2013-01-01 2013-12-31",
    );
    assert_eq!(view.image.left, 0);
}

/// VALID FROM '2015-07-01' UNTIL '2019-12-31'.
///
/// In rank 3 the guide prints V1, a misprint: V1 is valid until 2012-12-31, and V2 as printed.
pub fn s3_3_interval(engine: &dyn Engine) {
    let view = View::dated(engine, t_demo_time(false), valid("2015-07-01", "2019-12-31"));
    view.check(
        &view.all(),
        "RANK TREE_SIZE PARENT_RANK LEVEL PARENT_ID NODE_ID VALID_FROM VALID_UNTIL
         1 3 0 1 - T1 2015-07-01 2016-12-31
         2 2 1 2 T1 U1 2015-07-01 2016-12-31
         3 1 2 3 U1 V2 2015-07-01 2016-12-31",
    );
    assert_eq!(view.image.left, 1);
}

/// VALID AT '2015-07-02' UNTIL EXCLUDED, which holds for the source alone.
///
/// In rank 3 the guide prints V1, a misprint as in the example before.
pub fn s3_3_point_in_time(engine: &dyn Engine) {
    let view = View::dated(engine, t_demo_time(true), valid_at("2015-07-02"));
    view.check(
        &view.all(),
        "RANK TREE_SIZE PARENT_RANK LEVEL PARENT_ID NODE_ID VALID_FROM VALID_UNTIL
         1 3 0 1 - T1 2015-07-02 2015-07-02
         2 2 1 2 T1 U1 2015-07-02 2015-07-02
         3 1 2 3 U1 V2 2015-07-02 2015-07-02",
    );
    assert_eq!(view.image.left, 1);
}

/// "The interval bounds are closed by default, which means that both boundary values are included":
/// the nodes on the first and the last days of T_DEMO_TIME and on those beside them, with UNTIL
/// included and excluded.
pub fn s3_3_closed_bounds(engine: &dyn Engine) {
    for (at, included, excluded) in [
        ("2010-12-31", "", ""),
        ("2011-01-01", "T1", "T1"),
        ("2011-06-30", "T1", "T1"),
        ("2011-07-01", "T1 U1 V1", "T1 U1 V1"),
        ("2012-12-30", "T1 U1 V1", "T1 U1 V1"),
        ("2012-12-31", "T1 U1 V1", "T1 U1"),
        ("2013-01-01", "T1 U1 V2", "T1 U1 V2"),
        ("2016-12-30", "T1 U1 V2", "T1 U1 V2"),
        ("2016-12-31", "T1 U1 V2", ""),
        // U1 is valid, but not T1 above it.
        ("2017-01-01", "", ""),
    ] {
        for (until_excluded, wanted) in [(false, included), (true, excluded)] {
            let view = View::dated(engine, t_demo_time(until_excluded), valid_at(at));
            let ids: Vec<String> = view.ranks().into_iter().map(|rank| view.id_of(rank)).collect();
            assert_eq!(ids.join(" "), wanted, "{at}");
        }
    }
}

/// The elements that HIERARCHY_TEMPORAL has in common with HIERARCHY:
/// 1. START WHERE node_id = 'U1': its days don't depend on those of T1.
/// 2. "Start nodes and roots have a depth of 0. If the depth is set to less than 0, then the query
///    returns an empty result set."
/// 3. "Orphans are always ignored": no other choice is taken.
pub fn s3_3_start_and_depth(engine: &dyn Engine) {
    let asked = valid("2015-07-01", "2019-12-31");
    let u1 = [numeral("U1")];
    let from_u1 = Asked { start: Start::Numerals(&u1), ..asked };
    let view = View::dated(engine, t_demo_time(false), from_u1);
    view.check(
        &view.all(),
        "RANK TREE_SIZE PARENT_RANK LEVEL PARENT_ID NODE_ID VALID_FROM VALID_UNTIL
         1 2 0 1 T1 U1 2015-07-01 2018-12-31
         2 1 1 2 U1 V2 2015-07-01 2016-12-31",
    );
    for (depth, nodes) in [(-1, 0), (0, 1), (1, 2), (2, 3), (3, 3)] {
        let view = View::dated(engine, t_demo_time(false), Asked { depth: Some(depth), ..asked });
        assert_eq!(view.image.nodes(), nodes, "depth {depth}");
    }
    for orphan in 1..=3 {
        let refused =
            engine.build_dated(&t_demo_time(false), Asked { code: code(orphan, 0, 0), ..asked });
        assert_eq!(refused.err(), Some(7), "orphan {orphan}");
    }
}

/// MULTIPARENT ERROR: "If the hierarchy function result set contains non-distinct NODE_ID values, an
/// error is raised"; CYCLE ERROR: "If the source data traversal passes a cycle [...], an error is
/// raised." A row below V2 that leads back to U1 for the year 2014 does both, for queries of that year.
pub fn s3_3_multiparent_and_cycle(engine: &dyn Engine) {
    let mut rows = t_demo_time(false);
    let back = Row::undated(numeral("V2"), numeral("U1"), 9, 0);
    rows.push(back.on(day("2014-01-01"), day("2014-12-31")));
    let refusal =
        |asked: Asked, code: u32| engine.build_dated(&rows, Asked { code, ..asked }).err();
    for (asked, in_2014) in [
        (valid_at("2013-12-31"), false),
        (valid("2014-12-31", "2018-12-31"), true),
        (valid("2015-01-01", "2018-12-31"), false),
        (valid("2011-01-01", "2018-12-31"), true),
    ] {
        assert_eq!(refusal(asked, code(0, 0, 0)), None);
        assert_eq!(refusal(asked, code(0, 2, 0)), in_2014.then_some(11));
        assert_eq!(refusal(asked, code(0, 0, 1)), in_2014.then_some(10));
    }
    // "Depth-first source traversal does not continue after cycle closure."
    let view = View::dated(engine, rows.clone(), valid("2014-07-01", "2015-12-31"));
    view.check(
        &view.all(),
        "RANK TREE_SIZE LEVEL IS_CYCLE PARENT_ID NODE_ID VALID_FROM VALID_UNTIL
         1 4 1 0 - T1 2014-07-01 2015-12-31
         2 3 2 0 T1 U1 2014-07-01 2015-12-31
         3 2 3 0 U1 V2 2014-07-01 2015-12-31
         4 1 4 1 V2 U1 2014-07-01 2014-12-31",
    );
}

// 3.4 HIERARCHY_LEVELLED

/// All columns of T_DEMO_LVL are levels, attributes too.
///
/// The guide orders by the four level columns, NULLS LAST, and says nothing of the attributes; the
/// papers order by all columns. The lines of this source come in the same order by both.
pub fn s3_4_all_columns(engine: &dyn Engine) {
    let view = LevelledView::new(engine, t_demo_lvl(&[]), cell_name);
    view.check(
        &view.ranks(),
        "RANK TREE_SIZE PARENT_RANK LEVEL PARENT_ID NODE_ID LEVEL_NAME L1 L2 A2 L3 L4 A4
         1 14 0 1 - L1 LEVEL_1 L1 - - - - -
         2 8 1 2 L1 M1 LEVEL_2 L1 M1 - - - -
         3 4 2 3 M1 1 ATTR_2 L1 M1 1 - - -
         4 3 3 4 1 N1 LEVEL_3 L1 M1 1 N1 - -
         5 2 4 5 N1 O1 LEVEL_4 L1 M1 1 N1 O1 -
         6 1 5 6 O1 10 ATTR_4 L1 M1 1 N1 O1 10
         7 3 2 3 M1 2 ATTR_2 L1 M1 2 - - -
         8 2 7 5 2 O2 LEVEL_4 L1 M1 2 - O2 -
         9 1 8 6 O2 20 ATTR_4 L1 M1 2 - O2 20
         10 2 1 2 L1 M2 LEVEL_2 L1 M2 - - - -
         11 1 10 3 M2 3 ATTR_2 L1 M2 3 - - -
         12 3 1 4 L1 N2 LEVEL_3 L1 - - N2 - -
         13 2 12 5 N2 O3 LEVEL_4 L1 - - N2 O3 -
         14 1 13 6 O3 30 ATTR_4 L1 - - N2 O3 30",
    );
    assert_eq!(view.image.left, 0);
}

/// LEVELS (level_1, level_2, level_3, level_4): the caller leaves the attributes out, and finds
/// them again by the row number.
///
/// The guide prints nothing under L1 in the first row, a misprint: the table before has L1 there,
/// and so have all other rows of this one.
pub fn s3_4_level_columns(engine: &dyn Engine) {
    let levels = ["LEVEL_1", "LEVEL_2", "LEVEL_3", "LEVEL_4"];
    let view = LevelledView::new(engine, t_demo_lvl(&levels), cell_name);
    view.check(
        &view.ranks(),
        "RANK TREE_SIZE PARENT_RANK LEVEL PARENT_ID NODE_ID LEVEL_NAME L1 L2 A2 L3 L4 A4
         1 8 0 1 - L1 LEVEL_1 L1 - - - - -
         2 4 1 2 L1 M1 LEVEL_2 L1 M1 1 - - -
         3 2 2 3 M1 N1 LEVEL_3 L1 M1 1 N1 - -
         4 1 3 4 N1 O1 LEVEL_4 L1 M1 1 N1 O1 10
         5 1 2 4 M1 O2 LEVEL_4 L1 M1 2 - O2 20
         6 1 1 2 L1 M2 LEVEL_2 L1 M2 3 - - -
         7 2 1 3 L1 N2 LEVEL_3 L1 - - N2 - -
         8 1 7 4 N2 O3 LEVEL_4 L1 - - N2 O3 30",
    );
    assert_eq!(view.image.left, 0);
}

// 4.1 and 4.2 Attributes

/// The sentences on levels and ids of a levelled hierarchy, over T_DEMO_LVL with LEVEL_1 blank:
/// 1. "it is possible that root nodes are not on level 1 and direct children may be more than one
///    level below their parents."
/// 2. HIERARCHY_LEVEL "is strictly larger than the level of the parent node."
/// 3. "The value of the NODE_ID column is taken from the level column corresponding to the highest
///    level where the value is not NULL. This value is not necessarily unique in the hierarchy."
pub fn s4_1_levels_of_columns(engine: &dyn Engine) {
    let mut source = t_demo_lvl(&["LEVEL_1", "LEVEL_2", "LEVEL_3", "LEVEL_4"]);
    for line in &mut source.lines {
        line[0] = 0;
    }
    // O3 once more, below N1.
    source.lines.push(vec![0, numeral("M1"), 1, numeral("N1"), numeral("O3"), 40]);
    let view = LevelledView::new(engine, source, cell_name);
    view.check(
        &view.ranks(),
        "RANK TREE_SIZE PARENT_RANK ROOT_RANK LEVEL IS_CYCLE IS_ORPHAN PARENT_ID NODE_ID A4
         1 5 0 1 2 0 0 - M1 -
         2 3 1 1 3 0 0 M1 N1 -
         3 1 2 1 4 0 0 N1 O1 10
         4 1 2 1 4 0 0 N1 O3 40
         5 1 1 1 4 0 0 M1 O2 20
         6 1 0 6 2 0 0 - M2 -
         7 2 0 7 3 0 0 - N2 -
         8 1 7 7 4 0 0 N2 O3 30",
    );
    let bodies = view.image.bodies();
    let above = |parent: u32| if parent == 0 { 0 } else { view.image.body(parent).level };
    assert!(bodies.iter().all(|body| body.level > above(body.parent)));
    assert!(bodies.iter().any(|body| body.parent == 0 && body.level > 1));
    assert!(bodies.iter().any(|body| body.parent != 0 && body.level > above(body.parent) + 1));
}

// 5.1 Hierarchy model

/// The view H_DEMO.
pub fn s5_1_h_demo(engine: &dyn Engine) {
    let view = h_demo(engine);
    view.check(
        &view.all(),
        "HIERARCHY_RANK PARENT_ID NODE_ID
         1 - A1
         2 A1 B1
         3 B1 C1
         4 B1 C2
         5 A1 B2
         6 B2 C3
         7 C3 D1
         8 C3 D2
         9 B2 C4
         10 C4 D3",
    );
}

/// The view SUBTREE_B2.
pub fn s5_1_subtree_b2(engine: &dyn Engine) {
    let view = h_demo(engine);
    view.check(
        &view.descendants(view.rank_of("B2"), ANY.0, ANY.1),
        "HIERARCHY_RANK PARENT_ID NODE_ID
         5 A1 B2
         6 B2 C3
         7 C3 D1
         8 C3 D2
         9 B2 C4
         10 C4 D3",
    );
}

// 5.2 HIERARCHY_DESCENDANTS

/// Descendants of A1, DISTANCE FROM 1 TO 2.
pub fn s5_2_distance_window(engine: &dyn Engine) {
    let view = h_demo(engine);
    view.check(
        &view.descendants(view.rank_of("A1"), 1, 2),
        "HIERARCHY_RANK HIERARCHY_LEVEL NODE_ID HIERARCHY_DISTANCE
         2 2 B1 1
         3 3 C1 2
         4 3 C2 2
         5 2 B2 1
         6 3 C3 2
         9 3 C4 2",
    );
}

/// Partial hierarchies of B1 and B2.
pub fn s5_2_two_start_nodes(engine: &dyn Engine) {
    let view = h_demo(engine);
    let mut picks = view.descendants(view.rank_of("B1"), ANY.0, ANY.1);
    picks.extend(view.descendants(view.rank_of("B2"), ANY.0, ANY.1));
    view.check(
        &by_rank(picks),
        "RANK TREE_SIZE PARENT_RANK LEVEL PARENT_ID NODE_ID DISTANCE START_RANK START_ID
         2 3 1 2 A1 B1 0 2 B1
         3 1 2 3 B1 C1 1 2 B1
         4 1 2 3 B1 C2 1 2 B1
         5 6 1 2 A1 B2 0 5 B2
         6 3 5 3 B2 C3 1 5 B2
         7 1 6 4 C3 D1 2 5 B2
         8 1 6 4 C3 D2 2 5 B2
         9 2 5 3 B2 C4 1 5 B2
         10 1 9 4 C4 D3 2 5 B2",
    );
}

/// Number of subordinate leaves of all nodes.
pub fn s5_2_subordinate_leaves(engine: &dyn Engine) {
    let view = h_demo(engine);
    let mut found = Vec::new();
    for start in view.ranks() {
        let mut leaves = view.descendants(start, ANY.0, ANY.1);
        leaves.retain(|pick| view.image.body(pick.rank).size == 1);
        for leaf in &leaves {
            found.push(format!("{start} {} {}", view.id_of(leaf.rank), leaves.len()));
        }
    }
    // The guide orders by the first column only.
    let mut expected = lines(
        "1 C1 5
         1 C2 5
         1 D1 5
         1 D2 5
         1 D3 5
         2 C1 2
         2 C2 2
         3 C1 1
         4 C2 1
         5 D3 3
         5 D2 3
         5 D1 3
         6 D1 2
         6 D2 2
         7 D1 1
         8 D2 1
         9 D3 1
         10 D3 1",
    );
    found.sort();
    expected.sort();
    assert_eq!(found, expected);
}

/// Descendants of C4 within the subtree of B2.
pub fn s5_2_in_subtree(engine: &dyn Engine) {
    let view = h_demo(engine);
    let mut picks = view.descendants(view.rank_of("C4"), ANY.0, ANY.1);
    picks.retain(|pick| view.in_span(pick.rank, view.rank_of("B2")));
    view.check(
        &picks,
        "RANK TREE_SIZE PARENT_RANK LEVEL PARENT_ID NODE_ID DISTANCE START_RANK
         9 2 5 3 B2 C4 0 9
         10 1 9 4 C4 D3 1 9",
    );
}

// 5.3 HIERARCHY_ANCESTORS

/// Ancestors of C4, ordered by node id.
pub fn s5_3_ancestors_of_c4(engine: &dyn Engine) {
    let view = h_demo(engine);
    let picks = view.ancestors(view.rank_of("C4"), ANY.0, ANY.1);
    view.check(
        &by_node_id(&view, picks),
        "HIERARCHY_RANK HIERARCHY_LEVEL NODE_ID HIERARCHY_DISTANCE
         1 1 A1 -2
         5 2 B2 -1
         9 3 C4 0",
    );
}

/// Grandparents of C1 and D1: DISTANCE -2.
pub fn s5_3_grandparents(engine: &dyn Engine) {
    let view = h_demo(engine);
    let mut picks = view.ancestors(view.rank_of("C1"), -2, -2);
    picks.extend(view.ancestors(view.rank_of("D1"), -2, -2));
    view.check(
        &picks,
        "HIERARCHY_RANK HIERARCHY_LEVEL START_ID GRANDPARENT_ID
         1 1 C1 A1
         5 2 D1 B2",
    );
}

/// Ancestors of C4 within the subtree of B2.
pub fn s5_3_in_subtree(engine: &dyn Engine) {
    let view = h_demo(engine);
    let mut picks = view.ancestors(view.rank_of("C4"), ANY.0, ANY.1);
    picks.retain(|pick| view.in_span(pick.rank, view.rank_of("B2")));
    view.check(
        &by_rank(picks),
        "RANK TREE_SIZE PARENT_RANK LEVEL PARENT_ID NODE_ID DISTANCE START_RANK
         5 6 1 2 A1 B2 -1 9
         9 2 5 3 B2 C4 0 9",
    );
}

// 5.4 HIERARCHY_SIBLINGS

/// Siblings of C4, ordered by node id.
pub fn s5_4_siblings_of_c4(engine: &dyn Engine) {
    let view = h_demo(engine);
    let picks = view.siblings(view.rank_of("C4"));
    view.check(
        &by_node_id(&view, picks),
        "HIERARCHY_RANK HIERARCHY_LEVEL NODE_ID HIERARCHY_SIBLING_DISTANCE
         6 3 C3 -3
         9 3 C4 0",
    );
}

/// Siblings of C4 within the subtree of B2.
pub fn s5_4_in_subtree(engine: &dyn Engine) {
    let view = h_demo(engine);
    let mut picks = view.siblings(view.rank_of("C4"));
    picks.retain(|pick| view.in_span(pick.rank, view.rank_of("B2")));
    view.check(
        &picks,
        "RANK TREE_SIZE PARENT_RANK LEVEL PARENT_ID NODE_ID SIBLING_DISTANCE
         6 3 5 3 B2 C3 -3
         9 2 5 3 B2 C4 0",
    );
}

// 5.5 HIERARCHY_DESCENDANTS_AGGREGATE

/// A quotient as the guide prints it: whole, or cut after six decimals.
fn average(sum: i64, count: i64) -> String {
    if sum % count == 0 {
        return (sum / count).to_string();
    }
    format!("{}.{:06}", sum / count, sum % count * 1_000_000 / count)
}

/// Hundredths as the guide prints them, at most one decimal here.
fn decimal(hundredths: i64) -> String {
    assert_eq!(hundredths % 10, 0);
    match hundredths / 10 % 10 {
        0 => (hundredths / 100).to_string(),
        tenth => format!("{}.{tenth}", hundredths / 100),
    }
}

/// The three hierarchies whose subtree sums are the example's measures: amount,
/// hundredths of the joined facts, number of joined facts. Their rows differ in
/// minutes alone, so that a pull of each row leads from the totals of one to those
/// of another.
fn measures(engine: &dyn Engine) -> [View<'_>; 3] {
    let views = [
        h_demo(engine),
        View::by_code(engine, tables::t_demo_facts(|facts| facts.iter().sum()), code(0, 0, 0)),
        View::by_code(engine, tables::t_demo_facts(|facts| facts.len() as i32), code(0, 0, 0)),
    ];
    for from in &views {
        for to in &views {
            assert_eq!(from.pulled(&to.rows), to.image.totals[..=to.image.nodes() as usize]);
        }
    }
    views
}

/// The measures of some ranks: average amount, sum, sum in hundredths, nodes, facts.
fn measured(views: &[View; 3], ranks: &[u32]) -> String {
    let sum = |view: &View| ranks.iter().map(|rank| view.subtree_sum(*rank)).sum::<i64>();
    let nodes: i64 = ranks.iter().map(|rank| views[0].image.body(*rank).size as i64).sum();
    let [amount, hundredths, facts] = [sum(&views[0]), sum(&views[1]), sum(&views[2])];
    format!("{} {} {hundredths} {nodes} {facts}", average(amount, nodes), decimal(hundredths))
}

/// Measures of all nodes with level at most 2, with subtotal and balance.
///
/// The rows NOT MATCHED and TOTAL need facts that join no node; a board holds
/// none, so they are not expressed.
pub fn s5_5_descendants_aggregate(engine: &dyn Engine) {
    let views = measures(engine);
    let h = &views[0];
    let mut found = Vec::new();
    for rank in h.ranks().into_iter().filter(|rank| h.image.body(*rank).level <= 2) {
        found.push(format!(
            "{rank} {} 0 {} {} {}",
            h.image.body(rank).level,
            h.id_of(rank),
            h.amount(rank),
            measured(&views, &[rank])
        ));
    }
    let roots: Vec<u32> = h.siblings(1).iter().map(|pick| pick.rank).collect();
    found.push(format!("- - 1 (subtotal) - {}", measured(&views, &roots)));
    // No row is left over, so the balance is nothing.
    assert!(views.iter().all(|view| view.image.left == 0));
    found.push("- - 2 (remainder) - - 0 0 0 0".to_string());
    assert_eq!(
        found,
        lines(
            "1 1 0 A1 1 2 40.1 4010 10 10
             2 2 0 B1 2 2 8.2 820 3 2
             5 2 0 B2 4 2.166666 26.6 2660 6 7
             - - 1 (subtotal) - 2 40.1 4010 10 10
             - - 2 (remainder) - - 0 0 0 0"
        )
    );
}

/// The same by descendants and plain aggregation, without the row of facts that
/// join no node.
pub fn s5_5_by_descendants(engine: &dyn Engine) {
    let views = measures(engine);
    let h = &views[0];
    let mut found = Vec::new();
    for start in h.ranks().into_iter().filter(|rank| h.image.body(*rank).level <= 2) {
        let picks = h.descendants(start, ANY.0, ANY.1);
        let sum = |view: &View| picks.iter().map(|pick| view.amount(pick.rank) as i64).sum::<i64>();
        let nodes = picks.len() as i64;
        found.push(format!(
            "{start} {} {} {} {} {} {} {nodes} {}",
            h.image.body(start).level,
            h.id_of(start),
            h.amount(start),
            average(sum(h), nodes),
            decimal(sum(&views[1])),
            sum(&views[1]),
            sum(&views[2]),
        ));
    }
    assert_eq!(
        found,
        lines(
            "1 1 A1 1 2 40.1 4010 10 10
             2 2 B1 2 2 8.2 820 3 2
             5 2 B2 4 2.166666 26.6 2660 6 7"
        )
    );
}

// 5.6 HIERARCHY_ANCESTORS_AGGREGATE

/// Product and path of C3 and D1 from B2, formed over the listed ancestors.
pub fn s5_6_ancestors_aggregate(engine: &dyn Engine) {
    let view = h_demo(engine);
    let start = view.rank_of("B2");
    let mut found = Vec::new();
    for node in ["C3", "D1"] {
        let rank = view.rank_of(node);
        let body = view.image.body(rank);
        let up = view.image.body(start).level as i32 - body.level as i32;
        let chain = view.ancestors(rank, up, 0);
        let product: i32 = chain.iter().map(|pick| view.amount(pick.rank)).product();
        let parent = id(view.rows[body.row as usize - 1].parent);
        let path = view.path(rank, Some(start));
        found.push(format!(
            "{rank} {} {parent} {node} {} {product} {path}",
            body.level,
            view.amount(rank)
        ));
        // The path sum runs up to the root A1, one level above the start.
        let sum: i64 = chain.iter().map(|pick| view.amount(pick.rank) as i64).sum();
        assert_eq!(view.path_sum(rank), sum + view.path_sum(1));
    }
    assert_eq!(
        found,
        lines(
            "6 3 B2 C3 1 4 B2/C3
             7 4 C3 D1 2 8 B2/C3/D1"
        )
    );
}

// 5.7 Custom navigations

/// The subtree of B2, by function and by attribute arithmetic.
pub fn s5_7_subtree(engine: &dyn Engine) {
    let view = h_demo(engine);
    let start = view.rank_of("B2");
    let size = view.image.body(start).size;
    let picks = view.descendants(start, ANY.0, ANY.1);
    let by_arithmetic: Vec<Pick> = (start..start + size).map(|rank| Pick { rank, start }).collect();
    assert_eq!(picks, by_arithmetic);
    view.check(
        &picks,
        "RANK TREE_SIZE PARENT_RANK LEVEL PARENT_ID NODE_ID DISTANCE START_RANK
         5 6 1 2 A1 B2 0 5
         6 3 5 3 B2 C3 1 5
         7 1 6 4 C3 D1 2 5
         8 1 6 4 C3 D2 2 5
         9 2 5 3 B2 C4 1 5
         10 1 9 4 C4 D3 2 5",
    );
}

/// The children of B2, by function and by parent rank.
pub fn s5_7_children(engine: &dyn Engine) {
    let view = h_demo(engine);
    let start = view.rank_of("B2");
    let mut by_parent: Vec<Pick> = view.all();
    by_parent.retain(|pick| view.image.body(pick.rank).parent == start);
    by_parent.iter_mut().for_each(|pick| pick.start = start);
    for picks in [view.descendants(start, 1, 1), by_parent] {
        view.check(
            &picks,
            "RANK TREE_SIZE PARENT_RANK LEVEL PARENT_ID NODE_ID DISTANCE START_RANK
             6 3 5 3 B2 C3 1 5
             9 2 5 3 B2 C4 1 5",
        );
    }
}

/// The leaves below B1 and B2 (B3 is no node), by function and by arithmetic.
pub fn s5_7_leaves(engine: &dyn Engine) {
    let view = h_demo(engine);
    let mut by_function = Vec::new();
    let mut by_arithmetic = Vec::new();
    for start in [view.rank_of("B1"), view.rank_of("B2")] {
        by_function.extend(view.descendants(start, ANY.0, ANY.1));
        let end = start + view.image.body(start).size;
        by_arithmetic.extend((start..end).map(|rank| Pick { rank, start }));
    }
    for mut picks in [by_function, by_arithmetic] {
        picks.retain(|pick| view.image.body(pick.rank).size == 1);
        view.check(
            &picks,
            "HIERARCHY_RANK START_ID LEAF_ID
             3 B1 C1
             4 B1 C2
             7 B2 D1
             8 B2 D2
             10 B2 D3",
        );
    }
}

/// Members of level 2.
pub fn s5_7_level_members(engine: &dyn Engine) {
    let view = h_demo(engine);
    let mut picks = view.all();
    picks.retain(|pick| view.image.body(pick.rank).level == 2);
    view.check(
        &picks,
        "HIERARCHY_RANK NODE_ID
         2 B1
         5 B2",
    );
}

/// The parent of D3, by function and by arithmetic.
pub fn s5_7_parents(engine: &dyn Engine) {
    let view = h_demo(engine);
    let start = view.rank_of("D3");
    let mut by_arithmetic = view.all();
    by_arithmetic.retain(|pick| {
        let above = view.image.body(pick.rank);
        pick.rank <= start
            && start < pick.rank + above.size
            && view.image.body(start).level == above.level + 1
    });
    for picks in [view.ancestors(start, -1, -1), by_arithmetic] {
        view.check(&picks, "HIERARCHY_RANK NODE_ID\n9 C4");
    }
}

/// The roots of H_DEMO_ERR: siblings of rank 1.
pub fn s5_7_roots(engine: &dyn Engine) {
    let view = h_demo_err(engine);
    view.check(
        &view.siblings(1),
        "RANK PARENT_RANK LEVEL PARENT_ID NODE_ID SIBLING_DISTANCE START_RANK
         1 0 1 - E1 0 1
         6 0 1 - E2 5 1
         13 0 1 - E3 12 1",
    );
}

/// First and previous sibling of C2.
pub fn s5_7_first_and_previous_sibling(engine: &dyn Engine) {
    let view = h_demo(engine);
    let start = view.rank_of("C2");
    let picks = view.siblings(start);
    let first = picks.iter().min_by_key(|pick| pick.rank).unwrap();
    let previous = picks.iter().filter(|p| p.rank < start).max_by_key(|p| p.rank).unwrap();
    for pick in [first, previous] {
        view.check(&[*pick], "HIERARCHY_RANK NODE_ID\n3 C1");
    }
}

/// Next and last sibling of B1.
pub fn s5_7_next_and_last_sibling(engine: &dyn Engine) {
    let view = h_demo(engine);
    let start = view.rank_of("B1");
    let picks = view.siblings(start);
    let next = picks.iter().filter(|p| p.rank > start).min_by_key(|p| p.rank).unwrap();
    let last = picks.iter().max_by_key(|pick| pick.rank).unwrap();
    for pick in [next, last] {
        view.check(&[*pick], "HIERARCHY_RANK NODE_ID\n5 B2");
    }
}

/// Nodes following B1.
pub fn s5_7_following_nodes(engine: &dyn Engine) {
    let view = h_demo(engine);
    let start = view.rank_of("B1");
    let mut picks = view.all();
    picks.retain(|pick| pick.rank >= start + view.image.body(start).size);
    view.check(
        &picks,
        "HIERARCHY_RANK NODE_ID
         5 B2
         6 C3
         7 D1
         8 D2
         9 C4
         10 D3",
    );
}

/// Nodes preceding B2.
pub fn s5_7_preceding_nodes(engine: &dyn Engine) {
    let view = h_demo(engine);
    let start = view.rank_of("B2");
    let mut picks = view.all();
    picks.retain(|pick| pick.rank + view.image.body(pick.rank).size <= start);
    view.check(
        &picks,
        "HIERARCHY_RANK NODE_ID
         2 B1
         3 C1
         4 C2",
    );
}

// 8.1 Further attributes

/// IS_LEAF and IS_ROOT: node id, is leaf, is root.
pub fn s8_1_is_leaf_and_is_root(engine: &dyn Engine) {
    let view = h_demo(engine);
    let flags = |rank: u32| {
        let body = view.image.body(rank);
        format!("{} {} {}", view.id_of(rank), (body.size == 1) as u32, (body.parent == 0) as u32)
    };
    let found: Vec<String> = view.ranks().into_iter().map(flags).collect();
    let expected = lines(
        "A1 0 1
         B1 0 0
         C1 1 0
         C2 1 0
         B2 0 0
         C3 0 0
         D1 1 0
         D2 1 0
         C4 0 0
         D3 1 0",
    );
    assert_eq!(found, expected);
}

/// DRILL_STATE with ranks 3 and 4 filtered out.
pub fn s8_1_drill_state(engine: &dyn Engine) {
    let view = h_demo(engine);
    let ranks: Vec<u32> = view.ranks().into_iter().filter(|rank| ![3, 4].contains(rank)).collect();
    let mut found = Vec::new();
    for (place, rank) in ranks.iter().enumerate() {
        let size = view.image.body(*rank).size;
        let state = if size == 1 {
            "L"
        } else if ranks.get(place + 1) == Some(&(rank + size)) {
            "C"
        } else {
            "E"
        };
        found.push(format!("{} {state}", view.id_of(*rank)));
    }
    assert_eq!(found, lines("A1 E\nB1 C\nB2 E\nC3 E\nD1 L\nD2 L\nC4 E\nD3 L"));
}

/// Postorder rank.
pub fn s8_1_postorder_rank(engine: &dyn Engine) {
    let view = h_demo(engine);
    let mut order = view.ranks();
    order.sort_by_key(|rank| (rank + view.image.body(*rank).size, u32::MAX - rank));
    let place = |rank: u32| order.iter().position(|other| *other == rank).unwrap() + 1;
    let found: Vec<String> = view
        .ranks()
        .into_iter()
        .map(|rank| format!("{} {}", view.id_of(rank), place(rank)))
        .collect();
    assert_eq!(found, lines("A1 10\nB1 3\nC1 1\nC2 2\nB2 9\nC3 6\nD1 4\nD2 5\nC4 8\nD3 7"));
}

const PATHS: &str = "A1 A1
     B1 A1/B1
     B2 A1/B2
     C1 A1/B1/C1
     C2 A1/B1/C2
     C3 A1/B2/C3
     C4 A1/B2/C4
     D1 A1/B2/C3/D1
     D2 A1/B2/C3/D2
     D3 A1/B2/C4/D3";

/// Paths, by ancestors.
pub fn s8_1_path(engine: &dyn Engine) {
    let view = h_demo(engine);
    let mut found: Vec<String> = view
        .ranks()
        .into_iter()
        .map(|rank| format!("{} {}", view.id_of(rank), view.path(rank, None)))
        .collect();
    found.sort();
    assert_eq!(found, lines(PATHS));
}

/// Paths, by a second hierarchy over the ranks of the first, siblings ordered by
/// those ranks.
pub fn s8_1_path_by_two_hierarchies(engine: &dyn Engine) {
    let view = h_demo(engine);
    let rows: Vec<Row> = view
        .ranks()
        .into_iter()
        .map(|rank| Row::undated(view.image.body(rank).parent, rank, 0, 0))
        .collect();
    let second = View::by_code(engine, unordered(rows), code(0, 0, 0));
    let mut found: Vec<String> = second
        .ranks()
        .into_iter()
        .map(|rank| second.image.body(rank).numeral)
        .map(|first| format!("{} {}", view.id_of(first), view.path(first, None)))
        .collect();
    found.sort();
    assert_eq!(found, lines(PATHS));
    for rank in view.ranks() {
        let (a, b) = (view.image.body(rank), second.image.body(rank));
        assert_eq!((a.size, a.parent, a.root, a.level), (b.size, b.parent, b.root, b.level));
        assert_eq!(b.numeral, rank);
    }
}

/// Root id and root size of each node of H_DEMO_ERR.
pub fn s8_1_root(engine: &dyn Engine) {
    let view = h_demo_err(engine);
    let root = |rank: u32| {
        let root = view.image.body(rank).root;
        format!("{} {} {}", view.id_of(rank), view.id_of(root), view.image.body(root).size)
    };
    let found: Vec<String> = view.ranks().into_iter().map(root).collect();
    let expected = lines(
        "E1 E1 5
         F1 E1 5
         G1 E1 5
         F2 E1 5
         G1 E1 5
         E2 E2 7
         F3 E2 7
         G2 E2 7
         H1 E2 7
         F4 E2 7
         G2 E2 7
         H1 E2 7
         E3 E3 6
         F5 E3 6
         G3 E3 6
         H1 E3 6
         H2 E3 6
         F5 E3 6",
    );
    assert_eq!(found, expected);
}

/// The following node of each node.
pub fn s8_1_following_node(engine: &dyn Engine) {
    let view = h_demo(engine);
    let following = |rank: u32| {
        let next = rank + view.image.body(rank).size;
        if next <= view.image.nodes() {
            view.id_of(next)
        } else {
            "-".to_string()
        }
    };
    let found: Vec<String> = view
        .ranks()
        .into_iter()
        .map(|rank| format!("{} {}", view.id_of(rank), following(rank)))
        .collect();
    let expected = "A1 -\nB1 B2\nC1 C2\nC2 B2\nB2 -\nC3 C4\nD1 D2\nD2 C4\nC4 -\nD3 -";
    assert_eq!(found, lines(expected));
}

// 8.2 Parametrized hierarchies

/// Tree 1 from E1 and tree 2 from F3.
pub fn s8_2_parametrized(engine: &dyn Engine) {
    let start = [numeral("E1")];
    let view = View::new(engine, t_demo_err(&[1]), code(0, 0, 0), None, Start::Numerals(&start));
    view.check(
        &view.all(),
        "HIERARCHY_RANK HIERARCHY_LEVEL PARENT_ID NODE_ID
         1 1 - E1
         2 2 E1 F1
         3 3 F1 G1
         4 2 E1 F2
         5 3 F2 G1",
    );
    let start = [numeral("F3")];
    let view = View::new(engine, t_demo_err(&[2]), code(0, 0, 0), None, Start::Numerals(&start));
    view.check(
        &view.all(),
        "HIERARCHY_RANK HIERARCHY_LEVEL PARENT_ID NODE_ID
         1 1 E2 F3
         2 2 F3 G2
         3 3 G2 H1",
    );
}

// 8.3 Unclean source data

/// An orphan collector SP behind the other rows, start from B2 and SP, ORPHAN ADOPT.
pub fn s8_3_orphan_collector(engine: &dyn Engine) {
    // Ordered by source (1, then 2), then by ord.
    let mut rows: Vec<Row> =
        t_demo().iter().map(|row| Row { order: 1_000 + row.order, ..*row }).collect();
    rows.push(Row::undated(0, numeral("SP"), 2_001, 0));
    let start = [numeral("B2"), numeral("SP")];
    let view = View::new(engine, rows, code(2, 0, 0), None, Start::Numerals(&start));
    view.check(
        &view.all(),
        "RANK LEVEL IS_ORPHAN PARENT_ID NODE_ID
         1 1 0 A1 B2
         2 2 0 B2 C3
         3 3 0 C3 D1
         4 3 0 C3 D2
         5 2 0 B2 C4
         6 3 0 C4 D3
         7 1 0 - SP
         8 2 1 - A1
         9 3 1 A1 B1
         10 4 1 B1 C1
         11 4 1 B1 C2",
    );
}

/// The recipe for cycles, printed without a table: the ancestors of a closing
/// node hold one with its node id.
pub fn s8_3_cycle_reconstruction(engine: &dyn Engine) {
    let view = h_demo_err(engine);
    let closing: Vec<u32> =
        view.ranks().into_iter().filter(|rank| view.image.body(*rank).closing).collect();
    assert_eq!(closing, [18]);
    let chain = view.ancestors(18, i32::MIN, -1);
    let found = chain.iter().find(|pick| view.id_of(pick.rank) == view.id_of(18)).unwrap();
    assert_eq!((found.rank, view.id_of(found.rank)), (14, "F5".to_string()));
}

/// The remedy for multiple parents, printed without a table: "each NODE_ID value is only reached once
/// during traversal and all further edges leading to that node are ignored". H_DEMO_ERR has 18 nodes
/// of 13 ids, the spanning tree one of each id.
pub fn s8_3_spanning_tree(engine: &dyn Engine) {
    let ids = |view: &View| -> Vec<u32> {
        let mut ids: Vec<u32> = view.image.bodies().iter().map(|body| body.numeral).collect();
        ids.sort();
        ids
    };
    let mut once = ids(&h_demo_err(engine));
    assert_eq!(once.len(), 18);
    once.dedup();
    let view = View::shortest(engine, t_demo_err(&[0, 1, 2, 3]), Start::ParentZero);
    assert_eq!((ids(&view), once.len()), (once.clone(), 13));
    assert!(view.image.bodies().iter().all(|body| !body.closing && !body.orphan));
    // The edges ignored: F2 G1, F4 G2, G3 H1, H2 F5; and the orphan E4 F6.
    assert_eq!(view.image.left, 18 - 13);
}

// 8.4 Generic graph topologies

/// Sum of a limited query: start from B2, DEPTH 2, no order of siblings.
pub fn s8_4_limited_query(engine: &dyn Engine) {
    let start = [numeral("B2")];
    let rows = unordered(t_demo());
    let view = View::new(engine, rows, code(0, 0, 0), Some(2), Start::Numerals(&start));
    let sum: i64 = view.ranks().into_iter().map(|rank| view.amount(rank) as i64).sum();
    assert_eq!(sum, 13);
    assert_eq!(view.subtree_sum(1), 13);
    assert_eq!(view.image.totals[view.image.nodes() as usize], 13);
}

/// Sum of a partial tree of the complete hierarchy, no order of siblings.
pub fn s8_4_partial_tree(engine: &dyn Engine) {
    let view = View::by_code(engine, unordered(t_demo()), code(0, 0, 0));
    assert_eq!(view.subtree_sum(view.rank_of("B2")), 13);
}

// 8.5 Source topology quirks

/// Nodes of H_DEMO_ERR multiplied due to multiple parents.
pub fn s8_5_multiplied_nodes(engine: &dyn Engine) {
    let view = h_demo_err(engine);
    let bodies = view.image.bodies();
    let mut picks = view.all();
    picks.retain(|pick| {
        let own = view.image.body(pick.rank).numeral;
        bodies.iter().filter(|body| body.numeral == own).count() > 1
    });
    view.check(
        &picks,
        "HIERARCHY_RANK PARENT_ID NODE_ID
         3 F1 G1
         5 F2 G1
         8 F3 G2
         9 G2 H1
         11 F4 G2
         12 G2 H1
         14 E3 F5
         16 G3 H1
         18 H2 F5",
    );
}

/// The number of roots of T_DEMO_ERR, by the siblings of rank 1.
pub fn s8_5_number_of_roots(engine: &dyn Engine) {
    let view = h_demo_err(engine);
    assert_eq!(view.siblings(1).len(), 3);
}

/// The orphaned top level nodes of T_DEMO_ERR, by ORPHAN ROOT.
pub fn s8_5_top_level_orphans(engine: &dyn Engine) {
    let rows = t_demo_err(&[0, 1, 2, 3]);
    let view = View::by_code(engine, rows, code(3, 0, 0));
    let mut picks = view.all();
    picks.retain(|pick| {
        let body = view.image.body(pick.rank);
        body.orphan && body.parent == 0
    });
    view.check(&picks, "PARENT_ID NODE_ID\nE4 F6");
}

// 8.6 Composite node identifiers

/// Joined identifiers, start from the rows below X1.
pub fn s8_6_composite_identifiers(engine: &dyn Engine) {
    let start = [numeral("Y1"), numeral("Y2")];
    let view =
        View::new(engine, tables::t_demo_composite(), code(0, 0, 0), None, Start::Numerals(&start));
    view.check(
        &view.all(),
        "RANK LEVEL PARENT_ID NODE_ID
         1 1 X1 Y1
         2 1 X1 Y2",
    );
}

// 8.7 Connectivity tests

/// Pairs of a B node and a D node, by attributes and by descendants.
pub fn s8_7_connectivity(engine: &dyn Engine) {
    let view = h_demo(engine);
    let like = |letter: char| {
        let mut picks = view.all();
        picks.retain(|pick| view.id_of(pick.rank).starts_with(letter));
        picks
    };
    let within = |rank: u32, of: u32| of <= rank && rank < of + view.image.body(of).size;
    let mut by_attributes = Vec::new();
    let mut by_descendants = Vec::new();
    for b in like('B') {
        let below = view.descendants(b.rank, ANY.0, ANY.1);
        for d in like('D') {
            let pair = format!("{} {}", view.id_of(b.rank), view.id_of(d.rank));
            if within(d.rank, b.rank) || within(b.rank, d.rank) {
                by_attributes.push(pair.clone());
            }
            if below.iter().any(|pick| pick.rank == d.rank) {
                by_descendants.push(pair);
            }
        }
    }
    let expected = lines("B2 D1\nB2 D2\nB2 D3");
    assert_eq!(by_attributes, expected);
    assert_eq!(by_descendants, expected);
}

// 8.8 Nearest common ancestor

/// The printed query: of all nodes WHERE hierarchy_rank <= MIN(nrank) AND hierarchy_rank +
/// hierarchy_tree_size > MAX(nrank), the TOP 1 by hierarchy_rank DESC.
fn top_common_ancestor(view: &View, a: u32, b: u32) -> Option<u32> {
    let mut found = view.ranks();
    found.retain(|rank| *rank <= a.min(b) && rank + view.image.body(*rank).size > a.max(b));
    found.sort_by_key(|rank| Reverse(*rank));
    found.first().copied()
}

/// The nearest common ancestor of D1 and D3 in a spanning tree: by ancestors and span, by the printed
/// query, and by the engine's meeting. The last two agree of every two nodes, also where the query
/// gives no row: between the trees of B1 and B2 as start nodes.
pub fn s8_8_nearest_common_ancestor(engine: &dyn Engine) {
    let start = [numeral("A1")];
    let view = View::shortest(engine, t_demo(), Start::Numerals(&start));
    let (low, high) = (view.rank_of("D1"), view.rank_of("D3"));
    let above = view.ancestors(low, ANY.0, ANY.1);
    let by_span = above.iter().map(|pick| pick.rank).find(|rank| view.in_span(high, *rank));
    for found in [by_span, top_common_ancestor(&view, low, high), view.meet(low, high)] {
        let nearest = found.expect("a common ancestor");
        let pick = Pick { rank: nearest, start: low };
        view.check(&[pick], "HIERARCHY_RANK HIERARCHY_LEVEL NODE_ID\n5 2 B2");
    }
    let starts = [numeral("B1"), numeral("B2")];
    let apart = View::shortest(engine, t_demo(), Start::Numerals(&starts));
    assert_eq!(apart.meet(apart.rank_of("C1"), apart.rank_of("D1")), None);
    for view in [view, apart] {
        for a in view.ranks() {
            for b in view.ranks() {
                assert_eq!(view.meet(a, b), top_common_ancestor(&view, a, b), "{a} and {b}");
            }
        }
    }
}

// 8.9 Synthetic test data

/// The first ten of 100 nodes with four children to a branch.
pub fn s8_9_synthetic_data(engine: &dyn Engine) {
    let mut view = View::by_code(engine, tables::synthetic(), code(0, 0, 0));
    view.name = |number| if number == 0 { "-".to_string() } else { number.to_string() };
    assert_eq!(view.image.nodes(), 100);
    view.check(
        &view.all()[..10],
        "RANK TREE_SIZE PARENT_RANK LEVEL IS_CYCLE IS_ORPHAN NODE_ID PARENT_ID
         1 37 0 1 0 0 1 -
         2 21 1 2 0 0 5 1
         3 5 2 3 0 0 21 5
         4 1 3 4 0 0 85 21
         5 1 3 4 0 0 86 21
         6 1 3 4 0 0 87 21
         7 1 3 4 0 0 88 21
         8 5 2 3 0 0 22 5
         9 1 8 4 0 0 89 22
         10 1 8 4 0 0 90 22",
    );
}

// 8.10 Dates

/// The first ten rows of a hierarchy of dates. They are of 2016, whose 366 lines are a list; the
/// guide's source has those of 2017 too, and so many are refused.
///
/// Months are text and come by the alphabet, as the guide prints them; it orders by the day alone.
pub fn s8_10_dates(engine: &dyn Engine) {
    let source = dates(&[2_016, 2_017]);
    assert_eq!(source.lines.len(), 731);
    assert_eq!(engine.build_levelled(&source.cells(), source.width()), Err(19));

    let source = dates(&[2_016]);
    assert_eq!(source.lines.len(), 366);
    let view = LevelledView::new(engine, source, date_name);
    assert_eq!(view.image.nodes(), 1 + 4 + 12 + 366);
    view.check(
        &view.ranks()[..10],
        "RANK LEVEL NODE_ID PARENT_ID LEVEL_NAME YEAR QUARTER MONTH DAY
         1 1 2016 - YEAR 2016 - - -
         2 2 Q1 2016 QUARTER 2016 Q1 - -
         3 3 FEBRUARY Q1 MONTH 2016 Q1 FEBRUARY -
         4 4 1 FEBRUARY DAY 2016 Q1 FEBRUARY 1
         5 4 2 FEBRUARY DAY 2016 Q1 FEBRUARY 2
         6 4 3 FEBRUARY DAY 2016 Q1 FEBRUARY 3
         7 4 4 FEBRUARY DAY 2016 Q1 FEBRUARY 4
         8 4 5 FEBRUARY DAY 2016 Q1 FEBRUARY 5
         9 4 6 FEBRUARY DAY 2016 Q1 FEBRUARY 6
         10 4 7 FEBRUARY DAY 2016 Q1 FEBRUARY 7",
    );
}

// 8.11 Drill-down

/// The roots, then a drill-down on rank 1.
pub fn s8_11_drill_down(engine: &dyn Engine) {
    let view = h_demo(engine);
    let mut shown: Vec<Pick> = Vec::new();
    for root in view.siblings(1) {
        shown.extend(view.descendants(root.rank, 0, 0));
    }
    let header = "RANK TREE_SIZE PARENT_RANK LEVEL PARENT_ID NODE_ID";
    view.check(&shown, &format!("{header}\n1 10 0 1 - A1"));
    shown.extend(view.descendants(1, 1, 1));
    view.check(&shown, &format!("{header}\n1 10 0 1 - A1\n2 3 1 2 A1 B1\n5 6 1 2 A1 B2"));
    shown.retain(|pick| view.image.body(pick.rank).parent != 1);
    view.check(&shown, &format!("{header}\n1 10 0 1 - A1"));
}

// 8.12 Visualizing

/// The graphviz lines of the nodes, ordered as the guide orders them.
pub fn s8_12_graphviz(engine: &dyn Engine) {
    let view = h_demo(engine);
    let line = |rank: u32| {
        let parent = view.image.body(rank).parent;
        let label = format!("{rank} [label=\"{}\"];", view.id_of(rank));
        if parent == 0 {
            (1, label)
        } else {
            (2, format!("{parent} -> {rank}; {label}"))
        }
    };
    let mut found: Vec<(u32, String)> = view.ranks().into_iter().map(line).collect();
    found.sort();
    let found: Vec<String> = found.into_iter().map(|(_, text)| text).collect();
    let expected = lines(
        "1 [label=\"A1\"];
         1 -> 2; 2 [label=\"B1\"];
         1 -> 5; 5 [label=\"B2\"];
         2 -> 3; 3 [label=\"C1\"];
         2 -> 4; 4 [label=\"C2\"];
         5 -> 6; 6 [label=\"C3\"];
         5 -> 9; 9 [label=\"C4\"];
         6 -> 7; 7 [label=\"D1\"];
         6 -> 8; 8 [label=\"D2\"];
         9 -> 10; 10 [label=\"D3\"];",
    );
    assert_eq!(found, expected);
}

// What the guide leaves open

/// Equal orders: the smaller numeral comes first, then the smaller row number.
pub fn deviation_ties(engine: &dyn Engine) {
    // By row number B2 would come before B1, and so on all over the tree.
    let view = View::by_code(engine, unordered(t_demo()), code(0, 0, 0));
    view.check(
        &view.all(),
        "RANK NODE_ID
         1 A1
         2 B1
         3 C1
         4 C2
         5 B2
         6 C3
         7 D1
         8 D2
         9 C4
         10 D3",
    );

    // B1 below A1 twice: amount 5 was entered before amount 2, and B2 before both.
    let row = |parent, node, amount| Row::undated(numeral(parent), numeral(node), 7, amount);
    let rows = vec![row("A1", "B2", 4), row("A1", "B1", 5), row("A1", "B1", 2), row("-", "A1", 1)];
    let view = View::by_code(engine, rows, code(0, 0, 0));
    view.check(
        &view.all(),
        "RANK NODE_ID AMOUNT
         1 A1 1
         2 B1 5
         3 B1 2
         4 B2 4",
    );

    // The last start row by numeral, B2, adopts; by row number it is B1.
    let start = [numeral("B1"), numeral("B2")];
    let rows = unordered(t_demo());
    let view = View::new(engine, rows, code(2, 0, 0), None, Start::Numerals(&start));
    let adopter = view.image.body(view.rank_of("A1")).parent;
    assert_eq!(view.id_of(adopter), "B2");
}

/// Orphans of which nothing is said. The guide (3.1): "Orphans are silently ignored. This is the default
/// behavior." So F6 of T_DEMO_ERR, below an E4 that isn't there, is left over. The build by default makes
/// it a root behind the guide's nodes, which stay as they are.
pub fn deviation_default(engine: &dyn Engine) {
    let rows = t_demo_err(&[0, 1, 2, 3]);
    let guide = View::by_code(engine, rows.clone(), code(0, 0, 0));
    assert_eq!((guide.image.nodes(), guide.image.left), (18, 1));
    let view = View::by_default(engine, rows);
    assert_eq!((view.image.nodes(), view.image.left), (19, 0));
    assert_eq!(view.image.bodies()[..18], guide.image.bodies());
    view.check(
        &view.all()[18..],
        "RANK TREE_SIZE PARENT_RANK LEVEL ROOT_RANK IS_CYCLE IS_ORPHAN PARENT_ID NODE_ID
         19 1 0 1 19 0 1 E4 F6",
    );
}

/// The spanning tree of T_DEMO_ERR from all start nodes at once: H1, which the guide prints below E2
/// and below E3, on level 4 both times, stands below E2 alone, the first in path order. Its second line
/// is the only one of the guide's table that is missing; the trees of E3, F5 and G3 are smaller by one.
pub fn deviation_spanning_tree(engine: &dyn Engine) {
    let printed = "RANK TREE_SIZE PARENT_RANK ROOT_RANK LEVEL PARENT_ID NODE_ID TREE
                   1 4 0 1 1 - E1 1
                   2 2 1 1 2 E1 F1 1
                   3 1 2 1 3 F1 G1 1
                   4 1 1 1 2 E1 F2 1
                   5 5 0 5 1 - E2 2
                   6 3 5 5 2 E2 F3 2
                   7 2 6 5 3 F3 G2 2
                   8 1 7 5 4 G2 H1 2
                   9 1 5 5 2 E2 F4 2
                   10 4 0 10 1 - E3 3
                   11 3 10 10 2 E3 F5 3
                   12 2 11 10 3 F5 G3 3
                   13 1 12 10 4 G3 H2 3";
    let rows = t_demo_err(&[0, 1, 2, 3]);
    let view = View::shortest(engine, rows.clone(), Start::ParentZero);
    view.check(&view.all(), printed);
    assert_eq!(view.image.left, 5);
    let roots = [numeral("E3"), numeral("E1"), numeral("E2")];
    let by_list = View::shortest(engine, rows, Start::Numerals(&roots));
    by_list.check(&by_list.all(), printed);
    assert_eq!(by_list.image.left, 5);
}

/// Lines that the guide doesn't mention: equal ones have the same nodes, wholly NULL ones none, and
/// both count in the row number. A list of more than eight columns is refused.
pub fn deviation_levelled_lines(engine: &dyn Engine) {
    let mut source = t_demo_lvl(&["LEVEL_1", "LEVEL_2", "LEVEL_3", "LEVEL_4"]);
    source.lines.insert(0, vec![0; 6]);
    source.lines = [source.lines.clone(), source.lines].concat();
    let view = LevelledView::new(engine, source, cell_name);
    assert_eq!((view.image.nodes(), view.image.left), (8, 2));
    let lines: Vec<u32> = view.image.bodies().iter().map(|body| body.row).collect();
    assert_eq!(lines, [1, 1, 1, 1, 3, 5, 7, 7]);

    assert_eq!(engine.build_levelled(&[1; 9], 9), Err(18));
}
