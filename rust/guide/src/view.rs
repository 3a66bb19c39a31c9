//! A built hierarchy, and the comparison with a printed table.

use crate::tables::{date, id, numeral, tree};
use crate::{Engine, Image};
use reference::{Asked, Row, Start};

/// A hierarchy over some rows.
pub struct View<'a> {
    pub engine: &'a dyn Engine,
    pub rows: Vec<Row>,
    pub image: Image,
    /// The first and the last day of each node, of a dated build alone.
    pub days: Vec<u32>,
    /// Names a numeral.
    pub name: fn(u32) -> String,
    /// Names the upper bound of a last day: its date, or the next where the bound is excluded.
    pub until: fn(u32) -> String,
}

/// A result row: a node, and the start node it was found from.
#[derive(Clone, Copy, Debug, PartialEq, Eq)]
pub struct Pick {
    pub rank: u32,
    pub start: u32,
}

/// The option code.
pub fn code(orphan: u32, multi: u32, cycle: u32) -> u32 {
    orphan + 4 * multi + 12 * cycle
}

/// The lines of a printed table, spaces made single.
pub fn lines(printed: &str) -> Vec<String> {
    let single = |line: &str| line.split_whitespace().collect::<Vec<_>>().join(" ");
    printed.trim().lines().map(single).collect()
}

/// The ranks to which a climber comes from a node, itself included, call by call up to its root: all
/// its ancestors, nearest first.
pub fn climb(engine: &dyn Engine, index: &[u32], start: u32) -> Vec<u32> {
    let (mut ranks, mut at) = (vec![start], start);
    while let Some(parent) = engine.climb(index, at).expect("climb accepted") {
        assert!(parent < at, "climb from {at}");
        ranks.push(parent);
        at = parent;
    }
    let found = engine.ancestors(index, start, i32::MIN, i32::MAX);
    let (all, links) = found.expect("ancestors accepted");
    assert_eq!(ranks, all, "climb from {start}");
    assert_eq!(links as usize + 1, all.len(), "links of {start}");
    ranks
}

impl<'a> View<'a> {
    /// Builds a view; its index must pass the index check.
    pub fn new(
        engine: &'a dyn Engine,
        rows: Vec<Row>,
        code: u32,
        depth: Option<i32>,
        start: Start,
    ) -> View<'a> {
        let image = engine.build(&rows, code, depth, start);
        View::of(engine, rows, image)
    }

    /// Builds from the rows with parent 0, without a depth.
    pub fn by_code(engine: &'a dyn Engine, rows: Vec<Row>, code: u32) -> View<'a> {
        View::new(engine, rows, code, None, Start::ParentZero)
    }

    /// Builds by the engine's default, which isn't the guide's.
    pub fn by_default(engine: &'a dyn Engine, rows: Vec<Row>) -> View<'a> {
        let image = engine.build_default(&rows);
        View::of(engine, rows, image)
    }

    /// Builds a spanning tree.
    pub fn shortest(engine: &'a dyn Engine, rows: Vec<Row>, start: Start) -> View<'a> {
        let image = engine.build_shortest(&rows, start);
        View::of(engine, rows, image)
    }

    /// Builds for a window.
    pub fn dated(engine: &'a dyn Engine, rows: Vec<Row>, asked: Asked) -> View<'a> {
        let built = engine.build_dated(&rows, asked).expect("build accepted");
        let view = View::of(engine, rows, Ok(built.image));
        View { days: built.days, ..view }
    }

    fn of(engine: &'a dyn Engine, rows: Vec<Row>, built: Result<Image, u32>) -> View<'a> {
        let image = built.expect("build accepted");
        assert!(engine.index_check(&image.index), "index check");
        View { engine, rows, image, days: Vec::new(), name: id, until: date }
    }

    /// All ranks.
    pub fn ranks(&self) -> Vec<u32> {
        (1..=self.image.nodes()).collect()
    }

    /// All nodes, each its own start.
    pub fn all(&self) -> Vec<Pick> {
        self.ranks().into_iter().map(|rank| Pick { rank, start: rank }).collect()
    }

    /// The one rank of a node id.
    pub fn rank_of(&self, id: &str) -> u32 {
        let ranks = self.ranks();
        let found: Vec<u32> = ranks
            .into_iter()
            .filter(|rank| self.image.body(*rank).numeral == numeral(id))
            .collect();
        assert_eq!(found.len(), 1, "one rank of {id}");
        found[0]
    }

    /// The node id of a rank.
    pub fn id_of(&self, rank: u32) -> String {
        (self.name)(self.image.body(rank).numeral)
    }

    /// Descendants of a start node within the limits.
    pub fn descendants(&self, start: u32, lower: i32, upper: i32) -> Vec<Pick> {
        let ranks = self.engine.descendants(&self.image.index, start, lower, upper);
        ranks.expect("descendants accepted").into_iter().map(|rank| Pick { rank, start }).collect()
    }

    /// Ancestors of a start node within the limits, nearest first; all of them by a climber, too.
    pub fn ancestors(&self, start: u32, lower: i32, upper: i32) -> Vec<Pick> {
        let found = self.engine.ancestors(&self.image.index, start, lower, upper);
        let (ranks, links) = found.expect("ancestors accepted");
        assert_eq!(links + 1, self.image.body(start).level, "links of {start}");
        let all = climb(self.engine, &self.image.index, start);
        assert!(ranks.iter().all(|rank| all.contains(rank)), "climb from {start}");
        ranks.into_iter().map(|rank| Pick { rank, start }).collect()
    }

    /// The nearest common ancestor of two nodes, if there is one. Climbing from either, it is the first
    /// rank to which one comes from the other, too.
    pub fn meet(&self, a: u32, b: u32) -> Option<u32> {
        let found = self.engine.meet(&self.image.index, a, b).expect("meeting accepted");
        let [from_a, from_b] = [a, b].map(|rank| climb(self.engine, &self.image.index, rank));
        for (from, other) in [(&from_a, &from_b), (&from_b, &from_a)] {
            let first = from.iter().copied().find(|rank| other.contains(rank));
            assert_eq!(first, found, "climbs from {a} and {b}");
        }
        found
    }

    /// Siblings of a start node, the same by hops: one for each.
    pub fn siblings(&self, start: u32) -> Vec<Pick> {
        let ranks = self.engine.siblings(&self.image.index, start).expect("siblings accepted");
        let found = self.engine.siblings_by_hops(&self.image.index, start);
        let (hopped, hops) = found.expect("siblings by hops accepted");
        assert_eq!(hopped, ranks, "siblings of {start} by hops");
        assert_eq!(hops as usize, ranks.len(), "hops of {start}");
        ranks.into_iter().map(|rank| Pick { rank, start }).collect()
    }

    /// Sum over the subtree of a rank.
    pub fn subtree_sum(&self, rank: u32) -> i64 {
        let sum = self.engine.subtree_sum(&self.image.index, &self.image.totals, rank);
        sum.expect("subtree sum accepted")
    }

    /// Sum over the path to a rank.
    pub fn path_sum(&self, rank: u32) -> i64 {
        let sum = self.engine.path_sum(&self.image.index, &self.image.totals, rank);
        sum.expect("path sum accepted")
    }

    /// The totals of the hierarchy whose rows have the minutes of these: by a pull of each row.
    pub fn pulled(&self, rows: &[Row]) -> Vec<i64> {
        let mut totals = self.image.totals[..=self.image.nodes() as usize].to_vec();
        for (number, (old, new)) in (1..).zip(self.rows.iter().zip(rows)) {
            let difference = new.minutes as i64 - old.minutes as i64;
            let pulled = self.engine.pull(&self.image.index, &mut totals, number, difference);
            pulled.expect("pull accepted");
        }
        totals
    }

    /// Whether a rank lies in the span of another.
    pub fn in_span(&self, rank: u32, of: u32) -> bool {
        let words = self.engine.span(&self.image.index, of).expect("span accepted");
        assert_eq!(words.len() % 6, 0);
        of <= rank && rank < of + words.len() as u32 / 6
    }

    /// The source row of a node; none for an added edge, which has no source attributes.
    pub fn source(&self, rank: u32) -> Option<Row> {
        let number = self.image.body(rank).row as usize;
        number.checked_sub(1).map(|place| self.rows[place])
    }

    /// The amount of a node: the minutes of its row.
    pub fn amount(&self, rank: u32) -> i32 {
        self.source(rank).expect("a source row").minutes
    }

    /// The ids from the root, or from a start node, to a rank.
    pub fn path(&self, rank: u32, from: Option<u32>) -> String {
        let lower = match from {
            None => i32::MIN,
            Some(from) => self.image.body(from).level as i32 - self.image.body(rank).level as i32,
        };
        let mut ids: Vec<String> =
            self.ancestors(rank, lower, 0).iter().map(|pick| self.id_of(pick.rank)).collect();
        ids.reverse();
        ids.join("/")
    }

    /// One value of a result row, by the guide's column name.
    fn column(&self, column: &str, pick: &Pick) -> String {
        let body = self.image.body(pick.rank);
        match column {
            "RANK" | "HIERARCHY_RANK" => pick.rank.to_string(),
            "TREE_SIZE" => body.size.to_string(),
            "PARENT_RANK" => body.parent.to_string(),
            "LEVEL" | "HIERARCHY_LEVEL" => body.level.to_string(),
            "ROOT_RANK" => body.root.to_string(),
            "IS_CYCLE" | "HIERARCHY_IS_CYCLE" => (body.closing as u32).to_string(),
            "IS_ORPHAN" => (body.orphan as u32).to_string(),
            "PARENT_ID" => (self.name)(self.source(pick.rank).map_or(0, |row| row.parent)),
            "NODE_ID" | "LEAF_ID" | "GRANDPARENT_ID" => (self.name)(body.numeral),
            "DISTANCE" | "HIERARCHY_DISTANCE" => {
                let start = self.image.body(pick.start);
                (body.level as i64 - start.level as i64).to_string()
            }
            "SIBLING_DISTANCE" | "HIERARCHY_SIBLING_DISTANCE" => {
                (pick.rank as i64 - pick.start as i64).to_string()
            }
            "START_RANK" => pick.start.to_string(),
            "START_ID" => self.id_of(pick.start),
            "TREE" => tree(self.source(pick.rank).expect("a source row")).to_string(),
            "VALID_FROM" => date(self.days[2 * pick.rank as usize - 2]),
            "VALID_UNTIL" => (self.until)(self.days[2 * pick.rank as usize - 1]),
            "AMOUNT" => self.amount(pick.rank).to_string(),
            _ => panic!("column {column}"),
        }
    }

    /// Compares result rows with a printed table, whose first line names the columns.
    pub fn check(&self, picks: &[Pick], printed: &str) {
        let mut expected = lines(printed);
        let header = expected.remove(0);
        let columns: Vec<&str> = header.split(' ').collect();
        let found: Vec<String> = picks
            .iter()
            .map(|pick| columns.iter().map(|c| self.column(c, pick)).collect::<Vec<_>>().join(" "))
            .collect();
        assert_eq!(found, expected, "{header}");
    }
}
