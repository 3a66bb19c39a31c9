//! A hierarchy built from a source whose columns are levels, and the comparison with a printed
//! table.

use crate::view::{climb, lines};
use crate::{Engine, Image};

/// A source: lines of one cell for each column, 0 for NULL.
#[derive(Clone, Debug)]
pub struct Source {
    /// Name of each column, and whether it defines a level. One that doesn't is an attribute of the
    /// level before it.
    pub columns: Vec<(&'static str, bool)>,
    pub lines: Vec<Vec<u32>>,
}

impl Source {
    /// The names of the columns that define levels.
    fn level_names(&self) -> Vec<&'static str> {
        self.columns.iter().filter(|(_, level)| *level).map(|(name, _)| *name).collect()
    }

    /// The cells of a line that define levels.
    fn levels(&self, line: &[u32]) -> Vec<u32> {
        let cells = line.iter().zip(&self.columns);
        cells.filter(|(_, (_, level))| *level).map(|(cell, _)| *cell).collect()
    }

    /// The level of a column: its own, or that of which it is an attribute.
    fn level_of(&self, place: usize) -> u32 {
        self.columns[..=place].iter().filter(|(_, level)| *level).count() as u32
    }

    /// What the build is given.
    pub fn cells(&self) -> Vec<u32> {
        self.lines.iter().flat_map(|line| self.levels(line)).collect()
    }

    pub fn width(&self) -> u32 {
        self.level_names().len() as u32
    }
}

/// A hierarchy over a source.
pub struct LevelledView<'a> {
    pub engine: &'a dyn Engine,
    pub image: Image,
    /// Its lines are in sorted order.
    source: Source,
    /// Names a cell.
    name: fn(u32) -> String,
}

impl<'a> LevelledView<'a> {
    /// Builds a view; its index must pass the index check.
    pub fn new(
        engine: &'a dyn Engine,
        source: Source,
        name: fn(u32) -> String,
    ) -> LevelledView<'a> {
        let image = engine.build_levelled(&source.cells(), source.width());
        let image = image.expect("build accepted");
        assert!(engine.index_check(&image.index), "index check");
        let mut source = source;
        let mut sorted = source.lines.clone();
        // NULLS LAST.
        let key = |cell: u32| if cell == 0 { 1 << 32 } else { cell as u64 };
        sorted.sort_by_key(|line| source.levels(line).into_iter().map(key).collect::<Vec<_>>());
        source.lines = sorted;
        LevelledView { engine, image, source, name }
    }

    /// All ranks.
    pub fn ranks(&self) -> Vec<u32> {
        (1..=self.image.nodes()).collect()
    }

    /// Ranks of a node and its ancestors, nearest first; by a climber, too.
    pub fn ancestors(&self, rank: u32) -> Vec<u32> {
        climb(self.engine, &self.image.index, rank)
    }

    /// A source column of a node. A level is that of the ancestor which stands there. An attribute
    /// is that of the node's line; one of a level below the node's own is NULL.
    fn source_column(&self, place: usize, rank: u32) -> u32 {
        let body = self.image.body(rank);
        let level = self.source.level_of(place);
        if self.source.columns[place].1 {
            let bodies = self.ancestors(rank).into_iter().map(|rank| self.image.body(rank));
            return bodies.filter(|body| body.level == level).map(|body| body.numeral).sum();
        }
        if level > body.level {
            return 0;
        }
        self.source.lines[body.row as usize - 1][place]
    }

    /// One value of a result row, by the guide's column name.
    fn column(&self, column: &str, rank: u32) -> String {
        let body = self.image.body(rank);
        match column {
            "RANK" => rank.to_string(),
            "TREE_SIZE" => body.size.to_string(),
            "PARENT_RANK" => body.parent.to_string(),
            "ROOT_RANK" => body.root.to_string(),
            "LEVEL" => body.level.to_string(),
            "IS_CYCLE" => (body.closing as u32).to_string(),
            "IS_ORPHAN" => (body.orphan as u32).to_string(),
            "NODE_ID" => (self.name)(body.numeral),
            "PARENT_ID" if body.parent == 0 => "-".to_string(),
            "PARENT_ID" => (self.name)(self.image.body(body.parent).numeral),
            "LEVEL_NAME" => self.source.level_names()[body.level as usize - 1].to_string(),
            _ => {
                let place = self.source.columns.iter().position(|(name, _)| short(name) == column);
                let place = place.unwrap_or_else(|| panic!("column {column}"));
                (self.name)(self.source_column(place, rank))
            }
        }
    }

    /// Compares result rows with a printed table, whose first line names the columns.
    pub fn check(&self, ranks: &[u32], printed: &str) {
        let mut expected = lines(printed);
        let header = expected.remove(0);
        let columns: Vec<&str> = header.split(' ').collect();
        let row = |rank: &u32| {
            columns.iter().map(|column| self.column(column, *rank)).collect::<Vec<_>>().join(" ")
        };
        assert_eq!(ranks.iter().map(row).collect::<Vec<_>>(), expected, "{header}");
    }
}

/// The printed name of a source column: L1 for LEVEL_1, A2 for ATTR_2, others as they are.
fn short(name: &str) -> String {
    match name.split_once('_') {
        None => name.to_string(),
        Some((word, number)) => word[..1].to_string() + number,
    }
}
