//! Random lists of edit calls, from an empty board and on boards made by hand.

use crate::builds::{rows, size, Shape, SHAPES};
use crate::dated::{dated, DATINGS};
use crate::random::Random;
use reference::{Call, Machine, Row, MAX_KEPT, MAX_ROWS, MAX_UNDONE};

/// Kind of history.
#[derive(Clone, Copy, Debug, PartialEq, Eq)]
pub enum History {
    /// Up to 80 calls on a few rows.
    Small,
    /// Beyond 256 kept steps, then undone to the bottom and once more, then
    /// sometimes redone to the top and once more.
    Deep,
    /// Filled to 1,024 rows, then calls at the limit.
    Full,
    /// Row numbers and rows of any words.
    Wild,
    /// Runs of undos and of redos, of any length, to the bottom and to the top
    /// and one step further, in between adds, withdrawals and remarks, after
    /// which nothing is undone.
    Runs,
    /// Rows with rings, added one by one; then calls by which rings are opened and
    /// closed again: withdrawals, rows that lead back, undos and redos.
    Islands,
    /// Rows with days of a kind, added one by one, some of them refused before by
    /// their days; then withdrawals, remarks, undos and redos.
    Dated,
}

/// All kinds.
pub const HISTORIES: [History; 7] = [
    History::Small,
    History::Deep,
    History::Full,
    History::Wild,
    History::Runs,
    History::Islands,
    History::Dated,
];

/// Calls made so far, with the row count and the row counts of the kept and of
/// the undone steps, newest last.
struct Writer {
    calls: Vec<Call>,
    count: usize,
    kept: Vec<usize>,
    undone: Vec<usize>,
}

/// Whether an add takes the row, where there is a place for it.
fn is_taken(row: &Row) -> bool {
    row.numeral != 0 && row.first_day <= row.last_day
}

/// The row that a call adds, where it is taken.
fn added(call: &Call) -> Option<Row> {
    match call {
        Call::Add(row) if is_taken(row) => Some(*row),
        _ => None,
    }
}

impl Writer {
    fn keep(&mut self) {
        self.kept.push(self.count);
        if self.kept.len() > MAX_KEPT {
            self.kept.remove(0);
        }
    }

    /// Follows an accepted add, withdrawal or remark.
    fn change(&mut self, count: usize) {
        self.keep();
        self.count = count;
        self.undone.clear();
    }

    /// Notes a call and follows its count.
    fn call(&mut self, call: Call) {
        self.calls.push(call);
        match call {
            Call::Add(row) => {
                if is_taken(&row) && self.count < MAX_ROWS {
                    self.change(self.count + 1);
                }
            }
            Call::Withdraw(k) => {
                if (1..=self.count).contains(&k) {
                    self.change(self.count - 1);
                }
            }
            Call::Remark(k, _) => {
                if (1..=self.count).contains(&k) {
                    self.change(self.count);
                }
            }
            Call::Undo => {
                if let Some(count) = self.kept.pop() {
                    self.undone.push(self.count);
                    if self.undone.len() > MAX_UNDONE {
                        self.undone.remove(0);
                    }
                    self.count = count;
                }
            }
            Call::Redo => {
                if let Some(count) = self.undone.pop() {
                    self.keep();
                    self.count = count;
                }
            }
        }
    }

    /// A row number that is there, mostly; an end of the range often.
    fn number(&self, random: &mut Random) -> usize {
        if self.count == 0 {
            return random.below(3);
        }
        match random.below(8) {
            0 => 1,
            1 => self.count,
            _ => random.between(1, self.count),
        }
    }

    /// A row to add, with numeral 1 or more; it often ties with one added before.
    fn row(&self, random: &mut Random) -> Row {
        if self.calls.is_empty() {
            return random.row();
        }
        match added(&random.pick(&self.calls)) {
            Some(row) => random.row_beside(row),
            None => random.row(),
        }
    }

    /// A row that leads from one added before back to another, or to itself.
    fn row_back(&self, random: &mut Random) -> Row {
        let rows: Vec<Row> = self.calls.iter().filter_map(added).collect();
        let (from, to) = (random.pick(&rows), random.pick(&rows));
        Row { parent: from.numeral, numeral: to.numeral, ..random.row() }
    }

    /// A call that is accepted where one can be, by the given weights.
    fn weighted(&mut self, random: &mut Random, weights: [usize; 5]) {
        let mut at = random.below(weights.iter().sum());
        let mut kind = 0;
        while at >= weights[kind] {
            at -= weights[kind];
            kind += 1;
        }
        let call = match kind {
            0 => Call::Add(self.row(random)),
            1 => Call::Withdraw(self.number(random)),
            2 => Call::Remark(self.number(random), random.minutes()),
            3 => Call::Undo,
            _ => Call::Redo,
        };
        self.call(call);
    }

    /// The same call a number of times.
    fn repeat(&mut self, call: Call, times: usize) {
        for _ in 0..times {
            self.call(call);
        }
    }

    /// A run of undos or of redos: to the end and one step further, just to the
    /// end, a few steps, or any number there are.
    fn run(&mut self, random: &mut Random) {
        let (call, there) = if random.chance(1, 2) {
            (Call::Undo, self.kept.len())
        } else {
            (Call::Redo, self.undone.len())
        };
        let times = match random.below(6) {
            0 => there + 1,
            1 => there,
            2 | 3 => random.between(1, 4),
            _ => random.between(0, there),
        };
        self.repeat(call, times);
    }

    /// Some runs one after the other; now and then a call that is refused and
    /// so leaves what is undone.
    fn runs(&mut self, random: &mut Random) {
        for _ in 0..random.between(1, 6) {
            self.run(random);
            if random.chance(1, 4) {
                self.refused(random);
            }
        }
    }

    /// A row that refusals 2 and 20 hit: numeral 0, the first day after the last, or both.
    fn refused_row(&self, random: &mut Random) -> Row {
        let row = random.row();
        let mut own = random.beside();
        let days = own.backward_days();
        match own.below(4) {
            0 => Row { numeral: 0, ..row },
            1 => Row { numeral: 0, ..row }.on(days.first, days.last),
            _ => row.on(days.first, days.last),
        }
    }

    /// A call that refusals 2 to 4 and 20 hit: a row that isn't taken, number 0, number above the
    /// count.
    fn refused(&mut self, random: &mut Random) {
        let above = self.count + 1 + random.below(3);
        let call = match random.below(6) {
            0 => Call::Add(self.refused_row(random)),
            1 => Call::Withdraw(0),
            2 => Call::Withdraw(above),
            3 => Call::Remark(0, random.minutes()),
            4 => Call::Remark(above, random.minutes()),
            _ => Call::Withdraw(usize::MAX),
        };
        self.call(call);
    }
}

/// A random list of calls from an empty board.
pub fn history(random: &mut Random, kind: History) -> Vec<Call> {
    let mut writer = Writer { calls: Vec::new(), count: 0, kept: Vec::new(), undone: Vec::new() };
    match kind {
        History::Small => {
            for _ in 0..random.below(80) {
                if random.chance(1, 8) {
                    writer.refused(random);
                } else {
                    writer.weighted(random, [5, 2, 3, 4, 3]);
                }
            }
        }
        History::Deep => {
            for _ in 0..random.between(257, 500) {
                writer.weighted(random, [3, 2, 5, 0, 0]);
                if random.chance(1, 40) {
                    writer.refused(random);
                }
                if random.chance(1, 30) {
                    writer.call(Call::Undo);
                }
                if random.chance(1, 60) {
                    writer.call(Call::Redo);
                }
            }
            // Whatever was refused or undone: 256 steps are kept, and one more loses the oldest.
            while writer.kept.len() < MAX_KEPT {
                writer.weighted(random, [3, 2, 5, 0, 0]);
            }
            let row = writer.row(random);
            writer.call(Call::Add(row));
            writer.repeat(Call::Undo, MAX_KEPT + 1);
            if random.chance(1, 2) {
                writer.repeat(Call::Redo, MAX_KEPT + 1);
            }
            for _ in 0..random.below(20) {
                writer.weighted(random, [3, 1, 1, 2, 2]);
            }
        }
        History::Full => {
            for _ in 0..MAX_ROWS {
                let row = writer.row(random);
                writer.call(Call::Add(row));
            }
            for _ in 0..random.between(20, 400) {
                match random.below(7) {
                    0 => writer.refused(random),
                    1 => writer.call(Call::Undo),
                    2 => writer.call(Call::Redo),
                    _ => writer.weighted(random, [6, 2, 2, 1, 1]),
                }
            }
            if random.chance(1, 2) {
                writer.repeat(Call::Undo, MAX_KEPT + 1);
                writer.repeat(Call::Redo, random.between(0, MAX_KEPT + 1));
            }
        }
        History::Wild => {
            for _ in 0..random.below(120) {
                let near = writer.count;
                let call = match random.below(5) {
                    0 => Call::Add(random.any_row()),
                    1 => Call::Withdraw(random.place(near)),
                    2 => Call::Remark(random.place(near), random.minutes()),
                    3 => Call::Undo,
                    _ => Call::Redo,
                };
                writer.call(call);
                writer.weighted(random, [4, 1, 2, 1, 1]);
            }
        }
        History::Runs => {
            for _ in 0..random.between(2, 8) {
                let changes = match random.below(8) {
                    0 => random.between(250, 300),
                    1..=3 => 1,
                    _ => random.between(2, 30),
                };
                for _ in 0..changes {
                    writer.weighted(random, [4, 2, 4, 0, 0]);
                }
                writer.runs(random);
            }
        }
        History::Islands => {
            let shape = random.pick(&[Shape::Rings, Shape::Islands]);
            let size = size(random);
            for row in rows(random, shape, size) {
                writer.call(Call::Add(row));
            }
            for _ in 0..random.below(12) {
                match random.below(3) {
                    0 => writer.call(Call::Add(writer.row_back(random))),
                    _ => writer.weighted(random, [0, 3, 1, 3, 2]),
                }
            }
        }
        History::Dated => {
            let (shape, dating) = (random.pick(&SHAPES), random.pick(&DATINGS));
            let size = size(random);
            let plain = rows(random, shape, size);
            for row in dated(random, dating, &plain) {
                if random.chance(1, 8) {
                    let days = random.backward_days();
                    writer.call(Call::Add(row.on(days.first, days.last)));
                }
                writer.call(Call::Add(row));
            }
            for _ in 0..random.below(12) {
                writer.weighted(random, [0, 3, 1, 3, 2]);
            }
        }
    }
    writer.calls
}

/// A random list of calls on a board whose journal gives the K and F of
/// `machine`: runs of undos and redos, in between a few adds, withdrawals and
/// remarks.
pub fn history_on(random: &mut Random, machine: &Machine) -> Vec<Call> {
    let counts = |lists: &[Vec<Row>]| lists.iter().rev().map(Vec::len).collect();
    let mut writer = Writer {
        calls: Vec::new(),
        count: machine.rows.len(),
        kept: counts(&machine.kept),
        undone: counts(&machine.undone),
    };
    writer.runs(random);
    for _ in 0..random.below(4) {
        if random.chance(1, 2) {
            writer.weighted(random, [2, 1, 1, 0, 0]);
        }
        writer.runs(random);
    }
    writer.calls
}
