//! The plain machine: a list R of rows, a list K of earlier row lists and a list F of undone row
//! lists, both newest first.

use crate::board::Row;
use crate::{MAX_KEPT, MAX_ROWS, MAX_UNDONE};

/// One edit call. Row numbers count from 1.
#[derive(Clone, Copy, Debug, PartialEq, Eq)]
pub enum Call {
    Add(Row),
    Withdraw(usize),
    Remark(usize, i32),
    Undo,
    Redo,
}

/// R, K and F.
#[derive(Clone, Debug, PartialEq, Eq, Default)]
pub struct Machine {
    /// R.
    pub rows: Vec<Row>,
    /// K, newest first.
    pub kept: Vec<Vec<Row>>,
    /// F, newest first.
    pub undone: Vec<Vec<Row>>,
}

impl Machine {
    /// All lists empty.
    pub fn new() -> Machine {
        Machine { rows: Vec::new(), kept: Vec::new(), undone: Vec::new() }
    }

    /// Feeds one call; gives its refusal, 0 for none.
    pub fn call(&mut self, call: Call) -> u32 {
        match call {
            Call::Add(row) => self.add(row),
            Call::Withdraw(k) => self.withdraw(k),
            Call::Remark(k, minutes) => self.remark(k, minutes),
            Call::Undo => self.undo(),
            Call::Redo => self.redo(),
        }
    }

    /// Puts `row` at the end of R.
    pub fn add(&mut self, row: Row) -> u32 {
        if row.numeral == 0 {
            return 2;
        }
        if row.first_day > row.last_day {
            return 20;
        }
        if self.rows.len() == MAX_ROWS {
            return 3;
        }
        self.accept();
        self.rows.push(row);
        0
    }

    /// Takes row number `k` out; later rows move up by one.
    pub fn withdraw(&mut self, k: usize) -> u32 {
        if k == 0 || k > self.rows.len() {
            return 4;
        }
        self.accept();
        self.rows.remove(k - 1);
        0
    }

    /// Gives row `k` new minutes.
    pub fn remark(&mut self, k: usize, minutes: i32) -> u32 {
        if k == 0 || k > self.rows.len() {
            return 4;
        }
        self.accept();
        self.rows[k - 1].minutes = minutes;
        0
    }

    /// R becomes the head of K, and K loses it. Puts the list it leaves at the head of F; in F the
    /// last is dropped beyond 256.
    pub fn undo(&mut self) -> u32 {
        if self.kept.is_empty() {
            return 5;
        }
        self.undone.insert(0, self.rows.clone());
        if self.undone.len() > MAX_UNDONE {
            self.undone.pop();
        }
        self.rows = self.kept.remove(0);
        0
    }

    /// Takes the head of F as R and puts the old R at the head of K. It refuses with F empty, as 17.
    pub fn redo(&mut self) -> u32 {
        if self.undone.is_empty() {
            return 17;
        }
        self.keep();
        self.rows = self.undone.remove(0);
        0
    }

    /// An accepted add, withdraw or remark first puts the old R at the head of K, and empties F.
    fn accept(&mut self) {
        self.keep();
        self.undone.clear();
    }

    /// Puts R at the head of K; of 257 lists the last is dropped.
    fn keep(&mut self) {
        self.kept.insert(0, self.rows.clone());
        if self.kept.len() > MAX_KEPT {
            self.kept.pop();
        }
    }
}
