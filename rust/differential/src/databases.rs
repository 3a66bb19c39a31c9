//! A build's node list as a recursive query of SQLite and PostgreSQL, timed by their own shells where they are installed.
//!
//! The query lists the paths in order with level and closing flag and numbers them; it makes no tree sizes, no totals
//! and no image, so that it does less than a build. Its time is that of the query alone.

use flowpewter::Row;
use std::io::Write;
use std::process::{Command, Stdio};

/// A database shell that reads SQL from its standard input.
pub struct Database {
    pub name: &'static str,
    program: &'static str,
    arguments: &'static [&'static str],
    timer_on: &'static str,
    /// Text before the time in what the shell prints, and how many milliseconds its unit has.
    time_after: (&'static str, f64),
    position: &'static str,
    collation: &'static str,
}

pub const DATABASES: [Database; 2] = [
    Database {
        name: "SQLite",
        program: "sqlite3",
        arguments: &[":memory:"],
        timer_on: ".timer on",
        time_after: ("Run Time: real ", 1_000.0),
        position: "instr",
        collation: "",
    },
    Database {
        name: "PostgreSQL",
        program: "psql",
        arguments: &["-q", "-t", "-X"],
        timer_on: "\\timing on",
        time_after: ("Time: ", 1.0),
        position: "strpos",
        collation: " COLLATE \"C\"",
    },
];

impl Database {
    fn script(&self, rows: &[Row]) -> String {
        let mut sql = format!(
            "CREATE TEMPORARY TABLE part (parent BIGINT, numeral BIGINT, sibling TEXT{}, mark TEXT, minutes BIGINT);\n",
            self.collation
        );
        for (place, row) in rows.iter().enumerate() {
            sql += &format!(
                "INSERT INTO part VALUES ({}, {}, '{:010}.{:010}.{:04}/', '/{}/', {});\n",
                row.parent,
                row.numeral,
                row.order,
                row.numeral,
                place + 1,
                row.numeral,
                row.minutes
            );
        }
        sql += "CREATE INDEX part_parent ON part (parent);\nANALYZE;\n";
        sql += self.timer_on;
        for _ in 0..3 {
            sql += &format!(
                "\nWITH RECURSIVE walk(numeral, level, path, seen, closing, minutes) AS (\
                 SELECT numeral, 1, sibling, mark, 0, minutes FROM part WHERE parent = 0 \
                 UNION ALL SELECT p.numeral, w.level + 1, w.path || p.sibling, w.seen || p.mark, \
                 CASE WHEN {}(w.seen, p.mark) > 0 THEN 1 ELSE 0 END, p.minutes \
                 FROM walk w JOIN part p ON p.parent = w.numeral WHERE w.closing = 0) \
                 SELECT 'nodes=' || max(rank) FROM \
                 (SELECT row_number() OVER (ORDER BY path) AS rank, level, closing FROM walk) AS ranked;",
                self.position
            );
        }
        sql + "\n"
    }

    /// Best of three in milliseconds, and the number of nodes; none where the shell isn't there or doesn't answer.
    pub fn time(&self, rows: &[Row]) -> Option<(f64, u64)> {
        let mut shell = Command::new(self.program)
            .args(self.arguments)
            .stdin(Stdio::piped())
            .stdout(Stdio::piped())
            .stderr(Stdio::null())
            .spawn()
            .ok()?;
        shell.stdin.take()?.write_all(self.script(rows).as_bytes()).ok()?;
        let answer = shell.wait_with_output().ok()?;
        let text = String::from_utf8(answer.stdout).ok()?;
        let after = |start: &str| {
            let found = text.lines().filter_map(|line| line.trim().strip_prefix(start));
            found.filter_map(|rest| rest.split(' ').next()?.parse::<f64>().ok()).collect::<Vec<_>>()
        };
        let times = after(self.time_after.0);
        let nodes = after("nodes=");
        let best = times.into_iter().fold(f64::MAX, f64::min) * self.time_after.1;
        Some((best, *nodes.first()? as u64))
    }
}
