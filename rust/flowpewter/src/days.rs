//! Days: those of a row, of a window, and of a node.
#![forbid(unsafe_code)]

/// The last day there is. Days are numbered from 0; what day 0 is, callers agree among themselves.
pub const LAST_DAY: u32 = u32::MAX;

/// Days from the first to the last, both included; none where the first is after the last.
///
/// ```
/// use flowpewter::Days;
///
/// let days = Days::new(366, 730);
/// assert!(days.contains(366) && days.contains(730) && !days.contains(731));
/// assert_eq!(days.common(Days::new(730, 1_095)), Days::new(730, 730));
/// assert!(days.common(Days::new(731, 1_095)).is_empty());
/// assert!(!Days::ALL.is_empty());
/// ```
#[derive(Clone, Copy, Debug, PartialEq, Eq, Hash)]
pub struct Days {
    pub first: u32,
    pub last: u32,
}

impl Days {
    /// All days there are: those of a row entered without days.
    pub const ALL: Days = Days::new(0, LAST_DAY);

    pub const fn new(first: u32, last: u32) -> Days {
        Days { first, last }
    }

    /// Whether there is no day.
    pub const fn is_empty(self) -> bool {
        self.first > self.last
    }

    /// Whether the day is one of them.
    pub const fn contains(self, day: u32) -> bool {
        self.first <= day && day <= self.last
    }

    /// The days that both have.
    pub fn common(self, other: Days) -> Days {
        Days::new(self.first.max(other.first), self.last.min(other.last))
    }
}
