//! Time, and ranges of it.

use std::ops::{Bound, RangeBounds};

/// A time, or a clock's reading.
pub type Time = u32;

/// A range of times. Each end is included, excluded or absent; a range may be empty.
///
/// ```
/// use njunnemar::TimeRange;
/// use std::ops::RangeBounds;
///
/// let range = TimeRange::new(3..=5);
/// assert!(range.contains(&3) && range.contains(&5) && !range.contains(&6));
/// assert_eq!(range.shift(2), TimeRange::new(5..=7));
/// assert_eq!(TimeRange::new(1..).shift(u32::MAX), TimeRange::new(u32::MAX..));
/// ```
#[derive(Debug, Clone, Copy, PartialEq, Eq, Hash)]
pub struct TimeRange {
    lower: Bound<Time>,
    upper: Bound<Time>,
}

impl RangeBounds<Time> for TimeRange {
    fn start_bound(&self) -> Bound<&Time> {
        self.lower.as_ref()
    }

    fn end_bound(&self) -> Bound<&Time> {
        self.upper.as_ref()
    }
}

impl TimeRange {
    /// The range that Rust writes as `a..b`, `a..=b`, `a..`, `..b`, `..=b` or `..`.
    pub fn new<R: RangeBounds<Time>>(range: R) -> Self {
        TimeRange { lower: range.start_bound().cloned(), upper: range.end_bound().cloned() }
    }

    /// The range later by `delta`; an end stops at the last time.
    pub fn shift(&self, delta: Time) -> Self {
        let shifted = |bound: Bound<Time>| bound.map(|time| time.saturating_add(delta));
        TimeRange { lower: shifted(self.lower), upper: shifted(self.upper) }
    }

    /// The words of its two ends.
    pub(crate) fn words(&self) -> [u64; 2] {
        [word(self.lower), word(self.upper)]
    }

    /// The range of two ends' words.
    pub(crate) fn of_words([lower, upper]: [u64; 2]) -> Self {
        TimeRange { lower: bound(lower), upper: bound(upper) }
    }

    /// That a clock of this name is in the range, as a person writes it.
    ///
    /// ```
    /// use njunnemar::TimeRange;
    ///
    /// assert_eq!(TimeRange::new(3..).of("c0"), "c0 >= 3");
    /// assert_eq!(TimeRange::new(3..5).of("c0"), "3 <= c0 < 5");
    /// ```
    pub fn of(&self, clock: &str) -> String {
        match (self.lower, self.upper) {
            (Bound::Unbounded, Bound::Unbounded) => format!("any {clock}"),
            (Bound::Included(from), Bound::Unbounded) => format!("{clock} >= {from}"),
            (Bound::Excluded(from), Bound::Unbounded) => format!("{clock} > {from}"),
            (lower, upper) => {
                let from = match lower {
                    Bound::Included(from) => format!("{from} <= "),
                    Bound::Excluded(from) => format!("{from} < "),
                    Bound::Unbounded => String::new(),
                };
                let to = match upper {
                    Bound::Included(to) => format!(" <= {to}"),
                    Bound::Excluded(to) => format!(" < {to}"),
                    Bound::Unbounded => String::new(),
                };
                format!("{from}{clock}{to}")
            }
        }
    }
}

/// An end as the archive takes it: the time above two bits that say included (1) or excluded (2); 0 is none.
fn word(bound: Bound<Time>) -> u64 {
    match bound {
        Bound::Included(time) => 4 * u64::from(time) + 1,
        Bound::Excluded(time) => 4 * u64::from(time) + 2,
        Bound::Unbounded => 0,
    }
}

fn bound(word: u64) -> Bound<Time> {
    let time = (word / 4) as Time;
    match word % 4 {
        1 => Bound::Included(time),
        2 => Bound::Excluded(time),
        _ => Bound::Unbounded,
    }
}
