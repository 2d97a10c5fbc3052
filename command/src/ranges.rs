//! Ranges of addresses.
use std::fmt;

/// Addresses from `start` up to, but without, `end`.
#[derive(Clone, Copy, Debug, PartialEq, Eq, PartialOrd, Ord)]
pub struct Range {
    pub start: u64,
    pub end: u64,
}

impl Range {
    pub fn new(start: u64, size: u64) -> Range {
        Range { start, end: start.saturating_add(size) }
    }

    pub fn size(self) -> u64 {
        self.end - self.start
    }

    /// What both have.
    pub fn shared(self, other: Range) -> Option<Range> {
        let (start, end) = (self.start.max(other.start), self.end.min(other.end));
        (start < end).then_some(Range { start, end })
    }
}

/// The first and the last address.
impl fmt::Display for Range {
    fn fmt(&self, f: &mut fmt::Formatter) -> fmt::Result {
        write!(f, "{:#x}-{:#x}", self.start, self.end - 1)
    }
}

/// In ascending order, with those that touch or overlap joined.
pub fn joined(mut ranges: Vec<Range>) -> Vec<Range> {
    ranges.sort();
    let mut joined: Vec<Range> = Vec::new();
    for range in ranges {
        match joined.last_mut() {
            Some(last) if range.start <= last.end => last.end = last.end.max(range.end),
            _ => joined.push(range),
        }
    }
    joined
}

/// What two lists both have. Both are joined.
pub fn shared(a: &[Range], b: &[Range]) -> Vec<Range> {
    let (mut i, mut j) = (0, 0);
    let mut shared = Vec::new();
    while i < a.len() && j < b.len() {
        shared.extend(a[i].shared(b[j]));
        if a[i].end <= b[j].end {
            i += 1;
        } else {
            j += 1;
        }
    }
    shared
}

/// What the first has and the second has not. Both are joined.
pub fn without(a: &[Range], b: &[Range]) -> Vec<Range> {
    let mut left = Vec::new();
    for range in a {
        let mut start = range.start;
        for cut in shared(&[*range], b) {
            if start < cut.start {
                left.push(Range { start, end: cut.start });
            }
            start = cut.end;
        }
        if start < range.end {
            left.push(Range { start, end: range.end });
        }
    }
    left
}

#[cfg(test)]
mod tests {
    use super::{joined, shared, without, Range};

    fn ranges(pairs: &[(u64, u64)]) -> Vec<Range> {
        pairs.iter().map(|&(start, end)| Range { start, end }).collect()
    }

    #[test]
    fn those_that_touch_are_joined() {
        assert_eq!(joined(ranges(&[(8, 9), (1, 3), (3, 5), (2, 4)])), ranges(&[(1, 5), (8, 9)]));
    }

    #[test]
    fn what_two_lists_share_and_do_not() {
        let (a, b) = (ranges(&[(0, 10), (20, 30)]), ranges(&[(5, 6), (8, 22), (29, 40)]));
        assert_eq!(shared(&a, &b), ranges(&[(5, 6), (8, 10), (20, 22), (29, 30)]));
        assert_eq!(without(&a, &b), ranges(&[(0, 5), (6, 8), (22, 29)]));
        assert_eq!(without(&a, &[]), a);
        assert_eq!(shared(&a, &[]), []);
    }
}
