//! Ranges and pools: the batch size, the needed test and its one pass, merging by high, splitting, the queue.

use std::collections::VecDeque;

/// The largest batch size, that of sixteen workers.
pub const MAX_BATCH: usize = 64;

/// A covered version: its slot with its low and high. Only closed ranges are handed in.
#[derive(Clone, Copy, Debug, PartialEq, Eq, Hash)]
pub struct Range {
    pub slot: u16,
    pub low: u32,
    pub high: u32,
}

impl Range {
    /// Document 01's *needed*, for one announced time: low ≤ a < high.
    pub const fn needed_at(&self, time: u32) -> bool {
        self.low <= time && time < self.high
    }

    /// Document 01's *needed*: some announced time has low ≤ a < high.
    pub fn needed(&self, times: &[u32]) -> bool {
        times.iter().any(|&a| self.needed_at(a))
    }
}

/// Goes once over sorted times while limits rise, so that a list sorted by high needs one pass: of
/// the times below a range's high, the last is the one that may be within the range.
#[derive(Clone, Debug)]
pub struct Finger<'a> {
    below: Option<u32>,
    rest: &'a [u32],
}

impl Finger<'_> {
    /// Before all of these times, the lowest of which comes first.
    pub fn over(times: &[u32]) -> Finger<'_> {
        Finger { below: None, rest: times }
    }

    /// The last time below the limit, which is not below an earlier one.
    #[inline]
    pub fn last_below(&mut self, limit: u32) -> Option<u32> {
        while let [time, rest @ ..] = self.rest {
            if *time >= limit {
                break;
            }
            (self.below, self.rest) = (Some(*time), rest);
        }
        self.below
    }
}

/// B: the number of workers times its base-2 logarithm rounded up, and 1 for one worker.
pub const fn batch_size(workers: usize) -> usize {
    if workers <= 1 {
        1
    } else {
        // The logarithm rounded up is the number of bits of workers − 1.
        workers * (usize::BITS - (workers - 1).leading_zeros()) as usize
    }
}

/// Merges two lists by high, the first list's first on equal highs.
#[inline]
pub fn merge(first: &[Range], second: &[Range], mut append: impl FnMut(Range)) {
    let (mut i, mut j) = (0, 0);
    while i < first.len() && j < second.len() {
        if first[i].high <= second[j].high {
            append(first[i]);
            i += 1;
        } else {
            append(second[j]);
            j += 1;
        }
    }
    first[i..].iter().chain(&second[j..]).for_each(|&r| append(r));
}

/// What a flush does with the needed ranges.
#[derive(Clone, Copy, Debug, PartialEq, Eq)]
pub enum Split {
    /// More than 2B: two pools, the first with this many.
    Two(usize),
    /// More than B: one pool.
    One,
    /// At most B: merged into the local pool.
    Join,
}

impl Split {
    /// The split of so many needed ranges.
    #[inline]
    pub const fn of(needed: usize, batch: usize) -> Split {
        if needed > 2 * batch {
            Split::Two(needed.div_ceil(2))
        } else if needed > batch {
            Split::One
        } else {
            Split::Join
        }
    }
}

/// The first-in first-out queue of shared pools.
///
/// The pools stand one after the other in `ranges`, from `head` on, so that each is a slice.
#[derive(Clone, Debug, Default, PartialEq, Eq)]
pub struct Queue {
    ranges: Vec<Range>,
    head: usize,
    lengths: VecDeque<usize>,
}

impl Queue {
    /// How far the head may run before the pools are moved to the front again.
    const SLACK: usize = 4096;

    /// An empty queue with room for `ranges` ranges.
    pub fn with_capacity(ranges: usize) -> Queue {
        Queue {
            ranges: Vec::with_capacity(ranges + Queue::SLACK + 2 * MAX_BATCH),
            head: 0,
            lengths: VecDeque::with_capacity(ranges),
        }
    }

    /// Puts a pool at the end.
    #[inline]
    pub fn push(&mut self, pool: &[Range]) {
        self.ranges.extend_from_slice(pool);
        self.lengths.push_back(pool.len());
    }

    /// Puts the merge of two lists at the end as one pool.
    #[inline]
    pub fn push_merged(&mut self, first: &[Range], second: &[Range]) {
        merge(first, second, |range| self.ranges.push(range));
        self.lengths.push_back(first.len() + second.len());
    }

    /// Takes up to two pools, gives them to `then` in their order (empty where there is none).
    #[inline]
    pub fn take_two(&mut self, then: impl FnOnce(&[Range], &[Range])) -> usize {
        let first = self.lengths.pop_front();
        let second = self.lengths.pop_front();
        let start = self.head;
        let middle = start + first.unwrap_or(0);
        let end = middle + second.unwrap_or(0);
        then(&self.ranges[start..middle], &self.ranges[middle..end]);
        self.head = end;
        if self.lengths.is_empty() {
            self.ranges.clear();
            self.head = 0;
        } else if self.head >= Queue::SLACK {
            self.ranges.copy_within(self.head.., 0);
            self.ranges.truncate(self.ranges.len() - self.head);
            self.head = 0;
        }
        usize::from(first.is_some()) + usize::from(second.is_some())
    }

    /// The pools, first in first.
    pub fn pools(&self) -> impl Iterator<Item = &[Range]> {
        let mut start = self.head;
        self.lengths.iter().map(move |&length| {
            let pool = &self.ranges[start..start + length];
            start += length;
            pool
        })
    }

    /// The number of pools.
    pub fn len(&self) -> usize {
        self.lengths.len()
    }

    /// Is there no pool?
    pub fn is_empty(&self) -> bool {
        self.lengths.is_empty()
    }
}
