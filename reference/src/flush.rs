//! The steps of a flush, which a collect or a full local pool begins.

use crate::answer::Answer;
use crate::coverage::{Branch, Observer};
use crate::fault::Fault;
use crate::marks::MARKS;
use crate::pool::{merge, Finger, Range, Split};
use crate::store::{Doing, Slot, Store, Worker};

/// Where a flush begins: at (1), or at (2) with the third fault.
#[inline(always)]
pub(crate) fn start<F: Fault>() -> Doing {
    if F::TIMES_FIRST {
        Doing::FlushTimes { next: 0 }
    } else {
        Doing::FlushTake
    }
}

impl Store {
    /// Flush (1).
    pub(crate) fn flush_take<F: Fault, O: Observer>(
        &mut self,
        w: usize,
        seen: &mut O,
    ) -> (Doing, Answer) {
        let Worker { merged, times, .. } = &mut self.workers[w];
        merged.clear();
        let pools = self.queue.take_two(|first, second| {
            if O::ON && equal_highs(first, second) {
                seen.branch(Branch::MergeEqualHighs);
            }
            merge(first, second, |range| merged.push(range));
        });
        seen.branch(match pools {
            0 => Branch::FlushTakesNone,
            1 => Branch::FlushTakesOne,
            _ => Branch::FlushTakesTwo,
        });
        if F::TIMES_FIRST {
            return (Doing::FlushSplit, Answer::Going);
        }
        times.clear();
        let next = if F::MARKS_FIRST { Doing::FlushMarks } else { Doing::FlushTimes { next: 0 } };
        (next, Answer::Going)
    }

    /// Flush (2), one worker's time.
    pub(crate) fn flush_times<F: Fault, O: Observer>(
        &mut self,
        w: usize,
        next: u8,
        seen: &mut O,
    ) -> (Doing, Answer) {
        if F::TIMES_FIRST && next == 0 {
            self.workers[w].times.clear();
        }
        match self.workers[usize::from(next)].announced {
            Some(time) => {
                seen.branch(Branch::FlushTime);
                self.workers[w].times.push(time);
            }
            None => seen.branch(Branch::FlushNoTime),
        }
        let next = next + 1;
        if usize::from(next) < self.workers.len() {
            return (Doing::FlushTimes { next }, Answer::Going);
        }
        if F::MARKS_WITH_LAST {
            return self.flush_marks::<F, O>(w, seen);
        }
        let doing = if F::MARKS_FIRST { Doing::FlushSplit } else { Doing::FlushMarks };
        (doing, Answer::Going)
    }

    /// Flush (2), all marks.
    pub(crate) fn flush_marks<F: Fault, O: Observer>(
        &mut self,
        w: usize,
        seen: &mut O,
    ) -> (Doing, Answer) {
        let held = self.marks.iter().flatten();
        if O::ON {
            seen.branch(match held.clone().count() {
                0 => Branch::FlushNoMark,
                MARKS => Branch::FlushAllMarks,
                _ => Branch::FlushMarks,
            });
        }
        if !F::MARKS_NOT_READ {
            self.workers[w].times.extend(held);
        }
        let doing = if F::TIMES_FIRST {
            Doing::FlushTake
        } else if F::MARKS_FIRST {
            Doing::FlushTimes { next: 0 }
        } else {
            Doing::FlushSplit
        };
        (doing, Answer::Going)
    }

    /// Flush (3).
    pub(crate) fn flush_split<F: Fault, O: Observer>(
        &mut self,
        w: usize,
        seen: &mut O,
    ) -> (Doing, Answer) {
        if O::ON {
            self.observe_marks(w, seen);
        }
        let Worker { local, times, merged, .. } = &mut self.workers[w];
        let needed = &mut self.needed;
        needed.clear();
        if O::ON {
            merged.iter().for_each(|range| observe_range(range, times, seen));
        }
        // Without a time nothing is needed.
        if !times.is_empty() {
            times.sort_unstable();
            let mut finger = Finger::over(times);
            merged.retain(|range| {
                let keep = needed_by::<F>(range, &mut finger);
                if keep {
                    needed.push(*range);
                }
                !keep
            });
        }
        if O::ON {
            observe_split(local, needed, merged, self.batch, seen);
        }
        match Split::of(needed.len(), self.batch) {
            Split::Join if local.is_empty() && needed.is_empty() => {}
            Split::Join => self.queue.push_merged(local, needed),
            split => {
                if let Split::Two(half) = split {
                    self.queue.push(&needed[..half]);
                    self.queue.push(&needed[half..]);
                } else {
                    self.queue.push(needed);
                }
                if !local.is_empty() {
                    self.queue.push(local);
                }
            }
        }
        local.clear();
        (Doing::FlushFree { next: 0 }, Answer::Going)
    }

    /// Flush (4) and (5).
    pub(crate) fn flush_free<F: Fault, O: Observer>(
        &mut self,
        w: usize,
        next: u16,
        seen: &mut O,
    ) -> (Doing, Answer) {
        let Some(&Range { slot, .. }) = self.workers[w].merged.get(usize::from(next)) else {
            seen.branch(Branch::FlushDone);
            return (Doing::Idle, Answer::Done);
        };
        self.unlink::<F, O>(slot, seen);
        self.free.push(slot);
        (Doing::FlushFree { next: next + 1 }, Answer::Freed(slot))
    }

    /// Is there a range to be split that a mark needs and no snapshot?
    fn observe_marks<O: Observer>(&self, w: usize, seen: &mut O) {
        let snapshots: Vec<u32> = self.workers.iter().filter_map(|w| w.announced).collect();
        let marks: Vec<u32> = self.marks.iter().flatten().copied().collect();
        let Worker { merged, times, .. } = &self.workers[w];
        let only = |range: &&Range| range.needed(&marks) && !range.needed(&snapshots);
        for _ in merged.iter().filter(|range| range.needed(times)).filter(only) {
            seen.branch(Branch::RangeOfMark);
        }
    }

    /// Unlinks a covered version; reads, totals and marked reads standing on it move to its older
    /// neighbour.
    fn unlink<F: Fault, O: Observer>(&mut self, slot: u16, seen: &mut O) {
        let Slot { older, newer, .. } = self.slots[usize::from(slot)];
        if let Some(newer) = newer {
            self.slots[usize::from(newer)].older = older;
        }
        seen.branch(if older.is_some() { Branch::FreeMiddle } else { Branch::FreeOldest });
        let (mut reads, mut totals, mut marked) = (0, 0, 0);
        if let Some(older) = older {
            self.slots[usize::from(older)].newer = newer;
            for worker in &mut self.workers {
                match &mut worker.doing {
                    Doing::ReadAt { slot: at, first } if *at == slot && !F::LEAVE_READ => {
                        (*at, *first) = (older, false);
                        reads += 1;
                    }
                    Doing::TotalAt { slot: at, first, .. } if *at == slot && !F::LEAVE_TOTAL => {
                        (*at, *first) = (older, false);
                        totals += 1;
                    }
                    Doing::MarkedAt { slot: at, first, .. } if *at == slot && !F::LEAVE_MARKED => {
                        (*at, *first) = (older, false);
                        marked += 1;
                    }
                    _ => {}
                }
            }
        }
        seen.branch(match reads {
            0 => Branch::FreeMovesNoRead,
            1 => Branch::FreeMovesOneRead,
            _ => Branch::FreeMovesMoreReads,
        });
        match totals {
            0 => {}
            1 => seen.branch(Branch::FreeMovesOneTotal),
            _ => seen.branch(Branch::FreeMovesMoreTotals),
        }
        match marked {
            0 => {}
            1 => seen.branch(Branch::FreeMovesOneMarked),
            _ => seen.branch(Branch::FreeMovesMoreMarked),
        }
        if !F::LEAVE_READ && !F::LEAVE_TOTAL && !F::LEAVE_MARKED {
            let freed = &mut self.slots[usize::from(slot)];
            (freed.older, freed.newer) = (None, None);
        }
    }
}

/// *Needed*, or what the first faults take for it.
#[inline(always)]
fn needed_by<F: Fault>(&Range { low, high, .. }: &Range, finger: &mut Finger) -> bool {
    if F::NEWER_THAN_OLDEST {
        finger.last_below(high).is_some()
    } else if F::HIGH_INSIDE {
        finger.last_below(high.saturating_add(1)).is_some_and(|a| low <= a)
    } else {
        finger.last_below(high).is_some_and(|a| low <= a)
    }
}

fn equal_highs(first: &[Range], second: &[Range]) -> bool {
    first.iter().any(|a| second.iter().any(|b| a.high == b.high))
}

fn observe_range<O: Observer>(range: &Range, times: &[u32], seen: &mut O) {
    if times.contains(&range.high) {
        seen.branch(Branch::RangeEndsAtTime);
    }
    if times.contains(&range.low) {
        seen.branch(Branch::RangeStartsAtTime);
    }
    if range.low == range.high {
        seen.branch(Branch::RangeEmpty);
    }
    let before = times.iter().any(|&a| a < range.low);
    let after = times.iter().any(|&a| a >= range.high);
    if before && after && !range.needed(times) {
        seen.branch(Branch::RangeBetweenTimes);
    }
}

fn observe_split<O: Observer>(
    local: &[Range],
    needed: &[Range],
    needless: &[Range],
    batch: usize,
    seen: &mut O,
) {
    match Split::of(needed.len(), batch) {
        Split::Two(_) => {
            seen.branch(Branch::SplitTwo);
            if needed.len() % 2 == 1 {
                seen.branch(Branch::SplitTwoOdd);
            }
        }
        Split::One => seen.branch(Branch::SplitOne),
        Split::Join if needed.is_empty() => seen.branch(Branch::SplitJoinNone),
        Split::Join => {
            seen.branch(Branch::SplitJoin);
            if equal_highs(local, needed) {
                seen.branch(Branch::JoinEqualHighs);
            }
        }
    }
    let joined = Split::of(needed.len(), batch) == Split::Join && !needed.is_empty();
    seen.branch(if joined || !local.is_empty() { Branch::LocalQueued } else { Branch::LocalEmpty });
    if needless.is_empty() {
        seen.branch(Branch::NothingNeedless);
    }
}
