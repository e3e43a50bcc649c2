//! How many old versions a hub keeps.
//!
//! An *old* version is one that another version of its register covers. Counted are those that the
//! hub keeps, those that are needed, and those that the rule "keep everything newer than the oldest
//! snapshot" would have kept. The newest version of each register is kept in any case and is in
//! none of the counts.

use crate::pool::batch_size;
use crate::store::{Doing, Slot, Store};
use std::collections::VecDeque;

/// Document 001's bound (theorem 5): at any time at most 2H + 25 P² log P deprecated objects are
/// not yet returned, where H is the greatest number of needed ones among them at any time.
/// Deprecated are the old versions that were handed in; needed are those whose range holds an
/// announced time or a mark's.
///
/// Document 001 gives the logarithm no base and chooses B = P log P. Document 01's B is that with
/// base 2, rounded up, and 1 for one worker. So P² log P is P B here.
pub fn bound(workers: usize, most_needed: usize) -> usize {
    2 * most_needed + 25 * workers * batch_size(workers)
}

/// Numbers of old versions after a record.
#[derive(Clone, Copy, Debug, Default, PartialEq, Eq)]
pub struct Counts {
    /// In the lists of the hub: handed in or, at most one for each worker, about to be.
    pub kept: usize,
    /// Those whose range holds an announced time or a mark's. An open high is above every time.
    pub needed: usize,
    /// Those whose high is above the oldest of these times, of all versions that ever were: what
    /// the old rule has to keep, with as many slots as it likes and without any delay.
    pub newer_than_oldest: usize,
}

/// Counts old versions by watching a store from its setup on, record by record.
#[derive(Clone, Debug)]
pub struct Census {
    /// What each worker was doing before the record.
    doing: Vec<Doing>,
    /// The announced times and those of the marks.
    times: Vec<u32>,
    /// By register: the newest version's slot, while it is unstamped. Below it, a high is open.
    unstamped: Vec<Option<u16>>,
    /// How many highs are open.
    open: usize,
    /// By slot: is an old version there, and needed?
    needed: Vec<bool>,
    /// The closed highs that the old rule keeps. The clock never falls, so neither do they.
    highs: VecDeque<u32>,
    counts: Counts,
    /// H: the greatest number of needed ones so far.
    pub most_needed: usize,
}

impl Census {
    /// At setup there is no old version.
    pub fn new(store: &Store) -> Census {
        Census {
            doing: vec![Doing::Idle; store.workers.len()],
            times: Vec::new(),
            unstamped: vec![None; store.newest.len()],
            open: 0,
            needed: vec![false; store.slots.len()],
            highs: VecDeque::new(),
            counts: Counts::default(),
            most_needed: 0,
        }
    }

    /// Counts after one more record, whatever it was.
    pub fn follow(&mut self, store: &Store) -> Counts {
        for (w, worker) in store.workers.iter().enumerate() {
            // Every step changes what its worker is doing.
            if worker.doing == self.doing[w] {
                continue;
            }
            match std::mem::replace(&mut self.doing[w], worker.doing) {
                Doing::PutPublish { register, .. }
                | Doing::PutStamp { register, .. }
                | Doing::ReadStart { register }
                | Doing::MarkedStart { register, .. }
                | Doing::Get { register } => self.look_at_register(store, register),
                Doing::TotalStart { place, .. } => {
                    self.look_at_register(store, store.groups.row(place).register);
                }
                Doing::OpenAnnounce | Doing::Close | Doing::Mark { .. } | Doing::Release { .. } => {
                    self.look_at_times(store);
                }
                _ => {}
            }
        }
        self.counts.kept = store.slots.len() - store.free.len() - store.newest.len();
        self.counts.newer_than_oldest = self.highs.len() + self.open;
        self.most_needed = self.most_needed.max(self.counts.needed);
        self.counts
    }

    /// After a step that may have published or stamped a version of this register.
    fn look_at_register(&mut self, store: &Store, register: u16) {
        let newest = store.newest[usize::from(register)];
        let slot = |index: u16| store.slots[usize::from(index)];
        let unstamped = slot(newest).low.is_none().then_some(newest);
        let before = std::mem::replace(&mut self.unstamped[usize::from(register)], unstamped);
        self.open += usize::from(unstamped.is_some());
        self.open -= usize::from(before.is_some());
        let stamped = before.map(slot).filter(|version| version.low.is_some());
        if let Some(Slot { low, older, .. }) = stamped {
            self.highs.extend(low);
            self.forget();
            older.into_iter().for_each(|old| self.look_at_slot(store, old));
        }
        slot(newest).older.into_iter().for_each(|old| self.look_at_slot(store, old));
    }

    /// After a time was announced, marked, released or withdrawn. A time announced is the clock,
    /// which no closed high is above, so only open ones can be needed for it; one marked is
    /// announced; one released or withdrawn can only end a need.
    fn look_at_times(&mut self, store: &Store) {
        self.times.clear();
        self.times.extend(store.workers.iter().filter_map(|worker| worker.announced));
        self.times.extend(store.marks.iter().flatten());
        for register in 0..self.unstamped.len() {
            let newest = self.unstamped[register].map(|index| &store.slots[usize::from(index)]);
            let old = newest.and_then(|newest| newest.older);
            old.into_iter().for_each(|old| self.look_at_slot(store, old));
        }
        for index in 0..self.needed.len() {
            if self.needed[index] {
                self.look_at_slot(store, index as u16);
            }
        }
        self.forget();
    }

    fn look_at_slot(&mut self, store: &Store, index: u16) {
        let Slot { low, high, newer, .. } = store.slots[usize::from(index)];
        let holds =
            |&time| low.is_some_and(|low| low <= time) && high.is_none_or(|high| time < high);
        let needed = newer.is_some() && self.times.iter().any(holds);
        let before = std::mem::replace(&mut self.needed[usize::from(index)], needed);
        self.counts.needed += usize::from(needed);
        self.counts.needed -= usize::from(before);
    }

    /// Drops the highs that are not above the oldest time.
    fn forget(&mut self) {
        let oldest = self.times.iter().copied().min().unwrap_or(u32::MAX);
        while self.highs.front().is_some_and(|&high| high <= oldest) {
            self.highs.pop_front();
        }
    }
}
