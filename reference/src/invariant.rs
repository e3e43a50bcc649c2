//! What holds of every store that records left behind. Exploration and random runs check it after
//! each record.

use crate::pool::Range;
use crate::reading::LAST_STATUS;
use crate::store::{Doing, Slot, Store, LAST_CLOCK};

/// Fails with a sentence unless the condition holds.
macro_rules! ensure {
    ($condition:expr, $($sentence:tt)*) => {
        if !$condition {
            return Err(format!($($sentence)*));
        }
    };
}
pub(crate) use ensure;

pub(crate) fn slot(store: &Store, index: u16) -> &Slot {
    &store.slots[usize::from(index)]
}

/// Does this version's range hold the time? An open high is above every time.
pub(crate) fn holds(version: &Slot, time: u32) -> bool {
    version.low.is_some_and(|low| low <= time) && version.high.is_none_or(|high| time < high)
}

/// A register's versions, newest first, with both directions of its links checked.
pub(crate) fn list(store: &Store, register: usize) -> Result<Vec<u16>, String> {
    let mut versions = Vec::new();
    let mut newer = None;
    let mut next = Some(store.newest[register]);
    while let Some(index) = next {
        ensure!(versions.len() < store.slots.len(), "register {register}: the list has a circle");
        ensure!(slot(store, index).newer == newer, "slot {index}: newer neighbour is wrong");
        versions.push(index);
        newer = next;
        next = slot(store, index).older;
    }
    Ok(versions)
}

/// Lists, free slots, times, pools, puts, reads and flushes of one store.
pub fn check(store: &Store) -> Result<(), String> {
    let mut home = vec![None; store.slots.len()];
    for register in 0..store.newest.len() {
        let versions = list(store, register)?;
        check_versions(store, &versions)?;
        for &s in &versions {
            let before = home[usize::from(s)].replace(register);
            ensure!(before.is_none(), "slot {s} stands in two lists");
        }
    }
    let linked = home.iter().flatten().count();
    for &s in &store.free {
        ensure!(home[usize::from(s)].is_none(), "slot {s} is linked and free");
        let links = (slot(store, s).older, slot(store, s).newer);
        ensure!(links == (None, None), "free slot {s} has neighbours");
    }
    let mut free = store.free.clone();
    free.sort_unstable();
    free.dedup();
    ensure!(free.len() == store.free.len(), "a slot is free twice");
    ensure!(linked + free.len() == store.slots.len(), "a slot is neither linked nor free");
    check_times(store)?;
    check_places(store, &home)?;
    (0..store.workers.len()).try_for_each(|w| check_worker(store, w, &home))
}

/// Readings, lows and highs of one list, newest first. Only what setup wrote holds no reading, and no
/// status is above 2.
fn check_versions(store: &Store, versions: &[u16]) -> Result<(), String> {
    let newest = slot(store, versions[0]);
    ensure!(newest.high.is_none(), "a newest version has a high");
    ensure!(newest.low.is_none_or(|low| low <= store.clock), "a low is above the clock");
    ensure!(newest.low.is_some() || versions.len() > 1, "an unstamped version covers none");
    for (place, &index) in (1..).zip(versions) {
        // What setup wrote has low 0, and every clock since is above that.
        let Slot { reading, low, .. } = *slot(store, index);
        ensure!(reading.is_none() == (low == Some(0)), "slot {index}: {reading:?} from {low:?}");
        ensure!(reading.is_some() || place == versions.len(), "slot {index} covers another");
        let status = reading.map_or(0, |reading| reading.status);
        ensure!(status <= LAST_STATUS, "slot {index}: status {status}");
    }
    let mut unstamped_above = newest.low.is_none();
    for pair in versions.windows(2) {
        let (newer, older) = (slot(store, pair[0]), slot(store, pair[1]));
        let low = older.low.ok_or("a covered version has no low")?;
        ensure!(older.high.is_none() == unstamped_above, "slot {}: open high", pair[1]);
        if let Some(high) = older.high {
            ensure!(low <= high && high <= store.clock, "slot {}: {low} to {high}", pair[1]);
            ensure!(newer.low >= Some(high), "ranges of a register overlap");
        }
        unstamped_above = false;
    }
    Ok(())
}

fn check_times(store: &Store) -> Result<(), String> {
    for (w, worker) in store.workers.iter().enumerate() {
        if let Some(time) = worker.announced {
            ensure!((1..LAST_CLOCK).contains(&time), "worker {w} announces {time}");
            let passing = worker.doing == Doing::OpenPass;
            ensure!(
                time < store.clock || passing && time == store.clock,
                "worker {w}: {time} is not passed"
            );
        }
        let right = match worker.doing {
            Doing::OpenAnnounce => worker.announced.is_none(),
            Doing::OpenPass | Doing::Close => worker.announced.is_some(),
            Doing::ReadStart { .. } | Doing::ReadAt { .. } => worker.announced.is_some(),
            Doing::TotalStart { .. } | Doing::TotalAt { .. } => worker.announced.is_some(),
            Doing::Mark { .. } => worker.announced.is_some(),
            Doing::MarkedAt { mark, time, .. } => store.marks[usize::from(mark)] == Some(time),
            _ => true,
        };
        ensure!(right, "worker {w}: its time does not fit {:?}", worker.doing);
    }
    for (mark, time) in store.marks.iter().enumerate() {
        let passed = time.is_none_or(|time| (1..store.clock).contains(&time));
        ensure!(passed, "mark {mark} holds {time:?}");
    }
    Ok(())
}

/// The ranges that a flush still has to deal with.
fn in_hand(store: &Store, w: usize) -> &[Range] {
    let merged = &store.workers[w].merged;
    match store.workers[w].doing {
        Doing::FlushTimes { .. } | Doing::FlushMarks | Doing::FlushSplit => merged,
        Doing::FlushFree { next } => &merged[usize::from(next)..],
        _ => &[],
    }
}

/// The version that a put remembers.
fn covered(store: &Store, w: usize) -> Option<u16> {
    match store.workers[w].doing {
        Doing::PutStamp { covered, .. } | Doing::PutHandIn { covered, .. } => Some(covered),
        _ => None,
    }
}

/// Every linked version that is not newest stands in exactly one place: a pool, a flush's list,
/// or a put that covers it. So ranges, covering puts, free slots and V make N.
fn check_places(store: &Store, home: &[Option<usize>]) -> Result<(), String> {
    let batch = store.batch;
    for pool in store.queue.pools() {
        ensure!((1..=2 * batch).contains(&pool.len()), "a queued pool has {} ranges", pool.len());
        check_ranges(store, pool)?;
    }
    let mut places: Vec<u16> = store.queue.pools().flatten().map(|range| range.slot).collect();
    for (w, worker) in store.workers.iter().enumerate() {
        ensure!(worker.local.len() <= batch, "worker {w}: the local pool is too long");
        ensure!(in_hand(store, w).len() <= 4 * batch, "worker {w}: the merged list is too long");
        check_ranges(store, &worker.local)?;
        check_ranges(store, in_hand(store, w))?;
        let ranges = worker.local.iter().chain(in_hand(store, w));
        places.extend(ranges.map(|range| range.slot));
        places.extend(covered(store, w));
    }
    for &s in &places {
        let register = home[usize::from(s)].ok_or(format!("slot {s} has a place, not a list"))?;
        ensure!(store.newest[register] != s, "newest slot {s} has a place");
    }
    let count = places.len();
    places.sort_unstable();
    places.dedup();
    ensure!(places.len() == count, "a slot has two places");
    let all = count + store.free.len() + store.newest.len();
    ensure!(all == store.slots.len(), "{count} places do not make N");
    Ok(())
}

/// Ranges are sorted by high and have their slot's own low and high.
fn check_ranges(store: &Store, ranges: &[Range]) -> Result<(), String> {
    ensure!(ranges.is_sorted_by_key(|range| range.high), "a list is not sorted: {ranges:?}");
    for range in ranges {
        let version = slot(store, range.slot);
        let own = version.low == Some(range.low) && version.high == Some(range.high);
        ensure!(own, "{range:?} is not its slot's: {version:?}");
    }
    Ok(())
}

/// What holds at one worker's place in its operation.
fn check_worker(store: &Store, w: usize, home: &[Option<usize>]) -> Result<(), String> {
    let worker = &store.workers[w];
    let flushing = matches!(
        worker.doing,
        Doing::FlushTake | Doing::FlushTimes { .. } | Doing::FlushMarks | Doing::FlushSplit
    );
    ensure!(flushing || worker.local.len() < store.batch, "worker {w}: a full pool stays");
    let announced = || store.workers.iter().filter_map(|worker| worker.announced);
    let times = || announced().chain(store.marks.iter().flatten().copied());
    match worker.doing {
        Doing::PutPublish { reading, .. } => {
            let status = reading.status;
            ensure!(status <= LAST_STATUS, "worker {w}: puts status {status}");
        }
        Doing::FlushFree { .. } => {
            ensure!(worker.local.is_empty(), "worker {w}: a pool after the split");
            for range in in_hand(store, w) {
                let needed = times().any(|time| range.needed_at(time));
                ensure!(!needed, "worker {w}: {range:?} is needed and to be freed");
            }
        }
        Doing::PutStamp { covered, .. } | Doing::PutHandIn { covered, .. } => {
            let version = slot(store, covered);
            ensure!(version.low.is_some(), "worker {w}: covers an unstamped version");
            let handing_in = matches!(worker.doing, Doing::PutHandIn { .. });
            ensure!(!handing_in || version.high.is_some(), "worker {w}: hands in an open range");
            let last = worker.local.last().map(|range| range.high);
            ensure!(version.high.is_none() || last <= version.high, "worker {w}: highs fall");
        }
        Doing::ReadAt { slot: at, .. } | Doing::TotalAt { slot: at, .. } => {
            let time = worker.announced.ok_or("a read without a time")?;
            check_walk(store, w, at, time, home)?;
            if let Doing::TotalAt { place, .. } = worker.doing {
                let register = usize::from(store.groups.row(place).register);
                let own = home[usize::from(at)] == Some(register);
                ensure!(own, "worker {w}: its total stands on a version of another register");
            }
        }
        Doing::MarkedAt { slot: at, time, .. } => check_walk(store, w, at, time, home)?,
        _ => {}
    }
    Ok(())
}

/// From where a read stands, the version of its time is reached.
fn check_walk(
    store: &Store,
    w: usize,
    at: u16,
    time: u32,
    home: &[Option<usize>],
) -> Result<(), String> {
    ensure!(home[usize::from(at)].is_some(), "worker {w}: reads a free slot");
    let mut next = Some(at);
    while let Some(index) = next.filter(|&index| slot(store, index).low > Some(time)) {
        next = slot(store, index).older;
    }
    let found = next.is_some_and(|index| holds(slot(store, index), time));
    ensure!(found, "worker {w}: the version at {time} is not below its read");
    Ok(())
}
