//! The steps one by one, at the places that are easily misread.

use crate::common;

use common::{hub_after, last, no, run, store};
use reference::store::Doing;
use reference::Answer;

#[test]
fn setup_leaves_the_starting_store() {
    let hub = hub_after("setup 3 2 5 9");
    let store = store(&hub);
    assert_eq!(store.clock, 9);
    assert_eq!(store.newest, [0, 1]);
    assert_eq!(store.free, [4, 3, 2]);
    assert!(store.queue.is_empty());
    for slot in &store.slots[..2] {
        let contents = (slot.reading, slot.low, slot.high, slot.older, slot.newer);
        assert_eq!(contents, (None, Some(0), None, None, None));
    }
    for worker in &store.workers {
        assert_eq!((worker.doing, worker.announced), (Doing::Idle, None));
        assert!(worker.local.is_empty());
    }
}

#[test]
fn slots_are_taken_from_v_on() {
    let mut hub = hub_after("setup 3 2 5 1");
    for (worker, register, slot) in [(2, 1, 2), (0, 1, 3), (1, 0, 4)] {
        last(&mut hub, &format!("put {worker} {register} 9\n step {worker}"));
        assert_eq!(store(&hub).newest[register], slot);
    }
    assert_eq!(last(&mut hub, "step 2 x2\n put 2 0 9\n step 2"), no(14));
}

#[test]
fn the_slot_given_back_last_is_taken_first() {
    let script = "setup 1 3 6 1
        put 0 0 1
        step 0 x8
        put 0 1 1
        step 0 x9
        put 0 2 1
        step 0 x9
        collect 0
        step 0 x6
        put 0 0 2
        step 0";
    let answers = run(script);
    let freed: Vec<&String> = answers.iter().filter(|words| words.starts_with("freed")).collect();
    // P 1, B 1: each flush takes the pool that the put before queued.
    assert_eq!(freed, ["freed 0", "freed 1", "freed 2"]);
    let hub = hub_after(script);
    // Register 2's put took slot 0 again, the last put slot 2.
    assert_eq!(store(&hub).newest, [2, 4, 0]);
    assert_eq!(store(&hub).free, [5, 1]);
}

#[test]
fn a_put_that_fills_the_pool_answers_going_and_flushes_later() {
    // 3 steps of the put, then 1 + P + 1 + 1 + needless + 1.
    for workers in [1, 2, 5] {
        let batch = reference::pool::batch_size(workers);
        let slots = batch + 2;
        let mut hub = hub_after(&format!("setup {workers} 1 {slots} 1"));
        for _ in 1..batch {
            assert_eq!(last(&mut hub, "put 0 0 1\n step 0 x3"), Answer::Done);
        }
        assert_eq!(last(&mut hub, "put 0 0 1\n step 0 x3"), Answer::Going);
        assert_eq!(store(&hub).workers[0].doing, Doing::FlushTake);
        let mut steps = 0;
        while last(&mut hub, "step 0") == Answer::Going {
            steps += 1;
        }
        assert_eq!(steps + 1, 1 + workers + 1 + 1 + 1);
        assert_eq!(store(&hub).queue.len(), 1);
    }
}

#[test]
fn put_2_leaves_another_puts_version_unstamped() {
    let mut hub = hub_after("setup 2 1 3 1\n put 0 0 7\n step 0\n put 1 0 8\n step 1");
    // Worker 1's first step stamped worker 0's version and published its own.
    assert_eq!(store(&hub).slots[1].low, Some(1));
    assert_eq!(store(&hub).slots[0].high, Some(1));
    assert_eq!(store(&hub).slots[2].low, None);
    // Worker 0 finds its covered version's high closed: nothing to stamp.
    last(&mut hub, "step 0");
    assert_eq!(store(&hub).slots[2].low, None);
    assert_eq!(store(&hub).slots[1].high, None);
    last(&mut hub, "step 1");
    assert_eq!(store(&hub).slots[2].low, Some(1));
    assert_eq!(store(&hub).slots[1].high, Some(1));
}

#[test]
fn needless_versions_stay_linked_until_their_own_step() {
    let mut hub = hub_after("setup 2 1 3 1");
    last(&mut hub, "put 0 0 1\n step 0 x3\n put 0 0 2\n step 0 x9\n collect 0\n step 0 x5");
    // Both older versions are needless now, and still in the list.
    assert_eq!(last(&mut hub, "put 1 0 3\n step 1"), no(14));
    assert_eq!(last(&mut hub, "step 0"), Answer::Freed(0));
    assert_eq!(store(&hub).slots[1].older, None);
    assert_eq!(last(&mut hub, "put 1 0 3\n step 1"), Answer::Going);
    assert_eq!(store(&hub).newest, [0]);
    assert_eq!(last(&mut hub, "step 0"), Answer::Freed(1));
    assert_eq!(store(&hub).slots[2].older, None);
    assert_eq!(last(&mut hub, "step 0"), Answer::Done);
}

#[test]
fn a_read_takes_at_least_two_steps() {
    let script = "setup 1 1 1 1
        open 0
        step 0 x2
        read 0 0
        step 0 x2
        get 0 0
        step 0
        close 0
        step 0";
    let expected = ["ok", "ok", "going", "at 1", "ok", "going", "none", "ok", "none", "ok", "done"];
    assert_eq!(run(script), expected);
}

#[test]
fn reads_on_an_unlinked_version_move_to_the_older_one() {
    // Workers 0 and 1 read at times 1 and 2; worker 2 covers twice and frees the middle version.
    let mut hub = hub_after(
        "setup 3 1 4 1
        open 0
        step 0 x2
        put 2 0 7
        step 2 x3
        read 0 0
        step 0
        open 1
        step 1
        put 2 0 8
        step 2 x3
        collect 2
        step 2 x7",
    );
    assert_eq!(store(&hub).newest, [2]);
    assert_eq!(store(&hub).workers[0].doing, Doing::ReadAt { slot: 1, first: true });
    // The version with value 7 has the empty range 2 to 2.
    assert_eq!((store(&hub).slots[1].low, store(&hub).slots[1].high), (Some(2), Some(2)));
    assert_eq!(last(&mut hub, "collect 2\n step 2 x7"), Answer::Freed(1));
    assert_eq!(store(&hub).workers[0].doing, Doing::ReadAt { slot: 0, first: false });
    assert_eq!(last(&mut hub, "step 0"), Answer::None);
    assert_eq!(last(&mut hub, "step 1"), Answer::At(2));
    assert_eq!(last(&mut hub, "read 1 0\n step 1 x2"), Answer::value(8, 0));
}

#[test]
fn a_flush_reads_the_times_one_worker_a_step() {
    let mut hub = hub_after("setup 2 1 3 5\n put 0 0 1\n step 0 x3\n collect 0\n step 0 x6");
    // Slot 0, range 0 to 5, is queued. Its flush reads no time of worker 0 and of worker 1, who
    // then announces 5, which does not need the range.
    last(&mut hub, "collect 0\n step 0 x2\n open 1\n step 1");
    assert_eq!(store(&hub).workers[0].times, []);
    last(&mut hub, "step 0");
    assert_eq!(store(&hub).workers[0].times, [5]);
    assert_eq!(last(&mut hub, "step 0 x3"), Answer::Freed(0));
}

#[test]
fn a_local_pool_follows_the_needed_pools() {
    let mut hub = hub_after("setup 1 4 12 1\n open 0\n step 0 x2");
    // B 1: each put's flush takes up to two pools of needed first versions.
    let sizes = |hub: &reference::Hub| -> Vec<Vec<u16>> {
        let pools = store(hub).queue.pools();
        pools.map(|pool| pool.iter().map(|range| range.slot).collect()).collect()
    };
    last(&mut hub, "put 0 0 9\n step 0 x8");
    assert_eq!(sizes(&hub), [[0]]);
    last(&mut hub, "put 0 1 9\n step 0 x8");
    // One needed is at most B: merged into the local pool, local first on equal highs.
    assert_eq!(sizes(&hub), [[1, 0]]);
    last(&mut hub, "put 0 2 9\n step 0 x8");
    assert_eq!(sizes(&hub), [vec![1, 0], vec![2]]);
    last(&mut hub, "put 0 3 9\n step 0 x8");
    // Three are more than 2B: two and one, then the local pool.
    assert_eq!(sizes(&hub), [vec![1, 0], vec![2], vec![3]]);
}
