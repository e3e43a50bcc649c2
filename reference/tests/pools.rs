//! Merging, one pass over times, splitting and the queue against their plain descriptions.

use reference::generate::Random;
use reference::pool::{merge, Finger, Queue, Range, Split, MAX_BATCH};
use std::collections::VecDeque;

fn sorted(random: &mut Random, most: u64) -> Vec<Range> {
    let length = random.between(0, most);
    let mut ranges: Vec<Range> = (0..length)
        .map(|_| Range { slot: random.bits() as u16, low: 0, high: random.below(20) as u32 })
        .collect();
    ranges.sort_by_key(|range| range.high);
    ranges
}

/// Merging by high with the first list's first is a stable sort of one after the other.
fn merged(first: &[Range], second: &[Range]) -> Vec<Range> {
    let mut all = [first, second].concat();
    all.sort_by_key(|range| range.high);
    all
}

#[test]
fn merging_is_a_stable_sort() {
    let mut random = Random::new(1);
    for _ in 0..5000 {
        let (first, second) = (sorted(&mut random, 12), sorted(&mut random, 12));
        let mut result = Vec::new();
        merge(&first, &second, |range| result.push(range));
        assert_eq!(result, merged(&first, &second));
    }
}

#[test]
fn one_pass_finds_what_is_needed() {
    let mut random = Random::new(3);
    for _ in 0..5000 {
        let mut times: Vec<u32> = (0..random.below(17)).map(|_| random.below(20) as u32).collect();
        times.sort_unstable();
        let mut finger = Finger::over(&times);
        for range in sorted(&mut random, 30) {
            let low = random.between(0, u64::from(range.high)) as u32;
            let last = finger.last_below(range.high);
            assert_eq!(last, times.iter().copied().filter(|&a| a < range.high).max());
            assert_eq!(last.is_some_and(|a| low <= a), Range { low, ..range }.needed(&times));
        }
    }
}

#[test]
fn splits_of_every_size() {
    for batch in 1..=MAX_BATCH {
        for needed in 0..=4 * batch {
            match Split::of(needed, batch) {
                Split::Join => assert!(needed <= batch),
                Split::One => assert!(batch < needed && needed <= 2 * batch),
                Split::Two(half) => {
                    assert!(needed > 2 * batch);
                    assert!(half == needed - half || half == needed - half + 1);
                }
            }
        }
    }
}

#[test]
fn the_queue_is_first_in_first_out() {
    let mut random = Random::new(2);
    let mut queue = Queue::with_capacity(64);
    let mut plain: VecDeque<Vec<Range>> = VecDeque::new();
    for round in 0..60_000 {
        // Long stretches without an empty queue, so that the pools are moved to the front.
        let growing = plain.len() < 3 || (plain.len() < 40 && random.chance(660));
        if growing && round % 20_000 != 19_999 {
            let (first, second) = (sorted(&mut random, 8), sorted(&mut random, 8));
            if random.chance(500) {
                queue.push(&first);
                plain.push_back(first);
            } else {
                queue.push_merged(&first, &second);
                plain.push_back(merged(&first, &second));
            }
        } else {
            let expected = (plain.pop_front(), plain.pop_front());
            let taken = queue.take_two(|first, second| {
                assert_eq!(first, expected.0.as_deref().unwrap_or_default());
                assert_eq!(second, expected.1.as_deref().unwrap_or_default());
            });
            assert_eq!(taken, expected.0.iter().chain(&expected.1).count());
        }
        assert_eq!(queue.len(), plain.len());
        assert_eq!(queue.is_empty(), plain.is_empty());
        if round % 50 == 0 {
            assert!(queue.pools().eq(plain.iter().map(Vec::as_slice)));
        }
    }
}
