//! Document 01's list of cases.

use crate::common;

use common::{hub_after, last, no, run, store};
use reference::fault::Right;
use reference::pool::{batch_size, merge, Range, Split};
use reference::row::{write_row, Written};
use reference::{Answer, Hub, Reading, Refusal};

#[test]
fn setups_in_and_outside_the_ranges() {
    let cases = [
        ("setup 17 1 1 1", "no 5"),
        ("setup 16 1 1 1", "ok"),
        ("setup 1 2 1 1", "no 5"),
        ("setup 1 2 2 1", "ok"),
        ("setup 0 1 1 1", "no 5"),
        ("setup 255 1 1 1", "no 5"),
        ("setup 1 0 1 1", "no 5"),
        ("setup 1 0 0 1", "no 5"),
        ("setup 1 256 256 1", "ok"),
        ("setup 1 257 257 1", "no 5"),
        ("setup 1 1 2048 1", "ok"),
        ("setup 1 1 2049 1", "no 5"),
        ("setup 1 1 65535 1", "no 5"),
        ("setup 1 1 1 0", "no 5"),
        ("setup 1 1 1 4294967295", "ok"),
        ("setup 16 256 2048 4294967295", "ok"),
    ];
    for (script, answer) in cases {
        assert_eq!(run(script), [answer], "{script}");
    }
}

#[test]
fn a_row_too_short_for_its_slots_gives_5() {
    let mut hub = Hub::<Right>::with_row(3);
    let mut take = |script: &str| hub.take(&common::records(script), &[]);
    assert_eq!(take("setup 1 1 4 1"), no(5));
    assert_eq!(take("step 0"), no(8));
    assert_eq!(take("setup 1 1 3 1"), Answer::Ok);
    assert_eq!(take("setup 1 1 4 1"), no(9));
}

#[test]
fn batch_sizes() {
    let cases = [(1, 1), (2, 2), (3, 6), (4, 8), (5, 15), (8, 24), (9, 36), (16, 64)];
    for (workers, batch) in cases {
        assert_eq!(batch_size(workers), batch, "{workers} workers");
    }
    // By the definition: the least exponent whose power of two is not below the workers.
    for workers in 2..=16 {
        let logarithm = (0..).find(|&exponent| 1 << exponent >= workers).unwrap();
        assert_eq!(batch_size(workers), workers * logarithm);
        let hub = hub_after(&format!("setup {workers} 1 1 1"));
        assert_eq!(store(&hub).batch, workers * logarithm);
    }
}

fn range(slot: u16, low: u32, high: u32) -> Range {
    Range { slot, low, high }
}

#[test]
fn needed_ranges() {
    for (low, high, needed) in [(3, 5, false), (5, 5, false), (5, 6, true), (2, 9, true)] {
        assert_eq!(range(0, low, high).needed(&[5]), needed, "{low} to {high}");
        assert!(!range(0, low, high).needed(&[]));
    }
    assert!(range(0, 2, 4).needed(&[5, 3]));
    assert!(!range(0, 2, 4).needed(&[5, 1]));
    assert!(range(0, 0, u32::MAX).needed(&[u32::MAX - 1]));
}

#[test]
fn merging_by_high() {
    let first = [range(10, 0, 4), range(11, 0, 7)];
    let second = [range(20, 0, 4), range(21, 0, 6)];
    let merged = |first: &[Range], second: &[Range]| {
        let mut slots = Vec::new();
        merge(first, second, |range| slots.push(range.slot));
        slots
    };
    assert_eq!(merged(&first, &second), [10, 20, 21, 11]);
    assert_eq!(merged(&second, &first), [20, 10, 21, 11]);
    assert_eq!(merged(&first, &[]), [10, 11]);
    assert_eq!(merged(&[], &second), [20, 21]);
    assert_eq!(merged(&[], &[]), []);
}

#[test]
fn split_sizes() {
    let pools = |needed| match Split::of(needed, 2) {
        Split::Two(half) => vec![half, needed - half],
        Split::One => vec![needed],
        Split::Join => vec![],
    };
    assert_eq!(pools(5), [3, 2]);
    assert_eq!(pools(4), [4]);
    assert_eq!(pools(3), [3]);
    assert_eq!(pools(2), []);
    assert_eq!(pools(8), [4, 4]);
}

/// The sizes of the queued pools.
fn queued(hub: &Hub) -> Vec<usize> {
    store(hub).queue.pools().map(<[Range]>::len).collect()
}

#[test]
fn splits_in_the_hub() {
    // Two workers, B 2. Worker 0's snapshot at 1 needs every first version.
    let mut hub = hub_after("setup 2 8 30 1\n open 0\n step 0 x2");
    let put = |register: u16, steps: u16| format!("put 1 {register} 9\n step 1 x{steps}\n");
    assert_eq!(last(&mut hub, &(put(0, 3) + &put(1, 9))), Answer::Done);
    assert_eq!(queued(&hub), [2]);
    // Two needed join the local pool.
    assert_eq!(last(&mut hub, &(put(2, 3) + &put(3, 9))), Answer::Done);
    assert_eq!(queued(&hub), [4]);
    // Four give one pool of four; the local pool, here one range, follows it.
    assert_eq!(last(&mut hub, &(put(4, 3) + "collect 1\n step 1 x6")), Answer::Done);
    assert_eq!(queued(&hub), [4, 1]);
    // Five give pools of three and two; the local pool is empty and not queued.
    assert_eq!(last(&mut hub, "collect 1\n step 1 x6"), Answer::Done);
    assert_eq!(queued(&hub), [3, 2]);
    // A close makes all of them needless: one step each, then done. All highs are 2, and where
    // the first two were joined to the local pool, the local ones went first.
    assert_eq!(last(&mut hub, "close 0\n step 0\n collect 1\n step 1 x5"), Answer::Going);
    let slots: Vec<Answer> = (0..5).map(|_| last(&mut hub, "step 1")).collect();
    assert_eq!(slots, [2, 3, 0, 1, 4].map(Answer::Freed));
    assert_eq!(last(&mut hub, "step 1"), Answer::Done);
    assert_eq!(queued(&hub), []);
}

#[test]
fn clock_at_its_end() {
    let script = "setup 2 1 1 4294967294
        open 0
        step 0 x2
        open 1
        step 1
        step 1
        close 0
        step 0
        open 0
        step 0";
    let expected =
        ["ok", "ok", "going", "at 4294967294", "ok", "no 15", "no 11", "ok", "done", "ok", "no 15"];
    assert_eq!(run(script), expected);
    assert_eq!(run("setup 1 1 1 4294967295\n open 0\n step 0 x2"), ["ok", "ok", "no 15", "no 11"]);
}

#[test]
fn two_workers_announce_at_5() {
    let mut hub = hub_after("setup 2 1 1 5\n open 0\n open 1\n step 1\n step 0");
    assert_eq!(store(&hub).clock, 5);
    assert_eq!(last(&mut hub, "step 0"), Answer::At(5));
    assert_eq!(store(&hub).clock, 6);
    assert_eq!(last(&mut hub, "step 1"), Answer::At(5));
    assert_eq!(store(&hub).clock, 6);
}

#[test]
fn a_put_published_at_5_and_stamped_at_6() {
    let mut hub = hub_after("setup 2 1 2 5\n put 1 0 7\n step 1\n open 0\n step 0 x2");
    assert_eq!(store(&hub).clock, 6);
    assert_eq!(store(&hub).slots[1].low, None);
    assert_eq!(last(&mut hub, "read 0 0\n step 0"), Answer::Going);
    assert_eq!(store(&hub).slots[1].low, Some(6));
    assert_eq!(store(&hub).slots[0].high, Some(6));
    assert_eq!(last(&mut hub, "step 0"), Answer::Going);
    // The older version is from setup, without a reading.
    assert_eq!(last(&mut hub, "step 0"), Answer::None);
    assert_eq!(last(&mut hub, "get 0 0\n step 0"), Answer::value(7, 0));
}

#[test]
fn rows() {
    let mut short = [0xaa; 15];
    assert_eq!(write_row(&mut short, 0, 1, Some(Reading::read(2))), Err(Refusal::Buffer));
    assert_eq!(short, [0xaa; 15]);
    let mut buffer = [0xaa; 16];
    let reading = Some(Reading::read(0x0807_0605_0403_0201));
    assert_eq!(write_row(&mut buffer, 0, 0x0403_0201, reading), Ok(Written::Row));
    assert_eq!(buffer, [0, 0, 0, 0, 1, 2, 3, 4, 1, 2, 3, 4, 5, 6, 7, 8]);
}

#[test]
fn rows_keep_other_bytes() {
    for register in [0, 1, 7, 255] {
        let start = 16 * usize::from(register);
        let mut buffer = vec![0xaa; 16 * 256 + 5];
        let reading = Some(Reading::read(u64::MAX));
        assert_eq!(write_row(&mut buffer, register, u32::MAX, reading), Ok(Written::Row));
        let row = &buffer[start..start + 16];
        assert_eq!(row[..4], [register as u8, 0, 0, 0]);
        assert_eq!(row[4..], [0xff; 12]);
        buffer[start..start + 16].fill(0xaa);
        assert!(buffer.iter().all(|&byte| byte == 0xaa));
        let mut short = vec![0xaa; start + 15];
        assert_eq!(write_row(&mut short, register, 1, reading), Err(Refusal::Buffer));
        assert!(short.iter().all(|&byte| byte == 0xaa));
    }
}

#[test]
fn rows_test_4_then_7() {
    for register in [256, 257, 65535] {
        for length in [0, 15, 16 * 300, 16 * 65536] {
            let mut buffer = vec![0xaa; length];
            let answer = write_row(&mut buffer, register, 1, Some(Reading::read(1)));
            assert_eq!(answer, Err(Refusal::Register));
            assert!(buffer.iter().all(|&byte| byte == 0xaa));
        }
    }
}
