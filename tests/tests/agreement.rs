//! `hublog` and the second program print the same, byte for byte, and `hublog`'s own logs keep demand 3.

use hublog_tests::{agree, printed};
use reference::coverage::{Branch, Coverage};
use reference::generate::{script, Kind, Random, Script};
use reference::text;
use std::thread;

fn records(script: &str) -> Vec<u8> {
    text::pack(script.as_bytes()).expect("a well-formed script")
}

/// Holds both to a script, and its log to these words.
fn holds(script: &str, words: &[&str]) {
    let script_records = Script::plain(records(script));
    agree(script, &script_records);
    let expected: String =
        words.iter().enumerate().map(|(i, word)| format!("{i} {word}\n")).collect();
    let text = printed(&script_records.records, &[], &[]);
    assert_eq!(String::from_utf8(text).unwrap(), expected, "{script}");
}

/// With A3's step in each flush.
#[test]
fn the_log_example() {
    holds(
        "setup 1 1 2 1\n put 0 0 7\n step 0 x8\n put 0 0 9\n step 0\n collect 0\n step 0 x6",
        &[
            "ok", "ok", "going", "going", "going", "going", "going", "going", "going", "done",
            "ok", "no 14", "ok", "going", "going", "going", "going", "freed 0", "done",
        ],
    );
}

#[test]
fn setups() {
    holds(
        "setup 17 1 1 1\n step 0\n setup 16 1 1 1\n setup 16 1 1 1",
        &["no 5", "no 8", "ok", "no 9"],
    );
    holds("setup 1 2 1 1\n setup 1 257 257 1\n setup 1 1 2049 1\n setup 1 1 1 0", &["no 5"; 4]);
    holds(
        "setup 16 256 2048 4294967295\n open 15\n step 15\n step 15",
        &["ok", "ok", "no 15", "no 11"],
    );
}

#[test]
fn the_clock_at_its_end() {
    holds(
        "setup 2 1 1 4294967294\n open 0\n step 0 x2\n open 1\n step 1",
        &["ok", "ok", "going", "at 4294967294", "ok", "no 15"],
    );
}

#[test]
fn two_announce_one_time() {
    holds(
        "setup 2 1 1 5\n open 0\n open 1\n step 0\n step 1\n step 0\n step 1\n open 0\n close 0\n step 0\n open 0\n step 0 x2",
        &["ok", "ok", "ok", "going", "going", "at 5", "at 5", "no 12", "ok", "done", "ok", "going", "at 6"],
    );
}

#[test]
fn an_unstamped_put_is_not_in_an_older_snapshot() {
    holds(
        "setup 2 1 2 5\n put 0 0 7\n step 0\n open 1\n step 1 x2\n read 1 0\n step 1 x3",
        &["ok", "ok", "going", "ok", "going", "at 5", "ok", "going", "going", "none"],
    );
}

/// A1: 16 stands after 4 and before 10, is given from 1000000000000 on, and changes nothing.
#[test]
fn the_limit_of_a_put() {
    holds(
        "put 0 0 1000000000000\n setup 2 1 4 1\n put 2 0 1000000000000\n put 2 1 1000000000000
        put 0 1 1000000000000\n put 0 0 1000000000000\n step 0\n put 0 0 999999999999
        put 0 0 1000000000000\n put 0 0 999999999998\n step 0\n put 0 0 18446744073709551615\n step 0 x2
        get 1 0\n put 1 0 1099511627776\n step 1\n put 1 0 1000000000001\n put 1 0 999999999998
        step 1 x2\n get 0 0\n step 0",
        &[
            "no 8", "ok", "no 3", "no 3", "no 4", "no 16", "no 11", "ok", "no 16", "no 10", "going",
            "no 16", "going", "done", "ok", "no 16", "value 999999999999 0", "no 16", "ok", "going",
            "going", "ok", "value 999999999998 0",
        ],
    );
    // 2, 1 and 6 come before it too.
    holds(
        "setup 1 1 2 1\n bytes 01 00 00 00 00 01 00 00 ff ff ff ff ff ff ff ff
        bytes 0c 00 00 00 00 00 00 00 ff ff ff ff ff ff ff ff
        bytes 01 00 00 00 00 00 00 00 ff ff ff ff ff ff ff",
        &["ok", "no 2", "no 1", "no 6"],
    );
}

/// Each power of two and each power of ten, one below and one above; twice, on an idle and a busy worker.
#[test]
fn values_of_all_lengths() {
    let powers = (0..64).map(|n| 1 << n).chain((0..20).map(|n| 10u64.pow(n)));
    let values = powers.flat_map(|power: u64| [power - 1, power, power.saturating_add(1)]);
    let mut refused = 0;
    for value in values.chain([u64::MAX]) {
        let script = format!(
            "setup 2 1 3 1\n put 0 0 {value}\n put 0 0 {value}\n step 0 x3\n get 1 0\n step 1"
        );
        let shown = format!("value {value} 0");
        if value <= 999_999_999_999 {
            holds(&script, &["ok", "ok", "no 10", "going", "going", "done", "ok", &shown]);
        } else {
            holds(&script, &["ok", "no 16", "no 16", "no 11", "no 11", "no 11", "ok", "none"]);
            refused += 1;
        }
    }
    // From 2^40 on, 10^12 and one above, from 10^13 on, the largest.
    assert_eq!(refused, 3 * 24 + 2 + 3 * 7 + 1);
}

#[test]
fn ends_of_files() {
    assert_eq!(printed(b"", &[], &[]), b"");
    for length in 1..16 {
        agree("a rest", &Script::plain(vec![7; length]));
        assert_eq!(printed(&vec![7; length], &[], &[]), b"0 no 6\n");
        let mut file = records("setup 1 1 1 1\n get 0 0\n step 0");
        file.extend(vec![0; length]);
        assert_eq!(printed(&file, &[], &[]), b"0 ok\n1 ok\n2 none\n3 no 6\n");
    }
}

/// Every seeded script, on both processors; what they reached together.
fn together(scripts: Vec<(Kind, &'static str, u64, usize)>) -> Coverage {
    let mut total = Coverage::default();
    let half = scripts.len() / 2;
    let run = |part: &[(Kind, &str, u64, usize)]| {
        let mut reached = Coverage::default();
        for &(kind, name, seed, length) in part {
            reached.add(&agree(&format!("{name} {seed}"), &script(kind, seed, length)));
        }
        reached
    };
    thread::scope(|scope| {
        let first = scope.spawn(|| run(&scripts[..half]));
        total.add(&run(&scripts[half..]));
        total.add(&first.join().expect("no difference"));
    });
    total
}

#[test]
fn random_scripts_of_all_kinds() {
    let mut scripts = Vec::new();
    for seed in 0..134 {
        for (kind, name) in Kind::ALL {
            scripts.push((kind, name, seed, 1000));
        }
    }
    assert!(scripts.len() >= 2000);
    let total = together(scripts);
    println!("{total}");
    // 18 is met by values from before A1 alone, and no record of a file puts one.
    let mut expected = vec!["no 18"];
    let summands = Branch::ALL.iter().filter(|(branch, _)| Branch::OF_SUMMAND.contains(branch));
    expected.extend(summands.map(|(_, text)| *text));
    assert_eq!(total.missing(), expected);
    let least = |branches: &[Branch], least: u64| {
        for &branch in branches {
            let met = total.branches[branch as usize];
            assert!(met >= least, "{branch:?} met {met} times");
        }
    };
    least(&Branch::OF_LIMIT, 500);
    least(&Branch::OF_TOTAL, 20);
    least(&Branch::OF_LIST, 500);
    least(&Branch::of_marks().collect::<Vec<_>>(), 20);
    least(&Branch::of_readings().collect::<Vec<_>>(), 40);
    least(&Branch::of_rights().collect::<Vec<_>>(), 100);
    least(&Branch::of_tables().collect::<Vec<_>>(), 15);
    least(&Branch::of_statuses().collect::<Vec<_>>(), 100);
    assert!(total.refusals[25] > 5000, "{}", total.refusals[25]);
    // Both of what a get, a read or a marked read may answer.
    assert!(
        total.answered_with("none") > 20_000 && total.answered_with("value") > 60_000,
        "{total}"
    );
    assert!(total.lists.iter().all(|&met| met >= 30), "{:?}", total.lists);
    assert!(total.tables.iter().all(|&met| met >= 30), "{:?}", total.tables);
}

#[test]
fn long_scripts_of_the_largest_hub() {
    together((1000..1012).map(|seed| (Kind::Large, "large", seed, 40_000)).collect());
}

/// Marks and releases in each other's way, and marks that are held for long.
#[test]
fn long_scripts_of_marks() {
    let kinds = [(Kind::Marks, "marks"), (Kind::Held, "held")];
    let seeded = |(kind, name)| (2000..2004).map(move |seed| (kind, name, seed, 40_000));
    let total = together(kinds.into_iter().flat_map(seeded).collect());
    for refusal in [19, 20, 21] {
        assert!(total.refusals[refusal] > 100, "{refusal}: {}", total.refusals[refusal]);
    }
}

/// Few puts on up to thirty registers: many are read before the first.
#[test]
fn long_scripts_of_empty_flats() {
    let total = together((3000..3006).map(|seed| (Kind::Empty, "empty", seed, 40_000)).collect());
    for branch in Branch::of_readings() {
        let met = total.branches[branch as usize];
        assert!(met > 3, "{branch:?} met {met} times");
    }
}

/// Tables of rights, three in ten of them refused.
#[test]
fn longer_scripts_of_rights() {
    let seeds = 4000..4060;
    let total = together(seeds.map(|seed| (Kind::Rights, "rights", seed, 5000)).collect());
    for branch in Branch::of_rights() {
        let met = total.branches[branch as usize];
        assert!(met > 3, "{branch:?} met {met} times");
    }
}

/// Puts of statuses above 2 among the others, with tables that are fit or refused.
#[test]
fn longer_scripts_of_statuses() {
    let seeds = 5000..5020;
    let total = together(seeds.map(|seed| (Kind::Statuses, "statuses", seed, 5000)).collect());
    for branch in Branch::of_statuses() {
        let met = total.branches[branch as usize];
        assert!(met > 0, "{branch:?} met {met} times");
    }
    assert!(total.refusals[25] > 3000, "{}", total.refusals[25]);
}

/// The numbers of the lines have up to seven digits.
#[test]
fn more_than_a_million_lines() {
    let reached = agree("totals 7", &script(Kind::Totals, 7, 1_100_000));
    // Its few registers have readings soon: `none` is only at the beginning.
    let (none, others) = reached.answers.split_last().expect("some");
    assert!(*none > 0 && others.iter().all(|&met| met > 1000), "{reached}");
}

#[test]
fn uniformly_random_bytes() {
    let mut random = Random::new(1);
    let bytes: Vec<u8> = (0..1_600_007).map(|_| random.bits() as u8).collect();
    // After a setup too, so that operations are reached.
    let set_up = [&records("setup 16 256 2048 1"), &bytes[..]].concat();
    agree("uniform bytes", &Script::plain(bytes));
    agree("uniform bytes after a setup", &Script::plain(set_up));
}
