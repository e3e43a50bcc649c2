//! `eachlog` applies each record by itself, with one call of `hub::call_owned`. It prints what the second program and `hublog` print, and on rows of
//! other lengths what the second program says of such a row.

use hublog_tests::{each_printed, printed_with};
use reference::answer::Answer;
use reference::fault::Right;
use reference::generate::{script, Kind, Script};
use reference::{log, record, text, Hub};

fn plain(script: &str) -> Script {
    Script::plain(text::pack(script.as_bytes()).expect("a well-formed script"))
}

/// The second program's log for a row of so many slots, and of another number from record `at` on. A row that is too short for the hub that is
/// set up counts as not set up, with the row that is there; a row that is long enough makes no difference. The table that was given stays.
fn expected(script: &Script, long: usize, change: Option<(usize, usize)>) -> Vec<u8> {
    let mut hub = Hub::<Right, ()>::with_row(long);
    script.give(&mut hub);
    let mut answers: Vec<Answer> = Vec::new();
    for (k, bytes) in script.records.chunks(record::LENGTH).enumerate() {
        if let Some((at, later)) = change {
            let fits =
                |hub: &Hub<Right, ()>| hub.store().is_some_and(|store| store.slots.len() <= later);
            if k == at && !fits(&hub) {
                hub = Hub::with_row(later);
                script.give(&mut hub);
            }
        }
        answers.push(hub.take(bytes, &script.list));
    }
    log::log_text(&answers)
}

#[test]
fn one_call_a_record_prints_what_a_buffer_prints() {
    for seed in 0..12 {
        for (kind, name) in Kind::ALL {
            let script = script(kind, seed, 400);
            let text = each_printed(&script, 2048, None);
            let Script { records, list, table } = &script;
            assert!(
                text == printed_with(records, list, table, &[]),
                "{name} {seed}: hublog prints something else"
            );
            let expected = expected(&script, 2048, None);
            assert!(text == expected, "{name} {seed}: the second program does");
        }
    }
}

#[test]
fn a_row_shorter_than_its_n_gets_5() {
    let file =
        plain("setup 2 3 9 1\n step 0\n setup 2 3 8 1\n put 0 2 7\n step 0 x3\n setup 1 1 1 1");
    let text = each_printed(&file, 8, None);
    assert_eq!(
        String::from_utf8(text.clone()).unwrap(),
        "0 no 5\n1 no 8\n2 ok\n3 ok\n4 going\n5 going\n6 done\n7 no 9\n"
    );
    assert_eq!(text, expected(&file, 8, None));
}

#[test]
fn a_row_that_got_shorter_gets_8() {
    // Eight slots, then seven: not set up any more, until a setup of at most seven.
    let file = plain("setup 1 1 8 1\n get 0 0\n step 0\n get 0 0\n step 0\n setup 1 1 8 1\n setup 1 1 7 1\n get 0 0");
    let text = each_printed(&file, 8, Some((3, 7)));
    assert_eq!(
        String::from_utf8(text.clone()).unwrap(),
        "0 ok\n1 ok\n2 none\n3 no 8\n4 no 8\n5 no 5\n6 ok\n7 ok\n"
    );
    assert_eq!(text, expected(&file, 8, Some((3, 7))));
    // A row that got longer, or shorter and still long enough, is the same hub.
    for (slots, later) in [(9, 8), (8, 2048)] {
        let text = each_printed(&file, slots, Some((3, later)));
        assert_eq!(text, expected(&file, slots, Some((3, later))));
    }
}

#[test]
fn random_scripts_on_rows_of_other_lengths() {
    let mut refused = 0;
    for seed in 0..40 {
        for (kind, name) in [
            (Kind::Mixed, "mixed"),
            (Kind::Slots, "slots"),
            (Kind::Setups, "setups"),
            (Kind::Tails, "tails"),
            (Kind::Totals, "totals"),
            (Kind::Marks, "marks"),
            (Kind::Empty, "empty"),
            (Kind::Rights, "rights"),
            (Kind::Statuses, "statuses"),
        ] {
            let script = script(kind, 900 + seed, 250);
            let long = 1 + (seed as usize * 7) % 60;
            let later = 1 + (seed as usize * 11) % 60;
            let at = 30 + seed as usize;
            let text = each_printed(&script, long, None);
            assert!(text == expected(&script, long, None), "{name} {seed}: a row of {long}");
            refused += usize::from(String::from_utf8_lossy(&text).contains(" no 5\n"));
            let text = each_printed(&script, long, Some((at, later)));
            assert!(
                text == expected(&script, long, Some((at, later))),
                "{name} {seed}: a row of {long}, from record {at} on of {later}"
            );
        }
    }
    assert!(refused > 20, "rows too short were met {refused} times");
}
