//! The checker of demand 3: what it finds in order, and each violation by a log made for it.

use crate::common;

use common::{examined, records};
use reference::generate::{script, Kind};
use reference::log;
use reference::order::{self, Action, Claim, Held, Outcome, Violation};
use reference::{Answer, Hub, Reading};

/// Checks a script with the answers that the hub gives.
fn check(script: &str) -> order::Order {
    let file = records(script);
    let answers = log::answers(&mut Hub::new(), &file, &[]);
    order::check(&file, &[], &[], &answers).expect("in order")
}

/// Checks a script with some of the hub's answers replaced.
fn check_with(script: &str, replaced: &[(usize, &str)]) -> Violation {
    examined(script, replaced).1.expect("a violation")
}

#[test]
fn random_scripts_of_all_kinds_are_in_order() {
    let mut operations = 0;
    for (kind, name) in Kind::ALL {
        for seed in 0..220 {
            let script = script(kind, seed, if kind == Kind::Large { 6000 } else { 1200 });
            match order::check(&script.records, &script.list, &script.table, &script.answers()) {
                Ok(order) => operations += order.sequence.len(),
                Err(violation) => panic!("{name} {seed}: {violation}"),
            }
        }
    }
    assert!(operations > 100_000, "{operations} operations");
}

#[test]
fn effects_of_each_operation() {
    let order = check(
        "setup 2 1 3 5
        put 0 0 7
        step 0
        open 1
        step 1
        get 1 0
        step 1
        get 1 0
        step 1
        step 0 x2
        collect 0
        close 1
        step 1",
    );
    let effects: Vec<_> = order.sequence.iter().map(|&o| order.operations[o].effect).collect();
    // The open at its second step; the put at the get's step, before the get; the close. The put
    // is done, the collect has taken no step.
    assert_eq!(effects, [Some(6), Some(8), Some(8), Some(13)]);
    assert_eq!(order.sequence, [1, 0, 2, 4]);
    let get = order.operations[2];
    assert_eq!(
        (get.action, get.shown),
        (Action::Get { register: 0 }, Some(Reading::read(7).into()))
    );
    assert_eq!((get.begin, get.end()), (7, Some(8)));
    assert_eq!(order.operations[3].outcome, Outcome::Unfinished);
    assert_eq!(order.operations[3].effect, None);
    let text = "14 records, 5 operations: 4 finished, 0 refused, 1 unfinished; \
        4 in the order, 0 slots freed";
    assert_eq!(order.to_string(), text);
}

/// Each at its step, a marked read at its end; the put that it stamps before it.
#[test]
fn effects_of_marks() {
    let order = check(
        "setup 2 1 4 1\n open 0\n step 0 x2\n mark 0 7\n step 0\n close 0\n step 0\n put 1 0 9
        step 1\n marked 0 0 7\n step 0 x3\n release 0 7\n mark 0 7\n step 0",
    );
    let placed: Vec<_> = order.sequence.iter().map(|&o| order.operations[o]).collect();
    let effects: Vec<_> = placed.iter().map(|o| (o.action, o.effect.unwrap())).collect();
    let expected = [
        (Action::Open, 3),
        (Action::Mark { mark: 7 }, 5),
        (Action::Close, 7),
        (Action::Put { register: 0, reading: Reading::read(9) }, 11),
        (Action::Marked { register: 0, mark: 7 }, 13),
        (Action::Release { mark: 7 }, 16),
    ];
    assert_eq!(effects, expected);
    assert_eq!(placed[4].shown, None);
    let held = Held { mark: 7, time: 1, worker: 0, from: 5, until: Some(16) };
    assert_eq!(order.held, [held]);
}

#[test]
fn opens_at_one_time_take_effect_together_lowest_worker_first() {
    let order = check(
        "setup 3 1 1 5
        open 2
        step 2
        open 0
        step 0
        open 1
        step 2",
    );
    // Worker 1 has announced nothing; worker 0's open is unfinished and has its effect.
    let workers: Vec<u8> = order.sequence.iter().map(|&o| order.operations[o].worker).collect();
    assert_eq!(workers, [0, 2]);
    assert!(order.sequence.iter().all(|&o| order.operations[o].effect == Some(6)));
    assert_eq!(order.operations[1].outcome, Outcome::Unfinished);
}

#[test]
fn an_unfinished_put_that_is_stamped_counts() {
    let script = "setup 2 1 2 1\n put 0 0 7\n step 0\n get 1 0\n step 1";
    let order = check(script);
    assert_eq!(order.sequence, [0, 1]);
    assert_eq!(order.operations[1].shown, Some(Reading::read(7).into()));
    // One that is not stamped counts as not begun.
    assert_eq!(check("setup 2 1 2 1\n put 0 0 7\n step 0").sequence, []);
}

#[test]
fn refused_operations_are_not_fed() {
    let order = check("setup 1 1 1 4294967295\n put 0 0 7\n step 0\n open 0\n step 0");
    assert_eq!(order.sequence, []);
    assert!(order.operations.iter().all(|o| matches!(o.outcome, Outcome::Refused { .. })));
}

#[test]
fn lists_without_a_setup_or_with_any_record_are_in_order() {
    assert_eq!(check("").operations, []);
    assert_eq!(check("put 0 0 1\n step 0\n bytes 09").operations, []);
    let order =
        check("setup 1 1 1 1\n setup 1 1 1 1\n get 0 0\n setup 0 0 0 0\n step 0\n bytes 01");
    assert_eq!(order.sequence, [0]);
}

const READ: &str = "setup 2 1 4 1
    put 0 0 7
    step 0 x3
    open 1
    step 1 x2
    put 0 0 8
    step 0 x3
    read 1 0
    step 1 x3
    get 1 0
    step 1";

#[test]
fn wrong_values_are_found() {
    let order = check(READ);
    let shown: Vec<_> = order.operations.iter().filter_map(|operation| operation.shown).collect();
    assert_eq!(shown.iter().map(|shown| shown.value).collect::<Vec<_>>(), [7, 8]);
    let violation = check_with(READ, &[(15, "value 8 0")]);
    assert_eq!((violation.record, violation.claim), (15, Claim::Value));
    let violation = check_with(READ, &[(17, "value 7 0")]);
    assert_eq!((violation.record, violation.claim), (17, Claim::Value));
    // The lower record number comes first.
    assert_eq!(check_with(READ, &[(15, "value 0 0"), (17, "value 0 0")]).record, 15);
}

#[test]
fn a_broken_order_is_given_whole() {
    let (order, violation) = examined(READ, &[(15, "value 8 0")]);
    assert_eq!(violation.unwrap().claim, Claim::Value);
    let shown: Vec<_> = order.operations.iter().filter_map(|operation| operation.shown).collect();
    assert_eq!(shown.iter().map(|shown| shown.value).collect::<Vec<_>>(), [7, 8]);
    assert_eq!(order.records, 18);
}

#[test]
fn steps_belong_to_their_operations() {
    let order = check("setup 2 1 4 1\n put 0 0 7\n step 0\n get 1 0\n step 1\n step 0\n step 1");
    let steps: Vec<_> = order.steps.iter().map(|step| (step.record, step.operation)).collect();
    // The last step is refused: it was not taken.
    assert_eq!(steps, [(2, 0), (4, 1), (5, 0)]);
    assert_eq!(order.steps[1].answer, Answer::value(7, 0));
}

/// One worker, B 1: the second put's flush frees slot 0.
const FREE: &str = "setup 1 2 6 1
    put 0 0 7
    step 0 x8
    put 0 0 8
    step 0 x3
    step 0 x4
    step 0 x2";

#[test]
fn freeing_what_a_snapshot_needs_is_found() {
    let file = records(FREE);
    let answers = log::answers(&mut Hub::new(), &file, &[]);
    let place = answers.iter().position(|&answer| answer == Answer::Freed(0)).unwrap();
    // Slot 1 is register 1's only version, slot 2 the version just covered.
    for (slot, claim) in [("freed 1", Claim::Fit), ("freed 5", Claim::Fit), ("freed 9", Claim::Fit)]
    {
        assert_eq!(check_with(FREE, &[(place, slot)]).claim, claim, "{slot}");
    }
    let script = "setup 2 1 4 1
        put 0 0 7
        step 0 x3
        open 1
        step 1 x2
        put 0 0 8
        step 0 x10
        collect 0
        step 0 x6
        step 0 x2";
    let file = records(script);
    let answers = log::answers(&mut Hub::new(), &file, &[]);
    let place = answers.iter().position(|&answer| answer == Answer::Freed(0)).unwrap();
    // Slot 0 has range 0 to 1, slot 1 has 1 to 2, which worker 1's time 1 needs.
    let violation = check_with(script, &[(place, "freed 1")]);
    assert_eq!((violation.record, violation.claim), (place, Claim::NeededFreed));
    assert!(violation.sentence.contains("range 1 to 2"), "{violation}");
}

#[test]
fn freeing_twice_is_found() {
    let file = records(FREE);
    let answers = log::answers(&mut Hub::new(), &file, &[]);
    let place = answers.iter().position(|&answer| answer == Answer::Freed(0)).unwrap();
    let violation = check_with(FREE, &[(place + 1, "freed 0")]);
    assert_eq!((violation.record, violation.claim), (place + 1, Claim::FreedTwice));
}

#[test]
fn a_put_that_ends_unstamped_is_found() {
    // Ended at its first step: neither a step of a put nor ever stamped.
    let violation = check_with("setup 2 1 3 1\n put 0 0 7\n step 0", &[(2, "done")]);
    assert_eq!((violation.record, violation.claim), (2, Claim::Fit));
}

#[test]
fn answers_that_fit_no_record_are_found() {
    let script = "setup 1 1 2 1\n open 0\n step 0 x2\n bytes 09\n";
    for (record, words) in
        [(0, "going"), (1, "value 0 0"), (2, "at 1"), (3, "at 2"), (3, "going"), (4, "ok")]
    {
        let violation = check_with(script, &[(record, words)]);
        assert_eq!((violation.record, violation.claim), (record, Claim::Fit), "{record} {words}");
    }
    let file = records(script);
    let answers = log::answers(&mut Hub::new(), &file, &[]);
    assert_eq!(order::check(&file, &[], &[], &answers[1..]).unwrap_err().claim, Claim::Fit);
    assert_eq!(order::check(&file[16..], &[], &[], &answers).unwrap_err().claim, Claim::Fit);
    // A second setup that is accepted, a step of an idle worker, a begin on a busy one.
    let script = "setup 1 1 2 1\n setup 1 1 2 1\n step 0\n get 0 0\n get 0 0";
    for (record, words) in [(1, "ok"), (2, "going"), (4, "ok")] {
        assert_eq!(check_with(script, &[(record, words)]).record, record);
    }
}

#[test]
fn random_logs_never_make_the_checker_fail_otherwise() {
    // Answers of other scripts: mostly unfit, and always told as a violation or an order.
    for seed in 0..300 {
        let kind = [Kind::Mixed, Kind::Totals, Kind::Marks][seed as usize % 3];
        let (script, other) = (script(kind, seed, 300), script(Kind::Batches, seed + 1, 300));
        let answers = other.answers();
        let check =
            |answers: &[_]| order::check(&script.records, &script.list, &script.table, answers);
        let _ = check(&answers);
        let mut mixed = script.answers();
        for (place, answer) in mixed.iter_mut().enumerate().filter(|(place, _)| place % 37 == 36) {
            *answer = answers[place % answers.len()];
        }
        let _ = check(&mixed);
    }
}
