//! The near misses of A7: each by a short script, by random ones, and those that let a worker do what it
//! may not by the order checker.

use crate::common;

use common::{across, list, records, table, words};
use reference::fault::*;
use reference::generate::{script, Kind, Script};
use reference::order::{self, Claim};
use reference::store::MAX_SLOTS;
use reference::{log, Hub, Refusal};

/// The last answers of the right hub and of the fault, with worker 1's rows beside all rights of worker
/// 0, in a hub of three registers. Worker 1 has a snapshot, mark 0 keeps a time.
fn told<F: Fault>(own: &str, script: &str) -> [String; 2] {
    let rights = format!("worker 0 put read collect marks registers 0 to 255\n {own}");
    let start = "setup 2 3 9 1\n open 1\n step 1 x2\n open 0\n step 0 x2\n mark 0 0\n step 0";
    told_by::<F>(&rights, &format!("{start}\n {script}"))
}

/// The same with this table and this script.
fn told_by<F: Fault>(rights: &str, script: &str) -> [String; 2] {
    let (records, list) = (records(script), list("0 + 0\n 0 - 2"));
    let script = Script { records, list, table: table(rights) };
    let last = |answers: &[_]| words(answers).pop().expect("a record");
    [last(&across::<Right>(&script, 0)), last(&across::<F>(&script, 0))]
}

#[test]
fn a_short_script_for_each_near_miss_of_joined_rows() {
    let two = "worker 1 read registers 0 to 0\n worker 1 put registers 1 to 1";
    assert_eq!(told::<LastRowOnly>(two, "get 1 0"), ["ok", "no 23"]);
    assert_eq!(told::<LastRowOnly>(two, "put 1 1 5"), ["ok", "ok"]);
    assert_eq!(told::<RowReplaces>(two, "get 1 0"), ["ok", "ok"]);
    let over = "worker 1 read registers 0 to 2\n worker 1 put registers 1 to 1";
    assert_eq!(told::<RowReplaces>(over, "get 1 1"), ["ok", "no 23"]);
    assert_eq!(told::<RightsSpread>(two, "get 1 1"), ["no 23", "ok"]);
    assert_eq!(told::<RightsSpread>(two, "get 1 2"), ["no 23", "no 23"]);
    let span = "worker 1 read registers 0 to 1";
    assert_eq!(told::<FirstExcluded>(span, "get 1 0"), ["ok", "no 23"]);
    assert_eq!(told::<FirstExcluded>(span, "get 1 1"), ["ok", "ok"]);
    assert_eq!(told::<LastExcluded>(span, "get 1 1"), ["ok", "no 23"]);
    assert_eq!(told::<LastExcluded>(span, "get 1 0"), ["ok", "ok"]);
}

#[test]
fn a_short_script_for_each_near_miss_of_what_is_needed() {
    // Group 0 has registers 0 and 2.
    let lower = "worker 1 read marks registers 0 to 1";
    let both = format!("{lower}\n worker 1 read marks registers 2 to 2");
    assert_eq!(told::<TotalFirstOnly>(lower, "total 1 0"), ["no 23", "ok"]);
    for record in ["mark 1 1", "release 1 0"] {
        assert_eq!(told::<MarksOneRegister>(lower, record), ["no 23", "ok"]);
        assert_eq!(told::<MarksOneRow>(&both, record), ["ok", "no 23"]);
    }
    let beyond = "worker 1 collect registers 9 to 9";
    assert_eq!(told::<CollectEverywhere>(beyond, "collect 1"), ["ok", "no 23"]);
    assert_eq!(told::<GetFree>("", "get 1 0"), ["no 23", "ok"]);
    assert_eq!(told::<GetFree>("", "read 1 0"), ["no 23", "no 23"]);
    assert_eq!(told::<MarkedByMarks>(lower, "marked 1 0 0"), ["ok", "no 23"]);
    let marks = "worker 1 marks registers 0 to 2";
    assert_eq!(told::<MarkedByMarks>(marks, "marked 1 0 0"), ["no 23", "ok"]);
}

#[test]
fn a_short_script_for_each_near_miss_of_where_23_stands() {
    let own = "worker 1 read registers 0 to 0";
    assert_eq!(told::<ForbiddenBeforeRegister>(own, "get 1 3"), ["no 4", "no 23"]);
    assert_eq!(told::<ForbiddenBeforeRegister>(own, "get 2 3"), ["no 3", "no 3"]);
    let large = "put 1 0 1000000000000";
    assert_eq!(told::<ForbiddenBeforeValue>(own, large), ["no 16", "no 23"]);
    let busy = "get 1 0\n put 1 0 5";
    assert_eq!(told::<ForbiddenAfterBusy>(own, busy), ["no 23", "no 10"]);
    assert_eq!(told::<ForbiddenAfterBusy>(own, "put 1 0 5"), ["no 23", "no 23"]);
    assert_eq!(told::<NoRowsAllowed>("", "get 1 0"), ["no 23", "ok"]);
    let script = "setup 1 3 4 1\n get 0 0";
    assert_eq!(told_by::<EmptyForbids>("", script), ["ok", "no 23"]);
}

/// What a hub answers to tables one after another, and then to the last record of a script.
fn given<F: Fault>(tables: &[&[u8]], script: &str) -> (Vec<Option<Refusal>>, String) {
    let mut hub = Hub::<F>::with_row(usize::from(MAX_SLOTS));
    let told = tables.iter().map(|table| hub.give_table(table).err()).collect();
    let answers = log::answers(&mut hub, &records(script), &[]);
    (told, words(&answers).pop().expect("a record"))
}

#[test]
fn a_short_table_for_each_near_miss_of_tables() {
    let (first, second) =
        (table("worker 0 read registers 0 to 0"), table("worker 0 read registers 1 to 1"));
    let refused = Some(Refusal::Table);
    let script = "setup 1 2 4 1\n get 0 1";
    let told = |refusals: &[Option<Refusal>], word: &str| (refusals.to_vec(), word.to_string());
    let earlier: [&[u8]; 2] = [&first, &[0; 7]];
    assert_eq!(given::<Right>(&earlier, script), told(&[None, refused], "no 23"));
    assert_eq!(given::<RefusedClears>(&earlier, script), told(&[None, refused], "ok"));
    let later: [&[u8]; 2] = [&second, &first];
    assert_eq!(given::<Right>(&later, script), told(&[None, None], "no 23"));
    assert_eq!(given::<TablesJoined>(&later, script), told(&[None, None], "ok"));
    let many = first.repeat(65);
    assert_eq!(given::<Right>(&[&many], script), told(&[refused], "ok"));
    assert_eq!(given::<Row65>(&[&many], script), told(&[None], "no 23"));
    assert_eq!(given::<Row65>(&[&first.repeat(66)], script), told(&[refused], "ok"));
    let pair = [0, 2, 0, 0, 0, 0, 0, 1];
    assert_eq!(given::<Right>(&[&pair], script), told(&[refused], "ok"));
    assert_eq!(given::<PairUntested>(&[&pair], script), told(&[None], "no 23"));
    let falling = [0, 2, 1, 0, 0, 0, 0, 0];
    assert_eq!(given::<Right>(&[&falling], script), told(&[refused], "ok"));
    assert_eq!(given::<OrderUntested>(&[&falling], script), told(&[None], "no 23"));
}

/// A hub that is set up and then given a damaged table, and one that is emptied.
#[test]
fn a_short_table_for_each_near_miss_of_a_hub_that_is_set_up() {
    fn late<F: Fault>() -> (Result<(), Refusal>, String) {
        let mut hub = Hub::<F>::with_row(usize::from(MAX_SLOTS));
        hub.give_table(&table("worker 0 read registers 0 to 0")).expect("a table");
        let script = records("setup 1 2 4 1\n get 0 1");
        log::answers(&mut hub, &script, &[]);
        let told = hub.give_table(&[0; 7]);
        hub.empty();
        (told, words(&log::answers(&mut hub, &script, &[])).pop().expect("a record"))
    }
    assert_eq!(late::<Right>(), (Err(Refusal::SetUp), "ok".to_string()));
    assert_eq!(late::<TableFirst>(), (Err(Refusal::Table), "ok".to_string()));
    assert_eq!(late::<TableKept>(), (Err(Refusal::SetUp), "no 23".to_string()));
}

/// Random scripts: in how many the log differs, and the claims that are broken. A damaged table is given
/// after each script's own.
fn caught<F: Fault>(least: usize) -> (usize, Vec<Claim>) {
    const KINDS: [Kind; 5] = [Kind::Mixed, Kind::Invalid, Kind::Totals, Kind::Marks, Kind::Rights];
    let seeded = |kind| (0..80).map(move |seed| script(kind, 11_000 + seed, 800));
    let (mut differing, mut claims) = (0, Vec::new());
    for script in KINDS.into_iter().flat_map(seeded) {
        let log = twice::<F>(&script);
        differing += usize::from(log != twice::<Right>(&script));
        let found = order::check(&script.records, &script.list, &script.table, &log).err();
        claims.extend(found.map(|violation| violation.claim));
    }
    assert!(differing >= least, "{differing}");
    (differing, claims)
}

fn twice<F: Fault>(script: &Script) -> Vec<reference::Answer> {
    let mut hub = Hub::<F>::with_row(usize::from(MAX_SLOTS));
    script.give(&mut hub);
    let damaged = [&script.table[..], &[0]].concat();
    assert!(hub.give_table(&damaged).is_err());
    log::answers(&mut hub, &script.records, &script.list)
}

/// These let a worker begin what it may not, and the checker finds that; where it is busy or without a
/// snapshot, it gets another refusal in the place of 23, and only the log tells them.
#[test]
fn random_scripts_for_near_misses_that_allow_too_much() {
    for (differing, claims) in [
        caught::<RightsSpread>(30),
        caught::<TotalFirstOnly>(10),
        caught::<MarksOneRegister>(40),
        caught::<GetFree>(60),
        caught::<NoRowsAllowed>(40),
        caught::<RefusedClears>(80),
    ] {
        assert!(claims.len() * 2 > differing, "{} of {differing}", claims.len());
        assert!(claims.iter().all(|&claim| claim == Claim::Fit), "{claims:?}");
    }
    // This one mostly refuses what is allowed.
    let (differing, claims) = caught::<MarkedByMarks>(50);
    assert!(claims.len() > 5 && claims.len() <= differing, "{}", claims.len());
    assert!(claims.iter().all(|&claim| claim == Claim::Fit));
}

/// These only refuse more, or in another place: the order holds, and the log tells them.
#[test]
fn random_scripts_for_near_misses_that_refuse() {
    for (_, claims) in [
        caught::<LastRowOnly>(60),
        caught::<RowReplaces>(30),
        caught::<FirstExcluded>(80),
        caught::<LastExcluded>(80),
        caught::<MarksOneRow>(15),
        caught::<CollectEverywhere>(30),
        caught::<ForbiddenBeforeRegister>(30),
        caught::<ForbiddenBeforeValue>(30),
        caught::<ForbiddenAfterBusy>(60),
        caught::<EmptyForbids>(100),
    ] {
        assert_eq!(claims, []);
    }
}

/// Random tables for those that accept what is none. The checker takes them for refused, and for all
/// allowed, so that it finds nothing.
#[test]
fn random_tables_for_each_near_miss_of_a_table() {
    fn caught<F: Fault>() {
        let scripts = (0..2500).map(|seed| script(Kind::Rights, 12_000 + seed, 150));
        let differs = |script: &Script| across::<F>(script, 0) != across::<Right>(script, 0);
        let differing = scripts.filter(differs).count();
        assert!(differing > 10, "{differing}");
    }
    caught::<Row65>();
    caught::<PairUntested>();
    caught::<OrderUntested>();
}
