//! The near misses of A8: each by a short script or a row, by random scripts, and those that show another
//! status by the order checker.

use crate::common;

use common::{across, list, records, table, words};
use reference::fault::*;
use reference::generate::{script, Kind, Script};
use reference::order::{self, Claim};
use reference::row::{write_row, write_row_with, Written};
use reference::{Reading, Refusal};

/// The last answers of the right hub and of the fault. Group 0 has registers 0 and 1; worker 2 may put
/// to register 0 alone.
fn told<F: Fault>(text: &str) -> [String; 2] {
    let rights = "worker 0 put read collect marks registers 0 to 9
        worker 1 put read collect marks registers 0 to 9\n worker 2 put read registers 0 to 0";
    let (records, list) = (records(&format!("setup 3 2 9 1\n {text}")), list("0 + 0\n 0 + 1"));
    let script = Script { records, list, table: table(rights) };
    let last = |answers: &[_]| words(answers).pop().expect("a record");
    [last(&across::<Right>(&script, 0)), last(&across::<F>(&script, 0))]
}

/// Register 0 with an estimate of 100, worker 1's snapshot of it, kept by mark 0, and the correction.
const CORRECTION: &str = "put 0 0 100 1\n step 0 x3\n open 1\n step 1 x2\n mark 1 0\n step 1
    put 0 0 90 2\n step 0 x3";

/// The same after the correction.
fn corrected<F: Fault>(text: &str) -> [String; 2] {
    told::<F>(&format!("{CORRECTION}\n {text}"))
}

#[test]
fn a_short_script_for_each_near_miss_of_pairing() {
    for (text, value) in [
        ("read 1 0\n step 1 x3", "value 100"),
        ("marked 0 0 0\n step 0 x3", "value 100"),
        ("total 1 0\n step 1 x5", "value 100"),
    ] {
        let pair = [format!("{value} 1"), format!("{value} 2")];
        assert_eq!(corrected::<StatusOfNewer>(text), pair, "{text}");
        let pair = [format!("{value} 1"), format!("{value} 0")];
        assert_eq!(corrected::<LowLosesStatus>(text), pair, "{text}");
        assert_eq!(corrected::<HighLosesStatus>(text), pair, "{text}");
        assert_eq!(corrected::<PublishLosesStatus>(text), pair, "{text}");
    }
    let get = "get 2 0\n step 2";
    assert_eq!(corrected::<StatusOfCovered>(get), ["value 90 2", "value 90 1"]);
    assert_eq!(corrected::<LowLosesStatus>(get), ["value 90 2", "value 90 0"]);
    assert_eq!(corrected::<PublishLosesStatus>(get), ["value 90 2", "value 90 0"]);
    // The newest version has no high, and nothing over it.
    assert_eq!(corrected::<HighLosesStatus>(get), ["value 90 2", "value 90 2"]);
    assert_eq!(corrected::<StatusOfNewer>(get), ["value 90 2", "value 90 2"]);
}

#[test]
fn a_short_script_for_the_near_miss_of_a_total() {
    let total = |first: u8, second: u8| {
        let text = format!(
            "put 0 0 100 {first}\n step 0 x3\n put 0 1 20 {second}\n step 0 x3\n open 1\n step 1 x2
            total 1 0\n step 1 x4"
        );
        told::<TotalLastStatus>(&text)
    };
    assert_eq!(total(2, 0), ["value 120 2", "value 120 0"]);
    assert_eq!(total(2, 1), ["value 120 2", "value 120 1"]);
    assert_eq!(total(0, 1), ["value 120 1", "value 120 1"]);
}

#[test]
fn a_short_script_for_each_near_miss_of_25() {
    assert_eq!(told::<CorrectedRefused>("put 0 0 7 2"), ["ok", "no 25"]);
    assert_eq!(told::<CorrectedRefused>("put 0 0 7 1"), ["ok", "ok"]);
    assert_eq!(told::<ThreeAccepted>("put 0 0 7 3"), ["no 25", "ok"]);
    assert_eq!(told::<ThreeAccepted>("put 0 0 7 4"), ["no 25", "no 25"]);
    let large = "put 0 0 1000000000000 3";
    assert_eq!(told::<StatusBeforeValue>(large), ["no 16", "no 25"]);
    assert_eq!(told::<StatusBeforeValue>("put 0 2 7 3"), ["no 4", "no 4"]);
    // Worker 2 has no right there; busy, it gets 23 before 10.
    let forbidden = "put 2 1 7 3";
    assert_eq!(told::<StatusAfterForbidden>(forbidden), ["no 25", "no 23"]);
    assert_eq!(told::<StatusAfterBusy>(forbidden), ["no 25", "no 23"]);
    let busy = "get 2 0\n put 2 0 7 3";
    assert_eq!(told::<StatusAfterForbidden>(busy), ["no 25", "no 25"]);
    assert_eq!(told::<StatusAfterBusy>(busy), ["no 25", "no 10"]);
    assert_eq!(told::<StatusAfterBusy>("put 2 0 7 3"), ["no 25", "no 25"]);
    assert_eq!(told::<StatusIdles>(&format!("{busy}\n step 2")), ["none", "no 11"]);
}

/// What the right row writer and the fault do with a status, in a buffer of so many bytes.
fn rows<F: Fault>(
    length: usize,
    register: u16,
    status: u8,
) -> [(Result<Written, Refusal>, Vec<u8>); 2] {
    let reading = Some(Reading { value: 7, status });
    let mut buffers = [vec![9; length], vec![9; length]];
    let right = write_row(&mut buffers[0], register, 1, reading);
    let wrong = write_row_with::<F>(&mut buffers[1], register, 1, reading);
    let [first, second] = buffers;
    [(right, first), (wrong, second)]
}

#[test]
fn a_row_for_each_near_miss_of_the_row_writer() {
    let answers = |told: [(Result<Written, Refusal>, Vec<u8>); 2]| told.map(|(answer, _)| answer);
    let [register, short, status] =
        [Refusal::Register, Refusal::Buffer, Refusal::Status].map(Err::<Written, _>);
    assert_eq!(answers(rows::<RowStatusBeforeBuffer>(15, 0, 3)), [short, status]);
    assert_eq!(answers(rows::<RowStatusBeforeBuffer>(15, 256, 3)), [register, register]);
    assert_eq!(answers(rows::<RowStatusBeforeBuffer>(16, 0, 3)), [status, status]);
    let [right, wrong] = rows::<RowStatusWritten>(16, 0, 3);
    assert_eq!((right.0, right.1, wrong.0), (status, vec![9; 16], status));
    assert_ne!(wrong.1, vec![9; 16]);
    let [right, wrong] = rows::<RowStatusLater>(16, 0, 2);
    assert_eq!((right.0, wrong.0), (Ok(Written::Row), Ok(Written::Row)));
    assert_eq!((&right.1[..4], &wrong.1[..4]), (&[0, 0, 2, 0][..], &[0, 0, 0, 2][..]));
    assert_eq!(right.1[4..], wrong.1[4..]);
}

/// Random scripts: in how many the log differs, and the claims that are broken.
fn caught<F: Fault>(least: usize) -> (usize, Vec<Claim>) {
    const KINDS: [Kind; 4] = [Kind::Mixed, Kind::Totals, Kind::Marks, Kind::Statuses];
    let seeded = |kind| (0..60).map(move |seed| script(kind, 13_000 + seed, 800));
    let (mut differing, mut claims) = (0, Vec::new());
    for script in KINDS.into_iter().flat_map(seeded) {
        let log = across::<F>(&script, 0);
        differing += usize::from(log != across::<Right>(&script, 0));
        let found = order::check(&script.records, &script.list, &script.table, &log).err();
        claims.extend(found.map(|violation| violation.claim));
    }
    assert!(differing >= least, "{differing}");
    (differing, claims)
}

/// Each of these shows another status than that of the put, and the checker finds just that.
#[test]
fn random_scripts_for_near_misses_that_show_another_status() {
    for (differing, claims) in [
        caught::<StatusOfNewer>(100),
        caught::<StatusOfCovered>(100),
        caught::<PublishLosesStatus>(150),
        caught::<LowLosesStatus>(150),
        caught::<HighLosesStatus>(100),
        caught::<TotalLastStatus>(50),
    ] {
        assert_eq!(claims, vec![Claim::Status; differing]);
    }
}

/// A put of status 3 does not exist, and one that begins is found; the others only refuse more or in
/// another place.
#[test]
fn random_scripts_for_each_near_miss_of_25() {
    let (_, claims) = caught::<ThreeAccepted>(30);
    assert!(claims.len() > 20, "{}", claims.len());
    assert!(claims.iter().all(|&claim| claim == Claim::Fit), "{claims:?}");
    for (_, claims) in [
        caught::<CorrectedRefused>(150),
        caught::<StatusBeforeValue>(30),
        caught::<StatusAfterForbidden>(10),
        caught::<StatusAfterBusy>(40),
    ] {
        assert_eq!(claims, []);
    }
    // The worker's steps are refused from then on.
    caught::<StatusIdles>(40);
}
