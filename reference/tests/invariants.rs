//! The invariant and the plain registers along random scripts, after every record.

use crate::common;

use reference::generate::{script_across, Kind, Script};
use reference::ghost::Ghost;
use reference::invariant;
use reference::record::LENGTH;
use reference::{Hub, Record};

/// Runs a script whose first `before` records come before A1, and checks after each record (on large
/// hubs after every hundredth).
fn run(kind: Kind, seed: u64, count: usize, before: usize) -> Result<(), String> {
    let mut hub = Hub::new();
    let mut ghost = None;
    let script = script_across(kind, seed, count, before);
    script.give(&mut hub);
    let Script { records, list, .. } = script;
    for (number, bytes) in records.chunks(LENGTH).enumerate() {
        common::set_rule(&mut hub, number, before);
        let earlier = hub.store().cloned();
        let answer = hub.take(bytes, &list);
        let Some(after) = hub.store() else { continue };
        let (Some(earlier), Some(ghost)) = (&earlier, &mut ghost) else {
            ghost = Some(Ghost::start(after));
            continue;
        };
        let record = Record::decode(bytes).ok();
        if let Some(record) = record.filter(|record| !record.refused_on_reading(answer)) {
            ghost.follow(earlier, record, hub.max_value, answer, after)?;
        }
        if kind != Kind::Large || number % 100 == 0 {
            invariant::check(after).map_err(|reason| format!("record {number}: {reason}"))?;
            ghost.check(after).map_err(|reason| format!("record {number}: {reason}"))?;
        }
    }
    Ok(())
}

#[test]
fn random_scripts_keep_the_invariant() {
    for (kind, name) in Kind::ALL {
        let (seeds, count) = match kind {
            Kind::Large => (3, 8000),
            Kind::Sizes => (10, 1000),
            _ => (27, 1000),
        };
        for seed in 0..seeds {
            // Every third of them comes over from before A1.
            let before = if seed % 3 == 2 { count / 2 } else { 0 };
            if let Err(reason) = run(kind, 5000 + seed, count, before) {
                panic!("{name} {seed}: {reason}");
            }
        }
    }
}
