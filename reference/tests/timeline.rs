//! The order as an SVG timeline.

use crate::common;

use common::{examined, examined_with, sample};
use reference::generate::{script, Kind};
use reference::order::{self, Claim, Violation};
use reference::store::MAX_VALUE;
use reference::timeline::Timeline;
use reference::Answer;
use std::collections::HashSet;

/// The timeline of a script, with some of the hub's answers replaced.
fn timeline(script: &str, replaced: &[(usize, &str)]) -> String {
    let (order, violation) = examined(script, replaced);
    Timeline::new(&order, violation.as_ref()).to_string()
}

/// How many elements have these classes, or more after them.
fn count(svg: &str, classes: &str) -> usize {
    let elements = svg.split("class=\"").skip(1);
    let ends = |rest: &str| rest.starts_with(['"', ' ']);
    elements.filter(|rest| rest.strip_prefix(classes).is_some_and(ends)).count()
}

/// Are all tags closed in turn, all quotes paired, and all signs of markup in text escaped?
fn well_formed(svg: &str) -> bool {
    let mut open = Vec::new();
    for part in svg.trim_start_matches('<').split('<') {
        let Some((tag, text)) = part.split_once('>') else { return false };
        let entity = |rest: &str| ["amp;", "lt;", "gt;"].iter().any(|e| rest.starts_with(e));
        let escaped = !text.contains('>') && text.split('&').skip(1).all(entity);
        let paired = tag.matches('"').count() % 2 == 0;
        let name = tag.trim_start_matches('/').split([' ', '/']).next();
        let in_turn = match (tag.starts_with('/'), tag.ends_with('/')) {
            (true, _) => open.pop() == Some(name),
            (_, true) => true,
            _ => {
                open.push(name);
                true
            }
        };
        if !(escaped && paired && in_turn) {
            return false;
        }
    }
    open.is_empty()
}

#[test]
fn broken_markup_is_found() {
    assert!(well_formed("<a x=\"1\"><b/>c &amp; d</a>\n"));
    for broken in ["<a>", "<a><b></a></b>", "</a>", "<a>&</a>", "<a>></a>", "<a x=\"></a>", "<a/"] {
        assert!(!well_formed(broken), "{broken}");
    }
}

#[test]
fn the_sample_is_what_the_tool_makes() {
    assert_eq!(timeline(&sample("order.txt"), &[]), sample("order.svg"));
}

#[test]
fn a_lane_for_each_worker() {
    for workers in [1, 3, 16] {
        let svg = timeline(&format!("setup {workers} 1 1 1\n get 0 0\n step 0"), &[]);
        assert_eq!(count(&svg, "lane"), workers);
        assert!(svg.contains(&format!(">worker {}</text>", workers - 1)));
    }
    assert_eq!(count(&timeline("get 0 0", &[]), "lane"), 0);
}

#[test]
fn everything_is_drawn_once() {
    // The legend alone.
    let legend = timeline("", &[]);
    for (kind, name) in Kind::ALL {
        for seed in 0..10 {
            let script = script(kind, seed, 400);
            let order =
                order::check(&script.records, &script.list, &script.table, &script.answers())
                    .unwrap();
            let svg = Timeline::new(&order, None).to_string();
            assert!(well_formed(&svg), "{name} {seed}");
            let drawn = |class| count(&svg, class) - count(&legend, class);
            let refused =
                order.operations.iter().filter(|o| matches!(o.answer(), Some(Answer::No(_))));
            let unfinished = order.operations.iter().filter(|o| o.end().is_none());
            let marks: HashSet<u16> = order.held.iter().map(|held| held.mark).collect();
            let expected = [
                ("lane", usize::from(order.workers) + marks.len()),
                ("held", order.held.len()),
                ("bar", order.operations.len()),
                ("bar refused", refused.count()),
                ("label", order.operations.len()),
                ("place", order.sequence.len()),
                ("freed", order.freed),
                ("tick", order.steps.len() - order.freed),
            ];
            for (class, number) in expected {
                assert_eq!(drawn(class), number, "{class} of {name} {seed}");
            }
            assert_eq!(svg.matches(" unfinished\"").count() - 1, unfinished.count());
        }
    }
}

#[test]
fn bars_and_places_stand_at_their_records() {
    // Four columns of 44 pixels from 78 on: the get begins at record 1 and ends at record 2.
    let svg = timeline("setup 2 1 1 1\n get 1 0\n step 1\n collect 0", &[]);
    let (lane, bar) = (58 + 68, 58 + 68 + 24);
    assert!(svg.contains(&format!(r#"<rect class="lane" x="78" y="{lane}""#)), "{svg}");
    assert!(
        svg.contains(&format!(r#"<rect class="bar get" x="122" y="{bar}" width="84""#)),
        "{svg}"
    );
    let middle = 78 + 2 * 44 + 20;
    assert!(
        svg.contains(&format!(r#"<text class="place" x="{middle}" y="164">1</text>"#)),
        "{svg}"
    );
    // The collect is open at its end.
    assert!(
        svg.contains(r#"<path class="bar collect unfinished" d="M254 82H210V102H254"/>"#),
        "{svg}"
    );
}

/// The numbers in a tag after each of these, as in `x="7"` or `H7`.
fn numbers(tag: &str, before: &str) -> Vec<usize> {
    let after = tag.split(before).skip(1);
    let digits = |rest: &str| rest.chars().take_while(char::is_ascii_digit).collect::<String>();
    after.filter_map(|rest| digits(rest).parse().ok()).collect()
}

/// The right edges of the elements of a class, but for most of the legend.
fn right_edges(svg: &str, class: &str) -> Vec<usize> {
    let drawn = svg.split("class=\"legend\"").next().unwrap_or(svg);
    let tags = drawn.split('<').filter(|tag| count(tag, class) > 0);
    let right = |tag: &str| match numbers(tag, " width=\"")[..] {
        [width] => numbers(tag, " x=\"")[0] + width,
        _ => [numbers(tag, "\"M"), numbers(tag, "H")].concat().into_iter().max().unwrap_or(0),
    };
    tags.map(right).collect()
}

#[test]
fn nothing_runs_past_its_lane() {
    let unfinished = "setup 2 1 9 1\n open 1\n step 1\n put 0 0 7\n step 0 x40\n put 0 0 8";
    let mut svgs = vec![timeline(unfinished, &[]), timeline(&sample("order.txt"), &[])];
    for (kind, _) in Kind::ALL {
        let script = script(kind, 3, 150);
        let order =
            order::check(&script.records, &script.list, &script.table, &script.answers()).unwrap();
        svgs.push(Timeline::new(&order, None).to_string());
    }
    let mut bars = 0;
    for svg in svgs {
        let Some(&lane) = right_edges(&svg, "lane").first() else { continue };
        for class in ["bar", "snapshot", "held", "effect"] {
            let edges = right_edges(&svg, class);
            bars += edges.len();
            assert!(edges.iter().all(|&edge| edge <= lane), "{class}: {edges:?} past {lane}");
        }
    }
    assert!(bars > 500, "{bars}");
}

#[test]
fn links_and_snapshots() {
    let opens = "setup 3 1 1 5\n open 0\n step 0\n open 2\n step 2 x2";
    let legend = timeline("", &[]);
    let drawn = |script: &str, class| count(&timeline(script, &[]), class) - count(&legend, class);
    // Worker 2's step passes the clock for worker 0 too; worker 1 is idle.
    assert_eq!((drawn(opens, "link"), drawn(opens, "snapshot")), (1, 2));
    let closed = format!("{opens}\n close 2\n step 2");
    assert_eq!((drawn(&closed, "link"), drawn(&closed, "snapshot")), (1, 2));
    assert_eq!(drawn("setup 1 1 1 5\n open 0", "snapshot"), 0);
}

#[test]
fn the_width_grows_with_the_records() {
    let width = |records| {
        let svg = timeline(&format!("setup 1 1 1 1\n step 0 x{}", records - 1), &[]);
        let width = svg.split("width=\"").nth(1).and_then(|rest| rest.split('"').next());
        width.and_then(|width| width.parse::<usize>().ok()).expect("a width")
    };
    assert_eq!(width(10), 900);
    assert_eq!(width(100), 78 + 100 * 22 + 16);
    assert_eq!(width(1000), 78 + 1000 * 22 + 16);
}

#[test]
fn labels_that_do_not_fit_are_shortened() {
    let last = timeline(&format!("setup 1 1 9 1\n put 0 0 {MAX_VALUE}"), &[]);
    assert!(last.contains(&format!(">put r0 = {MAX_VALUE}</text>")), "{last}");
    // A get that is followed at once has room for nine digits.
    let svg = timeline(
        "setup 1 1 9 1\n get 0 0\n step 0\n get 0 0\n",
        &[(2, "value 12345678901234567 0")],
    );
    assert!(
        svg.contains(r#"<text class="answer wrong" x="122" y="118">123456789…</text>"#),
        "{svg}"
    );
}

/// A record that is refused on reading has its column and no bar.
#[test]
fn puts_above_the_limit_are_not_drawn() {
    let legend = timeline("", &[]);
    let svg = timeline("setup 1 1 2 1\n put 0 0 1000000000000\n get 0 0\n step 0", &[]);
    assert_eq!(count(&svg, "bar") - count(&legend, "bar"), 1, "{svg}");
    assert!(svg.contains(">4 records, 1 operation: 1 finished, 0 refused, "), "{svg}");
    assert!(!svg.contains("1000000000000") && !svg.contains("no 16"), "{svg}");
}

#[test]
fn a_broken_order_is_marked() {
    let script = "setup 1 1 2 1\n get 0 0\n step 0";
    assert_eq!(count(&timeline(script, &[]), "violation"), 0);
    let svg = timeline(script, &[(2, "value 3 0")]);
    assert!(well_formed(&svg));
    assert_eq!(count(&svg, "violation"), 1);
    assert!(svg.contains(">The order of demand 3: not accepted</text>"), "{svg}");
    assert!(svg.contains(">record 2: worker 0's get of register 0, "), "{svg}");
    assert!(svg.contains(">3 0 ≠ no value</text>"), "{svg}");
}

/// `none` stands below its bar as a value does, and in red where a value is shown.
#[test]
fn none_is_drawn_as_an_answer() {
    let script = "setup 1 1 4 1\n open 0\n step 0 x2\n mark 0 2\n step 0\n get 0 0\n step 0
        read 0 0\n step 0 x2\n marked 0 0 2\n step 0 x2";
    let svg = timeline(script, &[]);
    assert_eq!((count(&svg, "answer"), count(&svg, "answer wrong")), (4, 0), "{svg}");
    assert_eq!(svg.matches(">none</text>").count(), 3, "{svg}");
    let put = "setup 1 1 4 1\n put 0 0 0\n step 0 x8\n get 0 0\n step 0";
    assert!(timeline(put, &[]).contains(r#">0 0</text>"#));
    let svg = timeline(put, &[(11, "none")]);
    assert_eq!((count(&svg, "answer wrong"), count(&svg, "violation")), (1, 1), "{svg}");
    assert!(svg.contains(">none ≠ 0 0</text>"), "{svg}");
}

/// A put's status but for 0, and that of each value; in red where another one is shown.
#[test]
fn statuses_are_drawn() {
    let script = "setup 1 1 4 1\n put 0 0 7 estimated\n step 0 x8\n get 0 0\n step 0";
    let svg = timeline(script, &[]);
    assert!(svg.contains(">put r0 = 7 1</text>") && svg.contains(">7 1</text>"), "{svg}");
    assert!(timeline("setup 1 1 4 1\n put 0 0 7", &[]).contains(">put r0 = 7</text>"));
    let svg = timeline(script, &[(11, "value 7 0")]);
    assert_eq!((count(&svg, "answer wrong"), count(&svg, "violation")), (1, 1), "{svg}");
    assert!(svg.contains(">7 0 ≠ 7 1</text>"), "{svg}");
}

#[test]
fn any_answers_can_be_drawn() {
    for seed in 0..200 {
        let kind = [Kind::Mixed, Kind::Totals, Kind::Marks][seed as usize % 3];
        let script = script(kind, seed, 200);
        let mut answers = script.answers();
        // Answers of other records, mostly unfit.
        let others = answers.clone();
        for (place, answer) in answers.iter_mut().enumerate().skip(100).step_by(31) {
            *answer = others[(place + 7 * seed as usize) % others.len()];
        }
        let (order, violation) =
            order::examine(&script.records, &script.list, &script.table, &answers);
        assert!(well_formed(&Timeline::new(&order, violation.as_ref()).to_string()), "{seed}");
    }
}

#[test]
fn text_is_escaped() {
    let (order, _) = examined("setup 1 1 1 1", &[]);
    let sentence = "a < b & b > c".to_string();
    let violation = Violation { record: 0, claim: Claim::Once, sentence };
    let svg = Timeline::new(&order, Some(&violation)).to_string();
    assert!(svg.contains("a &lt; b &amp; b &gt; c"), "{svg}");
    assert!(well_formed(&svg));
}

#[test]
fn totals_are_drawn_as_reads() {
    let rows = "0 + 0\n 12 - 0";
    let script =
        "setup 1 1 4 1\n put 0 0 7\n step 0 x8\n open 0\n step 0 x2\n total 0 12\n step 0 x2";
    let (order, violation) = examined_with(rows, script, &[]);
    let svg = Timeline::new(&order, violation.as_ref()).to_string();
    assert!(well_formed(&svg));
    assert_eq!((count(&svg, "bar read total"), count(&svg, "wrong")), (1, 0), "{svg}");
    assert!(svg.contains(">total g12</text>") && svg.contains(">-7 0</text>"), "{svg}");
    let (order, violation) = examined_with(rows, script, &[(15, "value 7 0")]);
    let svg = Timeline::new(&order, violation.as_ref()).to_string();
    assert!(svg.contains(">7 0 ≠ -7 0</text>"), "{svg}");
}

/// A lane for each mark that held something, below the workers', with a bar from its step to the
/// release's, or to the end.
#[test]
fn marks_have_lanes() {
    let script = "setup 2 1 4 1\n open 0\n step 0 x2\n mark 0 3\n step 0\n mark 0 11\n step 0\n close 0\n step 0
        marked 1 0 3\n step 1 x2\n release 1 3\n step 1\n open 1\n step 1 x2\n mark 1 3\n step 1";
    let legend = timeline("", &[]);
    let svg = timeline(script, &[]);
    assert!(well_formed(&svg));
    let drawn = |class| count(&svg, class) - count(&legend, class);
    assert_eq!((drawn("lane"), drawn("held"), drawn("bar read marked")), (4, 3, 1), "{svg}");
    for words in [">mark 3<", ">mark 11<", ">mark m3<", ">marked r0 m3<", ">release m3<"] {
        assert!(svg.contains(words), "{words}: {svg}");
    }
    // Columns of 40 pixels: mark 3 is held from record 5 to record 14, and again from record 19 on.
    let lane = 58 + 2 * 68;
    let [from, to, again] = [5, 14, 19].map(|record| 78 + 40 * record + 18);
    let bar = |x, y, width: usize| format!(r#"class="held" x="{x}" y="{y}" width="{width}""#);
    assert!(svg.contains(&bar(from, lane + 3, to - from)), "{svg}");
    assert!(svg.contains(&bar(again, lane + 3, 78 + 40 * 20 - again)), "{svg}");
    assert!(svg.contains(">time 1 of worker 0</text>"), "{svg}");
    assert_eq!(drawn("snapshot"), 2);
    // Without a mark in use there is no such lane.
    assert_eq!(count(&timeline("setup 2 1 1 1\n mark 0 3\n release 0 3", &[]), "lane"), 2);
}
