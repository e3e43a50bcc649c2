//! A6: `rows` moves stored rows as the second program does, to the new form and back, and refuses what it
//! refuses: valid buffers, damaged ones and any bytes.

use hublog_tests::moved;
use reference::bcd::{convert, Way};
use reference::buffers::{damaged, row, valid};
use reference::generate::Random;
use reference::Refusal;
use std::process::Output;
use std::thread;

/// How many buffers were written, and refused with 6, 16 and 22.
#[derive(Clone, Copy, Debug, Default)]
struct Counts {
    written: usize,
    part: usize,
    value: usize,
    coding: usize,
}

impl Counts {
    /// Holds `rows` against the second program on one buffer.
    fn agree(&mut self, way: Way, buffer: &[u8]) {
        let mut expected = buffer.to_vec();
        let answer = convert(way, &mut expected);
        let (output, error) = match answer {
            Ok(()) => (&expected[..], String::new()),
            Err(refusal) => (&[][..], format!("no {}\n", refusal.number())),
        };
        let Output { status, stdout, stderr } = moved(&[way.name()], buffer);
        let told = String::from_utf8_lossy(&stderr);
        let length = buffer.len();
        assert_eq!(told, error, "{way:?}, {length} bytes: {:x?}", &buffer[..length.min(160)]);
        assert!(stdout == output, "{way:?}, {length} bytes: {:x?}", &buffer[..length.min(160)]);
        assert!(status.success(), "{way:?}: {status}");
        *match answer {
            Ok(()) => &mut self.written,
            Err(Refusal::Length) => &mut self.part,
            Err(Refusal::Value) => &mut self.value,
            Err(_) => &mut self.coding,
        } += 1;
    }

    fn add(&mut self, other: Counts) {
        self.written += other.written;
        self.part += other.part;
        self.value += other.value;
        self.coding += other.coding;
    }
}

/// One way: valid, damaged and random buffers, short ones and some of many rows.
fn random_buffers(way: Way) -> Counts {
    let mut random = Random::new(60 + way as u64);
    let mut counts = Counts::default();
    for turn in 0..500 {
        let most = if turn % 50 == 0 { 3000 } else { 9 };
        let rows = random.between(1, most) as usize;
        let buffer = match turn % 5 {
            0 | 1 => valid(way, rows, &mut random)[0].clone(),
            2 | 3 => damaged(way, rows, &mut random),
            _ => {
                let length = 16 * rows - random.pick(&[0, 0, 0, 1, 7, 8, 15]);
                (0..length).map(|_| random.bits() as u8).collect()
            }
        };
        counts.agree(way, &buffer);
    }
    counts
}

#[test]
fn random_buffers_both_ways() {
    let mut total = Counts::default();
    thread::scope(|scope| {
        let other = scope.spawn(|| random_buffers(Way::ToOld));
        total.add(random_buffers(Way::ToNew));
        total.add(other.join().expect("no difference"));
    });
    println!("{total:?}");
    let Counts { written, part, value, coding } = total;
    assert_eq!(written + part + value + coding, 1000);
    assert!(written > 400 && part > 80 && value > 100 && coding > 100, "{total:?}");
}

/// A8: the status, byte 2, stays both ways, and so does every byte there.
#[test]
fn the_status_stays() {
    let mut counts = Counts::default();
    for form in [0, 1] {
        let way = Way::ALL[form];
        let rows = |form: usize| -> Vec<u8> {
            (0..=255).flat_map(|status| row([3, 0, status, 0, 7, 0, 0, 0], 42)[form]).collect()
        };
        counts.agree(way, &rows(form));
        let there = moved(&[way.name()], &rows(form)).stdout;
        assert!(there == rows(1 - form), "{way:?}");
        assert!(there.chunks(16).zip(0..=255).all(|(row, status)| row[2] == status), "{way:?}");
    }
    assert_eq!(counts.written, 2);
}

/// Every length up to three rows, of rows that fit and of bytes that do not.
#[test]
fn every_length() {
    let mut counts = Counts::default();
    let mut random = Random::new(48);
    for way in Way::ALL {
        let [whole, _] = valid(way, 3, &mut random);
        for length in 0..=whole.len() {
            counts.agree(way, &whole[..length]);
            counts.agree(way, &vec![0xff; length]);
        }
    }
    // Of 49 lengths four are whole, and without a row there is nothing to refuse.
    let Counts { written, part, value, coding } = counts;
    assert_eq!((written, part, value, coding), (2 * 5, 4 * 45, 3, 3));
}

/// Every value of every byte that is judged, in the middle of three rows.
#[test]
fn every_byte_of_a_new_row() {
    let mut counts = Counts::default();
    let (first, last) = (row([1; 8], 7)[1], row([2; 8], 8)[1]);
    let middle = row([0xff; 8], 123_456_789_012)[1];
    for place in 8..16 {
        for byte in 0..=255 {
            let mut changed = middle;
            changed[place] = byte;
            counts.agree(Way::ToOld, &[first, changed, last].concat());
        }
    }
    // One DIF, one VIF, and a hundred pairs of digits in each of six bytes.
    assert_eq!((counts.written, counts.coding), (2 + 6 * 100, 2 * 255 + 6 * 156));
}

#[test]
fn values_at_the_limit() {
    let mut counts = Counts::default();
    let powers = (0..64).map(|n| 1 << n).chain((0..20).map(|n| 10u64.pow(n)));
    for power in powers {
        for value in [power - 1, power, power.saturating_add(1)] {
            counts.agree(Way::ToNew, &row([3; 8], value)[0]);
        }
    }
    // From 2^40 on, 10^12 and one above, and from 10^13 on.
    let large = 3 * 24 + 2 + 3 * 7;
    assert_eq!((counts.written, counts.value), (3 * 84 - large, large));
}

/// There and back with the program itself, from either form.
#[test]
fn there_and_back() {
    let mut random = Random::new(5);
    for (way, back) in [(Way::ToNew, Way::ToOld), (Way::ToOld, Way::ToNew)] {
        let [begin, end] = valid(way, 5000, &mut random);
        let there = moved(&[way.name()], &begin).stdout;
        assert!(there == end, "{way:?}");
        assert!(moved(&[back.name()], &there).stdout == begin, "{back:?}");
    }
}

/// The longest buffer, and one that is longer by a byte, a row or many.
#[test]
fn the_longest_buffer() {
    const LONGEST: usize = 4_194_304;
    let mut random = Random::new(9);
    for way in Way::ALL {
        let [mut begin, end] = valid(way, LONGEST / 16, &mut random);
        let Output { stdout, stderr, .. } = moved(&[way.name()], &begin);
        assert!(stdout == end && stderr.is_empty(), "{way:?}");
        for more in [1, 16, 1_000_000] {
            begin.resize(LONGEST + more, 0);
            let Output { stdout, stderr, status } = moved(&[way.name()], &begin);
            assert!(stdout.is_empty() && status.success(), "{way:?}");
            assert_eq!(stderr, b"rows: more than 4194304 bytes\n", "{way:?}");
        }
    }
}

#[test]
fn how_it_is_used() {
    for arguments in [&[][..], &["to-newer"], &["to-ne"], &["TO-NEW"], &[""]] {
        let Output { stdout, stderr, status } = moved(arguments, &[]);
        assert!(stdout.is_empty() && status.success(), "{arguments:?}");
        assert_eq!(stderr, b"usage: rows to-new | to-old\n", "{arguments:?}");
    }
}
