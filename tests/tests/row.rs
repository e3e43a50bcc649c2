//! The read-out row: what the program `row_cases` must print, by the second program's row writer.

use reference::row::{write_row, Written};
use reference::Reading;

#[test]
fn row_cases_print_what_the_second_program_writes() {
    let mut expected = Vec::new();
    let with = |status| Some(Reading { value: 0x0102_0304_0506_0708, status });
    for (length, register, reading) in [
        (15, 0, with(0)),
        (16, 0, with(0)),
        (31, 1, with(0)),
        (32, 1, with(0)),
        (32, 256, with(0)),
        (15, 0, None),
        (16, 0, None),
        (32, 256, None),
        (16, 0, with(1)),
        (16, 0, with(2)),
        (16, 0, with(3)),
        (15, 0, with(3)),
        (16, 256, with(3)),
        (32, 1, with(2)),
    ] {
        let mut buffer = vec![9; length];
        expected.push(match write_row(&mut buffer, register, 0x0102_0304, reading) {
            Ok(Written::Row) => 0,
            Ok(Written::None) => 255,
            Err(refusal) => refusal.number(),
        });
        expected.extend(buffer);
    }
    assert_eq!(expected, include_bytes!("../../crates/row_cases/stdout"));
    // Fifteen bytes give 7; sixteen are written.
    assert_eq!((expected[0], expected[16]), (7, 0));
}
