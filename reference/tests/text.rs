//! The text tool: round trips for any bytes, the form of each command and of the rows of lists and tables,
//! errors with their lines.

use crate::common;

use common::{list, records, table};
use reference::generate::{script, Kind, Random};
use reference::record::LENGTH;
use reference::text::{pack, pack_list, pack_table, unpack, unpack_list, unpack_table, MAX_REPEAT};
use reference::{Reading, Record, Refusal};

fn round_trip(file: &[u8]) {
    let text = unpack(file);
    assert_eq!(pack(text.as_bytes()).as_deref(), Ok(file), "{text}");
}

#[test]
fn any_bytes_come_back() {
    let mut random = Random::new(7);
    for length in 0..400 {
        let file: Vec<u8> = (0..length).map(|_| random.bits() as u8).collect();
        round_trip(&file);
        // Mostly zero bytes and small numbers: many of these are well-formed records.
        let sparse =
            |random: &mut Random| if random.chance(850) { 0 } else { random.below(13) as u8 };
        let file: Vec<u8> = (0..length).map(|_| sparse(&mut random)).collect();
        round_trip(&file);
    }
}

#[test]
fn scripts_come_back() {
    for (kind, _) in Kind::ALL {
        (0..20).for_each(|seed| round_trip(&script(kind, seed, 300).records));
    }
}

#[test]
fn text_comes_back_too() {
    let text = "setup 16 256 2048 4294967295
put 255 65535 18446744073709551615
put 0 0 1000000000000
put 1 2 3 estimated
put 1 2 1000000000000 corrected
put 1 2 3 3
put 255 65535 18446744073709551615 255
open 3
read 4 9
close 5
get 0 0
collect 15
step 1
step 2 x3
total 3 31
total 255 65535
mark 3 11
mark 255 65535
release 0 12
marked 3 7 11
marked 255 65535 255
bytes 0c 00 00 00 00 00 00 00 00 00 00 00 00 00 00 01  # refused with 1: operation above 11
bytes 08 00 1f 00 01 00 00 00 00 00 00 00 00 00 00 00  # refused with 2: an unused byte is not zero
bytes 01 00 00 00 02 01 00 00 00 00 00 00 00 00 00 00  # refused with 2: an unused byte is not zero
bytes 02 00 00 00 00 00 00 00 00 00 00 00 00 00 00 01  # refused with 2: an unused byte is not zero
bytes 09 00 00 00 01 00 00 00 00 00 00 00 00 00 00 00  # refused with 2: an unused byte is not zero
bytes 0b 00 00 00 0b 01 00 00 00 00 00 00 00 00 00 00  # refused with 2: an unused byte is not zero
bytes ff  # refused with 6: fewer than 16 bytes
";
    assert_eq!(unpack(&pack(text.as_bytes()).unwrap()), text);
}

#[test]
fn unpacking_says_why_a_record_is_refused() {
    let mut random = Random::new(11);
    for length in 1..=LENGTH {
        for _ in 0..200 {
            let bytes: Vec<u8> = (0..length).map(|_| random.below(14) as u8).collect();
            let text = unpack(&bytes);
            let comment = text.trim_end().split_once("  # ").map(|(_, comment)| comment);
            let expected = match Record::decode(&bytes) {
                Ok(_) => None,
                Err(Refusal::Length) => Some("refused with 6: fewer than 16 bytes"),
                Err(Refusal::Operation) => Some("refused with 1: operation above 11"),
                Err(refusal) => {
                    assert_eq!(refusal, Refusal::UnusedByte);
                    Some("refused with 2: an unused byte is not zero")
                }
            };
            assert_eq!(comment, expected, "{text}");
        }
    }
}

#[test]
fn commands_and_their_bytes() {
    let cases: [(&str, [u8; LENGTH]); 19] = [
        ("setup 2 258 772 84281096", [0, 2, 2, 1, 4, 3, 0, 0, 8, 7, 6, 5, 0, 0, 0, 0]),
        ("put 3 258 578437695752307201", [1, 3, 2, 1, 0, 0, 0, 0, 1, 2, 3, 4, 5, 6, 7, 8]),
        ("put 3 258 5 read", [1, 3, 2, 1, 0, 0, 0, 0, 5, 0, 0, 0, 0, 0, 0, 0]),
        ("put 3 258 5 0", [1, 3, 2, 1, 0, 0, 0, 0, 5, 0, 0, 0, 0, 0, 0, 0]),
        ("put 3 258 5 estimated", [1, 3, 2, 1, 1, 0, 0, 0, 5, 0, 0, 0, 0, 0, 0, 0]),
        ("put 3 258 5 corrected", [1, 3, 2, 1, 2, 0, 0, 0, 5, 0, 0, 0, 0, 0, 0, 0]),
        ("put 3 258 5 2", [1, 3, 2, 1, 2, 0, 0, 0, 5, 0, 0, 0, 0, 0, 0, 0]),
        ("put 3 258 5 255", [1, 3, 2, 1, 255, 0, 0, 0, 5, 0, 0, 0, 0, 0, 0, 0]),
        ("open 9", [2, 9, 0, 0, 0, 0, 0, 0, 0, 0, 0, 0, 0, 0, 0, 0]),
        ("read 9 513", [3, 9, 1, 2, 0, 0, 0, 0, 0, 0, 0, 0, 0, 0, 0, 0]),
        ("close 9", [4, 9, 0, 0, 0, 0, 0, 0, 0, 0, 0, 0, 0, 0, 0, 0]),
        ("get 9 513", [5, 9, 1, 2, 0, 0, 0, 0, 0, 0, 0, 0, 0, 0, 0, 0]),
        ("collect 9", [6, 9, 0, 0, 0, 0, 0, 0, 0, 0, 0, 0, 0, 0, 0, 0]),
        ("step 9", [7, 9, 0, 0, 0, 0, 0, 0, 0, 0, 0, 0, 0, 0, 0, 0]),
        ("total 9 513", [8, 9, 1, 2, 0, 0, 0, 0, 0, 0, 0, 0, 0, 0, 0, 0]),
        ("mark 9 513", [9, 9, 1, 2, 0, 0, 0, 0, 0, 0, 0, 0, 0, 0, 0, 0]),
        ("release 9 513", [10, 9, 1, 2, 0, 0, 0, 0, 0, 0, 0, 0, 0, 0, 0, 0]),
        ("marked 9 513 3", [11, 9, 1, 2, 3, 0, 0, 0, 0, 0, 0, 0, 0, 0, 0, 0]),
        (
            "bytes 000102030405060708090a0b0c0D0E0f",
            [0, 1, 2, 3, 4, 5, 6, 7, 8, 9, 10, 11, 12, 13, 14, 15],
        ),
    ];
    for (text, bytes) in cases {
        assert_eq!(records(text), bytes, "{text}");
    }
}

#[test]
fn well_formed_records_decode_to_what_was_encoded() {
    let mut random = Random::new(3);
    for _ in 0..2000 {
        let (worker, register) = (random.bits() as u8, random.bits() as u16);
        let (slots, clock, value) = (random.bits() as u16, random.bits() as u32, random.bits());
        let record = random.pick(&[
            Record::Setup { workers: worker, registers: register, slots, clock },
            Record::Put { worker, register, reading: Reading { value, status: slots as u8 } },
            Record::Open { worker },
            Record::Read { worker, register },
            Record::Close { worker },
            Record::Get { worker, register },
            Record::Collect { worker },
            Record::Step { worker },
            Record::Total { worker, group: register },
            Record::Mark { worker, mark: register },
            Record::Release { worker, mark: register },
            Record::Marked { worker, register, mark: value as u8 },
        ]);
        assert_eq!(Record::decode(&record.encode()), Ok(record));
        assert_eq!(records(&unpack(&record.encode())), record.encode());
    }
}

/// Every status of a put comes back: read left out, the words of the next two, and numbers.
#[test]
fn statuses_come_back() {
    for status in 0..=255 {
        let reading = Reading { value: 7, status };
        let bytes = Record::Put { worker: 1, register: 2, reading }.encode();
        round_trip(&bytes);
        let expected = match status {
            0 => "put 1 2 7\n".to_string(),
            1 => "put 1 2 7 estimated\n".to_string(),
            2 => "put 1 2 7 corrected\n".to_string(),
            _ => format!("put 1 2 7 {status}\n"),
        };
        assert_eq!(unpack(&bytes), expected);
        assert_eq!(records(&format!("put 1 2 7 {status}")), bytes);
    }
}

#[test]
fn comments_blank_lines_and_spaces() {
    let text = "# a hub\n\n  setup 1 1 1 1   # the smallest\r\n\t\nstep 0 x2 #\n#end";
    assert_eq!(records(text), records("setup 1 1 1 1\nstep 0\nstep 0"));
    assert_eq!(records(""), []);
}

#[test]
fn long_runs_of_steps() {
    let file = records(&format!("step 3 x{MAX_REPEAT}\nstep 3 x2\nstep 4"));
    assert_eq!(file.len(), (MAX_REPEAT + 3) * LENGTH);
    assert_eq!(unpack(&file), format!("step 3 x{MAX_REPEAT}\nstep 3 x2\nstep 4\n"));
}

#[test]
fn errors_say_line_and_reason() {
    let cases = [
        ("open", 1, "not of the form: open WORKER"),
        ("\nput 1 2", 2, "not of the form: put WORKER REGISTER VALUE [STATUS]"),
        (
            "# a put\n\nput 0 0 7 1 8 # one too many",
            3,
            "not of the form: put WORKER REGISTER VALUE [STATUS]",
        ),
        (
            "put 0 0 7 estimate",
            1,
            "status \"estimate\" is not read, estimated, corrected or a number from 0 to 255",
        ),
        (
            "put 0 0 7 256",
            1,
            "status \"256\" is not read, estimated, corrected or a number from 0 to 255",
        ),
        (
            "open 1\nfly 3",
            2,
            "unknown command \"fly\", not one of setup, put, open, read, close, get, collect, \
            step, total, mark, release, marked, bytes",
        ),
        ("open 256", 1, "worker \"256\" is not a number from 0 to 255"),
        ("open -1", 1, "worker \"-1\" is not a number from 0 to 255"),
        ("open +1", 1, "worker \"+1\" is not a number from 0 to 255"),
        ("get one 0", 1, "worker \"one\" is not a number from 0 to 255"),
        ("read 0 65536", 1, "register \"65536\" is not a number from 0 to 65535"),
        (
            "put 0 0 18446744073709551616",
            1,
            "value \"18446744073709551616\" is not a number from 0 to 18446744073709551615",
        ),
        ("setup 1 1 1 4294967296", 1, "clock \"4294967296\" is not a number from 0 to 4294967295"),
        ("step 0 3", 1, "repetition \"3\" is not x1 to x1000000"),
        ("step 0 x", 1, "repetition \"x\" is not x1 to x1000000"),
        ("step 0 x0", 1, "repetition \"x0\" is not x1 to x1000000"),
        ("step 0 x1000001", 1, "repetition \"x1000001\" is not x1 to x1000000"),
        ("step 0 x1 x1", 1, "not of the form: step WORKER [xCOUNT]"),
        ("total 1", 1, "not of the form: total WORKER GROUP"),
        ("total 1 65536", 1, "group \"65536\" is not a number from 0 to 65535"),
        ("mark 1", 1, "not of the form: mark WORKER MARK"),
        ("release 1 2 3", 1, "not of the form: release WORKER MARK"),
        ("marked 1 2", 1, "not of the form: marked WORKER REGISTER MARK"),
        ("mark 1 65536", 1, "mark \"65536\" is not a number from 0 to 65535"),
        ("marked 1 65536 0", 1, "register \"65536\" is not a number from 0 to 65535"),
        ("marked 1 2 256", 1, "mark \"256\" is not a number from 0 to 255"),
        ("bytes", 1, "0 bytes where a record has 1 to 16"),
        ("bytes 0", 1, "\"0\" is not pairs of hexadecimal digits"),
        ("bytes 0g", 1, "\"0g\" is not pairs of hexadecimal digits"),
        ("bytes 00112233445566778899aabbccddeeff00", 1, "17 bytes where a record has 1 to 16"),
        ("open 1\nbytes 00\n\n# more\nopen 1", 2, "fewer than 16 bytes, but more commands follow"),
    ];
    for (text, line, reason) in cases {
        let error = pack(text.as_bytes()).unwrap_err();
        assert_eq!((error.line, error.reason.as_str()), (line, reason), "{text:?}");
    }
    let error = pack(b"open 1\n\xff").unwrap_err();
    assert_eq!(error.to_string(), "line 2: not UTF-8 text");
}

fn list_round_trip(list: &[u8]) {
    let text = unpack_list(list);
    assert_eq!(pack_list(text.as_bytes()).as_deref(), Ok(list), "{text}");
}

#[test]
fn any_list_comes_back() {
    let mut random = Random::new(9);
    for length in 0..200 {
        let bytes: Vec<u8> = (0..length).map(|_| random.bits() as u8).collect();
        list_round_trip(&bytes);
        // Many of these are rows.
        let bytes: Vec<u8> = (0..length).map(|_| random.below(3) as u8).collect();
        list_round_trip(&bytes);
    }
    (0..300).for_each(|seed| list_round_trip(&script(Kind::Lists, seed, 0).list));
}

#[test]
fn the_text_of_a_list_comes_back_too() {
    let text = "0 + 0
0 - 255
7 + 3
31 - 3
6 + 0  # refused with 5: group below the one before
32 + 0  # refused with 5: group above 31
31 + 256  # refused with 5: register not below V
255 - 65535  # refused with 5: group above 31
bytes 1f 02 00 00  # refused with 5: sign above 1
bytes 00 01 02  # refused with 5: fewer than 4 bytes
";
    assert_eq!(unpack_list(&pack_list(text.as_bytes()).unwrap()), text);
    let full = "5 + 0\n".repeat(32);
    let more = format!("{full}5 + 0  # refused with 5: more than 32 rows of a group\n6 + 0\n");
    assert_eq!(unpack_list(&list(&more)), more);
}

#[test]
fn rows_and_their_bytes() {
    let cases: [(&str, &[u8]); 7] = [
        ("", &[]),
        ("9 + 513", &[9, 0, 1, 2]),
        ("9 - 513", &[9, 1, 1, 2]),
        ("  0   +   0  ", &[0, 0, 0, 0]),
        ("bytes 00010203", &[0, 1, 2, 3]),
        ("# a stairwell\n\n1 + 2 # a flat\r\n1 - 3#feed-in", &[1, 0, 2, 0, 1, 1, 3, 0]),
        ("0 + 1\nbytes 01 02", &[0, 0, 1, 0, 1, 2]),
    ];
    for (text, bytes) in cases {
        assert_eq!(list(text), bytes, "{text:?}");
    }
}

#[test]
fn errors_in_a_list_say_line_and_reason() {
    const FORM: &str = "not of the form: GROUP + REGISTER or GROUP - REGISTER";
    let cases = [
        ("0 + 0\n0 + ", 2, FORM),
        ("0 * 0", 1, FORM),
        ("0 +0", 1, FORM),
        ("0 0", 1, FORM),
        ("0 + 0 + 1", 1, FORM),
        ("total 0 0", 1, FORM),
        ("256 + 0", 1, "group \"256\" is not a number from 0 to 255"),
        ("-1 + 0", 1, "group \"-1\" is not a number from 0 to 255"),
        ("\n0 - 65536", 2, "register \"65536\" is not a number from 0 to 65535"),
        ("bytes", 1, "0 bytes where a row has 1 to 4"),
        ("bytes 0011223344", 1, "5 bytes where a row has 1 to 4"),
        ("bytes 0", 1, "\"0\" is not pairs of hexadecimal digits"),
        ("bytes 00\n\n0 + 0", 1, "fewer than 4 bytes, but more rows follow"),
    ];
    for (text, line, reason) in cases {
        let error = pack_list(text.as_bytes()).unwrap_err();
        assert_eq!((error.line, error.reason.as_str()), (line, reason), "{text:?}");
    }
    assert_eq!(pack_list(b"0 + 0\n\xff").unwrap_err().to_string(), "line 2: not UTF-8 text");
}

fn table_round_trip(table: &[u8]) {
    let text = unpack_table(table);
    assert_eq!(pack_table(text.as_bytes()).as_deref(), Ok(table), "{text}");
}

#[test]
fn any_table_comes_back() {
    let mut random = Random::new(10);
    for length in 0..200 {
        let bytes: Vec<u8> = (0..length).map(|_| random.bits() as u8).collect();
        table_round_trip(&bytes);
        // Many of these are rows.
        let bytes: Vec<u8> = (0..length).map(|_| random.below(2) as u8).collect();
        table_round_trip(&bytes);
    }
    (0..300).for_each(|seed| table_round_trip(&script(Kind::Rights, seed, 0).table));
    for rights in 0..=255 {
        table_round_trip(&[3, rights, 0, 0, 7, 0, 0, 0]);
    }
}

#[test]
fn the_text_of_a_table_comes_back_too() {
    let text = "worker 3 read registers 0 to 7
worker 2 put read collect marks registers 0 to 255
worker 15 nothing registers 9 to 9
worker 16 put registers 0 to 0  # refused with 24: worker above 15
worker 0 collect registers 5 to 4  # refused with 24: first register above the last
worker 0 marks registers 0 to 256  # refused with 24: last register above 255
bytes 00 10 00 00 00 00 00 00  # refused with 24: rights above 15
bytes 00 01 00 00 00 00 00 01  # refused with 24: last two bytes not zero
bytes 00 01 02  # refused with 24: fewer than 8 bytes
";
    assert_eq!(unpack_table(&pack_table(text.as_bytes()).unwrap()), text);
    let full = "worker 0 put registers 0 to 0\n".repeat(64);
    let more =
        format!("{full}worker 0 put registers 0 to 0  # refused with 24: more than 64 rows\n");
    assert_eq!(unpack_table(&table(&more)), more);
}

#[test]
fn rows_of_a_table_and_their_bytes() {
    let cases: [(&str, &[u8]); 6] = [
        ("", &[]),
        ("worker 3 read registers 0 to 7", &[3, 2, 0, 0, 7, 0, 0, 0]),
        ("worker 2 marks put registers 258 to 772", &[2, 9, 2, 1, 4, 3, 0, 0]),
        ("  worker 0   nothing registers 1 to 2 # none\r", &[0, 0, 1, 0, 2, 0, 0, 0]),
        ("# a display\n\nbytes 0001020304050607", &[0, 1, 2, 3, 4, 5, 6, 7]),
        ("worker 0 put registers 0 to 0\nbytes 01 02", &[0, 1, 0, 0, 0, 0, 0, 0, 1, 2]),
    ];
    for (text, bytes) in cases {
        assert_eq!(table(text), bytes, "{text:?}");
    }
}

#[test]
fn errors_in_a_table_say_line_and_reason() {
    const FORM: &str = "not of the form: worker WORKER RIGHT... registers FIRST to LAST";
    let cases = [
        ("\nworker 0 put registers 0", 2, FORM),
        ("worker 0 put 0 to 3", 1, FORM),
        ("0 put registers 0 to 3", 1, FORM),
        ("worker 0 registers 0 to 3", 1, "no right, where `nothing` gives none"),
        ("worker 0 get registers 0 to 3", 1, "\"get\" is not one of put, read, collect, marks"),
        ("worker 0 put put registers 0 to 3", 1, "put twice"),
        (
            "worker 0 put nothing registers 0 to 3",
            1,
            "\"nothing\" is not one of put, read, collect, marks",
        ),
        ("worker 256 put registers 0 to 3", 1, "worker \"256\" is not a number from 0 to 255"),
        (
            "worker 0 put registers 0 to 65536",
            1,
            "register \"65536\" is not a number from 0 to 65535",
        ),
        ("bytes", 1, "0 bytes where a row has 1 to 8"),
        ("bytes 001122334455667788", 1, "9 bytes where a row has 1 to 8"),
        ("bytes 00\nbytes 00", 1, "fewer than 8 bytes, but more rows follow"),
    ];
    for (text, line, reason) in cases {
        let error = pack_table(text.as_bytes()).unwrap_err();
        assert_eq!((error.line, error.reason.as_str()), (line, reason), "{text:?}");
    }
}
