//! Ways to get it nearly right, as variants of the hub chosen at compile time: document 01's four,
//! and those of requests of document 02.
//!
//! The right hub has every constant false, so that the variants cost it nothing.

use crate::answer::{Answer, Refusal};
use crate::reading::{Reading, LAST_STATUS, READ};
use crate::store::{Doing, Slot, MAX_VALUE};

macro_rules! faults {
    ($($(#[$text:meta])+ $name:ident $constant:ident)*) => {
        /// Which rules the hub breaks.
        pub trait Fault {
            $($(#[$text])+ const $constant: bool = false;)*
        }

        $(
            $(#[$text])+
            #[derive(Clone, Copy, Debug, Default)]
            pub struct $name;
            impl Fault for $name {
                const $constant: bool = true;
            }
        )*
    };
}

/// No fault: the hub of documents 01 and 02.
#[derive(Clone, Copy, Debug, Default)]
pub struct Right;
impl Fault for Right {}

faults! {
    /// First way, first half: keeps everything newer than the oldest snapshot, needed where some
    /// a < high.
    NewerThanOldest NEWER_THAN_OLDEST
    /// First way, second half: counts high as inside the range, needed where some low ≤ a ≤ high.
    HighInside HIGH_INSIDE
    /// Second way: looks up the covering version's low when handing in.
    CoveringLow COVERING_LOW
    /// Third way: reads the announced times first and takes the pools after them; as many steps as
    /// the right flush.
    TimesFirst TIMES_FIRST
    /// Fourth way: leaves a read on an unlinked version.
    LeaveRead LEAVE_READ

    /// A1: refuses a put of the limit itself.
    LimitRefused LIMIT_REFUSED
    /// A1: accepts a put of one above the limit.
    NextAccepted NEXT_ACCEPTED
    /// A1: tests the lower six bytes of the value only.
    SixBytes SIX_BYTES
    /// A1: tests 16 with the record's own bytes, before 8.
    ValueFirst VALUE_FIRST
    /// A1: tests 16 before 4.
    ValueBeforeRegister VALUE_BEFORE_REGISTER
    /// A1: tests 16 after 10.
    ValueAfterBusy VALUE_AFTER_BUSY
    /// A1: sets the worker idle with 16, as 14 and 15 do.
    ValueIdles VALUE_IDLES
    /// A1: tests 16 at put's first step once more, where a put may come that began before the rule.
    ValueAtStep VALUE_AT_STEP
    /// A1: a get shows the limit in place of a larger value that is stored.
    GetHides GET_HIDES
    /// A1: a read shows the limit in place of a larger value that is stored.
    ReadHides READ_HIDES
    /// A1: a flush passes over a version with a larger value and does not free it.
    LargeKept LARGE_KEPT
    /// A1: takes memory with a larger value in a slot for not set up.
    LargeNotSetUp LARGE_NOT_SET_UP

    /// A2: the sum without the last row.
    SumWithoutLast SUM_WITHOUT_LAST
    /// A2: adds what is to be subtracted, and the other way round.
    SignsExchanged SIGNS_EXCHANGED
    /// A2: takes each register's newest value, whatever the worker's time.
    TotalNewest TOTAL_NEWEST
    /// A2: counts a register once that stands in the group twice.
    TwiceOnce TWICE_ONCE
    /// A2: reads the rows of the next group too.
    NextGroupToo NEXT_GROUP_TOO
    /// A2: leaves a total on an unlinked version.
    LeaveTotal LEAVE_TOTAL
    /// A2: tests 18 when a total begins too, on the newest values.
    LargeAtBegin LARGE_AT_BEGIN
    /// A2: gives 18 for the limit itself.
    LimitNotSummed LIMIT_NOT_SUMMED
    /// A2: takes the group from byte 2 alone.
    GroupByte GROUP_BYTE
    /// A2: tests 17 after 10.
    GroupAfterBusy GROUP_AFTER_BUSY
    /// A2: tests 17 after 10 and 13.
    GroupAfterSnapshot GROUP_AFTER_SNAPSHOT
    /// A2: accepts a row of a group below the one before.
    FallingGroup FALLING_GROUP
    /// A2: accepts 33 rows of a group.
    Row33 ROW_33
    /// A2: accepts a row of register V, and takes the one before for it.
    RegisterV REGISTER_V
    /// A2: accepts a row of sign 2, for a minus.
    SignTwo SIGN_TWO

    /// A3: a flush reads the marks before the workers' times; as many steps as the right flush.
    MarksFirst MARKS_FIRST
    /// A3: a flush takes its step for the marks and reads none.
    MarksNotRead MARKS_NOT_READ
    /// A3: a flush reads the marks with the last worker's time, in one step less.
    MarksWithLast MARKS_WITH_LAST
    /// A3: a close empties the marks that hold its worker's time.
    CloseEmpties CLOSE_EMPTIES
    /// A3: a mark takes the clock and not its worker's time.
    MarkClock MARK_CLOCK
    /// A3: a marked read by a worker with a snapshot takes its worker's time.
    MarkedOwnTime MARKED_OWN_TIME
    /// A3: leaves a marked read on an unlinked version.
    LeaveMarked LEAVE_MARKED
    /// A3: tests 19 when a mark begins only, so that the second of two wins.
    UsedAtBegin USED_AT_BEGIN
    /// A3: tests 20 when a release begins only.
    EmptyAtBegin EMPTY_AT_BEGIN
    /// A3: tests 20 when a marked read begins only, and shows the newest value where the mark is
    /// empty.
    MarkedNewest MARKED_NEWEST
    /// A3: tests 21 when a release begins only.
    ReadAtBegin READ_AT_BEGIN
    /// A3: does not test 21, so that a release empties a mark under a read.
    ReleaseUnderRead RELEASE_UNDER_READ
    /// A3: takes a marked read to run from its begin on.
    ReadFromBegin READ_FROM_BEGIN
    /// A3: tests 19 before 13.
    UsedBeforeSnapshot USED_BEFORE_SNAPSHOT
    /// A3: tests a mark above 11 after 10.
    MarkAfterBusy MARK_AFTER_BUSY
    /// A3: takes the mark of a mark or release from byte 2 alone.
    MarkByte MARK_BYTE
    /// A3: accepts mark 12, and takes the one before for it.
    MarkTwelve MARK_TWELVE

    /// A5: a get shows 0 for a version from setup, as before.
    GetZero GET_ZERO
    /// A5: a read shows 0 for a version from setup, as before.
    ReadZero READ_ZERO
    /// A5: a marked read shows 0 for a version from setup, as before.
    MarkedZero MARKED_ZERO
    /// A5: takes a put of 0 for no reading.
    ZeroNone ZERO_NONE
    /// A5: keeps for the register and not for the version whether there is a reading: from the first
    /// put on, the version from setup shows 0.
    NoneByRegister NONE_BY_REGISTER
    /// A5: a get, read or marked read takes a slot below V for a version from setup, also where a
    /// put has taken it since.
    NoneBySlot NONE_BY_SLOT
    /// A5: a get that stamps a register's first put answers `none`.
    FirstPutNone FIRST_PUT_NONE
    /// A5: a total gives 18 for a register without a reading.
    TotalRefusesNone TOTAL_REFUSES_NONE
    /// A5: a total answers `none` at a register without a reading.
    TotalNone TOTAL_NONE
    /// A5: the row writer writes a row of 0 where there is no reading.
    RowOfNone ROW_OF_NONE
    /// A5: the row writer answers `none` before it tests 4 and 7.
    RowNoneFirst ROW_NONE_FIRST
    /// A5: the row writer answers `none` before it tests 7.
    RowNoneBeforeBuffer ROW_NONE_BEFORE_BUFFER

    /// A6: the six bytes of digits most significant first.
    BytesReversed BYTES_REVERSED
    /// A6: the tens of each byte in its low half.
    HalvesExchanged HALVES_EXCHANGED
    /// A6: finds 16 or 22 only after the rows before were written.
    WrittenFirst WRITTEN_FIRST
    /// A6: tests 16 and 22 before 6.
    LengthLast LENGTH_LAST
    /// A6: does not test 6, and leaves a part of a row as it is.
    RestIgnored REST_IGNORED
    /// A6: does not test the DIF.
    DifUntested DIF_UNTESTED
    /// A6: does not test the VIF.
    VifUntested VIF_UNTESTED
    /// A6: accepts a digit of ten.
    DigitTen DIGIT_TEN
    /// A6: judges the first eight bytes: refuses a row whose two bytes after the register are not zero.
    FirstBytesJudged FIRST_BYTES_JUDGED

    /// A7: of a worker's rows the last alone counts.
    LastRowOnly LAST_ROW_ONLY
    /// A7: on each register the last of a worker's rows that has it counts alone.
    RowReplaces ROW_REPLACES
    /// A7: joins the rights of a worker's rows whatever their registers, and gives them on all of these.
    RightsSpread RIGHTS_SPREAD
    /// A7: leaves the first register of a row out.
    FirstExcluded FIRST_EXCLUDED
    /// A7: leaves the last register of a row out.
    LastExcluded LAST_EXCLUDED
    /// A7: allows a total by read on its first register.
    TotalFirstOnly TOTAL_FIRST_ONLY
    /// A7: allows a mark or release by marks on one register.
    MarksOneRegister MARKS_ONE_REGISTER
    /// A7: allows a mark or release by one row with marks on every register, and by no two.
    MarksOneRow MARKS_ONE_ROW
    /// A7: a collect needs its right on every register below V.
    CollectEverywhere COLLECT_EVERYWHERE
    /// A7: a get needs no right.
    GetFree GET_FREE
    /// A7: a marked read needs marks in place of read.
    MarkedByMarks MARKED_BY_MARKS
    /// A7: tests 23 before 4.
    ForbiddenBeforeRegister FORBIDDEN_BEFORE_REGISTER
    /// A7: tests 23 before 16.
    ForbiddenBeforeValue FORBIDDEN_BEFORE_VALUE
    /// A7: tests 23 after 10.
    ForbiddenAfterBusy FORBIDDEN_AFTER_BUSY
    /// A7: an empty table forbids all.
    EmptyForbids EMPTY_FORBIDS
    /// A7: allows a worker without rows everything.
    NoRowsAllowed NO_ROWS_ALLOWED
    /// A7: a refused table clears the earlier one.
    RefusedClears REFUSED_CLEARS
    /// A7: adds a table's rows to the earlier one's.
    TablesJoined TABLES_JOINED
    /// A7: tests 24 before 9.
    TableFirst TABLE_FIRST
    /// A7: a new call keeps the table.
    TableKept TABLE_KEPT
    /// A7: accepts 65 rows.
    Row65 ROW_65
    /// A7: does not test a row's last two bytes.
    PairUntested PAIR_UNTESTED
    /// A7: accepts a row whose first register is above its last.
    OrderUntested ORDER_UNTESTED

    /// A8: a read, marked read or total takes the status of the version over the one it finds.
    StatusOfNewer STATUS_OF_NEWER
    /// A8: a get shows the status of the version under the newest.
    StatusOfCovered STATUS_OF_COVERED
    /// A8: a put forgets its status where it is published.
    PublishLosesStatus PUBLISH_LOSES_STATUS
    /// A8: a version loses its status where it gets its low.
    LowLosesStatus LOW_LOSES_STATUS
    /// A8: a version loses its status where it gets its high.
    HighLosesStatus HIGH_LOSES_STATUS
    /// A8: a total shows the last status that it read and not the largest.
    TotalLastStatus TOTAL_LAST_STATUS
    /// A8: refuses a put of status 2.
    CorrectedRefused CORRECTED_REFUSED
    /// A8: accepts a put of status 3.
    ThreeAccepted THREE_ACCEPTED
    /// A8: tests 25 before 16.
    StatusBeforeValue STATUS_BEFORE_VALUE
    /// A8: tests 25 after 23.
    StatusAfterForbidden STATUS_AFTER_FORBIDDEN
    /// A8: tests 25 after 23 and 10.
    StatusAfterBusy STATUS_AFTER_BUSY
    /// A8: sets the worker idle with 25, as 14 and 15 do.
    StatusIdles STATUS_IDLES
    /// A8: the row writer tests 25 before 7.
    RowStatusBeforeBuffer ROW_STATUS_BEFORE_BUFFER
    /// A8: the row writer finds 25 only after the row is written.
    RowStatusWritten ROW_STATUS_WRITTEN
    /// A8: the row writer has the status in byte 3.
    RowStatusLater ROW_STATUS_LATER
}

/// The largest value that a put may bring, or what a fault takes for it.
#[inline(always)]
pub(crate) fn largest<F: Fault>(max_value: u64) -> u64 {
    if F::LIMIT_REFUSED {
        max_value - 1
    } else if F::NEXT_ACCEPTED {
        max_value.saturating_add(1)
    } else {
        max_value
    }
}

/// The largest value that a total sums, or what a fault takes for it.
#[inline(always)]
pub(crate) fn largest_summed<F: Fault>() -> u64 {
    if F::LIMIT_NOT_SUMMED {
        MAX_VALUE - 1
    } else {
        MAX_VALUE
    }
}

/// The last status that a put may give, or what a fault takes for it.
#[inline(always)]
pub(crate) fn last_status<F: Fault>() -> u8 {
    if F::CORRECTED_REFUSED {
        LAST_STATUS - 1
    } else if F::THREE_ACCEPTED {
        LAST_STATUS + 1
    } else {
        LAST_STATUS
    }
}

/// The largest status that a total has read, with one reading more; or what a fault takes for it.
#[inline(always)]
pub(crate) fn largest_status<F: Fault>(before: u8, reading: Option<Reading>) -> u8 {
    match reading {
        Some(Reading { status, .. }) if F::TOTAL_LAST_STATUS => status,
        Some(Reading { status, .. }) => before.max(status),
        None => before,
    }
}

/// Forgets the status of what a slot holds, with a fault.
pub(crate) fn lose_status(slot: &mut Slot) {
    slot.reading = slot.reading.map(|reading| Reading { status: READ, ..reading });
}

/// What a total ends with at a version that holds no reading, with a fault.
#[inline(always)]
pub(crate) fn without_reading<F: Fault>(version: &Slot) -> Option<Answer> {
    match version.reading {
        None if F::TOTAL_REFUSES_NONE => Some(Answer::No(Refusal::Summand)),
        None if F::TOTAL_NONE => Some(Answer::None),
        _ => None,
    }
}

/// What a step answers; with a fault the limit may stand for a larger value.
#[inline(always)]
pub(crate) fn shown<F: Fault>(doing: Doing, answer: Answer, max_value: u64) -> Answer {
    let hides = match doing {
        Doing::Get { .. } => F::GET_HIDES,
        Doing::ReadAt { .. } => F::READ_HIDES,
        _ => false,
    };
    match answer {
        Answer::Value(reading) if hides => {
            Answer::value(reading.value.min(max_value), reading.status)
        }
        answer => answer,
    }
}
