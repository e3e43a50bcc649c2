//! Which answers, refusals, branches of the steps, sizes of hubs, lists and tables a run reached.

use crate::answer::{Answer, Refusal};
use crate::list::Groups;
use crate::rights::{Unfit, LAST_REGISTER, MAX_ROWS};
use crate::store::Store;
use std::fmt;

/// Told of each setup and of each branch that a step takes. The empty observer `()` compiles to nothing.
pub trait Observer {
    /// Does the observer look at all? Branches that need work to tell apart are found only then.
    const ON: bool;
    fn branch(&mut self, branch: Branch);
    /// The store that a setup has made.
    fn set_up(&mut self, store: &Store);
}

impl Observer for () {
    const ON: bool = false;
    #[inline(always)]
    fn branch(&mut self, _: Branch) {}
    #[inline(always)]
    fn set_up(&mut self, _: &Store) {}
}

macro_rules! branches {
    ($($name:ident $text:literal)*) => {
        /// A branch of the steps, or of the tests that a put above A1's limit or of a status above 2, a
        /// total, a list, a mark, a right or a table meets, or what is found where a reading is looked
        /// for.
        #[derive(Clone, Copy, Debug, PartialEq, Eq)]
        #[repr(usize)]
        pub enum Branch { $(#[doc = $text] $name,)* }

        impl Branch {
            /// Every branch, with what it means.
            pub const ALL: &'static [(Branch, &'static str)] = &[$((Branch::$name, $text),)*];
        }
    };
}

branches! {
    PutRefused "put (1) meets no free slot"
    PutPublishStamps "put (1) stamps an unstamped newest version"
    PutPublishStampedAlready "put (1) finds the newest version stamped"
    PutStamps "put (2) stamps its own version"
    PutStampedAlready "put (2) finds the covered version's high closed"
    PutLeavesOtherUnstamped "put (2) finds the high closed and leaves another put's version unstamped"
    PutDone "put (3) leaves the local pool below B"
    PutFlushes "put (3) fills the local pool and flushes"
    PutOwnVersionFreed "put (3) after its own version was freed"
    FlushTakesNone "flush (1) takes no pool"
    FlushTakesOne "flush (1) takes one pool"
    FlushTakesTwo "flush (1) takes two pools"
    MergeEqualHighs "flush (1) merges two pools with an equal high"
    FlushTime "flush (2) reads an announced time"
    FlushNoTime "flush (2) reads no time"
    RangeEndsAtTime "flush (3) meets a range whose high is a time read"
    RangeStartsAtTime "flush (3) meets a range whose low is a time read"
    RangeEmpty "flush (3) meets a range with low equal to high"
    RangeBetweenTimes "flush (3) finds a range needless between two times"
    SplitTwo "flush (3) queues the needed as two pools"
    SplitTwoOdd "flush (3) halves an odd number"
    SplitOne "flush (3) queues the needed as one pool"
    SplitJoin "flush (3) merges needed ranges into the local pool"
    SplitJoinNone "flush (3) has no needed range"
    JoinEqualHighs "flush (3) merges local and needed with an equal high"
    LocalQueued "flush (3) queues a local pool"
    LocalEmpty "flush (3) has an empty local pool to queue"
    NothingNeedless "flush (3) finds nothing needless"
    FreeMiddle "flush (4) unlinks from the middle of a list"
    FreeOldest "flush (4) unlinks the oldest of a list"
    FreeMovesNoRead "flush (4) moves no read"
    FreeMovesOneRead "flush (4) moves one read"
    FreeMovesMoreReads "flush (4) moves several reads at once"
    FlushDone "flush (5)"
    CollectEmptyPool "collect begins its flush with an empty local pool"
    CollectPool "collect begins its flush with ranges in the local pool"
    OpenRefused "open (1) meets the last clock"
    OpenAnnounces "open (1) announces"
    OpenPasses "open (2) adds one to the clock"
    OpenPassedAlready "open (2) finds the clock passed"
    ReadStamps "read (1) stamps"
    ReadStampedAlready "read (1) has nothing to stamp"
    ReadFoundAtOnce "read (2) answers the version read (1) stood on"
    ReadFound "read (2) answers after moving"
    ReadMoves "read (2) moves to the older version"
    GetStamps "get stamps"
    GetStampedAlready "get has nothing to stamp"
    Close "close withdraws"
    PutOfLimit "a put of the limit begins"
    PutAboveLimit "a put of one above the limit gets 16"
    LargeIdle "a put above the limit gets 16 on an idle worker"
    LargeBusy "a put above the limit gets 16 on a busy worker"
    LargeNoRegister "a put above the limit gets 4"
    LargeNoWorker "a put above the limit gets 3"
    LargeNotSetUp "a put above the limit gets 8"
    TotalStamps "total (1) stamps"
    TotalStampedAlready "total (1) has nothing to stamp"
    TotalFoundAtOnce "total (2) finds its value in the version total (1) stood on"
    TotalFound "total (2) finds its value after moving"
    TotalMoves "total (2) moves to the older version"
    TotalAbove0 "a total answers a sum above 0"
    Total0 "a total answers 0"
    TotalBelow0 "a total answers a sum below 0"
    LargeEarlier "a total meets a value above the limit before its last row"
    LargeLast "a total meets a value above the limit at its last row"
    FreeMovesOneTotal "flush (4) moves one total"
    FreeMovesMoreTotals "flush (4) moves several totals at once"
    TotalOneRow "a total of one row begins"
    TotalRows "a total of 2 to 31 rows begins"
    TotalAllRows "a total of 32 rows begins"
    TotalTwice "a total begins whose group has a register twice"
    TotalBusy "a total gets 10"
    TotalNoSnapshot "a total gets 13"
    TotalNotSetUp "a total gets 8"
    NoRowsSnapshot "a total of no rows gets 17 under a snapshot"
    NoRowsNoSnapshot "a total of no rows gets 17 without a snapshot"
    NoRowsBusy "a total of no rows gets 17 on a busy worker"
    NoRowsAbove31 "a total of a group above 31 gets 17"
    NoRowsNoWorker "a total of no rows gets 3"
    ListPart "a setup gets 5 for a part of a row"
    ListSign "a setup gets 5 for a sign"
    ListGroup "a setup gets 5 for a group above 31"
    ListRegister "a setup gets 5 for a row's register"
    ListFalling "a setup gets 5 for a group below the one before"
    ListMany "a setup gets 5 for a row after 32 of its group"
    ListLong "a setup gets 5 for a list of more than 4096 bytes"
    ListAgain "a second setup with an unfit list gets 9"
    FlushNoMark "flush (2) reads no mark"
    FlushMarks "flush (2) reads marks"
    FlushAllMarks "flush (2) reads twelve marks"
    RangeOfMark "flush (3) keeps a range that a mark needs and no snapshot"
    CloseMarked "close withdraws a time that a mark holds"
    FreeMovesOneMarked "flush (4) moves one marked read"
    FreeMovesMoreMarked "flush (4) moves several marked reads at once"
    MarkTime "mark copies its worker's time"
    MarkSameTime "mark copies a time that another mark holds"
    MarkUsedAtStep "mark gets 19 at its step"
    ReleaseEmpties "release empties its mark"
    ReleaseEmptyAtStep "release gets 20 at its step"
    ReleaseReadAtStep "release gets 21 at its step"
    MarkedEmptyAtStep "marked read (1) gets 20"
    MarkedStamps "marked read (1) stamps"
    MarkedStampedAlready "marked read (1) has nothing to stamp"
    MarkedFoundAtOnce "marked read (2) answers the version marked read (1) stood on"
    MarkedFound "marked read (2) answers after moving"
    MarkedMoves "marked read (2) moves to the older version"
    MarkedNoSnapshot "a marked read answers to a worker without a snapshot"
    MarkedOwnTime "a marked read answers to a worker whose own time it is"
    MarkedOtherTime "a marked read answers to a worker with another time"
    MarkedClosed "a marked read answers at a time that no worker has any more"
    MarkBegins "a mark begins"
    MarkUsed "a mark gets 19"
    MarkNoSnapshot "a mark gets 13, its mark empty"
    MarkUsedNoSnapshot "a mark gets 13, its mark in use"
    MarkBusy "a mark gets 10"
    MarkAbove "a mark above 11 gets 4"
    MarkAboveBusy "a mark above 11 gets 4 on a busy worker"
    MarkNoWorker "a mark gets 3"
    MarkNotSetUp "a mark gets 8"
    ReleaseBegins "a release begins"
    ReleaseEmpty "a release gets 20"
    ReleaseRead "a release gets 21"
    ReleaseToBeRead "a release begins before the first step of a marked read"
    ReleaseBusy "a release gets 10"
    ReleaseAbove "a release of a mark above 11 gets 4"
    ReleaseAboveBusy "a release of a mark above 11 gets 4 on a busy worker"
    ReleaseNoWorker "a release gets 3"
    ReleaseNotSetUp "a release gets 8"
    MarkedBegins "a marked read begins"
    MarkedEmpty "a marked read gets 20"
    MarkedBusy "a marked read gets 10"
    MarkedAbove "a marked read of a mark above 11 gets 4"
    MarkedNoRegister "a marked read of a register from V on gets 4"
    MarkedAboveBusy "a marked read of a mark above 11 gets 4 on a busy worker"
    MarkedNoWorker "a marked read gets 3"
    MarkedNotSetUp "a marked read gets 8"
    GetNone "get answers none"
    GetZero "get answers a put of 0"
    GetFirstPut "get stamps its register's first put"
    ReadNone "read (2) answers none, no put since"
    ReadNoneSince "read (2) answers none, a put since"
    ReadZero "read (2) answers a put of 0"
    MarkedNone "marked read (2) answers none, no put since"
    MarkedNoneSince "marked read (2) answers none, a put since"
    MarkedZero "marked read (2) answers a put of 0"
    TotalNone "total (2) adds 0 for no reading, no put since"
    TotalNoneSince "total (2) adds 0 for no reading, a put since"
    TotalZero "total (2) adds a put of 0"
    PutForbidden "a put gets 23"
    ReadForbidden "a read gets 23"
    GetForbidden "a get gets 23"
    CollectForbidden "a collect gets 23"
    TotalForbidden "a total gets 23"
    MarkForbidden "a mark gets 23"
    ReleaseForbidden "a release gets 23"
    MarkedForbidden "a marked read gets 23"
    ForbiddenBusy "a busy worker gets 23"
    ForbiddenNoSnapshot "a read, total or mark gets 23 without a snapshot"
    ForbiddenMark "a mark, release or marked read gets 23 where its mark would refuse it too"
    ForbiddenNoRows "a worker without rows gets 23"
    ForbiddenNoRight "a worker whose rows have no right at all gets 23"
    ForbiddenBeside "a worker gets 23 one register beside a row that has the right"
    LargeForbidden "a put above the limit gets 16, and has no right"
    AboveForbidden "a register from V on gets 4, and its worker has no right there"
    TotalLaterForbidden "a total gets 23 for a register after its first, which it may read"
    TotalJoined "a total begins by several rows, none of which has all its registers"
    MarksJoined "a mark or release begins by several rows, none of which has every register"
    MarksOneForbidden "a mark or release gets 23 for one register alone"
    CollectBeyond "a collect begins by rows of registers from V on alone"
    RightJoined "an operation begins on a register that another row of its worker gives without the right"
    RightAtEnd "an operation begins on the first or last register of the only row with the right"
    TablePart "a table gets 24 for a part of a row"
    TableRights "a table gets 24 for rights above 15"
    TablePair "a table gets 24 for a last pair that is not zero"
    TableWorker "a table gets 24 for a worker above 15"
    TableLast "a table gets 24 for a last register above 255"
    TableFalling "a table gets 24 for a first register above the last"
    TableMany "a table gets 24 for more than 64 rows"
    PutRead "a put of status 0 begins"
    PutEstimated "a put of status 1 begins"
    PutCorrected "a put of status 2 begins"
    PutOfThree "a put of status 3 gets 25"
    StatusIdle "a put of a status above 2 gets 25 on an idle worker"
    StatusBusy "a put of a status above 2 gets 25 on a busy worker"
    StatusForbidden "a put of a status above 2 gets 25, and has no right"
    StatusLarge "a put of a status above 2 and above the limit gets 16"
    StatusNoRegister "a put of a status above 2 gets 4"
    StatusNoWorker "a put of a status above 2 gets 3"
    StatusNotSetUp "a put of a status above 2 gets 8"
    GetRead "get shows status 0"
    GetEstimated "get shows status 1"
    GetCorrected "get shows status 2"
    GetOther "get shows another status than the version under it has"
    ReadRead "read (2) shows status 0"
    ReadEstimated "read (2) shows status 1"
    ReadCorrected "read (2) shows status 2"
    ReadOther "read (2) shows another status than the version over it has"
    MarkedRead "marked read (2) shows status 0"
    MarkedEstimated "marked read (2) shows status 1"
    MarkedCorrected "marked read (2) shows status 2"
    MarkedOther "marked read (2) shows another status than the version over it has"
    TotalRead "a total shows status 0"
    TotalEstimated "a total shows status 1"
    TotalCorrected "a total shows status 2"
    TotalStatusEarlier "a total shows a larger status than its last row has"
    TotalStatusLast "a total shows its last row's status, which is larger than all before"
    TotalOfNothing "a total of no reading at all answers"
}

impl Branch {
    /// Those of a put at A1's limit or above it.
    pub const OF_LIMIT: [Branch; 7] = [
        Branch::PutOfLimit,
        Branch::PutAboveLimit,
        Branch::LargeIdle,
        Branch::LargeBusy,
        Branch::LargeNoRegister,
        Branch::LargeNoWorker,
        Branch::LargeNotSetUp,
    ];

    /// Those of a total, but for 18.
    pub const OF_TOTAL: [Branch; 22] = [
        Branch::TotalStamps,
        Branch::TotalStampedAlready,
        Branch::TotalFoundAtOnce,
        Branch::TotalFound,
        Branch::TotalMoves,
        Branch::TotalAbove0,
        Branch::Total0,
        Branch::TotalBelow0,
        Branch::FreeMovesOneTotal,
        Branch::FreeMovesMoreTotals,
        Branch::TotalOneRow,
        Branch::TotalRows,
        Branch::TotalAllRows,
        Branch::TotalTwice,
        Branch::TotalBusy,
        Branch::TotalNoSnapshot,
        Branch::TotalNotSetUp,
        Branch::NoRowsSnapshot,
        Branch::NoRowsNoSnapshot,
        Branch::NoRowsBusy,
        Branch::NoRowsAbove31,
        Branch::NoRowsNoWorker,
    ];

    /// 18, which only a value from before A1 meets.
    pub const OF_SUMMAND: [Branch; 2] = [Branch::LargeEarlier, Branch::LargeLast];

    /// Those of a setup whose list is none.
    pub const OF_LIST: [Branch; 8] = [
        Branch::ListPart,
        Branch::ListSign,
        Branch::ListGroup,
        Branch::ListRegister,
        Branch::ListFalling,
        Branch::ListMany,
        Branch::ListLong,
        Branch::ListAgain,
    ];

    /// Those of a mark, a release or a marked read, and of a flush that meets them.
    pub fn of_marks() -> impl Iterator<Item = Branch> {
        Branch::from_to(Branch::FlushNoMark, Branch::MarkedNotSetUp)
    }

    /// Those of a version without a reading or with a put of 0, wherever it is read.
    pub fn of_readings() -> impl Iterator<Item = Branch> {
        Branch::from_to(Branch::GetNone, Branch::TotalZero)
    }

    /// Those of 23, and of operations that several rows allow.
    pub fn of_rights() -> impl Iterator<Item = Branch> {
        Branch::from_to(Branch::PutForbidden, Branch::RightAtEnd)
    }

    /// Those of a table that gets 24.
    pub fn of_tables() -> impl Iterator<Item = Branch> {
        Branch::from_to(Branch::TablePart, Branch::TableMany)
    }

    /// That of a table that gets 24 for this reason.
    pub(crate) fn of_table(unfit: Unfit) -> Branch {
        match unfit {
            Unfit::Part => Branch::TablePart,
            Unfit::Rights => Branch::TableRights,
            Unfit::Pair => Branch::TablePair,
            Unfit::Worker => Branch::TableWorker,
            Unfit::Last => Branch::TableLast,
            Unfit::Falling => Branch::TableFalling,
            Unfit::Many => Branch::TableMany,
        }
    }

    /// Those of statuses: of puts, and wherever a status is shown.
    pub fn of_statuses() -> impl Iterator<Item = Branch> {
        Branch::from_to(Branch::PutRead, Branch::TotalOfNothing)
    }

    /// Those of the status that a get, a read and a marked read show.
    pub(crate) const OF_GET_STATUS: [Branch; 4] =
        [Branch::GetRead, Branch::GetEstimated, Branch::GetCorrected, Branch::GetOther];
    pub(crate) const OF_READ_STATUS: [Branch; 4] =
        [Branch::ReadRead, Branch::ReadEstimated, Branch::ReadCorrected, Branch::ReadOther];
    pub(crate) const OF_MARKED_STATUS: [Branch; 4] =
        [Branch::MarkedRead, Branch::MarkedEstimated, Branch::MarkedCorrected, Branch::MarkedOther];

    /// Those from one to another, both included.
    fn from_to(first: Branch, last: Branch) -> impl Iterator<Item = Branch> {
        let all = Branch::ALL.iter().map(|&(branch, _)| branch);
        all.take(last as usize + 1).skip(first as usize)
    }
}

/// Sizes of hubs: what they are called, and which P, V and N are meant.
type Sizes = (&'static str, fn(usize, usize, usize) -> bool);

const SIZES: [Sizes; 13] = [
    ("P 1", |p, _, _| p == 1),
    ("P 2 to 15", |p, _, _| (2..16).contains(&p)),
    ("P 16", |p, _, _| p == 16),
    ("V 1", |_, v, _| v == 1),
    ("V 2 to 16", |_, v, _| (2..17).contains(&v)),
    ("V 17 to 255", |_, v, _| (17..256).contains(&v)),
    ("V 256", |_, v, _| v == 256),
    ("N = V", |_, v, n| n == v),
    ("N up to 136", |_, _, n| n < 137),
    ("N 137 to 2047", |_, _, n| (137..2048).contains(&n)),
    ("N 2048", |_, _, n| n == 2048),
    ("V 17 to 255 with N 137 to 2047", |_, v, n| {
        (17..256).contains(&v) && (137..2048).contains(&n)
    }),
    ("P below 16 with N from 1024 on", |p, _, n| p < 16 && n >= 1024),
];

/// Lists that were accepted: what they are called, and which are meant.
type Lists = (&'static str, fn(&Groups) -> bool);

const LISTS: [Lists; 7] = [
    ("no list", |groups| groups.all().is_empty()),
    ("a list", |groups| !groups.all().is_empty()),
    ("a list of one row", |groups| groups.all().len() == 1),
    ("rows of group 0", |groups| !groups.rows(0).is_empty()),
    ("rows of group 31", |groups| !groups.rows(31).is_empty()),
    ("rows of all groups", |groups| (0..32).all(|group| !groups.rows(group).is_empty())),
    ("the longest list", |groups| groups.all().len() == 1024),
];

/// Tables that stood at a setup: what they are called, and which are meant.
type Tables = (&'static str, fn(&Store) -> bool);

const TABLES: [Tables; 9] = [
    ("no table", |store| store.rights.rows().is_empty()),
    ("a table", |store| !store.rights.rows().is_empty()),
    ("a table of one row", |store| store.rights.rows().len() == 1),
    ("a table of 64 rows", |store| store.rights.rows().len() == MAX_ROWS),
    ("a row of no right", |store| store.rights.rows().iter().any(|row| row.rights == 0)),
    ("a row of a worker from P on", |store| {
        store.rights.rows().iter().any(|row| usize::from(row.worker) >= store.workers.len())
    }),
    ("a row of registers from V on", |store| {
        store.rights.rows().iter().any(|row| usize::from(row.first) >= store.newest.len())
    }),
    ("a row of all registers", |store| {
        store.rights.rows().iter().any(|row| (row.first, row.last) == (0, LAST_REGISTER))
    }),
    ("a table with a list", |store| {
        !store.rights.rows().is_empty() && !store.groups.all().is_empty()
    }),
];

/// Counts of everything a run reached.
#[derive(Clone, Debug)]
pub struct Coverage {
    /// By kind, as in `ANSWERS`.
    pub answers: [u64; Coverage::ANSWERS.len()],
    /// By refusal number; index 0 stays 0.
    pub refusals: [u64; Refusal::ALL.len() + 1],
    /// By branch.
    pub branches: [u64; Branch::ALL.len()],
    /// By sizes, as in `SIZES`: setups that were accepted.
    pub sizes: [u64; SIZES.len()],
    /// By lists, as in `LISTS`: setups that were accepted.
    pub lists: [u64; LISTS.len()],
    /// By tables, as in `TABLES`: setups that were accepted.
    pub tables: [u64; TABLES.len()],
}

impl Default for Coverage {
    fn default() -> Self {
        Coverage {
            answers: [0; Coverage::ANSWERS.len()],
            refusals: [0; Refusal::ALL.len() + 1],
            branches: [0; Branch::ALL.len()],
            sizes: [0; SIZES.len()],
            lists: [0; LISTS.len()],
            tables: [0; TABLES.len()],
        }
    }
}

impl Observer for Coverage {
    const ON: bool = true;
    fn branch(&mut self, branch: Branch) {
        self.branches[branch as usize] += 1;
    }
    fn set_up(&mut self, store: &Store) {
        let (p, v, n) = (store.workers.len(), store.newest.len(), store.slots.len());
        for (count, (_, meant)) in self.sizes.iter_mut().zip(SIZES) {
            *count += u64::from(meant(p, v, n));
        }
        for (count, (_, meant)) in self.lists.iter_mut().zip(LISTS) {
            *count += u64::from(meant(&store.groups));
        }
        for (count, (_, meant)) in self.tables.iter_mut().zip(TABLES) {
            *count += u64::from(meant(store));
        }
    }
}

impl Coverage {
    const ANSWERS: [&'static str; 8] =
        ["ok", "going", "freed", "at", "value", "done", "value below 0", "none"];

    /// Counts an answer.
    pub fn answered(&mut self, answer: Answer) {
        let kind = match answer {
            Answer::Ok => 0,
            Answer::Going => 1,
            Answer::Freed(_) => 2,
            Answer::At(_) => 3,
            Answer::Value(_) => 4,
            Answer::Done => 5,
            Answer::Minus(_) => 6,
            Answer::None => 7,
            Answer::No(refusal) => {
                self.refusals[usize::from(refusal.number())] += 1;
                return;
            }
        };
        self.answers[kind] += 1;
    }

    /// How often an answer of this name, as in `ANSWERS`, was given.
    pub fn answered_with(&self, name: &str) -> u64 {
        let kind = Self::ANSWERS.iter().position(|&other| other == name);
        self.answers[kind.expect("the name of an answer")]
    }

    /// Adds another run's counts.
    pub fn add(&mut self, other: &Coverage) {
        fn each(to: &mut [u64], from: &[u64]) {
            to.iter_mut().zip(from).for_each(|(to, from)| *to += from);
        }
        each(&mut self.answers, &other.answers);
        each(&mut self.refusals, &other.refusals);
        each(&mut self.branches, &other.branches);
        each(&mut self.sizes, &other.sizes);
        each(&mut self.lists, &other.lists);
        each(&mut self.tables, &other.tables);
    }

    /// Every count with its name. Refusals 7, 22 and 24 are of rows and tables: no log has them.
    pub fn counts(&self) -> Vec<(String, u64)> {
        let answers = Self::ANSWERS.iter().zip(self.answers);
        let answers = answers.map(|(name, n)| (format!("answer {name}"), n));
        let in_no_log = [Refusal::Buffer, Refusal::Coding, Refusal::Table];
        let refusals = Refusal::ALL.iter().filter(|refusal| !in_no_log.contains(refusal));
        let refusals = refusals.map(|r| {
            let number = r.number();
            (format!("no {number}"), self.refusals[usize::from(number)])
        });
        let branches = Branch::ALL.iter().zip(self.branches);
        let branches = branches.map(|((_, text), n)| (text.to_string(), n));
        let sizes = SIZES.iter().zip(self.sizes).map(|((name, _), n)| (name.to_string(), n));
        let lists = LISTS.iter().zip(self.lists).map(|((name, _), n)| (name.to_string(), n));
        let tables = TABLES.iter().zip(self.tables).map(|((name, _), n)| (name.to_string(), n));
        let at_setup = sizes.chain(lists).chain(tables);
        answers.chain(refusals).chain(branches).chain(at_setup).collect()
    }

    /// What was never reached.
    pub fn missing(&self) -> Vec<String> {
        let counts = self.counts().into_iter();
        counts.filter(|(_, n)| *n == 0).map(|(name, _)| name).collect()
    }
}

impl fmt::Display for Coverage {
    fn fmt(&self, f: &mut fmt::Formatter) -> fmt::Result {
        for (name, n) in self.counts() {
            writeln!(f, "{n:>12}  {name}")?;
        }
        Ok(())
    }
}
