//! How often each situation came up, over seeded sequences from fresh stores and on tables handed
//! in. A situation that should have come up and did not is named.

use crate::answer::Answer;
use crate::event::{step, Numbers, KINDS, OPERANDS};
use crate::generate::{generate, LineSort, Opening};
use crate::guide::{Guide, Profile};
use crate::host::counts;
use crate::random::Random;
use crate::scatter::{scatter, spoil};
use crate::settle::{copies, settle, verdict, waiting_writes, BlockCopy, Verdict};
use crate::table::*;
use std::fmt;

/// Codes 0 to 8.
const CODES: usize = 9;
/// Row 0 of the table of codes is for unknown kinds.
const ROWS: usize = KINDS as usize + 1;

const KIND_NAMES: [&str; ROWS] = [
    "unknown kind",
    "1 read",
    "2 write",
    "3 start",
    "4 deliver",
    "5 drop",
    "6 finish",
    "7 timeout",
    "8 refresh",
    "9 run",
    "10 stop",
    "11 fail",
    "12 recover",
    "13 take lease",
    "14 give lease",
    "15 epoch change",
    "16 overdue",
];

/// The codes that a driver's line of each kind can get from a fresh store. Epochs as high as code
/// 7 asks for are out of its reach, and so is a table that isn't well formed.
const REACHED_FRESH: [&[usize]; ROWS] = [
    &[1],
    &[0, 1, 2, 4],
    &[0, 1, 2, 4],
    &[0, 1, 2, 3, 5],
    &[0, 1, 2],
    &[0, 1, 2],
    &[0, 1, 2, 5],
    &[0, 1, 2],
    &[0, 1, 2],
    &[0, 1, 2, 5],
    &[0, 1, 2],
    &[0, 1, 2],
    &[0, 1, 2],
    &[0, 1, 2],
    &[0, 1, 2],
    &[0, 2, 6],
    &[0, 1, 2],
];

/// Beyond those, what a table handed in can get: code 8 always, code 7 from an epoch change, and
/// code 1 from its unused operands.
fn reached_handed_in(row: usize, code: usize) -> bool {
    code == 8 || row == 15 && (code == 7 || code == 1) || REACHED_FRESH[row].contains(&code)
}

/// Where a situation can come up.
#[derive(Clone, Copy, PartialEq, Eq)]
enum Reach {
    Anywhere,
    /// Not from a fresh store, by the rules; there its count must be 0.
    HandedIn,
}

macro_rules! situations {
    ($($name:ident $reach:ident $words:literal,)*) => {
        /// What can come up beside a kind and a code.
        #[derive(Clone, Copy, Debug, PartialEq, Eq)]
        pub enum Situation { $($name,)* }
        const SITUATIONS: &[(Situation, Reach, &str)] =
            &[$((Situation::$name, Reach::$reach, $words),)*];
    };
}

// No message of a fresh store's run has a block outside, so no error goes, and nothing else clears
// restart: an error and the two failed outcomes need a table that is handed in. So do a waiting
// read below last write, since a queue runs in order, and equal or unsuited timestamps, since each
// is drawn once.
situations! {
    CopyNotInSet Anywhere "start: a read's copy not in the set (1)",
    UnusedOperand HandedIn "unused operand not 0 (1)",
    ReadStarted Anywhere "start: a read",
    WriteStarted Anywhere "start: a write",
    OldEpochStarted Anywhere "start: with an epoch known below the store's",
    OutcomeReadDone Anywhere "outcome 1, read done",
    OutcomeWriteDone Anywhere "outcome 2, write done",
    OutcomeReadFailed HandedIn "outcome 3, read failed",
    OutcomeWriteFailed HandedIn "outcome 4, write failed",
    ReadRestarted Anywhere "finish: a read goes back",
    WriteRestarted Anywhere "finish: a write goes back",
    SentMismatch Anywhere "version mismatch sent",
    SentError HandedIn "error sent",
    SentOutOfOrder Anywhere "out of order sent",
    SentBusy Anywhere "busy sent",
    SentReadReply Anywhere "read reply sent",
    SentPrewriteReply Anywhere "prewrite reply sent",
    CountedMismatch Anywhere "version mismatch counted at a host",
    CountedError HandedIn "error counted at a host",
    CountedOutOfOrder Anywhere "out of order counted at a host",
    CountedBusy Anywhere "busy counted at a host",
    CountedReadReply Anywhere "read reply counted at a host",
    CountedPrewriteReply Anywhere "prewrite reply counted at a host",
    NotCounted Anywhere "a reply that did not count",
    NotCountedUnsuited HandedIn "a reply that did not count, for its kind alone",
    HostStopped Anywhere "deliver to a stopped host",
    ChunkFailed Anywhere "deliver to a failed chunk",
    ChunkNolease Anywhere "deliver to a nolease chunk",
    CommitAtNolease Anywhere "a commit is lost at a nolease chunk",
    ReadWaits Anywhere "a read waits",
    PrewriteWaits Anywhere "a prewrite waits",
    WaitsBeforeLater Anywhere "one waits before a later one",
    WaitsAfterEqual HandedIn "one waits after its equal",
    CommitActs Anywhere "a commit acts",
    CommitIdle Anywhere "a commit finds nothing to act on",
    CommitOldEpoch Anywhere "a commit of another epoch arrives",
    AbortActs Anywhere "an abort acts",
    AbortIdle Anywhere "an abort finds nothing to act on",
    RunRead Anywhere "run: a read is served",
    RunReadLate HandedIn "run: a read is out of order",
    RunCommitted Anywhere "run: a committed write",
    RunAborted Anywhere "run: an aborted write",
    OverdueBelowZero Anywhere "overdue: now before the head's clock (2)",
    OverdueAtLimit Anywhere "overdue: just at the age limit (2)",
    OverdueGranted Anywhere "overdue: just above the age limit (0)",
    SettledKept Anywhere "settle: V and W stay",
    SettledHeldByAll Anywhere "settle: an undecided write held by all is committed",
    SettledMixed Anywhere "settle: one here undecided, there committed, is committed",
    SettledLostLacks Anywhere "settle: one that a lost chunk lacks is committed",
    SettledLacking Anywhere "settle: one that a chunk not lost lacks is dropped",
    SettledAborted Anywhere "settle: one that is aborted somewhere is dropped",
    SettledReadPassed Anywhere "settle: one that a lost chunk's last read passed is dropped",
    SettledSeveral Anywhere "settle: several are committed, the latest is chosen",
    SettledAllLost Anywhere "settle: a block with all copies lost (6)",
    SettledNotAbove Anywhere "settle: W is at or above a waiting write",
    SettledLostIsGreatest Anywhere "settle: W is a lost chunk's alone",
}

/// Counts over runs from fresh stores, or over runs from tables handed in.
struct Part {
    events: u64,
    codes: [[u64; CODES]; ROWS],
    situations: Vec<u64>,
}

impl Part {
    fn new() -> Part {
        Part {
            events: 0,
            codes: [[0; CODES]; ROWS],
            situations: vec![0; SITUATIONS.len()],
        }
    }

    fn add(&mut self, situation: Situation) {
        self.situations[situation as usize] += 1;
    }

    fn add_if(&mut self, holds: bool, situation: Situation) {
        if holds {
            self.add(situation);
        }
    }

    /// Performs an event and counts what it was.
    fn step(&mut self, table: &mut Table, (kind, operands): Numbers) {
        let before = table.clone();
        let answer = step(table, kind, operands);
        self.events += 1;
        let row = if kind <= KINDS { kind as usize } else { 0 };
        self.codes[row][answer.code as usize] += 1;
        match answer.code {
            0 => self.granted(&before, kind, operands, answer, table),
            8 => {}
            _ => self.refused(&before, kind, operands, answer.code),
        }
    }

    fn refused(&mut self, before: &Table, kind: u64, operands: [u64; OPERANDS], code: u64) {
        let [first, second, third] = operands.map(|operand| operand as usize);
        match (kind, code) {
            (3, 1) => {
                let fits = first < before.host_count
                    && (1..=LARGEST).contains(&operands[1])
                    && third < before.chunk_count;
                self.add_if(fits, Situation::CopyNotInSet);
            }
            (8, 1) => self.add_if(first < before.host_count, Situation::UnusedOperand),
            (15, 6) => self.add(Situation::SettledAllLost),
            (16, 2) => {
                let chunk = &before.chunks[first];
                let head = chunk.records[second].waiting.first();
                let undecided = head.filter(|h| matches!(h.sort, Waiting::Undecided(_)));
                if let (State::Normal, Some(head)) = (chunk.state, undecided) {
                    let clock = head.timestamp.clock();
                    self.add_if(operands[2] < clock, Situation::OverdueBelowZero);
                    let at_limit = operands[2] == clock + before.age_limit;
                    self.add_if(at_limit, Situation::OverdueAtLimit);
                }
            }
            _ => {}
        }
    }

    fn granted(
        &mut self,
        before: &Table,
        kind: u64,
        operands: [u64; OPERANDS],
        answer: Answer,
        after: &Table,
    ) {
        let [first, second, _] = operands.map(|operand| operand as usize);
        self.sent(before, after);
        match kind {
            3 => {
                let host = &before.hosts[first];
                match host.waiting.first().map(|operation| operation.sort) {
                    Some(Sort::Read) => self.add(Situation::ReadStarted),
                    _ => self.add(Situation::WriteStarted),
                }
                let old = host.epoch_known < before.epoch;
                self.add_if(old, Situation::OldEpochStarted);
            }
            4 => {
                if let Some(message) = before.network[first] {
                    match message.body.is_reply() {
                        true => self.at_host(&before.hosts[message.host], &message),
                        false => self.at_chunk(before, &message, after),
                    }
                }
            }
            6 => self.finished(before.hosts[first].current, answer.outcome),
            9 => self.ran(&before.chunks[first].records[second]),
            15 => {
                for block in 0..before.block_count {
                    self.settled(&copies(before, block));
                }
            }
            16 => {
                let head = before.chunks[first].records[second].waiting.first();
                let limit = head.map(|h| h.timestamp.clock() + before.age_limit);
                let just_above = limit.is_some_and(|limit| operands[2] == limit + 1);
                self.add_if(just_above, Situation::OverdueGranted);
            }
            _ => {}
        }
    }

    /// Replies that are in the network now and were not before.
    fn sent(&mut self, before: &Table, after: &Table) {
        for (old, new) in before.network.iter().zip(&after.network) {
            let body = match new {
                Some(message) if new != old => message.body,
                _ => continue,
            };
            match body {
                Body::VersionMismatch => self.add(Situation::SentMismatch),
                Body::Error => self.add(Situation::SentError),
                Body::OutOfOrder => self.add(Situation::SentOutOfOrder),
                Body::Busy => self.add(Situation::SentBusy),
                Body::ReadReply(_) => self.add(Situation::SentReadReply),
                Body::PrewriteReply => self.add(Situation::SentPrewriteReply),
                _ => {}
            }
        }
    }

    fn at_host(&mut self, host: &Host, reply: &Message) {
        if !counts(host, reply) {
            let outstanding =
                reply.timestamp == host.timestamp && host.outstanding.contains(reply.chunk);
            self.add_if(!host.working, Situation::HostStopped);
            self.add_if(host.working && outstanding, Situation::NotCountedUnsuited);
            return self.add_if(host.working && !outstanding, Situation::NotCounted);
        }
        self.add(match reply.body {
            Body::VersionMismatch => Situation::CountedMismatch,
            Body::Error => Situation::CountedError,
            Body::OutOfOrder => Situation::CountedOutOfOrder,
            Body::Busy => Situation::CountedBusy,
            Body::ReadReply(_) => Situation::CountedReadReply,
            _ => Situation::CountedPrewriteReply,
        });
    }

    fn at_chunk(&mut self, before: &Table, message: &Message, after: &Table) {
        let chunk = &before.chunks[message.chunk];
        match chunk.state {
            State::Failed => return self.add(Situation::ChunkFailed),
            State::Nolease => {
                let commit = matches!(message.body, Body::Commit(_));
                self.add_if(commit, Situation::CommitAtNolease);
                return self.add(Situation::ChunkNolease);
            }
            State::Normal => {}
        }
        // A block outside has a record that stays zero.
        let old = &chunk.records[message.block].waiting;
        let new = &after.chunks[message.chunk].records[message.block].waiting;
        let waits = new.count > old.count;
        let old_epoch = message.body.epoch() != Some(chunk.epoch);
        match message.body {
            Body::Read(_) => self.add_if(waits, Situation::ReadWaits),
            Body::Prewrite(..) => self.add_if(waits, Situation::PrewriteWaits),
            Body::Commit(_) => {
                self.add_if(new != old, Situation::CommitActs);
                self.add_if(new == old, Situation::CommitIdle);
                self.add_if(old_epoch, Situation::CommitOldEpoch);
            }
            _ => {
                self.add_if(new != old, Situation::AbortActs);
                self.add_if(new == old, Situation::AbortIdle);
            }
        }
        let later = old.items().any(|entry| entry.timestamp > message.timestamp);
        let equal = old
            .items()
            .any(|entry| entry.timestamp == message.timestamp);
        self.add_if(waits && later, Situation::WaitsBeforeLater);
        self.add_if(waits && equal, Situation::WaitsAfterEqual);
    }

    fn finished(&mut self, current: Option<Operation>, outcome: u64) {
        let is_read = current.is_some_and(|operation| operation.sort == Sort::Read);
        self.add(match outcome {
            1 => Situation::OutcomeReadDone,
            2 => Situation::OutcomeWriteDone,
            3 => Situation::OutcomeReadFailed,
            4 => Situation::OutcomeWriteFailed,
            _ if is_read => Situation::ReadRestarted,
            _ => Situation::WriteRestarted,
        });
    }

    fn ran(&mut self, record: &Record) {
        let Some(head) = record.waiting.first() else {
            return;
        };
        self.add(match head.sort {
            Waiting::Read if head.timestamp < record.last_write => Situation::RunReadLate,
            Waiting::Read => Situation::RunRead,
            Waiting::Committed(_) => Situation::RunCommitted,
            _ => Situation::RunAborted,
        });
    }

    fn settled(&mut self, copies: &[BlockCopy]) {
        let any_lost = copies.iter().any(|copy| copy.lost);
        for timestamp in waiting_writes(copies) {
            match verdict(copies, timestamp) {
                Verdict::NotAboveLastWrite => self.add(Situation::SettledNotAbove),
                Verdict::Lacking => self.add(Situation::SettledLacking),
                Verdict::Aborted => self.add(Situation::SettledAborted),
                Verdict::ReadPassed => self.add(Situation::SettledReadPassed),
                Verdict::Committed(_) if any_lost => self.add(Situation::SettledLostLacks),
                Verdict::Committed(_) => {
                    let held = copies.iter().flat_map(|copy| copy.record.waiting.items());
                    let mut held = held.filter(|entry| entry.timestamp == timestamp);
                    let decided = |entry: Entry| matches!(entry.sort, Waiting::Committed(_));
                    let mixed = held.any(decided);
                    self.add_if(mixed, Situation::SettledMixed);
                    self.add_if(!mixed, Situation::SettledHeldByAll);
                }
            }
        }
        let committed = settle(copies).committed.len();
        self.add_if(committed == 0, Situation::SettledKept);
        self.add_if(committed > 1, Situation::SettledSeveral);
        let greatest = |lost: bool| {
            let of_sort = copies.iter().filter(|copy| copy.lost == lost);
            of_sort.map(|copy| copy.record.last_write).max()
        };
        let lost_is_greatest = any_lost && greatest(true) > greatest(false);
        self.add_if(lost_is_greatest, Situation::SettledLostIsGreatest);
    }
}

pub struct Tally {
    sequences: u64,
    fresh: Part,
    handed_in: Part,
    openings: [u64; Opening::ALL.len()],
    lines: [u64; LineSort::ALL.len()],
    last_newline_lacking: u64,
}

impl Tally {
    /// Counts over the sequences of so many seeds. Each seed also gives a table handed in.
    pub fn of(first_seed: u64, sequences: u64, events: usize) -> Tally {
        let mut tally = Tally {
            sequences,
            fresh: Part::new(),
            handed_in: Part::new(),
            openings: [0; Opening::ALL.len()],
            lines: [0; LineSort::ALL.len()],
            last_newline_lacking: 0,
        };
        for seed in (0..sequences).map(|number| first_seed.wrapping_add(number)) {
            tally.count_sequence(seed, events);
            tally.count_handed_in(seed);
        }
        tally
    }

    fn count_sequence(&mut self, seed: u64, events: usize) {
        let sequence = generate(seed, events);
        self.openings[sequence.opening as usize] += 1;
        let Some(mut table) = sequence.fresh else {
            return;
        };
        self.last_newline_lacking += u64::from(!sequence.last_newline);
        for line in sequence.lines {
            self.lines[line.sort as usize] += 1;
            if let Some(event) = line.event {
                self.fresh.step(&mut table, event);
            }
        }
    }

    fn count_handed_in(&mut self, seed: u64) {
        const EVENTS: usize = 60;
        let random = &mut Random::new(!seed);
        let mut table = scatter(random);
        let mut guide = Guide::new(random, Profile::Wild, &table);
        for _ in 0..EVENTS {
            let event = guide.event(random, &table);
            self.handed_in.step(&mut table, event);
        }
        self.handed_in.step(&mut table, (8, [0, 0, 1]));
        self.handed_in.step(&mut table, (15, [1, 0, 0]));
        spoil(random, &mut table);
        for kind in 0..=KINDS {
            self.handed_in.step(&mut table, (kind, [0, 1, 0]));
        }
    }

    /// Every count that is 0 and should not be, and every one that should be 0 and is not.
    pub fn complaints(&self) -> Vec<String> {
        let mut complaints = Vec::new();
        let mut complain = |count: u64, expected: bool, name: String| match (count, expected) {
            (0, true) => complaints.push(format!("never came up: {name}")),
            (1.., false) => complaints.push(format!("should not come up: {name}")),
            _ => {}
        };
        for (row, name) in KIND_NAMES.iter().enumerate() {
            for code in 0..CODES {
                let fresh = REACHED_FRESH[row].contains(&code);
                let handed_in = reached_handed_in(row, code);
                let word = format!("{name}, code {code}");
                complain(
                    self.fresh.codes[row][code],
                    fresh,
                    format!("{word} (fresh)"),
                );
                let count = self.handed_in.codes[row][code];
                complain(count, handed_in, format!("{word} (handed in)"));
            }
        }
        for &(situation, reach, words) in SITUATIONS {
            let fresh = self.fresh.situations[situation as usize];
            let handed_in = self.handed_in.situations[situation as usize];
            complain(fresh, reach == Reach::Anywhere, format!("{words} (fresh)"));
            if reach == Reach::HandedIn {
                complain(handed_in, true, format!("{words} (handed in)"));
            }
        }
        for opening in Opening::ALL {
            let count = self.openings[opening as usize];
            complain(count, true, format!("first lines: {opening:?}"));
        }
        for sort in LineSort::ALL {
            complain(self.lines[sort as usize], true, format!("line: {sort:?}"));
        }
        let lacking = self.last_newline_lacking;
        complain(lacking, true, "a last line without newline".to_string());
        complaints
    }
}

impl fmt::Display for Tally {
    fn fmt(&self, out: &mut fmt::Formatter) -> fmt::Result {
        let (fresh, handed_in) = (&self.fresh, &self.handed_in);
        writeln!(
            out,
            "{} sequences with {} events from fresh stores; {} events on tables handed in",
            self.sequences, fresh.events, handed_in.events
        )?;
        for (part, name) in [(fresh, "fresh stores"), (handed_in, "tables handed in")] {
            write!(out, "\n{:16}", name)?;
            for code in 0..CODES {
                write!(out, "{:>8}", format!("code {code}"))?;
            }
            writeln!(out)?;
            for (name, codes) in KIND_NAMES.iter().zip(&part.codes) {
                write!(out, "{name:16}")?;
                for count in codes {
                    write!(out, "{count:8}")?;
                }
                writeln!(out)?;
            }
            write!(out, "{:16}", "all")?;
            for code in 0..CODES {
                let sum: u64 = part.codes.iter().map(|codes| codes[code]).sum();
                write!(out, "{sum:8}")?;
            }
            writeln!(out)?;
        }
        writeln!(
            out,
            "\n{:64}{:>10}{:>10}",
            "situation", "fresh", "handed in"
        )?;
        for &(situation, _, words) in SITUATIONS {
            let index = situation as usize;
            let counts = (fresh.situations[index], handed_in.situations[index]);
            writeln!(out, "{words:64}{:10}{:10}", counts.0, counts.1)?;
        }
        writeln!(out, "\n{:64}{:>10}", "first lines", "sequences")?;
        for opening in Opening::ALL {
            let count = self.openings[opening as usize];
            writeln!(out, "{:64}{count:10}", format!("{opening:?}"))?;
        }
        writeln!(out, "\n{:64}{:>10}", "event lines", "lines")?;
        for sort in LineSort::ALL {
            let count = self.lines[sort as usize];
            writeln!(out, "{:64}{count:10}", format!("{sort:?}"))?;
        }
        let lacking = self.last_newline_lacking;
        writeln!(out, "{:64}{lacking:10}", "a last line without newline")
    }
}
