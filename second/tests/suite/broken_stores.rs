//! Stores with one thing wrong. Demand 3's check finds each out, by the clauses that are there for it.

use crate::{found_by, found_on};
use second::answer::{Answer, Outcome};
use second::event::step;
use second::one_copy::{Clause, Stepper};
use second::queue::Queue;
use second::settle::{copies, settle};
use second::table::*;

#[derive(Clone, Copy, Debug, PartialEq, Eq)]
pub enum Fault {
    KeepsZero,
    KeepsAnotherBlock,
    PutsTheLastFirst,
    LosesWhatGoesBack,
    StampsAnotherClock,
    GrantsAClockAgain,
    GrantsClockZero,
    KeepsItsTimestamp,
    ReadsZero,
    NamesAnotherHost,
    NamesAnotherBlock,
    NamesTheOtherSort,
    AnswersARun,
    AnswersARefusal,
    CallsAnAbortDone,
    CallsACommitFailed,
    DropsCommits,
    AddsACommit,
    CommitsAnotherValue,
    LeavesAValue,
    LeavesATimestamp,
    FillsTheUnwritten,
    GrantsEverything,
    StopsAfterOne,
}

/// Each fault with the clauses that must find it out.
#[rustfmt::skip]
const FOUND: &[(Fault, &[Clause])] = &[
    // What is done is not what was asked.
    (Fault::KeepsZero, &[Clause::Queue, Clause::Writes, Clause::ThinAir]),
    (Fault::KeepsAnotherBlock, &[Clause::Queue, Clause::Outcome, Clause::ThinAir]),
    (Fault::PutsTheLastFirst, &[Clause::Queue]),
    (Fault::LosesWhatGoesBack, &[Clause::Queue]),
    // Timestamps.
    (Fault::StampsAnotherClock, &[Clause::Current, Clause::Writes, Clause::ThinAir]),
    (Fault::GrantsAClockAgain, &[Clause::Timestamps]),
    (Fault::GrantsClockZero, &[Clause::Timestamps]),
    (Fault::KeepsItsTimestamp, &[Clause::Current, Clause::WellFormed]),
    // Answers.
    (Fault::ReadsZero, &[Clause::Reads]),
    (Fault::NamesAnotherHost, &[Clause::Outcome]),
    (Fault::NamesAnotherBlock, &[Clause::Outcome]),
    (Fault::NamesTheOtherSort, &[Clause::Outcome]),
    (Fault::AnswersARun, &[Clause::Outcome]),
    (Fault::AnswersARefusal, &[Clause::Outcome]),
    (Fault::CallsAnAbortDone, &[Clause::Writes]),
    // Epoch changes.
    (Fault::DropsCommits, &[Clause::Copies, Clause::Reads]),
    (Fault::AddsACommit, &[Clause::ThinAir]),
    (Fault::CommitsAnotherValue, &[Clause::OneValue, Clause::ThinAir]),
    (Fault::LeavesAValue, &[Clause::Copies]),
    (Fault::LeavesATimestamp, &[Clause::Copies]),
    (Fault::FillsTheUnwritten, &[Clause::Copies]),
    // "one that returns the table untouched, and one that performs the first event and then merely
    // reports success"
    (Fault::GrantsEverything, &[Clause::Granted, Clause::Queue]),
    (Fault::StopsAfterOne, &[Clause::Granted, Clause::Queue]),
];

pub struct Broken {
    fault: Fault,
    /// Whether there was an event.
    began: bool,
}

impl Broken {
    pub fn new(fault: Fault) -> Broken {
        Broken {
            fault,
            began: false,
        }
    }

    /// The event that is done in the place of the one that was asked.
    fn done_instead(&self, table: &Table, kind: u64, operands: [u64; 3]) -> [u64; 3] {
        let [first, second, third] = operands;
        let blocks = table.block_count as u64;
        let fresh_clock = || table.hosts.get(first as usize).map(|host| host.last_clock) == Some(0);
        match (self.fault, kind) {
            (Fault::KeepsZero, 2) => [first, second, 0],
            (Fault::KeepsAnotherBlock, 1 | 2) if second < blocks => {
                [first, (second + 1) % blocks, third]
            }
            (Fault::StampsAnotherClock, 3) if (1..LARGEST).contains(&second) => {
                [first, second + 1, third]
            }
            // Once a host, so that no timestamp comes twice.
            (Fault::GrantsClockZero, 3) if second == 0 && fresh_clock() => [first, 1, third],
            _ => operands,
        }
    }

    /// What a host's event finds in its row.
    fn found_in_row(&self, kind: u64, mut row: Host) -> Host {
        match (self.fault, kind) {
            (Fault::GrantsAClockAgain, 3) => row.last_clock = 0,
            // Without restart the operation goes.
            (Fault::CallsAnAbortDone, 6) => row.restart &= !is_write(row),
            _ => {}
        }
        row
    }

    /// What a granted event of a host leaves in its row.
    fn left_in_row(&self, kind: u64, before: Host, row: &mut Host, answer: Answer) {
        match (self.fault, kind, answer.outcome) {
            (Fault::PutsTheLastFirst, 1 | 2, _) => {
                row.waiting.places[..row.waiting.count].rotate_right(1);
            }
            (Fault::LosesWhatGoesBack, 6, 0) => {
                row.waiting.remove_first();
            }
            (Fault::KeepsItsTimestamp, 6, _) => row.timestamp = before.timestamp,
            _ => {}
        }
    }

    /// What a granted epoch change leaves in one copy of a block.
    fn left_in_copy(&self, before: &Record, is_last: bool, record: &mut Record) {
        match self.fault {
            Fault::AddsACommit => (record.last_write, record.value) = made_up(record.last_write),
            Fault::CommitsAnotherValue if record.last_write != before.last_write => {
                record.value ^= 1;
            }
            Fault::LeavesAValue if is_last => record.value = before.value,
            Fault::LeavesATimestamp if is_last => record.last_write = before.last_write,
            Fault::FillsTheUnwritten if record.last_write == Timestamp::NEVER => record.value = 1,
            _ => {}
        }
    }

    fn answered(&self, kind: u64, mut answer: Answer) -> Answer {
        match (self.fault, answer.outcome) {
            (Fault::ReadsZero, 1) => answer.value = 0,
            (Fault::NamesAnotherHost, 1 | 2) => answer.host += 1,
            (Fault::NamesAnotherBlock, 1 | 2) => answer.block += 1,
            (Fault::NamesTheOtherSort, 1) => (answer.outcome, answer.value) = (2, 0),
            (Fault::NamesTheOtherSort, 2) => answer.outcome = 1,
            (Fault::AnswersARun, _) if kind == 9 && answer.code == 0 => answer.outcome = 1,
            (Fault::AnswersARefusal, _) if answer.code != 0 => answer.outcome = 1,
            (Fault::CallsAnAbortDone, 4) => answer.outcome = 2,
            (Fault::CallsACommitFailed, 2) => answer.outcome = 4,
            _ => {}
        }
        answer
    }
}

fn is_write(row: Host) -> bool {
    row.current
        .is_some_and(|current| current.sort != Sort::Read)
}

/// A write that nobody began.
fn made_up(last_write: Timestamp) -> (Timestamp, u64) {
    (Timestamp((last_write.0 + 8).min(LARGEST_TIMESTAMP)), 1)
}

impl Stepper for Broken {
    fn step(&mut self, table: &mut Table, kind: u64, operands: [u64; 3]) -> Answer {
        let began = std::mem::replace(&mut self.began, true);
        if self.fault == Fault::GrantsEverything || self.fault == Fault::StopsAfterOne && began {
            return Answer::done(Outcome::None);
        }
        let before = table.clone();
        let of_a_host = matches!(kind, 1..=3 | 6..=8 | 10);
        let host = (operands[0] as usize).min(HOSTS - 1);
        if of_a_host {
            table.hosts[host] = self.found_in_row(kind, before.hosts[host]);
        }
        if self.fault == Fault::DropsCommits && kind == 15 {
            let records = table.chunks.iter_mut().flat_map(|chunk| &mut chunk.records);
            records.for_each(|record| record.waiting = Queue::EMPTY);
        }
        let answer = step(table, kind, self.done_instead(&before, kind, operands));
        match (answer.code, kind) {
            (0, 15) => {
                for block in 0..table.block_count {
                    // The last of several.
                    let last = table.sets[block].members().skip(1).last();
                    for chunk in table.sets[block].members() {
                        let old = &before.chunks[chunk].records[block];
                        let new = &mut table.chunks[chunk].records[block];
                        self.left_in_copy(old, Some(chunk) == last, new);
                    }
                }
            }
            (0, _) if of_a_host => {
                self.left_in_row(kind, before.hosts[host], &mut table.hosts[host], answer);
            }
            (0, _) => {}
            _ => *table = before,
        }
        self.answered(kind, answer)
    }

    fn commits(&self, before: &Table, block: usize) -> Vec<(Timestamp, u64)> {
        let settled = settle(&copies(before, block));
        let mut committed = settled.committed;
        match self.fault {
            Fault::DropsCommits => committed.clear(),
            Fault::AddsACommit => committed.push(made_up(settled.last_write)),
            Fault::CommitsAnotherValue => {
                committed.iter_mut().for_each(|(_, value)| *value ^= 1);
            }
            _ => {}
        }
        committed
    }
}

#[test]
fn each_is_found_out() {
    for &(fault, clauses) in FOUND {
        for &clause in clauses {
            let found = found_by(clause, || Broken::new(fault));
            assert!(found, "{fault:?} is not found out by {clause:?}");
        }
    }
}

/// Commits that a host sent are listed whatever the finish is answered. Demand 3 asks nothing of a
/// write that is answered as failed, so this store meets it.
#[test]
fn a_commit_is_listed_whatever_is_answered() {
    for seed in 0..300 {
        let found = found_on(seed, || Broken::new(Fault::CallsACommitFailed));
        assert_eq!(found, [], "seed {seed}");
    }
}
