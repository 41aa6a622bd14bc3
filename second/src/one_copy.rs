//! Demand 3 checked over one run: "the mirrors answer as one plain copy would".
//!
//! What was begun comes from the events and their answers alone ([`crate::begun`]), and the table
//! is held to it after every event. What was committed comes from the tables: that it was begun so
//! is a clause like the others, and not taken for granted.

use crate::answer::{Answer, Outcome};
use crate::begun::{Attempt, Begun};
use crate::event::{step, Numbers, OPERANDS};
use crate::generate::{generate, Sequence};
use crate::settle::{copies, settle};
use crate::table::*;
use std::collections::{BTreeMap, BTreeSet};
use std::fmt;

/// A way of stepping, and what its epoch change commits. The store's own is [`Plain`]; a broken
/// one may stand in its place, to see whether it is found out.
pub trait Stepper {
    fn step(&mut self, table: &mut Table, kind: u64, operands: [u64; OPERANDS]) -> Answer;

    /// Every write of a block that an epoch change on this table commits.
    fn commits(&self, before: &Table, block: usize) -> Vec<(Timestamp, u64)> {
        settle(&copies(before, block)).committed
    }
}

pub struct Plain;

impl Stepper for Plain {
    fn step(&mut self, table: &mut Table, kind: u64, operands: [u64; OPERANDS]) -> Answer {
        step(table, kind, operands)
    }
}

/// What a run is held to.
#[derive(Clone, Copy, Debug, PartialEq, Eq)]
pub enum Clause {
    /// From a fresh store every table is well formed.
    WellFormed,
    /// What was granted was there to be started or finished.
    Granted,
    /// Each host's queue holds the operations that it took in and has not answered, in that order.
    Queue,
    /// A host's current timestamp is its last attempt's while that has not ended, and otherwise 0.
    Current,
    /// A granted finish's outcome is none, or names the host, block and sort of the attempt that it
    /// ends. No other event has an outcome.
    Outcome,
    /// A timestamp is listed with one value, however often it was committed.
    OneValue,
    /// "Every read answered as done carries the value of the last listed write before its last
    /// attempt's timestamp, or zero if there is none".
    Reads,
    /// "Every write answered as done is listed under its last attempt's timestamp", with the value
    /// handed in.
    Writes,
    /// Nothing out of thin air: every listed write is an attempt that was begun for its block, with
    /// the value handed in.
    ThinAir,
    /// The timestamps of all attempts, of all hosts and blocks, are above 0 and differ.
    Timestamps,
    /// "Right after a granted epoch change, every copy of a block holds the last write listed so
    /// far, or zero": its value, and its timestamp as last write.
    Copies,
}

/// What was found wrong, and by which clause.
#[derive(Clone, Debug, PartialEq, Eq)]
pub struct Wrong {
    pub clause: Clause,
    pub words: String,
}

impl fmt::Display for Wrong {
    fn fmt(&self, out: &mut fmt::Formatter) -> fmt::Result {
        write!(out, "{:?}: {}", self.clause, self.words)
    }
}

/// "list by timestamp": rising, one entry a timestamp.
pub type List = BTreeMap<Timestamp, u64>;

#[derive(Default)]
pub struct History {
    begun: Begun,
    /// "For each block, list by timestamp every write attempt that its host or an epoch change
    /// committed anywhere in the sequence."
    listed: [List; BLOCKS],
    /// Done reads, each with its last attempt and its value.
    reads: Vec<(Attempt, u64)>,
    /// Done writes, each with its last attempt.
    writes: Vec<Attempt>,
    /// What was found wrong on the way.
    wrong: Vec<Wrong>,
}

impl History {
    /// Takes one granted or refused event into the history.
    fn note(
        &mut self,
        stepper: &dyn Stepper,
        before: &Table,
        event: Numbers,
        answer: Answer,
        after: &Table,
    ) {
        if answer.code == 8 {
            let words = "a table that is not well formed".to_string();
            self.add(Clause::WellFormed, words);
        }
        match self.begun.note(event, answer) {
            Ok(Some(ended)) => self.note_finish(&before.hosts[ended.host], ended, answer),
            Ok(None) => self.note_no_outcome(event, answer),
            Err(words) => self.add(Clause::Granted, format!("{event:?}: {words}")),
        }
        if (event.0, answer.code) == (15, 0) {
            for block in 0..before.block_count {
                self.note_epoch_change(block, stepper.commits(before, block), after);
            }
        }
        self.compare(after);
    }

    fn add(&mut self, clause: Clause, words: String) {
        self.wrong.push(Wrong { clause, words });
    }

    /// "its host committed": commits go where the finish of a write finds okay, whatever it is
    /// answered.
    fn note_finish(&mut self, found: &Host, ended: Attempt, answer: Answer) {
        if let Some((block, value)) = found.current.and_then(written).filter(|_| found.okay) {
            self.list(block, found.timestamp, value);
        }
        match outcome(ended, answer) {
            Some(Outcome::ReadDone(_, _, value)) => self.reads.push((ended, value)),
            Some(Outcome::WriteDone(..)) => self.writes.push(ended),
            Some(_) => {}
            None => self.add(Clause::Outcome, format!("{ended:?} ends with {answer:?}")),
        }
    }

    fn note_no_outcome(&mut self, event: Numbers, answer: Answer) {
        let code = answer.code;
        let none = Answer::done(Outcome::None);
        if answer != (Answer { code, ..none }) {
            self.add(Clause::Outcome, format!("{event:?} is answered {answer:?}"));
        }
    }

    /// Lists every timestamp that the change commits, then looks at every copy.
    fn note_epoch_change(&mut self, block: usize, committed: Vec<(Timestamp, u64)>, after: &Table) {
        for (timestamp, value) in committed {
            self.list(block, timestamp, value);
        }
        let last = self.listed[block].last_key_value();
        let last = last.map_or((Timestamp::NEVER, 0), |(&timestamp, &value)| {
            (timestamp, value)
        });
        for copy in copies(after, block) {
            let held = (copy.record.last_write, copy.record.value);
            if held != last {
                let words = format!("a copy of block {block} holds {held:?}, not {last:?}");
                self.add(Clause::Copies, words);
            }
        }
    }

    fn list(&mut self, block: usize, timestamp: Timestamp, value: u64) {
        let listed = *self.listed[block].entry(timestamp).or_insert(value);
        if listed != value {
            let words = format!("{timestamp:?} is listed with {listed} and {value}");
            self.add(Clause::OneValue, words);
        }
    }

    /// The table against what was begun.
    fn compare(&mut self, table: &Table) {
        for (number, host) in table.hosts.iter().enumerate() {
            let queue = || host.current.into_iter().chain(host.waiting.items());
            if !queue().eq(self.begun.open(number)) {
                let open: Vec<Operation> = self.begun.open(number).collect();
                let queue: Vec<Operation> = queue().collect();
                let words = format!("host {number} has {queue:?}, not {open:?}");
                self.add(Clause::Queue, words);
            }
            let under_way = self.begun.under_way(number);
            let expected = under_way.map_or(Timestamp::NEVER, |attempt| attempt.timestamp);
            if host.timestamp != expected {
                let found = host.timestamp;
                let words = format!("host {number} is at {found:?}, not {expected:?}");
                self.add(Clause::Current, words);
            }
        }
    }

    pub fn begun(&self) -> &Begun {
        &self.begun
    }

    /// A block's list, of the whole run.
    pub fn listed(&self, block: usize) -> &List {
        &self.listed[block]
    }

    /// "the value of the last listed write before its last attempt's timestamp, or zero"
    fn last_before(&self, attempt: &Attempt) -> u64 {
        let before = self.listed[attempt.operation.block].range(..attempt.timestamp);
        before.last().map_or(0, |(_, &value)| value)
    }

    fn is_listed(&self, write: &Attempt) -> bool {
        written(write.operation)
            .is_some_and(|(block, value)| self.listed[block].get(&write.timestamp) == Some(&value))
    }

    /// Whether an attempt was begun that writes this.
    fn is_begun(&self, block: usize, timestamp: Timestamp, value: u64) -> bool {
        let mut attempts = self.begun.attempts().iter();
        attempts.any(|attempt| {
            attempt.timestamp == timestamp && written(attempt.operation) == Some((block, value))
        })
    }

    /// Everything wrong, judged over the whole run's list.
    pub fn verdict(mut self) -> Vec<Wrong> {
        let mut wrong = std::mem::take(&mut self.wrong);
        let mut add = |clause: Clause, words: String| wrong.push(Wrong { clause, words });
        for (read, value) in &self.reads {
            let expected = self.last_before(read);
            if *value != expected {
                let words = format!("{read:?} gave {value}, not {expected}");
                add(Clause::Reads, words);
            }
        }
        for write in &self.writes {
            if !self.is_listed(write) {
                add(Clause::Writes, format!("{write:?} is done and not listed"));
            }
        }
        for (block, list) in self.listed.iter().enumerate() {
            for (&timestamp, &value) in list {
                if !self.is_begun(block, timestamp, value) {
                    let words = format!("{value} at {timestamp:?} of block {block} was not begun");
                    add(Clause::ThinAir, words);
                }
            }
        }
        let mut drawn = BTreeSet::from([Timestamp::NEVER]);
        for attempt in self.begun.attempts() {
            if !drawn.insert(attempt.timestamp) {
                let words = format!("{attempt:?} has a timestamp that is 0 or another's");
                add(Clause::Timestamps, words);
            }
        }
        wrong
    }

    pub fn sizes(&self) -> Sizes {
        let listed_earlier = |write: &&Attempt| {
            let is_earlier = |other: &&Attempt| {
                (other.host, other.number) == (write.host, write.number)
                    && other.timestamp != write.timestamp
            };
            let mut earlier = self.begun.attempts().iter().filter(is_earlier);
            earlier.any(|attempt| self.is_listed(attempt))
        };
        let overtaken = |read: &Attempt| {
            let last = self.listed[read.operation.block].last_key_value();
            last.is_some_and(|(&timestamp, _)| timestamp > read.timestamp)
        };
        let telling = || self.reads.iter().filter(|(_, value)| *value != 0);
        Sizes {
            attempts: self.begun.attempts().len(),
            listed: self.listed.iter().map(List::len).sum(),
            writes: self.writes.len(),
            writes_listed_earlier: self.writes.iter().filter(listed_earlier).count(),
            reads: telling().count(),
            reads_overtaken: telling().filter(|(read, _)| overtaken(read)).count(),
        }
    }
}

/// A write's block and value; none for a read.
fn written(operation: Operation) -> Option<(usize, u64)> {
    match operation.sort {
        Sort::Read => None,
        Sort::Write(value) => Some((operation.block, value)),
    }
}

/// What a finish answered of the attempt that it ended; none where it is not of that attempt.
fn outcome(ended: Attempt, answer: Answer) -> Option<Outcome> {
    let (host, block) = (ended.host, ended.operation.block);
    let fitting = match ended.operation.sort {
        Sort::Read => [
            Outcome::None,
            Outcome::ReadDone(host, block, answer.value),
            Outcome::ReadFailed(host, block),
        ],
        Sort::Write(_) => [
            Outcome::None,
            Outcome::WriteDone(host, block),
            Outcome::WriteFailed(host, block),
        ],
    };
    let mut fitting = fitting.into_iter();
    fitting.find(|&outcome| Answer::done(outcome) == answer)
}

/// What there was to look at.
#[derive(Clone, Copy, Debug, Default, PartialEq, Eq)]
pub struct Sizes {
    /// All that were begun.
    pub attempts: usize,
    pub listed: usize,
    /// Done writes, and those of them of which "an earlier attempt" is listed too.
    pub writes: usize,
    pub writes_listed_earlier: usize,
    /// Done reads of a value other than 0, and those of them that a listed write is above.
    pub reads: usize,
    pub reads_overtaken: usize,
}

impl Sizes {
    fn plus(self, other: Sizes) -> Sizes {
        Sizes {
            attempts: self.attempts + other.attempts,
            listed: self.listed + other.listed,
            writes: self.writes + other.writes,
            writes_listed_earlier: self.writes_listed_earlier + other.writes_listed_earlier,
            reads: self.reads + other.reads,
            reads_overtaken: self.reads_overtaken + other.reads_overtaken,
        }
    }
}

/// Runs events from a fresh store, keeping the history.
pub fn run_from(
    fresh: &Table,
    events: impl IntoIterator<Item = Numbers>,
    stepper: &mut dyn Stepper,
) -> History {
    let mut history = History::default();
    let mut table = fresh.clone();
    for event in events {
        let before = table.clone();
        let answer = stepper.step(&mut table, event.0, event.1);
        history.note(stepper, &before, event, answer, &table);
    }
    history
}

/// Runs a sequence; one whose first lines give no store has nothing to it.
pub fn run(sequence: &Sequence, stepper: &mut dyn Stepper) -> History {
    let events = sequence.lines.iter().filter_map(|line| line.event);
    match &sequence.fresh {
        Some(fresh) => run_from(fresh, events, stepper),
        None => History::default(),
    }
}

/// Checks many sequences; the sums of their sizes, or the first seed with something wrong.
pub fn check(first_seed: u64, sequences: u64, events: usize) -> Result<Sizes, String> {
    let mut sums = Sizes::default();
    for seed in (0..sequences).map(|number| first_seed.wrapping_add(number)) {
        let history = run(&generate(seed, events), &mut Plain);
        sums = sums.plus(history.sizes());
        if let Some(wrong) = history.verdict().first() {
            return Err(format!("seed {seed}: {wrong}"));
        }
    }
    Ok(sums)
}
