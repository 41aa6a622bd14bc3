//! What was begun in a run, from its events and their answers alone: no table is looked into.

use crate::answer::Answer;
use crate::event::Numbers;
use crate::table::{Operation, Sort, Timestamp, BLOCKS, HOSTS, LARGEST};
use std::collections::VecDeque;

/// One try at an operation: "each start draws a new timestamp".
#[derive(Clone, Copy, Debug, PartialEq, Eq)]
pub struct Attempt {
    /// "clock x 8 + host number", by the start's own operands.
    pub timestamp: Timestamp,
    pub host: usize,
    /// Its block, and what it does.
    pub operation: Operation,
    /// Which of its host's operations it belongs to: the how-manieth taken in, from 0. It tells two
    /// equal writes apart.
    pub number: usize,
}

/// What one host was asked.
#[derive(Clone, Debug, Default)]
struct Asked {
    /// How many operations it took in.
    taken: usize,
    /// Those that are not answered, front first.
    open: VecDeque<Operation>,
    /// Whether its last attempt has not ended.
    trying: bool,
}

#[derive(Clone, Debug, Default)]
pub struct Begun {
    attempts: Vec<Attempt>,
    asked: [Asked; HOSTS],
}

impl Begun {
    /// Takes an event and its answer in; the attempt that it ended, if it ended one. An error where
    /// what was granted can't be.
    pub fn note(
        &mut self,
        (kind, [first, second, third]): Numbers,
        answer: Answer,
    ) -> Result<Option<Attempt>, &'static str> {
        if answer.code != 0 {
            return Ok(None);
        }
        let host = || below(first, HOSTS as u64).map(|host| host as usize);
        let block = || below(second, BLOCKS as u64).map(|block| block as usize);
        match kind {
            1 => self.take_in(host()?, block()?, Sort::Read),
            2 => self.take_in(host()?, block()?, Sort::Write(third)),
            3 => self.begin(host()?, below(second, LARGEST + 1)?)?,
            6 => return self.end(host()?, answer.outcome != 0).map(Some),
            _ => {}
        }
        Ok(None)
    }

    /// Events 1 and 2 take an operation in.
    fn take_in(&mut self, host: usize, block: usize, sort: Sort) {
        self.asked[host].taken += 1;
        self.asked[host].open.push_back(Operation { block, sort });
    }

    /// Event 3 begins an attempt at the front operation.
    fn begin(&mut self, host: usize, clock: u64) -> Result<(), &'static str> {
        let asked = &mut self.asked[host];
        let front = asked.open.front().filter(|_| !asked.trying);
        self.attempts.push(Attempt {
            timestamp: Timestamp::drawn(clock, host),
            host,
            operation: *front.ok_or("a start was granted that had nothing to start")?,
            number: asked.taken - asked.open.len(),
        });
        asked.trying = true;
        Ok(())
    }

    /// Event 6 ends the attempt. The operation goes where it is answered, done or failed, and
    /// otherwise stays at the front.
    fn end(&mut self, host: usize, answered: bool) -> Result<Attempt, &'static str> {
        let ended = self.under_way(host);
        let ended = ended.ok_or("a finish was granted that had nothing to finish")?;
        self.asked[host].trying = false;
        if answered {
            self.asked[host].open.pop_front();
        }
        Ok(ended)
    }

    /// Every attempt of the run, in order.
    pub fn attempts(&self) -> &[Attempt] {
        &self.attempts
    }

    /// The operations that a host took in and has not answered, front first.
    pub fn open(&self, host: usize) -> impl Iterator<Item = Operation> + '_ {
        self.asked[host].open.iter().copied()
    }

    /// A host's last attempt, while that has not ended.
    pub fn under_way(&self, host: usize) -> Option<Attempt> {
        let mut latest_first = self.attempts.iter().rev();
        let last = latest_first.find(|attempt| attempt.host == host).copied();
        last.filter(|_| self.asked[host].trying)
    }
}

fn below(number: u64, limit: u64) -> Result<u64, &'static str> {
    match number < limit {
        true => Ok(number),
        false => Err("an event was granted that has a number out of its range"),
    }
}
