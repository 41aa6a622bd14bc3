//! One event: its numbers, the order of its refusals, its answer.

use crate::answer::{Answer, Outcome, Refusal};
use crate::table::*;
use crate::well_formed::well_formed;
use crate::{chunk, host, settle};

/// No event has more operands than this.
pub const OPERANDS: usize = 3;
/// The highest event kind.
pub const KINDS: u64 = 16;

/// An event's kind and operands, any numbers.
pub type Numbers = (u64, [u64; OPERANDS]);

/// An event whose numbers are all within their ranges.
#[derive(Clone, Copy, Debug, PartialEq, Eq)]
enum Event {
    Read {
        host: usize,
        block: usize,
    },
    Write {
        host: usize,
        block: usize,
        value: u64,
    },
    Start {
        host: usize,
        clock: u64,
        copy: usize,
    },
    Deliver {
        place: usize,
    },
    Drop {
        place: usize,
    },
    Finish {
        host: usize,
    },
    Timeout {
        host: usize,
    },
    Refresh {
        host: usize,
    },
    Run {
        chunk: usize,
        block: usize,
    },
    Stop {
        host: usize,
    },
    Fail {
        chunk: usize,
    },
    Recover {
        chunk: usize,
    },
    TakeLease {
        chunk: usize,
    },
    GiveLease {
        chunk: usize,
    },
    EpochChange,
    Overdue {
        chunk: usize,
        block: usize,
        now: u64,
    },
}

/// How many operands a kind has; none for an unknown kind.
pub fn operand_count(kind: u64) -> Option<usize> {
    match kind {
        15 => Some(0),
        4..=8 | 10..=14 => Some(1),
        1 | 9 => Some(2),
        2 | 3 | 16 => Some(3),
        _ => None,
    }
}

/// The event, if its kind is known, its unused operands are 0 and its numbers are within range.
fn read_event(table: &Table, kind: u64, operands: [u64; OPERANDS]) -> Option<Event> {
    let used = operand_count(kind)?;
    if operands.iter().skip(used).any(|&operand| operand != 0) {
        return None;
    }
    let below = |number: u64, limit: usize| (number < limit as u64).then_some(number as usize);
    let [first, second, third] = operands;
    let host = || below(first, table.host_count);
    let chunk = || below(first, table.chunk_count);
    let block = || below(second, table.block_count);
    let place = || below(first, PLACES);
    Some(match kind {
        1 => Event::Read {
            host: host()?,
            block: block()?,
        },
        2 => Event::Write {
            host: host()?,
            block: block()?,
            value: third,
        },
        3 => Event::Start {
            host: host()?,
            clock: Some(second).filter(|clock| (1..=LARGEST).contains(clock))?,
            copy: below(third, table.chunk_count)?,
        },
        4 => Event::Deliver { place: place()? },
        5 => Event::Drop { place: place()? },
        6 => Event::Finish { host: host()? },
        7 => Event::Timeout { host: host()? },
        8 => Event::Refresh { host: host()? },
        9 => Event::Run {
            chunk: chunk()?,
            block: block()?,
        },
        10 => Event::Stop { host: host()? },
        11 => Event::Fail { chunk: chunk()? },
        12 => Event::Recover { chunk: chunk()? },
        13 => Event::TakeLease { chunk: chunk()? },
        14 => Event::GiveLease { chunk: chunk()? },
        15 => Event::EpochChange,
        16 => Event::Overdue {
            chunk: chunk()?,
            block: block()?,
            now: Some(third).filter(|&now| now <= LARGEST)?,
        },
        _ => return None,
    })
}

/// Performs one event, any numbers on any table. "A refused event leaves the table exactly as
/// found and its other answer fields zero."
pub fn step(table: &mut Table, kind: u64, operands: [u64; OPERANDS]) -> Answer {
    match attempt(table, kind, operands) {
        Ok(outcome) => Answer::done(outcome),
        Err(refusal) => Answer::refused(refusal),
    }
}

/// "Code 8 is looked for first, then ranges (1), then the order in each event."
fn attempt(table: &mut Table, kind: u64, operands: [u64; OPERANDS]) -> Result<Outcome, Refusal> {
    if !well_formed(table) {
        return Err(Refusal::IllFormed);
    }
    let event = read_event(table, kind, operands).ok_or(Refusal::Range)?;
    perform(table, event)
}

/// Each of these looks at everything before it changes anything.
fn perform(table: &mut Table, event: Event) -> Result<Outcome, Refusal> {
    match event {
        Event::Read { host, block } => {
            let sort = Sort::Read;
            host::append(table, host, Operation { block, sort })?;
        }
        Event::Write { host, block, value } => {
            let sort = Sort::Write(value);
            host::append(table, host, Operation { block, sort })?;
        }
        Event::Start { host, clock, copy } => host::start(table, host, clock, copy)?,
        Event::Deliver { place } => deliver(table, place)?,
        Event::Drop { place } => {
            remove_message(table, place)?;
        }
        Event::Finish { host } => return host::finish(table, host),
        Event::Timeout { host } => host::timeout(&mut table.hosts[host])?,
        Event::Refresh { host } => host::refresh(&mut table.hosts[host], table.epoch)?,
        Event::Run { chunk, block } => chunk::run(table, chunk, block)?,
        Event::Stop { host } => host::stop(&mut table.hosts[host])?,
        Event::Fail { chunk } => chunk::fail(&mut table.chunks[chunk])?,
        Event::Recover { chunk } => chunk::recover(&mut table.chunks[chunk])?,
        Event::TakeLease { chunk } => chunk::take_lease(&mut table.chunks[chunk])?,
        Event::GiveLease { chunk } => chunk::give_lease(&mut table.chunks[chunk])?,
        Event::EpochChange => settle::epoch_change(table)?,
        Event::Overdue { chunk, block, now } => {
            chunk::overdue(&mut table.chunks[chunk], block, now, table.age_limit)?
        }
    }
    Ok(Outcome::None)
}

/// Events 4 and 5: "Empty place: 2. The message is removed."
fn remove_message(table: &mut Table, place: usize) -> Result<Message, Refusal> {
    table.network[place].take().ok_or(Refusal::State)
}

/// Event 4: "Its reply, if any, takes the lowest free place, so room never lacks."
fn deliver(table: &mut Table, place: usize) -> Result<(), Refusal> {
    let message = remove_message(table, place)?;
    if message.body.is_reply() {
        host::receive(&mut table.hosts[message.host], &message);
        return Ok(());
    }
    let chunk = &mut table.chunks[message.chunk];
    if let Some(body) = chunk::arrive(chunk, table.block_count, &message) {
        table.post(Message { body, ..message });
    }
    Ok(())
}
