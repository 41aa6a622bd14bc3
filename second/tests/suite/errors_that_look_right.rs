//! Document 01's "Errors that look right", each built around the plain step, and each found out.
//!
//! An error changes what the step sees or leaves; the store's own code has no hook for it.

use crate::{entry, found_by, ready_store};
use second::answer::Answer;
use second::event::step;
use second::generate::{generate, EVENTS};
use second::one_copy::{run, Clause, Plain, Stepper};
use second::queue::Queue;
use second::settle::{copies, settle};
use second::table::*;

#[derive(Clone, Copy, PartialEq, Eq)]
enum Mistake {
    LeaseForARecoveredChunk,
    DroppingWhatALostChunkLacks,
    CommittingWhatALostReadPassed,
    CountingWithoutTheCurrentOne,
    ServingPastAnUndecidedWrite,
    RetryingAsOneAttempt,
}

/// A store with one mistake in it.
struct Broken {
    mistake: Mistake,
    /// The timestamps of attempts that were given up and will be tried again, by host.
    given_up: [Option<Timestamp>; HOSTS],
}

impl Broken {
    fn new(mistake: Mistake) -> Broken {
        Broken {
            mistake,
            given_up: [None; HOSTS],
        }
    }

    /// The table as a mistaken settlement sees it.
    fn seen_by_settlement(&self, table: &Table) -> Table {
        let mut seen = table.clone();
        for block in 0..table.block_count {
            let set = table.sets[block];
            let any_lost = set.members().any(|chunk| table.chunks[chunk].lost);
            for chunk in set.members() {
                let chunk = &mut seen.chunks[chunk];
                let record = &mut chunk.records[block];
                match self.mistake {
                    Mistake::DroppingWhatALostChunkLacks if any_lost => {
                        record.waiting = Queue::EMPTY;
                    }
                    Mistake::CommittingWhatALostReadPassed if chunk.lost => {
                        record.last_read = Timestamp::NEVER;
                    }
                    _ => {}
                }
            }
        }
        seen
    }
}

impl Stepper for Broken {
    fn step(&mut self, table: &mut Table, kind: u64, operands: [u64; 3]) -> Answer {
        let first = operands[0] as usize;
        match (self.mistake, kind) {
            (Mistake::LeaseForARecoveredChunk, 14) if first < table.chunk_count => {
                let chunk = &mut table.chunks[first];
                chunk.lost &= chunk.state == State::Failed;
                step(table, kind, operands)
            }
            (Mistake::DroppingWhatALostChunkLacks | Mistake::CommittingWhatALostReadPassed, 15) => {
                let greatest = |block: usize| settle(&copies(table, block)).last_read;
                let last_reads: Vec<Timestamp> = (0..table.block_count).map(greatest).collect();
                let mut seen = self.seen_by_settlement(table);
                let answer = step(&mut seen, kind, operands);
                if answer.code == 0 {
                    *table = seen;
                    for (block, last_read) in last_reads.into_iter().enumerate() {
                        for chunk in table.sets[block].members() {
                            table.chunks[chunk].records[block].last_read = last_read;
                        }
                    }
                }
                answer
            }
            (Mistake::CountingWithoutTheCurrentOne, 1 | 2) if first < table.host_count => {
                let current = table.hosts[first];
                if current.operations() > OPERATIONS {
                    return step(table, kind, operands);
                }
                table.hosts[first] = Host {
                    waiting: current.waiting,
                    working: current.working,
                    ..Host::ZERO
                };
                let answer = step(table, kind, operands);
                let waiting = table.hosts[first].waiting;
                table.hosts[first] = Host { waiting, ..current };
                answer
            }
            (Mistake::ServingPastAnUndecidedWrite, 9) => {
                let second = operands[1] as usize;
                let Some((read, rest)) = read_behind_undecided(table, first, second) else {
                    return step(table, kind, operands);
                };
                // The read is run as if it stood alone; the rest stays as it was.
                let waiting = table.chunks[first].records[second].waiting;
                let mut alone = Queue::EMPTY;
                alone.append(read);
                table.chunks[first].records[second].waiting = alone;
                let answer = step(table, kind, operands);
                let left = if answer.code == 0 { rest } else { waiting };
                table.chunks[first].records[second].waiting = left;
                answer
            }
            (Mistake::RetryingAsOneAttempt, 3) => {
                let answer = step(table, kind, operands);
                if let (0, Some(earlier)) =
                    (answer.code, self.given_up.get(first).copied().flatten())
                {
                    let drawn = table.hosts[first].timestamp;
                    table.hosts[first].timestamp = earlier;
                    for message in table.network.iter_mut().flatten() {
                        if message.timestamp == drawn {
                            message.timestamp = earlier;
                        }
                    }
                }
                answer
            }
            (Mistake::RetryingAsOneAttempt, 6) if first < table.host_count => {
                let attempt = table.hosts[first].timestamp;
                let answer = step(table, kind, operands);
                if answer.code == 0 {
                    self.given_up[first] = (answer.outcome == 0).then_some(attempt);
                }
                answer
            }
            _ => step(table, kind, operands),
        }
    }

    fn commits(&self, before: &Table, block: usize) -> Vec<(Timestamp, u64)> {
        let seen = self.seen_by_settlement(before);
        settle(&copies(&seen, block)).committed
    }
}

/// The first read behind an undecided head, and the queue without it.
fn read_behind_undecided(
    table: &Table,
    chunk: usize,
    block: usize,
) -> Option<(Entry, Queue<Entry, WAITING>)> {
    if chunk >= table.chunk_count || block >= table.block_count {
        return None;
    }
    let waiting = &table.chunks[chunk].records[block].waiting;
    let head = waiting.first()?;
    if !matches!(head.sort, Waiting::Undecided(_)) {
        return None;
    }
    let mut items: Vec<Entry> = waiting.items().collect();
    let read = items.iter().position(|e| e.sort == Waiting::Read)?;
    let read = items.remove(read);
    let mut rest = Queue::EMPTY;
    items.into_iter().for_each(|entry| rest.append(entry));
    Some((read, rest))
}

fn is_found(mistake: Mistake, clause: Clause) {
    assert!(found_by(clause, || Broken::new(mistake)));
}

#[test]
fn lease_for_a_recovered_chunk() {
    is_found(Mistake::LeaseForARecoveredChunk, Clause::Reads);
}

#[test]
fn dropping_what_a_lost_chunk_lacks() {
    is_found(Mistake::DroppingWhatALostChunkLacks, Clause::Reads);
}

#[test]
fn committing_what_a_lost_read_passed() {
    is_found(Mistake::CommittingWhatALostReadPassed, Clause::Reads);
}

#[test]
fn serving_past_an_undecided_write() {
    is_found(Mistake::ServingPastAnUndecidedWrite, Clause::Reads);
}

/// That a start's clock is passed over is the mistake itself; here are the wrong answers of it.
#[test]
fn retrying_as_one_attempt() {
    is_found(Mistake::RetryingAsOneAttempt, Clause::Reads);
    is_found(Mistake::RetryingAsOneAttempt, Clause::Copies);
}

/// Demand 3 can't see this one by its values; the ninth operation makes the table ill formed.
#[test]
fn counting_without_the_current_one() {
    is_found(Mistake::CountingWithoutTheCurrentOne, Clause::WellFormed);
    let mut table = ready_store(1, 1, 1);
    let mut broken = Broken::new(Mistake::CountingWithoutTheCurrentOne);
    for _ in 0..8 {
        assert_eq!(broken.step(&mut table, 1, [0; 3]).code, 0);
    }
    assert_eq!(broken.step(&mut table, 3, [0, 5, 0]).code, 0);
    assert_eq!(broken.step(&mut table, 1, [0; 3]).code, 0);
    assert_eq!(broken.step(&mut table, 7, [0; 3]).code, 8);
}

/// The user's fault, event by event: a chunk back from a failure serves the bounds of the call
/// before, because it was given its lease.
#[test]
fn bounds_of_the_previous_call() {
    let answers = |stepper: &mut dyn Stepper| {
        let mut table = ready_store(1, 2, 1);
        let mut last = None;
        let write = |value: u64| vec![(2, [0, 0, value])];
        let carried = |clock: u64| {
            let mut events = vec![(3, [0, clock, 1])];
            events.extend([
                (4, [0, 0, 0]),
                (4, [1, 0, 0]),
                (4, [0, 0, 0]),
                (4, [1, 0, 0]),
            ]);
            events.push((6, [0, 0, 0]));
            events.extend([(4, [0, 0, 0]), (4, [1, 0, 0])]);
            events
        };
        let runs = || vec![(9, [0, 0, 0]), (9, [1, 0, 0])];
        let fault = vec![(11, [1, 0, 0]), (12, [1, 0, 0]), (14, [1, 0, 0])];
        let read = vec![(1, [0; 3]), (3, [0, 9, 1]), (4, [0; 3]), (9, [1, 0, 0])];
        let end = vec![(4, [0; 3]), (6, [0; 3])];
        let events = [
            write(10),
            carried(5),
            runs(),
            write(20),
            carried(6),
            fault,
            read,
            end,
        ];
        for (kind, operands) in events.concat() {
            last = Some(stepper.step(&mut table, kind, operands));
        }
        last.map(|answer| (answer.code, answer.outcome, answer.value))
    };
    let mut broken = Broken::new(Mistake::LeaseForARecoveredChunk);
    assert_eq!(answers(&mut broken), Some((0, 1, 10)));
    // The plain store refuses the lease, and the read is not answered.
    assert_eq!(answers(&mut Plain), Some((2, 0, 0)));
}

/// P4 and P3 as the two mistaken settlements would have them.
#[test]
fn the_cases_find_mistaken_settlements() {
    let settled = |mistake: Option<Mistake>, last_read: u64| {
        let mut table = ready_store(1, 2, 1);
        let forty = entry(40, Waiting::Undecided(7));
        table.chunks[0].records[0].waiting.append(forty);
        table.chunks[1].records[0].last_read = Timestamp(last_read);
        table.chunks[1].lost = true;
        match mistake {
            Some(mistake) => Broken::new(mistake).step(&mut table, 15, [0; 3]),
            None => step(&mut table, 15, [0; 3]),
        };
        table.chunks[1].records[0].value
    };
    assert_eq!(settled(None, 0), 7);
    assert_eq!(settled(Some(Mistake::DroppingWhatALostChunkLacks), 0), 0);
    assert_eq!(settled(None, 49), 0);
    assert_eq!(settled(Some(Mistake::CommittingWhatALostReadPassed), 49), 7);
}

/// The sequences themselves are sound: without a mistake the same seeds show nothing.
#[test]
fn nothing_is_found_in_the_plain_store() {
    for seed in 0..100 {
        let sequence = generate(seed, EVENTS);
        assert!(
            run(&sequence, &mut Plain).verdict().is_empty(),
            "seed {seed}"
        );
    }
}
