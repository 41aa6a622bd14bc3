//! The tests of the second program.

mod broken_stores;
mod cases;
mod codes;
mod comparing;
mod errors_that_look_right;
mod granted;
mod lines;
mod lists;
mod sequences;
mod session;
mod well_formed;

use second::answer::Answer;
use second::event::step;
use second::generate::{generate_with, EVENTS};
use second::one_copy::{run, Clause, Plain, Stepper};
use second::table::*;

/// The answer of a refusal, or of a granted event without outcome.
fn answer(code: u64) -> Answer {
    Answer {
        code,
        outcome: 0,
        host: 0,
        block: 0,
        value: 0,
    }
}

/// Expects a refusal with this code and the table exactly as it was.
fn refused(table: &Table, kind: u64, operands: [u64; 3], code: u64) {
    let mut after = table.clone();
    let found = step(&mut after, kind, operands);
    assert_eq!(found, answer(code), "event {kind} {operands:?}");
    assert!(
        after == *table,
        "event {kind} {operands:?} changed the table"
    );
}

/// Performs an event that must be granted without outcome.
fn granted(table: &mut Table, kind: u64, operands: [u64; 3]) {
    assert_eq!(
        step(table, kind, operands),
        answer(0),
        "event {kind} {operands:?}"
    );
}

/// A fresh store with leases given and maps current; every chunk holds every block.
fn ready_store(hosts: u64, chunks: u64, blocks: u64) -> Table {
    let sets = vec![(1 << chunks) - 1; blocks as usize];
    let mut table = Table::create(hosts, chunks, blocks, 100, &sets).unwrap();
    for chunk in 0..chunks {
        granted(&mut table, 14, [chunk, 0, 0]);
    }
    for host in 0..hosts {
        granted(&mut table, 8, [host, 0, 0]);
    }
    table
}

fn entry(timestamp: u64, sort: Waiting) -> Entry {
    Entry {
        timestamp: Timestamp(timestamp),
        sender: 0,
        epoch: Epoch(1),
        sort,
    }
}

fn message(block: usize, timestamp: u64, body: Body) -> Message {
    Message {
        host: 0,
        chunk: 0,
        block,
        timestamp: Timestamp(timestamp),
        body,
    }
}

/// Sequences that are tried before a broken store counts as not found out.
const SEEDS: u64 = 3000;

/// Whether the clause finds the store out, on some sequence.
fn found_by<S: Stepper>(clause: Clause, broken: impl Fn() -> S) -> bool {
    (0..SEEDS).any(|seed| found_on(seed, &broken).contains(&clause))
}

/// The clauses by which the store is found out on a sequence.
fn found_on<S: Stepper>(seed: u64, broken: impl Fn() -> S) -> Vec<Clause> {
    // The broken store guides the sequence, so that it goes on from its fault.
    let mut guiding = broken();
    let mut guide = |table: &mut Table, kind, operands| guiding.step(table, kind, operands);
    let sequence = generate_with(seed, EVENTS, &mut guide);
    // On the same events the plain store has nothing wrong.
    assert_eq!(run(&sequence, &mut Plain).verdict(), []);
    let wrong = run(&sequence, &mut broken()).verdict();
    wrong.into_iter().map(|wrong| wrong.clause).collect()
}
