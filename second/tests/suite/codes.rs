//! Each event's refusals, each in its listed situation and in their order.

use crate::{entry, granted, message, ready_store, refused};
use second::event::{operand_count, step};
use second::table::*;

/// 2 hosts, 2 chunks, 2 blocks; block 1 is held by chunk 1 alone.
fn store() -> Table {
    let mut table = ready_store(2, 2, 2);
    table.sets[1] = Set(2);
    table
}

fn fill_network(table: &mut Table, free: usize) {
    for place in free..PLACES {
        table.network[place] = Some(message(0, 1, Body::Busy));
    }
}

/// A host with every reason against every step but its numbers.
fn hopeless() -> Table {
    let mut table = store();
    table.hosts[0].working = false;
    table.chunks[0].state = State::Failed;
    table.hosts[0].last_clock = LARGEST;
    table
}

#[test]
fn ranges_come_first() {
    let table = hopeless();
    let far = [u64::MAX, 1 << 32, 1 << 40];
    for host in far.into_iter().chain([2, 8]) {
        for kind in [6, 7, 8, 10, 11, 12, 13, 14] {
            refused(&table, kind, [host, 0, 0], 1);
        }
        for operands in [[host, 0, 0], [0, host, 0]] {
            for kind in [1, 2, 9, 16] {
                refused(&table, kind, operands, 1);
            }
        }
        refused(&table, 3, [host, 1, 0], 1);
        // The copy is a chunk's number, for a write too.
        refused(&table, 3, [0, 1, host], 1);
    }
    refused(&table, 3, [0, 0, 0], 1);
    refused(&table, 3, [0, 4_294_967_296, 0], 1);
    refused(&table, 16, [0, 0, 4_294_967_296], 1);
    refused(&table, 16, [0, 0, 4_294_967_295], 2);
    for place in far.into_iter().chain([64]) {
        refused(&table, 4, [place, 0, 0], 1);
        refused(&table, 5, [place, 0, 0], 1);
    }
    for kind in far.into_iter().chain([0, 17, 18, 19, 20, 21]) {
        refused(&table, kind, [0; 3], 1);
    }
}

#[test]
fn unused_operands_are_0() {
    let table = hopeless();
    for kind in 1..=16 {
        for unused in operand_count(kind).unwrap()..3 {
            for number in [1, u64::MAX] {
                let mut operands = [0; 3];
                operands[unused] = number;
                refused(&table, kind, operands, 1);
            }
        }
    }
}

#[test]
fn read_and_write() {
    for kind in [1, 2] {
        let mut table = store();
        for _ in 0..8 {
            granted(&mut table, kind, [0, 1, 0]);
        }
        refused(&table, kind, [0, 1, 0], 4);
        // The current one is counted.
        granted(&mut table, 3, [0, 5, 1]);
        refused(&table, kind, [0, 1, 0], 4);
        granted(&mut table, 10, [0; 3]);
        refused(&table, kind, [0, 1, 0], 2);
    }
}

#[test]
fn start() {
    let mut table = store();
    refused(&table, 3, [0, 5, 0], 2); // None waits.
    granted(&mut table, 1, [0, 1, 0]);
    let mut lacking = table.clone();
    lacking.hosts[0].map_current = false;
    lacking.hosts[0].last_clock = 9;
    fill_network(&mut lacking, 64);
    refused(&lacking, 3, [0, 5, 0], 2); // The map isn't current.
    lacking.hosts[0].map_current = true;
    fill_network(&mut lacking, 0);
    refused(&lacking, 3, [0, 5, 0], 1); // The copy is not in the set.
    refused(&lacking, 3, [0, 9, 1], 3);
    refused(&lacking, 3, [0, 10, 1], 5);
    lacking.network[7] = None;
    granted(&mut lacking, 3, [0, 10, 1]);
    refused(&lacking, 3, [0, 11, 1], 2); // One is current.
    granted(&mut table, 10, [0; 3]);
    refused(&table, 3, [0, 5, 1], 2); // Stopped.

    // A write passes over the copy; it needs a place for each chunk of its set.
    let mut table = store();
    granted(&mut table, 2, [1, 0, 7]);
    fill_network(&mut table, 1);
    refused(&table, 3, [1, 5, 0], 5);
    fill_network(&mut table, 2);
    table.network[1] = None;
    table.sets[0] = Set(1);
    granted(&mut table, 3, [1, 5, 1]);
}

#[test]
fn deliver_and_drop() {
    let table = store();
    for kind in [4, 5] {
        for place in [0, 63] {
            refused(&table, kind, [place, 0, 0], 2);
        }
    }
}

#[test]
fn finish() {
    let mut table = store();
    refused(&table, 6, [0; 3], 2); // None is current.
    granted(&mut table, 2, [0, 0, 7]);
    granted(&mut table, 3, [0, 5, 0]);
    refused(&table, 6, [0; 3], 2); // Two are outstanding.
    granted(&mut table, 7, [0; 3]);
    fill_network(&mut table, 1);
    refused(&table, 6, [0; 3], 5); // Aborts need room too,
    table.hosts[0].okay = true;
    refused(&table, 6, [0; 3], 5); // and so do commits.
    let mut stopped = table.clone();
    granted(&mut stopped, 10, [0; 3]);
    refused(&stopped, 6, [0; 3], 2);
    table.network[5] = None;
    table.network[0] = None;
    assert_eq!(step(&mut table, 6, [0; 3]).outcome, 2);

    // A read needs no room.
    let mut table = store();
    granted(&mut table, 1, [0; 3]);
    granted(&mut table, 3, [0, 5, 0]);
    granted(&mut table, 7, [0; 3]);
    fill_network(&mut table, 0);
    granted(&mut table, 6, [0; 3]);
}

#[test]
fn timeout_refresh_stop() {
    let mut table = store();
    refused(&table, 7, [0; 3], 2);
    granted(&mut table, 1, [0; 3]);
    granted(&mut table, 3, [0, 5, 0]);
    granted(&mut table, 10, [0; 3]);
    refused(&table, 7, [0; 3], 2);
    refused(&table, 8, [0; 3], 2);
    refused(&table, 10, [0; 3], 2);
}

#[test]
fn run() {
    let mut table = store();
    fill_network(&mut table, 0);
    refused(&table, 9, [0, 0, 0], 2); // No head.
    let waiting = &mut table.chunks[0].records[0].waiting;
    waiting.append(entry(8, Waiting::Undecided(1)));
    waiting.append(entry(8, Waiting::Read));
    refused(&table, 9, [0, 0, 0], 2); // The head is undecided.
    table.chunks[0].records[0].waiting.remove_first();
    refused(&table, 9, [0, 0, 0], 5);
    table.chunks[0].records[0].last_write = Timestamp(9);
    refused(&table, 9, [0, 0, 0], 5); // Even for an out of order.
    for state in [State::Nolease, State::Failed] {
        table.chunks[0].state = state;
        refused(&table, 9, [0, 0, 0], 2);
    }
    table.chunks[0].state = State::Normal;
    for write in [Waiting::Committed(1), Waiting::Aborted(1)] {
        table.chunks[0].records[0].waiting.places[0] = Some(entry(8, write));
        let mut run = table.clone();
        granted(&mut run, 9, [0, 0, 0]); // A write needs no room.
    }
}

#[test]
fn chunk_states() {
    use State::{Failed, Nolease, Normal};
    // Event, state, lost, code.
    let expected = [
        (11, Normal, false, 0),
        (11, Nolease, false, 0),
        (11, Nolease, true, 0),
        (11, Failed, true, 2),
        (12, Normal, false, 2),
        (12, Nolease, true, 2),
        (12, Failed, true, 0),
        (13, Normal, false, 0),
        (13, Nolease, false, 2),
        (13, Failed, true, 2),
        (14, Normal, false, 2),
        (14, Nolease, false, 0),
        (14, Nolease, true, 2),
        (14, Failed, true, 2),
        (14, Failed, false, 2),
    ];
    for (kind, state, lost, code) in expected {
        let mut table = store();
        table.chunks[1].state = state;
        table.chunks[1].lost = lost;
        match code {
            0 => granted(&mut table, kind, [1, 0, 0]),
            _ => refused(&table, kind, [1, 0, 0], code),
        }
    }
}

#[test]
fn epoch_change() {
    let mut table = store();
    table.chunks[1].lost = true; // Block 1 has no other copy.
    table.chunks[0].state = State::Failed;
    table.epoch = Epoch(LARGEST);
    table.chunks[0].epoch = table.epoch;
    table.chunks[1].epoch = table.epoch;
    refused(&table, 15, [0; 3], 2);
    table.chunks[0].state = State::Nolease;
    refused(&table, 15, [0; 3], 7);
    table.epoch = Epoch(LARGEST - 1);
    table.chunks[0].epoch = table.epoch;
    table.chunks[1].epoch = table.epoch;
    refused(&table, 15, [0; 3], 6);
    table.chunks[1].lost = false;
    table.chunks[0].lost = true;
    granted(&mut table, 15, [0; 3]);
    assert_eq!(table.epoch, Epoch(LARGEST));
    refused(&table, 15, [0; 3], 7);
}

#[test]
fn overdue() {
    let mut table = store();
    refused(&table, 16, [0, 0, LARGEST], 2); // No head.
    let waiting = &mut table.chunks[0].records[0].waiting;
    waiting.append(entry(8, Waiting::Read));
    waiting.append(entry(8, Waiting::Undecided(1)));
    refused(&table, 16, [0, 0, LARGEST], 2); // The head is a read.
    for write in [Waiting::Committed(1), Waiting::Aborted(1)] {
        table.chunks[0].records[0].waiting.places[0] = Some(entry(8, write));
        refused(&table, 16, [0, 0, LARGEST], 2);
    }
    table.chunks[0].records[0].waiting.remove_first();
    for state in [State::Nolease, State::Failed] {
        table.chunks[0].state = state;
        refused(&table, 16, [0, 0, LARGEST], 2);
    }
    table.chunks[0].state = State::Normal;
    // The largest numbers: the head's clock, and the age limit.
    let latest = entry(LARGEST_TIMESTAMP, Waiting::Undecided(1));
    table.chunks[0].records[0].waiting.places[0] = Some(latest);
    refused(&table, 16, [0, 0, 0], 2);
    table.age_limit = 0;
    refused(&table, 16, [0, 0, LARGEST], 2);
    let first = entry(7, Waiting::Undecided(1));
    table.chunks[0].records[0].waiting.places[0] = Some(first);
    table.age_limit = LARGEST;
    refused(&table, 16, [0, 0, LARGEST], 2);
    table.age_limit = LARGEST - 1;
    granted(&mut table, 16, [0, 0, LARGEST]);
    granted(&mut table, 16, [0, 0, LARGEST]); // Granted again.
}
