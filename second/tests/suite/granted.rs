//! What each granted event makes of the table, all of it: the expected table is the one before with
//! the named fields changed.

use crate::{answer, entry, granted, message, ready_store};
use second::answer::Answer;
use second::event::step;
use second::queue::Queue;
use second::table::*;

/// Performs an event and compares the whole table afterwards.
fn becomes(before: &Table, kind: u64, operands: [u64; 3], change: impl FnOnce(&mut Table)) {
    with_answer(before, kind, operands, answer(0), change);
}

fn with_answer(
    before: &Table,
    kind: u64,
    operands: [u64; 3],
    answer: Answer,
    change: impl FnOnce(&mut Table),
) {
    let mut expected = before.clone();
    change(&mut expected);
    let mut found = before.clone();
    assert_eq!(step(&mut found, kind, operands), answer);
    assert!(
        found == expected,
        "event {kind} {operands:?} made another table"
    );
}

fn write_of(block: usize, value: u64) -> Operation {
    let sort = Sort::Write(value);
    Operation { block, sort }
}

fn read_of(block: usize) -> Operation {
    let sort = Sort::Read;
    Operation { block, sort }
}

#[test]
fn read_and_write_append() {
    let mut table = ready_store(2, 2, 2);
    becomes(&table, 1, [1, 1, 0], |t| {
        t.hosts[1].waiting.append(read_of(1))
    });
    granted(&mut table, 1, [1, 1, 0]);
    becomes(&table, 2, [1, 0, u64::MAX], |t| {
        t.hosts[1].waiting.places[1] = Some(write_of(0, u64::MAX));
        t.hosts[1].waiting.count = 2;
    });
}

#[test]
fn start_of_a_read() {
    let mut table = ready_store(2, 3, 2);
    granted(&mut table, 1, [1, 1, 0]);
    granted(&mut table, 2, [1, 0, 7]);
    table.network[0] = Some(message(0, 1, Body::Busy));
    becomes(&table, 3, [1, 5, 2], |t| {
        t.network[1] = Some(Message {
            host: 1,
            chunk: 2,
            block: 1,
            timestamp: Timestamp(41),
            body: Body::Read(Epoch(1)),
        });
        t.hosts[1] = Host {
            current: Some(read_of(1)),
            timestamp: Timestamp(41),
            outstanding: Set(4),
            okay: true,
            restart: true,
            last_clock: 5,
            waiting: Queue::EMPTY,
            ..t.hosts[1]
        };
        t.hosts[1].waiting.append(write_of(0, 7));
    });
}

#[test]
fn start_of_a_write() {
    let mut table = ready_store(1, 4, 1);
    table.sets[0] = Set(0b1011);
    table.hosts[0].epoch_known = Epoch(9);
    granted(&mut table, 2, [0, 0, 7]);
    table.network[1] = Some(message(0, 1, Body::Busy));
    becomes(&table, 3, [0, LARGEST, 2], |t| {
        let latest = LARGEST * 8;
        for (place, chunk) in [(0, 0), (2, 1), (3, 3)] {
            let sent = message(0, latest, Body::Prewrite(Epoch(9), 7));
            t.network[place] = Some(Message { chunk, ..sent });
        }
        let host = &mut t.hosts[0];
        host.waiting.remove_first();
        host.current = Some(write_of(0, 7));
        host.timestamp = Timestamp(latest);
        host.outstanding = Set(0b1011);
        host.okay = true;
        host.restart = true;
        host.last_clock = LARGEST;
    });
}

/// A host at the end of an operation, nothing outstanding, one more operation waiting.
fn ending(operation: Operation, okay: bool, restart: bool) -> Table {
    let mut table = ready_store(2, 2, 1);
    let host = &mut table.hosts[1];
    host.current = Some(operation);
    host.waiting.append(read_of(0));
    host.timestamp = Timestamp(41);
    host.okay = okay;
    host.restart = restart;
    host.result = 77;
    host.epoch_known = Epoch(3);
    host.last_clock = 5;
    table
}

fn ended(table: &mut Table) {
    let host = &mut table.hosts[1];
    host.current = None;
    host.timestamp = Timestamp::NEVER;
    host.okay = false;
    host.restart = false;
    host.result = 0;
}

fn outcome(outcome: u64, value: u64) -> Answer {
    Answer {
        code: 0,
        outcome,
        host: 1,
        block: 0,
        value,
    }
}

fn sent_to_both(table: &mut Table, body: Body) {
    for chunk in 0..2 {
        let host = 1;
        let sent = message(0, 41, body);
        table.network[chunk] = Some(Message {
            host,
            chunk,
            ..sent
        });
    }
}

#[test]
fn finish() {
    let (read, write) = (read_of(0), write_of(0, 7));
    let event = (6, [1, 0, 0]);
    for restart in [false, true] {
        let table = ending(read, true, restart);
        with_answer(&table, event.0, event.1, outcome(1, 77), ended);
        let table = ending(write, true, restart);
        with_answer(&table, event.0, event.1, outcome(2, 0), |t| {
            ended(t);
            sent_to_both(t, Body::Commit(Epoch(3)));
        });
    }
    with_answer(
        &ending(read, false, false),
        event.0,
        event.1,
        outcome(3, 0),
        ended,
    );
    let table = ending(write, false, false);
    with_answer(&table, event.0, event.1, outcome(4, 0), |t| {
        ended(t);
        sent_to_both(t, Body::Abort(Epoch(3)));
    });
    // A restart goes back to the front, and its outcome is none.
    becomes(&ending(read, false, true), event.0, event.1, |t| {
        ended(t);
        t.hosts[1].waiting.prepend(read);
    });
    becomes(&ending(write, false, true), event.0, event.1, |t| {
        ended(t);
        t.hosts[1].waiting.prepend(write);
        sent_to_both(t, Body::Abort(Epoch(3)));
    });
}

#[test]
fn a_restart_finds_its_place_among_eight() {
    let mut table = ready_store(1, 1, 1);
    for value in 0..8 {
        granted(&mut table, 2, [0, 0, value]);
    }
    granted(&mut table, 3, [0, 5, 0]);
    granted(&mut table, 7, [0; 3]);
    granted(&mut table, 6, [0; 3]);
    let values: Vec<_> = table.hosts[0].waiting.items().map(|o| o.sort).collect();
    let expected: Vec<_> = (0..8).map(Sort::Write).collect();
    assert_eq!(values, expected);
}

#[test]
fn timeout_refresh_stop() {
    let mut table = ready_store(1, 2, 1);
    granted(&mut table, 2, [0, 0, 7]);
    granted(&mut table, 3, [0, 5, 0]);
    becomes(&table, 7, [0; 3], |t| {
        t.hosts[0].okay = false;
        t.hosts[0].outstanding = Set::EMPTY;
    });
    becomes(&table, 10, [0; 3], |t| t.hosts[0].working = false);
    table.epoch = Epoch(6);
    table.chunks[0].epoch = Epoch(6);
    table.chunks[1].epoch = Epoch(6);
    table.hosts[0].map_current = false;
    becomes(&table, 8, [0; 3], |t| {
        t.hosts[0].epoch_known = Epoch(6);
        t.hosts[0].map_current = true;
    });
}

#[test]
fn run() {
    let mut table = ready_store(1, 1, 2);
    let record = &mut table.chunks[0].records[1];
    record.value = 5;
    record.last_read = Timestamp(20);
    record.last_write = Timestamp(30);
    record.waiting.append(entry(40, Waiting::Read));
    let with_head = |sort: Waiting, timestamp: u64| {
        let mut table = table.clone();
        let waiting = &mut table.chunks[0].records[1].waiting;
        waiting.remove_first();
        waiting.append(entry(timestamp, sort));
        waiting.append(entry(99, Waiting::Undecided(1)));
        table
    };
    let event = (9, [0, 1, 0]);
    let ran = |t: &mut Table| {
        t.chunks[0].records[1].waiting.remove_first();
    };
    becomes(&with_head(Waiting::Aborted(8), 40), event.0, event.1, ran);
    becomes(
        &with_head(Waiting::Committed(8), 40),
        event.0,
        event.1,
        |t| {
            ran(t);
            t.chunks[0].records[1].value = 8;
            t.chunks[0].records[1].last_write = Timestamp(40);
        },
    );
    // Handed in: a committed write below last write sets the value alone.
    becomes(
        &with_head(Waiting::Committed(8), 29),
        event.0,
        event.1,
        |t| {
            ran(t);
            t.chunks[0].records[1].value = 8;
        },
    );
    becomes(&with_head(Waiting::Read, 29), event.0, event.1, |t| {
        ran(t);
        t.network[0] = Some(message(1, 29, Body::OutOfOrder));
    });
    becomes(&with_head(Waiting::Read, 30), event.0, event.1, |t| {
        ran(t);
        t.chunks[0].records[1].last_read = Timestamp(30);
        t.network[0] = Some(message(1, 30, Body::ReadReply(5)));
    });
    let mut read_later = with_head(Waiting::Read, 30);
    read_later.chunks[0].records[1].last_read = Timestamp(50);
    becomes(&read_later, event.0, event.1, |t| {
        ran(t);
        t.network[0] = Some(message(1, 30, Body::ReadReply(5)));
    });
}

#[test]
fn chunk_states() {
    let mut table = ready_store(1, 2, 2);
    let chunk = &mut table.chunks[1];
    chunk.reconciling = Set(3);
    for record in &mut chunk.records[..2] {
        record.value = 9;
        record.last_read = Timestamp(20);
        record.last_write = Timestamp(30);
        record.waiting.append(entry(40, Waiting::Committed(1)));
    }
    becomes(&table, 11, [1, 0, 0], |t| {
        let chunk = &mut t.chunks[1];
        chunk.state = State::Failed;
        chunk.lost = true;
        chunk.reconciling = Set::EMPTY;
        chunk.records[0].waiting = Queue::EMPTY;
        chunk.records[1].waiting = Queue::EMPTY;
    });
    becomes(&table, 13, [1, 0, 0], |t| {
        t.chunks[1].state = State::Nolease
    });
    granted(&mut table, 13, [1, 0, 0]);
    becomes(&table, 14, [1, 0, 0], |t| t.chunks[1].state = State::Normal);
    granted(&mut table, 11, [1, 0, 0]);
    becomes(&table, 12, [1, 0, 0], |t| {
        t.chunks[1].state = State::Nolease
    });
}

#[test]
fn overdue_joins_the_set() {
    let mut table = ready_store(1, 2, 2);
    let head = entry(8, Waiting::Undecided(1));
    table.chunks[1].records[1].waiting.append(head);
    becomes(&table, 16, [1, 1, 102], |t| {
        t.chunks[1].reconciling = Set(2)
    });
}

/// A message to chunk 0, whose block 0 has last read 50 and last write 30, in a store of one block.
fn arrival(waiting: &[Entry], sent: Message) -> Table {
    let mut table = ready_store(1, 1, 1);
    let record = &mut table.chunks[0].records[0];
    record.last_read = Timestamp(50);
    record.last_write = Timestamp(30);
    for &entry in waiting {
        record.waiting.append(entry);
    }
    // The lowest free place is below the message's own.
    table.network[2] = Some(sent);
    table
}

fn answered(waiting: &[Entry], sent: Message, reply: Option<Body>, then: &[Entry]) {
    becomes(&arrival(waiting, sent), 4, [2, 0, 0], |t| {
        t.network[2] = None;
        t.network[0] = reply.map(|body| Message { body, ..sent });
        let queue = &mut t.chunks[0].records[0].waiting;
        *queue = Queue::EMPTY;
        then.iter().for_each(|&entry| queue.append(entry));
    });
}

#[test]
fn read_and_prewrite_arrive() {
    let read = |epoch: u64| Body::Read(Epoch(epoch));
    let prewrite = |epoch: u64| Body::Prewrite(Epoch(epoch), 7);
    let eight = [entry(60, Waiting::Read); 8];
    for body in [read, prewrite] {
        // Each reason with all the later ones beside it.
        let mismatch = Some(Body::VersionMismatch);
        answered(&eight, message(15, 10, body(2)), mismatch, &eight);
        answered(&eight, message(0, 10, body(0)), mismatch, &eight);
        answered(&eight, message(1, 10, body(1)), Some(Body::Error), &eight);
        answered(
            &eight,
            message(0, 29, body(1)),
            Some(Body::OutOfOrder),
            &eight,
        );
        answered(&eight, message(0, 60, body(1)), Some(Body::Busy), &eight);
    }
    answered(
        &[],
        message(0, 49, prewrite(1)),
        Some(Body::OutOfOrder),
        &[],
    );
    let (one, three) = (entry(40, Waiting::Aborted(1)), entry(60, Waiting::Read));
    // A read passes over last read; it waits after its equals.
    let two = entry(40, Waiting::Read);
    answered(
        &[one, three],
        message(0, 40, read(1)),
        None,
        &[one, two, three],
    );
    let two = entry(50, Waiting::Undecided(7));
    let reply = Some(Body::PrewriteReply);
    answered(
        &[one, three],
        message(0, 50, prewrite(1)),
        reply,
        &[one, two, three],
    );
    // In front and at the end.
    let first = entry(30, Waiting::Read);
    answered(
        &[one, three],
        message(0, 30, read(1)),
        None,
        &[first, one, three],
    );
    let last = entry(60, Waiting::Undecided(7));
    answered(
        &[one, three],
        message(0, 60, prewrite(1)),
        reply,
        &[one, three, last],
    );
}

#[test]
fn commit_and_abort_arrive() {
    let (read, other) = (entry(60, Waiting::Read), entry(61, Waiting::Undecided(5)));
    let undecided = entry(60, Waiting::Undecided(7));
    let decisions = [
        (Body::Commit(Epoch(99)), Waiting::Committed(7)),
        (Body::Abort(Epoch(0)), Waiting::Aborted(7)),
    ];
    for (body, decided) in decisions {
        let sent = message(0, 60, body);
        let decided = entry(60, decided);
        answered(&[undecided, other], sent, None, &[decided, other]);
        // The first entry with that timestamp alone, whatever it is.
        answered(&[undecided, undecided], sent, None, &[decided, undecided]);
        answered(&[read, undecided], sent, None, &[read, undecided]);
        for settled in [Waiting::Committed(1), Waiting::Aborted(1)] {
            let settled = entry(60, settled);
            answered(&[settled, undecided], sent, None, &[settled, undecided]);
        }
        answered(&[other], sent, None, &[other]);
        // A block outside.
        answered(&[undecided], message(1, 60, body), None, &[undecided]);
    }
}

#[test]
fn no_notice_is_taken() {
    for state in [State::Nolease, State::Failed] {
        for body in [
            Body::Read(Epoch(1)),
            Body::Prewrite(Epoch(2), 7),
            Body::Commit(Epoch(1)),
            Body::Abort(Epoch(1)),
        ] {
            let waiting = [entry(60, Waiting::Undecided(7))];
            let mut table = arrival(&waiting, message(0, 60, body));
            table.chunks[0].state = state;
            becomes(&table, 4, [2, 0, 0], |t| t.network[2] = None);
        }
    }
    let mut table = waiting_host(write_of(0, 7));
    table.hosts[0].working = false;
    table.network[0] = Some(message(0, 40, Body::VersionMismatch));
    becomes(&table, 4, [0, 0, 0], |t| t.network[0] = None);
    becomes(&table, 5, [0, 0, 0], |t| t.network[0] = None);
}

/// Host 0 waits for chunks 0 and 1 with timestamp 40.
fn waiting_host(operation: Operation) -> Table {
    let mut table = ready_store(1, 3, 1);
    let host = &mut table.hosts[0];
    host.current = Some(operation);
    host.timestamp = Timestamp(40);
    host.outstanding = Set(0b011);
    host.okay = true;
    host.restart = true;
    host.result = 3;
    table
}

#[test]
fn replies_at_a_host() {
    let every = [
        Body::VersionMismatch,
        Body::Error,
        Body::OutOfOrder,
        Body::Busy,
        Body::ReadReply(77),
        Body::PrewriteReply,
    ];
    for operation in [read_of(0), write_of(0, 7)] {
        for body in every {
            let suits = match body {
                Body::ReadReply(_) => operation.sort == Sort::Read,
                Body::PrewriteReply => operation.sort != Sort::Read,
                _ => true,
            };
            // The block is not compared.
            let reply = message(9, 40, body);
            let mut table = waiting_host(operation);
            table.network[5] = Some(reply);
            becomes(&table, 4, [5, 0, 0], |t| {
                t.network[5] = None;
                let host = &mut t.hosts[0];
                if !suits {
                    return;
                }
                host.outstanding = Set(0b010);
                match body {
                    Body::VersionMismatch => (host.okay, host.map_current) = (false, false),
                    Body::Error => (host.okay, host.restart) = (false, false),
                    Body::OutOfOrder | Body::Busy => host.okay = false,
                    Body::ReadReply(value) => host.result = value,
                    _ => {}
                }
            });
            // Another timestamp, and a chunk that isn't outstanding: nothing counts.
            for (timestamp, chunk) in [(41, 0), (0, 0), (40, 2)] {
                table.network[5] = Some(Message {
                    chunk,
                    timestamp: Timestamp(timestamp),
                    ..reply
                });
                becomes(&table, 4, [5, 0, 0], |t| t.network[5] = None);
            }
        }
    }
    // A read reply sets the result even where okay is already false.
    let mut table = waiting_host(read_of(0));
    table.hosts[0].okay = false;
    table.network[0] = Some(message(0, 40, Body::ReadReply(77)));
    becomes(&table, 4, [0, 0, 0], |t| {
        t.network[0] = None;
        t.hosts[0].outstanding = Set(0b010);
        t.hosts[0].result = 77;
    });
}

#[test]
fn epoch_change() {
    let mut table = ready_store(2, 3, 2);
    table.sets[1] = Set(0b110);
    table.network[9] = Some(message(0, 8, Body::Commit(Epoch(1))));
    granted(&mut table, 2, [1, 0, 7]);
    let several = [
        entry(40, Waiting::Read),
        entry(40, Waiting::Undecided(4)),
        entry(48, Waiting::Committed(5)),
        entry(56, Waiting::Undecided(6)),
    ];
    for chunk in 0..3 {
        let record = &mut table.chunks[chunk].records[0];
        several
            .iter()
            .for_each(|&entry| record.waiting.append(entry));
    }
    // Chunk 1 lacks the latest; chunk 0 is not in block 1's set and keeps its copy.
    let waiting = &mut table.chunks[1].records[0].waiting;
    waiting.count = 3;
    waiting.places[3] = None;
    table.chunks[0].records[1].value = 88;
    table.chunks[0].records[1].last_read = Timestamp(800);
    table.chunks[0].records[1].last_write = Timestamp(900);
    table.chunks[0].records[1].waiting.append(several[0]);
    table.chunks[2].records[1].last_read = Timestamp(70);
    table.chunks[1].records[1].last_write = Timestamp(60);
    table.chunks[1].records[1].value = 11;
    table.chunks[1].reconciling = Set(1);
    table.chunks[2].state = State::Nolease;
    table.chunks[0].lost = true;
    becomes(&table, 15, [0; 3], |t| {
        t.epoch = Epoch(2);
        for chunk in &mut t.chunks[..3] {
            chunk.epoch = Epoch(2);
            chunk.state = State::Normal;
            chunk.lost = false;
            chunk.reconciling = Set::EMPTY;
            chunk.records[0] = Record {
                value: 5,
                last_write: Timestamp(48),
                ..Record::ZERO
            };
        }
        t.chunks[0].records[1].waiting = Queue::EMPTY;
        for chunk in &mut t.chunks[1..3] {
            chunk.records[1] = Record {
                value: 11,
                last_read: Timestamp(70),
                last_write: Timestamp(60),
                waiting: Queue::EMPTY,
            };
        }
    });
}

/// Equal timestamps in tables handed in: the first write's value counts, one aborted entry beside
/// an undecided one is enough, and a lost chunk's queue is not looked at.
#[test]
fn settling_equal_timestamps() {
    let first = entry(40, Waiting::Undecided(7));
    let second = entry(40, Waiting::Committed(9));
    let aborted = entry(40, Waiting::Aborted(7));
    let read = entry(40, Waiting::Read);
    let cases: [(&[Entry], &[Entry], bool, u64); 6] = [
        (&[read, first, second], &[second], false, 7),
        (&[second, first], &[first], false, 9),
        (&[read], &[first], false, 0),
        (&[first, aborted], &[first], false, 0),
        (&[first], &[aborted], true, 7),
        (&[first], &[entry(48, Waiting::Undecided(5))], true, 7),
    ];
    for (a, b, b_lost, value) in cases {
        let mut table = ready_store(1, 2, 1);
        for (chunk, entries) in [(0, a), (1, b)] {
            let waiting = &mut table.chunks[chunk].records[0].waiting;
            entries.iter().for_each(|&entry| waiting.append(entry));
        }
        table.chunks[1].lost = b_lost;
        granted(&mut table, 15, [0; 3]);
        assert_eq!(table.chunks[0].records[0].value, value, "{a:?} {b:?}");
        assert_eq!(table.chunks[1].records[0], table.chunks[0].records[0]);
    }
}
