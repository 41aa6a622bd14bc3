//! Each clause of "A table is well formed when", just inside and just outside.

use crate::{answer, entry, ready_store, refused};
use second::event::step;
use second::queue::Queue;
use second::table::*;
use second::well_formed::well_formed;

/// A clause with a change that keeps it and one that breaks it.
type Clause = (&'static str, fn(&mut Table), fn(&mut Table));

const READ_OF_0: Operation = Operation {
    block: 0,
    sort: Sort::Read,
};

/// 2 hosts, 2 chunks, 2 blocks; host 0 has a current operation, host 1 has none.
fn table() -> Table {
    let mut table = ready_store(2, 2, 2);
    let host = &mut table.hosts[0];
    host.current = Some(READ_OF_0);
    host.timestamp = Timestamp(8);
    table
}

fn waiting(table: &mut Table) -> &mut Queue<Entry, WAITING> {
    &mut table.chunks[1].records[1].waiting
}

const READ: Entry = Entry {
    timestamp: Timestamp(8),
    sender: 0,
    epoch: Epoch(1),
    sort: Waiting::Read,
};

fn wait(table: &mut Table, entry: Entry) {
    waiting(table).append(entry);
}

/// Reads with these timestamps wait.
fn reads(table: &mut Table, timestamps: &[u64]) {
    for &timestamp in timestamps {
        wait(table, entry(timestamp, Waiting::Read));
    }
}

fn fill_host(table: &mut Table, count: usize) {
    for _ in 0..count {
        table.hosts[0].waiting.append(READ_OF_0);
    }
}

fn ask(table: &mut Table, block: usize) {
    let sort = Sort::Write(u64::MAX);
    table.hosts[0].waiting.append(Operation { block, sort });
}

fn set_current(table: &mut Table, block: usize) {
    let sort = Sort::Write(u64::MAX);
    table.hosts[0].current = Some(Operation { block, sort });
}

/// The store's epoch and each chunk's.
fn set_epoch(table: &mut Table, epoch: u64) {
    table.epoch = Epoch(epoch);
    table.chunks[0].epoch = Epoch(epoch);
    table.chunks[1].epoch = Epoch(epoch);
}

const BUSY: Message = Message {
    host: 0,
    chunk: 0,
    block: 0,
    timestamp: Timestamp(8),
    body: Body::Busy,
};

fn post(table: &mut Table, message: Message) {
    table.network[63] = Some(message);
}

fn send(table: &mut Table, body: Body) {
    post(table, Message { body, ..BUSY });
}

/// The store with other counts and everything else to match.
fn resize(table: &mut Table, hosts: usize, chunks: usize, blocks: usize) {
    *table = ready_store(1, 1, 1);
    (table.host_count, table.chunk_count, table.block_count) = (hosts, chunks, blocks);
    for (number, host) in table.hosts.iter_mut().enumerate() {
        *host = if number < hosts {
            Host::FRESH
        } else {
            Host::ZERO
        };
    }
    for (number, chunk) in table.chunks.iter_mut().enumerate() {
        *chunk = if number < chunks {
            Chunk::FRESH
        } else {
            Chunk::ZERO
        };
    }
    for (number, set) in table.sets.iter_mut().enumerate() {
        *set = if number < blocks { Set(1) } else { Set::EMPTY };
    }
}

const TS: u64 = 34_359_738_367;
const MAX: u64 = 4_294_967_295;

#[rustfmt::skip]
const CLAUSES: &[Clause] = &[
    // Counts, ranges and sets.
    ("at least one host", |t| resize(t, 1, 1, 1), |t| resize(t, 0, 1, 1)),
    ("at most 8 hosts", |t| resize(t, 8, 1, 1), |t| resize(t, 9, 1, 1)),
    ("at least one chunk", |t| resize(t, 1, 1, 1), |t| resize(t, 1, 0, 1)),
    ("at most 8 chunks", |t| resize(t, 1, 8, 1), |t| resize(t, 1, 9, 1)),
    ("at least one block", |t| resize(t, 1, 1, 1), |t| resize(t, 1, 1, 0)),
    ("at most 16 blocks", |t| resize(t, 1, 1, 16), |t| resize(t, 1, 1, 17)),
    ("age limit", |t| t.age_limit = MAX, |t| t.age_limit = MAX + 1),
    ("epoch", |t| set_epoch(t, MAX), |t| set_epoch(t, MAX + 1)),
    ("epoch 0", |t| set_epoch(t, 0), |t| t.epoch = Epoch(0)),
    ("one epoch, the store's", |t| set_epoch(t, 2), |t| t.chunks[1].epoch = Epoch(2)),
    ("set not empty", |t| t.sets[1] = Set(1), |t| t.sets[1] = Set(0)),
    ("set of the store's chunks", |t| t.sets[1] = Set(3), |t| t.sets[1] = Set(4)),

    // Unused places.
    ("unused set", |t| t.sets[2] = Set(0), |t| t.sets[2] = Set(1)),
    ("unused host", |t| t.hosts[2] = Host::ZERO, |t| t.hosts[2] = Host::FRESH),
    ("unused host's clock", |t| t.hosts[1].last_clock = 1, |t| t.hosts[7].last_clock = 1),
    ("unused chunk", |t| t.chunks[2] = Chunk::ZERO, |t| t.chunks[2] = Chunk::FRESH),
    ("unused chunk's value", |t| t.chunks[1].records[1].value = 1, |t| t.chunks[7].records[1].value = 1),
    ("unused record's value", |t| t.chunks[1].records[1].value = 1, |t| t.chunks[1].records[2].value = 1),
    ("unused record's entry", |t| wait(t, READ), |t| t.chunks[1].records[2].waiting.append(READ)),

    // A host.
    ("operations with a current one", |t| fill_host(t, 7), |t| fill_host(t, 8)),
    ("operations without a current one",
        |t| { t.hosts[0] = Host::FRESH; fill_host(t, 8) },
        |t| { t.hosts[0] = Host::FRESH; fill_host(t, 8); t.hosts[0].waiting.count = 9 }),
    ("count of operations", |t| t.hosts[0].waiting.count = 0, |t| t.hosts[0].waiting.count = usize::MAX),
    ("operation past the count", |t| fill_host(t, 1), |t| { fill_host(t, 1); t.hosts[0].waiting.count = 0 }),
    ("no operation below the count", |t| fill_host(t, 1), |t| t.hosts[0].waiting.count = 1),
    ("waiting operation's block", |t| ask(t, 1), |t| ask(t, 2)),
    ("current operation's block", |t| set_current(t, 1), |t| set_current(t, 2)),
    ("current timestamp", |t| t.hosts[0].timestamp = Timestamp(TS), |t| t.hosts[0].timestamp = Timestamp(TS + 1)),
    ("current timestamp above 0", |t| t.hosts[0].timestamp = Timestamp(1), |t| t.hosts[0].timestamp = Timestamp(0)),
    ("outstanding chunks", |t| t.hosts[0].outstanding = Set(3), |t| t.hosts[0].outstanding = Set(4)),
    ("epoch known", |t| t.hosts[1].epoch_known = Epoch(MAX), |t| t.hosts[1].epoch_known = Epoch(MAX + 1)),
    ("last clock drawn", |t| t.hosts[1].last_clock = MAX, |t| t.hosts[1].last_clock = MAX + 1),
    // Host 0 has a current operation and host 1 has none.
    ("no operation, no timestamp", |t| t.hosts[0].timestamp = Timestamp(9), |t| t.hosts[1].timestamp = Timestamp(9)),
    ("no operation, none outstanding", |t| t.hosts[0].outstanding = Set(1), |t| t.hosts[1].outstanding = Set(1)),
    ("no operation, not okay", |t| t.hosts[0].okay = true, |t| t.hosts[1].okay = true),
    ("no operation, no restart", |t| t.hosts[0].restart = true, |t| t.hosts[1].restart = true),
    ("no operation, no result", |t| t.hosts[0].result = 1, |t| t.hosts[1].result = 1),

    // A chunk and its records.
    ("reconciliation set", |t| t.chunks[1].reconciling = Set(3), |t| t.chunks[1].reconciling = Set(4)),
    ("last read",
        |t| t.chunks[1].records[1].last_read = Timestamp(TS),
        |t| t.chunks[1].records[1].last_read = Timestamp(TS + 1)),
    ("last write",
        |t| t.chunks[1].records[1].last_write = Timestamp(TS),
        |t| t.chunks[1].records[1].last_write = Timestamp(TS + 1)),
    ("count of entries", |t| reads(t, &[8; 8]), |t| { reads(t, &[8; 8]); waiting(t).count = 9 }),
    ("entry past the count", |t| wait(t, READ), |t| { wait(t, READ); waiting(t).count = 0 }),
    ("no entry below the count", |t| wait(t, READ), |t| waiting(t).count = 1),
    ("ascending, equal allowed", |t| reads(t, &[8, 8]), |t| reads(t, &[9, 8])),
    ("ascending to the end", |t| reads(t, &[1, 2, 3, 4, 5, 6, 7, 7]), |t| reads(t, &[1, 2, 3, 4, 5, 6, 7, 6])),
    ("entry's timestamp", |t| reads(t, &[TS]), |t| reads(t, &[TS + 1])),
    ("entry's sender", |t| wait(t, Entry { sender: 1, ..READ }), |t| wait(t, Entry { sender: 2, ..READ })),
    ("entry's epoch",
        |t| wait(t, Entry { epoch: Epoch(MAX), ..READ }),
        |t| wait(t, Entry { epoch: Epoch(MAX + 1), ..READ })),

    // A message.
    ("message's host", |t| post(t, Message { host: 1, ..BUSY }), |t| post(t, Message { host: 2, ..BUSY })),
    ("message's chunk", |t| post(t, Message { chunk: 1, ..BUSY }), |t| post(t, Message { chunk: 2, ..BUSY })),
    ("message's block", |t| post(t, Message { block: 15, ..BUSY }), |t| post(t, Message { block: 16, ..BUSY })),
    ("message's timestamp",
        |t| post(t, Message { timestamp: Timestamp(TS), ..BUSY }),
        |t| post(t, Message { timestamp: Timestamp(TS + 1), ..BUSY })),
    ("read's epoch", |t| send(t, Body::Read(Epoch(MAX))), |t| send(t, Body::Read(Epoch(MAX + 1)))),
    ("prewrite's epoch", |t| send(t, Body::Prewrite(Epoch(MAX), 1)), |t| send(t, Body::Prewrite(Epoch(MAX + 1), 1))),
    ("commit's epoch", |t| send(t, Body::Commit(Epoch(MAX))), |t| send(t, Body::Commit(Epoch(MAX + 1)))),
    ("abort's epoch", |t| send(t, Body::Abort(Epoch(MAX))), |t| send(t, Body::Abort(Epoch(MAX + 1)))),
];

#[test]
fn each_clause_inside_and_outside() {
    for (name, inside, outside) in CLAUSES {
        let mut kept = table();
        inside(&mut kept);
        assert!(well_formed(&kept), "{name}: inside");
        assert_eq!(step(&mut kept, 5, [62, 0, 0]), answer(2), "{name}: inside");
        let mut broken = table();
        outside(&mut broken);
        assert!(!well_formed(&broken), "{name}: outside");
        for kind in 0..=17 {
            refused(&broken, kind, [0, 1, 0], 8);
        }
        refused(&broken, u64::MAX, [u64::MAX; 3], 8);
    }
}

/// "Well formed asks no more than its sentence".
#[test]
fn what_is_not_asked() {
    let allowed: [fn(&mut Table); 6] = [
        |t| t.chunks[0].lost = true,
        |t| {
            t.chunks[1].state = State::Failed;
            wait(t, entry(8, Waiting::Committed(1)));
        },
        |t| t.hosts[0].timestamp = Timestamp(8 * 5 + 7),
        |t| t.hosts[1].epoch_known = Epoch(9),
        |t| {
            t.sets[0] = Set(1);
            t.hosts[0].outstanding = Set(2);
        },
        |t| wait(t, entry(0, Waiting::Read)),
    ];
    for change in allowed {
        let mut table = table();
        change(&mut table);
        assert!(well_formed(&table));
    }
}

#[test]
fn creation() {
    let all = [255; 16];
    assert!(Table::create(8, 8, 16, 4_294_967_295, &all).is_some_and(|t| well_formed(&t)));
    assert!(Table::create(1, 1, 1, 0, &[1]).is_some_and(|t| well_formed(&t)));
    let refused: [(u64, u64, u64, u64, &[u64]); 14] = [
        (0, 1, 1, 0, &[1]),
        (9, 1, 1, 0, &[1]),
        (1, 0, 1, 0, &[1]),
        (1, 9, 1, 0, &[1]),
        (1, 1, 0, 0, &[]),
        (1, 1, 17, 0, &[1; 17]),
        (1, 1, 1, 4_294_967_296, &[1]),
        (1, 1, 1, 0, &[0]),
        (1, 1, 1, 0, &[2]),
        (1, 8, 1, 0, &[256]),
        (1, 8, 1, 0, &[u64::MAX]),
        (1, 1, 2, 0, &[1]),
        (1, 1, 1, 0, &[1, 1]),
        (u64::MAX, u64::MAX, u64::MAX, u64::MAX, &[]),
    ];
    for (hosts, chunks, blocks, age_limit, sets) in refused {
        let made = Table::create(hosts, chunks, blocks, age_limit, sets);
        assert!(
            made.is_none(),
            "{hosts} {chunks} {blocks} {age_limit} {sets:?}"
        );
    }
}
