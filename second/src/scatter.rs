//! Tables handed in: well formed, but such as no run from a fresh store need reach; and ill formed.

use crate::chunk::insert_in_order;
use crate::generate::Creation;
use crate::random::Random;
use crate::table::*;

/// A random well-formed table. Its timestamps and epochs come from small pools, so that they meet.
pub fn scatter(random: &mut Random) -> Table {
    let mut table = Creation::random(random).table();
    let any_epoch = random.below(LARGEST);
    table.epoch = Epoch(random.pick(&[0, 1, 2, 3, any_epoch, LARGEST - 1, LARGEST, LARGEST]));
    let pool = Pool::new(random, &table);
    for host in 0..table.host_count {
        table.hosts[host] = random_host(random, &table, &pool);
    }
    for chunk in 0..table.chunk_count {
        table.chunks[chunk] = random_chunk(random, &table, &pool);
    }
    let filled = random.pick(&[0, 300, 900, 1000]);
    for place in 0..PLACES {
        if random.in_thousand(filled) {
            table.network[place] = Some(random_message(random, &table, &pool));
        }
    }
    table
}

struct Pool {
    timestamps: [u64; 7],
    epochs: [u64; 4],
}

impl Pool {
    fn new(random: &mut Random, table: &Table) -> Pool {
        let base = random.below(LARGEST) * 8;
        let store = table.epoch.0;
        Pool {
            timestamps: [0, base, base + 1, base + 2, base + 8, 40, LARGEST_TIMESTAMP],
            epochs: [
                store,
                store,
                (store + 1).min(LARGEST),
                random.below(LARGEST),
            ],
        }
    }

    fn timestamp(&self, random: &mut Random) -> Timestamp {
        Timestamp(random.pick(&self.timestamps))
    }

    fn epoch(&self, random: &mut Random) -> Epoch {
        Epoch(random.pick(&self.epochs))
    }
}

fn random_operation(random: &mut Random, table: &Table) -> Operation {
    Operation {
        block: random.index(table.block_count),
        sort: match random.in_thousand(500) {
            true => Sort::Read,
            false => Sort::Write(random.number()),
        },
    }
}

fn random_host(random: &mut Random, table: &Table, pool: &Pool) -> Host {
    let mut host = Host {
        working: random.in_thousand(850),
        epoch_known: pool.epoch(random),
        map_current: random.in_thousand(700),
        last_clock: Timestamp(random.pick(&pool.timestamps)).clock(),
        ..Host::ZERO
    };
    if random.in_thousand(600) {
        host.current = Some(random_operation(random, table));
        host.timestamp = Timestamp(pool.timestamp(random).0.max(1));
        host.outstanding = Set(random.below(1 << table.chunk_count) * random.below(2));
        host.okay = random.in_thousand(600);
        host.restart = random.in_thousand(500);
        host.result = random.number();
    }
    for _ in 0..random.index(OPERATIONS + 1) {
        if host.operations() < OPERATIONS {
            host.waiting.append(random_operation(random, table));
        }
    }
    host
}

fn random_chunk(random: &mut Random, table: &Table, pool: &Pool) -> Chunk {
    let mut chunk = Chunk {
        state: random.pick(&[State::Normal, State::Normal, State::Nolease, State::Nolease]),
        lost: random.in_thousand(200),
        epoch: table.epoch,
        reconciling: Set(random.below(1 << table.block_count)),
        ..Chunk::ZERO
    };
    if random.in_thousand(30) {
        chunk.state = State::Failed;
    }
    for record in &mut chunk.records[..table.block_count] {
        record.value = random.number();
        // Often never, so that waiting writes are above it.
        record.last_read = Timestamp(pool.timestamp(random).0 * random.below(2));
        record.last_write = Timestamp(pool.timestamp(random).0 * random.below(2));
        for _ in 0..random.index(WAITING + 1) {
            let entry = Entry {
                timestamp: pool.timestamp(random),
                sender: random.index(table.host_count),
                epoch: pool.epoch(random),
                sort: random_waiting(random),
            };
            insert_in_order(&mut record.waiting, entry);
        }
    }
    chunk
}

fn random_waiting(random: &mut Random) -> Waiting {
    let value = random.number();
    let write = Waiting::Undecided(value);
    random.pick(&[
        Waiting::Read,
        write,
        write,
        Waiting::Committed(value),
        Waiting::Aborted(value),
    ])
}

fn random_message(random: &mut Random, table: &Table, pool: &Pool) -> Message {
    let epoch = pool.epoch(random);
    let value = random.number();
    let host = random.index(table.host_count);
    // Half of the messages suit what their host is about, so that many count.
    let own = table.hosts[host].timestamp;
    let any = pool.timestamp(random);
    Message {
        host,
        chunk: random.index(table.chunk_count),
        block: random.index(BLOCKS),
        timestamp: if random.in_thousand(500) { own } else { any },
        body: random.pick(&[
            Body::Read(epoch),
            Body::Prewrite(epoch, value),
            Body::Commit(epoch),
            Body::Abort(epoch),
            Body::VersionMismatch,
            Body::Error,
            Body::OutOfOrder,
            Body::Busy,
            Body::ReadReply(value),
            Body::PrewriteReply,
        ]),
    }
}

/// Makes a well-formed table ill formed, in one of several ways.
pub fn spoil(random: &mut Random, table: &mut Table) {
    match random.below(8) {
        0 => table.host_count = random.pick(&[0, HOSTS + 1, usize::MAX]),
        1 => table.age_limit = LARGEST + 1,
        2 => table.sets[0] = Set::EMPTY,
        3 => table.hosts[0].waiting.count = random.pick(&[OPERATIONS + 1, usize::MAX]),
        4 => table.hosts[0].last_clock = u64::MAX,
        5 => table.chunks[0].epoch = Epoch(table.epoch.0 ^ 1),
        6 => table.chunks[0].records[0].last_read = Timestamp(LARGEST_TIMESTAMP + 1),
        _ => {
            table.network[PLACES - 1] = Some(Message {
                host: table.host_count,
                chunk: 0,
                block: 0,
                timestamp: Timestamp::NEVER,
                body: Body::Busy,
            })
        }
    }
}
