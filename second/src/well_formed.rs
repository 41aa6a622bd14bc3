//! "A table is well formed when": the sentence of document 01, clause by clause.

use crate::queue::Queue;
use crate::table::*;

/// Code 8 is the answer to every event on a table that fails this.
pub fn well_formed(table: &Table) -> bool {
    // First of all the counts, since everything else is measured with them.
    counts_in_range(table)
        && table.age_limit <= LARGEST
        && table.epoch.0 <= LARGEST
        && sets_hold(table)
        && hosts_hold(table)
        && chunks_hold(table)
        && table
            .network
            .iter()
            .flatten()
            .all(|m| message_holds(table, m))
}

/// "1 to 8 hosts, 1 to 8 chunks, 1 to 16 blocks."
fn counts_in_range(table: &Table) -> bool {
    (1..=HOSTS).contains(&table.host_count)
        && (1..=CHUNKS).contains(&table.chunk_count)
        && (1..=BLOCKS).contains(&table.block_count)
}

/// "Each block has a non-empty set of chunks"; sets past the block count are zero.
fn sets_hold(table: &Table) -> bool {
    let (used, unused) = table.sets.split_at(table.block_count);
    used.iter()
        .all(|set| !set.is_empty() && set.is_below(table.chunk_count))
        && unused.iter().all(|set| set.is_empty())
}

fn hosts_hold(table: &Table) -> bool {
    let (used, unused) = table.hosts.split_at(table.host_count);
    used.iter().all(|host| host_holds(table, host)) && unused.iter().all(|host| *host == Host::ZERO)
}

fn host_holds(table: &Table, host: &Host) -> bool {
    host.waiting.is_tidy()
        && host.operations() <= OPERATIONS
        && host
            .current
            .iter()
            .copied()
            .chain(host.waiting.items())
            .all(|operation| operation.block < table.block_count)
        && host.timestamp.0 <= LARGEST_TIMESTAMP
        && host.outstanding.is_below(table.chunk_count)
        && host.epoch_known.0 <= LARGEST
        && host.last_clock <= LARGEST
        && current_fields_hold(host)
}

/// "A host without a current operation has current timestamp, outstanding chunks, okay, restart
/// and result value all zero or false. With one, the current timestamp is above 0."
fn current_fields_hold(host: &Host) -> bool {
    match host.current {
        Some(_) => host.timestamp > Timestamp::NEVER,
        None => {
            host.timestamp == Timestamp::NEVER
                && host.outstanding.is_empty()
                && !host.okay
                && !host.restart
                && host.result == 0
        }
    }
}

fn chunks_hold(table: &Table) -> bool {
    let (used, unused) = table.chunks.split_at(table.chunk_count);
    used.iter().all(|chunk| chunk_holds(table, chunk))
        && unused.iter().all(|chunk| *chunk == Chunk::ZERO)
}

/// "all chunks have one epoch, the store's"; "a record for every block, held or not".
fn chunk_holds(table: &Table, chunk: &Chunk) -> bool {
    let (used, unused) = chunk.records.split_at(table.block_count);
    chunk.epoch == table.epoch
        && chunk.reconciling.is_below(table.block_count)
        && used.iter().all(|record| record_holds(table, record))
        && unused.iter().all(|record| *record == Record::ZERO)
}

fn record_holds(table: &Table, record: &Record) -> bool {
    record.last_read.0 <= LARGEST_TIMESTAMP
        && record.last_write.0 <= LARGEST_TIMESTAMP
        && record.waiting.is_tidy()
        && record
            .waiting
            .items()
            .all(|entry| entry_holds(table, &entry))
        && ascending(&record.waiting)
}

fn entry_holds(table: &Table, entry: &Entry) -> bool {
    entry.timestamp.0 <= LARGEST_TIMESTAMP
        && entry.sender < table.host_count
        && entry.epoch.0 <= LARGEST
}

/// "waiting entries are in ascending timestamp order (equal allowed)"
fn ascending(waiting: &Queue<Entry, WAITING>) -> bool {
    let pairs = waiting.items().zip(waiting.items().skip(1));
    pairs
        .into_iter()
        .all(|(one, next)| one.timestamp <= next.timestamp)
}

/// "a message's block may be 0 to 15 and a timestamp anything up to 34,359,738,367"
fn message_holds(table: &Table, message: &Message) -> bool {
    message.host < table.host_count
        && message.chunk < table.chunk_count
        && message.block < BLOCKS
        && message.timestamp.0 <= LARGEST_TIMESTAMP
        && message.body.epoch().is_none_or(|epoch| epoch.0 <= LARGEST)
}
