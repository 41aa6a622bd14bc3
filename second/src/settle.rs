//! Event 15, the epoch change: "Settling takes all copies of one block together".

use crate::answer::Refusal;
use crate::queue::Queue;
use crate::table::*;

/// What is settled for one block.
#[derive(Clone, Debug, PartialEq, Eq)]
pub struct Settled {
    pub value: u64,
    pub last_write: Timestamp,
    pub last_read: Timestamp,
    /// Every write that the settlement commits, ascending. The last one gave the value.
    pub committed: Vec<(Timestamp, u64)>,
}

/// Why a waiting write is or isn't committed, the first reason that applies.
#[derive(Clone, Copy, Debug, PartialEq, Eq)]
pub enum Verdict {
    /// Not above W, the greatest last write.
    NotAboveLastWrite,
    /// A chunk that isn't lost doesn't hold it.
    Lacking,
    /// A chunk that isn't lost holds an aborted one.
    Aborted,
    /// A lost chunk's last read is not below it.
    ReadPassed,
    Committed(u64),
}

/// One copy of a block: its chunk's lost mark and its record.
#[derive(Clone, Copy, Debug)]
pub struct BlockCopy<'a> {
    pub lost: bool,
    pub record: &'a Record,
}

impl BlockCopy<'_> {
    /// The writes with a timestamp, in waiting order.
    fn writes(&self, timestamp: Timestamp) -> impl Iterator<Item = Waiting> + '_ {
        let entries = self.record.waiting.items();
        entries
            .filter(move |entry| entry.timestamp == timestamp && entry.sort.written().is_some())
            .map(|entry| entry.sort)
    }
}

/// All copies of a block, by ascending chunk.
pub fn copies(table: &Table, block: usize) -> Vec<BlockCopy<'_>> {
    let set = table.sets[block];
    set.members()
        .map(|chunk| &table.chunks[chunk])
        .map(|chunk| BlockCopy {
            lost: chunk.lost,
            record: &chunk.records[block],
        })
        .collect()
}

/// The copies whose queues count: ""lost" chunks have only what persists."
fn kept<'a>(copies: &'a [BlockCopy<'a>]) -> impl Iterator<Item = &'a BlockCopy<'a>> {
    copies.iter().filter(|copy| !copy.lost)
}

pub fn all_lost(copies: &[BlockCopy]) -> bool {
    kept(copies).next().is_none()
}

/// W, "the greatest last write over the set", lost chunks too.
fn greatest_last_write(copies: &[BlockCopy]) -> Timestamp {
    let last_writes = copies.iter().map(|copy| copy.record.last_write);
    last_writes.max().unwrap_or(Timestamp::NEVER)
}

/// V, "the value beside it (lowest chunk if several)".
fn value_beside(copies: &[BlockCopy], last_write: Timestamp) -> u64 {
    let beside = copies
        .iter()
        .find(|copy| copy.record.last_write == last_write);
    beside.map_or(0, |copy| copy.record.value)
}

/// The timestamps of all writes that wait at copies not lost, ascending, each once.
pub fn waiting_writes(copies: &[BlockCopy]) -> Vec<Timestamp> {
    let entries = kept(copies).flat_map(|copy| copy.record.waiting.items());
    let writes = entries.filter(|entry| entry.sort.written().is_some());
    let mut timestamps: Vec<Timestamp> = writes.map(|entry| entry.timestamp).collect();
    timestamps.sort_unstable();
    timestamps.dedup();
    timestamps
}

/// "A write timestamp above W is committed when every chunk not lost holds a write with it, none
/// an aborted one, and it is above the last read of every lost chunk. Its value is that of the
/// first such entry in the lowest such chunk."
pub fn verdict(copies: &[BlockCopy], timestamp: Timestamp) -> Verdict {
    if timestamp <= greatest_last_write(copies) {
        return Verdict::NotAboveLastWrite;
    }
    if kept(copies).any(|copy| copy.writes(timestamp).next().is_none()) {
        return Verdict::Lacking;
    }
    let mut held = kept(copies).flat_map(|copy| copy.writes(timestamp));
    let first = held.next();
    let is_aborted = |write: Waiting| matches!(write, Waiting::Aborted(_));
    if first.is_some_and(is_aborted) || held.any(is_aborted) {
        return Verdict::Aborted;
    }
    let mut lost = copies.iter().filter(|copy| copy.lost);
    if lost.any(|copy| timestamp <= copy.record.last_read) {
        return Verdict::ReadPassed;
    }
    match first.and_then(Waiting::written) {
        Some(value) => Verdict::Committed(value),
        None => Verdict::Lacking,
    }
}

/// "The latest committed one, else V and W, becomes value and last write in every chunk of the
/// set; last read becomes the greatest over the set."
pub fn settle(copies: &[BlockCopy]) -> Settled {
    let committed: Vec<(Timestamp, u64)> = waiting_writes(copies)
        .into_iter()
        .filter_map(|timestamp| match verdict(copies, timestamp) {
            Verdict::Committed(value) => Some((timestamp, value)),
            _ => None,
        })
        .collect();
    let greatest = greatest_last_write(copies);
    let kept_as_is = (greatest, value_beside(copies, greatest));
    let (last_write, value) = committed.last().copied().unwrap_or(kept_as_is);
    let last_reads = copies.iter().map(|copy| copy.record.last_read);
    Settled {
        value,
        last_write,
        last_read: last_reads.max().unwrap_or(Timestamp::NEVER),
        committed,
    }
}

/// Event 15: "no chunk failed (2), then 7, then 6."
pub fn epoch_change(table: &mut Table) -> Result<(), Refusal> {
    let any_failed = table
        .chunks
        .iter()
        .any(|chunk| chunk.state == State::Failed);
    if any_failed {
        return Err(Refusal::State);
    }
    if table.epoch.0 >= LARGEST {
        return Err(Refusal::LastEpoch);
    }
    if (0..table.block_count).any(|block| all_lost(&copies(table, block))) {
        return Err(Refusal::AllLost);
    }

    for block in 0..table.block_count {
        let settled = settle(&copies(table, block));
        for chunk in table.sets[block].members() {
            let record = &mut table.chunks[chunk].records[block];
            record.value = settled.value;
            record.last_write = settled.last_write;
            record.last_read = settled.last_read;
        }
    }
    // "All queues of all chunks are emptied without messages, reconciliation sets and lost marks
    // cleared, the epoch grows by one in every chunk, and every chunk is normal."
    table.epoch = Epoch(table.epoch.0 + 1);
    for chunk in &mut table.chunks[..table.chunk_count] {
        for record in &mut chunk.records {
            record.waiting = Queue::EMPTY;
        }
        chunk.reconciling = Set::EMPTY;
        chunk.lost = false;
        chunk.epoch = table.epoch;
        chunk.state = State::Normal;
    }
    Ok(())
}
