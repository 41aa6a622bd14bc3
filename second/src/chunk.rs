//! What a chunk does: messages that arrive, events 9, 11 to 14 and 16.

use crate::answer::Refusal;
use crate::queue::Queue;
use crate::table::*;

/// A message arrives; its reply's body, if there is one. "A failed or nolease chunk" takes no
/// notice.
pub fn arrive(chunk: &mut Chunk, block_count: usize, message: &Message) -> Option<Body> {
    if chunk.state != State::Normal {
        return None;
    }
    match message.body {
        Body::Read(epoch) => {
            let refused = refuse(chunk, block_count, message, epoch);
            if refused.is_none() {
                wait(chunk, message, epoch, Waiting::Read);
            }
            refused
        }
        Body::Prewrite(epoch, value) => {
            let refused = refuse(chunk, block_count, message, epoch);
            if refused.is_none() {
                wait(chunk, message, epoch, Waiting::Undecided(value));
            }
            // It "is answered with a prewrite reply".
            refused.or(Some(Body::PrewriteReply))
        }
        Body::Commit(_) => {
            decide(chunk, block_count, message, Waiting::Committed);
            None
        }
        Body::Abort(_) => {
            decide(chunk, block_count, message, Waiting::Aborted);
            None
        }
        _ => None,
    }
}

/// "in this order: epoch differs, version mismatch; block outside 0 to blocks-1, error; timestamp
/// below last write (a prewrite: or below last read), out of order; 8 waiting, busy"
fn refuse(chunk: &Chunk, block_count: usize, message: &Message, epoch: Epoch) -> Option<Body> {
    if epoch != chunk.epoch {
        return Some(Body::VersionMismatch);
    }
    if message.block >= block_count {
        return Some(Body::Error);
    }
    let record = &chunk.records[message.block];
    let is_prewrite = matches!(message.body, Body::Prewrite(..));
    let late = message.timestamp < record.last_write
        || is_prewrite && message.timestamp < record.last_read;
    if late {
        return Some(Body::OutOfOrder);
    }
    record.waiting.is_full().then_some(Body::Busy)
}

/// "it waits, after its equals"
fn wait(chunk: &mut Chunk, message: &Message, epoch: Epoch, sort: Waiting) {
    let entry = Entry {
        timestamp: message.timestamp,
        sender: message.host,
        epoch,
        sort,
    };
    insert_in_order(&mut chunk.records[message.block].waiting, entry);
}

/// Before the first entry that is later, so behind every equal one.
pub fn insert_in_order(waiting: &mut Queue<Entry, WAITING>, entry: Entry) {
    let not_later = waiting
        .items()
        .take_while(|other| other.timestamp <= entry.timestamp)
        .count();
    waiting.insert(not_later, entry);
}

/// "Commit and abort ignore the epoch and act on the first entry in waiting order with that
/// timestamp, if it is an undecided write, which becomes committed or aborted; otherwise, or for a
/// block outside, nothing changes."
fn decide(chunk: &mut Chunk, block_count: usize, message: &Message, decided: fn(u64) -> Waiting) {
    if message.block >= block_count {
        return;
    }
    let waiting = &mut chunk.records[message.block].waiting;
    let first = waiting
        .places
        .iter_mut()
        .flatten()
        .find(|entry| entry.timestamp == message.timestamp);
    if let Some(entry) = first {
        if let Waiting::Undecided(value) = entry.sort {
            entry.sort = decided(value);
        }
    }
}

/// Event 9: "normal, head exists and isn't undecided (2); room if the head is a read (5). The head
/// is removed".
pub fn run(table: &mut Table, number: usize, block: usize) -> Result<(), Refusal> {
    let has_room = table.free_places() > 0;
    let chunk = &mut table.chunks[number];
    let record = &mut chunk.records[block];
    let head = record.waiting.first().ok_or(Refusal::State)?;
    if chunk.state != State::Normal || matches!(head.sort, Waiting::Undecided(_)) {
        return Err(Refusal::State);
    }
    if head.sort == Waiting::Read && !has_room {
        return Err(Refusal::Room);
    }

    record.waiting.remove_first();
    match head.sort {
        Waiting::Read => {
            let body = serve(record, head.timestamp);
            table.post(Message {
                host: head.sender,
                chunk: number,
                block,
                timestamp: head.timestamp,
                body,
            });
        }
        Waiting::Committed(value) => {
            // "Committed: value set, last write raised to its timestamp."
            record.value = value;
            record.last_write = record.last_write.max(head.timestamp);
        }
        // "for an aborted one that is all"
        Waiting::Aborted(_) | Waiting::Undecided(_) => {}
    }
    Ok(())
}

/// "Read: below last write, out of order goes to the sender; else last read is raised and a read
/// reply goes."
fn serve(record: &mut Record, timestamp: Timestamp) -> Body {
    if timestamp < record.last_write {
        return Body::OutOfOrder;
    }
    record.last_read = record.last_read.max(timestamp);
    Body::ReadReply(record.value)
}

/// Event 11: "from normal or nolease; all its waiting entries and its reconciliation set go, lost
/// is set; values, last reads, last writes and epoch persist."
pub fn fail(chunk: &mut Chunk) -> Result<(), Refusal> {
    if chunk.state == State::Failed {
        return Err(Refusal::State);
    }
    chunk.state = State::Failed;
    chunk.lost = true;
    chunk.reconciling = Set::EMPTY;
    for record in &mut chunk.records {
        record.waiting = Queue::EMPTY;
    }
    Ok(())
}

/// Event 12: "failed to nolease". It stays lost.
pub fn recover(chunk: &mut Chunk) -> Result<(), Refusal> {
    if chunk.state != State::Failed {
        return Err(Refusal::State);
    }
    chunk.state = State::Nolease;
    Ok(())
}

/// Event 13: "normal to nolease".
pub fn take_lease(chunk: &mut Chunk) -> Result<(), Refusal> {
    if chunk.state != State::Normal {
        return Err(Refusal::State);
    }
    chunk.state = State::Nolease;
    Ok(())
}

/// Event 14: "nolease to normal, if not lost." A lost chunk lacks entries that others acted on.
pub fn give_lease(chunk: &mut Chunk) -> Result<(), Refusal> {
    if chunk.state != State::Nolease || chunk.lost {
        return Err(Refusal::State);
    }
    chunk.state = State::Normal;
    Ok(())
}

/// Event 16: "normal, head undecided, and now minus the head's clock above the age limit, else 2.
/// The difference may be below zero, and then nothing is overdue. The block joins the set."
pub fn overdue(chunk: &mut Chunk, block: usize, now: u64, age_limit: u64) -> Result<(), Refusal> {
    let head = chunk.records[block].waiting.first();
    match head {
        Some(head) if chunk.state == State::Normal => {
            let undecided = matches!(head.sort, Waiting::Undecided(_));
            let age = now as i64 - head.timestamp.clock() as i64;
            if !undecided || age <= age_limit as i64 {
                return Err(Refusal::State);
            }
        }
        _ => return Err(Refusal::State),
    }
    chunk.reconciling = chunk.reconciling.with(block);
    Ok(())
}
