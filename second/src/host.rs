//! What a host does: events 1 to 3, 6 to 8 and 10, and replies that arrive.

use crate::answer::{Outcome, Refusal};
use crate::table::*;

/// Events 1 and 2: "Stopped: 2. Full: 4. Else appended."
pub fn append(table: &mut Table, number: usize, operation: Operation) -> Result<(), Refusal> {
    let host = &mut table.hosts[number];
    if !host.working {
        return Err(Refusal::State);
    }
    if host.operations() >= OPERATIONS {
        return Err(Refusal::Full);
    }
    host.waiting.append(operation);
    Ok(())
}

/// Event 3: "The front waiting operation becomes the current one."
pub fn start(table: &mut Table, number: usize, clock: u64, copy: usize) -> Result<(), Refusal> {
    let operation = ready_operation(&table.hosts[number]).ok_or(Refusal::State)?;
    let set = table.sets[operation.block];
    // "A read sends one read to the copy; a write sends a prewrite to each chunk of the set."
    let asked = match operation.sort {
        Sort::Read if !set.contains(copy) => return Err(Refusal::Range),
        Sort::Read => Set::of(copy),
        Sort::Write(_) => set,
    };
    if clock <= table.hosts[number].last_clock {
        return Err(Refusal::Clock);
    }
    if asked.size() > table.free_places() {
        return Err(Refusal::Room);
    }

    let host = &mut table.hosts[number];
    host.waiting.remove_first();
    host.current = Some(operation);
    host.last_clock = clock;
    host.timestamp = Timestamp::drawn(clock, number);
    host.outstanding = asked;
    host.okay = true;
    host.restart = true;
    host.result = 0;
    let body = match operation.sort {
        Sort::Read => Body::Read(host.epoch_known),
        Sort::Write(value) => Body::Prewrite(host.epoch_known, value),
    };
    send_to_each(table, number, asked, body);
    Ok(())
}

/// "Needs working, no current operation, one waiting, map current".
fn ready_operation(host: &Host) -> Option<Operation> {
    let free = host.working && host.current.is_none() && host.map_current;
    host.waiting.first().filter(|_| free)
}

/// One message to each chunk, "by ascending chunk", about the host's current operation.
fn send_to_each(table: &mut Table, number: usize, chunks: Set, body: Body) {
    let host = &table.hosts[number];
    let (Some(operation), timestamp) = (host.current, host.timestamp) else {
        return;
    };
    for chunk in chunks.members() {
        table.post(Message {
            host: number,
            chunk,
            block: operation.block,
            timestamp,
            body,
        });
    }
}

/// Event 6: "Needs working, a current operation, nothing outstanding (2); room for a write's
/// messages (5)."
pub fn finish(table: &mut Table, number: usize) -> Result<Outcome, Refusal> {
    let host = &table.hosts[number];
    let operation = match host.current {
        Some(operation) if host.working && host.outstanding.is_empty() => operation,
        _ => return Err(Refusal::State),
    };
    let set = table.sets[operation.block];
    let is_write = operation.sort != Sort::Read;
    if is_write && set.size() > table.free_places() {
        return Err(Refusal::Room);
    }

    let (okay, restart, value) = (host.okay, host.restart, host.result);
    if is_write {
        // "Okay write: commit to each chunk of the set, write done. Not okay: abort to each."
        let body = match okay {
            true => Body::Commit(host.epoch_known),
            false => Body::Abort(host.epoch_known),
        };
        send_to_each(table, number, set, body);
    }
    let host = &mut table.hosts[number];
    clear_current(host);
    let goes_back = !okay && restart;
    if goes_back {
        // There is a place: the current operation was counted among the eight.
        host.waiting.prepend(operation);
    }
    let block = operation.block;
    Ok(match (okay, is_write) {
        _ if goes_back => Outcome::None,
        (true, false) => Outcome::ReadDone(number, block, value),
        (true, true) => Outcome::WriteDone(number, block),
        (false, false) => Outcome::ReadFailed(number, block),
        (false, true) => Outcome::WriteFailed(number, block),
    })
}

/// "No current operation remains, and its fields become zero or false."
fn clear_current(host: &mut Host) {
    host.current = None;
    host.timestamp = Timestamp::NEVER;
    host.outstanding = Set::EMPTY;
    host.okay = false;
    host.restart = false;
    host.result = 0;
}

/// Event 7: "needs working, something outstanding (2). Okay false, nothing outstanding."
pub fn timeout(host: &mut Host) -> Result<(), Refusal> {
    if !host.working || host.outstanding.is_empty() {
        return Err(Refusal::State);
    }
    host.okay = false;
    host.outstanding = Set::EMPTY;
    Ok(())
}

/// Event 8: "working (2). Epoch known becomes the store's, map current."
pub fn refresh(host: &mut Host, epoch: Epoch) -> Result<(), Refusal> {
    if !host.working {
        return Err(Refusal::State);
    }
    host.epoch_known = epoch;
    host.map_current = true;
    Ok(())
}

/// Event 10: "stop (host), once; its other fields stay."
pub fn stop(host: &mut Host) -> Result<(), Refusal> {
    if !host.working {
        return Err(Refusal::State);
    }
    host.working = false;
    Ok(())
}

/// "At a host a reply counts only if its timestamp is the current one, its chunk is outstanding,
/// and a read or prewrite reply suits the operation." The block is not compared. "A stopped host"
/// takes no notice.
pub fn counts(host: &Host, reply: &Message) -> bool {
    let Some(operation) = host.current else {
        return false;
    };
    let suits = match reply.body {
        Body::ReadReply(_) => operation.sort == Sort::Read,
        Body::PrewriteReply => operation.sort != Sort::Read,
        _ => true,
    };
    host.working
        && reply.timestamp == host.timestamp
        && host.outstanding.contains(reply.chunk)
        && suits
}

/// "Mismatch, out of order, busy and error clear okay; mismatch also makes the map not current;
/// error clears restart. A read reply sets the result value."
pub fn receive(host: &mut Host, reply: &Message) {
    if !counts(host, reply) {
        return;
    }
    // "The chunk is then no longer outstanding."
    host.outstanding = host.outstanding.without(reply.chunk);
    match reply.body {
        Body::VersionMismatch => {
            host.okay = false;
            host.map_current = false;
        }
        Body::Error => {
            host.okay = false;
            host.restart = false;
        }
        Body::OutOfOrder | Body::Busy => host.okay = false,
        Body::ReadReply(value) => host.result = value,
        _ => {}
    }
}
