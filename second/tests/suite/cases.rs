//! P1 to P12, the rows of document 01's table of proved cases.

use crate::{entry, granted, message, ready_store, refused};
use second::event::step;
use second::table::*;

/// A block's copy in chunk A or B. The default: last read and last write 0, value 0, not lost.
#[derive(Clone, Copy, Default)]
struct Side {
    holds: Option<Waiting>,
    lost: bool,
    value: u64,
    last_read: u64,
    last_write: u64,
}

const FORTY: Option<Waiting> = Some(Waiting::Undecided(7));
const FORTY_ABORTED: Option<Waiting> = Some(Waiting::Aborted(7));

fn two_copies(sides: [Side; 2]) -> Table {
    let mut table = ready_store(1, 2, 1);
    for (chunk, side) in table.chunks.iter_mut().zip(sides) {
        let record = &mut chunk.records[0];
        record.value = side.value;
        record.last_read = Timestamp(side.last_read);
        record.last_write = Timestamp(side.last_write);
        if let Some(sort) = side.holds {
            record.waiting.append(entry(40, sort));
        }
        if side.lost {
            chunk.lost = true;
            chunk.state = State::Nolease;
        }
    }
    table
}

/// Value, last write and last read, the same in both chunks after the epoch change.
fn settles_to(a: Side, b: Side, value: u64, last_write: u64, last_read: u64) {
    let mut table = two_copies([a, b]);
    granted(&mut table, 15, [0; 3]);
    for chunk in &table.chunks[..2] {
        let expected = Record {
            value,
            last_write: Timestamp(last_write),
            last_read: Timestamp(last_read),
            ..Record::ZERO
        };
        assert_eq!(chunk.records[0], expected);
    }
}

#[rustfmt::skip]
mod settling {
    use super::*;

    fn side() -> Side { Side::default() }
    fn holding() -> Side { Side { holds: FORTY, ..side() } }
    fn lost() -> Side { Side { lost: true, ..side() } }

    #[test] fn p1() { settles_to(holding(), holding(), 7, 40, 0) }
    #[test] fn p2() { settles_to(holding(), side(), 0, 0, 0) }
    #[test] fn p3() { settles_to(holding(), lost(), 7, 40, 0) }
    #[test] fn p4() { settles_to(holding(), Side { last_read: 49, ..lost() }, 0, 0, 49) }
    #[test] fn p5() { settles_to(holding(), Side { value: 9, last_write: 96, ..side() }, 9, 96, 0) }
    #[test] fn p6() { settles_to(Side { holds: FORTY_ABORTED, ..side() }, holding(), 0, 0, 0) }
    #[test] fn p7() { refused(&two_copies([lost(), lost()]), 15, [0; 3], 6) }

    // Beside the table: the other side of P4, and what a lost chunk still gives.
    #[test] fn last_read_just_below() { settles_to(holding(), Side { last_read: 39, ..lost() }, 7, 40, 39) }
    #[test] fn last_read_just_at() { settles_to(holding(), Side { last_read: 40, ..lost() }, 0, 0, 40) }
    #[test] fn lost_last_write() { settles_to(holding(), Side { value: 9, last_write: 40, ..lost() }, 9, 40, 0) }
    #[test] fn lowest_of_equal_last_writes() {
        let nine = Side { value: 9, last_write: 8, ..side() };
        settles_to(nine, Side { value: 5, ..nine }, 9, 8, 0)
    }
}

/// A message arrives at chunk 0 with this record; the reply and the number then waiting.
fn arrives(record: Record, body: Body) -> (Option<Body>, usize) {
    let mut table = ready_store(1, 1, 1);
    table.chunks[0].records[0] = record;
    table.network[0] = Some(message(0, 40, body));
    granted(&mut table, 4, [0; 3]);
    let reply = table.network[0].map(|message| message.body);
    (reply, table.chunks[0].records[0].waiting.count)
}

fn record(last_read: u64, last_write: u64, waiting: usize) -> Record {
    let mut record = Record::ZERO;
    record.last_read = Timestamp(last_read);
    record.last_write = Timestamp(last_write);
    for _ in 0..waiting {
        record.waiting.append(entry(39, Waiting::Read));
    }
    record
}

const READ: Body = Body::Read(Epoch(1));
const PREWRITE: Body = Body::Prewrite(Epoch(1), 7);

#[test]
fn p8() {
    assert_eq!(arrives(record(0, 40, 0), READ), (None, 1));
    assert_eq!(arrives(record(0, 41, 0), READ), (Some(Body::OutOfOrder), 0));
}

#[test]
fn p9() {
    let late = (Some(Body::OutOfOrder), 0);
    let waits = (Some(Body::PrewriteReply), 1);
    assert_eq!(arrives(record(41, 0, 0), PREWRITE), late);
    assert_eq!(arrives(record(39, 0, 0), PREWRITE), waits);
}

#[test]
fn p10() {
    assert_eq!(arrives(record(0, 0, 8), PREWRITE), (Some(Body::Busy), 8));
    let waits = (Some(Body::PrewriteReply), 8);
    assert_eq!(arrives(record(0, 0, 7), PREWRITE), waits);
}

#[test]
fn p11() {
    let mut table = ready_store(1, 1, 1);
    assert_eq!(table.age_limit, 100);
    let head = entry(5 * 8, Waiting::Undecided(7));
    table.chunks[0].records[0].waiting.append(head);
    refused(&table, 16, [0, 0, 105], 2);
    refused(&table, 16, [0, 0, 3], 2);
    granted(&mut table, 16, [0, 0, 106]);
}

#[test]
fn p12() {
    let mut table = ready_store(1, 1, 1);
    granted(&mut table, 1, [0; 3]);
    table.hosts[0].last_clock = 5;
    refused(&table, 3, [0, 5, 0], 3);
    assert_eq!(step(&mut table, 3, [0, 6, 0]).code, 0);
    assert_eq!(table.hosts[0].timestamp, Timestamp(48));
}
