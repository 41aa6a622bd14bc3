//! What demand 3's check makes of small sessions: the attempts that were begun, the lists.

use crate::broken_stores::{Broken, Fault};
use second::begun::Attempt;
use second::event::Numbers;
use second::one_copy::{run_from, Clause, History, Plain, Stepper};
use second::table::*;

/// Two hosts, two chunks that hold both blocks; leases given, maps current.
fn history_with(parts: &[&[Numbers]], stepper: &mut dyn Stepper) -> History {
    let fresh = Table::create(2, 2, 2, 100, &[3, 3]).unwrap();
    let ready = [
        (14, [0, 0, 0]),
        (14, [1, 0, 0]),
        (8, [0, 0, 0]),
        (8, [1, 0, 0]),
    ];
    run_from(&fresh, [&ready, &parts.concat()[..]].concat(), stepper)
}

/// The same of the plain store, which has nothing wrong.
fn history(parts: &[&[Numbers]]) -> History {
    assert_eq!(history_with(parts, &mut Plain).verdict(), []);
    history_with(parts, &mut Plain)
}

fn listed(history: &History, block: usize) -> Vec<(u64, u64)> {
    let list = history.listed(block).iter();
    list.map(|(timestamp, &value)| (timestamp.0, value))
        .collect()
}

/// Both messages of an otherwise empty network arrive; replies take their places.
const BOTH_ARRIVE: [Numbers; 2] = [(4, [0, 0, 0]), (4, [1, 0, 0])];
const CHANGE: [Numbers; 1] = [(15, [0, 0, 0])];

fn ask_write(host: u64, block: u64, value: u64) -> [Numbers; 1] {
    [(2, [host, block, value])]
}

fn start(host: u64, clock: u64) -> [Numbers; 1] {
    [(3, [host, clock, 0])]
}

fn finish(host: u64) -> [Numbers; 1] {
    [(6, [host, 0, 0])]
}

/// The prewrites of a started write, and their replies.
fn prewritten() -> Vec<Numbers> {
    [BOTH_ARRIVE, BOTH_ARRIVE].concat()
}

/// A write from its intake to its runs.
fn write(host: u64, block: u64, value: u64, clock: u64) -> Vec<Numbers> {
    let runs = [(9, [0, block, 0]), (9, [1, block, 0])];
    [
        &ask_write(host, block, value)[..],
        &start(host, clock),
        &prewritten(),
        &finish(host),
        &BOTH_ARRIVE,
        &runs,
    ]
    .concat()
}

/// A read at chunk 0 from its intake to its outcome.
fn read(host: u64, block: u64, clock: u64) -> Vec<Numbers> {
    let arrives = (4, [0, 0, 0]);
    let served = [arrives, (9, [0, block, 0]), arrives];
    [
        &[(1, [host, block, 0])][..],
        &start(host, clock),
        &served,
        &finish(host),
    ]
    .concat()
}

/// The attempt gets no answer, and its operation goes back; what is in the network goes.
fn given_up(host: u64) -> Vec<Numbers> {
    let dropped = [(5, [0, 0, 0]), (5, [1, 0, 0])];
    [&dropped[..], &[(7, [host, 0, 0])], &finish(host), &dropped].concat()
}

#[test]
fn attempts_come_from_the_events() {
    // Two equal writes of host 1, the first of them tried twice; a refused start between.
    let history = history(&[
        &ask_write(1, 0, 7),
        &ask_write(1, 0, 7),
        &start(1, 5),
        &given_up(1),
        &start(1, 5),
        &start(1, 6),
        &prewritten(),
        &finish(1),
        &BOTH_ARRIVE,
        &read(0, 1, 9),
        &start(1, 10),
    ]);
    let write = |timestamp: u64, number: usize| Attempt {
        timestamp: Timestamp(timestamp),
        host: 1,
        operation: Operation {
            block: 0,
            sort: Sort::Write(7),
        },
        number,
    };
    let read = Attempt {
        timestamp: Timestamp(72),
        host: 0,
        operation: Operation {
            block: 1,
            sort: Sort::Read,
        },
        number: 0,
    };
    let begun = history.begun();
    let expected = [write(41, 0), write(49, 0), read, write(81, 1)];
    assert_eq!(begun.attempts(), expected);
    assert_eq!(begun.under_way(0), None);
    assert_eq!(begun.under_way(1), Some(write(81, 1)));
    assert_eq!(begun.open(0).count(), 0);
    assert_eq!(begun.open(1).collect::<Vec<_>>(), [write(81, 1).operation]);
}

/// By timestamp a read stands between two writes: it carries the first one's value.
#[test]
fn the_last_before_is_not_the_last() {
    let history = history(&[&write(0, 0, 10, 5), &read(1, 0, 7), &write(0, 0, 20, 9)]);
    assert_eq!(listed(&history, 0), [(40, 10), (72, 20)]);
    let sizes = history.sizes();
    assert_eq!((sizes.reads, sizes.reads_overtaken), (1, 1));
}

#[test]
fn each_block_has_its_list() {
    let history = history(&[&write(0, 0, 10, 5), &write(1, 1, 20, 5)]);
    assert_eq!(listed(&history, 0), [(40, 10)]);
    assert_eq!(listed(&history, 1), [(41, 20)]);
}

/// A change commits what both chunks hold, and the host never finishes; the same of two at once.
#[test]
fn a_change_lists_what_no_host_finished() {
    let prewritten = prewritten();
    let one = [&ask_write(0, 0, 10)[..], &start(0, 5), &prewritten].concat();
    let other = [&ask_write(1, 0, 20)[..], &start(1, 5), &prewritten].concat();
    let history = history(&[&one, &other, &CHANGE]);
    assert_eq!(listed(&history, 0), [(40, 10), (41, 20)]);
    assert_eq!(history.sizes().writes, 0);
}

/// Its host commits a write, then the change does, before the commits arrive: one entry.
#[test]
fn committed_twice_and_listed_once() {
    let asked = ask_write(0, 0, 10);
    let finished = [&start(0, 5)[..], &prewritten(), &finish(0)].concat();
    let history = history(&[&asked, &finished, &CHANGE, &CHANGE]);
    assert_eq!(listed(&history, 0), [(40, 10)]);
    assert_eq!(history.sizes().writes, 1);
}

/// A change commits the first attempt, which its host gives up; the second one is done.
#[test]
fn listed_under_an_earlier_attempt_too() {
    let history = history(&[
        &ask_write(0, 0, 10),
        &start(0, 5),
        &BOTH_ARRIVE,
        &CHANGE,
        &given_up(0),
        &[(8, [0, 0, 0])],
        &start(0, 6),
        &prewritten(),
        &finish(0),
    ]);
    assert_eq!(listed(&history, 0), [(40, 10), (48, 10)]);
    let sizes = history.sizes();
    assert_eq!((sizes.writes, sizes.writes_listed_earlier), (1, 1));
}

/// An attempt that is given up sends aborts, and is not listed.
#[test]
fn an_abort_is_not_listed() {
    let history = history(&[&ask_write(0, 0, 10), &start(0, 5), &given_up(0)]);
    assert_eq!(listed(&history, 0), []);
    assert_eq!(history.sizes().attempts, 1);
}

/// Reads have timestamps of their own, too.
#[test]
fn two_reads_do_not_share_a_timestamp() {
    let twice = [read(0, 0, 5), read(0, 1, 5)].concat();
    let mut broken = Broken::new(Fault::GrantsAClockAgain);
    let wrong = history_with(&[&twice], &mut broken).verdict();
    let clauses: Vec<Clause> = wrong.iter().map(|wrong| wrong.clause).collect();
    assert_eq!(clauses, [Clause::Timestamps]);
}

/// A store that grants everything grants what can't be.
#[test]
fn granted_and_not_there() {
    let is_found = |events: &[Numbers]| {
        let mut broken = Broken::new(Fault::GrantsEverything);
        let wrong = history_with(&[events], &mut broken).verdict();
        wrong.iter().any(|wrong| wrong.clause == Clause::Granted)
    };
    let asked = ask_write(0, 0, 10);
    let started = [asked, start(0, LARGEST)].concat();
    assert!(!is_found(&[&started[..], &finish(0)].concat()));
    // Nothing to start, nothing to finish, a second start.
    assert!(is_found(&start(0, 5)));
    assert!(is_found(&finish(0)));
    assert!(is_found(&[&asked[..], &finish(0)].concat()));
    assert!(is_found(&[&started[..], &start(0, 6)].concat()));
    // No such host, block or clock.
    assert!(is_found(&ask_write(HOSTS as u64, 0, 10)));
    assert!(is_found(&ask_write(0, BLOCKS as u64, 10)));
    assert!(is_found(&[asked, start(0, LARGEST + 1)].concat()));
}
