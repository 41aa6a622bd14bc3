//! The events that are timed: on the least and on the greatest store, idle and full, and random.

use second::answer::Answer;
use second::event::{operand_count, step, Numbers, OPERANDS};
use second::generate::{generate, generate_with, Sequence, EVENTS};
use second::random::Random;
use second::table::{Message, Table, LARGEST, OPERATIONS, PLACES, WAITING};

/// An event is four numbers: kind and three operands.
pub const NUMBERS: usize = 1 + OPERANDS;

/// Timed events of a case, at least.
const ENOUGH: usize = 40_000;

/// The first two lines of a session, its events, and how many of the numbers only prepare.
pub struct Session {
    pub first: Vec<u8>,
    pub second: Vec<u8>,
    pub fresh: Table,
    pub before: usize,
    pub numbers: Vec<u64>,
    /// Sums over the timed events: operations, messages, waiting entries in the store.
    held: [usize; 3],
    /// Answers with an outcome.
    outcomes: usize,
}

pub struct Case {
    pub name: &'static str,
    pub sessions: Vec<Session>,
}

impl Case {
    pub fn events(&self) -> usize {
        self.sessions.iter().map(Session::events).sum()
    }

    /// What the store holds on average: operations, messages, waiting entries.
    pub fn held(&self) -> [f64; 3] {
        let events = self.events() as f64;
        [0, 1, 2].map(|i| self.sessions.iter().map(|s| s.held[i]).sum::<usize>() as f64 / events)
    }
}

impl Session {
    /// The timed ones.
    pub fn events(&self) -> usize {
        (self.numbers.len() - self.before) / NUMBERS
    }

    /// The driver's input: "an event a line, its number and then only its own operands".
    pub fn text(&self, numbers: &[u64]) -> Vec<u8> {
        let mut text = [&self.first[..], b"\n", &self.second, b"\n"].concat();
        for event in numbers.chunks_exact(NUMBERS) {
            let used = 1 + operand_count(event[0]).unwrap_or(OPERANDS);
            let words: Vec<String> = event[..used].iter().map(u64::to_string).collect();
            text.extend(words.join(" ").bytes());
            text.push(b'\n');
        }
        text
    }
}

pub fn all() -> Vec<Case> {
    let least = || Store::new(1, 1, 1);
    let greatest = || Store::new(8, 8, 16);
    let one = |name, session| Case {
        name,
        sessions: vec![session],
    };
    vec![
        one("least store, idle", least().idle()),
        one("least store, full", least().full()),
        one("greatest store, idle", greatest().idle()),
        one("greatest store, full", greatest().full()),
        one("greatest store, epoch changes", greatest().epochs()),
        Case {
            name: "random sequences",
            sessions: random_sessions(),
        },
        one("random, one long sequence", long_session()),
    ]
}

/// A store under way, on which the events are tried as they are written down.
struct Store {
    random: Random,
    table: Table,
    clock: u64,
    /// The host that acts next.
    turn: usize,
    session: Session,
}

impl Store {
    /// Every block on every chunk; leases given, maps current.
    fn new(hosts: u64, chunks: u64, blocks: u64) -> Store {
        let sets = vec![(1 << chunks) - 1; blocks as usize];
        let words: Vec<String> = sets.iter().map(u64::to_string).collect();
        let fresh = Table::create(hosts, chunks, blocks, 1000, &sets).expect("within the limits");
        let first = format!("{hosts} {chunks} {blocks} 1000");
        let session = Session::new(first.into(), words.join(" ").into(), fresh);
        let mut store = Store {
            random: Random::new(1),
            table: session.fresh.clone(),
            clock: 0,
            turn: 0,
            session,
        };
        (0..chunks).for_each(|chunk| store.event(14, [chunk, 0, 0]));
        (0..hosts).for_each(|host| store.event(8, [host, 0, 0]));
        store
    }

    /// An event that the store must grant.
    fn event(&mut self, kind: u64, operands: [u64; OPERANDS]) {
        let answer = self.session.event(&mut self.table, kind, operands);
        assert_eq!(answer.code, 0, "event {kind} {operands:?}");
    }

    /// What follows is timed.
    fn timed(&mut self) {
        self.session.before = self.session.numbers.len();
        self.session.held = [0; 3];
    }

    fn enough(&self) -> bool {
        self.session.events() >= ENOUGH
    }

    fn ask_write(&mut self, host: usize) {
        let block = self.random.index(self.table.block_count);
        self.ask_write_of(host, block);
    }

    fn ask_write_of(&mut self, host: usize, block: usize) {
        let value = self.random.number();
        self.event(2, [host as u64, block as u64, value]);
    }

    fn start(&mut self, host: usize) {
        self.clock += 1;
        let copy = self.random.index(self.table.chunk_count);
        self.event(3, [host as u64, self.clock, copy as u64]);
    }

    /// Event 4 or 5 for every message that the host's attempt has in the network.
    fn messages(&mut self, kind: u64, host: usize) {
        let clock = self.table.hosts[host].last_clock;
        for place in 0..PLACES {
            let is_its = |m: Message| m.host == host && m.timestamp.clock() == clock;
            if self.table.network[place].is_some_and(is_its) {
                self.event(kind, [place as u64, 0, 0]);
            }
        }
    }

    /// The block's head goes, in every chunk.
    fn run(&mut self, block: usize) {
        for chunk in 0..self.table.chunk_count {
            self.event(9, [chunk as u64, block as u64, 0]);
        }
    }

    /// A write that was started is brought to its commits' arrival.
    fn complete_write(&mut self, host: usize) {
        self.messages(4, host); // prewrites
        self.messages(4, host); // their replies
        self.event(6, [host as u64, 0, 0]);
        self.messages(4, host); // commits
    }

    fn complete_read(&mut self, host: usize, block: usize) {
        self.messages(4, host);
        let is_full = |chunk: &usize| self.table.chunks[*chunk].records[block].waiting.count > 0;
        let chunk = (0..self.table.chunk_count).find(is_full).expect("a read");
        self.event(9, [chunk as u64, block as u64, 0]);
        self.messages(4, host);
        self.event(6, [host as u64, 0, 0]);
    }

    /// One operation after another, read and write in turn, and nothing else under way.
    fn idle(mut self) -> Session {
        self.timed();
        while !self.enough() {
            let host = self.next_host();
            let block = self.random.index(self.table.block_count);
            self.ask_write_of(host, block);
            self.start(host);
            self.complete_write(host);
            self.run(block);
            self.event(1, [host as u64, block as u64, 0]);
            self.start(host);
            self.complete_read(host, block);
        }
        self.session
    }

    /// Eight operations at every host, waiting lists full, the network too but for what a step needs.
    fn full(mut self) -> Session {
        self.fill_waiting();
        for host in 0..self.table.host_count {
            (0..OPERATIONS).for_each(|_| self.ask_write(host));
        }
        self.fill_network();
        (0..self.table.host_count).for_each(|host| self.start(host));
        self.timed();
        while !self.enough() {
            let host = self.next_host();
            let current = self.table.hosts[host].current.expect("it has started");
            self.run(current.block);
            self.complete_write(host);
            self.ask_write(host);
            self.start(host);
        }
        self.session
    }

    fn fill_waiting(&mut self) {
        for block in 0..self.table.block_count {
            for _ in 0..WAITING {
                let host = self.next_host();
                self.ask_write_of(host, block);
                self.start(host);
                self.complete_write(host);
            }
        }
    }

    /// Attempts that are given up leave their messages in the network, as many as the hosts don't need themselves.
    fn fill_network(&mut self) {
        let needed = self.table.host_count * self.table.chunk_count;
        while self.table.free_places() >= needed + 2 * self.table.chunk_count {
            self.start(0);
            self.event(7, [0; OPERANDS]);
            self.event(6, [0; OPERANDS]);
        }
    }

    /// Every block is settled, every chunk renewed, again and again.
    fn epochs(mut self) -> Session {
        self.timed();
        while !self.enough() {
            self.event(15, [0; OPERANDS]);
        }
        self.session
    }

    fn next_host(&mut self) -> usize {
        self.turn = (self.turn + 1) % self.table.host_count;
        self.turn
    }
}

impl Session {
    fn new(first: Vec<u8>, second: Vec<u8>, fresh: Table) -> Session {
        Session {
            first,
            second,
            fresh,
            before: 0,
            numbers: Vec::new(),
            held: [0; 3],
            outcomes: 0,
        }
    }

    fn event(&mut self, table: &mut Table, kind: u64, operands: [u64; OPERANDS]) -> Answer {
        let answer = step(table, kind, operands);
        self.numbers.push(kind);
        self.numbers.extend(operands);
        let records = || table.chunks.iter().flat_map(|chunk| &chunk.records);
        let held = [
            table.hosts.iter().map(|host| host.operations()).sum(),
            PLACES - table.free_places(),
            records().map(|record| record.waiting.count).sum(),
        ];
        (0..3).for_each(|i| self.held[i] += held[i]);
        self.outcomes += usize::from(answer.outcome != 0);
        answer
    }

    /// A generated sequence's good lines that are kept; none where it names no store.
    fn of(sequence: &Sequence, keep: fn(&Numbers) -> bool) -> Option<Session> {
        let mut table = sequence.fresh.clone()?;
        let [first, second] = &sequence.first_lines[..] else {
            return None;
        };
        let mut session = Session::new(first.clone(), second.clone(), table.clone());
        let events = sequence.lines.iter().filter_map(|line| line.event);
        for (kind, operands) in events.filter(keep) {
            session.event(&mut table, kind, operands);
        }
        Some(session)
    }
}

/// As the comparison of the two drivers has them.
fn random_sessions() -> Vec<Session> {
    let sequences = (1..).map(|seed| generate(seed, EVENTS));
    let sessions = sequences.filter_map(|sequence| Session::of(&sequence, |_| true));
    sessions.take(ENOUGH / EVENTS).collect()
}

/// A host that stops never works again, and one that draws the last clock never starts again: a long sequence leaves these out.
fn goes_on(&(kind, operands): &Numbers) -> bool {
    kind != 10 && !(kind == 3 && operands[1] == LARGEST)
}

/// Of some long sequences the one that does the most.
fn long_session() -> Session {
    let mut step_if_it_goes_on = |table: &mut Table, kind: u64, operands: [u64; OPERANDS]| {
        let kept = if goes_on(&(kind, operands)) { kind } else { 0 };
        step(table, kept, operands)
    };
    let sequences = (1..=20).map(|seed| generate_with(seed, ENOUGH, &mut step_if_it_goes_on));
    let sessions = sequences.filter_map(|sequence| Session::of(&sequence, goes_on));
    let liveliest = sessions.max_by_key(|session| session.outcomes);
    liveliest.expect("some seed names a store")
}
