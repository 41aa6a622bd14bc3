//! The guide looks at a table and picks an event that makes sense there, mostly.

use crate::event::{operand_count, Numbers, KINDS, OPERANDS};
use crate::random::Random;
use crate::settle::{all_lost, copies};
use crate::table::*;

/// The sort of a whole sequence: which moods follow one another in it.
#[derive(Clone, Copy, Debug, PartialEq, Eq)]
pub enum Profile {
    Calm,
    Faulty,
    Crowded,
    Wild,
}

impl Profile {
    pub const ALL: [Profile; 4] = [
        Profile::Calm,
        Profile::Faulty,
        Profile::Crowded,
        Profile::Wild,
    ];

    fn moods(self) -> &'static [Mood] {
        match self {
            Profile::Calm => &[Mood::Serve, Mood::Serve, Mood::Serve, Mood::Trouble],
            Profile::Faulty => &[Mood::Trouble, Mood::Trouble, Mood::Serve, Mood::Stall],
            Profile::Crowded => &[Mood::Flood, Mood::Stall, Mood::Drain, Mood::Serve],
            Profile::Wild => &[Mood::Wild, Mood::Trouble, Mood::Serve, Mood::Serve],
        }
    }
}

/// What goes on for a while.
#[derive(Clone, Copy, Debug, PartialEq, Eq)]
enum Mood {
    /// Operations are asked and served.
    Serve,
    /// Operations start again and again and nothing is delivered: the network fills.
    Flood,
    /// Messages arrive and heads are not run: queues fill.
    Stall,
    /// Chunks fail, leases come and go, epochs change, messages are dropped.
    Trouble,
    /// What is under way is brought to its end.
    Drain,
    /// Any numbers at all.
    Wild,
}

#[derive(Clone, Copy, Debug, PartialEq, Eq)]
enum Act {
    Ask,
    Start,
    Deliver,
    Drop,
    Finish,
    Timeout,
    Refresh,
    Run,
    Stop,
    Fail,
    Recover,
    TakeLease,
    GiveLease,
    EpochChange,
    Overdue,
    Wild,
}

#[rustfmt::skip]
const ACTS: [Act; 16] = [
    Act::Ask, Act::Start, Act::Deliver, Act::Drop, Act::Finish, Act::Timeout, Act::Refresh,
    Act::Run, Act::Stop, Act::Fail, Act::Recover, Act::TakeLease, Act::GiveLease,
    Act::EpochChange, Act::Overdue, Act::Wild,
];

/// How often each act is tried, in the order of [`ACTS`].
#[rustfmt::skip]
fn weights(mood: Mood) -> [u64; ACTS.len()] {
    match mood {
        //               ask start deliv drop  fin  time refr  run st fail  rec take give epoch over wild
        Mood::Serve =>   [100, 150,  400,   0, 200,   2, 100, 300, 0,  0,   60,   0,  90,  30,   5,   3],
        Mood::Flood =>   [300, 400,   10,   5, 150, 250,  20,  40, 0,  0,    0,   0,  20,   0,  10,   5],
        Mood::Stall =>   [200, 300,  400,  20, 100, 150,  60,  10, 0,  0,   20,   0,  30,   0,  30,   5],
        Mood::Trouble => [ 80, 120,  300,  30, 150,  15,  90, 250, 1, 12,   80,   8,  60,  12,  10,   5],
        Mood::Drain =>   [ 10,  10,  450,  10, 200,  30,  60, 400, 0,  0,   30,   0,  60,  20,   0,   5],
        Mood::Wild =>    [ 50,  50,   80,  20,  50,  20,  50,  50, 1, 10,   30,  10,  40,  10,  20, 400],
    }
}

/// Numbers at and beside the limits.
#[rustfmt::skip]
const BOUNDARIES: [u64; 27] = [
    0, 1, 2, 3, 4, 5, 6, 7, 8, 9, 14, 15, 16, 17, 20, 21, 63, 64, 65, 255, 4_294_967_294,
    4_294_967_295, 4_294_967_296, 34_359_738_367, 34_359_738_368, 9_223_372_036_854_775_808, u64::MAX,
];

pub struct Guide {
    profile: Profile,
    mood: Mood,
    /// Events left in this mood.
    left: u64,
    /// A common time, and how far each host's clock is ahead of it.
    now: u64,
    ahead: [u64; HOSTS],
    /// The block that most operations are about.
    hot: usize,
    /// What comes next whatever the mood, the last first.
    planned: Vec<Numbers>,
}

impl Guide {
    pub fn new(random: &mut Random, profile: Profile, table: &Table) -> Guide {
        let spread = random.pick(&[1, 2, 10, 100, 1000]);
        let near_the_end = LARGEST - random.below(400);
        let now = match random.below(20) {
            0 => near_the_end,
            1 => random.below(LARGEST),
            _ => random.below(10),
        };
        Guide {
            profile,
            mood: Mood::Serve,
            left: 0,
            now,
            ahead: std::array::from_fn(|_| random.below(spread)),
            hot: random.index(table.block_count),
            planned: Vec::new(),
        }
    }

    /// The next event for this table.
    pub fn event(&mut self, random: &mut Random, table: &Table) -> Numbers {
        if let Some(numbers) = self.planned.pop() {
            return numbers;
        }
        if self.left == 0 {
            self.mood = random.pick(self.profile.moods());
            self.left = 10 + random.below(60);
        }
        self.left -= 1;
        for _ in 0..20 {
            let act = pick_act(random, self.mood);
            let sensible = self.sensible(random, table, act);
            // Now and then the event is tried although it makes no sense.
            let senseless = random.in_thousand(30).then(|| in_range(random, table));
            if let Some(numbers) = sensible.or(senseless) {
                return numbers;
            }
        }
        in_range(random, table)
    }

    /// An event of this sort that the table would mostly grant, if there is one.
    fn sensible(&mut self, random: &mut Random, table: &Table, act: Act) -> Option<Numbers> {
        let host_that = |random: &mut Random, fits: &dyn Fn(&Host) -> bool| {
            let hosts = 0..table.host_count;
            let fitting: Vec<usize> = hosts.filter(|&host| fits(&table.hosts[host])).collect();
            random.pick_any(&fitting)
        };
        let chunk_that = |random: &mut Random, fits: &dyn Fn(usize, &Chunk) -> bool| {
            let chunks = 0..table.chunk_count;
            let fitting: Vec<usize> = chunks.filter(|&c| fits(c, &table.chunks[c])).collect();
            random.pick_any(&fitting)
        };
        let rash = random.in_thousand(60);
        let one = |kind: u64, party: usize| (kind, [party as u64, 0, 0]);
        match act {
            Act::Ask => self.ask(random, table),
            Act::Start => self.start(random, table),
            Act::Deliver => full_place(random, table).map(|place| one(4, place)),
            Act::Drop => full_place(random, table).map(|place| one(5, place)),
            Act::Finish => {
                let fits = |h: &Host| h.working && h.current.is_some() && h.outstanding.is_empty();
                host_that(random, &fits).map(|host| one(6, host))
            }
            Act::Timeout => {
                let fits = |h: &Host| h.working && !h.outstanding.is_empty();
                host_that(random, &fits).map(|host| one(7, host))
            }
            Act::Refresh => {
                let attentive = rash || self.mood == Mood::Serve;
                let fits = |h: &Host| {
                    h.working && (!h.map_current || attentive && h.epoch_known != table.epoch)
                };
                host_that(random, &fits).map(|host| one(8, host))
            }
            Act::Run => {
                let decided = |head: Entry| !matches!(head.sort, Waiting::Undecided(_));
                head_that(random, table, &decided)
                    .map(|(chunk, block, _)| (9, [chunk as u64, block as u64, 0]))
            }
            Act::Stop => host_that(random, &|h| h.working).map(|host| one(10, host)),
            Act::Fail => {
                let reckless = random.in_thousand(10);
                let fits = |number: usize, chunk: &Chunk| {
                    chunk.state != State::Failed && (reckless || !last_kept_copy(table, number))
                };
                let chunk = chunk_that(random, &fits)?;
                if random.in_thousand(500) {
                    // Back at once: the epoch changes while operations are under way.
                    self.planned = vec![(15, [0; OPERANDS]), one(12, chunk)];
                }
                Some(one(11, chunk))
            }
            Act::Recover => {
                let fits = |_: usize, chunk: &Chunk| chunk.state == State::Failed;
                chunk_that(random, &fits).map(|chunk| one(12, chunk))
            }
            Act::TakeLease => {
                let fits = |_: usize, chunk: &Chunk| chunk.state == State::Normal;
                chunk_that(random, &fits).map(|chunk| one(13, chunk))
            }
            Act::GiveLease => {
                let fits = |_: usize, chunk: &Chunk| {
                    chunk.state == State::Nolease && (rash || !chunk.lost)
                };
                chunk_that(random, &fits).map(|chunk| one(14, chunk))
            }
            Act::EpochChange => {
                let failed = table
                    .chunks
                    .iter()
                    .any(|chunk| chunk.state == State::Failed);
                let gone = (0..table.block_count).any(|block| all_lost(&copies(table, block)));
                let needed = table.chunks.iter().any(|chunk| chunk.lost);
                let sensible = !failed && !gone && (needed || self.mood != Mood::Serve);
                let senseless = random.in_thousand(20);
                (sensible || senseless).then_some((15, [0; OPERANDS]))
            }
            Act::Overdue => {
                let undecided = |head: Entry| matches!(head.sort, Waiting::Undecided(_));
                let (chunk, block, head) = head_that(random, table, &undecided)?;
                let limit = head.timestamp.clock() + table.age_limit;
                let now = match random.below(5) {
                    0 => head.timestamp.clock().saturating_sub(2),
                    1 => limit,
                    _ => limit + 1,
                };
                Some((16, [chunk as u64, block as u64, now]))
            }
            Act::Wild => Some(wild(random, table)),
        }
    }

    fn ask(&self, random: &mut Random, table: &Table) -> Option<Numbers> {
        let mut host = random.index(table.host_count);
        let fits = |host: &Host| host.working && host.operations() < OPERATIONS;
        if !fits(&table.hosts[host]) && !random.in_thousand(150) {
            host = (0..table.host_count).find(|&h| fits(&table.hosts[h]))?;
        }
        let block = match random.in_thousand(700) {
            true => self.hot,
            false => random.index(table.block_count),
        };
        let value = match random.below(20) {
            0 => 0,
            1 => u64::MAX,
            // Mostly values that differ, so that a wrong one shows.
            _ => random.number() >> random.below(60),
        };
        Some(match random.in_thousand(550) {
            true => (2, [host as u64, block as u64, value]),
            false => (1, [host as u64, block as u64, 0]),
        })
    }

    fn start(&mut self, random: &mut Random, table: &Table) -> Option<Numbers> {
        let ready = |host: &Host| {
            host.working && host.current.is_none() && host.waiting.count > 0 && host.map_current
        };
        let hosts = 0..table.host_count;
        let fitting: Vec<usize> = hosts.filter(|&host| ready(&table.hosts[host])).collect();
        let number = random.pick_any(&fitting)?;
        let host = &table.hosts[number];
        self.now = (self.now + random.below(3)).min(LARGEST);
        let own = self.now + self.ahead[number];
        let clock = match random.below(100) {
            0 => 0,
            1..=3 => host.last_clock,
            4 if random.in_thousand(20) => LARGEST,
            5..=20 => host.last_clock + 1,
            _ => own.max(host.last_clock + 1).min(LARGEST),
        };
        let set = host
            .waiting
            .first()
            .map_or(Set::EMPTY, |o| table.sets[o.block]);
        let members: Vec<usize> = set.members().collect();
        let copy = match random.in_thousand(40) {
            true => random.index(table.chunk_count),
            false => random.pick_any(&members)?,
        };
        Some((3, [number as u64, clock, copy as u64]))
    }
}

fn pick_act(random: &mut Random, mood: Mood) -> Act {
    let weights = weights(mood);
    let mut at = random.below(weights.iter().sum());
    for (act, weight) in ACTS.into_iter().zip(weights) {
        if at < weight {
            return act;
        }
        at -= weight;
    }
    Act::Wild
}

fn full_place(random: &mut Random, table: &Table) -> Option<usize> {
    let full: Vec<usize> = (0..PLACES)
        .filter(|&place| table.network[place].is_some())
        .collect();
    random.pick_any(&full)
}

/// A normal chunk's block whose head is like this.
fn head_that(
    random: &mut Random,
    table: &Table,
    fits: &dyn Fn(Entry) -> bool,
) -> Option<(usize, usize, Entry)> {
    let mut found = Vec::new();
    for (number, chunk) in table.chunks[..table.chunk_count].iter().enumerate() {
        for (block, record) in chunk.records.iter().enumerate() {
            match record.waiting.first() {
                Some(head) if chunk.state == State::Normal && fits(head) => {
                    found.push((number, block, head));
                }
                _ => {}
            }
        }
    }
    random.pick_any(&found)
}

/// Whether some block would have no copy that isn't lost without this chunk.
fn last_kept_copy(table: &Table, number: usize) -> bool {
    (0..table.block_count).any(|block| {
        let mut others = table.sets[block].without(number).members();
        table.sets[block].contains(number) && others.all(|other| table.chunks[other].lost)
    })
}

/// A known kind with numbers within their ranges, whatever the table's state.
fn in_range(random: &mut Random, table: &Table) -> Numbers {
    let kind = 1 + random.below(KINDS);
    let host = random.below(table.host_count as u64);
    let chunk = random.below(table.chunk_count as u64);
    let block = random.below(table.block_count as u64);
    let operands = match kind {
        1 => [host, block, 0],
        2 => [host, block, random.number()],
        3 => [host, 1 + random.below(LARGEST), chunk],
        4 | 5 => [random.below(PLACES as u64), 0, 0],
        6 | 7 | 8 | 10 => [host, 0, 0],
        9 => [chunk, block, 0],
        11..=14 => [chunk, 0, 0],
        16 => [chunk, block, random.below(LARGEST + 1)],
        _ => [0; OPERANDS],
    };
    // These are kept rare here: they end what the sequence could still show.
    match (kind, random.in_thousand(900)) {
        (3 | 10 | 11 | 15, true) => (8, [host, 0, 0]),
        _ => (kind, operands),
    }
}

/// Any kind, any numbers. Unused operands stay 0, since a driver's line has no place for them.
fn wild(random: &mut Random, table: &Table) -> Numbers {
    let kind = match random.in_thousand(150) {
        true => random.pick(&BOUNDARIES),
        false => 1 + random.below(KINDS),
    };
    if random.in_thousand(300) {
        return in_range(random, table);
    }
    let mut operands = [0; OPERANDS];
    let used = operand_count(kind).unwrap_or(OPERANDS);
    for operand in operands.iter_mut().take(used) {
        *operand = match random.below(4) {
            0 => random.pick(&BOUNDARIES),
            1 => random.number(),
            _ => random.below(3),
        };
    }
    (kind, operands)
}
