//! Seeded sequences as a driver's input text: the same seed gives the same text.

use crate::answer::Answer;
use crate::driver::LINE_BYTES;
use crate::event::{operand_count, step, Numbers, OPERANDS};
use crate::guide::{Guide, Profile};
use crate::random::Random;
use crate::table::{Table, BLOCKS, CHUNKS, HOSTS, LARGEST};

/// Event lines in a sequence, where nothing else is asked.
pub const EVENTS: usize = 400;

/// The sorts of event lines, the good ones first.
#[derive(Clone, Copy, Debug, PartialEq, Eq)]
pub enum LineSort {
    Plain,
    LeadingZeros,
    Exactly120Bytes,
    Empty,
    LeadingSpace,
    TrailingSpace,
    DoubleSpace,
    Tab,
    Sign,
    CarriageReturn,
    Above64Bits,
    TooLong,
    TooFewOperands,
    TooManyOperands,
    NotANumber,
    StrangeByte,
}

impl LineSort {
    pub const ALL: [LineSort; 16] = [
        LineSort::Plain,
        LineSort::LeadingZeros,
        LineSort::Exactly120Bytes,
        LineSort::Empty,
        LineSort::LeadingSpace,
        LineSort::TrailingSpace,
        LineSort::DoubleSpace,
        LineSort::Tab,
        LineSort::Sign,
        LineSort::CarriageReturn,
        LineSort::Above64Bits,
        LineSort::TooLong,
        LineSort::TooFewOperands,
        LineSort::TooManyOperands,
        LineSort::NotANumber,
        LineSort::StrangeByte,
    ];
    const GOOD: usize = 3;

    pub fn is_good(self) -> bool {
        Self::ALL[..Self::GOOD].contains(&self)
    }
}

/// The sorts of first lines.
#[derive(Clone, Copy, Debug, PartialEq, Eq)]
pub enum Opening {
    Good,
    NoInput,
    BadFirstLine,
    WrongCountInFirst,
    RefusedSizes,
    NoSecondLine,
    BadSecondLine,
    WrongCountInSecond,
    RefusedSets,
}

impl Opening {
    pub const ALL: [Opening; 9] = [
        Opening::Good,
        Opening::NoInput,
        Opening::BadFirstLine,
        Opening::WrongCountInFirst,
        Opening::RefusedSizes,
        Opening::NoSecondLine,
        Opening::BadSecondLine,
        Opening::WrongCountInSecond,
        Opening::RefusedSets,
    ];
}

/// One event line: its bytes, and the event that a good one stands for.
#[derive(Clone, Debug, PartialEq, Eq)]
pub struct EventLine {
    pub sort: LineSort,
    pub bytes: Vec<u8>,
    pub event: Option<Numbers>,
}

#[derive(Clone, Debug, PartialEq, Eq)]
pub struct Sequence {
    pub opening: Opening,
    /// The first lines, each without its newline.
    pub first_lines: Vec<Vec<u8>>,
    /// The fresh store, if the first lines are good.
    pub fresh: Option<Table>,
    pub lines: Vec<EventLine>,
    /// "the last line may lack its newline"
    pub last_newline: bool,
}

impl Sequence {
    /// The driver's input.
    pub fn text(&self) -> Vec<u8> {
        let first = self.first_lines.iter();
        let lines: Vec<&[u8]> = first
            .chain(self.lines.iter().map(|line| &line.bytes))
            .map(Vec::as_slice)
            .collect();
        let mut text = lines.join(&b'\n');
        if self.last_newline && !lines.is_empty() {
            text.push(b'\n');
        }
        text
    }
}

/// The sequence of a seed, with so many event lines.
pub fn generate(seed: u64, events: usize) -> Sequence {
    generate_with(seed, events, &mut step)
}

/// The same, guided by a store that steps in another way.
pub fn generate_with(
    seed: u64,
    events: usize,
    step: &mut dyn FnMut(&mut Table, u64, [u64; OPERANDS]) -> Answer,
) -> Sequence {
    let random = &mut Random::new(seed);
    let creation = Creation::random(random);
    let fresh = creation.table();
    let opening = match random.in_thousand(60) {
        true => random.pick(&Opening::ALL[1..]),
        false => Opening::Good,
    };
    let first_lines = first_lines(random, &creation, opening);
    let mut lines = Vec::new();
    let ends_early = matches!(opening, Opening::NoInput | Opening::NoSecondLine);
    if !ends_early {
        let events = if opening == Opening::Good {
            events
        } else {
            events.min(5)
        };
        lines = event_lines(random, fresh.clone(), events, step);
    }
    Sequence {
        opening,
        first_lines,
        fresh: Some(fresh).filter(|_| opening == Opening::Good),
        last_newline: random.in_thousand(800) || lines.last().is_some_and(|l| l.bytes.is_empty()),
        lines,
    }
}

fn event_lines(
    random: &mut Random,
    mut table: Table,
    events: usize,
    step: &mut dyn FnMut(&mut Table, u64, [u64; OPERANDS]) -> Answer,
) -> Vec<EventLine> {
    let profile = random.pick(&Profile::ALL);
    let odd_lines = if profile == Profile::Wild { 80 } else { 8 };
    let mut guide = Guide::new(random, profile, &table);
    let mut prepared = preparation(random, &table).into_iter();
    let mut lines = Vec::new();
    for _ in 0..events {
        let next = prepared.next();
        let event = next.unwrap_or_else(|| guide.event(random, &table));
        let sort = match random.in_thousand(odd_lines) {
            true => random.pick(&LineSort::ALL),
            false => LineSort::Plain,
        };
        let line = event_line(random, sort, event);
        if let Some((kind, operands)) = line.event {
            step(&mut table, kind, operands);
        }
        lines.push(line);
    }
    lines
}

/// Leases for the chunks and maps for the hosts, so that a sequence soon gets going.
fn preparation(random: &mut Random, table: &Table) -> Vec<Numbers> {
    let mut events = Vec::new();
    if random.in_thousand(150) {
        events.push((15, [0; OPERANDS]));
    }
    for chunk in 0..table.chunk_count {
        if random.in_thousand(900) {
            events.push((14, [chunk as u64, 0, 0]));
        }
    }
    for host in 0..table.host_count {
        if random.in_thousand(900) {
            events.push((8, [host as u64, 0, 0]));
        }
    }
    events
}

/// The numbers of a creation that is granted.
pub struct Creation {
    hosts: u64,
    chunks: u64,
    blocks: u64,
    age_limit: u64,
    sets: Vec<u64>,
}

impl Creation {
    pub fn random(random: &mut Random) -> Creation {
        let largest = [HOSTS as u64, CHUNKS as u64, BLOCKS as u64];
        let [hosts, chunks, blocks] = match random.below(8) {
            0 => [1, 1, 1],
            1 => largest,
            2 | 3 => [
                2 + random.below(2),
                2 + random.below(2),
                1 + random.below(2),
            ],
            4 | 5 => [
                8 - random.below(3),
                2 + random.below(3),
                1 + random.below(3),
            ],
            _ => largest.map(|limit| 1 + random.below(limit)),
        };
        let any_age = random.below(LARGEST + 1);
        let age_limit = random.pick(&[0, 1, 5, 100, 1000, LARGEST - 1, LARGEST, any_age]);
        let all = (1 << chunks) - 1;
        let sort = random.below(5);
        let one_for_all = 1 + random.below(all);
        let mut sets = Vec::new();
        for block in 0..blocks {
            sets.push(match sort {
                0 | 1 => all,
                2 => one_for_all,
                // Neighbours: two chunks that overlap with the next block's.
                3 => 1 << (block % chunks) | 1 << ((block + 1) % chunks),
                _ => 1 + random.below(all),
            });
        }
        Creation {
            hosts,
            chunks,
            blocks,
            age_limit,
            sets,
        }
    }

    pub fn table(&self) -> Table {
        let Creation {
            hosts,
            chunks,
            blocks,
            age_limit,
            ref sets,
        } = *self;
        Table::create(hosts, chunks, blocks, age_limit, sets).expect("its numbers are in range")
    }
}

fn spaced(numbers: &[u64]) -> Vec<u8> {
    let words: Vec<String> = numbers.iter().map(u64::to_string).collect();
    words.join(" ").into_bytes()
}

fn first_lines(random: &mut Random, creation: &Creation, opening: Opening) -> Vec<Vec<u8>> {
    let mut sizes = vec![
        creation.hosts,
        creation.chunks,
        creation.blocks,
        creation.age_limit,
    ];
    let mut sets = creation.sets.clone();
    let too_large = [9, 9, 17, LARGEST + 1];
    match opening {
        Opening::NoInput => return Vec::new(),
        Opening::NoSecondLine => return vec![spaced(&sizes)],
        Opening::WrongCountInFirst if random.in_thousand(500) => sizes.push(0),
        Opening::WrongCountInFirst => drop(sizes.pop()),
        Opening::RefusedSizes => {
            let which = random.index(4);
            let too_small = random.in_thousand(500) && which < 3;
            sizes[which] = if too_small { 0 } else { too_large[which] };
        }
        Opening::WrongCountInSecond if random.in_thousand(500) => sets.push(1),
        Opening::WrongCountInSecond => drop(sets.pop()),
        Opening::RefusedSets => {
            let which = random.index(sets.len());
            sets[which] = random.pick(&[0, 1 << creation.chunks, u64::MAX]);
        }
        Opening::Good | Opening::BadFirstLine | Opening::BadSecondLine => {}
    }
    let mut lines = vec![spaced(&sizes), spaced(&sets)];
    let sort = random.pick(&LineSort::ALL[LineSort::GOOD..]);
    match opening {
        Opening::BadFirstLine => lines[0] = spoil(random, sort, &lines[0]),
        Opening::BadSecondLine => lines[1] = spoil(random, sort, &lines[1]),
        _ => {}
    }
    lines
}

fn event_line(random: &mut Random, sort: LineSort, event: Numbers) -> EventLine {
    // A kind without operands can't lack one and has no space to double.
    let (kind, operands) = match event {
        (15, _) if !sort.is_good() => (8, [0; OPERANDS]),
        event => event,
    };
    let used = operand_count(kind).unwrap_or(OPERANDS);
    let mut numbers = vec![kind];
    numbers.extend(&operands[..used]);
    let bytes = spaced(&numbers);
    EventLine {
        sort,
        bytes: match sort.is_good() {
            true => lengthen(random, sort, bytes),
            false => spoil(random, sort, &bytes),
        },
        event: sort.is_good().then_some((kind, operands)),
    }
}

/// The same numbers with zeros in front, where the sort asks for them.
fn lengthen(random: &mut Random, sort: LineSort, bytes: Vec<u8>) -> Vec<u8> {
    let zeros = match sort {
        LineSort::LeadingZeros => 1 + random.index(30),
        LineSort::Exactly120Bytes => LINE_BYTES - bytes.len(),
        _ => 0,
    };
    [vec![b'0'; zeros], bytes].concat()
}

/// A good line made bad, in one way.
fn spoil(random: &mut Random, sort: LineSort, good: &[u8]) -> Vec<u8> {
    let space = good.iter().position(|&byte| byte == b' ');
    let space = space.unwrap_or(good.len());
    let (front, back) = good.split_at(space);
    let after_space = &back[back.len().min(1)..];
    let at = random.index(good.len());
    let with_inner = |inner: &[u8]| [front, inner, after_space].concat();
    match sort {
        LineSort::Plain | LineSort::LeadingZeros | LineSort::Exactly120Bytes => good.to_vec(),
        LineSort::Empty => Vec::new(),
        LineSort::LeadingSpace => [b" ", good].concat(),
        LineSort::TrailingSpace => [good, b" "].concat(),
        LineSort::DoubleSpace => with_inner(b"  "),
        LineSort::Tab => with_inner(b"\t"),
        LineSort::Sign => {
            let sign: &[u8] = random.pick(&[b"-", b"+"]);
            [sign, good].concat()
        }
        LineSort::CarriageReturn => [good, b"\r"].concat(),
        LineSort::Above64Bits => {
            let large: &[u8] = random.pick(&[
                b" 18446744073709551616",
                b" 18446744073709551999",
                b" 340282366920938463463374607431768211456",
            ]);
            [front, large].concat()
        }
        LineSort::TooLong => {
            let zeros = LINE_BYTES + 1 - good.len();
            let more = random.pick(&[0, 0, 1, 7, 5000]);
            [&vec![b'0'; zeros + more], good].concat()
        }
        LineSort::TooFewOperands => {
            let last = good.iter().rposition(|&byte| byte == b' ').unwrap_or(0);
            good[..last].to_vec()
        }
        LineSort::TooManyOperands => [good, b" 0"].concat(),
        LineSort::NotANumber => {
            let letters: &[u8] = random.pick(&[b"x", b"0x1", b"1.0", b"1e3", b"#", b"1,"]);
            [&good[..at], letters, &good[at..]].concat()
        }
        LineSort::StrangeByte => {
            let byte = random.pick(&[0u8, 1, 11, 12, 127, 128, 0xA0, 0xC3, 0xFF]);
            [&good[..at], &[byte], &good[at..]].concat()
        }
    }
}
