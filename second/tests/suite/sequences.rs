//! Generated sequences: repeatable, covering, and as one copy.

use crate::{answer, refused};
use second::compare::own_output;
use second::count::Tally;
use second::event::step;
use second::generate::{generate, Opening, EVENTS};
use second::guide::{Guide, Profile};
use second::one_copy;
use second::random::Random;
use second::scatter::{scatter, spoil};
use second::well_formed::well_formed;

#[test]
fn the_same_seed_gives_the_same_text() {
    let texts: Vec<Vec<u8>> = (0..20).map(|seed| generate(seed, 100).text()).collect();
    for (seed, text) in texts.iter().enumerate() {
        assert_eq!(generate(seed as u64, 100).text(), *text);
    }
    assert_ne!(texts[0], texts[1]);
    // A shorter sequence of the same seed is the beginning of a longer one.
    let (short, long) = (generate(7, 50), generate(7, 100));
    assert_eq!(short.opening, Opening::Good);
    assert_eq!(short.lines, long.lines[..50]);
}

/// The driver answers each line as the step answers its event.
#[test]
fn driver_and_step_agree() {
    for seed in 0..200 {
        let sequence = generate(seed, 200);
        let mut expected = String::new();
        match &sequence.fresh {
            None => expected.push_str("1 0 0 0 0\n"),
            Some(fresh) => {
                let mut table = fresh.clone();
                for line in &sequence.lines {
                    let found = match line.event {
                        Some((kind, operands)) => step(&mut table, kind, operands),
                        None => answer(1),
                    };
                    let (code, outcome) = (found.code, found.outcome);
                    let (host, block, value) = (found.host, found.block, found.value);
                    expected += &format!("{code} {outcome} {host} {block} {value}\n");
                }
            }
        }
        let output = String::from_utf8(own_output(&sequence.text())).unwrap();
        assert_eq!(output, expected, "seed {seed}");
    }
}

#[test]
fn every_situation_comes_up() {
    let complaints = Tally::of(1, 2000, EVENTS).complaints();
    assert!(complaints.is_empty(), "{}", complaints.join("\n"));
}

#[test]
fn mirrors_answer_as_one_copy() {
    let sizes = one_copy::check(1_000_000, 3000, EVENTS).unwrap();
    // The check must have had something to look at.
    assert!(sizes.reads > 3000 && sizes.writes > 3000, "{sizes:?}");
    assert!(sizes.listed > sizes.writes, "{sizes:?}");
    assert!(sizes.writes_listed_earlier > 0, "{sizes:?}");
    assert!(sizes.reads_overtaken > 300, "{sizes:?}");
}

/// From fresh stores: a refusal leaves the table, and every table is well formed.
#[test]
fn refusals_leave_the_table() {
    for seed in 0..150 {
        let sequence = generate(seed, EVENTS);
        let Some(mut table) = sequence.fresh else {
            continue;
        };
        for (kind, operands) in sequence.lines.iter().filter_map(|line| line.event) {
            let before = table.clone();
            let found = step(&mut table, kind, operands);
            assert!(found.code <= 6);
            if found.code != 0 {
                refused(&before, kind, operands, found.code);
            }
            assert!(
                well_formed(&table),
                "seed {seed}, event {kind} {operands:?}"
            );
        }
    }
}

/// The same on tables handed in, and code 8 on those that are not well formed.
#[test]
fn tables_handed_in() {
    for seed in 0..2000 {
        let random = &mut Random::new(seed);
        let mut table = scatter(random);
        assert!(well_formed(&table), "seed {seed}");
        let mut guide = Guide::new(random, Profile::Wild, &table);
        for _ in 0..30 {
            let (kind, mut operands) = guide.event(random, &table);
            if random.in_thousand(50) {
                operands[random.index(3)] = random.number();
            }
            let before = table.clone();
            let found = step(&mut table, kind, operands);
            assert!(found.code <= 7);
            if found.code != 0 {
                refused(&before, kind, operands, found.code);
            }
            assert!(
                well_formed(&table),
                "seed {seed}, event {kind} {operands:?}"
            );
        }
        spoil(random, &mut table);
        let any = [random.number(), random.number(), random.number()];
        refused(&table, random.below(20), any, 8);
    }
}
