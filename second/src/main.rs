//! The second program's commands.

use second::compare::{compare, Agreement, Difference};
use second::count::Tally;
use second::driver::drive;
use second::generate::{generate, EVENTS};
use second::one_copy;
use std::io::{self, BufReader, BufWriter, Write};
use std::process::ExitCode;

const USAGE: &str = "\
second                                            the driver: standard input to standard output
second generate SEED [EVENTS]                     one sequence's input text
second count FIRST_SEED SEQUENCES [EVENTS]        how often each situation came up
second one-copy FIRST_SEED SEQUENCES [EVENTS]     demand 3 over so many sequences
second compare PROGRAM.. -- FIRST_SEED SEQUENCES [EVENTS]
                                                  another driver's output against this one's";

fn main() -> ExitCode {
    let arguments: Vec<String> = std::env::args().skip(1).collect();
    let words: Vec<&str> = arguments.iter().map(String::as_str).collect();
    let ended = match words.as_slice() {
        [] => run_driver(),
        ["generate", rest @ ..] => run_generate(rest),
        ["count", rest @ ..] => run_count(rest),
        ["one-copy", rest @ ..] => run_one_copy(rest),
        ["compare", ..] => run_compare(&arguments[1..]),
        _ => Err(USAGE.to_string()),
    };
    match ended {
        Ok(()) => ExitCode::SUCCESS,
        Err(message) => {
            eprintln!("{message}");
            ExitCode::FAILURE
        }
    }
}

fn in_words(error: io::Error) -> String {
    error.to_string()
}

fn run_driver() -> Result<(), String> {
    let mut output = BufWriter::new(io::stdout().lock());
    drive(BufReader::new(io::stdin().lock()), &mut output)
        .and_then(|()| output.flush())
        .map_err(in_words)
}

fn run_generate(words: &[&str]) -> Result<(), String> {
    let (seed, events) = match words {
        [seed] => (number(seed)?, EVENTS),
        [seed, events] => (number(seed)?, number(events)? as usize),
        _ => return Err(USAGE.to_string()),
    };
    let text = generate(seed, events).text();
    io::stdout().write_all(&text).map_err(in_words)
}

fn run_count(words: &[&str]) -> Result<(), String> {
    let (first_seed, sequences, events) = range(words)?;
    let tally = Tally::of(first_seed, sequences, events);
    print!("{tally}");
    let complaints = tally.complaints();
    match complaints.is_empty() {
        true => Ok(()),
        false => Err(complaints.join("\n")),
    }
}

fn run_one_copy(words: &[&str]) -> Result<(), String> {
    let (first_seed, sequences, events) = range(words)?;
    let sizes = one_copy::check(first_seed, sequences, events)?;
    println!("{sequences} sequences as one copy");
    println!("{:8} attempts begun", sizes.attempts);
    println!("{:8} writes listed", sizes.listed);
    println!("{:8} writes done", sizes.writes);
    println!(
        "{:8} of them listed under an earlier attempt too",
        sizes.writes_listed_earlier
    );
    println!("{:8} reads done with a value other than 0", sizes.reads);
    println!("{:8} of them below a listed write", sizes.reads_overtaken);
    Ok(())
}

fn run_compare(arguments: &[String]) -> Result<(), String> {
    let split = arguments.iter().rposition(|word| word == "--");
    let (command, rest) = arguments.split_at(split.ok_or(USAGE)?);
    let words: Vec<&str> = rest[1..].iter().map(String::as_str).collect();
    let (first_seed, sequences, events) = range(&words)?;
    match compare(command, first_seed, sequences, events).map_err(in_words)? {
        Ok(agreement) => {
            println!("{}", agreement_in_words(&agreement));
            Ok(())
        }
        Err(difference) => {
            print_difference(&difference).map_err(in_words)?;
            Err(format!("seed {} differs", difference.seed))
        }
    }
}

fn agreement_in_words(agreement: &Agreement) -> String {
    format!(
        "the same throughout: {} sequences, {} event lines, {} output lines; \
         ended with another status than 0: {}",
        agreement.sequences, agreement.events, agreement.lines, agreement.other_status
    )
}

fn print_difference(difference: &Difference) -> io::Result<()> {
    let mut output = io::stdout().lock();
    writeln!(output, "seed {}; the shortest input:", difference.seed)?;
    output.write_all(&difference.input)?;
    writeln!(output, "\nexpected:")?;
    output.write_all(&difference.expected)?;
    writeln!(output, "found:")?;
    output.write_all(&difference.found)
}

/// FIRST_SEED SEQUENCES [EVENTS]
fn range(words: &[&str]) -> Result<(u64, u64, usize), String> {
    match words {
        [first, sequences] => Ok((number(first)?, number(sequences)?, EVENTS)),
        [first, sequences, events] => {
            Ok((number(first)?, number(sequences)?, number(events)? as usize))
        }
        _ => Err(USAGE.to_string()),
    }
}

fn number(word: &str) -> Result<u64, String> {
    word.parse().map_err(|_| format!("not a number: {word}"))
}
