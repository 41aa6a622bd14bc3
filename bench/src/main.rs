//! The proved engine, where the table lies and by value, and the second program on the same events, in one run: nanoseconds an
//! event and the ratios. Ends with an error where their answers differ.

use bench::cases::{self, Case, Session};
use bench::copying::copy_time;
use bench::drivers;
use bench::sides::{
    kerzubian_replay, kerzubian_replay_in, table_bytes, timed, Replay, Times, SIDES,
};
use bench::stack::{depth_of, Depth};
use std::process::ExitCode;

/// Each side is timed so often, in turn; the least time counts, which others disturbed the least.
const ROUNDS: usize = 7;

fn main() -> ExitCode {
    match figures() {
        Ok(()) => ExitCode::SUCCESS,
        Err(message) => {
            eprintln!("{message}");
            ExitCode::FAILURE
        }
    }
}

fn figures() -> Result<(), String> {
    let cases = cases::all();
    println!("load at the start: {}", load());
    let copy = copy_time(table_bytes());
    sizes(copy);
    stacks(&cases)?;
    println!("\none event, nanoseconds: step_in where the table lies, step by value, the second program in place;");
    println!("their ratios to the second program; by value less in place, in copies of the table;");
    println!("operations, messages, waiting entries: what the store holds on average");
    println!(
        "{:<32} {:>7} {:>10} {:>8} {:>7}  {:>8} {:>8} {:>8}  {:>8} {:>8}  {:>6}",
        "case",
        "events",
        "operations",
        "messages",
        "waiting",
        "in place",
        "by value",
        "second",
        "in place",
        "by value",
        "copies"
    );
    for case in &cases {
        step_line(case, copy)?;
    }
    println!("\ndriver, standard input to standard output, a line; what its start and the first lines take is taken off");
    println!(
        "{:<32} {:>7}  {:>9} {:>9} {:>6}",
        "case", "lines", "proved ns", "second ns", "ratio"
    );
    for case in &cases {
        // A driver has one session.
        if let [session] = &case.sessions[..] {
            driver_line(case, session)?;
        }
    }
    println!("\nload at the end: {}", load());
    Ok(())
}

fn load() -> String {
    std::fs::read_to_string("/proc/loadavg").map_or("unknown".into(), |l| l.trim().to_string())
}

fn sizes(copy: f64) {
    println!(
        "table: {} bytes, a copy of it takes {copy:.0} ns (second: {} bytes)",
        table_bytes(),
        std::mem::size_of::<second::table::Table>()
    );
}

/// The last call of either replay is that of `step_in`: `step` is compiled into the one by value, its own table with it.
fn stacks(cases: &[Case]) -> Result<(), String> {
    let [lies, value] = [kerzubian_replay_in as Replay, kerzubian_replay].map(|replay| {
        let mut sessions = cases.iter().flat_map(|case| &case.sessions);
        sessions.try_fold(Depth::default(), |deepest, session| {
            Ok::<Depth, String>(deepest.deeper(depth_of(replay, session)?))
        })
    });
    let (lies, value) = (lies?, value?);
    println!(
        "stack: step_in takes {} bytes, a whole replay where the table lies {} bytes, by value {} bytes",
        lies.step, lies.replay, value.replay
    );
    Ok(())
}

fn step_line(case: &Case, copy: f64) -> Result<(), String> {
    let mut times = Times::<SIDES>::default();
    for _ in 0..ROUNDS {
        times.add(timed(case)?);
    }
    let [operations, messages, waiting] = case.held();
    let [lies, value, second] = times.a_unit(case.events());
    println!(
        "{:<32} {:>7} {operations:>10.1} {messages:>8.1} {waiting:>7.1}  {lies:>8.0} {value:>8.0} {second:>8.0}  {:>8.2} {:>8.2}  {:>6.1}",
        case.name,
        case.events(),
        lies / second,
        value / second,
        (value - lies) / copy
    );
    Ok(())
}

fn driver_line(case: &Case, session: &Session) -> Result<(), String> {
    let mut times = Times::<2>::default();
    for _ in 0..ROUNDS {
        times.add(drivers::timed(session)?);
    }
    let [proved, second] = times.a_unit(session.events());
    println!(
        "{:<32} {:>7}  {proved:>9.0} {second:>9.0} {:>6.1}",
        case.name,
        session.events(),
        proved / second
    );
    Ok(())
}
