//! `benchmarks`: what judging costs, the proved library beside the simple judge. Ends with status 0 only if every answer was
//! as it has to be.

#![forbid(unsafe_code)]

mod arguments;

use arguments::Request;
use benchmarks::cases::{Case, CASES};
use benchmarks::judges::Judge;
use benchmarks::measure::{time, Measurement};
use benchmarks::report;
use std::process::ExitCode;

/// The numbers of events that are measured, the last of which the costs are told of.
const EVENTS: [u16; 4] = [128, 256, 512, 1_024];

fn main() -> ExitCode {
    match arguments::parse(std::env::args().skip(1)).and_then(done) {
        Ok(text) => {
            println!("{text}");
            ExitCode::SUCCESS
        }
        Err(trouble) => {
            eprintln!("{trouble}");
            ExitCode::FAILURE
        }
    }
}

fn done(request: Request) -> Result<String, String> {
    match request {
        Request::Help => Ok(arguments::HELP.to_string()),
        Request::Measure { rounds } => measure(rounds),
        Request::Call { case, judge, times } => call(&case, &judge, times),
    }
}

fn measure(rounds: u64) -> Result<String, String> {
    let mut cases: Vec<Vec<Measurement>> =
        CASES.iter().map(all_lengths).collect::<Result<_, _>>()?;
    for round in 0..rounds {
        for measurement in cases.iter_mut().flatten() {
            measurement.take_round(round)?;
        }
    }
    let longest = cases.iter().filter_map(|case| case.last());
    let growth: String = cases.iter().map(|case| report::growth(case)).collect();
    Ok(format!(
        "Nanoseconds, the smallest of {rounds} rounds, at 1,024 events:\n\n{}\n\
         Growth, the cost at 128 events being 1 (at 1,024 events 8 is linear, 64 quadratic):\n\n{growth}",
        report::costs(longest)
    ))
}

fn all_lengths(case: &Case) -> Result<Vec<Measurement>, String> {
    let prepared = |events| Measurement::prepared(case, events);
    EVENTS.into_iter().map(prepared).collect()
}

fn call(case: &Case, judge: &Judge, times: u64) -> Result<String, String> {
    let events = EVENTS[EVENTS.len() - 1];
    let (file, expected) = ((case.file)(events), (case.answer)(events));
    let time = time(judge, &file, expected, times)?;
    Ok(format!("{times} calls took {time:?}"))
}
