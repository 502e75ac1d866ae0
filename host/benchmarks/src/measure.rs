//! The time that a call takes: the smallest over many rounds, in which the judges take turns, so that both meet the same
//! noise.

use crate::cases::Case;
use crate::judges::{Judge, PROVED, SIMPLE};
use std::sync::atomic::{AtomicUsize, Ordering};
use std::time::{Duration, Instant};
use wrapper::Answer;

/// A turn of a judge in a round takes at least this long, so that the clock's own steps don't count.
const TURN: Duration = Duration::from_millis(2);

/// Where a file begins. It is 0 and stays so, but the compiler has to read it before each call: so it can't take two calls
/// for the same one, nor leave any out.
pub static BEGINNING: AtomicUsize = AtomicUsize::new(0);

/// One judge on one file.
struct Measured {
    judge: Judge,
    calls: u64,
    smallest: f64,
}

/// Both judges on one file.
pub struct Measurement {
    pub case: &'static str,
    pub events: u16,
    file: Vec<u8>,
    expected: Answer,
    simple: Measured,
    proved: Measured,
}

impl Measurement {
    /// Checks the answers of both judges and finds out how many calls make a turn.
    pub fn prepared(case: &Case, events: u16) -> Result<Measurement, String> {
        let (file, expected) = ((case.file)(events), (case.answer)(events));
        for judge in [SIMPLE, PROVED] {
            let answer = (judge.judge)(&file);
            if answer != expected {
                let (case, judge) = (case.name, judge.name);
                return Err(format!(
                    "{case}, {events} events: the {judge} judge answers {answer}, not {expected}"
                ));
            }
        }
        Ok(Measurement {
            case: case.name,
            events,
            simple: Measured::prepared(SIMPLE, &file, expected)?,
            proved: Measured::prepared(PROVED, &file, expected)?,
            file,
            expected,
        })
    }

    /// A turn for each judge; who is first changes from round to round.
    pub fn take_round(&mut self, round: u64) -> Result<(), String> {
        let mut turns = [&mut self.simple, &mut self.proved];
        if round % 2 == 1 {
            turns.reverse();
        }
        for measured in turns {
            measured.take_turn(&self.file, self.expected)?;
        }
        Ok(())
    }

    /// Nanoseconds for this file, by the simple judge.
    pub fn simple(&self) -> f64 {
        self.simple.smallest
    }

    /// Nanoseconds for this file, by the proved judge.
    pub fn proved(&self) -> f64 {
        self.proved.smallest
    }
}

impl Measured {
    fn prepared(judge: Judge, file: &[u8], expected: Answer) -> Result<Measured, String> {
        let mut calls = 1;
        while time(&judge, file, expected, calls)? < TURN {
            calls *= 2;
        }
        Ok(Measured {
            judge,
            calls,
            smallest: f64::INFINITY,
        })
    }

    fn take_turn(&mut self, file: &[u8], expected: Answer) -> Result<(), String> {
        let time = time(&self.judge, file, expected, self.calls)?;
        let of_one_call = time.as_secs_f64() * 1e9 / self.calls as f64;
        self.smallest = self.smallest.min(of_one_call);
        Ok(())
    }
}

/// The time of so many calls of a judge on a file, all of which have to give this answer.
pub fn time(judge: &Judge, file: &[u8], expected: Answer, calls: u64) -> Result<Duration, String> {
    let start = Instant::now();
    let right = right_answers(judge, file, expected, calls);
    let time = start.elapsed();
    if right == calls {
        Ok(time)
    } else {
        let judge = judge.name;
        Err(format!(
            "an answer of the {judge} judge is other than {expected}"
        ))
    }
}

/// How many of so many calls give this answer: so every answer is needed.
fn right_answers(judge: &Judge, file: &[u8], expected: Answer, calls: u64) -> u64 {
    (0..calls).fold(0, |right, _| {
        let file = &file[BEGINNING.load(Ordering::Relaxed)..];
        right + u64::from((judge.judge)(file) == expected)
    })
}
