//! The simple judge is right, so that it is a fair opponent: it agrees with the table of traces, and with the second judge
//! and the proved library on files that are drawn by lot.

mod generated;

use benchmarks::cases::CASES;
use benchmarks::simple;
use generated::{damaged, list, Random};
use wrapper::Numbers;

const FILES: u64 = 30_000;

/// The simple judge's numbers, once the second judge and the proved library have given the same.
fn agreed(file: &[u8]) -> Numbers {
    let simple = simple::judge(file).numbers();
    let second = second::judge(file).to_string();
    let proved = wrapper::judge(file).numbers();
    assert_eq!(simple.to_string(), second, "the second judge on {file:?}");
    assert_eq!(simple, proved, "the proved library on {file:?}");
    simple
}

#[test]
fn on_the_table_of_traces() {
    let rows = traces::rows();
    assert!(rows.len() > 500, "{} rows", rows.len());
    for row in rows {
        let numbers = simple::judge(&row.file).numbers();
        assert_eq!(numbers.to_string(), row.answer.to_string(), "{}", row.name);
    }
}

#[test]
fn on_lists_that_are_drawn_by_lot() {
    let mut random = Random::new(1);
    let mut met = [0; 11];
    let mut highest_peak = 0;
    for _ in 0..FILES {
        let numbers = agreed(&list(&mut random));
        met[usize::from(numbers.code)] += 1;
        highest_peak = highest_peak.max(numbers.peak);
    }
    for code in [1, 7, 8, 9, 10] {
        assert!(met[code] > 500, "code {code} is met {} times", met[code]);
    }
    assert!(highest_peak > 10, "{highest_peak} operations open at most");
}

#[test]
fn on_damaged_files() {
    let mut random = Random::new(2);
    let mut met = [0; 11];
    for _ in 0..FILES {
        let file = list(&mut random);
        let numbers = agreed(&damaged(&mut random, file));
        met[usize::from(numbers.code)] += 1;
    }
    for (code, times) in met.iter().enumerate().skip(1) {
        assert!(*times > 100, "code {code} is met {times} times");
    }
}

#[test]
fn on_every_beginning_of_a_file() {
    let mut random = Random::new(3);
    for _ in 0..20 {
        let file = list(&mut random);
        for length in 0..=file.len() {
            agreed(&file[..length]);
        }
    }
}

#[test]
fn on_the_files_that_are_measured() {
    for case in &CASES {
        for events in (4..100).chain([128, 256, 512, 1_023, 1_024]) {
            let numbers = agreed(&(case.file)(events));
            let expected = (case.answer)(events).numbers();
            assert_eq!(numbers, expected, "{}, {events} events", case.name);
        }
    }
}
