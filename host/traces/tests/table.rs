//! The table is well made: names, numbers that fit, and the document's bytes.
//! Nothing here judges a file.

use std::collections::BTreeSet;
use traces::{rows, runs, Row};

/// The first two bytes of a file: its number of events.
fn count(row: &Row) -> Option<u16> {
    let low = row.file.first()?;
    let high = row.file.get(1)?;
    Some(u16::from_le_bytes([*low, *high]))
}

#[test]
fn names_are_unique_and_safe() {
    let mut seen = BTreeSet::new();
    for row in rows() {
        let stem = row.name.strip_suffix(".trace").unwrap_or("");
        let safe = |byte: u8| byte.is_ascii_lowercase() || byte.is_ascii_digit() || byte == b'_';
        assert!(!stem.is_empty() && stem.bytes().all(safe), "{}", row.name);
        assert!(row.name.len() <= 56, "{}", row.name);
        assert!(seen.insert(row.name.clone()), "{} twice", row.name);
    }
}

#[test]
fn no_file_is_in_the_table_twice() {
    let rows = rows();
    for (i, row) in rows.iter().enumerate() {
        for earlier in &rows[..i] {
            assert!(row.file != earlier.file, "{} is {}", row.name, earlier.name);
        }
    }
}

#[test]
fn the_numbers_of_each_answer_fit() {
    for row in rows() {
        let answer = row.answer;
        let count = count(&row).unwrap_or(0);
        let fits = match answer.code {
            1 => answer.event == count && answer.peak <= count && answer.partner == 0,
            2..=4 => (answer.event, answer.partner, answer.peak) == (0, 0, 0),
            5..=9 => answer.event < count && (answer.partner, answer.peak) == (0, 0),
            10 => answer.event < count && answer.partner < answer.event && answer.peak == 0,
            _ => false,
        };
        assert!(fits, "{} {answer}", row.name);
    }
}

#[test]
fn the_document_writes_its_file_in_full() {
    let written = "03 00 00 00 10 00 00 00 10 00 00 00 10 00 10 00 13 00 00 00 01 00 08 00 \
                   00 00 00 00 00 00 00 00 00 00 00 00 04 00 00 00 01 04 00 00 00 00 00 00";
    let bytes: Vec<u8> =
        written.split(' ').filter_map(|byte| u8::from_str_radix(byte, 16).ok()).collect();
    let row = rows().into_iter().find(|row| row.name == "k01_copy_wait_all_load.trace");
    assert_eq!(row.map(|row| row.file), Some(bytes));
}

#[test]
fn each_run_is_of_a_row_and_keeps_lengths() {
    let rows = rows();
    for run in runs() {
        assert!(rows.iter().any(|row| row.name == run.trace), "{}", run.trace);
        assert_eq!(run.after.is_some(), run.answer.code == 1, "{}", run.trace);
        if let Some(after) = &run.after {
            assert_eq!(after.loads.len(), run.loads.len(), "{}", run.trace);
            assert_eq!(after.global.len(), run.global.len(), "{}", run.trace);
            assert_eq!(after.shared.len(), run.shared.len(), "{}", run.trace);
        }
    }
}

#[test]
fn a_run_over_the_right_memories_answers_as_the_row() {
    let rows = rows();
    for run in runs() {
        let row = rows.iter().find(|row| row.name == run.trace);
        let same = row.map(|row| row.answer) == Some(run.answer);
        assert!(same || [4, 11].contains(&run.answer.code), "{}: {}", run.trace, run.shows);
    }
}
