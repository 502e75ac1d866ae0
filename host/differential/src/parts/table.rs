//! Document 01's traces: the answers in the table were worked out by hand, so both programs are held to them.

use crate::comparison::{Comparison, Difference};
use crate::subject::{Left, Lent};
use second::Answer;
use std::collections::BTreeMap;

pub fn compare(comparison: &mut Comparison<'_>) -> Result<(), Difference> {
    let rows = traces::rows();
    for row in &rows {
        let second = second::judge(&row.file);
        if second != row.answer {
            return Err(wrong_table(&row.name, &row.file, second, row.answer));
        }
    }
    let files: BTreeMap<String, Vec<u8>> =
        rows.into_iter().map(|row| (row.name, row.file)).collect();
    let all: Vec<Vec<u8>> = files.values().cloned().collect();
    comparison.judge(&all)?;
    runs(comparison, &files)
}

fn runs(
    comparison: &mut Comparison<'_>,
    files: &BTreeMap<String, Vec<u8>>,
) -> Result<(), Difference> {
    for row in traces::runs() {
        let lent = Lent {
            file: files.get(&row.trace).cloned().unwrap_or_default(),
            loads: row.loads,
            global: row.global,
            shared: row.shared,
        };
        let left = row.after.map(|after| Left {
            loads: after.loads,
            global: after.global,
            shared: after.shared,
        });
        for ran in comparison.run(std::slice::from_ref(&lent))? {
            let answer = second::sheet::read(&ran.sheet);
            if (answer, &ran.left) != (row.answer, &left) {
                return Err(wrong_table(row.shows, &lent.file, answer, row.answer));
            }
        }
    }
    Ok(())
}

fn wrong_table(name: &str, file: &[u8], found: Answer, table: Answer) -> Difference {
    Difference {
        shows: format!("{name}: the table says something else than the second program"),
        files: vec![("file", file.to_vec())],
        proved: format!("not asked; the second program: {found}"),
        expected: table.to_string(),
    }
}
