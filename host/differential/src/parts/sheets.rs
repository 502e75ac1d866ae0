//! Sheets: as the judge writes them, cut short at every byte, of other lengths, and any twelve bytes.

use crate::comparison::{hex, Comparison, Difference};
use crate::lists::list;
use crate::random::Random;
use second::{sheet, Answer};

pub fn compare(comparison: &mut Comparison<'_>) -> Result<(), Difference> {
    for _ in 0..comparison.times {
        for _ in 0..150 {
            let written = judged(comparison)?;
            let answer = comparison.read_sheet(&written)?;
            cuts(comparison, &written, answer)?;
        }
        for _ in 0..2_000 {
            let bytes = nearly_a_sheet(&mut comparison.random);
            comparison.read_sheet(&bytes)?;
        }
    }
    Ok(())
}

/// The sheet that the judge writes for a random file: byte for byte the second program's.
fn judged(comparison: &mut Comparison<'_>) -> Result<Vec<u8>, Difference> {
    let events = comparison.random.index(12);
    let mut file = list(&mut comparison.random, events, 40).write();
    if comparison.random.one_in(10) {
        file.pop();
    }
    let mut wanted = vec![0; programs::SHEET_LENGTH];
    sheet::write(second::judge(&file), &mut wanted);
    match comparison.subject.judge_to_sheet(&file) {
        Ok(given) if given == wanted => Ok(wanted),
        other => Err(Difference {
            shows: "the sheet that the judge writes".to_string(),
            files: vec![("file", file)],
            proved: other.map_or_else(|silence| silence, |sheet| hex(&sheet)),
            expected: hex(&wanted),
        }),
    }
}

/// A sheet cut short at any byte, the rest zero or missing, reads as no verdict or as the whole answer.
fn cuts(comparison: &mut Comparison<'_>, whole: &[u8], answer: Answer) -> Result<(), Difference> {
    for cut in 0..whole.len() {
        let mut zeroed = whole.to_vec();
        zeroed[cut..].fill(0);
        let read = comparison.read_sheet(&zeroed)?;
        if read != answer && read != Answer::NO_VERDICT {
            return Err(Difference {
                shows: format!("a sheet cut after {cut} bytes"),
                files: vec![("sheet", whole.to_vec())],
                proved: read.to_string(),
                expected: format!("{answer}, or no verdict"),
            });
        }
        comparison.read_sheet(&whole[..cut])?;
    }
    Ok(())
}

/// Twelve bytes that are often a sheet, or miss it narrowly; sometimes another number of them.
fn nearly_a_sheet(random: &mut Random) -> Vec<u8> {
    if random.one_in(8) {
        let length = random.pick(&[0, 1, 11, 12, 12, 13, 24]);
        return random.bytes(length);
    }
    let bounds = [0, 0, 0, 1, 2, 1_023, 1_024, 1_025, 65_535];
    let mut bytes = vec![4, 0, 8, 0];
    for _ in 0..3 {
        bytes.extend((random.pick(&bounds) as u16).to_le_bytes());
    }
    bytes.extend((random.below(15) as u16).to_le_bytes());
    if random.one_in(6) {
        let at = random.index(bytes.len());
        bytes[at] = random.byte();
    }
    bytes
}
