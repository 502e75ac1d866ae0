//! The verdict sheet: twelve bytes, table first, the code last.

use crate::answer::{code, Answer};

const LENGTH: usize = 12;

/// Body at 4, 8 long.
const TABLE: [u8; 4] = [4, 0, 8, 0];

/// The most events an answer can tell of.
const MOST_EVENTS: u16 = 1_024;

/// Writes the sheet of an answer and answers 1 with all numbers 0; bytes past
/// the twelve stay. Answers 12 and writes nothing where fewer than twelve bytes
/// are lent, or the reader wouldn't give the answer.
pub fn write(answer: Answer, sheet: &mut [u8]) -> Answer {
    match sheet.get_mut(..LENGTH) {
        Some(twelve) if is_given(&answer) => {
            twelve.copy_from_slice(&bytes(&answer));
            Answer::bare(code::ACCEPTED)
        }
        _ => Answer::bare(code::SHEET),
    }
}

/// The answer on a sheet, or no verdict unless the input is exactly twelve
/// bytes, the table is as it should be and the answer is one that is given.
pub fn read(sheet: &[u8]) -> Answer {
    match *sheet {
        [t0, t1, t2, t3, e0, e1, p0, p1, k0, k1, c0, c1] if [t0, t1, t2, t3] == TABLE => {
            let answer = Answer {
                code: u16::from_le_bytes([c0, c1]),
                event: u16::from_le_bytes([e0, e1]),
                partner: u16::from_le_bytes([p0, p1]),
                peak: u16::from_le_bytes([k0, k1]),
            };
            if is_given(&answer) {
                answer
            } else {
                Answer::NO_VERDICT
            }
        }
        _ => Answer::NO_VERDICT,
    }
}

/// The table, then event, partner, peak, code.
fn bytes(answer: &Answer) -> [u8; LENGTH] {
    let [t0, t1, t2, t3] = TABLE;
    let [e0, e1] = answer.event.to_le_bytes();
    let [p0, p1] = answer.partner.to_le_bytes();
    let [k0, k1] = answer.peak.to_le_bytes();
    let [c0, c1] = answer.code.to_le_bytes();
    [t0, t1, t2, t3, e0, e1, p0, p1, k0, k1, c0, c1]
}

/// Whether the reader gives this answer: the code is 1 to 11 and the numbers
/// fit, unnamed ones being zero.
fn is_given(answer: &Answer) -> bool {
    let Answer {
        code,
        event,
        partner,
        peak,
    } = *answer;
    match code {
        1 => event <= MOST_EVENTS && partner == 0 && peak <= event,
        2..=4 => event == 0 && partner == 0 && peak == 0,
        5..=9 => event < MOST_EVENTS && partner == 0 && peak == 0,
        10 => event < MOST_EVENTS && partner < event && peak == 0,
        11 => event <= MOST_EVENTS && partner == 0 && peak == 0,
        _ => false,
    }
}
