//! The verdict sheet: what is written, what is read, and its cuts.

use second::{sheet, Answer};

fn answer(code: u16, event: u16, partner: u16, peak: u16) -> Answer {
    Answer {
        code,
        event,
        partner,
        peak,
    }
}

/// Answers on both sides of each bound, and whether the reader gives them.
fn answers() -> Vec<(Answer, bool)> {
    let numbers = [0, 1, 2, 255, 256, 1_023, 1_024, 1_025, 65_535];
    let mut answers = Vec::new();
    for code in (0..=14).chain([255, 256, 257, 266, 65_535]) {
        for event in numbers {
            for partner in numbers {
                for peak in numbers {
                    let fits = fits(code, event, partner, peak);
                    answers.push((answer(code, event, partner, peak), fits));
                }
            }
        }
    }
    answers
}

fn fits(code: u16, event: u16, partner: u16, peak: u16) -> bool {
    let unnamed = match code {
        1 => partner == 0,
        2..=4 => (event, partner, peak) == (0, 0, 0),
        5..=9 | 11 => (partner, peak) == (0, 0),
        10 => peak == 0,
        _ => false,
    };
    let most_event = if matches!(code, 1 | 11) { 1_024 } else { 1_023 };
    let named = match code {
        1 => peak <= event,
        10 => partner < event,
        _ => true,
    };
    unnamed && named && event <= most_event
}

fn bytes(answer: Answer) -> [u8; 12] {
    let mut bytes = [4, 0, 8, 0, 0, 0, 0, 0, 0, 0, 0, 0];
    bytes[4..6].copy_from_slice(&answer.event.to_le_bytes());
    bytes[6..8].copy_from_slice(&answer.partner.to_le_bytes());
    bytes[8..10].copy_from_slice(&answer.peak.to_le_bytes());
    bytes[10..12].copy_from_slice(&answer.code.to_le_bytes());
    bytes
}

#[test]
fn the_writer_writes_what_the_reader_gives_and_nothing_else() {
    for (answer, given) in answers() {
        let mut sheet = [0xee; 15];
        let written = sheet::write(answer, &mut sheet);
        if given {
            assert_eq!(written, Answer::bare(1), "{answer}");
            assert_eq!(sheet[..12], bytes(answer));
            assert_eq!(sheet[12..], [0xee; 3]);
            assert_eq!(sheet::read(&sheet[..12]), answer);
        } else {
            assert_eq!(written, Answer::bare(12), "{answer}");
            assert_eq!(sheet, [0xee; 15]);
            assert_eq!(sheet::read(&bytes(answer)), Answer::NO_VERDICT);
        }
    }
}

#[test]
fn under_twelve_bytes() {
    let sheet = bytes(Answer::accepted(3, 1));
    for length in 0..12 {
        let mut lent = vec![0xee; length];
        let written = sheet::write(Answer::accepted(3, 1), &mut lent);
        assert_eq!(written, Answer::bare(12));
        assert_eq!(lent, vec![0xee; length]);
        assert_eq!(sheet::read(&sheet[..length]), Answer::NO_VERDICT);
    }
    let mut longer = sheet.to_vec();
    longer.push(0);
    assert_eq!(sheet::read(&longer), Answer::NO_VERDICT);
}

#[test]
fn cuts_followed_by_zeros() {
    for (answer, given) in answers() {
        if !given {
            continue;
        }
        for kept in 0..=12 {
            let mut sheet = bytes(answer);
            sheet[kept..].fill(0);
            let expected = if kept <= 10 {
                Answer::NO_VERDICT
            } else {
                answer
            };
            assert_eq!(sheet::read(&sheet), expected, "{answer}, {kept} kept");
        }
    }
}

#[test]
fn the_table_is_as_shown() {
    let right = bytes(Answer::accepted(3, 1));
    for at in 0..4 {
        for value in 0..=255 {
            let mut sheet = right;
            sheet[at] = value;
            let expected = if sheet == right {
                Answer::accepted(3, 1)
            } else {
                Answer::NO_VERDICT
            };
            assert_eq!(sheet::read(&sheet), expected);
        }
    }
}
