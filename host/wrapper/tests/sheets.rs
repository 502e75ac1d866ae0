//! Sheets: written and read back, cut short, and not written.

use wrapper::{read_sheet, write_sheet, Answer, NotWritten, SHEET_LENGTH};

/// An answer for each code that a sheet can hold, at the bounds of its numbers.
fn answers() -> Vec<Answer> {
    let (first, last) = (0, 1_023);
    let at = |event: u16| {
        [
            Answer::UnknownKind { event },
            Answer::WrongBodyLength { event },
            Answer::FieldNotAllowed { event },
            Answer::Misaligned { event },
            Answer::OutOfRange { event },
            Answer::NoRoom { event },
        ]
    };
    let others = [
        Answer::Accepted { events: 0, peak: 0 },
        Answer::Accepted {
            events: 1_024,
            peak: 1_024,
        },
        Answer::WrongShape,
        Answer::TooManyEvents,
        Answer::WrongMemoryLength,
        Answer::Clash {
            event: 1,
            partner: 0,
        },
        Answer::Clash {
            event: 1_023,
            partner: 1_022,
        },
        Answer::NoRoom { event: 1_024 },
    ];
    [at(first).as_slice(), &at(last), &others].concat()
}

fn sheet_of(answer: Answer) -> [u8; SHEET_LENGTH] {
    let mut sheet = [0xaa; SHEET_LENGTH];
    assert_eq!(write_sheet(answer, &mut sheet), Ok(()), "{answer}");
    sheet
}

#[test]
fn the_document_s_two_sheets() {
    let accepted = Answer::Accepted { events: 3, peak: 1 };
    let clash = Answer::Clash {
        event: 1,
        partner: 0,
    };
    assert_eq!(sheet_of(accepted), [4, 0, 8, 0, 3, 0, 0, 0, 1, 0, 1, 0]);
    assert_eq!(sheet_of(clash), [4, 0, 8, 0, 1, 0, 0, 0, 0, 0, 10, 0]);
}

#[test]
fn a_written_sheet_reads_back_and_cut_short_it_is_no_verdict() {
    for answer in answers() {
        let sheet = sheet_of(answer);
        assert_eq!(read_sheet(&sheet), answer);
        for kept in 0..=SHEET_LENGTH {
            let mut cut = [0; SHEET_LENGTH];
            cut[..kept].copy_from_slice(&sheet[..kept]);
            let expected = if kept <= 10 {
                Answer::NoVerdict
            } else {
                answer
            };
            assert_eq!(read_sheet(&cut), expected, "{answer} cut to {kept} bytes");
            if kept < SHEET_LENGTH {
                assert_eq!(read_sheet(&sheet[..kept]), Answer::NoVerdict);
            }
        }
    }
}

#[test]
fn a_longer_buffer_keeps_its_bytes_past_twelve() {
    let mut buffer = [0xaa; 20];
    assert_eq!(write_sheet(Answer::WrongShape, &mut buffer), Ok(()));
    assert_eq!(buffer[SHEET_LENGTH..], [0xaa; 8]);
    assert_eq!(read_sheet(&buffer[..SHEET_LENGTH]), Answer::WrongShape);
    assert_eq!(read_sheet(&buffer), Answer::NoVerdict);
}

#[test]
fn what_no_sheet_holds_is_not_written() {
    let too_large = [
        Answer::NoVerdict,
        Answer::Accepted {
            events: 1_025,
            peak: 0,
        },
        Answer::Accepted { events: 3, peak: 4 },
        Answer::OutOfRange { event: 1_024 },
        Answer::Clash {
            event: 1,
            partner: 1,
        },
        Answer::NoRoom { event: u16::MAX },
    ];
    for answer in too_large {
        let mut buffer = [0xaa; 20];
        assert_eq!(
            write_sheet(answer, &mut buffer),
            Err(NotWritten),
            "{answer}"
        );
        assert_eq!(buffer, [0xaa; 20]);
    }
    for length in 0..SHEET_LENGTH {
        let mut buffer = [0xaa; SHEET_LENGTH];
        let written = write_sheet(Answer::WrongShape, &mut buffer[..length]);
        assert_eq!(written, Err(NotWritten), "{length} bytes");
        assert_eq!(buffer, [0xaa; SHEET_LENGTH]);
    }
}
