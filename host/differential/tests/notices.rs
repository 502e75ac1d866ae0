//! Each part of the comparison, against a program with one thing wrong: the difference has to be found and cut down. The
//! wrong programs are the second program, changed in one place.

use differential::comparison::{Comparison, Difference};
use differential::parts::PARTS;
use differential::subject::{Left, Lent, Ran, Subject};
use second::trace::{shape, Event};
use second::{sheet, Answer};

/// The second program, with what each service does after it.
struct Wrong {
    judge: fn(&[u8], Answer) -> Result<Answer, String>,
    run: fn(&Lent, &mut Answer, &mut Left),
    read_sheet: fn(&[u8], Answer) -> Answer,
}

const RIGHT: Wrong = Wrong {
    judge: |_, answer| Ok(answer),
    run: |_, _, _| (),
    read_sheet: |_, answer| answer,
};

impl Subject for Wrong {
    fn judge(&mut self, files: &[Vec<u8>]) -> Result<Vec<Answer>, String> {
        files
            .iter()
            .map(|file| (self.judge)(file, second::judge(file)))
            .collect()
    }

    fn judge_to_sheet(&mut self, file: &[u8]) -> Result<Vec<u8>, String> {
        let mut bytes = vec![0; 12];
        sheet::write((self.judge)(file, second::judge(file))?, &mut bytes);
        Ok(bytes)
    }

    fn run(&mut self, runs: &[Lent]) -> Result<Vec<Ran>, String> {
        let ran = runs.iter().map(|lent| {
            let mut left = Left {
                loads: lent.loads.clone(),
                global: lent.global.clone(),
                shared: lent.shared.clone(),
            };
            let mut answer = second::run(
                &lent.file,
                &mut left.global,
                &mut left.shared,
                &mut left.loads,
            );
            (self.run)(lent, &mut answer, &mut left);
            let mut bytes = vec![0; 12];
            sheet::write(answer, &mut bytes);
            Ran {
                sheet: bytes,
                left: Some(left).filter(|_| answer.code == 1),
            }
        });
        Ok(ran.collect())
    }

    fn read_sheet(&mut self, bytes: &[u8]) -> Result<Answer, String> {
        Ok((self.read_sheet)(bytes, sheet::read(bytes)))
    }
}

/// The difference that a part finds in a wrong program.
fn found(part: &str, mut wrong: Wrong) -> Difference {
    let part = PARTS
        .iter()
        .find(|known| known.name == part)
        .expect("a part of this name");
    let mut comparison = Comparison::new(&mut wrong, 1, 1);
    (part.compare)(&mut comparison).expect_err("a difference")
}

fn smallest_file(difference: &Difference) -> &[u8] {
    assert_eq!(difference.files[0].0, "file");
    &difference.files[0].1
}

#[test]
fn a_judge_that_finds_no_clash() {
    let difference = found(
        "files",
        Wrong {
            judge: |_, answer| {
                Ok(if answer.code == 10 {
                    Answer::accepted(2, 1)
                } else {
                    answer
                })
            },
            ..RIGHT
        },
    );
    // No more than the two events that clash.
    assert_eq!(
        shape(smallest_file(&difference)).unwrap().len(),
        2,
        "{difference}"
    );
    assert_eq!(difference.expected, "10 1 0 0");
    assert_eq!(difference.proved, "1 2 0 1");
}

#[test]
fn a_judge_that_dies_of_a_short_file() {
    let difference = found(
        "files",
        Wrong {
            judge: |file, answer| {
                if file.len() < 12 {
                    Err("silence: it died".to_string())
                } else {
                    Ok(answer)
                }
            },
            ..RIGHT
        },
    );
    assert_eq!(smallest_file(&difference), [], "{difference}");
    assert_eq!(difference.proved, "silence: it died");
    assert_eq!(difference.expected, "2 0 0 0");
}

#[test]
fn a_judge_that_fills_a_cut_file_with_a_zero() {
    let difference = found(
        "files",
        Wrong {
            judge: |file, answer| {
                Ok(if answer.code == 2 {
                    second::judge(&[file, &[0]].concat())
                } else {
                    answer
                })
            },
            ..RIGHT
        },
    );
    assert!(smallest_file(&difference).len() < 40, "{difference}");
    assert_eq!(difference.expected, "2 0 0 0", "{difference}");
}

#[test]
fn a_judge_that_counts_the_peak_wrong() {
    let difference = found(
        "files",
        Wrong {
            judge: |_, answer| {
                Ok(Answer {
                    peak: answer.peak.min(2),
                    ..answer
                })
            },
            ..RIGHT
        },
    );
    assert_eq!(
        second::judge(smallest_file(&difference)),
        Answer::accepted(3, 3),
        "{difference}"
    );
}

/// K6: two groups committed one after the other do not order their bytes.
#[test]
fn a_judge_that_takes_commit_order_for_byte_order() {
    let difference = found(
        "orders",
        Wrong {
            judge: |file, answer| {
                Ok(if commit_between(file, answer) {
                    Answer::accepted(3, 2)
                } else {
                    answer
                })
            },
            ..RIGHT
        },
    );
    assert_eq!(
        second::judge(smallest_file(&difference)),
        Answer::clash(2, 0),
        "{difference}"
    );
}

fn commit_between(file: &[u8], answer: Answer) -> bool {
    let events =
        (answer.partner..=answer.event).map(|event| shape(file).ok()?.event(event.into()).ok());
    let events: Option<Vec<Event>> = events.collect();
    let between = |events: Vec<Event>| {
        events.contains(&Event::Commit) && events.last().map_or(false, Event::starts_operation)
    };
    answer.code == 10 && events.map_or(false, between)
}

#[test]
fn a_judge_that_decodes_all_events_before_it_looks_for_clashes() {
    let difference = found(
        "recording",
        Wrong {
            judge: |file, answer| {
                Ok(second::trace::read(file).map_or_else(|refusal| refusal.answer, |_| answer))
            },
            ..RIGHT
        },
    );
    let wanted = second::judge(smallest_file(&difference));
    assert!((8..=10).contains(&wanted.code), "{difference}");
}

#[test]
fn a_run_that_loses_a_byte_past_the_loads() {
    let difference = found(
        "runs",
        Wrong {
            run: |lent, _, left| {
                if let (Some(last), Some(was)) = (left.loads.last_mut(), lent.loads.last()) {
                    *last = if *last == *was { 0 } else { *last };
                }
            },
            ..RIGHT
        },
    );
    assert!(difference.shows.starts_with("a run"), "{difference}");
    assert_eq!(smallest_file(&difference).len(), 12, "{difference}");
}

#[test]
fn a_run_that_reports_a_full_record_as_accepted() {
    let difference = found(
        "runs",
        Wrong {
            run: |_, answer, _| {
                if answer.code == 11 {
                    *answer = Answer::accepted(answer.event, 0);
                }
            },
            ..RIGHT
        },
    );
    // The sheet of 11, with the number of events.
    assert!(
        difference.expected.contains("0b00, and nothing changed"),
        "{difference}"
    );
}

#[test]
fn a_run_that_refuses_long_waiting() {
    let difference = found(
        "waiting",
        Wrong {
            run: |lent, answer, _| {
                if lent.file.first().map_or(false, |events| *events > 20) {
                    *answer = Answer::bare(2);
                }
            },
            ..RIGHT
        },
    );
    assert!(
        difference.proved.ends_with("0200, and nothing changed"),
        "{difference}"
    );
}

#[test]
fn a_run_that_differs_from_every_order() {
    let difference = found(
        "orders",
        Wrong {
            run: |_, answer, left| {
                if answer.peak > 1 {
                    left.shared[0] ^= 1;
                }
            },
            ..RIGHT
        },
    );
    assert!(difference.shows.starts_with("a run"), "{difference}");
}

#[test]
fn a_reader_that_does_not_look_at_the_table() {
    let difference = found(
        "sheets",
        Wrong {
            read_sheet: |bytes, answer| match bytes.get(4..12) {
                Some(body) if bytes.len() == 12 => sheet::read(&[&[4, 0, 8, 0], body].concat()),
                _ => answer,
            },
            ..RIGHT
        },
    );
    assert_eq!(difference.expected, "0 0 0 0", "{difference}");
}

#[test]
fn a_reader_that_fills_up_a_short_sheet() {
    let difference = found(
        "sheets",
        Wrong {
            read_sheet: |bytes, answer| match bytes.len() {
                11 => sheet::read(&[bytes, &[0]].concat()),
                _ => answer,
            },
            ..RIGHT
        },
    );
    assert_eq!(difference.files[0].1.len(), 11, "{difference}");
}

#[test]
fn a_judge_with_one_fixed_answer_fails_the_table() {
    let difference = found(
        "table",
        Wrong {
            judge: |_, _| Ok(Answer::accepted(3, 1)),
            ..RIGHT
        },
    );
    assert_eq!(difference.proved, "1 3 0 1");
}

#[test]
fn a_judge_that_dies_over_one_file_of_many() {
    let wrong = Wrong {
        judge: |_, answer| match answer.peak {
            0..=5 => Ok(answer),
            _ => Err("silence: it died".to_string()),
        },
        ..RIGHT
    };
    let difference = found("files", wrong);
    assert_eq!(
        second::judge(smallest_file(&difference)).peak,
        6,
        "{difference}"
    );
    assert_eq!(difference.proved, "silence: it died");
}
