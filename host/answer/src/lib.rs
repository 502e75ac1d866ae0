//! What the desk answers, for hosts: a case for each code, its numbers, and what it means in words.

#![forbid(unsafe_code)]

mod numbers;
mod words;

pub use numbers::Numbers;

/// A case for each code of document 01's table that is an answer about a file, with the numbers that the table names. Code
/// 12, the sheet writer's refusal, is none.
#[must_use = "silence is no approval, and only `Accepted` is"]
#[derive(Clone, Copy, Debug, PartialEq, Eq, Hash)]
pub enum Answer {
    NoVerdict,
    Accepted { events: u16, peak: u16 },
    WrongShape,
    TooManyEvents,
    WrongMemoryLength,
    UnknownKind { event: u16 },
    WrongBodyLength { event: u16 },
    FieldNotAllowed { event: u16 },
    Misaligned { event: u16 },
    OutOfRange { event: u16 },
    Clash { event: u16, partner: u16 },
    NoRoom { event: u16 },
}

impl Answer {
    /// Whether the file may pass.
    pub fn is_accepted(self) -> bool {
        matches!(self, Answer::Accepted { .. })
    }

    pub fn numbers(self) -> Numbers {
        let (code, event, partner, peak) = match self {
            Answer::NoVerdict => (0, 0, 0, 0),
            Answer::Accepted { events, peak } => (1, events, 0, peak),
            Answer::WrongShape => (2, 0, 0, 0),
            Answer::TooManyEvents => (3, 0, 0, 0),
            Answer::WrongMemoryLength => (4, 0, 0, 0),
            Answer::UnknownKind { event } => (5, event, 0, 0),
            Answer::WrongBodyLength { event } => (6, event, 0, 0),
            Answer::FieldNotAllowed { event } => (7, event, 0, 0),
            Answer::Misaligned { event } => (8, event, 0, 0),
            Answer::OutOfRange { event } => (9, event, 0, 0),
            Answer::Clash { event, partner } => (10, event, partner, 0),
            Answer::NoRoom { event } => (11, event, 0, 0),
        };
        Numbers {
            code,
            event,
            partner,
            peak,
        }
    }

    /// The answer with these numbers; no verdict where no case has them.
    pub fn with_numbers(numbers: Numbers) -> Answer {
        let Numbers {
            code,
            event,
            partner,
            peak,
        } = numbers;
        let answer = match code {
            1 => Answer::Accepted {
                events: event,
                peak,
            },
            2 => Answer::WrongShape,
            3 => Answer::TooManyEvents,
            4 => Answer::WrongMemoryLength,
            5 => Answer::UnknownKind { event },
            6 => Answer::WrongBodyLength { event },
            7 => Answer::FieldNotAllowed { event },
            8 => Answer::Misaligned { event },
            9 => Answer::OutOfRange { event },
            10 => Answer::Clash { event, partner },
            11 => Answer::NoRoom { event },
            _ => Answer::NoVerdict,
        };
        // A number that the code does not name has to be zero.
        if answer.numbers() == numbers {
            answer
        } else {
            Answer::NoVerdict
        }
    }
}

#[cfg(test)]
mod tests {
    use super::*;

    fn numbers(code: u16, event: u16, partner: u16, peak: u16) -> Numbers {
        Numbers {
            code,
            event,
            partner,
            peak,
        }
    }

    #[test]
    fn numbers_that_a_case_has_give_that_case() {
        let cases = [
            (Answer::NoVerdict, numbers(0, 0, 0, 0)),
            (Answer::Accepted { events: 3, peak: 1 }, numbers(1, 3, 0, 1)),
            (Answer::WrongShape, numbers(2, 0, 0, 0)),
            (Answer::TooManyEvents, numbers(3, 0, 0, 0)),
            (Answer::WrongMemoryLength, numbers(4, 0, 0, 0)),
            (Answer::UnknownKind { event: 7 }, numbers(5, 7, 0, 0)),
            (Answer::WrongBodyLength { event: 7 }, numbers(6, 7, 0, 0)),
            (Answer::FieldNotAllowed { event: 7 }, numbers(7, 7, 0, 0)),
            (Answer::Misaligned { event: 7 }, numbers(8, 7, 0, 0)),
            (Answer::OutOfRange { event: 7 }, numbers(9, 7, 0, 0)),
            (
                Answer::Clash {
                    event: 7,
                    partner: 4,
                },
                numbers(10, 7, 4, 0),
            ),
            (Answer::NoRoom { event: 7 }, numbers(11, 7, 0, 0)),
        ];
        for (answer, numbers) in cases {
            assert_eq!(answer.numbers(), numbers);
            assert_eq!(Answer::with_numbers(numbers), answer);
            assert_eq!(answer.is_accepted(), numbers.code == 1);
        }
    }

    #[test]
    fn numbers_that_no_case_has_are_no_verdict() {
        for other in [
            numbers(12, 0, 0, 0),
            numbers(257, 3, 0, 1),
            numbers(0, 3, 0, 1),
            numbers(1, 3, 1, 1),
            numbers(2, 1, 0, 0),
            numbers(7, 1, 0, 1),
            numbers(10, 1, 0, 1),
        ] {
            assert_eq!(Answer::with_numbers(other), Answer::NoVerdict, "{other}");
        }
    }
}
