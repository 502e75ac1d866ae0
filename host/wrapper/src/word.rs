//! An answer as it crosses the boundary: code, event, partner and peak in sixteen bits each, the code lowest. 0 is no
//! verdict.

use answer::{Answer, Numbers};

pub fn word(answer: Answer) -> u64 {
    let Numbers {
        code,
        event,
        partner,
        peak,
    } = answer.numbers();
    [peak, partner, event, code]
        .into_iter()
        .fold(0, |word, number| word << 16 | u64::from(number))
}

pub fn answer(word: u64) -> Answer {
    let number = |place: u32| (word >> (16 * place)) as u16;
    Answer::with_numbers(Numbers {
        code: number(0),
        event: number(1),
        partner: number(2),
        peak: number(3),
    })
}

#[cfg(test)]
mod tests {
    use super::*;

    #[test]
    fn a_word_has_the_code_in_its_lowest_bits() {
        let accepted = Answer::Accepted { events: 3, peak: 1 };
        let clash = Answer::Clash {
            event: 7,
            partner: 4,
        };
        for (given, expected) in [
            (Answer::NoVerdict, 0),
            (accepted, 0x0001_0000_0003_0001),
            (clash, 0x0000_0004_0007_000a),
            (Answer::NoRoom { event: 1_024 }, 0x0000_0000_0400_000b),
        ] {
            assert_eq!(word(given), expected);
            assert_eq!(answer(expected), given);
        }
    }

    #[test]
    fn a_word_of_no_answer_is_no_verdict() {
        for other in [
            12,
            0x0001_0000_0003_0000,
            0x0000_0001_0003_0001,
            0x0000_0000_0001_0002,
            0x0001_0000_0003_0101,
            u64::MAX,
        ] {
            assert_eq!(answer(other), Answer::NoVerdict, "{other:#x}");
        }
    }
}
