//! The four numbers of an answer, in the line that a proved program writes.

use answer::Numbers;

/// The numbers of a whole line, its newline included; of anything else, none.
pub(crate) fn line_of_numbers(line: &[u8]) -> Option<Numbers> {
    let text = std::str::from_utf8(line.strip_suffix(b"\n")?).ok()?;
    let mut words = text.split(' ');
    let numbers = Numbers {
        code: number(words.next()?)?,
        event: number(words.next()?)?,
        partner: number(words.next()?)?,
        peak: number(words.next()?)?,
    };
    match words.next() {
        None => Some(numbers),
        Some(_) => None,
    }
}

/// The numbers of the line that begins `bytes` with this name, and what stands after that line.
pub(crate) fn named_line<'a>(bytes: &'a [u8], name: &[u8]) -> Option<(Numbers, &'a [u8])> {
    let line = bytes.strip_prefix(name)?.strip_prefix(b" ")?;
    let end = line.iter().position(|byte| *byte == b'\n')? + 1;
    let (line, after) = line.split_at(end);
    Some((line_of_numbers(line)?, after))
}

/// A number as the programs write it: digits alone, no zero before them.
fn number(word: &str) -> Option<u16> {
    let number: u16 = word.parse().ok()?;
    Some(number).filter(|number| number.to_string() == word)
}

#[cfg(test)]
mod tests {
    use super::*;

    #[test]
    fn only_a_whole_line_of_four_numbers_is_read() {
        let numbers = Numbers {
            code: 10,
            event: 7,
            partner: 4,
            peak: 0,
        };
        assert_eq!(line_of_numbers(b"10 7 4 0\n"), Some(numbers));
        for other in [
            "",
            "\n",
            "10 7 4 0",
            "10 7 4\n",
            "10 7 4 0 0\n",
            "10 7 4 0 \n",
            " 10 7 4 0\n",
            "10  7 4 0\n",
            "10 7 4 0\n\n",
            "1 7 4 0\r\n",
            "+1 7 4 0\n",
            "01 7 4 0\n",
            "65536 0 0 0\n",
            "-1 0 0 0\n",
            "1 3 0 1\n1 3 0 1\n",
            "accepted\n",
        ] {
            assert_eq!(line_of_numbers(other.as_bytes()), None, "{other:?}");
        }
    }

    #[test]
    fn a_line_is_that_of_its_name_alone() {
        let (numbers, after) = named_line(b"a 2 0 0 0\nb 1 0 0 0\n", b"a").unwrap();
        assert_eq!((numbers.code, after), (2, b"b 1 0 0 0\n".as_slice()));
        assert_eq!(named_line(b"ab 1 0 0 0\n", b"a"), None);
        assert_eq!(named_line(b"b 1 0 0 0\n", b"a"), None);
        assert_eq!(named_line(b"a 1 0 0 0", b"a"), None);
    }
}
