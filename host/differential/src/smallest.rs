//! Cuts a file down to a small one that still shows what it showed.

const HEADER: usize = 12;
const ENTRY: usize = 4;

/// How many smaller files are tried at most; each may mean the start of a program.
const TRIES: usize = 4_000;

/// The smallest file that this finds and that still `shows`: events are taken out, then bytes, then bytes become zero.
pub fn smallest(file: &[u8], shows: &mut dyn FnMut(&[u8]) -> bool) -> Vec<u8> {
    let mut best = file.to_vec();
    let mut tries = TRIES;
    while let Some(smaller) = first_that_shows(&best, &mut tries, shows) {
        best = smaller;
    }
    best
}

fn first_that_shows(
    file: &[u8],
    tries: &mut usize,
    shows: &mut dyn FnMut(&[u8]) -> bool,
) -> Option<Vec<u8>> {
    for smaller in without_events(file)
        .chain(without_bytes(file))
        .chain(with_zeros(file))
    {
        *tries = tries.checked_sub(1)?;
        if shows(&smaller) {
            return Some(smaller);
        }
    }
    None
}

/// The file without some of its events: half of them, a quarter and so on, down to one.
fn without_events(file: &[u8]) -> impl Iterator<Item = Vec<u8>> + '_ {
    let events = number(file, 0);
    runs_of(events).filter_map(move |(first, count)| without(file, first, count))
}

/// All runs of things among so many, the long ones first.
fn runs_of(things: usize) -> impl Iterator<Item = (usize, usize)> {
    let halves = std::iter::successors(Some(things), |length| Some(length / 2));
    let lengths = halves.take_while(|length| *length > 0);
    lengths.flat_map(move |length| {
        (0..things)
            .step_by(length)
            .map(move |first| (first, length.min(things - first)))
    })
}

/// The file without these events, whose entries and bodies must be there.
fn without(file: &[u8], first: usize, count: usize) -> Option<Vec<u8>> {
    let events = number(file, 0);
    let entry = |event: usize| HEADER + ENTRY * event;
    file.get(..entry(events))?;
    let body = |event: usize| {
        let lengths = (0..event).map(|before| number(file, entry(before) + 2));
        entry(events) + lengths.sum::<usize>()
    };
    let (from, to) = (body(first), body(first + count));
    let mut smaller = ((events - count) as u16).to_le_bytes().to_vec();
    smaller.extend(&file[2..entry(first)]);
    smaller.extend(&file[entry(first + count)..from.min(file.len())]);
    smaller.extend(file.get(to..).unwrap_or(&[]));
    Some(smaller)
}

fn number(file: &[u8], at: usize) -> usize {
    match file.get(at..at + 2) {
        Some(two) => usize::from(u16::from_le_bytes([two[0], two[1]])),
        None => 0,
    }
}

fn without_bytes(file: &[u8]) -> impl Iterator<Item = Vec<u8>> + '_ {
    runs_of(file.len()).map(move |(first, count)| [&file[..first], &file[first + count..]].concat())
}

fn with_zeros(file: &[u8]) -> impl Iterator<Item = Vec<u8>> + '_ {
    let set = (0..file.len()).filter(move |at| file[*at] != 0);
    set.map(move |at| {
        let mut smaller = file.to_vec();
        smaller[at] = 0;
        smaller
    })
}

#[cfg(test)]
mod tests {
    use super::*;

    #[test]
    fn finds_the_one_event_that_shows_it() {
        let mut file = vec![3, 0, 0, 0, 16, 0, 0, 0, 16, 0, 0, 0];
        file.extend([17, 0, 0, 0, 18, 0, 4, 0, 1, 0, 8, 0]);
        file.extend([7, 0, 0, 0, 1, 4, 0, 0, 0, 0, 0, 0]);
        let found = smallest(&file, &mut |file| {
            second::trace::read(file).map_or(false, |trace| {
                trace.events.iter().any(|event| event.kind() == 18)
            })
        });
        assert_eq!(
            found,
            [1, 0, 0, 0, 0, 0, 0, 0, 0, 0, 0, 0, 18, 0, 4, 0, 0, 0, 0, 0]
        );
    }

    #[test]
    fn a_file_that_shows_nothing_smaller_stays() {
        let file = [9, 9, 9];
        assert_eq!(smallest(&file, &mut |smaller| smaller == file), file);
    }
}
