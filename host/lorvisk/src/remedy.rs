//! Why an operation is still open, and which wait would have closed it.

use second::groups::Chain;
use second::trace::Event;

/// What there is after an operation that could have closed it.
struct Found {
    /// The first commit, which put the operation into a group.
    commit: Option<usize>,
    /// The last wait after that commit, or after the operation if there is none.
    wait: Option<usize>,
    /// The groups made after the operation's own: up to that wait, or to the end.
    newer_groups: u32,
}

/// A change of a list that closes an operation before the list's end.
#[derive(Debug, PartialEq, Eq)]
enum Remedy {
    /// The wait at this event, with this number.
    Lower { wait: usize, to: u32 },
    /// These events, at the end.
    Put { events: Vec<Event> },
}

/// Why the operation is open after these events, and what would have closed it.
pub fn lines(before: &[Event], operation: usize) -> Option<Vec<String>> {
    let chain = chain(before.get(operation)?)?;
    let found = found(before, operation, chain);
    let mut lines = vec![why(before, operation, &found)?];
    let other =
        |event: &&(usize, &Event)| number(event.1).is_some() && self::chain(event.1) != Some(chain);
    if let Some((wait, event)) = after(before, operation).iter().rev().find(other) {
        lines.push(format!(
            "event {wait} ({event}) closes operations of the other chain alone"
        ));
    }
    lines.push(match remedy(&found, chain) {
        Remedy::Lower { wait, to } => {
            let wanted = self::wait(chain, to);
            format!("a {wanted} at event {wait} would have closed event {operation}")
        }
        Remedy::Put { events } => {
            let words: Vec<String> = events.iter().map(|event| format!("a {event}")).collect();
            let (words, event) = (words.join(" and then "), before.len());
            format!("{words} before event {event} would have closed event {operation}")
        }
    });
    Some(lines)
}

fn why(before: &[Event], operation: usize, found: &Found) -> Option<String> {
    Some(match (found.commit, found.wait) {
        (None, None) => format!("nobody committed event {operation}"),
        (None, Some(wait)) => {
            let event = before.get(wait)?;
            format!(
                "nobody committed event {operation}, so event {wait} ({event}) did not close it"
            )
        }
        (Some(commit), None) => {
            format!("event {operation} was committed at event {commit}, and no wait followed")
        }
        (Some(commit), Some(wait)) => {
            let event = before.get(wait)?;
            let left = match number(event)? {
                1 => "its newest group".to_string(),
                left => format!("its {left} newest groups"),
            };
            format!("event {operation} was committed at event {commit}, and event {wait} ({event}) leaves {left} open")
        }
    })
}

fn remedy(found: &Found, chain: Chain) -> Remedy {
    match (found.commit, found.wait, chain) {
        (Some(_), Some(wait), _) => Remedy::Lower {
            wait,
            to: found.newer_groups,
        },
        (Some(_), None, _) => Remedy::Put {
            events: vec![wait(chain, found.newer_groups)],
        },
        (None, _, Chain::NonBulk) => Remedy::Put {
            events: vec![Event::WaitAll],
        },
        (None, _, Chain::Bulk) => Remedy::Put {
            events: vec![Event::BulkCommit, Event::BulkWait { n: 0 }],
        },
    }
}

fn found(before: &[Event], operation: usize, chain: Chain) -> Found {
    let is_commit = |event: &Event| commits(event) && self::chain(event) == Some(chain);
    let is_wait = |event: &Event| number(event).is_some() && self::chain(event) == Some(chain);
    let later = after(before, operation);
    let commit = later
        .iter()
        .find(|(_, event)| is_commit(event))
        .map(|(at, _)| *at);
    let later = after(before, commit.unwrap_or(operation));
    let wait = later
        .iter()
        .rev()
        .find(|(_, event)| is_wait(event))
        .map(|(at, _)| *at);
    let newer = later
        .iter()
        .filter(|(at, event)| is_commit(event) && wait.map_or(true, |wait| *at < wait));
    Found {
        commit,
        wait,
        newer_groups: newer.count() as u32,
    }
}

/// The events after one of them, with their numbers.
fn after(events: &[Event], event: usize) -> Vec<(usize, &Event)> {
    events.iter().enumerate().skip(event + 1).collect()
}

fn chain(event: &Event) -> Option<Chain> {
    match event {
        Event::Copy { .. } | Event::Commit | Event::Wait { .. } | Event::WaitAll => {
            Some(Chain::NonBulk)
        }
        Event::BulkCopy { .. }
        | Event::Reduction { .. }
        | Event::BulkCommit
        | Event::BulkWait { .. } => Some(Chain::Bulk),
        Event::Load { .. } | Event::Store { .. } => None,
    }
}

fn commits(event: &Event) -> bool {
    matches!(event, Event::Commit | Event::WaitAll | Event::BulkCommit)
}

/// How many groups a wait leaves open.
fn number(event: &Event) -> Option<u32> {
    match event {
        Event::Wait { n } | Event::BulkWait { n } => Some(*n),
        Event::WaitAll => Some(0),
        _ => None,
    }
}

fn wait(chain: Chain, n: u32) -> Event {
    match chain {
        Chain::NonBulk => Event::Wait { n },
        Chain::Bulk => Event::BulkWait { n },
    }
}

#[cfg(test)]
mod tests {
    use super::*;
    use second::groups::Chains;
    use second::trace::{Cache, GlobalAddress, Mode, SharedAddress};

    const COPY: Event = Event::Copy {
        dst: SharedAddress(0),
        src: GlobalAddress(0),
        src_size: 0,
        cp_size: 4,
        mode: Mode::Plain,
        cache: Cache::Ca,
    };
    const BULK_COPY: Event = Event::BulkCopy {
        dst: GlobalAddress(0),
        src: SharedAddress(0),
        size: 16,
    };
    const EVENTS: [Event; 8] = [
        COPY,
        Event::Commit,
        Event::Wait { n: 1 },
        Event::WaitAll,
        BULK_COPY,
        Event::BulkCommit,
        Event::BulkWait { n: 0 },
        Event::BulkWait { n: 2 },
    ];

    /// The list with what the remedy changes, its number put higher by `more`.
    fn changed(list: &[Event], remedy: &Remedy, more: u32) -> Vec<Event> {
        let higher = |event: &Event| match *event {
            Event::Wait { n } => Event::Wait { n: n + more },
            Event::BulkWait { n } => Event::BulkWait { n: n + more },
            other => other,
        };
        let mut list = list.to_vec();
        match remedy {
            Remedy::Lower { wait, to } => {
                let chain = chain(&list[*wait]).unwrap();
                assert!(Some(*to) < number(&list[*wait]), "the number is lowered");
                list[*wait] = higher(&super::wait(chain, *to));
            }
            Remedy::Put { events } => list.extend(events.iter().map(higher)),
        }
        list
    }

    /// In every list of up to six of these events, the remedy closes what is open, and only just: a higher number does not.
    #[test]
    fn the_remedy_closes_the_operation_and_a_higher_number_does_not() {
        let mut lists: Vec<Vec<Event>> = vec![Vec::new()];
        let mut tried = 0;
        for _ in 0..6 {
            let longer =
                |list: &Vec<Event>| EVENTS.map(|event| [list.as_slice(), &[event]].concat());
            lists = lists.iter().flat_map(longer).collect();
            for list in &lists {
                for operation in Chains::after(list).open() {
                    let chain = chain(&list[operation]).unwrap();
                    let remedy = remedy(&found(list, operation, chain), chain);
                    let open = |more| {
                        Chains::after(&changed(list, &remedy, more))
                            .open()
                            .contains(&operation)
                    };
                    assert!(!open(0), "{operation} of {list:?} stays open");
                    let waits = remedy
                        != Remedy::Put {
                            events: vec![Event::WaitAll],
                        };
                    assert_eq!(open(1), waits, "{operation} of {list:?}, a number higher");
                    tried += 1;
                }
            }
        }
        assert!(tried > 100_000, "{tried} open operations");
    }
}
