//! The enumeration of permitted orders, against known counts and against all
//! permutations of the actions.

use crate::lists::*;
use second::groups::closed_by;
use second::orders::{count_at_most, for_each, judge_by_orders, outcomes, Action};
use second::trace::Event;

#[test]
fn known_counts() {
    let copies: Vec<Event> = (0..6).map(|i| copy(4 * i, 0, 4)).collect();
    let counts = [1, 1, 3, 15, 105, 945, 10_395];
    for (number, count) in counts.into_iter().enumerate() {
        assert_eq!(count_at_most(&copies[..number], count), Some(count));
        assert_eq!(count_at_most(&copies[..number], count - 1), None);
    }
    let full = vec![copy(0, 0, 4); 1_024];
    assert_eq!(count_at_most(&full, 1_000), None);
    let closed = [copy(0, 0, 4), Event::WaitAll, load(shared(0), 4)];
    assert_eq!(count_at_most(&closed, 9), Some(1));
    let open = [copy(0, 0, 4), wait(0), load(shared(0), 4)];
    assert_eq!(count_at_most(&open, 9), Some(3));
}

/// All permutations of the actions of a list.
fn permutations(actions: &[Action]) -> Vec<Vec<Action>> {
    if actions.is_empty() {
        return vec![Vec::new()];
    }
    let mut all = Vec::new();
    for (place, action) in actions.iter().enumerate() {
        let mut others = actions.to_vec();
        others.remove(place);
        for mut permutation in permutations(&others) {
            permutation.insert(0, *action);
            all.push(permutation);
        }
    }
    all
}

fn is_permitted(events: &[Event], order: &[Action]) -> bool {
    let place = |action| order.iter().position(|other| *other == action);
    let in_file_order = (1..events.len())
        .all(|number| place(Action::Turn(number - 1)) < place(Action::Turn(number)));
    in_file_order
        && (0..events.len()).all(|operation| {
            let acts = place(Action::Act(operation));
            acts.is_none()
                || (place(Action::Turn(operation)) < acts
                    && (0..events.len()).all(|wait| {
                        !closed_by(events, operation, wait) || acts < place(Action::Turn(wait))
                    }))
        })
}

#[test]
fn the_orders_are_the_permitted_permutations() {
    let mut random = crate::random::Random::new(3);
    for _ in 0..300 {
        let events = random.list(4);
        let turns = (0..events.len()).map(Action::Turn);
        let acts = (0..events.len()).filter(|i| events[*i].starts_operation());
        let actions: Vec<Action> = turns.chain(acts.map(Action::Act)).collect();
        if actions.len() > 6 {
            continue;
        }
        let mut permitted = permutations(&actions);
        permitted.retain(|order| is_permitted(&events, order));
        let mut visited = Vec::new();
        for_each(&events, &mut |order| visited.push(order.to_vec()));
        assert_eq!(visited.len(), permitted.len(), "{events:?}");
        assert!(permitted.iter().all(|order| visited.contains(order)));
        assert_eq!(count_at_most(&events, usize::MAX), Some(visited.len()));
    }
}

#[test]
fn none_where_there_are_more_than_the_most() {
    let file = file(16, 16, &[copy(0, 0, 4), copy(4, 4, 4)]);
    assert_eq!(judge_by_orders(&file, 3), Some(accepted(2, 2)));
    assert_eq!(judge_by_orders(&file, 2), None);
    assert!(outcomes(&file, &[1; 16], &[2; 16], 3).is_some());
    assert!(outcomes(&file, &[1; 16], &[2; 16], 2).is_none());
    assert!(outcomes(&file, &[1; 15], &[2; 16], 3).is_none());
    assert!(outcomes(&file, &[1; 16], &[2; 17], 3).is_none());
    assert!(outcomes(&file[..9], &[1; 16], &[2; 16], 3).is_none());
}

#[test]
fn no_outcomes_for_a_file_refused_before_a_clash() {
    for event in [bulk_copy(0, 0, 24), load(shared(1), 4), load(shared(16), 4)] {
        let file = file(16, 16, &[copy(0, 0, 4), event]);
        assert!(outcomes(&file, &[1; 16], &[2; 16], 99).is_none());
    }
}

#[test]
fn a_clash_shows_in_the_outcomes() {
    let file = file(16, 16, &[copy(0, 0, 4), load(shared(0), 4)]);
    let outcomes = outcomes(&file, &[1; 16], &[2; 16], 99).unwrap();
    let loads: Vec<&[u8]> = outcomes.iter().map(|outcome| &outcome.loads[..]).collect();
    assert_eq!(loads, [[1; 4], [2; 4]]);
}
