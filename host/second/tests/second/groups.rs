//! Groups of both chains, by lists and by counting.

use crate::lists::*;
use second::groups::{closed_by, Chain, Chains, Groups};
use second::orders::closing_wait;
use second::trace::Event;

#[test]
fn a_commit_makes_a_group_perhaps_empty() {
    let events = [
        copy(0, 0, 4),
        copy(4, 4, 4),
        Event::Commit,
        bulk_copy(0, 0, 16),
        Event::Commit,
        copy(8, 8, 4),
    ];
    let chains = Chains::after(&events);
    let non_bulk = Groups {
        uncommitted: vec![5],
        committed: vec![vec![0, 1], vec![]],
    };
    assert_eq!(chains.groups(Chain::NonBulk), &non_bulk);
    let bulk = Groups {
        uncommitted: vec![3],
        committed: vec![],
    };
    assert_eq!(chains.groups(Chain::Bulk), &bulk);
    assert_eq!(chains.open(), [0, 1, 3, 5]);
}

#[test]
fn wait_all_commits_and_closes_its_own_chain_only() {
    let events = [copy(0, 0, 4), add(0, 16), Event::WaitAll];
    assert!(closed_by(&events, 0, 2));
    assert!(!closed_by(&events, 1, 2));
    assert_eq!(Chains::after(&events).open(), [1]);
}

#[test]
fn n_is_any_32_bit_number() {
    for n in [0, 1, 2, 3, 256, 65_536, 1 << 31, u32::MAX] {
        let events = [
            copy(0, 0, 4),
            Event::Commit,
            copy(4, 4, 4),
            Event::Commit,
            wait(n),
        ];
        assert_eq!(closed_by(&events, 0, 4), n < 2);
        assert_eq!(closed_by(&events, 2, 4), n < 1);
        assert_eq!(closing_wait(&events, 0), Some(4).filter(|_| n < 2));
        assert_eq!(closing_wait(&events, 2), Some(4).filter(|_| n < 1));
    }
}

#[test]
fn numbers_past_the_list_are_closed_by_nothing() {
    let events = [copy(0, 0, 4), Event::WaitAll];
    for number in [2, usize::MAX] {
        assert!(!closed_by(&events, 0, number));
        assert!(!closed_by(&events, number, 1));
        assert_eq!(closing_wait(&events, number), None);
    }
}

#[test]
fn of_two_operations_on_one_byte_a_wait_may_close_the_older_alone() {
    let adds = [
        add(0, 0),
        Event::BulkCommit,
        add(0, 16),
        Event::BulkCommit,
        bulk_wait(1),
        load(global(0), 4),
    ];
    assert_eq!(judged(&adds), clash(5, 2));
    let copies = [
        copy(0, 0, 4),
        Event::Commit,
        copy(4, 0, 4),
        wait(0),
        store(global(0), 4, 1),
    ];
    assert_eq!(judged(&copies), clash(4, 2));
    let bulk_copies = [
        bulk_copy(0, 0, 16),
        Event::BulkCommit,
        bulk_copy(16, 0, 16),
        bulk_wait(0),
        store(shared(0), 4, 1),
    ];
    assert_eq!(judged(&bulk_copies), clash(4, 2));
}

#[test]
fn the_peak_counts_both_chains() {
    let events = [
        copy(0, 0, 4),
        add(16, 16),
        copy(4, 4, 4),
        Event::WaitAll,
        copy(0, 0, 4),
        Event::BulkCommit,
        bulk_wait(0),
    ];
    assert_eq!(judged(&events), accepted(7, 3));
}

#[test]
fn a_full_file_with_all_operations_open() {
    let copies: Vec<Event> = (0..1_024).map(|i| copy(16 * i, 0, 16)).collect();
    assert_eq!(
        second::judge(&file(16, 16_384, &copies)),
        accepted(1_024, 1_024)
    );
    let mut last_again = copies;
    last_again[1_023] = copy(16 * 1_022, 0, 16);
    assert_eq!(
        second::judge(&file(16, 16_384, &last_again)),
        clash(1_023, 1_022)
    );
}
