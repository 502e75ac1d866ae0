//! Commit and wait. The two chains have the same rules, so each row is written
//! once and stands in the table for either.

use crate::answers::*;
use crate::events::*;
use crate::file::memories;
use crate::row::{row, Row};
use second::trace::Event;
use second::Answer;

/// Two operations of a chain to different places, its commit and its wait, and
/// a load of each operation's destination.
struct Chain {
    name: &'static str,
    first: Event,
    second: Event,
    commit: Event,
    wait: fn(u32) -> Event,
    load_first: Event,
    load_second: Event,
}

pub fn rows() -> Vec<Row> {
    let copies = Chain {
        name: "copies",
        first: copy(0, 0, 16),
        second: copy(16, 0, 16),
        commit: COMMIT,
        wait,
        load_first: load_shared(0, 16),
        load_second: load_shared(16, 16),
    };
    let bulk = Chain {
        name: "bulk",
        first: bulk_copy(0, 0, 16),
        second: reduction(ADD_U32, 16, 0, 16),
        commit: BULK_COMMIT,
        wait: bulk_wait,
        load_first: load_global(0, 16),
        load_second: load_global(16, 16),
    };
    [copies, bulk].iter().flat_map(Chain::all).collect()
}

impl Chain {
    fn all(&self) -> Vec<Row> {
        [
            self.one_group(),
            self.two_groups(),
            self.uncommitted(),
            self.one_group_of_two(),
            self.empty_groups(),
            self.empty_group_between(),
            self.one_wait_after_another(),
        ]
        .concat()
    }

    fn rows(&self, table: &[(&str, &[Event], Answer)]) -> Vec<Row> {
        let named = |(name, events, answer): &(&str, &[Event], Answer)| {
            row(&format!("{}_{}", self.name, name), memories(32, 32).file(events), *answer)
        };
        table.iter().map(named).collect()
    }

    fn one_group(&self) -> Vec<Row> {
        let then = |n| [self.first, self.commit, (self.wait)(n), self.load_first];
        self.rows(&[
            ("commit_closes_nothing", &[self.first, self.commit, self.load_first], clash(2, 0)),
            ("one_group_wait_0", &then(0), accepted(4, 1)),
            ("one_group_wait_1", &then(1), clash(3, 0)),
            ("one_group_wait_256", &then(256), clash(3, 0)),
            ("one_group_wait_4294967295", &then(4_294_967_295), clash(3, 0)),
        ])
    }

    fn two_groups(&self) -> Vec<Row> {
        let then =
            |n, load| [self.first, self.commit, self.second, self.commit, (self.wait)(n), load];
        self.rows(&[
            ("two_groups_wait_0_load_second", &then(0, self.load_second), accepted(6, 2)),
            ("two_groups_wait_1_load_first", &then(1, self.load_first), accepted(6, 2)),
            ("two_groups_wait_1_load_second", &then(1, self.load_second), clash(5, 2)),
            ("two_groups_wait_2_load_first", &then(2, self.load_first), clash(5, 0)),
        ])
    }

    /// A wait closes only what was committed before it.
    fn uncommitted(&self) -> Vec<Row> {
        let Chain { first, second, commit, wait, load_first, load_second, .. } = *self;
        let one_of_two = |load| [first, commit, second, wait(0), load];
        let between_two_waits = [first, wait(0), commit, wait(0), load_first];
        self.rows(&[
            ("committed_beside_uncommitted", &one_of_two(load_first), accepted(5, 2)),
            ("uncommitted_beside_committed", &one_of_two(load_second), clash(4, 2)),
            ("commit_after_the_wait", &[first, wait(0), commit, load_first], clash(3, 0)),
            ("commit_between_two_waits", &between_two_waits, accepted(5, 1)),
        ])
    }

    /// A commit takes all that is not yet committed.
    fn one_group_of_two(&self) -> Vec<Row> {
        let Chain { first, second, commit, wait, load_first, load_second, .. } = *self;
        let all_closed = [first, second, commit, wait(0), load_first, load_second];
        let all_open = [first, second, commit, wait(1), load_second];
        self.rows(&[
            ("one_group_of_two_wait_0", &all_closed, accepted(6, 2)),
            ("one_group_of_two_wait_1_load_second", &all_open, clash(4, 1)),
        ])
    }

    /// Empty groups count among the N newest.
    fn empty_groups(&self) -> Vec<Row> {
        let Chain { first, commit, wait, load_first: load, .. } = *self;
        let before = [commit, first, commit, wait(1), load];
        let after = |n| [first, commit, commit, wait(n), load];
        self.rows(&[
            ("empty_group_before_wait_1", &before, clash(4, 1)),
            ("empty_group_after_wait_1", &after(1), accepted(5, 1)),
            ("empty_group_after_wait_2", &after(2), clash(4, 0)),
        ])
    }

    fn empty_group_between(&self) -> Vec<Row> {
        let Chain { first, second, commit, wait, load_first, load_second, .. } = *self;
        let then = |load| [first, commit, commit, second, commit, wait(2), load];
        self.rows(&[
            ("empty_group_between_wait_2_load_first", &then(load_first), accepted(7, 2)),
            ("empty_group_between_wait_2_load_second", &then(load_second), clash(6, 3)),
        ])
    }

    fn one_wait_after_another(&self) -> Vec<Row> {
        let Chain { first, second, commit, wait, load_first, load_second, .. } = *self;
        let twice = [first, commit, second, commit, wait(1), wait(1), load_second];
        let again = [first, commit, wait(0), first, load_first];
        self.rows(&[
            ("wait_1_then_wait_1_load_second", &twice, clash(6, 2)),
            ("the_same_again_after_its_wait", &again, clash(4, 3)),
        ])
    }
}
