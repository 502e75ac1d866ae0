//! The run: what it leaves in the memories and the load record, and that a
//! refusal leaves everything as it was.

use crate::lists::*;
use second::run;
use second::trace::{Event, Mode};

/// Two memories and a load record with bytes of their own.
struct Lent {
    global: Vec<u8>,
    shared: Vec<u8>,
    loads: Vec<u8>,
}

fn lent(global: usize, shared: usize, loads: usize) -> Lent {
    Lent {
        global: (0..global).map(|i| 1 + (i % 100) as u8).collect(),
        shared: (0..shared).map(|i| 101 + (i % 100) as u8).collect(),
        loads: vec![0xee; loads],
    }
}

impl Lent {
    fn run(&mut self, file: &[u8]) -> second::Answer {
        run(file, &mut self.global, &mut self.shared, &mut self.loads)
    }
}

#[test]
fn loads_are_appended_and_bytes_past_them_stay() {
    let events = [
        load(global(2), 2),
        copy(0, 0, 4),
        Event::WaitAll,
        load(shared(0), 8),
    ];
    let mut lent = lent(16, 16, 12);
    assert_eq!(lent.run(&file(16, 16, &events)), accepted(4, 1));
    assert_eq!(
        lent.loads,
        [3, 4, 1, 2, 3, 4, 105, 106, 107, 108, 0xee, 0xee]
    );
}

#[test]
fn code_11_where_the_loads_do_not_fit() {
    let file = file(16, 16, &[load(global(0), 16), load(shared(0), 1)]);
    let mut enough = lent(16, 16, 17);
    assert_eq!(enough.run(&file), accepted(2, 0));
    for length in 0..17 {
        let mut short = lent(16, 16, length);
        assert_eq!(short.run(&file), refused(11, 2));
        assert_eq!(short.loads, vec![0xee; length]);
    }
}

#[test]
fn code_4_for_unequal_lengths_before_events_and_after_the_shape() {
    let unknown = {
        let mut file = file(16, 32, &[Event::Commit]);
        file[12] = 3;
        file
    };
    for (global, shared, expected) in [
        (16, 32, refused(5, 0)),
        (15, 32, refused(4, 0)),
        (17, 32, refused(4, 0)),
        (16, 31, refused(4, 0)),
        (16, 33, refused(4, 0)),
        (32, 16, refused(4, 0)),
    ] {
        assert_eq!(lent(global, shared, 0).run(&unknown), expected);
        let mut longer = unknown.clone();
        longer.push(0);
        assert_eq!(lent(global, shared, 0).run(&longer), refused(2, 0));
    }
    // Lent memories that are too long as well do not help a length over 65,536.
    let too_long = file(65_537, 0, &[]);
    assert_eq!(lent(65_537, 0, 0).run(&too_long), refused(4, 0));
}

#[test]
fn a_refusal_writes_nothing() {
    let stores = [store(global(0), 4, 9), store(shared(0), 4, 9)];
    let refusals: [(Vec<Event>, u16); 5] = [
        (vec![bulk_copy(0, 0, 24)], 7),
        (vec![load(shared(1), 4)], 8),
        (vec![load(shared(64), 4)], 9),
        (vec![copy(0, 0, 4), load(shared(0), 4)], 10),
        (vec![load(shared(0), 8), load(shared(0), 8)], 11),
    ];
    for (refused, code) in refusals {
        let mut events = stores.to_vec();
        events.extend(refused);
        let mut lent_now = lent(64, 64, 8);
        assert_eq!(lent_now.run(&file(64, 64, &events)).code, code);
        let before = lent(64, 64, 8);
        assert_eq!(lent_now.global, before.global);
        assert_eq!(lent_now.shared, before.shared);
        assert_eq!(lent_now.loads, before.loads);
    }
}

#[test]
fn bytes_not_read_become_zero() {
    let events = [
        copy_in_mode(0, 0, 4, Mode::Given, 3),
        copy_in_mode(4, 4, 4, Mode::Given, 0),
        copy_in_mode(8, 8, 4, Mode::Ignored, 0),
        copy_in_mode(12, 12, 4, Mode::Given, 4),
    ];
    let mut lent = lent(16, 17, 0);
    assert_eq!(lent.run(&file(16, 17, &events)), accepted(4, 4));
    assert_eq!(
        lent.shared,
        [1, 2, 3, 0, 0, 0, 0, 0, 0, 0, 0, 0, 13, 14, 15, 16, 117]
    );
}

#[test]
fn operations_still_open_at_the_end_act_then() {
    let events = [bulk_copy(16, 0, 16), Event::BulkCommit, copy(16, 0, 16)];
    let mut lent = lent(32, 32, 0);
    let before = (lent.global.clone(), lent.shared.clone());
    assert_eq!(lent.run(&file(32, 32, &events)), accepted(3, 2));
    assert_eq!(lent.global[..16], before.0[..16]);
    assert_eq!(lent.global[16..], before.1[..16]);
    assert_eq!(lent.shared[..16], before.1[..16]);
    assert_eq!(lent.shared[16..], before.0[..16]);
}

#[test]
fn a_store_may_change_a_source_after_the_wait() {
    let events = [
        copy(0, 0, 4),
        Event::Commit,
        wait(0),
        store(global(0), 4, 9),
        load(shared(0), 4),
        load(global(0), 4),
    ];
    let mut lent = lent(16, 16, 8);
    assert_eq!(lent.run(&file(16, 16, &events)), accepted(6, 1));
    assert_eq!(lent.loads, [1, 2, 3, 4, 9, 9, 9, 9]);
}

#[test]
fn alike_reductions_all_reach_their_destination() {
    let mut global = [0; 16];
    let mut shared = [1; 48];
    let file = file(16, 48, &[add(0, 0), add(0, 16), add(0, 32)]);
    assert_eq!(
        run(&file, &mut global, &mut shared, &mut []),
        accepted(3, 3)
    );
    assert_eq!(global, [3; 16]);
}
