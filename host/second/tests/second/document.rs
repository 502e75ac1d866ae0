//! What document 01 shows: the file in full, K1 to K10, the "Run:" lines, and
//! the wrong readings seen before.

use crate::lists::*;
use second::trace::{ElementType, Event, Mode, Operation, Trace};
use second::{judge, run, sheet, Answer};

const FILE: [u8; 48] = [
    0x03, 0x00, 0x00, 0x00, 0x10, 0x00, 0x00, 0x00, 0x10, 0x00, 0x00, 0x00, 0x10, 0x00, 0x10, 0x00,
    0x13, 0x00, 0x00, 0x00, 0x01, 0x00, 0x08, 0x00, 0x00, 0x00, 0x00, 0x00, 0x00, 0x00, 0x00, 0x00,
    0x00, 0x00, 0x00, 0x00, 0x04, 0x00, 0x00, 0x00, 0x01, 0x04, 0x00, 0x00, 0x00, 0x00, 0x00, 0x00,
];

#[test]
fn the_file_in_full() {
    let trace = Trace {
        global_length: 16,
        shared_length: 16,
        events: vec![copy(0, 0, 4), Event::WaitAll, load(shared(0), 4)],
    };
    assert_eq!(second::trace::read(&FILE), Ok(trace.clone()));
    assert_eq!(trace.write(), FILE);
    assert_eq!(judge(&FILE), accepted(3, 1));
}

#[test]
fn its_sheet_and_that_without_the_wait() {
    let mut bytes = [0xee; 12];
    let written = sheet::write(judge(&FILE), &mut bytes);
    assert_eq!(written, Answer::bare(1));
    assert_eq!(bytes, [4, 0, 8, 0, 3, 0, 0, 0, 1, 0, 1, 0]);
    let without = file(16, 16, &[copy(0, 0, 4), load(shared(0), 4)]);
    let written = sheet::write(judge(&without), &mut bytes);
    assert_eq!(written, Answer::bare(1));
    assert_eq!(bytes, [4, 0, 8, 0, 1, 0, 0, 0, 0, 0, 10, 0]);
}

#[test]
fn k1_and_k2() {
    assert_eq!(
        judged(&[copy(0, 0, 4), Event::WaitAll, load(shared(0), 4)]),
        accepted(3, 1)
    );
    assert_eq!(judged(&[copy(0, 0, 4), load(shared(0), 4)]), clash(1, 0));
}

#[test]
fn k3_and_k4() {
    let with = [copy(0, 0, 4), Event::Commit, wait(0), load(shared(0), 4)];
    assert_eq!(judged(&with), accepted(4, 1));
    let without = [copy(0, 0, 4), wait(0), load(shared(0), 4)];
    assert_eq!(judged(&without), clash(2, 0));
}

#[test]
fn k5() {
    let mut events = Vec::new();
    for place in [0, 16, 32] {
        events.extend([copy(place, place, 16), Event::Commit]);
    }
    events.push(wait(1));
    let mut second = events.clone();
    second.push(load(shared(16), 16));
    assert_eq!(judged(&second), accepted(8, 3));
    let mut third = events;
    third.push(load(shared(32), 16));
    assert_eq!(judged(&third), clash(7, 4));
}

#[test]
fn k6() {
    let events = [copy(0, 0, 4), Event::Commit, copy(0, 4, 4)];
    assert_eq!(judged(&events), clash(2, 0));
}

#[test]
fn k7() {
    let copy = copy_in_mode(0, 0, 4, Mode::Given, 3);
    assert_eq!(judged(&[copy, store(global(3), 1, 7)]), accepted(2, 1));
    assert_eq!(judged(&[copy, store(global(2), 1, 7)]), clash(1, 0));
}

#[test]
fn k8() {
    let both = [add(0, 0), add(0, 16), Event::BulkCommit];
    assert_eq!(judged(&both), accepted(3, 2));
    let max = reduction(Operation::Max, ElementType::U32, 0, 16, 16);
    assert_eq!(judged(&[add(0, 0), max]), clash(1, 0));
    // Signed and unsigned add therefore clash.
    let signed = reduction(Operation::Add, ElementType::S32, 0, 16, 16);
    assert_eq!(judged(&[add(0, 0), signed]), clash(1, 0));
}

#[test]
fn k9() {
    let events = [add(0, 0), Event::WaitAll, load(global(0), 4)];
    assert_eq!(judged(&events), clash(2, 0));
}

#[test]
fn k10() {
    assert_eq!(judged(&[]), accepted(0, 0));
}

#[test]
fn run_bulk_sizes() {
    for (size, answer) in [
        (0, refused(7, 0)),
        (24, refused(7, 0)),
        (16, accepted(1, 1)),
    ] {
        assert_eq!(judged(&[bulk_copy(0, 0, size)]), answer);
        let reduction = reduction(Operation::And, ElementType::B32, 0, 0, size);
        assert_eq!(judged(&[reduction]), answer);
    }
}

#[test]
fn run_src_sizes() {
    let of = |src_size| judged(&[copy_in_mode(0, 0, 4, Mode::Given, src_size)]);
    assert_eq!(of(4), accepted(1, 1));
    assert_eq!(of(5), refused(7, 0));
}

#[test]
fn run_alignment_and_range() {
    for memory in [0, 8, 11, 12, 64] {
        let file = file(memory, memory, &[load(shared(4), 8)]);
        assert_eq!(judge(&file), refused(8, 0));
    }
    assert_eq!(judged(&[load(shared(4_294_967_280), 16)]), refused(9, 0));
    assert_eq!(judged(&[load(global(4_294_967_280), 16)]), refused(9, 0));
}

#[test]
fn run_event_counts() {
    let events = vec![Event::Commit; 1_024];
    assert_eq!(judged(&events), accepted(1_024, 0));
    let events = vec![Event::Commit; 1_025];
    assert_eq!(judged(&events), refused(3, 0));
}

#[test]
fn run_reductions() {
    let sum = reduced(Operation::Add, ElementType::U32, u32::MAX, 1);
    assert_eq!(sum, 0);
    let least = reduced(Operation::Min, ElementType::S32, u32::MAX, 1);
    assert_eq!(least, u32::MAX);
}

/// One element of a reduction run over two memories of 16 bytes.
fn reduced(operation: Operation, element: ElementType, destination: u32, source: u32) -> u32 {
    let mut global = destination.to_le_bytes().repeat(4);
    let mut shared = source.to_le_bytes().repeat(4);
    let file = file(16, 16, &[reduction(operation, element, 0, 0, 16)]);
    assert_eq!(
        run(&file, &mut global, &mut shared, &mut []),
        accepted(1, 1)
    );
    assert_eq!(global, global[..4].repeat(4));
    u32::from_le_bytes([global[0], global[1], global[2], global[3]])
}

#[test]
fn every_reduction() {
    let negative = u32::MAX - 4;
    for (operation, element, destination, source, expected) in [
        (Operation::And, ElementType::B32, 0b1100, 0b1010, 0b1000),
        (Operation::Or, ElementType::B32, 0b1100, 0b1010, 0b1110),
        (Operation::Xor, ElementType::B32, 0b1100, 0b1010, 0b0110),
        (Operation::Add, ElementType::U32, 0x1_00ff, 1, 0x1_0100),
        (Operation::Add, ElementType::S32, negative, 3, negative + 3),
        (Operation::Min, ElementType::U32, negative, 3, 3),
        (Operation::Min, ElementType::U32, 3, negative, 3),
        (Operation::Min, ElementType::S32, negative, 3, negative),
        (Operation::Min, ElementType::S32, 3, negative, negative),
        (Operation::Max, ElementType::U32, negative, 3, negative),
        (Operation::Max, ElementType::U32, 3, negative, negative),
        (Operation::Max, ElementType::S32, negative, 3, 3),
        (Operation::Max, ElementType::S32, 3, negative, 3),
        (Operation::Min, ElementType::S32, 1 << 31, 0, 1 << 31),
        (Operation::Min, ElementType::U32, 1 << 31, 0, 0),
    ] {
        assert_eq!(reduced(operation, element, destination, source), expected);
    }
}

#[test]
fn a_wait_does_not_close_what_nobody_committed() {
    let events = [copy(0, 0, 4), Event::Commit, copy(4, 4, 4), wait(0)];
    let mut first = events.to_vec();
    first.push(load(shared(0), 4));
    assert_eq!(judged(&first), accepted(5, 2));
    let mut second = events.to_vec();
    second.push(load(shared(4), 4));
    assert_eq!(judged(&second), clash(4, 2));
}

#[test]
fn empty_groups_count_among_the_newest() {
    let events = [
        copy(0, 0, 4),
        Event::Commit,
        Event::Commit,
        wait(1),
        load(shared(0), 4),
    ];
    assert_eq!(judged(&events), accepted(5, 1));
    let bulk = [
        bulk_copy(0, 0, 16),
        Event::BulkCommit,
        Event::BulkCommit,
        bulk_wait(1),
        load(global(0), 4),
    ];
    assert_eq!(judged(&bulk), accepted(5, 1));
}

#[test]
fn commit_order_is_not_byte_order() {
    let events = [
        bulk_copy(0, 0, 16),
        Event::BulkCommit,
        bulk_copy(0, 16, 16),
        Event::BulkCommit,
    ];
    assert_eq!(judged(&events), clash(2, 0));
}

#[test]
fn source_bytes_past_src_size_are_not_read() {
    for src_size in 0..=8 {
        let copy = copy_in_mode(0, 0, 8, Mode::Given, src_size);
        for byte in 0..8 {
            let answer = judged(&[copy, store(global(byte), 1, 7)]);
            let expected = if byte < src_size {
                clash(1, 0)
            } else {
                accepted(2, 1)
            };
            assert_eq!(answer, expected);
        }
    }
}

#[test]
fn address_plus_size_does_not_wrap() {
    let top = u32::MAX - 15;
    for event in [
        load(shared(u32::MAX), 1),
        load(shared(top), 16),
        store(global(top), 16, 1),
        copy(top, 0, 16),
        copy(0, top, 16),
        bulk_copy(top, 0, 16),
        bulk_copy(0, top, 16),
        bulk_copy(0, 0, top),
        add(top, 0),
        add(0, top),
    ] {
        assert_eq!(judged(&[event]), refused(9, 0), "{event}");
    }
    assert_eq!(judged(&[bulk_copy(16, 16, top)]), refused(9, 0));
}
