//! Each refusal from 2 to 10 with both sides of its bounds, and the order in
//! which the checks come.

use crate::lists::*;
use second::answer::Refusal;
use second::judge;
use second::judge::judge_in_words;
use second::trace::{shape, ElementType, Event, Mode, Operation};

fn reason(file: &[u8]) -> String {
    match judge_in_words(file) {
        Ok(answer) => panic!("accepted: {answer}"),
        Err(Refusal { reason, .. }) => reason,
    }
}

/// A file of one event of any kind and body, over memories of 64 bytes each.
fn one(kind: u8, body: &[u8]) -> Vec<u8> {
    let mut file = vec![1, 0, 0, 0, 64, 0, 0, 0, 64, 0, 0, 0];
    let [low, high] = (body.len() as u16).to_le_bytes();
    file.extend([kind, 0, low, high]);
    file.extend(body);
    file
}

#[test]
fn code_2_shape() {
    let right = file(16, 16, &[copy(0, 0, 4), Event::WaitAll, load(shared(0), 4)]);
    for length in 0..right.len() {
        assert_eq!(judge(&right[..length]), refused(2, 0), "cut to {length}");
    }
    let mut longer = right.clone();
    longer.push(0);
    assert_eq!(judge(&longer), refused(2, 0));
    assert_eq!(
        reason(&longer),
        "the file has 49 bytes; header, table and bodies make 48"
    );
    for reserved in [2, 3, 13, 17, 21] {
        let mut wrong = right.clone();
        wrong[reserved] = 1;
        assert_eq!(judge(&wrong), refused(2, 0), "byte {reserved}");
    }
}

#[test]
fn code_3_comes_after_the_header_and_before_the_rest() {
    let mut file = vec![1, 4, 9, 9, 255, 255, 255, 255, 255, 255, 255, 255];
    assert_eq!(judge(&file), refused(3, 0));
    assert_eq!(judge(&file[..11]), refused(2, 0));
    file[0] = 0;
    assert_eq!(judge(&file), refused(2, 0));
}

#[test]
fn code_4_comes_after_the_shape_and_before_the_events() {
    let unknown = one(0, &[]);
    assert_eq!(judge(&unknown), refused(5, 0));
    for at in [4, 8] {
        let mut longest = unknown.clone();
        longest[at..at + 4].copy_from_slice(&65_536_u32.to_le_bytes());
        assert_eq!(judge(&longest), refused(5, 0));
        let mut too_long = unknown.clone();
        too_long[at..at + 4].copy_from_slice(&65_537_u32.to_le_bytes());
        assert_eq!(judge(&too_long), refused(4, 0));
        too_long.push(0);
        assert_eq!(judge(&too_long), refused(2, 0));
    }
}

#[test]
fn code_5_for_every_unknown_kind_with_any_body() {
    for kind in 0..=255 {
        let known = matches!(kind, 1..=2 | 16..=19 | 32..=35);
        for length in [0, 5, 300] {
            let answer = judge(&one(kind, &vec![0; length]));
            let expected = if !known {
                refused(5, 0)
            } else if length == 0 && matches!(kind, 17 | 19 | 34) {
                accepted(1, 0)
            } else {
                refused(6, 0)
            };
            assert_eq!(answer, expected, "kind {kind}, length {length}");
        }
    }
}

#[test]
fn code_6_for_every_other_body_length() {
    for (kind, right) in [
        (1, 8),
        (2, 24),
        (16, 16),
        (17, 0),
        (18, 4),
        (19, 0),
        (32, 12),
        (33, 16),
        (34, 0),
        (35, 4),
    ] {
        for length in 0..40 {
            let code = judge(&one(kind, &vec![0; length])).code;
            assert_eq!(code != 6, length == right, "kind {kind}, length {length}");
        }
    }
    assert_eq!(
        reason(&one(16, &[0; 12])),
        "the body of kind 16 (copy) is 12 bytes long; it should be 16"
    );
}

/// The events of which each single byte of the body is then varied.
fn right_events() -> Vec<Event> {
    vec![
        load(shared(0), 4),
        store(global(0), 4, 9),
        copy(0, 0, 4),
        copy_in_mode(0, 0, 16, Mode::Given, 3),
        copy_in_mode(0, 0, 16, Mode::Ignored, 0),
        bulk_copy(0, 0, 16),
        reduction(Operation::Xor, ElementType::B32, 0, 0, 16),
        reduction(Operation::Min, ElementType::S32, 0, 0, 16),
    ]
}

/// How many of the 256 values of each body byte give code 7.
fn field_refusals(event: &Event) -> Vec<usize> {
    let body = event.body();
    let refused = |at: usize| {
        let varied = (0..=255).filter(|value| {
            let mut body = body.clone();
            body[at] = *value;
            judge(&one(event.kind(), &body)).code == 7
        });
        varied.count()
    };
    (0..body.len()).map(refused).collect()
}

#[test]
fn code_7_for_each_field() {
    let expected: [&[usize]; 8] = [
        // Two spaces, five sizes; addresses are no matter of fields.
        &[254, 251, 255, 255, 0, 0, 0, 0],
        // Sizes 4, 8 and 16 hold the four value bytes, 1 and 2 do not.
        &[
            254, 253, 255, 255, 0, 0, 0, 0, 0, 0, 0, 0, 255, 255, 255, 255, 255, 255, 255, 255,
            255, 255, 255, 255,
        ],
        // Plain: src-size 0; three cp-sizes, three modes; .ca alone.
        &[
            0, 0, 0, 0, 0, 0, 0, 0, 255, 255, 255, 255, 253, 253, 255, 255,
        ],
        // Given 3 of 16: src-size 0 to 16; one mode; both caches.
        &[
            0, 0, 0, 0, 0, 0, 0, 0, 239, 255, 255, 255, 253, 255, 254, 255,
        ],
        &[
            0, 0, 0, 0, 0, 0, 0, 0, 255, 255, 255, 255, 253, 253, 254, 255,
        ],
        // Sizes 16 to 240 in the low byte; any other byte keeps the multiple.
        &[0, 0, 0, 0, 0, 0, 0, 0, 241, 0, 0, 0],
        // Three operations with b32; one type with xor.
        &[0, 0, 0, 0, 0, 0, 0, 0, 241, 0, 0, 0, 253, 255, 255, 255],
        &[0, 0, 0, 0, 0, 0, 0, 0, 241, 0, 0, 0, 253, 254, 255, 255],
    ];
    for (event, expected) in right_events().iter().zip(expected) {
        assert_eq!(field_refusals(event), expected, "{event}");
    }
}

#[test]
fn code_7_before_alignment_and_range() {
    let mut body = load(shared(1_000_001), 4).body();
    assert_eq!(judge(&one(1, &body)), refused(8, 0));
    body[2] = 1;
    assert_eq!(judge(&one(1, &body)), refused(7, 0));
    assert_eq!(judged(&[bulk_copy(1, 1, 24)]), refused(7, 0));
}

#[test]
fn cg_only_with_cp_size_16() {
    for (cp_size, expected) in [(4, refused(7, 0)), (8, refused(7, 0)), (16, accepted(1, 1))] {
        let mut body = copy(0, 0, cp_size).body();
        body[14] = 1;
        assert_eq!(judge(&one(16, &body)), expected);
    }
}

#[test]
fn every_pair_of_operation_and_type() {
    for operation in 0..=6 {
        for element in 0..=3 {
            let mut body = add(0, 0).body();
            body[12] = operation;
            body[13] = element;
            let valid = matches!((operation, element), (0..=2, 0) | (3..=5, 1..=2));
            let expected = if valid { accepted(1, 1) } else { refused(7, 0) };
            assert_eq!(judge(&one(33, &body)), expected, "{operation} {element}");
        }
    }
}

#[test]
fn code_8_alignment() {
    for size in [1, 2, 4, 8, 16] {
        for address in 0..=48 {
            let aligned = address % u32::from(size) == 0;
            let code = if aligned { 1 } else { 8 };
            assert_eq!(judged(&[load(shared(address), size)]).code, code);
            assert_eq!(judged(&[store(global(address), size, 0)]).code, code);
        }
    }
    for cp_size in [4, 8, 16] {
        for address in 0..=48 {
            let aligned = address % u32::from(cp_size) == 0;
            let code = if aligned { 1 } else { 8 };
            for (mode, src_size) in [(Mode::Plain, 0), (Mode::Given, 1), (Mode::Ignored, 0)] {
                let at_src = copy_in_mode(0, address, cp_size, mode, src_size);
                assert_eq!(judged(&[at_src]).code, code);
                let at_dst = copy_in_mode(address, 0, cp_size, mode, src_size);
                assert_eq!(judged(&[at_dst]).code, code);
            }
        }
    }
    for address in 0..=48 {
        let code = if address % 16 == 0 { 1 } else { 8 };
        for event in [bulk_copy(address, 0, 16), bulk_copy(0, address, 16)] {
            assert_eq!(judged(&[event]).code, code);
        }
        for event in [add(address, 0), add(0, address)] {
            assert_eq!(judged(&[event]).code, code);
        }
    }
}

#[test]
fn code_9_range_at_each_end() {
    let judge_in = |global, shared, event| judge(&file(global, shared, &[event])).code;
    assert_eq!(judge_in(0, 20, load(shared(16), 4)), 1);
    assert_eq!(judge_in(0, 19, load(shared(16), 4)), 9);
    assert_eq!(judge_in(20, 0, store(global(16), 4, 1)), 1);
    assert_eq!(judge_in(19, 99, store(global(16), 4, 1)), 9);
    assert_eq!(judge_in(8, 12, copy(8, 4, 4)), 1);
    assert_eq!(judge_in(7, 12, copy(8, 4, 4)), 9);
    assert_eq!(judge_in(8, 11, copy(8, 4, 4)), 9);
    assert_eq!(judge_in(48, 32, bulk_copy(16, 0, 32)), 1);
    assert_eq!(judge_in(47, 32, bulk_copy(16, 0, 32)), 9);
    assert_eq!(judge_in(48, 31, bulk_copy(16, 0, 32)), 9);
    assert_eq!(judge_in(16, 32, add(0, 16)), 1);
    assert_eq!(judge_in(15, 32, add(0, 16)), 9);
    assert_eq!(judge_in(16, 31, add(0, 16)), 9);
    assert_eq!(judge_in(65_536, 65_536, bulk_copy(0, 0, 65_536)), 1);
    assert_eq!(judge_in(65_536, 65_536, bulk_copy(0, 0, 65_552)), 9);
}

#[test]
fn a_source_of_which_no_byte_is_read_has_no_range_check() {
    let judge_in = |event| judge(&file(6, 16, &[event]));
    assert_eq!(
        judge_in(copy_in_mode(0, 4, 4, Mode::Plain, 0)),
        refused(9, 0)
    );
    for src_size in 0..=4 {
        let answer = judge_in(copy_in_mode(0, 4, 4, Mode::Given, src_size));
        let expected = if src_size <= 2 {
            accepted(1, 1)
        } else {
            refused(9, 0)
        };
        assert_eq!(answer, expected, "src-size {src_size}");
    }
    let far = u32::MAX - 3;
    assert_eq!(
        judge_in(copy_in_mode(0, far, 4, Mode::Given, 0)),
        accepted(1, 1)
    );
    assert_eq!(
        judge_in(copy_in_mode(0, far, 4, Mode::Ignored, 0)),
        accepted(1, 1)
    );
    assert_eq!(
        judge_in(copy_in_mode(0, far + 1, 4, Mode::Ignored, 0)),
        refused(8, 0)
    );
}

#[test]
fn code_10_names_the_lowest_partner() {
    let events = [
        copy(0, 0, 4),
        copy(4, 0, 4),
        copy(8, 0, 4),
        load(shared(0), 16),
    ];
    assert_eq!(judged(&events), clash(3, 0));
    let events = [copy(32, 32, 4), copy(8, 32, 4), bulk_copy(0, 0, 16)];
    assert_eq!(judged(&events), clash(2, 1));
    // The third's source meets the second, its destination the first.
    let events = [
        copy(32, 16, 4),
        copy(0, 32, 4),
        reduction(Operation::Or, ElementType::B32, 16, 0, 16),
    ];
    assert_eq!(judged(&events), clash(2, 0));
}

#[test]
fn reads_do_not_clash_and_the_threads_own_events_neither() {
    let events = [
        store(global(0), 4, 1),
        load(global(0), 4),
        copy(0, 0, 4),
        copy(4, 0, 4),
        load(global(0), 4),
    ];
    assert_eq!(judged(&events), accepted(5, 2));
    let events = [
        store(shared(0), 16, 1),
        bulk_copy(0, 0, 16),
        bulk_copy(16, 0, 16),
        load(shared(0), 16),
    ];
    assert_eq!(judged(&events), accepted(4, 2));
}

#[test]
fn a_reductions_source_is_read_like_any_other() {
    assert_eq!(judged(&[add(0, 16), store(shared(31), 1, 1)]), clash(1, 0));
    assert_eq!(judged(&[add(0, 16), copy(16, 32, 4)]), clash(1, 0));
    assert_eq!(judged(&[copy(16, 32, 4), add(0, 16)]), clash(1, 0));
    assert_eq!(
        judged(&[add(0, 16), add(16, 16), load(shared(16), 16)]),
        accepted(3, 2)
    );
    assert_eq!(judged(&[add(0, 16), load(global(15), 1)]), clash(1, 0));
    assert_eq!(judged(&[add(0, 16), bulk_copy(0, 16, 16)]), clash(1, 0));
    assert_eq!(judged(&[bulk_copy(0, 16, 16), add(0, 16)]), clash(1, 0));
}

#[test]
fn the_first_event_that_fails_is_the_answer() {
    let events = [
        copy(0, 0, 4),
        load(shared(0), 4),
        load(shared(1), 4),
        load(shared(64), 4),
    ];
    assert_eq!(judged(&events), clash(1, 0));
    assert_eq!(judged(&events[2..]), refused(8, 0));
    assert_eq!(judged(&events[3..]), refused(9, 0));
    assert_eq!(judged(&[events[0], events[3], events[1]]), refused(9, 1));
    // Range comes before clash at one event.
    let file = file(64, 32, &[copy(16, 0, 16), load(shared(16), 16)]);
    assert_eq!(judge(&file), clash(1, 0));
    let mut cut = file;
    cut[8] = 31;
    assert_eq!(judge(&cut), refused(9, 0));
}

#[test]
fn an_event_past_the_last_is_of_an_unknown_kind() {
    let file = file(0, 0, &[Event::Commit]);
    let shape = shape(&file).unwrap();
    assert_eq!(shape.len(), 1);
    assert!(!shape.is_empty());
    for event in [1, 65_535, 65_536, usize::MAX] {
        assert_eq!(shape.kind(event), 0);
        assert!(shape.body(event).is_empty());
        assert_eq!(shape.event(event).unwrap_err().answer.code, 5);
    }
}

#[test]
fn reasons_name_field_value_and_what_is_allowed() {
    let of = |event| reason(&file(16, 16, &[event]));
    assert_eq!(
        of(bulk_copy(0, 0, 24)),
        "size is 24; a bulk size is a multiple of 16 and not zero"
    );
    assert_eq!(
        of(load(shared(4), 8)),
        "shared address 4 is not a multiple of 8"
    );
    assert_eq!(
        of(load(global(16), 4)),
        "the event reads global bytes 16 to 19; global memory has 16 bytes"
    );
    assert_eq!(
        reason(&file(16, 16, &[copy(0, 0, 4), load(shared(0), 4)])),
        "event 1 (load of 4 bytes at shared 0) and event 0 (copy of 4 bytes from global 0 to \
         shared 0), which is still open, share shared byte 0; permitted orders put them either way"
    );
}
