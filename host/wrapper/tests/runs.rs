//! The runs of the table leave the bytes that it says, and refused ones leave all as it was. Every file of the table leaves
//! what the second program's run leaves.

use std::collections::BTreeMap;

/// Global memory, shared memory and load record.
type Lent = (Vec<u8>, Vec<u8>, Vec<u8>);

/// Bytes that differ from their neighbours.
fn filled(length: usize, seed: usize) -> Vec<u8> {
    (0..length)
        .map(|index| (seed + 7 * index + index / 256) as u8)
        .collect()
}

/// The length that a header names from this byte on, if a memory can have it.
fn length_at(file: &[u8], at: usize) -> usize {
    let bytes = file.get(at..at + 4).and_then(|bytes| bytes.try_into().ok());
    let length = bytes.map_or(0, |bytes| u32::from_le_bytes(bytes) as usize);
    length.min(65_536)
}

#[test]
fn each_file_leaves_what_the_second_program_leaves() {
    for row in traces::rows() {
        for room in [0, 3, 16_384] {
            let (global, shared) = (length_at(&row.file, 4), length_at(&row.file, 8));
            let lent: Lent = (filled(global, 1), filled(shared, 2), filled(room, 3));
            let (mut proved, mut second) = (lent.clone(), lent);
            let answer = wrapper::run(&row.file, &mut proved.0, &mut proved.1, &mut proved.2);
            let other = second::run(&row.file, &mut second.0, &mut second.1, &mut second.2);
            assert_eq!(
                answer.numbers().to_string(),
                other.to_string(),
                "{}",
                row.name
            );
            assert!(proved == second, "{} with a record of {room}", row.name);
        }
    }
}

#[test]
fn each_run_leaves_what_the_table_says() {
    let files: BTreeMap<String, Vec<u8>> = traces::rows()
        .into_iter()
        .map(|row| (row.name, row.file))
        .collect();
    for row in traces::runs() {
        let (mut global, mut shared, mut loads) =
            (row.global.clone(), row.shared.clone(), row.loads.clone());
        let answer = wrapper::run(&files[&row.trace], &mut global, &mut shared, &mut loads);
        let shows = format!("{}: {}", row.trace, row.shows);
        assert_eq!(
            answer.numbers().to_string(),
            row.answer.to_string(),
            "{shows}"
        );
        assert_eq!(answer.is_accepted(), row.after.is_some(), "{shows}");
        let (expected_global, expected_shared, expected_loads) = match row.after {
            Some(after) => (after.global, after.shared, after.loads),
            None => (row.global, row.shared, row.loads),
        };
        assert_eq!(global, expected_global, "{shows}: global memory");
        assert_eq!(shared, expected_shared, "{shows}: shared memory");
        assert_eq!(loads, expected_loads, "{shows}: load record");
    }
}

/// Memories of every other length than the file says, the empty ones among them.
#[test]
fn memories_of_other_lengths_are_refused_and_stay() {
    let rows = traces::rows();
    let k01 = &rows[0];
    assert_eq!(k01.name, "k01_copy_wait_all_load.trace");
    for (global_length, shared_length) in [(0, 0), (15, 16), (16, 15), (17, 16), (16, 17)] {
        let (mut global, mut shared, mut loads) =
            (vec![1; global_length], vec![2; shared_length], vec![3; 4]);
        let answer = wrapper::run(&k01.file, &mut global, &mut shared, &mut loads);
        assert_eq!(answer, wrapper::Answer::WrongMemoryLength);
        let expected = (vec![1; global_length], vec![2; shared_length], vec![3; 4]);
        assert_eq!((global, shared, loads), expected);
    }
}
