//! Generated files, long and short, of all sorts.

use crate::comparison::{Comparison, Difference};
use crate::damage::{damaged, each_body_length, each_byte_changed, each_length};
use crate::lists::{accepted, list, list_over, mended, pipeline, source_stored, spoiled};
use crate::random::Random;
use second::trace::Event;

/// Each code that a file can get has to come this often, or the files do not show much.
const LEAST: u64 = 100;

pub fn compare(comparison: &mut Comparison<'_>) -> Result<(), Difference> {
    for _ in 0..comparison.times {
        for sort in [
            short,
            middling,
            pipelines,
            without_fault,
            with_damage,
            changed,
            cut,
            any_bytes,
            body_lengths,
        ] {
            let files = sort(&mut comparison.random);
            comparison.judge(&files)?;
        }
        // Long files are made and judged a few at a time: all of them together need much memory.
        for _ in 0..40 {
            for sort in [long, long_pipelines, over_long] {
                let files = sort(&mut comparison.random);
                comparison.judge(&files)?;
            }
        }
    }
    let judged = &comparison.counts.judged;
    let rare = (1..=10).find(|code| judged.get(code).map_or(true, |count| *count < LEAST));
    match rare {
        None => Ok(()),
        Some(code) => Err(Difference {
            shows: format!("fewer than {LEAST} files have code {code}, so little is tried"),
            files: Vec::new(),
            proved: format!("{judged:?}"),
            expected: format!("at least {LEAST} of each code"),
        }),
    }
}

fn many(count: usize, mut make: impl FnMut() -> Vec<u8>) -> Vec<Vec<u8>> {
    (0..count).map(|_| make()).collect()
}

fn short(random: &mut Random) -> Vec<Vec<u8>> {
    many(30_000, || {
        let events = random.index(8);
        list(random, events, 25).write()
    })
}

fn middling(random: &mut Random) -> Vec<Vec<u8>> {
    many(10_000, || {
        let events = 8 + random.index(50);
        let faults = random.pick(&[0, 0, 300]);
        list(random, events, faults).write()
    })
}

/// Waits that close some groups and not others, many with one wait or commit wrong, or a store to what is still read.
fn pipelines(random: &mut Random) -> Vec<Vec<u8>> {
    many(6_000, || {
        let (stages, depth) = (1 + random.index(24), random.index(20));
        any_pipeline(random, stages, depth)
    })
}

fn long_pipelines(random: &mut Random) -> Vec<Vec<u8>> {
    many(5, || {
        let (stages, depth) = (
            200 + random.index(150),
            random.pick(&[1, 16, 200, 255, 256, 300]),
        );
        any_pipeline(random, stages, depth)
    })
}

fn any_pipeline(random: &mut Random, stages: usize, depth: usize) -> Vec<u8> {
    let trace = pipeline(random, stages, depth);
    match random.below(3) {
        0 => trace.write(),
        1 => source_stored(trace).write(),
        _ => spoiled(random, trace).write(),
    }
}

fn without_fault(random: &mut Random) -> Vec<Vec<u8>> {
    many(10_000, || {
        let events = 1 + random.index(40);
        accepted(random, events).write()
    })
}

fn with_damage(random: &mut Random) -> Vec<Vec<u8>> {
    many(20_000, || {
        let events = 1 + random.index(12);
        let file = accepted(random, events).write();
        damaged(random, &file)
    })
}

/// Accepted lists, each byte of them changed.
fn changed(random: &mut Random) -> Vec<Vec<u8>> {
    let lists = many(20, || {
        let events = 4 + random.index(5);
        accepted(random, events).write()
    });
    lists
        .iter()
        .flat_map(|file| each_byte_changed(file))
        .collect()
}

fn cut(random: &mut Random) -> Vec<Vec<u8>> {
    let lists = many(120, || {
        let events = random.index(12);
        accepted(random, events).write()
    });
    lists
        .iter()
        .flat_map(|file| each_length(random, file))
        .collect()
}

/// One event alone, with bodies of other lengths.
fn body_lengths(random: &mut Random) -> Vec<Vec<u8>> {
    let lists = (0..10).flat_map(|_| list(random, 10, 0).events);
    let of_one = |event: Event| each_body_length(event.kind(), &event.body());
    lists.flat_map(of_one).collect()
}

/// Bytes drawn by lot, some behind the header of a small file.
fn any_bytes(random: &mut Random) -> Vec<Vec<u8>> {
    many(4_000, || {
        let length = random.index(80);
        let mut file = random.bytes(length);
        if random.one_in(2) {
            let header = [random.byte() % 4, 0, 0, 0, 64, 0, 0, 0, 64, 0, 0, 0];
            file.splice(..0, header);
        }
        file
    })
}

/// Lists of hundreds of events up to the limit and past it, over large memories, most of them accepted.
fn long(random: &mut Random) -> Vec<Vec<u8>> {
    many(5, || {
        let events = random.pick(&[300, 700, 1_000, 1_023, 1_024, 1_024, 1_025, 1_100]);
        let lengths = [512, 4_096, 65_536];
        let (global, shared) = (random.pick(&lengths), random.pick(&lengths));
        let trace = list_over(random, events, 0, global, shared);
        let mut file = match random.one_in(4) {
            true => trace.write(),
            false => mended(random, trace).write(),
        };
        // A fault late in a list: a byte among the last changes.
        if random.one_in(3) {
            let at = file.len() - 1 - random.index(16);
            file[at] = random.byte();
        }
        file
    })
}

/// Files with bodies of tens of thousands of bytes, or as many bytes after their end.
fn over_long(random: &mut Random) -> Vec<Vec<u8>> {
    let events = 1 + random.index(6);
    let mut file = list(random, events, 0).write();
    if random.one_in(2) {
        let more = random.index(200_000);
        file.extend(random.bytes(more));
        return vec![file];
    }
    let length = random.pick(&[29, 4_096, 28_684, 65_535]);
    file[0] += 1;
    let at = 12 + 4 * events;
    let entry = [
        random.pick(&[0, 16, 99]),
        0,
        length as u8,
        (length >> 8) as u8,
    ];
    file.splice(at..at, entry);
    file.extend(random.bytes(length));
    vec![file]
}
