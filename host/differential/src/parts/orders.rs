//! Short lists against all their permitted orders, enumerated outright.

use crate::comparison::{hex, Comparison, Difference};
use crate::lists::{accepted, list, pipeline, spoiled};
use crate::parts::runs::{lent, room};
use crate::random::Random;
use crate::subject::{Left, Lent, Ran};
use second::orders::{judge_by_orders, outcomes};
use second::trace::{
    Cache, ElementType, Event, GlobalAddress, Mode, Operation, Place, SharedAddress, Trace,
};

/// Lists with more orders than this are left out.
const MOST: usize = 20_000;

/// So many lists have to be enumerated.
const LEAST: u64 = 50_000;

/// Events that share bytes in many ways: two memories of 16 bytes, and few places in them.
const EVENTS: [Event; 14] = [
    Event::Load {
        place: Place::Shared(SharedAddress(0)),
        size: 4,
    },
    Event::Store {
        place: Place::Global(GlobalAddress(4)),
        size: 2,
        value: [1, 2, 0, 0, 0, 0, 0, 0, 0, 0, 0, 0, 0, 0, 0, 0],
    },
    copy(0, 0),
    copy(4, 4),
    Event::Commit,
    Event::Wait { n: 0 },
    Event::Wait { n: 1 },
    Event::WaitAll,
    Event::BulkCopy {
        dst: GlobalAddress(0),
        src: SharedAddress(0),
        size: 16,
    },
    reduction(Operation::Add),
    reduction(Operation::Max),
    Event::BulkCommit,
    Event::BulkWait { n: 0 },
    Event::BulkWait { n: 1 },
];

const fn copy(dst: u32, src: u32) -> Event {
    Event::Copy {
        dst: SharedAddress(dst),
        src: GlobalAddress(src),
        src_size: 0,
        cp_size: 4,
        mode: Mode::Plain,
        cache: Cache::Ca,
    }
}

const fn reduction(operation: Operation) -> Event {
    Event::Reduction {
        dst: GlobalAddress(0),
        src: SharedAddress(0),
        size: 16,
        operation,
        element: ElementType::U32,
    }
}

pub fn compare(comparison: &mut Comparison<'_>) -> Result<(), Difference> {
    let by_orders = |file: &[u8]| judge_by_orders(file, MOST);
    comparison.judge_as(&every_short_list(), &by_orders)?;
    for _ in 0..comparison.times {
        let random = &mut comparison.random;
        let files: Vec<Vec<u8>> = (0..20_000)
            .map(|_| {
                let events = random.index(8);
                let faults = random.pick(&[0, 0, 60]);
                list(random, events, faults).write()
            })
            .collect();
        comparison.judge_as(&files, &by_orders)?;
        let random = &mut comparison.random;
        let pipelines: Vec<Vec<u8>> = (0..3_000).map(|_| short_pipeline(random)).collect();
        comparison.judge_as(&pipelines, &by_orders)?;
        bytes(comparison)?;
    }
    match comparison.counts.judged() {
        LEAST.. => Ok(()),
        few => Err(Difference {
            shows: format!("fewer than {LEAST} lists were enumerated, so little is tried"),
            files: Vec::new(),
            proved: few.to_string(),
            expected: format!("at least {LEAST}"),
        }),
    }
}

/// Waits that close some groups and not others: K5's shape.
fn short_pipeline(random: &mut Random) -> Vec<u8> {
    let (stages, depth) = (2 + random.index(3), 1 + random.index(2));
    let trace = pipeline(random, stages, depth);
    match random.one_in(2) {
        true => trace.write(),
        false => spoiled(random, trace).write(),
    }
}

/// Every list of up to four of those events.
fn every_short_list() -> Vec<Vec<u8>> {
    let mut lists: Vec<Vec<Event>> = vec![Vec::new()];
    let mut files = Vec::new();
    for _ in 0..4 {
        let longer = |list: &Vec<Event>| EVENTS.map(|event| [list.as_slice(), &[event]].concat());
        lists = lists.iter().flat_map(longer).collect();
        files.extend(lists.iter().map(|events| {
            let trace = Trace {
                global_length: 16,
                shared_length: 16,
                events: events.clone(),
            };
            trace.write()
        }));
    }
    files
}

/// An accepted list gives the same bytes in every permitted order, and these are what its run leaves.
fn bytes(comparison: &mut Comparison<'_>) -> Result<(), Difference> {
    let random = &mut comparison.random;
    let runs: Vec<Lent> = (0..5_000)
        .map(|_| {
            let events = 1 + random.index(8);
            let trace = accepted(random, events);
            lent(random, &trace, room(&trace))
        })
        .collect();
    let ran = comparison.run(&runs)?;
    for (lent, Ran { left, .. }) in runs.iter().zip(ran) {
        let found = outcomes(&lent.file, &lent.global, &lent.shared, MOST);
        let found: Option<Vec<Left>> = found.map(|found| {
            let left = found.into_iter().map(|outcome| Left {
                loads: outcome.loads,
                global: outcome.global,
                shared: outcome.shared,
            });
            left.collect()
        });
        let one = |found: &Vec<Left>| found.iter().eq(left.iter());
        if !found.as_ref().map_or(true, one) {
            return Err(several(lent, left, found));
        }
    }
    Ok(())
}

fn several(lent: &Lent, left: Option<Left>, found: Option<Vec<Left>>) -> Difference {
    let told = |left: &Left| {
        let (loads, global, shared) = (hex(&left.loads), hex(&left.global), hex(&left.shared));
        format!("loads {loads}, global {global}, shared {shared}; ")
    };
    Difference {
        shows: "an accepted list has one outcome in all its orders, that of its run".to_string(),
        files: vec![
            ("file", lent.file.clone()),
            ("global memory", lent.global.clone()),
            ("shared memory", lent.shared.clone()),
        ],
        proved: left.iter().map(told).collect(),
        expected: found.iter().flatten().map(told).collect(),
    }
}
