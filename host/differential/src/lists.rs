//! Random lists of events over small memories, so that accesses often share bytes.

use crate::random::Random;
use second::access::bytes_read;
use second::trace::{
    Cache, ElementType, Event, GlobalAddress, Mode, Operation, Place, SharedAddress, Trace,
};

/// The pairs of operation and type that a reduction may have.
const PAIRS: [(Operation, ElementType); 9] = [
    (Operation::And, ElementType::B32),
    (Operation::Or, ElementType::B32),
    (Operation::Xor, ElementType::B32),
    (Operation::Add, ElementType::U32),
    (Operation::Min, ElementType::U32),
    (Operation::Max, ElementType::U32),
    (Operation::Add, ElementType::S32),
    (Operation::Min, ElementType::S32),
    (Operation::Max, ElementType::S32),
];

/// The kinds of a list, those that come more often several times.
const MIXTURES: [&[u8]; 5] = [
    &[1, 2, 16, 16, 17, 18, 19, 32, 33, 34, 35],
    &[1, 1, 2, 16, 16, 16, 17, 17, 18, 18, 19],
    &[1, 2, 32, 32, 33, 33, 33, 34, 34, 35, 35],
    &[16, 16, 32, 33, 33],
    &[1, 1, 2, 16, 17, 18, 34, 35, 32, 19],
];

/// The memories of a list, the kinds that come, and what makes its events.
struct Maker<'a> {
    random: &'a mut Random,
    global: u32,
    shared: u32,
    kinds: &'static [u8],
    /// The pair that most reductions of the list have, so that many may share a place.
    pair: (Operation, ElementType),
    /// One event in so many has a fault; none where this is 0.
    faults: u64,
}

/// A list of this many events over memories of a few bytes, with a fault in one event of so many.
pub fn list(random: &mut Random, events: usize, faults: u64) -> Trace {
    let lengths = [16, 17, 31, 32, 32, 48, 63, 64, 64, 96, 128];
    let (global, shared) = (random.pick(&lengths), random.pick(&lengths));
    list_over(random, events, faults, global, shared)
}

pub fn list_over(
    random: &mut Random,
    events: usize,
    faults: u64,
    global: u32,
    shared: u32,
) -> Trace {
    let kinds = random.pick(&MIXTURES);
    list_of(random, kinds, events, faults, (global, shared))
}

/// Loads alone, over memories of these lengths.
pub fn loads(random: &mut Random, events: usize, global: u32, shared: u32) -> Trace {
    list_of(random, &[1], events, 0, (global, shared))
}

fn list_of(
    random: &mut Random,
    kinds: &'static [u8],
    events: usize,
    faults: u64,
    (global, shared): (u32, u32),
) -> Trace {
    let pair = random.pick(&PAIRS);
    let mut maker = Maker {
        random,
        global,
        shared,
        kinds,
        pair,
        faults,
    };
    Trace {
        global_length: global,
        shared_length: shared,
        events: (0..events).map(|_| maker.event()).collect(),
    }
}

/// The list with waits put in and events left out until it is accepted.
pub fn mended(random: &mut Random, mut trace: Trace) -> Trace {
    loop {
        let answer = second::judge(&trace.write());
        let event = usize::from(answer.event);
        match answer.code {
            10 if random.one_in(2) && trace.events.len() < 1_000 => {
                let bulk = !matches!(
                    trace.events[usize::from(answer.partner)],
                    Event::Copy { .. }
                );
                let closing = if bulk { BULK_CLOSING } else { CLOSING };
                trace.events.splice(event..event, closing.iter().copied());
            }
            5..=10 => {
                trace.events.remove(event);
            }
            _ => return trace,
        }
    }
}

const CLOSING: &[Event] = &[Event::WaitAll];
const BULK_CLOSING: &[Event] = &[Event::BulkCommit, Event::BulkWait { n: 0 }];

/// A list that is accepted and has about this many events.
pub fn accepted(random: &mut Random, events: usize) -> Trace {
    let list = list(random, events, 0);
    mended(random, list)
}

/// A pipeline, which is accepted: each stage starts an operation into the next of its slots, commits it, waits until the
/// stage `depth` before it is closed, and loads what that one brought. The first stages may only fill the pipeline, so that
/// the first wait closes several groups at once.
pub fn pipeline(random: &mut Random, stages: usize, depth: usize) -> Trace {
    let filling = depth + random.index(3);
    let slots = filling + 1 + random.index(2);
    let slot = |stage: usize| 16 * (stage % slots) as u32;
    let (bulk, n) = (random.one_in(2), depth as u32);
    let mut events = Vec::new();
    for stage in 0..stages {
        let (operation, commit, wait) = match bulk {
            true => (
                bulk_copy_to(slot(stage)),
                Event::BulkCommit,
                Event::BulkWait { n },
            ),
            false => (copy_to(slot(stage)), Event::Commit, Event::Wait { n }),
        };
        events.extend([operation, commit]);
        if stage >= filling {
            events.extend([wait, load_from(slot(stage - depth), bulk)]);
        }
    }
    events.truncate(1_024);
    let slots = 16 * slots as u32;
    Trace {
        global_length: if bulk { slots } else { 16 },
        shared_length: if bulk { 16 } else { slots },
        events,
    }
}

/// The list with one of the last of its waits a number higher, or one of the last of its commits left out.
pub fn spoiled(random: &mut Random, mut trace: Trace) -> Trace {
    let half = trace.events.len() / 2;
    let at = half + random.index(trace.events.len() - half);
    match trace.events.get_mut(at) {
        Some(Event::Wait { n } | Event::BulkWait { n }) => *n += 1,
        Some(Event::Commit | Event::BulkCommit) => drop(trace.events.remove(at)),
        _ => {}
    }
    trace
}

/// A pipeline and then a store to what all its operations read.
pub fn source_stored(mut trace: Trace) -> Trace {
    let place = match trace.events.first() {
        Some(Event::BulkCopy { src, .. }) => Place::Shared(*src),
        _ => Place::Global(GlobalAddress(0)),
    };
    let value = [0; 16];
    trace.events.truncate(1_023);
    trace.events.push(Event::Store {
        place,
        size: 1,
        value,
    });
    trace
}

fn copy_to(dst: u32) -> Event {
    Event::Copy {
        dst: SharedAddress(dst),
        src: GlobalAddress(0),
        src_size: 0,
        cp_size: 16,
        mode: Mode::Plain,
        cache: Cache::Ca,
    }
}

fn bulk_copy_to(dst: u32) -> Event {
    Event::BulkCopy {
        dst: GlobalAddress(dst),
        src: SharedAddress(0),
        size: 16,
    }
}

fn load_from(address: u32, global: bool) -> Event {
    let place = match global {
        true => Place::Global(GlobalAddress(address)),
        false => Place::Shared(SharedAddress(address)),
    };
    Event::Load { place, size: 16 }
}

/// A wait of any kind.
pub fn any_wait(random: &mut Random) -> Event {
    let n = random.below(4) as u32;
    random.pick(&[Event::Wait { n }, Event::WaitAll, Event::BulkWait { n }])
}

impl Maker<'_> {
    fn event(&mut self) -> Event {
        match self.random.pick(self.kinds) {
            1 => self.load(),
            2 => self.store(),
            16 => self.copy(),
            17 => Event::Commit,
            18 => Event::Wait { n: self.number() },
            19 => Event::WaitAll,
            32 => self.bulk_copy(),
            33 => self.reduction(),
            34 => Event::BulkCommit,
            _ => Event::BulkWait { n: self.number() },
        }
    }

    fn has_fault(&mut self) -> bool {
        self.faults != 0 && self.random.one_in(self.faults)
    }

    /// An address for so many bytes in a memory; with a fault, near its end, near 2^32, or not aligned.
    fn address(&mut self, length: u32, size: u32, alignment: u32) -> u32 {
        let last = length.saturating_sub(size) / alignment;
        let aligned = self.random.below(u64::from(last) + 1) as u32 * alignment;
        if !self.has_fault() {
            return aligned;
        }
        match self.random.below(4) {
            0 => (last + 1) * alignment,
            1 => 0u32.wrapping_sub(alignment),
            2 => aligned + 1 + self.random.below(3) as u32,
            _ => self.random.number() as u32,
        }
    }

    fn global(&mut self, size: u32) -> GlobalAddress {
        GlobalAddress(self.address(self.global, size, size.clamp(1, 16)))
    }

    fn shared(&mut self, size: u32) -> SharedAddress {
        SharedAddress(self.address(self.shared, size, size.clamp(1, 16)))
    }

    /// A source of which so many bytes are read; one of which none is may lie anywhere.
    fn source(&mut self, read: u32, cp_size: u32) -> GlobalAddress {
        match read == 0 && self.random.one_in(3) {
            true => GlobalAddress(self.random.number() as u32 / cp_size * cp_size),
            false => GlobalAddress(self.address(self.global, read, cp_size)),
        }
    }

    fn place(&mut self) -> (Place, u8) {
        let size = self.random.pick(&[1, 2, 4, 8, 16]);
        let place = match self.random.one_in(2) {
            true => Place::Global(self.global(size.into())),
            false => Place::Shared(self.shared(size.into())),
        };
        let wrong = self.has_fault();
        (place, if wrong { self.random.byte() } else { size })
    }

    fn load(&mut self) -> Event {
        let (place, size) = self.place();
        Event::Load { place, size }
    }

    fn store(&mut self) -> Event {
        let (place, size) = self.place();
        let mut value = [0; 16];
        let past = usize::from(self.has_fault());
        for byte in value.iter_mut().take(usize::from(size) + past) {
            *byte = self.random.byte();
        }
        Event::Store { place, size, value }
    }

    fn copy(&mut self) -> Event {
        let cp_size = self.random.pick(&[4, 8, 16]);
        let mode = self
            .random
            .pick(&[Mode::Plain, Mode::Plain, Mode::Given, Mode::Ignored]);
        let wrong = self.has_fault();
        let src_size = match mode {
            _ if wrong => self.random.below(20) as u32,
            Mode::Given => self.random.below(u64::from(cp_size) + 1) as u32,
            Mode::Plain | Mode::Ignored => 0,
        };
        let cached = self.random.one_in(4) && (cp_size == 16 || self.has_fault());
        Event::Copy {
            dst: self.shared(cp_size.into()),
            src: self.source(bytes_read(mode, src_size, cp_size), cp_size.into()),
            src_size,
            cp_size,
            mode,
            cache: if cached { Cache::Cg } else { Cache::Ca },
        }
    }

    /// A bulk size that both memories have room for, if they have any.
    fn size(&mut self) -> u32 {
        if self.has_fault() {
            return self.random.pick(&[0, 8, 15, 24, 65_552, u32::MAX - 15]);
        }
        let all = self.global.min(self.shared) / 16;
        match self.random.below(40) {
            0 => 16 * all.max(1),
            1..=3 => 16 * (1 + self.random.below(all.into()) as u32),
            _ => 16 * (1 + self.random.below(all.min(4).into()) as u32),
        }
    }

    fn bulk_copy(&mut self) -> Event {
        let size = self.size();
        Event::BulkCopy {
            dst: self.global(size),
            src: self.shared(size),
            size,
        }
    }

    fn reduction(&mut self) -> Event {
        let other = self.random.one_in(5);
        let (operation, mut element) = if other {
            self.random.pick(&PAIRS)
        } else {
            self.pair
        };
        if self.has_fault() {
            element = self
                .random
                .pick(&[ElementType::B32, ElementType::U32, ElementType::S32]);
        }
        let size = self.size();
        Event::Reduction {
            dst: self.global(size),
            src: self.shared(size),
            size,
            operation,
            element,
        }
    }

    fn number(&mut self) -> u32 {
        match self.random.below(20) {
            0 => u32::MAX - self.random.below(2) as u32,
            1 => 1 + self.random.below(70_000) as u32,
            _ => self.random.below(4) as u32,
        }
    }
}

#[cfg(test)]
mod tests {
    use super::*;

    /// Else the pipelines would try one refusal again and again.
    #[test]
    fn a_pipeline_is_accepted_and_as_deep_as_it_says() {
        let mut random = Random::new(1);
        for depth in [0, 1, 5, 255, 300] {
            let answer = second::judge(&pipeline(&mut random, depth + 30, depth).write());
            assert_eq!(answer.code, 1, "depth {depth}");
            assert!(usize::from(answer.peak) > depth, "depth {depth}");
        }
    }

    #[test]
    fn a_spoiled_pipeline_clashes_often_and_late() {
        let mut random = Random::new(1);
        let answers = (0..100).map(|_| {
            let trace = pipeline(&mut random, 100, 16);
            second::judge(&spoiled(&mut random, trace).write())
        });
        let late = answers.filter(|answer| answer.code == 10 && answer.event > 150);
        assert!(late.count() > 30);
    }
}
