//! Lists of events over small memories, so that accesses often share bytes. Few events are wrong by themselves.

use super::random::Random;
use benchmarks::written::{file, Event};

/// One event in so many has a number that may be anything near the bounds.
const SELDOM: u32 = 100;

/// The file of a list that is drawn by lot.
pub fn list(random: &mut Random) -> Vec<u8> {
    let length = random.pick(&[32, 64, 256, 4_096]);
    let count = random.pick(&[3, 8, 20, 60]);
    let events: Vec<Event> = (0..random.below(count + 1))
        .map(|_| event(random, length))
        .collect();
    file(length, length, &events)
}

fn event(random: &mut Random, length: u32) -> Event {
    let kind = random.pick(&[1, 1, 2, 16, 16, 16, 17, 17, 18, 19, 32, 33, 33, 34, 34, 35]);
    let body = match kind {
        1 => thread(random, length, 0),
        2 => thread(random, length, 16),
        16 => copy(random, length),
        18 | 35 => random.pick(&[0, 1, 2, 3, u32::MAX]).to_le_bytes().to_vec(),
        32 => bulk(random, length),
        33 => reduction(random, length),
        _ => Vec::new(),
    };
    Event { kind, body }
}

/// A load, or a store of a value of so many bytes.
fn thread(random: &mut Random, length: u32, value: usize) -> Vec<u8> {
    let size = field(random, &[1, 2, 4, 8, 16]);
    let space = field(random, &[0, 1]);
    let address = address(random, size.into(), length);
    let mut body = [[space, size, 0, 0], address.to_le_bytes()].concat();
    let filled = usize::from(size).min(value);
    body.extend((0..filled).map(|_| random.byte()));
    body.resize(8 + value, 0);
    body
}

fn copy(random: &mut Random, length: u32) -> Vec<u8> {
    let size = field(random, &[4, 8, 16]);
    let mode = field(random, &[0, 1, 2]);
    let source_size = match mode {
        1 => random.below(u32::from(size) + 1),
        _ => random.below(SELDOM) / (SELDOM - 1),
    };
    let ends = [(); 2].map(|_| address(random, size.into(), length));
    let cache = u8::from(size == 16 && random.one_in(2));
    let words = [ends[0], ends[1], source_size].map(u32::to_le_bytes);
    [words.concat(), vec![size, mode, cache, 0]].concat()
}

fn bulk(random: &mut Random, length: u32) -> Vec<u8> {
    let size = u32::from(field(random, &[16, 16, 32]));
    let ends = [(); 2].map(|_| address(random, 16, length));
    [ends[0], ends[1], size].map(u32::to_le_bytes).concat()
}

fn reduction(random: &mut Random, length: u32) -> Vec<u8> {
    let pair = random.pick(&[[0, 0], [2, 0], [3, 1], [3, 1], [3, 2], [5, 2]]);
    let [operation, element] = pair.map(|right| field(random, &[right]));
    [bulk(random, length), vec![operation, element, 0, 0]].concat()
}

/// One of the right values, seldom another.
fn field(random: &mut Random, right: &[u8]) -> u8 {
    if random.one_in(SELDOM) {
        random.below(18) as u8
    } else {
        random.pick(right)
    }
}

/// An address inside the memory that is a multiple of the size, seldom another.
fn address(random: &mut Random, size: u32, length: u32) -> u32 {
    let size = size.max(1);
    match random.below(SELDOM) {
        0 => random.below(length),
        1 => length,
        2 => 0u32.wrapping_sub(size),
        _ => size * random.below(length / size),
    }
}
