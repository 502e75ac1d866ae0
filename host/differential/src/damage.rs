//! Files that are damaged: changed in any byte or field, cut, or too long.

use crate::random::Random;

const HEADER: usize = 12;
const ENTRY: usize = 4;

/// Values on both sides of the bounds that a byte of a field can meet.
const VALUES: [u8; 14] = [0, 1, 2, 3, 4, 5, 6, 8, 15, 16, 17, 32, 36, 255];

/// The file with each of its bytes changed in turn: to values near the bounds of fields, by one, and in one bit.
pub fn each_byte_changed(file: &[u8]) -> Vec<Vec<u8>> {
    let mut files = Vec::new();
    for (at, byte) in file.iter().enumerate() {
        let near = [
            byte.wrapping_add(1),
            byte.wrapping_sub(1),
            byte ^ 0x40,
            byte ^ 0x80,
        ];
        let mut values: Vec<u8> = VALUES.into_iter().chain(near).collect();
        values.sort_unstable();
        values.dedup();
        for value in values.into_iter().filter(|value| value != byte) {
            let mut changed = file.to_vec();
            changed[at] = value;
            files.push(changed);
        }
    }
    files
}

/// An event of this kind and body, its body cut to every length up to 40 and lengthened by zeros to lengths that have a byte
/// in common with the right one.
pub fn each_body_length(kind: u8, body: &[u8]) -> Vec<Vec<u8>> {
    let right = body.len() as u16;
    let longer = [
        255,
        256,
        right + 256,
        right + 512,
        right + 65_280,
        right << 8,
        65_535,
    ];
    let written = |length: u16| {
        let [low, high] = length.to_le_bytes();
        let mut file = vec![1, 0, 0, 0, 64, 0, 0, 0, 64, 0, 0, 0, kind, 0, low, high];
        let zeros = std::iter::repeat(&0);
        file.extend(body.iter().chain(zeros).take(usize::from(length)));
        file
    };
    (0..40).chain(longer).map(written).collect()
}

/// Every beginning of the file, and the file with bytes after its end.
pub fn each_length(random: &mut Random, file: &[u8]) -> Vec<Vec<u8>> {
    let mut files: Vec<Vec<u8>> = (0..file.len()).map(|cut| file[..cut].to_vec()).collect();
    for more in [1, 2, 3, 4, 12, 28, 100] {
        let mut longer = file.to_vec();
        longer.extend(random.bytes(more));
        files.push(longer);
        files.push([file, &vec![0; more]].concat());
    }
    files
}

/// The file with one to three things wrong that are drawn by lot.
pub fn damaged(random: &mut Random, file: &[u8]) -> Vec<u8> {
    let mut file = file.to_vec();
    for _ in 0..1 + random.below(3) {
        change(random, &mut file);
    }
    file
}

fn change(random: &mut Random, file: &mut Vec<u8>) {
    let events = file
        .get(..2)
        .map_or(0, |n| usize::from(u16::from_le_bytes([n[0], n[1]])));
    let entry = HEADER + ENTRY * random.index(events.max(1));
    let anywhere = random.index(file.len().max(1));
    match random.below(8) {
        0 => put(file, anywhere, random.byte()),
        1 => flip(random, file, anywhere),
        2 => put(file, random.index(HEADER), random.byte()),
        3 => put(
            file,
            entry,
            random.pick(&[0, 1, 2, 3, 15, 16, 17, 18, 19, 20, 31, 32, 33, 34, 35, 36]),
        ),
        4 => put(file, entry + 1, random.pick(&VALUES)),
        5 => longer_body(random, file, entry),
        6 => drop(file.drain(anywhere.min(file.len())..)),
        _ => file.insert(anywhere.min(file.len()), random.byte()),
    }
}

fn put(file: &mut [u8], at: usize, value: u8) {
    if let Some(byte) = file.get_mut(at) {
        *byte = value;
    }
}

fn flip(random: &mut Random, file: &mut [u8], at: usize) {
    if let Some(byte) = file.get_mut(at) {
        *byte ^= 1 << random.below(8);
    }
}

/// An entry whose body is said to be longer, by as many bytes as the file gets at its end: its own body and those after it
/// become others.
fn longer_body(random: &mut Random, file: &mut Vec<u8>, entry: usize) {
    let more = random.pick(&[1, 4, 8, 200, 40_000]);
    if let Some(length) = file.get_mut(entry + 2..entry + 4) {
        let said = u16::from_le_bytes([length[0], length[1]]);
        length.copy_from_slice(&said.wrapping_add(more).to_le_bytes());
        let bytes = random.bytes(usize::from(more));
        file.extend(bytes);
    }
}
