//! Files that are damaged: changed in a byte or an entry, cut, or too long.

use super::random::Random;

const HEADER: usize = 12;

/// The file with one or two things wrong.
pub fn damaged(random: &mut Random, mut file: Vec<u8>) -> Vec<u8> {
    for _ in 0..1 + random.below(2) {
        damage(random, &mut file);
    }
    file
}

fn damage(random: &mut Random, file: &mut Vec<u8>) {
    let entry = HEADER + 4 * random.index(4);
    let anywhere = random.index(file.len() + 1);
    match random.below(7) {
        0 => put(file, anywhere, random.byte()),
        1 => put(file, random.index(HEADER), random.byte()),
        2 => put(file, entry, random.byte()),
        3 => put(file, entry + 1, random.byte()),
        4 => longer_body(random, file, entry),
        5 => file.truncate(anywhere),
        _ => file.insert(anywhere, random.byte()),
    }
}

fn put(file: &mut [u8], at: usize, value: u8) {
    if let Some(byte) = file.get_mut(at) {
        *byte = value;
    }
}

/// The file gets as many bytes more as the entry then says, so that its shape stays right.
fn longer_body(random: &mut Random, file: &mut Vec<u8>, entry: usize) {
    let more = random.pick(&[1, 4, 8, 16]);
    if let Some(length) = file.get_mut(entry + 2) {
        *length = length.wrapping_add(more);
        let bytes: Vec<u8> = (0..more).map(|_| random.byte()).collect();
        file.extend(bytes);
    }
}
