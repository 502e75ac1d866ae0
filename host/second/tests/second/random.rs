//! Some thousands of small random lists, on which the parts of the program that
//! know the rules by different ways have to agree.

use crate::lists::*;
use second::groups::closed_by;
use second::orders::{closing_wait, judge_by_orders, outcomes, Outcome};
use second::trace::{ElementType, Event, Mode, Operation, Place};
use second::{judge, run};

/// A seeded source of numbers (xorshift).
pub struct Random(u64);

impl Random {
    pub fn new(seed: u64) -> Random {
        Random(seed.wrapping_mul(0x9e37_79b9_7f4a_7c15) | 1)
    }

    /// A number under `bound`.
    pub fn under(&mut self, bound: u32) -> u32 {
        self.0 ^= self.0 << 13;
        self.0 ^= self.0 >> 7;
        self.0 ^= self.0 << 17;
        ((self.0 >> 32) % u64::from(bound)) as u32
    }

    fn one_of<T: Copy>(&mut self, choices: &[T]) -> T {
        choices[self.under(choices.len() as u32) as usize]
    }

    /// A list of up to `most` events that decode, for memories of 48 bytes; few
    /// of them are misaligned or out of range.
    pub fn list(&mut self, most: u32) -> Vec<Event> {
        let number = self.under(most + 1).max(self.under(most + 1));
        (0..number).map(|_| self.event()).collect()
    }

    fn event(&mut self) -> Event {
        match self.under(16) {
            0..=1 => {
                let size = self.one_of(&[1, 2, 4, 8, 16]);
                load(self.place(size.into()), size)
            }
            2..=3 => {
                let size = self.one_of(&[1, 2, 4, 8, 16]);
                let byte = self.under(256) as u8;
                store(self.place(size.into()), size, byte)
            }
            4..=6 => self.copy(),
            7 => Event::Commit,
            8 => wait(self.under(3)),
            9 => Event::WaitAll,
            10 => bulk_copy(self.address(16), self.address(16), self.bulk_size()),
            11..=12 => self.reduction(),
            13..=14 => Event::BulkCommit,
            _ => bulk_wait(self.under(3)),
        }
    }

    /// One of few addresses, hardly ever misaligned or out of range.
    fn address(&mut self, size: u32) -> u32 {
        match self.under(80) {
            0 => self.under(48),
            1 => self.under(8) * size * 4,
            _ => self.under(32 / size) * size,
        }
    }

    fn place(&mut self, size: u32) -> Place {
        let address = self.address(size);
        self.one_of(&[global(address), shared(address)])
    }

    fn bulk_size(&mut self) -> u32 {
        self.one_of(&[16, 16, 16, 32])
    }

    fn copy(&mut self) -> Event {
        let cp_size = self.one_of(&[4, 8, 16]);
        let dst = self.address(cp_size.into());
        let src = self.address(cp_size.into());
        match self.under(4) {
            0 => copy_in_mode(dst, src, cp_size, Mode::Ignored, 0),
            1 => {
                let src_size = self.under(u32::from(cp_size) + 1);
                copy_in_mode(dst, src, cp_size, Mode::Given, src_size)
            }
            _ => copy(dst, src, cp_size),
        }
    }

    fn reduction(&mut self) -> Event {
        let (operation, element) = self.one_of(&[
            (Operation::Add, ElementType::U32),
            (Operation::Add, ElementType::S32),
            (Operation::Min, ElementType::S32),
            (Operation::Xor, ElementType::B32),
        ]);
        let dst = self.address(16);
        let src = self.address(16);
        reduction(operation, element, dst, src, self.bulk_size())
    }

    fn bytes(&mut self, length: usize) -> Vec<u8> {
        (0..length).map(|_| self.under(256) as u8).collect()
    }
}

const MOST_ORDERS: usize = 20_000;

#[test]
fn judge_agrees_with_judge_by_orders() {
    let mut random = Random::new(1);
    let mut codes = [0; 12];
    for _ in 0..20_000 {
        let events = random.list(6);
        let file = file(48, 48, &events);
        let answer = judge(&file);
        let by_orders = judge_by_orders(&file, MOST_ORDERS);
        assert_eq!(Some(answer), by_orders, "{events:#?}");
        codes[usize::from(answer.code)] += 1;
    }
    // Both sides come often enough to tell something.
    assert!(codes[1] > 4_000 && codes[10] > 4_000, "{codes:?}");
    assert!(codes[8] > 100 && codes[9] > 100, "{codes:?}");
}

#[test]
fn judge_agrees_with_judge_by_orders_on_longer_lists_with_few_orders() {
    let mut random = Random::new(7);
    let mut codes = [0; 12];
    for _ in 0..6_000 {
        let events = random.list(12);
        let file = file(48, 48, &events);
        if let Some(by_orders) = judge_by_orders(&file, 300) {
            assert_eq!(judge(&file), by_orders, "{events:#?}");
            codes[usize::from(by_orders.code)] += 1;
        }
    }
    assert!(codes[1] > 1_000 && codes[10] > 1_000, "{codes:?}");
}

#[test]
fn run_agrees_with_the_only_outcome_of_an_accepted_list() {
    let mut random = Random::new(2);
    let (mut with_loads, mut several) = (0, 0);
    for _ in 0..20_000 {
        let events = random.list(6);
        let file = file(48, 48, &events);
        let (global, shared) = (random.bytes(48), random.bytes(48));
        let answer = judge(&file);
        if !matches!(answer.code, 1 | 10) {
            continue;
        }
        let mut after = Outcome {
            global: global.clone(),
            shared: shared.clone(),
            loads: vec![0xee; loaded(&events)],
        };
        let ran = run(
            &file,
            &mut after.global,
            &mut after.shared,
            &mut after.loads,
        );
        assert_eq!(ran, answer);
        // A list may be refused as a clash and yet hold a later event out of range.
        match outcomes(&file, &global, &shared, MOST_ORDERS) {
            Some(outcomes) if answer.code == 1 => {
                with_loads += usize::from(!after.loads.is_empty());
                assert_eq!(outcomes, [after], "{events:#?}");
            }
            Some(outcomes) => several += usize::from(outcomes.len() > 1),
            None => assert_eq!(answer.code, 10),
        }
    }
    assert!(with_loads > 1_000 && several > 1_000);
}

fn loaded(events: &[Event]) -> usize {
    let sizes = events.iter().map(|event| match event {
        Event::Load { size, .. } => usize::from(*size),
        _ => 0,
    });
    sizes.sum()
}

#[test]
fn groups_by_lists_agree_with_groups_by_counting() {
    let mut random = Random::new(4);
    let mut closings = 0;
    for _ in 0..2_000 {
        let events = random.list(24);
        for operation in 0..events.len() {
            let by_lists = (0..events.len()).find(|wait| closed_by(&events, operation, *wait));
            assert_eq!(by_lists, closing_wait(&events, operation), "{events:?}");
            closings += usize::from(by_lists.is_some());
        }
    }
    assert!(closings > 2_000, "{closings}");
}

#[test]
fn files_are_read_back_as_written() {
    let mut random = Random::new(5);
    for _ in 0..2_000 {
        let events = random.list(20);
        let read = second::trace::read(&file(48, 48, &events)).unwrap();
        assert_eq!(read.events, events);
    }
}

#[test]
fn changed_and_cut_files_get_an_answer_of_the_table() {
    let mut random = Random::new(6);
    for _ in 0..20_000 {
        let mut file = file(48, 48, &random.list(6));
        for _ in 0..=random.under(3) {
            let at = random.under(file.len() as u32) as usize;
            file[at] = random.one_of(&[0, 1, 2, 4, 16, 17, 48, 128, 255]);
        }
        if random.under(8) == 0 {
            file.truncate(random.under(64) as usize);
        }
        let answer = judge(&file);
        assert_eq!(Some(answer), judge_by_orders(&file, MOST_ORDERS));
        let mut sheet = [0; 12];
        second::sheet::write(answer, &mut sheet);
        assert_eq!(second::sheet::read(&sheet), answer);
        let (mut global, mut shared) = (random.bytes(48), random.bytes(48));
        let before = (global.clone(), shared.clone());
        let ran = run(&file, &mut global, &mut shared, &mut []);
        if ran.code != 1 {
            assert_eq!((global, shared), before);
        }
    }
}
