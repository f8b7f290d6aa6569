//! The differential test of the live calls: random lists of calls on states
//! that are opened, reopened, copied, stored and damaged, beside plain
//! monitors that go through the same. Of a log with numbers the records are
//! dropped, repeated, handed over too early and sent again.
use crate::bytes::{is_numbered, numbered, unnumbered};
use crate::random::{damage_bytes, damage_head, damage_tick, misnumbered, wrong_number};
use crate::random::{hex, input, Input, Room, Seen};
use crate::state::{self, Words, FORMAT, SIDES, WIDTH, WORDS};
use crate::state::{COUNTDOWNS, FREE, OWED, PLACES};
use crate::xorshift::Xorshift;
use crate::{library, plain};

const SLOTS: usize = 3;

/// The refusal of words that are no monitor: every other bit is 0.
const NO_MONITOR: u64 = 11;

/// A state and what it should be: none, or the plain monitor with the sheet
/// that it was opened with.
#[derive(Clone)]
struct Slot {
    words: Box<Words>,
    plain: Option<Box<plain::Monitor>>,
    sheet: Vec<u8>,
    /// The records that are handed over, and the next of them.
    instants: Vec<Vec<u8>>,
    next: usize,
    /// Whether a 19 was met, and no instant taken since.
    out_of_step: bool,
}

impl Slot {
    /// Instants held, 0 of no monitor.
    fn held(&self) -> usize {
        self.plain.as_ref().map_or(0, |m| (m.last() >> 32) as usize)
    }

    fn has_numbers(&self) -> bool {
        self.instants.iter().any(|i| is_numbered(i))
    }

    /// Where the radio driver goes on in a log with numbers: mostly at the next
    /// record; at times behind it, which drops it, at the one before, which
    /// repeats it, or anywhere; once out of step often at the wanted one, from
    /// which it sends again.
    fn drive(&mut self, r: &mut Xorshift) {
        let count = self.instants.len();
        let at = match r.below(12) {
            0 => self.next + 1,
            1 => self.next.saturating_sub(1),
            2 => r.below(count as u64 + 1) as usize,
            3..=8 if self.out_of_step => self.held(),
            _ => self.next,
        };
        self.next = at.min(count);
    }
}

fn empty_slot(r: &mut Xorshift) -> Slot {
    let mut words = Box::new([0; WORDS]);
    if r.once_in(2) {
        words.iter_mut().for_each(|w| *w = r.next() as u32);
    }
    Slot {
        words,
        plain: None,
        sheet: Vec::new(),
        instants: Vec::new(),
        next: 0,
        out_of_step: false,
    }
}

/// Stored in a file's bytes and read back into another state.
fn stored(words: &Words) -> Box<Words> {
    let bytes: Vec<u8> = words.iter().flat_map(|w| w.to_le_bytes()).collect();
    let mut read = Box::new([0; WORDS]);
    for (w, b) in read.iter_mut().zip(bytes.chunks_exact(4)) {
        *w = u32::from_le_bytes([b[0], b[1], b[2], b[3]]);
    }
    read
}

/// A word changed: one that a limit is about, or any.
fn damage_word(r: &mut Xorshift, words: &mut Words) {
    let row = WIDTH * (words[4] as usize).min(SIDES[1]);
    let row = row + WIDTH * r.below(1 + words[6].min(32) as u64) as usize;
    let at = match r.below(20) {
        0 => 0,
        n @ 1..=6 => n as usize,
        7 => 8 + r.below(8) as usize,
        8 | 9 => WIDTH + r.below(64) as usize,
        10 => 2 * WIDTH + r.below(32) as usize,
        11 => return damage_number(r, words),
        12..=15 => row + r.below(FREE as u64) as usize,
        16 => return damage_owing(r, &mut words[row + OWED..], &DUES),
        17 | 18 => return damage_owing(r, &mut words[row + COUNTDOWNS..], &WANTED),
        _ => r.below(WORDS as u64) as usize,
    };
    let near = [
        0, 1, 2, 3, 7, 8, 9, 15, 16, 17, 23, 24, 25, 32, 33, 39, 255, 256, 3999, 4000, 4001,
    ];
    words[at] = match r.below(4) {
        0 => r.next() as u32,
        1 => words[at] ^ 1 << r.below(32),
        2 => r.pick(&[
            32767,
            65535,
            65536,
            131070,
            FORMAT,
            FORMAT - 1,
            0x8000_0000,
            0xffff_ffff,
        ]),
        _ => r.pick(&near),
    };
}

/// The first number of a line: of a counted line the last byte counts, and is
/// not 0.
fn damage_number(r: &mut Xorshift, words: &mut Words) {
    let lines = words[2].clamp(1, 16) as u64;
    words[2 * WIDTH + r.below(lines) as usize] = r.pick(&[0, 1, 255, 256, 257, 65536]);
}

/// Numbers of an obligation, whose dues are those of all 16 bits, and of a
/// countdown: 1 to 255 are wanted.
const DUES: [u32; 4] = [0, 32767, 32768, 65535];
const WANTED: [u32; 6] = [0, 1, 255, 256, 257, 65535];

/// In the obligations or the countdowns of a row, mostly one that is held:
/// their count, a ninth with it; a clock or an on-clock that is too high; a
/// number outside its limits.
fn damage_owing(r: &mut Xorshift, part: &mut [u32], numbers: &[u32]) {
    let j = r.below(part[0].clamp(1, 8) as u64) as usize;
    match r.below(4) {
        0 => part[0] = r.pick(&[0, 1, 7, 8, 9]),
        1 => part[PLACES + j] ^= r.below(9) as u32 + 256 * r.below(9) as u32,
        2 => part[PLACES + j] ^= r.pick(&[8, 8 << 8, 1 << 16]),
        _ => part[PLACES + j] = part[PLACES + j] & 0xffff | r.pick(numbers) << 16,
    }
}

/// A fault in an instant's record: its kind, which may become the other one of
/// an instant, a tick byte, or any.
fn damage_record(r: &mut Xorshift, record: &mut Vec<u8>) {
    match r.below(4) {
        0 => record[2] = r.pick(&[1, 31, 32, 33, 34]),
        1 => damage_tick(r, record),
        _ => damage_bytes(r, record),
    }
}

/// The plain monitor's call; what it is after an instant is looked at, but not
/// again once it is exhausted.
fn taken(m: &mut plain::Monitor, record: &[u8], room: &mut Room) -> u64 {
    let exhausted = m.exhausted().is_some();
    let result = m.call(record);
    if result & 0xff == 0 && !exhausted {
        room.look(m);
    }
    result
}

#[derive(Default)]
struct Test {
    differences: u64,
    calls: u64,
    opened: Seen,
    observed: Seen,
    room: Room,
    last: Seen,
    owing: Seen,
    some_owing: u64,
    copied: u64,
    stored: u64,
    damaged: u64,
    counting: u64,
    within: u64,
    /// Numbered instants taken, and of these after a 19.
    numbered: u64,
    resumed: u64,
}

impl Test {
    /// Counts a difference, and prints the first few.
    fn same<T: PartialEq + std::fmt::Debug>(&mut self, what: &str, slot: &Slot, a: T, b: T) {
        if a == b {
            return;
        }
        self.differences += 1;
        if self.differences <= 5 {
            println!("{what}: library {a:x?}, plain {b:x?}");
            println!("    sheet {}", hex(&slot.sheet));
            let log = slot.instants.concat();
            println!("    log   {}", hex(&log[..log.len().min(400)]));
        }
    }

    /// That the words are what the plain monitor holds.
    fn look(&mut self, slot: &Slot) {
        let read = state::read(&slot.words);
        let Some(m) = &slot.plain else {
            self.same("a monitor", slot, read.is_some(), false);
            return;
        };
        let Some(read) = read else {
            self.same("a monitor", slot, false, true);
            return;
        };
        self.same("no word left over", slot, state::is_tidy(&slot.words), true);
        self.same("the sheet", slot, &read.sheet, &slot.sheet);
        self.same("the instants", slot, read.instants as u64, m.last() >> 32);
        self.same("those held", slot, &read.held, &m.remainders());
        if let Some(tags) = m.tags() {
            self.same("the tags", slot, &read.tags[..m.clocks()], tags);
        }
    }

    /// The calls that change nothing.
    fn ask(&mut self, r: &mut Xorshift, slot: &Slot) {
        let clock = if r.once_in(10) {
            r.below(256) as u8
        } else {
            r.below(8) as u8
        };
        let (last, owing) = match &slot.plain {
            None => (NO_MONITOR, NO_MONITOR),
            Some(m) => (m.last(), m.owing(clock)),
        };
        let words = slot.words.clone();
        self.calls += 2;
        self.last.result(last);
        self.owing.number(owing & 0xff);
        self.some_owing += (owing >> 16 & 0xff != 0) as u64;
        self.same("lift_last", slot, library::last(&slot.words), last);
        self.same(
            "lift_owing",
            slot,
            library::owing(&slot.words, clock),
            owing,
        );
        self.same("the words asked", slot, words == slot.words, true);
    }

    /// Opens a sheet, valid or damaged.
    fn open(&mut self, r: &mut Xorshift, slot: &mut Slot) {
        let mut v: Input = input(r);
        let long = v.is_long();
        let damaged = !long && r.once_in(3);
        if damaged && r.once_in(2) {
            v.damage(r);
        }
        let mut sheet = v.sheet();
        if damaged {
            match r.below(4) {
                0 => damage_bytes(r, &mut sheet),
                1 => damage_head(r, &mut sheet),
                _ => {}
            }
        }
        let before = slot.words.clone();
        let result = library::open(&sheet, &mut slot.words);
        self.calls += 1;
        let due = match plain::Monitor::opened(&sheet) {
            Err(number) => {
                self.same(
                    "the words of a refused sheet",
                    slot,
                    before == slot.words,
                    true,
                );
                number as u64
            }
            Ok(m) => {
                let due = m.last();
                slot.plain = Some(Box::new(m));
                slot.sheet = sheet;
                slot.instants = std::mem::take(&mut v.instants);
                slot.next = 0;
                slot.out_of_step = false;
                due
            }
        };
        self.opened.result(due);
        self.same("lift_open", slot, result, due);
        if long && due & 0xff == 0 {
            self.all(r, slot);
            if r.once_in(2) {
                self.limit(r, slot);
            }
        }
    }

    /// All records of a long log but the last few, some behind one with a wrong
    /// number.
    fn all(&mut self, r: &mut Xorshift, slot: &mut Slot) {
        let Some(m) = &mut slot.plain else { return };
        let most = slot.instants.len() - 4;
        let mut differences = 0;
        let mut take = |record: &[u8]| {
            let due = taken(m, record, &mut self.room);
            self.calls += 1;
            self.observed.result(due);
            differences += (library::observe(&mut slot.words, record) != due) as u64;
        };
        for (held, record) in slot.instants[..most].iter().enumerate() {
            if r.once_in(100) {
                take(&misnumbered(r, record, held));
            }
            take(record);
        }
        slot.next = most;
        self.same("lift_observe, a long log", slot, differences, 0);
    }

    /// The end of a long log: with 3,999 instants held a wrong number is
    /// refused by 19 and the right one taken; with 4,000 the number does not
    /// matter.
    fn limit(&mut self, r: &mut Xorshift, slot: &mut Slot) {
        for n in slot.next..3999 {
            let record = slot.instants[n].clone();
            self.observe(slot, &record);
        }
        slot.next = slot.instants.len();
        let last = slot.instants[3998].clone();
        let numbers = [
            numbered(wrong_number(r, 4000), &last),
            numbered(4000, &last),
            numbered(wrong_number(r, 4001), &last),
            numbered(4001, &last),
            unnumbered(&last),
        ]
        .map(|record| self.observe(slot, &record) & 0xff);
        self.same("the limit", slot, numbers, [19, 0, 16, 16, 16]);
    }

    /// The next record, or one that is damaged, came before, comes too early,
    /// has a wrong number, or is another's.
    fn record(r: &mut Xorshift, slot: &mut Slot, other: &Slot) -> Vec<u8> {
        let any = |r: &mut Xorshift, all: &[Vec<u8>]| match all.len() {
            0 => vec![6, 0, 32, 0, 1, 0xfd, 0xff, 0, 0, 0],
            n => all[r.below(n as u64) as usize].clone(),
        };
        let has_numbers = slot.has_numbers();
        match r.below(16) {
            0 => any(r, &other.instants),
            1..=3 => {
                let mut record = any(r, &slot.instants);
                damage_record(r, &mut record);
                record
            }
            4 if has_numbers => {
                let record = any(r, &slot.instants);
                misnumbered(r, &record, slot.held())
            }
            5 if has_numbers && slot.next + 1 < slot.instants.len() => {
                slot.instants[slot.next + 1].clone()
            }
            _ => {
                if has_numbers {
                    slot.drive(r);
                }
                match slot.instants.get(slot.next) {
                    Some(record) => {
                        slot.next += 1;
                        record.clone()
                    }
                    None => any(r, &slot.instants),
                }
            }
        }
    }

    /// Hands over a record; the result that is due.
    fn observe(&mut self, slot: &mut Slot, record: &[u8]) -> u64 {
        let before = slot.words.clone();
        let result = library::observe(&mut slot.words, record);
        let due = match &mut slot.plain {
            None => NO_MONITOR,
            Some(m) => taken(m, record, &mut self.room),
        };
        self.calls += 1;
        self.observed.result(due);
        self.same("lift_observe", slot, result, due);
        match due & 0xff {
            0 => {
                let number = is_numbered(record);
                self.numbered += number as u64;
                self.resumed += (number && slot.out_of_step) as u64;
                slot.out_of_step = false;
            }
            19 => slot.out_of_step = true,
            _ => {}
        }
        if due & 0xff != 0 {
            self.same(
                "the words of a refused call",
                slot,
                before == slot.words,
                true,
            );
        }
        due
    }

    /// All calls on a copy of a state with words changed: 11 exactly where the
    /// limits fail. Within them the answer to an instant is free, but the
    /// state stays within them. A numbered record often has the number that
    /// the changed words want.
    fn damaged(&mut self, r: &mut Xorshift, slot: &Slot, record: &[u8]) {
        let mut slot = slot.clone();
        self.counting += slot.plain.as_ref().is_some_and(|m| m.most()[1] > 0) as u64;
        for _ in 0..r.pick(&[1, 1, 1, 2, 5]) {
            damage_word(r, &mut slot.words);
        }
        let mut record = record.to_vec();
        if is_numbered(&record) && r.once_in(2) {
            record = numbered((slot.words[3] as u16).wrapping_add(1), &record);
        }
        self.damaged += 1;
        self.calls += 3;
        let before = slot.words.clone();
        let last = library::last(&slot.words);
        let clock = r.below(9) as u8;
        let owing = library::owing(&slot.words, clock);
        let observed = library::observe(&mut slot.words, &record);
        let Some(m) = state::read(&before) else {
            self.same(
                "a damaged state's calls",
                &slot,
                [last, owing, observed],
                [NO_MONITOR; 3],
            );
            self.same("a damaged state", &slot, before == slot.words, true);
            return;
        };
        self.within += 1;
        let count = (m.instants as u64) << 32;
        let said = |[a, live, clear]: [u8; 3]| {
            (a as u64) << 8 | (live as u64) << 16 | (clear as u64) << 24
        };
        self.same(
            "a changed state's last",
            &slot,
            last,
            said(m.answer()) | count,
        );
        let owes = (m.owing(clock) as u64) << 16 | count;
        self.same("a changed state's owing", &slot, owing, owes);
        let number = plain::next_number(&record, m.clocks, m.instants) as u64;
        if number != 0 {
            self.same("a changed state's refusal", &slot, observed, number | count);
            self.same("a changed state", &slot, before == slot.words, true);
            return;
        }
        let Some(next) = state::read(&slot.words) else {
            self.same("a changed state after an instant", &slot, false, true);
            return;
        };
        let due = said(next.answer()) | count + (1 << 32);
        self.same("a changed state's answer", &slot, observed, due);
        self.same(
            "a changed state's instants",
            &slot,
            next.instants,
            m.instants + 1,
        );
        self.same("a changed state's sheet", &slot, &next.sheet, &m.sheet);
    }

    fn run(&mut self, r: &mut Xorshift) {
        let mut slots: [Slot; SLOTS] = std::array::from_fn(|_| empty_slot(r));
        for _ in 0..12 + r.below(24) {
            let i = r.below(SLOTS as u64) as usize;
            let j = r.below(SLOTS as u64) as usize;
            let other = slots[j].clone();
            let slot = &mut slots[i];
            match r.below(20) {
                0 => self.open(r, slot),
                1 => {
                    self.copied += 1;
                    *slot = other;
                }
                2 => {
                    self.stored += 1;
                    slot.words = stored(&slot.words);
                }
                3 => {
                    let record = Self::record(r, slot, &other);
                    self.damaged(r, slot, &record);
                }
                _ if slot.next == slot.instants.len() && !r.once_in(4) => self.open(r, slot),
                _ => {
                    let record = Self::record(r, slot, &other);
                    self.observe(slot, &record);
                }
            }
            self.look(slot);
            self.ask(r, slot);
        }
    }
}

/// The number of differences.
pub fn random(seed: u64, count: u64) -> u64 {
    let mut test = Test::default();
    for index in 0..count {
        test.run(&mut Xorshift::new(seed ^ index << 20 ^ 1 << 60));
    }
    test.opened.print("lift_open", &test.opened.said());
    test.observed.print("lift_observe", &test.observed.said());
    test.last.print("lift_last", &test.last.said());
    let taken = format!(
        "taken {}, some owing {}",
        test.owing.numbers[0], test.some_owing
    );
    test.owing.print("lift_owing", &taken);
    test.room.print();
    println!(
        "states copied {}, stored and read back {}, with words changed {}, of these with countdowns {}, within limits {}",
        test.copied, test.stored, test.damaged, test.counting, test.within
    );
    println!(
        "numbered instants taken {}, of these after a 19 {}",
        test.numbered, test.resumed
    );
    println!(
        "live {seed}: {count} lists, {} calls, {} differences",
        test.calls, test.differences
    );
    test.differences
}
