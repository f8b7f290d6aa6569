//! The words of a state, read as the monitor of documents 01 and 02 by the
//! layout of lent's specs/State.antt and remainders' specs/Rows.antt: what the library
//! leaves in them is held against the plain monitor, and damaged words against
//! the limits. It shares nothing with the library.
use crate::bytes;
use crate::plain::Held;

pub const WORDS: usize = 4608;

pub type Words = [u32; WORDS];

/// The format and its version, word 0.
pub const FORMAT: u32 = 0x4c46_0003;

/// Words of a row, and the first rows of the two sides.
pub const WIDTH: usize = 64;
pub const SIDES: [usize; 2] = [6, 39];

/// Where the parts of a remainder begin in its row, and its free words.
pub const OWED: usize = 0;
pub const COUNTDOWNS: usize = 9;
const LEADS: usize = 18;
const STOPPED: usize = 34;
pub const FREE: usize = 42;

/// In the parts of obligations and of countdowns, behind the count: a word of
/// each, its clock and its on-clock a byte each, then its number.
pub const PLACES: usize = 1;

/// The number of an obligation is its due and this.
const DUE_ZERO: i32 = 32768;

/// A monitor within its limits.
pub struct Monitor {
    pub clocks: usize,
    /// Its lines as they stand in the words, which may be any order.
    pub sheet: Vec<u8>,
    pub instants: u32,
    pub tags: [i16; 8],
    pub exhausted: bool,
    /// None once exhausted.
    pub held: Vec<Held>,
}

impl Monitor {
    /// Answer, live, clear.
    pub fn answer(&self) -> [u8; 3] {
        match self.held.len() {
            _ if self.exhausted => [1, 0, 0],
            0 => [2, 0, 0],
            live => [3, live as u8, self.is_clear() as u8],
        }
    }

    fn is_clear(&self) -> bool {
        let clear = |r: &Held| r.owed.is_empty() && r.countdowns.is_empty();
        self.held.iter().any(clear)
    }

    pub fn owing(&self, clock: u8) -> u8 {
        let owes = |r: &&Held| {
            r.owed.iter().any(|o| o.0 == clock) || r.countdowns.iter().any(|c| c.0 == clock)
        };
        self.held.iter().filter(owes).count() as u8
    }
}

/// The bytes of line k, if it has a kind, its clocks are below the count and
/// it does not count to 0.
fn line(w: &Words, k: usize, clocks: usize) -> Option<Vec<u8>> {
    let byte = |part: usize| w[WIDTH + 16 * part + k] as u8;
    let number = |part: usize| w[2 * WIDTH + 16 * part + k] as u16;
    let (a, b, d) = (byte(1), byte(2), byte(3));
    let (x, y) = (number(0), number(1));
    let line = match w[WIDTH + k] {
        16 => bytes::sporadic(a, x as i16, b),
        17 => bytes::relation(a, x as i16, b, y as i16),
        18 => bytes::implies(a, b),
        19 => bytes::excludes(a, b),
        20 | 24 if d as usize >= clocks => return None,
        20 => bytes::delayed(a, x, b, d),
        21 => bytes::weakly(a, b),
        22 => bytes::strictly(a, b),
        23 => bytes::kills(a, b),
        24 if x as u8 == 0 => return None,
        24 => bytes::counted(a, x as u8, b, d),
        _ => return None,
    };
    ((a as usize) < clocks && (b as usize) < clocks).then_some(line)
}

/// What a part of a row lists, each with its clock, on-clock and number, if
/// there are at most eight and their clocks are below the count.
fn listed(part: &[u32], clocks: usize) -> Option<Vec<(u8, u8, u16)>> {
    let count = part[0] as usize;
    if count > 8 {
        return None;
    }
    let all: Vec<_> = (0..count)
        .map(|j| {
            let word = part[PLACES + j];
            (word as u8, (word >> 8) as u8, (word >> 16) as u16)
        })
        .collect();
    let below = |k: u8| (k as usize) < clocks;
    all.iter()
        .all(|&(clock, on, _)| below(clock) && below(on))
        .then_some(all)
}

/// The remainder of a row, if it is within the limits.
fn remainder(row: &[u32], clocks: usize, leads: &[usize], instants: u32) -> Option<Held> {
    let mut owed = Vec::new();
    for (clock, on, number) in listed(&row[OWED..], clocks)? {
        owed.push((clock, number as i32 - DUE_ZERO, on));
    }
    owed.sort();
    let mut countdowns = Vec::new();
    for (clock, on, number) in listed(&row[COUNTDOWNS..], clocks)? {
        if !(1..=255).contains(&number) {
            return None;
        }
        countdowns.push((clock, on, number as u8));
    }
    countdowns.sort();
    let leads: Vec<u32> = leads.iter().map(|k| row[LEADS + k]).collect();
    let stopped = (0..clocks)
        .map(|k| ((row[STOPPED + k] & 1) as u8) << k)
        .sum();
    leads.iter().all(|&n| n <= instants).then_some(Held {
        owed,
        countdowns,
        leads,
        stopped,
    })
}

/// The monitor of a state; none: 11.
pub fn read(w: &Words) -> Option<Monitor> {
    let (clocks, lines) = (w[1] as usize, w[2] as usize);
    let (instants, side, live) = (w[3], w[4] as usize, w[6] as usize);
    let exhausted = w[5] == 1;
    if w[0] != FORMAT || !(1..=8).contains(&clocks) || lines > 16 || instants > 4000 {
        return None;
    }
    if !SIDES.contains(&side) || !(1..=2).contains(&w[5]) || !exhausted && live > 32 {
        return None;
    }
    let of_kind = |kinds: &[u32]| -> Vec<usize> {
        (0..lines)
            .filter(|k| kinds.contains(&w[WIDTH + k]))
            .collect()
    };
    if of_kind(&[16]).len() > 8 {
        return None;
    }
    let mut sheet = bytes::clocks(clocks as u8);
    for k in 0..lines {
        sheet.extend(line(w, k, clocks)?);
    }
    let leads = of_kind(&[21, 22]);
    let mut held = Vec::new();
    for i in 0..if exhausted { 0 } else { live } {
        let row = &w[WIDTH * (side + i)..];
        held.push(remainder(row, clocks, &leads, instants)?);
    }
    held.sort();
    Some(Monitor {
        clocks,
        sheet,
        instants,
        tags: std::array::from_fn(|k| w[8 + k] as i16),
        exhausted,
        held,
    })
}

/// Whether every word that a monitor does not use is 0: those of the two sides
/// beside its remainders; in the head the tags of clocks that its sheet does
/// not have, places without a line, live once exhausted, and free words.
pub fn is_tidy(w: &Words) -> bool {
    let (clocks, lines, side) = (w[1] as usize, w[2] as usize, w[4] as usize);
    let live = if w[5] == 1 { 0 } else { w[6] as usize };
    let mut rest = Box::new(*w);
    // What is used becomes 0; the words that are left over stay.
    rest[..6].fill(0);
    if w[5] != 1 {
        rest[6] = 0;
    }
    rest[8..8 + clocks].fill(0);
    for part in 0..4 {
        rest[WIDTH + 16 * part..][..lines].fill(0);
    }
    for part in 0..2 {
        rest[2 * WIDTH + 16 * part..][..lines].fill(0);
    }
    for row in rest[WIDTH * side..].chunks_exact_mut(WIDTH).take(live) {
        for part in [OWED, COUNTDOWNS] {
            let count = row[part] as usize;
            row[part] = 0;
            row[part + PLACES..][..count].fill(0);
        }
        for k in (0..lines).filter(|k| [21, 22].contains(&w[WIDTH + k])) {
            row[LEADS + k] = 0;
        }
        row[STOPPED..STOPPED + clocks].fill(0);
    }
    rest.iter().all(|&x| x == 0)
}
