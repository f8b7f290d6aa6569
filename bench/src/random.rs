//! The differential test: random sheets and logs, valid and damaged, through
//! every call of the library and of the plain monitor.
use crate::bytes::*;
use crate::plain::Exhausted;
use crate::xorshift::Xorshift;
use crate::{library, plain};

/// Tags at both ends, and factors whose product is a small number once it is
/// cut to 16 bits.
const EXTREME: [i16; 10] = [-32768, -32767, -257, -256, -1, 0, 1, 256, 257, 32767];

type Line = Vec<u8>;

/// Whether the instants of a log have numbers: none, each, or some.
enum Form {
    Plain,
    Numbered,
    Mixed,
}

/// A sheet and a log, records apart.
pub struct Input {
    pub clocks: u8,
    lines: Vec<Line>,
    pub instants: Vec<Vec<u8>>,
}

fn small(r: &mut Xorshift, low: i16, high: i16) -> i16 {
    low + r.below((high - low + 1) as u64) as i16
}

fn tag(r: &mut Xorshift) -> i16 {
    if r.once_in(20) {
        r.pick(&EXTREME)
    } else {
        small(r, -2, 5)
    }
}

/// The count of a counted line: mostly one that is reached, the longest, and
/// seldom 0, which is refused.
fn wanted(r: &mut Xorshift) -> u8 {
    match r.below(80) {
        0 => 0,
        1..=4 => 255,
        5..=12 => 4 + r.below(8) as u8,
        _ => 1 + r.below(3) as u8,
    }
}

fn line(r: &mut Xorshift, clocks: u8) -> Line {
    let mut clock = || r.below(clocks as u64) as u8;
    let (a, b, d) = (clock(), clock(), clock());
    match r.below(22) {
        0..=3 => sporadic(a, tag(r), b),
        4 => {
            if r.once_in(3) {
                let (p, q) = (r.pick(&EXTREME), tag(r));
                relation(a, p, b, q)
            } else {
                let (p, q) = (small(r, -1, 2), small(r, -1, 1));
                relation(a, p, b, q)
            }
        }
        5 => implies(a, b),
        6 => excludes(a, b),
        7..=11 => {
            let by = if r.once_in(20) {
                r.pick(&[32767, 32768, 65535])
            } else {
                r.below(4) as u16
            };
            delayed(a, by, b, d)
        }
        12 | 13 => weakly(a, b),
        14 => strictly(a, b),
        15 | 16 => kills(a, b),
        _ => counted(a, wanted(r), b, d),
    }
}

/// Lines in rising order, each once; with few clocks they may be fewer than
/// the count.
fn lines(r: &mut Xorshift, clocks: u8) -> Vec<Line> {
    let count = match r.below(20) {
        0 => 0,
        1 => 16,
        2 => 17,
        3 => 7 + r.below(9),
        _ => 1 + r.below(5),
    };
    let sporadic_only = r.once_in(40);
    let mut lines: Vec<Line> = Vec::new();
    let mut tries = 4 * count;
    while lines.len() < count as usize && tries > 0 {
        tries -= 1;
        let l = if sporadic_only {
            let (a, b) = (r.below(clocks as u64) as u8, r.below(clocks as u64) as u8);
            sporadic(a, small(r, 0, 20), b)
        } else if !lines.is_empty() && r.once_in(6) {
            // One that differs from another in its on-clock alone, in its
            // count, or in one byte of its last number.
            let mut near = lines[r.below(lines.len() as u64) as usize].clone();
            let last = near.len() - 1;
            if near[2] == 24 && r.once_in(2) {
                near[last] = wanted(r);
            } else if near[2] != 24 && last > 5 && r.once_in(2) {
                near[last - r.below(2) as usize] ^= 1;
            } else {
                near[5] = r.below(clocks as u64) as u8;
            }
            near
        } else {
            line(r, clocks)
        };
        if !lines.contains(&l) {
            lines.push(l);
        }
    }
    sort_lines(&mut lines);
    lines
}

/// Counts of which many are not reached in a short log.
const LONG: [u8; 11] = [1, 2, 3, 4, 5, 6, 7, 252, 253, 254, 255];

/// Lines that keep much in mind: obligations that stay owed and countdowns
/// that go on for a while, leads and stopped clocks. Such runs come near 8
/// obligations, 8 countdowns and 32 live.
fn heavy_lines(r: &mut Xorshift, clocks: u8) -> Vec<Line> {
    let mut lines: Vec<Line> = Vec::new();
    let owed = r.below(9);
    // Of seven lines that begin something, so many begin a countdown.
    let counting = r.below(8);
    for i in 0..owed {
        lines.push(sporadic(
            r.below(clocks as u64) as u8,
            20 + (i / 2) as i16,
            0,
        ));
    }
    for _ in 0..1 + r.below(16 - owed) {
        let mut clock = || r.below(clocks as u64) as u8;
        let (a, b, d) = (clock(), clock(), clock());
        lines.push(match r.below(10) {
            0 => weakly(a, b),
            1 => kills(a, b),
            2 => excludes(a, b),
            n if n - 3 < counting => counted(a, r.pick(&LONG), b, d),
            _ => delayed(a, 3 + r.below(5) as u16, b, d),
        });
    }
    sort_lines(&mut lines);
    lines.dedup();
    lines
}

/// Lines that do not rise: one that comes twice, two that change places, or
/// any order. Often it is the ninth line or the seventeenth that is not above
/// the one before: there 9 or 8 comes first.
fn disorder(r: &mut Xorshift, lines: &mut Vec<Line>) {
    let count = lines.len();
    if count == 0 {
        return;
    }
    let any = 1 + r.below(count as u64) as usize;
    let at = r.pick(&[any, any, 8, 16]).min(count);
    match r.below(3) {
        0 if count > 1 => {
            let at = at.min(count - 1);
            lines.swap(at - 1, at);
        }
        1 if count > 1 => {
            for i in 1..count {
                lines.swap(i, r.below(i as u64 + 1) as usize);
            }
        }
        _ => lines.insert(at, lines[at - 1].clone()),
    }
}

/// How far from 0 the tags of a log are, and with them the dues of its sporadic
/// lines: a log in eight is near an end of the scale, mostly the upper one,
/// where delays are due at it and past it.
fn distance(r: &mut Xorshift) -> i16 {
    match r.below(32) {
        0 => -32766,
        1 => 32757,
        2 | 3 => 32764,
        _ => 0,
    }
}

/// Sporadic lines with their dues so much farther from 0.
fn shift_dues(lines: &mut Vec<Line>, far: i16) {
    for l in lines.iter_mut().filter(|l| l[2] == 16) {
        let due = i16::from_le_bytes([l[6], l[7]]).saturating_add(far);
        l[6..8].copy_from_slice(&due.to_le_bytes());
    }
    sort_lines(lines);
    lines.dedup();
}

/// Tags that stay or rise, seldom fall; obeyed, relations decide theirs.
fn next_tags(r: &mut Xorshift, tags: &mut [i16], lines: &[Line], obey: bool) {
    let together = r.once_in(2);
    let step = small(r, 0, 1);
    for t in tags.iter_mut() {
        *t = match r.below(200) {
            0 => t.wrapping_sub(1),
            1 => r.pick(&EXTREME),
            2..=20 => t.saturating_add(2),
            _ if together => t.saturating_add(step),
            _ => t.saturating_add(small(r, 0, 1)),
        };
    }
    if !obey {
        return;
    }
    for l in lines.iter().filter(|l| l[2] == 17) {
        let word = |at: usize| i16::from_le_bytes([l[at], l[at + 1]]) as i64;
        let value = word(6) * tags[l[5] as usize] as i64 + word(8);
        // Cut to 16 bits: right, or what a product formed in 16 bits would be.
        tags[l[4] as usize] = value as i16;
    }
}

/// An instant with at most `most` unseen ticks, one tick in `rare` unseen.
fn next_instant(r: &mut Xorshift, tags: &[i16], most: usize, rare: u64) -> Vec<u8> {
    let mut unseen = 0;
    let cells: Vec<_> = tags
        .iter()
        .map(|&t| {
            if unseen < most && r.once_in(rare) {
                unseen += 1;
                (UNSEEN, t)
            } else {
                (r.pick(&[IDLE, IDLE, TICK]), t)
            }
        })
        .collect();
    instant(&cells)
}

/// Half of the logs stay plain; of the others half are numbered throughout,
/// half have records of both kinds.
fn give_numbers(r: &mut Xorshift, instants: &mut [Vec<u8>]) {
    if r.once_in(2) {
        return;
    }
    let one_in = r.pick(&[1, 1, 2, 4]);
    for (held, record) in instants.iter_mut().enumerate() {
        if r.once_in(one_in) {
            *record = numbered(held as u16 + 1, record);
        }
    }
}

/// A number that is not the wanted one: of a record too far on or of the one
/// before, at an end of the scale, with the high byte alone wrong, with the
/// bytes the other way round, or any.
pub fn wrong_number(r: &mut Xorshift, wanted: u16) -> u16 {
    let any = r.below(1 << 16) as u16;
    let wrong = r.pick(&[
        wanted + 1,
        wanted - 1,
        0,
        65535,
        wanted + 256,
        wanted ^ 256,
        wanted.swap_bytes(),
        any,
    ]);
    if wrong == wanted {
        wanted + 256
    } else {
        wrong
    }
}

/// An instant with a number that is not the wanted one where so many are held;
/// at times with another fault, which comes first.
pub fn misnumbered(r: &mut Xorshift, instant: &[u8], held: usize) -> Vec<u8> {
    let mut wrong = numbered(wrong_number(r, held as u16 + 1), instant);
    match r.below(16) {
        0 => {
            wrong.pop();
        }
        1 => wrong[2] = r.pick(&[31, 34]),
        // A plain instant's kind with a number.
        2 => wrong[2] = 32,
        3 | 4 => damage_tick(r, &mut wrong),
        _ => {}
    }
    wrong
}

/// A tick byte above 2, if there is a cell.
pub fn damage_tick(r: &mut Xorshift, instant: &mut [u8]) {
    let any = 3 + r.below(253) as u8;
    let from = cells_at(instant);
    let count = (instant.len() - from) as u64 / 3;
    if count > 0 {
        instant[from + 3 * r.below(count) as usize] = r.pick(&[3, 255, any]);
    }
}

fn is_holding(result: u64) -> bool {
    result >> 8 & 0xff == 3
}

/// A sheet and a log, short or long, plain or with numbers.
pub fn input(r: &mut Xorshift) -> Input {
    let mut v = if r.once_in(1000) {
        long_input(r)
    } else {
        short_input(r)
    };
    give_numbers(r, &mut v.instants);
    v
}

/// Mostly few clocks, small tags and few unseen ticks, so that dues are met or
/// missed; some near the limits or the ends of the scale, some with eight clocks
/// unseen.
fn short_input(r: &mut Xorshift) -> Input {
    let crowded = r.once_in(400);
    let heavy = r.once_in(12);
    let clocks = if crowded {
        8
    } else if heavy {
        3 + r.below(4) as u8
    } else if r.once_in(8) {
        1 + r.below(8) as u8
    } else {
        1 + r.below(4) as u8
    };
    let mut lines = if heavy {
        heavy_lines(r, clocks)
    } else {
        lines(r, clocks)
    };
    let far = distance(r);
    if far != 0 {
        shift_dues(&mut lines, far);
    }
    if r.once_in(12) {
        disorder(r, &mut lines);
    }
    let mut v = Input {
        clocks,
        lines,
        instants: Vec::new(),
    };
    let (most, rare, count) = if crowded {
        (8, 1, 1 + r.below(3))
    } else if heavy {
        (1 + r.below(4) as usize, r.pick(&[2, 1000]), 1 + r.below(6))
    } else {
        (4, r.pick(&[2, 3, 6, 1000]), r.below(13))
    };
    // Most logs are steered: of a few instants the first that still holds.
    let tries = if heavy {
        r.pick(&[1, 1, 4])
    } else {
        r.pick(&[1, 4, 4, 8])
    };
    let obey = !r.once_in(4);
    let sheet = v.sheet();
    let mut log = Vec::new();
    let mut tags: Vec<i16> = (0..clocks).map(|_| tag(r).saturating_add(far)).collect();
    for _ in 0..count {
        let mut chosen = Vec::new();
        let mut chosen_tags = Vec::new();
        for _ in 0..tries {
            chosen_tags = tags.clone();
            next_tags(r, &mut chosen_tags, &v.lines, obey);
            chosen = next_instant(r, &chosen_tags, most, rare);
            if tries > 1 && !crowded {
                let end = log.len();
                log.extend(&chosen);
                let holds = is_holding(plain::judge(&sheet, &log));
                log.truncate(end);
                if holds {
                    break;
                }
            }
        }
        tags = chosen_tags;
        log.extend(&chosen);
        v.instants.push(chosen);
    }
    v
}

/// Around 4,000 instants, all ticks seen. Clock 0 may count its own ticks, up
/// to eight at a time; or clock 1 ticks seldom and begins a long countdown on
/// clock 0, whose last tick meets it, or is likely to lack the one of clock 1.
fn long_input(r: &mut Xorshift) -> Input {
    let (clocks, lines, seldom) = match r.below(4) {
        0 => (1 + r.below(2) as u8, vec![], false),
        1 => (1 + r.below(2) as u8, vec![weakly(0, 0)], false),
        2 => {
            let n = 1 + r.below(8) as u8;
            (1 + r.below(2) as u8, vec![counted(0, n, 0, 0)], false)
        }
        _ => {
            let (n, d) = (r.pick(&[100, 254, 255]), r.pick(&[0, 0, 1]));
            (2, vec![counted(1, n, 0, d)], true)
        }
    };
    let count = 3999 + r.below(4);
    let instants = (0..count)
        .map(|n| {
            let cells: Vec<_> = (0..clocks)
                .map(|k| {
                    let tick = if seldom && k == 1 {
                        r.once_in(200)
                    } else {
                        r.once_in(2)
                    };
                    (if tick { TICK } else { IDLE }, n as i16)
                })
                .collect();
            instant(&cells)
        })
        .collect();
    Input {
        clocks,
        lines,
        instants,
    }
}

impl Input {
    pub fn sheet(&self) -> Vec<u8> {
        let mut bytes = clocks(self.clocks);
        bytes.extend(self.lines.concat());
        bytes
    }

    fn log(&self) -> Vec<u8> {
        self.instants.concat()
    }

    pub fn is_long(&self) -> bool {
        self.instants.len() > 1000
    }

    fn form(&self) -> Form {
        let numbered = self.instants.iter().filter(|i| is_numbered(i)).count();
        if numbered == 0 {
            Form::Plain
        } else if numbered == self.instants.len() {
            Form::Numbered
        } else {
            Form::Mixed
        }
    }

    /// A fault in the numbers of a log: a record with a wrong one, dropped, sent
    /// again or sent late. In a long log it is a wrong number, often where the
    /// high byte begins to count or with 3,999 or 4,000 instants held.
    fn misnumber(&mut self, r: &mut Xorshift) {
        let count = self.instants.len();
        let Some(last) = count.checked_sub(1) else {
            return;
        };
        let long = self.is_long();
        let any = r.below(count as u64) as usize;
        let at = if long {
            r.pick(&[any, 255, 256, 3999, 3999, 4000, 4000, 4000, 4000])
                .min(last)
        } else {
            r.pick(&[any, any, last])
        };
        let later = at + 1 + r.below((count - at) as u64) as usize;
        match r.below(8) {
            0 if !long => {
                self.instants.remove(at);
            }
            1 if !long => self.instants.insert(later, self.instants[at].clone()),
            2 if !long => self.instants.swap(at, later.min(last)),
            _ => self.instants[at] = misnumbered(r, &self.instants[at], at),
        }
    }

    /// A fault in one record of the sheet or the log, often in the last: there
    /// it meets the seventeenth line and the instant after 4,000.
    pub fn damage(&mut self, r: &mut Xorshift) {
        let any = r.below(256) as u8;
        let long = self.is_long();
        let of_log = long || r.once_in(2);
        let records = if of_log {
            &mut self.instants
        } else {
            &mut self.lines
        };
        let Some(last) = records.len().checked_sub(1) else {
            return;
        };
        let which = if long || r.once_in(3) {
            last
        } else {
            r.below(last as u64 + 1) as usize
        };
        let record = &mut records[which];
        match r.below(10) {
            // Kind; one of an instant with the other's length among them.
            0 if of_log => record[2] = r.pick(&[1, 16, 31, 32, 33, 34, any]),
            0 => {
                record[2] = r.pick(&[
                    0, 1, 15, 16, 17, 18, 19, 20, 21, 22, 23, 24, 25, 32, 33, any,
                ])
            }
            1 => record[3] = r.pick(&[1, any]),
            // Length, by the field alone or by the body alone.
            2 => record[0] = record[0].wrapping_add(r.pick(&[1, 2, 255])),
            3 => {
                record.pop();
            }
            // Length, both.
            4 => {
                record.push(any);
                record[0] = (record.len() - 4) as u8;
            }
            5 => {
                record.pop();
                record[0] = (record.len() - 4) as u8;
            }
            // A count of 0, at times beside a clock that is too high.
            6 if record[2] == 24 => {
                record[7] = 0;
                if r.once_in(4) {
                    record[4 + r.below(3) as usize] = self.clocks;
                }
            }
            // A tick byte of an instant, a clock of a line.
            _ if of_log => damage_tick(r, record),
            _ => {
                let body = record.len() - 4;
                let at = r.below(3) as usize % body;
                record[4 + at] = r.pick(&[3, self.clocks, 255, any]);
            }
        }
    }
}

/// A fault in a byte string.
pub fn damage_bytes(r: &mut Xorshift, bytes: &mut Vec<u8>) {
    let at = r.below(bytes.len() as u64 + 1) as usize;
    let any = r.below(256) as u8;
    match r.below(7) {
        0 if at < bytes.len() => bytes[at] ^= 1 << r.below(8),
        1 if at < bytes.len() => bytes[at] = any,
        2 if at < bytes.len() => {
            bytes.remove(at);
        }
        3 => bytes.insert(at, any),
        4 => bytes.truncate(at),
        5 => bytes.clear(),
        _ => bytes.extend((0..1 + r.below(5)).map(|_| r.below(4) as u8)),
    }
}

/// A fault in the record of the clocks.
pub fn damage_head(r: &mut Xorshift, sheet: &mut Vec<u8>) {
    let any = r.below(256) as u8;
    match r.below(4) {
        0 => sheet[4] = r.pick(&[0, 9, 255, any]),
        1 => sheet[2] = r.pick(&[0, 2, 16, any]),
        2 => sheet[0] = r.pick(&[0, 2, any]),
        _ => {
            sheet[0] = 2;
            sheet.insert(5, any);
        }
    }
}

/// How often each outcome of a call was seen.
#[derive(Default)]
pub struct Seen {
    pub numbers: [u64; 20],
    exhausted: u64,
    broken: u64,
    clear: u64,
    owed: u64,
    full: u64,
    other: u64,
}

impl Seen {
    pub fn number(&mut self, n: u64) {
        match self.numbers.get_mut(n as usize) {
            Some(count) => *count += 1,
            None => self.other += 1,
        }
    }

    pub fn result(&mut self, result: u64) {
        self.number(result & 0xff);
        self.full += (result >> 16 & 0xff == 32) as u64;
        match (result >> 8 & 0xff, result >> 24 & 0xff) {
            (0, _) => {}
            (1, _) => self.exhausted += 1,
            (2, _) => self.broken += 1,
            (3, 1) => self.clear += 1,
            (3, 0) => self.owed += 1,
            _ => self.other += 1,
        }
    }

    /// The answers.
    pub fn said(&self) -> String {
        format!(
            "holding {} clear and {} owed, of these {} with 32 live, broken {}, exhausted {}",
            self.clear, self.owed, self.full, self.broken, self.exhausted
        )
    }

    pub fn print(&self, call: &str, taken: &str) {
        println!("{call}: {taken}");
        let refused: Vec<String> = (1..self.numbers.len())
            .filter(|&n| self.numbers[n] > 0)
            .map(|n| format!("{n}: {}", self.numbers[n]))
            .collect();
        println!("    refused {}", refused.join(", "));
        assert_eq!(
            self.other, 0,
            "{call}: an outcome that documents 01 and 02 do not have"
        );
    }
}

/// How often countdowns were held, eight in a remainder and eight obligations,
/// and how often there was no room for one more.
#[derive(Default)]
pub struct Room {
    countdowns: u64,
    eight_countdowns: u64,
    eight_owed: u64,
    eight_of_both: u64,
    ninth_countdown: u64,
    ninth_owed: u64,
    remainder: u64,
}

impl Room {
    pub fn look(&mut self, m: &plain::Monitor) {
        let [owed, countdowns, both] = m.most();
        self.countdowns += (countdowns > 0) as u64;
        self.eight_countdowns += (countdowns == 8) as u64;
        self.eight_owed += (owed == 8) as u64;
        self.eight_of_both += (both == 16) as u64;
        match m.exhausted() {
            None => {}
            Some(Exhausted::Countdowns) => self.ninth_countdown += 1,
            Some(Exhausted::Owed) => self.ninth_owed += 1,
            Some(Exhausted::Live) => self.remainder += 1,
        }
    }

    pub fn print(&self) {
        println!(
            "countdowns held {}; of a remainder eight countdowns {}, eight obligations {}, eight of both {}",
            self.countdowns, self.eight_countdowns, self.eight_owed, self.eight_of_both
        );
        println!(
            "exhausted by a ninth countdown {}, by a ninth obligation {}, by a 33rd remainder {}",
            self.ninth_countdown, self.ninth_owed, self.remainder
        );
    }
}

pub fn hex(bytes: &[u8]) -> String {
    bytes
        .iter()
        .map(|b| format!("{b:02x}"))
        .collect::<Vec<_>>()
        .join(" ")
}

struct Test {
    differences: u64,
    /// Logs by their form, before a fault.
    forms: [u64; 3],
    judged: Seen,
    room: Room,
    watched: Seen,
    panelled: Seen,
    owing: u64,
    sheets: Seen,
    instants: Seen,
}

impl Test {
    /// Counts a difference, and prints the first few whole.
    fn compare<T: PartialEq + std::fmt::Debug>(
        &mut self,
        call: &str,
        index: u64,
        sheet: &[u8],
        log: &[u8],
        library: T,
        plain: T,
    ) {
        if library == plain {
            return;
        }
        self.differences += 1;
        if self.differences <= 5 {
            println!("case {index}, {call}: library {library:x?}, plain {plain:x?}");
            println!("    sheet {}", hex(sheet));
            println!("    log   {}", hex(&log[..log.len().min(400)]));
        }
    }

    fn run(&mut self, r: &mut Xorshift, index: u64) {
        let mut v = input(r);
        self.forms[v.form() as usize] += 1;
        if r.once_in(if v.is_long() { 2 } else { 8 }) {
            v.misnumber(r);
        }
        let first = v.instants.first().map_or(0, Vec::len);
        let damaged = r.once_in(if v.is_long() { 2 } else { 3 });
        if damaged && (v.is_long() || r.once_in(2)) {
            v.damage(r);
        }
        let (mut sheet, mut log) = (v.sheet(), v.log());
        if damaged && !v.is_long() {
            match r.below(6) {
                0 => damage_bytes(r, &mut sheet),
                1 => damage_head(r, &mut sheet),
                2 | 3 => damage_bytes(r, &mut log),
                _ => {}
            }
        }

        let judged = plain::judge(&sheet, &log);
        self.judged.result(judged);
        if let Some(m) = plain::after(&sheet, &log) {
            self.room.look(&m);
        }
        self.compare(
            "lift_judge",
            index,
            &sheet,
            &log,
            library::judge(&sheet, &log),
            judged,
        );

        // A buffer with room to spare, just enough, or too short.
        let need = 3 * (judged >> 32) as usize;
        let room = match r.below(8) {
            0 => r.below(need as u64 + 1) as usize,
            1 if need > 0 => need - 1,
            2 | 3 => need,
            _ => need + 1 + r.below(8) as usize,
        };
        let fill = r.below(256) as u8;
        let (mut ours, mut theirs) = (vec![fill; room], vec![fill; room]);
        let watched = plain::watch(&sheet, &log, &mut ours);
        self.watched.result(watched);
        let result = library::watch(&sheet, &log, &mut theirs);
        self.compare(
            "lift_watch",
            index,
            &sheet,
            &log,
            (result, theirs),
            (watched, ours),
        );

        let clock = if r.once_in(20) {
            r.below(256) as u8
        } else {
            r.below(v.clocks as u64) as u8
        };
        let panelled = plain::panel(&sheet, &log, clock);
        self.panelled.number(panelled & 0xff);
        self.owing += (panelled >> 16 & 0xff != 0) as u64;
        self.compare(
            "lift_panel",
            index,
            &sheet,
            &log,
            library::panel(&sheet, &log, clock),
            panelled,
        );

        let number = plain::sheet_number(&sheet);
        self.sheets.number(number as u64);
        self.compare(
            "lift_sheet_number",
            index,
            &sheet,
            &[],
            library::sheet_number(&sheet),
            number,
        );

        // A record of the log, the whole log, or a part of it. Read alone, a
        // record may have any number.
        let end = match r.below(8) {
            0 => log.len(),
            1 => r.below(log.len() as u64 + 1) as usize,
            _ => log.len().min(first),
        };
        let mut record = log[..end].to_vec();
        if is_numbered(&record) && record.len() >= 6 && r.once_in(2) {
            let any = r.below(1 << 16) as u16;
            let number: u16 = r.pick(&[0, 1, 4000, 4001, 65535, any]);
            record[4..6].copy_from_slice(&number.to_le_bytes());
        }
        let clocks = if r.once_in(6) {
            r.below(11) as u8
        } else {
            v.clocks
        };
        let number = plain::instant_number(&record, clocks);
        self.instants.number(number as u64);
        self.compare(
            "lift_instant_number",
            index,
            &[],
            &record,
            library::instant_number(&record, clocks),
            number,
        );
    }
}

/// The number of differences.
pub fn random(seed: u64, count: u64) -> u64 {
    let mut test = Test {
        differences: 0,
        forms: [0; 3],
        judged: Seen::default(),
        room: Room::default(),
        watched: Seen::default(),
        panelled: Seen::default(),
        owing: 0,
        sheets: Seen::default(),
        instants: Seen::default(),
    };
    for index in 0..count {
        test.run(&mut Xorshift::new(seed ^ index << 20), index);
    }
    test.judged.print("lift_judge", &test.judged.said());
    test.watched.print("lift_watch", &test.watched.said());
    test.panelled.print(
        "lift_panel",
        &format!(
            "taken {}, some owing {}",
            test.panelled.numbers[0], test.owing
        ),
    );
    test.sheets.print(
        "lift_sheet_number",
        &format!("taken {}", test.sheets.numbers[0]),
    );
    test.instants.print(
        "lift_instant_number",
        &format!("taken {}", test.instants.numbers[0]),
    );
    test.room.print();
    let [plain, numbered, mixed] = test.forms;
    println!("logs plain {plain}, numbered {numbered}, mixed {mixed}");
    println!(
        "random {seed}: {count} sheets and logs, {} differences",
        test.differences
    );
    test.differences
}
