//! The yardstick: the monitor of documents 01 and 02 written as in careful C.
//! It works in place and without heap; what the tags alone decide is done once
//! per instant, what the ticks alone decide once per filling; it stops as soon
//! as the answer is known. It shares nothing with the library.

const MAX_CLOCKS: usize = 8;
const MAX_LINES: usize = 16;
const MAX_SPORADIC: usize = 8;
const MAX_INSTANTS: u32 = 4000;
const MAX_LIVE: usize = 32;
const MAX_OWED: usize = 8;
const MAX_COUNTDOWNS: usize = 8;
/// A delay that would be due past the greatest tag begins no obligation.
const MOST_TAG: i32 = i16::MAX as i32;

const HEAD: usize = 4;
const CELL: usize = 3;
/// Bytes of a numbered instant's number, in front of its cells.
const NUMBER: usize = 2;
const ENTRY: usize = 3;

const EXHAUSTED: u8 = 1;
const BROKEN: u8 = 2;
const HOLDING: u8 = 3;

const SHORT_BUFFER: u8 = 10;

/// A list of at most N, without heap.
#[derive(Clone, Copy)]
struct List<T, const N: usize> {
    count: usize,
    items: [T; N],
}

impl<T: Copy + Default, const N: usize> Default for List<T, N> {
    fn default() -> Self {
        List {
            count: 0,
            items: [T::default(); N],
        }
    }
}

impl<T: Copy + Default, const N: usize> List<T, N> {
    fn push(&mut self, item: T) {
        self.items[self.count] = item;
        self.count += 1;
    }

    fn all(&self) -> &[T] {
        &self.items[..self.count]
    }
}

// ---- records

fn word(bytes: &[u8]) -> u16 {
    u16::from_le_bytes([bytes[0], bytes[1]])
}

fn tag(bytes: &[u8]) -> i16 {
    word(bytes) as i16
}

/// Kind and body of the record at the front, unless it is torn.
fn record(bytes: &[u8]) -> Option<(u16, &[u8])> {
    if bytes.len() < HEAD {
        return None;
    }
    let end = HEAD + word(bytes) as usize;
    if bytes.len() < end {
        return None;
    }
    Some((word(&bytes[2..]), &bytes[HEAD..end]))
}

#[derive(Clone, Copy, Default, PartialEq, Eq)]
struct Obligation {
    due: i32,
    clock: u8,
    on: u8,
}

/// A tick of `clock` owed at the last of the ticks of `on` that are wanted.
#[derive(Clone, Copy, Default, PartialEq, Eq)]
struct Countdown {
    clock: u8,
    on: u8,
    wanted: u8,
}

#[derive(Clone, Copy, Default)]
struct Relation {
    a: usize,
    b: usize,
    p: i32,
    q: i32,
}

/// Two clocks as masks.
#[derive(Clone, Copy, Default)]
struct Pair {
    a: u8,
    b: u8,
}

/// Each tick of `from` begins an obligation.
#[derive(Clone, Copy, Default)]
struct Delay {
    from: u8,
    on: u8,
    clock: u8,
    by: i32,
}

/// Each tick of `from` begins a countdown.
#[derive(Clone, Copy, Default)]
struct Counted {
    from: u8,
    begins: Countdown,
}

#[derive(Clone, Copy, Default)]
struct Precedes {
    a: u8,
    b: u8,
    strict: bool,
}

/// The lines of a sheet, listed by what is asked of them.
#[derive(Clone)]
struct Sheet {
    clocks: usize,
    sporadic: List<Obligation, MAX_SPORADIC>,
    relations: List<Relation, MAX_LINES>,
    implies: List<Pair, MAX_LINES>,
    excludes: List<Pair, MAX_LINES>,
    kills: List<Pair, MAX_LINES>,
    delays: List<Delay, MAX_LINES>,
    counted: List<Counted, MAX_LINES>,
    precedes: List<Precedes, MAX_LINES>,
}

fn read_sheet(bytes: &[u8]) -> Result<Sheet, u8> {
    let (kind, body) = record(bytes).ok_or(1)?;
    if kind != 1 {
        return Err(2);
    }
    if body.len() != 1 {
        return Err(3);
    }
    let clocks = body[0] as usize;
    if !(1..=MAX_CLOCKS).contains(&clocks) {
        return Err(4);
    }
    let mut sheet = Sheet {
        clocks,
        sporadic: List::default(),
        relations: List::default(),
        implies: List::default(),
        excludes: List::default(),
        kills: List::default(),
        delays: List::default(),
        counted: List::default(),
        precedes: List::default(),
    };
    let mut at = HEAD + 1;
    let mut lines = 0;
    // Kind and body of the line before; the first line is above kind 0.
    let mut before: (u16, &[u8]) = (0, &[]);
    while at < bytes.len() {
        let (kind, body) = record(&bytes[at..]).ok_or(1)?;
        if lines == MAX_LINES {
            return Err(8);
        }
        read_line(&mut sheet, kind, body)?;
        if (kind, body) <= before {
            return Err(17);
        }
        before = (kind, body);
        lines += 1;
        at += HEAD + body.len();
    }
    Ok(sheet)
}

fn read_line(sheet: &mut Sheet, kind: u16, body: &[u8]) -> Result<(), u8> {
    let (length, clocks) = match kind {
        16 => (4, 2),
        17 => (6, 2),
        18 | 19 | 21 | 22 | 23 => (2, 2),
        20 => (5, 3),
        24 => (4, 3),
        _ => return Err(5),
    };
    if body.len() != length {
        return Err(6);
    }
    if body[..clocks].iter().any(|&k| k as usize >= sheet.clocks) {
        return Err(7);
    }
    let (a, b) = (body[0], body[1]);
    let pair = Pair {
        a: 1 << a,
        b: 1 << b,
    };
    match kind {
        16 => {
            if sheet.sporadic.count == MAX_SPORADIC {
                return Err(9);
            }
            sheet.sporadic.push(Obligation {
                clock: a,
                due: tag(&body[2..]) as i32,
                on: b,
            });
        }
        17 => sheet.relations.push(Relation {
            a: a as usize,
            b: b as usize,
            p: tag(&body[2..]) as i32,
            q: tag(&body[4..]) as i32,
        }),
        18 => sheet.implies.push(pair),
        19 => sheet.excludes.push(pair),
        20 => sheet.delays.push(Delay {
            from: 1 << a,
            on: b,
            clock: body[2],
            by: word(&body[3..]) as i32,
        }),
        21 => sheet.precedes.push(Precedes {
            a,
            b,
            strict: false,
        }),
        22 => sheet.precedes.push(Precedes { a, b, strict: true }),
        23 => sheet.kills.push(pair),
        _ => {
            if body[3] == 0 {
                return Err(18);
            }
            sheet.counted.push(Counted {
                from: 1 << a,
                begins: Countdown {
                    clock: body[2],
                    on: b,
                    wanted: body[3],
                },
            });
        }
    }
    Ok(())
}

struct Instant {
    /// Of a numbered instant, kind 33.
    number: Option<u16>,
    /// The clocks that tick, a mask.
    ticks: u8,
    /// The clocks whose tick is unseen, a mask.
    unseen: u8,
    /// A tag for each clock.
    tags: [i16; MAX_CLOCKS],
}

/// 13 to 15, or the instant; its number may be any.
fn read_instant(kind: u16, body: &[u8], clocks: usize) -> Result<Instant, u8> {
    let before = match kind {
        32 => 0,
        33 => NUMBER,
        _ => return Err(13),
    };
    if body.len() != before + CELL * clocks {
        return Err(14);
    }
    let (number, cells) = body.split_at(before);
    let mut instant = Instant {
        number: (kind == 33).then(|| word(number)),
        ticks: 0,
        unseen: 0,
        tags: [0; MAX_CLOCKS],
    };
    for (k, cell) in cells.chunks_exact(CELL).enumerate() {
        match cell[0] {
            0 => {}
            1 => instant.ticks |= 1 << k,
            2 => instant.unseen |= 1 << k,
            _ => return Err(15),
        }
        instant.tags[k] = tag(&cell[1..]);
    }
    Ok(instant)
}

/// 12 to 15, or the instant that these bytes and no more are.
fn whole_instant(bytes: &[u8], clocks: usize) -> Result<Instant, u8> {
    match record(bytes) {
        Some((kind, body)) if bytes.len() == HEAD + body.len() => read_instant(kind, body, clocks),
        _ => Err(12),
    }
}

/// 16, then 19, or the instant, where so many are held.
fn next_instant(instant: Instant, held: u32) -> Result<Instant, u8> {
    if held == MAX_INSTANTS {
        return Err(16);
    }
    match instant.number {
        Some(number) if number as u32 != held + 1 => Err(19),
        _ => Ok(instant),
    }
}

// ---- the monitor

/// Obligations and countdowns without repeats; a lead for each precedes line,
/// in the sheet's order; the clocks that are stopped.
#[derive(Clone, Copy, Default)]
struct Remainder {
    owed: List<Obligation, MAX_OWED>,
    countdowns: List<Countdown, MAX_COUNTDOWNS>,
    leads: [u16; MAX_LINES],
    stopped: u8,
}

/// The remainders held; the place after the last is where the next one is
/// built before it is compared with them.
#[derive(Clone)]
struct Set {
    live: usize,
    clear: bool,
    items: [Remainder; MAX_LIVE + 1],
}

impl Set {
    fn empty() -> Set {
        Set {
            live: 0,
            clear: false,
            items: [Remainder::default(); MAX_LIVE + 1],
        }
    }
}

/// What depends on a filling alone.
struct Filling {
    ticks: u8,
    stops: u8,
    begun: List<Obligation, MAX_LINES>,
    countdowns: List<Countdown, MAX_LINES>,
    needs: [u16; MAX_LINES],
    gains: [u16; MAX_LINES],
}

/// What there is no room for: a ninth obligation or countdown of a remainder,
/// or a 33rd remainder.
#[derive(Clone, Copy, PartialEq, Eq)]
pub enum Exhausted {
    Owed,
    Countdowns,
    Live,
}

#[derive(Clone)]
pub struct Monitor {
    sheet: Sheet,
    instants: u32,
    tags: [i16; MAX_CLOCKS],
    exhausted: Option<Exhausted>,
    /// Two sets that change places: those held and those found.
    held: usize,
    sets: [Set; 2],
}

impl Monitor {
    fn open(sheet: Sheet) -> Monitor {
        let mut m = Monitor {
            sheet,
            instants: 0,
            tags: [0; MAX_CLOCKS],
            exhausted: None,
            held: 0,
            sets: [Set::empty(), Set::empty()],
        };
        let first = &mut m.sets[0];
        let owed = &mut first.items[0].owed;
        for o in m.sheet.sporadic.all() {
            if !owed.all().contains(o) {
                owed.push(*o);
            }
        }
        first.live = 1;
        first.clear = owed.count == 0;
        m
    }

    fn held(&self) -> &Set {
        &self.sets[self.held]
    }

    /// Answer, live, clear.
    fn answer(&self) -> [u8; ENTRY] {
        let held = self.held();
        if self.exhausted.is_some() {
            [EXHAUSTED, 0, 0]
        } else if held.live == 0 {
            [BROKEN, 0, 0]
        } else {
            [HOLDING, held.live as u8, held.clear as u8]
        }
    }

    fn observe(&mut self, instant: &Instant) {
        let first = self.instants == 0;
        self.instants += 1;
        if self.exhausted.is_some() || self.held().live == 0 {
            return;
        }
        if !tags_fit(&self.sheet, first, &self.tags, &instant.tags) {
            self.sets[self.held].live = 0;
            return;
        }
        self.tags = instant.tags;
        let (left, right) = self.sets.split_at_mut(1);
        let (held, found) = if self.held == 0 {
            (&left[0], &mut right[0])
        } else {
            (&right[0], &mut left[0])
        };
        match advance(&self.sheet, instant, held, found) {
            Ok(()) => self.held = 1 - self.held,
            Err(why) => self.exhausted = Some(why),
        }
    }
}

/// No tag falls, and each relation holds.
fn tags_fit(sheet: &Sheet, first: bool, was: &[i16; MAX_CLOCKS], tags: &[i16; MAX_CLOCKS]) -> bool {
    if !first && (0..sheet.clocks).any(|k| tags[k] < was[k]) {
        return false;
    }
    sheet
        .relations
        .all()
        .iter()
        .all(|r| tags[r.a] as i32 == r.p * tags[r.b] as i32 + r.q)
}

/// What those held become by an instant, filling by filling.
fn advance(sheet: &Sheet, instant: &Instant, held: &Set, found: &mut Set) -> Result<(), Exhausted> {
    found.live = 0;
    found.clear = false;
    let mut filling = Filling {
        ticks: 0,
        stops: 0,
        begun: List::default(),
        countdowns: List::default(),
        needs: [0; MAX_LINES],
        gains: [0; MAX_LINES],
    };
    let leads = sheet.precedes.count;
    let unseen = instant.unseen;
    let mut part = 0u8;
    loop {
        let ticks = instant.ticks | part;
        if ticks_fit(sheet, ticks) {
            fill(sheet, ticks, &instant.tags, &mut filling);
            for r in &held.items[..held.live] {
                let next = &mut found.items[found.live];
                if step(r, &filling, leads, &instant.tags, next)? {
                    insert(found, leads)?;
                }
            }
        }
        // The next part of the unseen ticks; after the last the first.
        part = part.wrapping_sub(unseen) & unseen;
        if part == 0 {
            return Ok(());
        }
    }
}

/// Implies, excludes, and kills within the instant.
fn ticks_fit(sheet: &Sheet, ticks: u8) -> bool {
    let both = |l: &Pair| ticks & l.a != 0 && ticks & l.b != 0;
    sheet
        .implies
        .all()
        .iter()
        .all(|l| ticks & l.a == 0 || ticks & l.b != 0)
        && !sheet.excludes.all().iter().any(both)
        && !sheet.kills.all().iter().any(both)
}

/// The clocks that a filling stops, the obligations and countdowns it begins
/// (each once), and for each precedes line the lead it needs and what it adds
/// to it.
fn fill(sheet: &Sheet, ticks: u8, tags: &[i16; MAX_CLOCKS], f: &mut Filling) {
    f.ticks = ticks;
    f.stops = 0;
    for l in sheet.kills.all() {
        if ticks & l.a != 0 {
            f.stops |= l.b;
        }
    }
    f.begun.count = 0;
    for l in sheet.delays.all() {
        let due = tags[l.on as usize] as i32 + l.by;
        if ticks & l.from != 0 && due <= MOST_TAG {
            let o = Obligation {
                clock: l.clock,
                due,
                on: l.on,
            };
            if !f.begun.all().contains(&o) {
                f.begun.push(o);
            }
        }
    }
    f.countdowns.count = 0;
    for l in sheet.counted.all() {
        if ticks & l.from != 0 && !f.countdowns.all().contains(&l.begins) {
            f.countdowns.push(l.begins);
        }
    }
    for (i, l) in sheet.precedes.all().iter().enumerate() {
        let a = (ticks >> l.a & 1) as u16;
        let b = (ticks >> l.b & 1) as u16;
        f.needs[i] = if l.strict { b } else { b & !a };
        f.gains[i] = a.wrapping_sub(b);
    }
}

/// One remainder, one filled instant on, into `next`; false: it does not fit.
fn step(
    r: &Remainder,
    f: &Filling,
    leads: usize,
    tags: &[i16; MAX_CLOCKS],
    next: &mut Remainder,
) -> Result<bool, Exhausted> {
    if r.stopped & f.ticks != 0 {
        return Ok(false);
    }
    for i in 0..leads {
        if r.leads[i] < f.needs[i] {
            return Ok(false);
        }
        next.leads[i] = r.leads[i].wrapping_add(f.gains[i]);
    }
    next.stopped = r.stopped | f.stops;
    next.owed.count = 0;
    for o in r.owed.all() {
        let now = tags[o.on as usize] as i32;
        if now == o.due && f.ticks >> o.clock & 1 != 0 {
            continue;
        }
        if now > o.due {
            return Ok(false);
        }
        next.owed.push(*o);
    }
    // Those of the same clocks fall together: what differs stays different.
    next.countdowns.count = 0;
    for c in r.countdowns.all() {
        let mut c = *c;
        if f.ticks >> c.on & 1 != 0 {
            c.wanted -= 1;
            if c.wanted == 0 {
                if f.ticks >> c.clock & 1 == 0 {
                    return Ok(false);
                }
                continue;
            }
        }
        next.countdowns.push(c);
    }
    for o in f.begun.all() {
        if !next.owed.all().contains(o) {
            if next.owed.count == MAX_OWED {
                return Err(Exhausted::Owed);
            }
            next.owed.push(*o);
        }
    }
    for c in f.countdowns.all() {
        if !next.countdowns.all().contains(c) {
            if next.countdowns.count == MAX_COUNTDOWNS {
                return Err(Exhausted::Countdowns);
            }
            next.countdowns.push(*c);
        }
    }
    Ok(true)
}

/// Keeps the remainder built in the place after the last, unless it is held.
fn insert(found: &mut Set, leads: usize) -> Result<(), Exhausted> {
    let n = found.live;
    let (held, rest) = found.items.split_at(n);
    let x = &rest[0];
    if held.iter().any(|r| same(x, r, leads)) {
        return Ok(());
    }
    if n == MAX_LIVE {
        return Err(Exhausted::Live);
    }
    found.clear |= x.owed.count == 0 && x.countdowns.count == 0;
    found.live = n + 1;
    Ok(())
}

/// Neither lists an obligation or a countdown twice, so equal counts and one
/// inclusion do.
fn same(x: &Remainder, r: &Remainder, leads: usize) -> bool {
    x.owed.count == r.owed.count
        && x.countdowns.count == r.countdowns.count
        && x.stopped == r.stopped
        && x.leads[..leads] == r.leads[..leads]
        && x.owed.all().iter().all(|o| r.owed.all().contains(o))
        && x.countdowns
            .all()
            .iter()
            .all(|c| r.countdowns.all().contains(c))
}

// ---- live

/// A remainder to be looked at: obligations in order, each a clock, a due and
/// an on-clock; countdowns in order, each a clock, an on-clock and the ticks
/// still wanted; the leads of the precedes lines; the stopped clocks, a mask.
#[derive(Clone, Debug, PartialEq, Eq, PartialOrd, Ord)]
pub struct Held {
    pub owed: Vec<(u8, i32, u8)>,
    pub countdowns: Vec<(u8, u8, u8)>,
    pub leads: Vec<u32>,
    pub stopped: u8,
}

impl Monitor {
    pub fn opened(sheet: &[u8]) -> Result<Monitor, u8> {
        read_sheet(sheet).map(Monitor::open)
    }

    /// Takes an instant's record.
    pub fn call(&mut self, bytes: &[u8]) -> u64 {
        let read = whole_instant(bytes, self.sheet.clocks);
        let number = match read.and_then(|i| next_instant(i, self.instants)) {
            Err(number) => number,
            Ok(instant) => {
                self.observe(&instant);
                0
            }
        };
        result(number, self)
    }

    pub fn last(&self) -> u64 {
        result(0, self)
    }

    /// How many of the live remainders owe a clock a tick.
    pub fn owing(&self, clock: u8) -> u64 {
        pack(0, [0, owing(self, clock), 0], self.instants)
    }

    pub fn clocks(&self) -> usize {
        self.sheet.clocks
    }

    /// The last tags, where some instant is held and something is still live.
    pub fn tags(&self) -> Option<&[i16]> {
        let live = self.instants > 0 && self.answer()[0] == HOLDING;
        live.then_some(&self.tags[..self.sheet.clocks])
    }

    /// Those held, none once exhausted.
    fn live(&self) -> &[Remainder] {
        let held = self.held();
        let live = if self.exhausted.is_some() {
            0
        } else {
            held.live
        };
        &held.items[..live]
    }

    /// The most obligations of a remainder held, the most countdowns, and the
    /// most of both together.
    pub fn most(&self) -> [usize; 3] {
        let most =
            |count: fn(&Remainder) -> usize| self.live().iter().map(count).max().unwrap_or(0);
        [
            most(|r| r.owed.count),
            most(|r| r.countdowns.count),
            most(|r| r.owed.count + r.countdowns.count),
        ]
    }

    /// What there was no room for, once exhausted.
    pub fn exhausted(&self) -> Option<Exhausted> {
        self.exhausted
    }

    /// Those held, in order.
    pub fn remainders(&self) -> Vec<Held> {
        let mut all: Vec<Held> = self
            .live()
            .iter()
            .map(|r| {
                let mut owed: Vec<_> = r
                    .owed
                    .all()
                    .iter()
                    .map(|o| (o.clock, o.due, o.on))
                    .collect();
                owed.sort();
                let mut countdowns: Vec<_> = r
                    .countdowns
                    .all()
                    .iter()
                    .map(|c| (c.clock, c.on, c.wanted))
                    .collect();
                countdowns.sort();
                let leads = &r.leads[..self.sheet.precedes.count];
                Held {
                    owed,
                    countdowns,
                    leads: leads.iter().map(|&n| n as u32).collect(),
                    stopped: r.stopped,
                }
            })
            .collect();
        all.sort();
        all
    }
}

// ---- the calls

fn pack(number: u8, answer: [u8; ENTRY], count: u32) -> u64 {
    number as u64
        | (answer[0] as u64) << 8
        | (answer[1] as u64) << 16
        | (answer[2] as u64) << 24
        | (count as u64) << 32
}

/// Takes a whole log, up to the refusal whose number it gives (0: none).
/// `each` is handed every answer.
fn follow(m: &mut Monitor, log: &[u8], mut each: impl FnMut([u8; ENTRY])) -> u8 {
    let mut at = 0;
    while at < log.len() {
        let Some((kind, body)) = record(&log[at..]) else {
            return 12;
        };
        let read = read_instant(kind, body, m.sheet.clocks);
        match read.and_then(|i| next_instant(i, m.instants)) {
            Err(number) => return number,
            Ok(instant) => m.observe(&instant),
        }
        each(m.answer());
        at += HEAD + body.len();
    }
    0
}

/// How many instants of a log are taken.
fn count(clocks: usize, log: &[u8]) -> u32 {
    let mut at = 0;
    let mut n = 0;
    while let Some((kind, body)) = record(&log[at..]) {
        let read = read_instant(kind, body, clocks);
        if read.and_then(|i| next_instant(i, n)).is_err() {
            break;
        }
        at += HEAD + body.len();
        n += 1;
    }
    n
}

fn result(number: u8, m: &Monitor) -> u64 {
    let answer = if number == 0 { m.answer() } else { [0; ENTRY] };
    pack(number, answer, m.instants)
}

pub fn judge(sheet: &[u8], log: &[u8]) -> u64 {
    match read_sheet(sheet) {
        Err(number) => pack(number, [0; ENTRY], 0),
        Ok(sheet) => {
            let mut m = Monitor::open(sheet);
            let number = follow(&mut m, log, |_| ());
            result(number, &m)
        }
    }
}

pub fn watch(sheet: &[u8], log: &[u8], out: &mut [u8]) -> u64 {
    match read_sheet(sheet) {
        Err(number) => pack(number, [0; ENTRY], 0),
        Ok(sheet) => {
            let n = count(sheet.clocks, log);
            if out.len() < ENTRY * n as usize {
                return pack(SHORT_BUFFER, [0; ENTRY], n);
            }
            let mut entries = out.chunks_exact_mut(ENTRY);
            let mut m = Monitor::open(sheet);
            let number = follow(&mut m, log, |answer| {
                entries.next().unwrap().copy_from_slice(&answer);
            });
            result(number, &m)
        }
    }
}

fn owing(m: &Monitor, clock: u8) -> u8 {
    m.live()
        .iter()
        .filter(|r| {
            r.owed.all().iter().any(|o| o.clock == clock)
                || r.countdowns.all().iter().any(|c| c.clock == clock)
        })
        .count() as u8
}

pub fn panel(sheet: &[u8], log: &[u8], clock: u8) -> u64 {
    match read_sheet(sheet) {
        Err(number) => pack(number, [0; ENTRY], 0),
        Ok(sheet) => {
            let mut m = Monitor::open(sheet);
            let number = follow(&mut m, log, |_| ());
            let owing = if number == 0 { owing(&m, clock) } else { 0 };
            pack(number, [0, owing, 0], m.instants)
        }
    }
}

/// The monitor after a whole log, or after its instants before a refusal; none
/// of a sheet that is refused.
pub fn after(sheet: &[u8], log: &[u8]) -> Option<Monitor> {
    let mut m = Monitor::opened(sheet).ok()?;
    follow(&mut m, log, |_| ());
    Some(m)
}

pub fn sheet_number(sheet: &[u8]) -> u8 {
    read_sheet(sheet).err().unwrap_or(0)
}

pub fn instant_number(bytes: &[u8], clocks: u8) -> u8 {
    if !(1..=MAX_CLOCKS).contains(&(clocks as usize)) {
        return 4;
    }
    whole_instant(bytes, clocks as usize).err().unwrap_or(0)
}

/// The refusal number of an instant's record where so many instants are held.
pub fn next_number(bytes: &[u8], clocks: usize, held: u32) -> u8 {
    let read = whole_instant(bytes, clocks);
    read.and_then(|i| next_instant(i, held)).err().unwrap_or(0)
}
