//! The measured cases: a sheet and a log of 4,000 instants each, holding
//! throughout.
use crate::bytes::*;
use crate::xorshift::Xorshift;

pub const INSTANTS: usize = 4000;

pub struct Case {
    pub name: &'static str,
    pub about: &'static str,
    pub sheet: Vec<u8>,
    pub log: Vec<u8>,
    /// Bytes of an instant's record.
    pub record: usize,
    /// How many instants are timed.
    pub timed: usize,
    /// Two numbers of instants between which instructions are counted.
    pub counted: (usize, usize),
}

impl Case {
    /// The first n instants of the log.
    pub fn first(&self, n: usize) -> &[u8] {
        &self.log[..n * self.record]
    }
}

fn case(
    name: &'static str,
    about: &'static str,
    timed: usize,
    clocks_count: u8,
    mut lines: Vec<Vec<u8>>,
    cells: impl FnMut(usize) -> Vec<(u8, i16)>,
) -> Case {
    sort_lines(&mut lines);
    let mut sheet = clocks(clocks_count);
    sheet.extend(lines.concat());
    let log = (0..INSTANTS)
        .map(cells)
        .map(|c| instant(&c))
        .collect::<Vec<_>>()
        .concat();
    let counted = if timed == INSTANTS {
        (1000, 2000)
    } else {
        (10, 14)
    };
    Case {
        name,
        about,
        sheet,
        log,
        record: 4 + 3 * clocks_count as usize,
        timed,
        counted,
    }
}

/// Eight clocks unseen, all at one tag.
fn all_unseen(tag: i16) -> Vec<(u8, i16)> {
    vec![(UNSEEN, tag); 8]
}

pub fn all() -> Vec<Case> {
    vec![
        owed(),
        counted_ticks(),
        delays(),
        meeting(),
        precedes(),
        kill_chain(),
        no_lines(),
        imply_chain(),
        typical(),
        typical_numbered(),
    ]
}

/// Clocks 0 to 4 begin an obligation each, clocks 5 to 7 several of these.
/// The tags of their on-clocks stay, so that what is owed stays owed: the
/// remainders are the sets of five obligations, 32.
fn begin_five(shared: [&[u8]; 3]) -> Vec<Vec<u8>> {
    let begin = |a: u8, i: u8| delayed(a, 100 + i as u16, i, (i + 3) % 8);
    let mut lines: Vec<_> = (0..5).map(|i| begin(i, i)).collect();
    for (a, which) in (5..8).zip(shared) {
        lines.extend(which.iter().map(|&i| begin(a, i)));
    }
    lines
}

fn five_stay(n: usize) -> Vec<(u8, i16)> {
    (0..8)
        .map(|k| (UNSEEN, if k < 5 { 7 } else { n as i16 }))
        .collect()
}

/// With the three sporadic obligations the largest remainder owes eight.
fn owed() -> Case {
    let mut lines = vec![
        sporadic(5, 30000, 5),
        sporadic(6, 30000, 6),
        sporadic(7, 30000, 7),
    ];
    lines.extend(begin_five([&[0, 1], &[1, 2, 3], &[2, 3, 4]]));
    case(
        "owed",
        "3 sporadic, 13 delay lines, up to 8 owed",
        100,
        8,
        lines,
        five_stay,
    )
}

/// Clocks 0 and 1 begin countdowns of 3 on their own ticks, the one for clock 4
/// and the other for itself. Of each are held none, 3, 3 and 2, or 3, 2 and 1:
/// these a tick leaves as they are, one met, two fallen, one begun. Clocks 2
/// and 3 both begin a countdown of 1 on each of the two, which its own next
/// tick meets: none is held, or both. Clocks 4 to 7 begin some of these too.
/// The remainders are 4 times 4 times 2 sets, 32, the largest of eight
/// countdowns.
fn counted_ticks() -> Case {
    let begin = |a: u8, which: &[u8]| -> Vec<Vec<u8>> {
        which
            .iter()
            .map(|&k| match k {
                0 => counted(a, 3, 0, 4),
                1 => counted(a, 3, 1, 1),
                _ => counted(a, 1, k, k),
            })
            .collect()
    };
    let begun: [&[u8]; 8] = [
        &[0],
        &[1],
        &[2, 3],
        &[2, 3],
        &[0, 1],
        &[0, 2, 3],
        &[1, 2, 3],
        &[2, 3],
    ];
    let lines = (0..8).zip(begun).flat_map(|(a, k)| begin(a, k)).collect();
    case(
        "counted",
        "16 counted lines, up to 8 countdowns",
        100,
        8,
        lines,
        |n| all_unseen(n as i16),
    )
}

fn delays() -> Case {
    let lines = begin_five([&[0, 1, 2, 3], &[1, 2, 3, 4], &[0, 2, 4]]);
    case(
        "delays",
        "16 delay lines, up to 5 owed",
        100,
        8,
        lines,
        five_stay,
    )
}

/// Tags rise by 1: a tick meets what its clock owes and begins it anew; what
/// is not met at its due is late an instant later.
fn meeting() -> Case {
    let lines: Vec<_> = (0..3).map(|i| delayed(i, 1, i, i)).collect();
    case(
        "meeting",
        "3 delay lines, obligations met or late at every instant",
        200,
        8,
        lines,
        |n| all_unseen(n as i16),
    )
}

/// Clock 6 is one tick ahead of clock 7, both seen; clocks 0 to 4 lie between
/// them, each at one of two counts, clock 5 goes with clock 4: 32 live.
fn precedes() -> Case {
    let mut lines = Vec::new();
    for i in 0..5 {
        lines.push(weakly(6, i));
        lines.push(weakly(i, 7));
    }
    lines.extend([
        weakly(4, 5),
        weakly(5, 4),
        weakly(6, 5),
        weakly(5, 7),
        weakly(6, 7),
        strictly(6, 7),
    ]);
    case(
        "precedes",
        "16 precedes lines, 6 clocks unseen",
        400,
        8,
        lines,
        |n| {
            let tag = n as i16;
            let ahead = if n % 2 == 0 { TICK } else { IDLE };
            let behind = if n % 2 == 0 && n > 0 { TICK } else { IDLE };
            let mut cells = vec![(UNSEEN, tag); 6];
            cells.extend([(ahead, tag), (behind, tag)]);
            cells
        },
    )
}

/// The stopped clocks are any of clocks 1 to 5: 32 live.
fn kill_chain() -> Case {
    let lines: Vec<_> = (0..5).map(|i| kills(i, i + 1)).collect();
    case("kills", "a chain of 5 kills lines", 400, 8, lines, |n| {
        all_unseen(n as i16)
    })
}

fn no_lines() -> Case {
    case("none", "no line", 400, 8, vec![], |n| all_unseen(n as i16))
}

/// Nine fillings fit.
fn imply_chain() -> Case {
    let lines: Vec<_> = (0..7).map(|i| implies(i, i + 1)).collect();
    case(
        "implies",
        "a chain of 7 implies lines",
        400,
        8,
        lines,
        |n| all_unseen(n as i16),
    )
}

/// Clock 0 ticks at every fourth instant and clock 1 with it, clock 2 two
/// instants later; clock 3 would stop clock 0 and never ticks. One tick byte
/// in fifty is unseen.
fn typical() -> Case {
    let lines = vec![
        relation(1, 2, 0, 0),
        implies(0, 1),
        delayed(0, 16, 0, 2),
        weakly(0, 2),
        excludes(2, 3),
        kills(3, 0),
        sporadic(1, 0, 0),
    ];
    let mut random = Xorshift::new(4);
    case(
        "typical",
        "4 clocks, 7 lines, 2 % unseen",
        INSTANTS,
        4,
        lines,
        |n| {
            let tag = 8 * (n as i16 - 2000);
            let ticks = [n % 4 == 0, n % 4 == 0 || n % 7 == 0, n % 4 == 2, false];
            let tags = [tag, 2 * tag, n as i16, 0];
            (0..4)
                .map(|k| {
                    let tick = if random.below(50) == 0 {
                        UNSEEN
                    } else if ticks[k] {
                        TICK
                    } else {
                        IDLE
                    };
                    (tick, tags[k])
                })
                .collect()
        },
    )
}

/// The typical log with each instant's number, kind 33.
fn typical_numbered() -> Case {
    let plain = typical();
    let log = plain
        .log
        .chunks_exact(plain.record)
        .zip(1..)
        .map(|(record, number)| numbered(number, record))
        .collect::<Vec<_>>()
        .concat();
    Case {
        name: "numbered",
        about: "the typical log with numbers",
        log,
        record: plain.record + 2,
        ..plain
    }
}
