//! Times of the library and of the plain monitor on the same input.
use crate::calls::measured;
use crate::cases::{self, Case};
use crate::{library, plain};
use std::hint::black_box;
use std::time::{Duration, Instant};

const HOLDING: u8 = 3;
const ROUNDS: usize = 7;
const ROUND: Duration = Duration::from_millis(100);

/// Checks that a case holds throughout and that both give the same output;
/// the mean of live over the timed instants.
fn check(c: &Case) -> f64 {
    let mut whole = vec![0; 3 * cases::INSTANTS];
    let result = plain::watch(&c.sheet, &c.log, &mut whole);
    assert_eq!(result & 0xff, 0, "{}: the log is taken", c.name);
    assert_eq!(
        result >> 32,
        cases::INSTANTS as u64,
        "{}: each instant is taken",
        c.name
    );
    assert!(
        whole.chunks(3).all(|e| e[0] == HOLDING),
        "{}: holding throughout",
        c.name
    );

    let log = c.first(c.timed);
    let mut ours = vec![0xaa; 3 * c.timed + 3];
    let mut theirs = ours.clone();
    let result = plain::watch(&c.sheet, log, &mut ours);
    assert_eq!(
        library::watch(&c.sheet, log, &mut theirs),
        result,
        "{}: lift_watch",
        c.name
    );
    assert_eq!(theirs, ours, "{}: the answers of lift_watch", c.name);
    assert_eq!(
        library::judge(&c.sheet, log),
        result,
        "{}: lift_judge",
        c.name
    );
    assert_eq!(plain::judge(&c.sheet, log), result, "{}: judge", c.name);
    ours.chunks(3)
        .take(c.timed)
        .map(|e| e[1] as f64)
        .sum::<f64>()
        / c.timed as f64
}

/// Nanoseconds of a run, short ones repeated.
fn time(run: &dyn Fn(), repeats: u32) -> f64 {
    let start = Instant::now();
    for _ in 0..repeats {
        run();
    }
    start.elapsed().as_nanos() as f64 / repeats as f64
}

/// The best of several rounds of each, in turn, so that both meet the same
/// machine.
fn best(a: &dyn Fn(), b: &dyn Fn()) -> (f64, f64) {
    let repeats = |run| (ROUND.as_nanos() as f64 / time(run, 1)).ceil() as u32;
    let (m, n) = (repeats(a), repeats(b));
    let (mut x, mut y) = (f64::MAX, f64::MAX);
    for _ in 0..ROUNDS {
        x = x.min(time(a, m));
        y = y.min(time(b, n));
    }
    (x, y)
}

pub fn table() {
    println!(
        "{:<12} {:<9} {:>8} {:>6} {:>5} {:>11} {:>11} {:>7}",
        "call", "case", "instants", "live", "owed", "library ns", "plain ns", "ratio"
    );
    let all = cases::all();
    let mut worst = (0.0, "", "");
    for (call, c) in measured(&all) {
        let live = check(c);
        let n = c.timed;
        assert_eq!(
            (call.library)(c, n),
            (call.plain)(c, n),
            "{} on {}",
            call.name,
            c.name
        );
        let owed = plain::after(&c.sheet, c.first(n)).map_or(0, |m| m.most()[2]);
        let (library, plain) = best(
            &|| {
                black_box((call.library)(black_box(c), black_box(n)));
            },
            &|| {
                black_box((call.plain)(black_box(c), black_box(n)));
            },
        );
        let ratio = library / plain;
        if ratio > worst.0 {
            worst = (ratio, call.name, c.name);
        }
        println!(
            "{:<12} {:<9} {:>8} {:>6.1} {:>5} {:>11.0} {:>11.0} {:>7.2}   {}",
            call.name,
            c.name,
            n,
            live,
            owed,
            library / n as f64,
            plain / n as f64,
            ratio,
            c.about
        );
    }
    println!("worst ratio: {:.2} ({}, {})", worst.0, worst.1, worst.2);
    println!("instants: how many of the 4,000 are timed; live: mean of these; owed: the most obligations and countdowns of a remainder after them; ns: per instant");
}
