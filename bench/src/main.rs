//! The library beside a plain monitor: the same output, times, instructions
//! and stack.
//!
//!     bench                                   the table of times
//!     bench random SEED COUNT                 random sheets and logs through both
//!     bench live SEED COUNT                   random lists of live calls through both
//!     bench count CALL CASE library|plain N   one run on N instants, to be counted
//!     bench counted                           the calls and cases, and the two N to count with
//!     bench stack                             the stack that a call takes
mod bytes;
mod calls;
mod cases;
mod library;
mod live;
mod plain;
mod random;
mod stack;
mod state;
mod table;
mod xorshift;

use std::env;
use std::hint::black_box;
use std::process::exit;

fn usage() -> ! {
    eprintln!(
        "bench [random SEED COUNT | live SEED COUNT | count CALL CASE library|plain N | counted | stack]"
    );
    exit(2)
}

fn count(call: &str, name: &str, which: &str, n: usize) {
    let all = cases::all();
    let Some((call, c)) = calls::measured(&all)
        .find(|(l, c)| l.name == call && c.name == name && n <= cases::INSTANTS)
    else {
        usage()
    };
    match which {
        "library" => black_box((call.library)(c, n)),
        "plain" => black_box((call.plain)(c, n)),
        _ => usage(),
    };
}

fn main() {
    let arguments: Vec<String> = env::args().skip(1).collect();
    let arguments: Vec<&str> = arguments.iter().map(String::as_str).collect();
    let number = |s: &str| s.parse::<u64>().unwrap_or_else(|_| usage());
    match arguments[..] {
        [] => table::table(),
        ["random", seed, many] => {
            if random::random(number(seed), number(many)) != 0 {
                exit(1);
            }
        }
        ["live", seed, many] => {
            if live::random(number(seed), number(many)) != 0 {
                exit(1);
            }
        }
        ["count", call, name, which, n] => count(call, name, which, number(n) as usize),
        ["counted"] => {
            for (call, c) in calls::measured(&cases::all()) {
                println!("{} {} {} {}", call.name, c.name, c.counted.0, c.counted.1);
            }
        }
        ["stack"] => stack::stack(),
        _ => usage(),
    }
}
