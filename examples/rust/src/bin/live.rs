//! A lift, instant by instant, that goes on after a restart: between the runs
//! of this program the monitor is in the file STATE.
//!
//!     live open STATE SHEET        opens the lift sheet
//!     live take STATE RECORD...    takes instants, a record to a file, and
//!                                  prints the line of each as `watch` does
//!     live show STATE              after a restart: the last line, and how
//!                                  many live remainders owe each clock
use lift::{Answer, State, Taken};
use std::env;
use std::fs::{self, File};
use std::io::{self, Write};
use std::process::exit;

/// A file that can't be opened counts as empty.
fn read_file(name: &str) -> Vec<u8> {
    fs::read(name).unwrap_or_default()
}

/// The state of the last run; where there is none, no monitor.
fn load(name: &str) -> State {
    match read_file(name).first_chunk() {
        Some(bytes) => State::from_bytes(bytes),
        None => State::new(),
    }
}

/// A new file, which takes the old one's place once it is whole on the disk.
fn store(name: &str, state: &State) -> io::Result<()> {
    let new_name = format!("{name}.new");
    let mut file = File::create(&new_name)?;
    file.write_all(&state.to_bytes())?;
    file.sync_all()?;
    fs::rename(new_name, name)
}

fn print(result: lift::Result<Answer>) {
    match result {
        Err(refused) => println!("refused {}", refused.number),
        Ok(Taken { value, count }) => match value {
            Answer::Exhausted => println!("{count} exhausted 0 -"),
            Answer::Broken => println!("{count} broken 0 -"),
            Answer::Holding { live, clear: true } => println!("{count} holding {live} clear"),
            Answer::Holding { live, clear: false } => println!("{count} holding {live} owed"),
        },
    }
}

fn open(name: &str, sheet: &str) -> io::Result<()> {
    let mut state = State::new();
    let result = state.open(&read_file(sheet));
    print(result);
    match result {
        Ok(_) => store(name, &state),
        Err(_) => Ok(()),
    }
}

fn take(name: &str, records: &[&str]) -> io::Result<()> {
    let mut state = load(name);
    for record in records {
        let result = state.observe(&read_file(record));
        // Stored before it is shown: what was shown holds after a restart.
        if result.is_ok() {
            store(name, &state)?;
        }
        print(result);
    }
    Ok(())
}

fn show(name: &str) {
    let state = load(name);
    print(state.last());
    for clock in 0..8 {
        if let Ok(owing) = state.owing(clock) {
            println!("{clock}: {}", owing.value);
        }
    }
}

fn main() -> io::Result<()> {
    let arguments: Vec<String> = env::args().collect();
    let arguments: Vec<&str> = arguments.iter().map(String::as_str).collect();
    match arguments[..] {
        [_, "open", name, sheet] => open(name, sheet),
        [_, "take", name, ref records @ ..] => take(name, records),
        [_, "show", name] => {
            show(name);
            Ok(())
        }
        _ => {
            eprintln!("live open STATE SHEET | take STATE RECORD... | show STATE");
            exit(2)
        }
    }
}
