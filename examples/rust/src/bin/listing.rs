//! listing SHEET LOG: prints what `watch SHEET LOG` prints, by `lift::watch`.
//! Before that it tries the other calls on document 01's listing, and panics
//! if one of them gives something else.
use lift::{Answer, Refused, Taken};
use std::env;
use std::fs;
use std::io::{self, Write};
use std::process::exit;

/// Document 01's listing: two clocks; 0 delayed by 2 on 0 implies 1.
const SHEET: [u8; 14] = [1, 0, 1, 0, 2, 5, 0, 20, 0, 0, 0, 1, 2, 0];

const RECORD: usize = 10;

const LOG: [[u8; RECORD]; 5] = [
    [6, 0, 32, 0, 1, 0xfd, 0xff, 0, 0, 0], // 0 ticks at -3
    [6, 0, 32, 0, 2, 0xfe, 0xff, 0, 0, 0], // 0 unseen at -2
    [6, 0, 32, 0, 0, 0xff, 0xff, 1, 0, 0], // 0 idle at -1, 1 ticks
    [6, 0, 32, 0, 0, 1, 0, 0, 0, 0],       // 0 idle at 1
    [6, 0, 32, 0, 0, 0, 0, 0, 0, 0],       // 0 idle at 0: its tag falls
];

/// Whether the calls give what document 01 says of its listing.
fn try_calls() {
    let first = |n: usize| LOG[..n].concat();
    let held = Answer::Holding {
        live: 2,
        clear: true,
    };
    assert_eq!(
        lift::judge(&SHEET, &first(3)),
        Ok(Taken {
            value: held,
            count: 3
        })
    );
    assert_eq!(
        lift::judge(&SHEET, &first(5)),
        Ok(Taken {
            value: Answer::Broken,
            count: 5
        })
    );

    let mut small = [7; 2 * lift::ENTRY + 2];
    let short = Refused {
        number: lift::SHORT_BUFFER,
        count: 3,
    };
    assert_eq!(lift::watch(&SHEET, &first(3), &mut small), Err(short));
    assert_eq!(small, [7; 2 * lift::ENTRY + 2]);

    let owing = |n, clock| lift::panel(&SHEET, &first(n), clock).map(|t| t.value);
    for (n, count) in [(0, 0), (1, 1), (2, 2), (3, 1), (5, 0)] {
        assert_eq!(owing(n, 1), Ok(count));
    }
    assert_eq!(owing(2, 0), Ok(0));

    assert_eq!(lift::sheet_number(&SHEET), None);
    assert_eq!(lift::sheet_number(&SHEET[..13]), Some(1));
    assert_eq!(lift::instant_number(&LOG[0], 2), None);
    assert_eq!(lift::instant_number(&LOG[0], 3), Some(14));
    assert_eq!(lift::instant_number(&LOG[0][..9], 2), Some(12));
}

/// A file that can't be opened counts as empty.
fn read_file(name: &str) -> Vec<u8> {
    fs::read(name).unwrap_or_default()
}

fn print(sheet: &[u8], log: &[u8]) -> io::Result<()> {
    let mut out = [0; lift::ENTRY * lift::INSTANTS];
    let result = lift::watch(sheet, log, &mut out);
    let count = match result {
        Ok(taken) => taken.count,
        Err(refused) => refused.count,
    };
    let mut stdout = io::stdout().lock();
    for (i, answer) in lift::answers(&out, count).enumerate() {
        let n = i + 1;
        match answer {
            Answer::Exhausted => writeln!(stdout, "{n} exhausted 0 -")?,
            Answer::Broken => writeln!(stdout, "{n} broken 0 -")?,
            Answer::Holding { live, clear } => writeln!(
                stdout,
                "{n} holding {live} {}",
                if clear { "clear" } else { "owed" }
            )?,
        }
    }
    if let Err(refused) = result {
        writeln!(stdout, "refused {}", refused.number)?;
    }
    Ok(())
}

fn main() -> io::Result<()> {
    let arguments: Vec<String> = env::args().collect();
    let [_, sheet, log] = &arguments[..] else {
        eprintln!("listing SHEET LOG");
        exit(2);
    };
    try_calls();
    print(&read_file(sheet), &read_file(log))
}
