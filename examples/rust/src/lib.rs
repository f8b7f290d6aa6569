//! The calls of the library `gateway` with Rust's types. include/lift.h says
//! what each returns.

mod raw {
    use super::STATE;

    extern "C" {
        pub fn lift_open(sheet: *const u8, sheet_len: usize, state: *mut [u32; STATE]) -> u64;
        pub fn lift_observe(state: *mut [u32; STATE], record: *const u8, record_len: usize) -> u64;
        pub fn lift_last(state: *const [u32; STATE]) -> u64;
        pub fn lift_owing(state: *const [u32; STATE], clock: u8) -> u64;
        pub fn lift_judge(
            sheet: *const u8,
            sheet_len: usize,
            log: *const u8,
            log_len: usize,
        ) -> u64;
        pub fn lift_watch(
            sheet: *const u8,
            sheet_len: usize,
            log: *const u8,
            log_len: usize,
            out: *mut u8,
            out_len: usize,
        ) -> u64;
        pub fn lift_panel(
            sheet: *const u8,
            sheet_len: usize,
            log: *const u8,
            log_len: usize,
            clock: u8,
        ) -> u64;
        pub fn lift_sheet_number(sheet: *const u8, sheet_len: usize) -> u8;
        pub fn lift_instant_number(record: *const u8, record_len: usize, clocks: u8) -> u8;
    }
}

/// Bytes of an answer in `watch`'s buffer.
pub const ENTRY: usize = 3;

/// Instants of the longest log that is taken.
pub const INSTANTS: usize = 4000;

/// The refusal number of a buffer that is too short.
pub const SHORT_BUFFER: u8 = 10;

/// The refusal number of a state that is no monitor within its limits.
pub const NO_MONITOR: u8 = 11;

/// The refusal number of a numbered instant that is not the next.
pub const NOT_NEXT: u8 = 19;

/// The answers' codes; 0, after a refusal, is none of them.
const EXHAUSTED: u8 = 1;
const BROKEN: u8 = 2;
const HOLDING: u8 = 3;

/// Words of a state, and bytes.
pub const STATE: usize = 4608;
pub const STATE_BYTES: usize = 4 * STATE;

#[derive(Clone, Copy, Debug, PartialEq, Eq)]
pub enum Answer {
    Exhausted,
    Broken,
    Holding { live: u8, clear: bool },
}

/// A value after a whole log or a call, and the instants taken.
#[derive(Clone, Copy, Debug, PartialEq, Eq)]
pub struct Taken<T> {
    pub value: T,
    pub count: u32,
}

/// A refusal: its number (docs/FORMAT.md), and the instants taken before it;
/// with `SHORT_BUFFER` the instants to make room for.
#[derive(Clone, Copy, Debug, PartialEq, Eq)]
pub struct Refused {
    pub number: u8,
    pub count: u32,
}

pub type Result<T> = std::result::Result<Taken<T>, Refused>;

/// The parts of a packed result: number, answer, live, clear.
fn unpack<T>(result: u64, value: impl FnOnce([u8; ENTRY]) -> T) -> Result<T> {
    let [number, answer, live, clear, ..] = result.to_le_bytes();
    let count = (result >> 32) as u32;
    match number {
        0 => Ok(Taken {
            value: value([answer, live, clear]),
            count,
        }),
        _ => Err(Refused { number, count }),
    }
}

/// The answer of three bytes; none where the first is 0, or no answer's code.
fn answer(entry: [u8; ENTRY]) -> Option<Answer> {
    match entry {
        [EXHAUSTED, ..] => Some(Answer::Exhausted),
        [BROKEN, ..] => Some(Answer::Broken),
        [HOLDING, live, clear] => Some(Answer::Holding {
            live,
            clear: clear == 1,
        }),
        _ => None,
    }
}

/// What a call that answers gave: a result without a refusal has an answer.
fn answered(result: u64) -> Result<Answer> {
    unpack(result, |entry| answer(entry).expect("an answer's code"))
}

/// A monitor, called instant by instant. Its words are all there is of it.
#[derive(Clone, PartialEq, Eq)]
pub struct State([u32; STATE]);

// Each call here and below: a slice's pointer is valid for its length and
// never null, and what is written is borrowed by nobody else.
impl State {
    /// No monitor yet: `NO_MONITOR` is what the calls say but `open`.
    pub const fn new() -> State {
        State([0; STATE])
    }

    /// Opens a sheet, with the answer for no instant. Refused, the state stays
    /// as it was.
    pub fn open(&mut self, sheet: &[u8]) -> Result<Answer> {
        let result = unsafe { raw::lift_open(sheet.as_ptr(), sheet.len(), &mut self.0) };
        answered(result)
    }

    /// Takes an instant's record. Refused, the state stays as it was.
    pub fn observe(&mut self, record: &[u8]) -> Result<Answer> {
        let result = unsafe { raw::lift_observe(&mut self.0, record.as_ptr(), record.len()) };
        answered(result)
    }

    /// The last answer: what to show after a restart.
    pub fn last(&self) -> Result<Answer> {
        let result = unsafe { raw::lift_last(&self.0) };
        answered(result)
    }

    /// How many of the live remainders owe this clock a tick, by an obligation
    /// or a countdown.
    pub fn owing(&self, clock: u8) -> Result<u8> {
        let result = unsafe { raw::lift_owing(&self.0, clock) };
        unpack(result, |[_, owing, _]| owing)
    }

    /// The words as bytes, to be stored whole.
    pub fn to_bytes(&self) -> Vec<u8> {
        self.0.iter().flat_map(|w| w.to_ne_bytes()).collect()
    }

    /// The words that were stored. Whether they are a monitor the calls tell.
    pub fn from_bytes(bytes: &[u8; STATE_BYTES]) -> State {
        let mut state = State::new();
        for (w, b) in state.0.iter_mut().zip(bytes.chunks_exact(4)) {
            *w = u32::from_ne_bytes([b[0], b[1], b[2], b[3]]);
        }
        state
    }
}

impl Default for State {
    fn default() -> State {
        State::new()
    }
}

/// The last answer of a whole log; for an empty log that of opening.
pub fn judge(sheet: &[u8], log: &[u8]) -> Result<Answer> {
    let result = unsafe { raw::lift_judge(sheet.as_ptr(), sheet.len(), log.as_ptr(), log.len()) };
    answered(result)
}

/// As `judge`, with the answer of every instant taken at the front of `out`,
/// to be read by `answers`; later bytes stay.
pub fn watch(sheet: &[u8], log: &[u8], out: &mut [u8]) -> Result<Answer> {
    let result = unsafe {
        raw::lift_watch(
            sheet.as_ptr(),
            sheet.len(),
            log.as_ptr(),
            log.len(),
            out.as_mut_ptr(),
            out.len(),
        )
    };
    answered(result)
}

/// The first `count` answers that `watch` wrote; they end where none was.
pub fn answers(out: &[u8], count: u32) -> impl Iterator<Item = Answer> + '_ {
    out.chunks_exact(ENTRY)
        .take(count as usize)
        .map_while(|e| answer([e[0], e[1], e[2]]))
}

/// How many of the live remainders owe this clock a tick after a whole log, by
/// an obligation or a countdown.
pub fn panel(sheet: &[u8], log: &[u8], clock: u8) -> Result<u8> {
    let result =
        unsafe { raw::lift_panel(sheet.as_ptr(), sheet.len(), log.as_ptr(), log.len(), clock) };
    unpack(result, |[_, owing, _]| owing)
}

/// The refusal number of a sheet, if it has one.
pub fn sheet_number(sheet: &[u8]) -> Option<u8> {
    let number = unsafe { raw::lift_sheet_number(sheet.as_ptr(), sheet.len()) };
    (number != 0).then_some(number)
}

/// The refusal number of an instant's record for a count of clocks, if it has
/// one.
pub fn instant_number(record: &[u8], clocks: u8) -> Option<u8> {
    let number = unsafe { raw::lift_instant_number(record.as_ptr(), record.len(), clocks) };
    (number != 0).then_some(number)
}
