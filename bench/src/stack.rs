//! The stack that a call takes: it runs on a thread whose stack is memory of
//! ours, filled with a pattern, and what is changed afterwards was used.
use crate::cases::{self, Case};
use crate::state::WORDS;
use crate::{library, plain};
use std::cell::RefCell;
use std::hint::black_box;
use std::os::raw::{c_int, c_void};
use std::ptr;

const SIZE: usize = 1 << 20;
const PATTERN: u64 = 0x5aa5_c33c_0ff0_9669;

/// A thread's attributes, of a size that is enough for every C library.
#[repr(C, align(16))]
struct Attributes([u8; 128]);

extern "C" {
    fn pthread_attr_init(a: *mut Attributes) -> c_int;
    fn pthread_attr_setstack(a: *mut Attributes, stack: *mut c_void, size: usize) -> c_int;
    fn pthread_create(
        thread: *mut usize,
        a: *const Attributes,
        run: extern "C" fn(*mut c_void) -> *mut c_void,
        with: *mut c_void,
    ) -> c_int;
    fn pthread_join(thread: usize, result: *mut *mut c_void) -> c_int;
}

extern "C" fn call(with: *mut c_void) -> *mut c_void {
    // The function stands in `used` until the thread has ended.
    let run = unsafe { &*(with as *const &dyn Fn()) };
    run();
    ptr::null_mut()
}

/// Bytes from the top of the stack to the lowest that was changed.
fn used(run: &dyn Fn()) -> usize {
    let mut memory = vec![[PATTERN, PATTERN]; SIZE / 16 + 256];
    let start = memory.as_mut_ptr() as usize;
    let start = start.next_multiple_of(4096);
    let mut attributes = Attributes([0; 128]);
    let mut thread = 0;
    // The memory outlives the thread, and nobody else uses it meanwhile.
    unsafe {
        assert_eq!(pthread_attr_init(&mut attributes), 0);
        assert_eq!(
            pthread_attr_setstack(&mut attributes, start as *mut c_void, SIZE),
            0
        );
        let with = &run as *const &dyn Fn() as *mut c_void;
        assert_eq!(pthread_create(&mut thread, &attributes, call, with), 0);
        assert_eq!(pthread_join(thread, ptr::null_mut()), 0);
    }
    let words = unsafe { std::slice::from_raw_parts(start as *const u64, SIZE / 8) };
    let untouched = words.iter().take_while(|&&w| w == PATTERN).count();
    assert!(untouched > 0, "the stack of the measurement is too small");
    SIZE - 8 * untouched
}

/// The most that a call takes on the cases with eight obligations and with
/// eight countdowns.
pub fn stack() {
    let all = cases::all();
    let find = |name| all.iter().find(|c| c.name == name).unwrap();
    let [owed, counted] = ["owed", "counted"].map(|name| taken(find(name)));
    for ((name, a), (_, b)) in owed.into_iter().zip(counted) {
        println!("{:<28} {:>7} bytes", name, a.max(b));
    }
}

/// The stack that each call takes on the first instants of a case; live, on
/// the instant after them.
fn taken(c: &Case) -> Vec<(&'static str, usize)> {
    let log = c.first(4);
    let next = &c.first(5)[log.len()..];
    let idle = used(&|| ());
    let mut all = Vec::new();
    let mut measure = |name, run: &dyn Fn()| all.push((name, used(run) - idle));
    let state = RefCell::new(Box::new([0; WORDS]));
    measure("lift_open", &|| {
        black_box(library::open(&c.sheet, &mut state.borrow_mut()));
    });
    for record in log.chunks_exact(c.record) {
        library::observe(&mut state.borrow_mut(), record);
    }
    measure("lift_observe", &|| {
        black_box(library::observe(&mut state.borrow_mut(), next));
    });
    measure("lift_last", &|| {
        black_box(library::last(&state.borrow()));
    });
    measure("lift_owing", &|| {
        black_box(library::owing(&state.borrow(), 0));
    });
    measure("lift_judge", &|| {
        black_box(library::judge(&c.sheet, log));
    });
    measure("lift_watch", &|| {
        let mut out = [0; 12];
        black_box(library::watch(&c.sheet, log, &mut out));
    });
    measure("lift_panel", &|| {
        black_box(library::panel(&c.sheet, log, 0));
    });
    measure("the plain monitor's judge", &|| {
        black_box(plain::judge(&c.sheet, log));
    });
    all
}
