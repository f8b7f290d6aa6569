//! The calls of the proved library.
use crate::state::Words;
use std::os::raw::c_uchar;

extern "C" {
    fn lift_open(sheet: *const c_uchar, sheet_len: usize, state: *mut Words) -> u64;
    fn lift_observe(state: *mut Words, record: *const c_uchar, record_len: usize) -> u64;
    fn lift_last(state: *const Words) -> u64;
    fn lift_owing(state: *const Words, clock: u8) -> u64;
    fn lift_judge(
        sheet: *const c_uchar,
        sheet_len: usize,
        log: *const c_uchar,
        log_len: usize,
    ) -> u64;
    fn lift_watch(
        sheet: *const c_uchar,
        sheet_len: usize,
        log: *const c_uchar,
        log_len: usize,
        out: *mut c_uchar,
        out_len: usize,
    ) -> u64;
    fn lift_panel(
        sheet: *const c_uchar,
        sheet_len: usize,
        log: *const c_uchar,
        log_len: usize,
        clock: u8,
    ) -> u64;
    fn lift_sheet_number(sheet: *const c_uchar, sheet_len: usize) -> u8;
    fn lift_instant_number(record: *const c_uchar, record_len: usize, clocks: u8) -> u8;
}

// Each call: a slice's pointer is valid for its length, and never null.

pub fn open(sheet: &[u8], state: &mut Words) -> u64 {
    unsafe { lift_open(sheet.as_ptr(), sheet.len(), state) }
}

pub fn observe(state: &mut Words, record: &[u8]) -> u64 {
    unsafe { lift_observe(state, record.as_ptr(), record.len()) }
}

pub fn last(state: &Words) -> u64 {
    unsafe { lift_last(state) }
}

pub fn owing(state: &Words, clock: u8) -> u64 {
    unsafe { lift_owing(state, clock) }
}

pub fn judge(sheet: &[u8], log: &[u8]) -> u64 {
    unsafe { lift_judge(sheet.as_ptr(), sheet.len(), log.as_ptr(), log.len()) }
}

pub fn watch(sheet: &[u8], log: &[u8], out: &mut [u8]) -> u64 {
    unsafe {
        lift_watch(
            sheet.as_ptr(),
            sheet.len(),
            log.as_ptr(),
            log.len(),
            out.as_mut_ptr(),
            out.len(),
        )
    }
}

pub fn panel(sheet: &[u8], log: &[u8], clock: u8) -> u64 {
    unsafe { lift_panel(sheet.as_ptr(), sheet.len(), log.as_ptr(), log.len(), clock) }
}

pub fn sheet_number(sheet: &[u8]) -> u8 {
    unsafe { lift_sheet_number(sheet.as_ptr(), sheet.len()) }
}

pub fn instant_number(record: &[u8], clocks: u8) -> u8 {
    unsafe { lift_instant_number(record.as_ptr(), record.len(), clocks) }
}
