//! The thirteen symbols of the archive, and one safe function for each.
//!
//! A lent slice passes as its pointer and its length. The calls read and write
//! no byte outside the slices, keep no pointer and hold no state, so the
//! slices' own borrows are all that is needed.

#![allow(unsafe_code)]

extern "C" {
    fn flow_coarsest(
        sheet: *const u8,
        sheet_len: usize,
        start: *const u8,
        start_len: usize,
        turns: *const u8,
        turns_len: usize,
        grid: *mut u8,
        grid_len: usize,
        names: *mut u8,
        names_len: usize,
    ) -> u64;
    fn flow_compare(
        first: *const u8,
        first_len: usize,
        second: *const u8,
        second_len: usize,
    ) -> u64;
    fn flow_compare_ready(
        first: *const u8,
        first_len: usize,
        second: *const u8,
        second_len: usize,
    ) -> u64;
    fn flow_join(
        first: *const u8,
        first_len: usize,
        second: *const u8,
        second_len: usize,
        out: *mut u8,
        out_len: usize,
    ) -> u64;
    fn flow_normalise(sheet: *const u8, sheet_len: usize, out: *mut u8, out_len: usize) -> u64;
    fn flow_to_named(sheet: *const u8, sheet_len: usize, out: *mut u8, out_len: usize) -> u64;
    fn flow_to_plain(sheet: *const u8, sheet_len: usize, out: *mut u8, out_len: usize) -> u64;
    fn flow_end_start(sheet: *const u8, sheet_len: usize, grid: *mut u8, grid_len: usize) -> u64;
    fn flow_ready_start(sheet: *const u8, sheet_len: usize, grid: *mut u8, grid_len: usize) -> u64;
    fn flow_test_simulation(
        sheet: *const u8,
        sheet_len: usize,
        start: *const u8,
        start_len: usize,
        claim: *const u8,
        claim_len: usize,
    ) -> u64;
    fn flow_check_plan(
        sheet: *const u8,
        sheet_len: usize,
        start: *const u8,
        start_len: usize,
        plan: *const u8,
        plan_len: usize,
    ) -> u64;
    fn flow_write_plan(
        sheet: *const u8,
        sheet_len: usize,
        start: *const u8,
        start_len: usize,
        p: u64,
        q: u64,
        plan: *mut u8,
        plan_len: usize,
    ) -> u64;
    fn flow_hand_play(
        sheet: *const u8,
        sheet_len: usize,
        start: *const u8,
        start_len: usize,
        p: u64,
        q: u64,
        rounds: u64,
    ) -> u64;
}

pub fn coarsest(
    sheet: &[u8],
    start: &[u8],
    turns: &[u8],
    grid: &mut [u8],
    names: &mut [u8],
) -> u64 {
    unsafe {
        flow_coarsest(
            sheet.as_ptr(),
            sheet.len(),
            start.as_ptr(),
            start.len(),
            turns.as_ptr(),
            turns.len(),
            grid.as_mut_ptr(),
            grid.len(),
            names.as_mut_ptr(),
            names.len(),
        )
    }
}

pub fn compare(first: &[u8], second: &[u8]) -> u64 {
    unsafe { flow_compare(first.as_ptr(), first.len(), second.as_ptr(), second.len()) }
}

pub fn compare_ready(first: &[u8], second: &[u8]) -> u64 {
    unsafe { flow_compare_ready(first.as_ptr(), first.len(), second.as_ptr(), second.len()) }
}

pub fn join(first: &[u8], second: &[u8], out: &mut [u8]) -> u64 {
    unsafe {
        flow_join(
            first.as_ptr(),
            first.len(),
            second.as_ptr(),
            second.len(),
            out.as_mut_ptr(),
            out.len(),
        )
    }
}

pub fn normalise(sheet: &[u8], out: &mut [u8]) -> u64 {
    unsafe { flow_normalise(sheet.as_ptr(), sheet.len(), out.as_mut_ptr(), out.len()) }
}

pub fn to_named(sheet: &[u8], out: &mut [u8]) -> u64 {
    unsafe { flow_to_named(sheet.as_ptr(), sheet.len(), out.as_mut_ptr(), out.len()) }
}

pub fn to_plain(sheet: &[u8], out: &mut [u8]) -> u64 {
    unsafe { flow_to_plain(sheet.as_ptr(), sheet.len(), out.as_mut_ptr(), out.len()) }
}

pub fn end_start(sheet: &[u8], grid: &mut [u8]) -> u64 {
    unsafe { flow_end_start(sheet.as_ptr(), sheet.len(), grid.as_mut_ptr(), grid.len()) }
}

pub fn ready_start(sheet: &[u8], grid: &mut [u8]) -> u64 {
    unsafe { flow_ready_start(sheet.as_ptr(), sheet.len(), grid.as_mut_ptr(), grid.len()) }
}

pub fn test_simulation(sheet: &[u8], start: &[u8], claim: &[u8]) -> u64 {
    unsafe {
        flow_test_simulation(
            sheet.as_ptr(),
            sheet.len(),
            start.as_ptr(),
            start.len(),
            claim.as_ptr(),
            claim.len(),
        )
    }
}

pub fn check_plan(sheet: &[u8], start: &[u8], plan: &[u8]) -> u64 {
    unsafe {
        flow_check_plan(
            sheet.as_ptr(),
            sheet.len(),
            start.as_ptr(),
            start.len(),
            plan.as_ptr(),
            plan.len(),
        )
    }
}

pub fn write_plan(sheet: &[u8], start: &[u8], p: u64, q: u64, plan: &mut [u8]) -> u64 {
    unsafe {
        flow_write_plan(
            sheet.as_ptr(),
            sheet.len(),
            start.as_ptr(),
            start.len(),
            p,
            q,
            plan.as_mut_ptr(),
            plan.len(),
        )
    }
}

pub fn hand_play(sheet: &[u8], start: &[u8], p: u64, q: u64, rounds: u64) -> u64 {
    unsafe {
        flow_hand_play(
            sheet.as_ptr(),
            sheet.len(),
            start.as_ptr(),
            start.len(),
            p,
            q,
            rounds,
        )
    }
}
