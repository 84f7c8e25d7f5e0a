//! The C library's seven calls, made safe: a slice is handed over as its pointer and its length.
//!
//! The library reads and writes nothing outside the slices, keeps no pointer, and changes only what is lent as `&mut`;
//! Rust sees to it that slices lent as `&mut` overlap no other. Each call returns document 01's number, and writes as
//! many of the report's eight words as are lent.

#![allow(unsafe_code)]

/// Words of a whole report.
pub const REPORT_WORDS: usize = 8;

/// The report's words, by their place in it.
pub mod report {
    pub const PLACE: usize = 0;
    pub const MICROSTEPS: usize = 1;
    pub const TAKEN: usize = 2;
    pub const LEFT: usize = 3;
    pub const ENTERED: usize = 4;
    pub const FIRED: usize = 5;
    pub const OUTPUTS: usize = 6;
    pub const WORDS: usize = 7;
}

mod c {
    extern "C" {
        pub fn olivrescum_check_chart(
            chart: *const u16,
            chart_words: usize,
            report: *mut u32,
            report_words: usize,
        ) -> u32;
        pub fn olivrescum_start_chart(
            chart: *const u16,
            chart_words: usize,
            state: *mut u16,
            state_words: usize,
            report: *mut u32,
            report_words: usize,
        ) -> u32;
        pub fn olivrescum_run_chart(
            chart: *const u16,
            chart_words: usize,
            state: *mut u16,
            state_words: usize,
            event: u32,
            outputs: *mut u16,
            output_words: usize,
            report: *mut u32,
            report_words: usize,
        ) -> u32;
        pub fn olivrescum_flatten(
            chart: *const u16,
            chart_words: usize,
            room: *mut u16,
            room_words: usize,
            report: *mut u32,
            report_words: usize,
        ) -> u32;
        pub fn olivrescum_check_flat(flat: *const u16, flat_words: usize, report: *mut u32, report_words: usize)
            -> u32;
        pub fn olivrescum_start_flat(
            flat: *const u16,
            flat_words: usize,
            state: *mut u16,
            state_words: usize,
            report: *mut u32,
            report_words: usize,
        ) -> u32;
        pub fn olivrescum_run_flat(
            flat: *const u16,
            flat_words: usize,
            state: *mut u16,
            state_words: usize,
            event: u32,
            outputs: *mut u16,
            output_words: usize,
            report: *mut u32,
            report_words: usize,
        ) -> u32;
    }
}

pub fn check_chart(chart: &[u16], report: &mut [u32]) -> u32 {
    // SAFETY: pointers and lengths are those of live slices that do not overlap.
    unsafe { c::olivrescum_check_chart(chart.as_ptr(), chart.len(), report.as_mut_ptr(), report.len()) }
}

pub fn start_chart(chart: &[u16], state: &mut [u16], report: &mut [u32]) -> u32 {
    // SAFETY: as above.
    unsafe {
        c::olivrescum_start_chart(
            chart.as_ptr(),
            chart.len(),
            state.as_mut_ptr(),
            state.len(),
            report.as_mut_ptr(),
            report.len(),
        )
    }
}

pub fn run_chart(chart: &[u16], state: &mut [u16], event: u32, outputs: &mut [u16], report: &mut [u32]) -> u32 {
    // SAFETY: as above.
    unsafe {
        c::olivrescum_run_chart(
            chart.as_ptr(),
            chart.len(),
            state.as_mut_ptr(),
            state.len(),
            event,
            outputs.as_mut_ptr(),
            outputs.len(),
            report.as_mut_ptr(),
            report.len(),
        )
    }
}

pub fn flatten(chart: &[u16], room: &mut [u16], report: &mut [u32]) -> u32 {
    // SAFETY: as above.
    unsafe {
        c::olivrescum_flatten(
            chart.as_ptr(),
            chart.len(),
            room.as_mut_ptr(),
            room.len(),
            report.as_mut_ptr(),
            report.len(),
        )
    }
}

pub fn check_flat(flat: &[u16], report: &mut [u32]) -> u32 {
    // SAFETY: as above.
    unsafe { c::olivrescum_check_flat(flat.as_ptr(), flat.len(), report.as_mut_ptr(), report.len()) }
}

pub fn start_flat(flat: &[u16], state: &mut [u16], report: &mut [u32]) -> u32 {
    // SAFETY: as above.
    unsafe {
        c::olivrescum_start_flat(
            flat.as_ptr(),
            flat.len(),
            state.as_mut_ptr(),
            state.len(),
            report.as_mut_ptr(),
            report.len(),
        )
    }
}

pub fn run_flat(flat: &[u16], state: &mut [u16], event: u32, outputs: &mut [u16], report: &mut [u32]) -> u32 {
    // SAFETY: as above.
    unsafe {
        c::olivrescum_run_flat(
            flat.as_ptr(),
            flat.len(),
            state.as_mut_ptr(),
            state.len(),
            event,
            outputs.as_mut_ptr(),
            outputs.len(),
            report.as_mut_ptr(),
            report.len(),
        )
    }
}
