//! The call, as include/marks.h declares it. The tests take it from here too.

unsafe extern "C" {
    pub fn marks_plan(
        job: *const u8,
        job_length: usize,
        first: *mut f64,
        first_length: usize,
        second: *mut f64,
        second_length: usize,
        sheet: *mut u8,
        sheet_length: usize,
        answer: *mut u32,
    ) -> u32;
}
