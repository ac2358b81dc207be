//! HP 200LX day chains.

use super::pages::CountAnswer;

unsafe extern "C" {
    pub fn apptbook_check_chains(
        table: *const u8,
        table_len: usize,
        previous: *const u16,
        previous_len: usize,
        next: *const u16,
        next_len: usize,
        kinds: *const u16,
        kinds_len: usize,
        minutes: *const u16,
        minutes_len: usize,
    ) -> CountAnswer;
}

pub fn check_chains(
    table: &[u8],
    previous: &[u16],
    next: &[u16],
    kinds: &[u16],
    minutes: &[u16],
) -> CountAnswer {
    // SAFETY: the slices' items are there, and the library only reads them.
    unsafe {
        apptbook_check_chains(
            table.as_ptr(),
            table.len(),
            previous.as_ptr(),
            previous.len(),
            next.as_ptr(),
            next.len(),
            kinds.as_ptr(),
            kinds.len(),
            minutes.as_ptr(),
            minutes.len(),
        )
    }
}
