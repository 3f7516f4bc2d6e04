//! The proved library, through its C functions.

/// An event of a scanner, laid out as the library has it.
#[repr(C)]
#[derive(Clone, Copy, Debug, PartialEq, Eq)]
pub struct Scanner {
    pub code: u16,
}

unsafe extern "C" {
    fn scanner_support(
        events: *const Scanner,
        event_count: usize,
        offsets: *const u32,
        offset_count: usize,
        pattern: *const Scanner,
        pattern_length: usize,
    ) -> u64;
    fn scanner_learn(events: *const Scanner, event_count: usize, row: *mut Scanner, room: usize) -> u64;
}

/// Answers at or above this are a refusal's number beyond it.
const REFUSED: u64 = 1 << 32;

fn answer(n: u64) -> Result<u32, u8> {
    if n < REFUSED { Ok(n as u32) } else { Err((n - REFUSED) as u8) }
}

pub fn support(events: &[Scanner], offsets: &[u32], pattern: &[Scanner]) -> Result<u32, u8> {
    answer(unsafe {
        scanner_support(events.as_ptr(), events.len(), offsets.as_ptr(), offsets.len(), pattern.as_ptr(), pattern.len())
    })
}

pub fn learn(events: &[Scanner], row: &mut [Scanner]) -> Result<u32, u8> {
    answer(unsafe { scanner_learn(events.as_ptr(), events.len(), row.as_mut_ptr(), row.len()) })
}
