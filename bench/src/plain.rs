//! The same work in plain Rust, to compare with.
use crate::proved::Scanner;

fn code(event: &Scanner) -> u16 {
    event.code.min(4095)
}

/// Whether a tape includes a pattern.
fn includes(tape: &[Scanner], pattern: &[Scanner]) -> bool {
    let mut rest = tape.iter();
    pattern.iter().all(|wanted| rest.any(|event| code(event) == code(wanted)))
}

/// How many tapes include a pattern.
pub fn support(events: &[Scanner], offsets: &[u32], pattern: &[Scanner]) -> u32 {
    let mut count = 0;
    for pair in offsets.windows(2) {
        if includes(&events[pair[0] as usize..pair[1] as usize], pattern) {
            count += 1;
        }
    }
    count
}

/// The first event of each class, in rising order.
pub fn learn(events: &[Scanner], row: &mut [Scanner]) -> usize {
    let mut places: Vec<u16> = Vec::with_capacity(1024);
    for (i, event) in events.iter().enumerate() {
        if let Err(at) = places.binary_search_by(|p| code(&events[*p as usize]).cmp(&code(event))) {
            places.insert(at, i as u16);
        }
    }
    for (slot, place) in row.iter_mut().zip(&places) {
        *slot = events[*place as usize];
    }
    places.len()
}
