//! The support call and learning against plain Rust, on the largest rows: 512 tapes, 65,535 events, 1,024 classes.
mod plain;
mod proved;

use proved::Scanner;
use std::hint::black_box;
use std::time::{Duration, Instant};

/// Numbers from a fixed seed.
struct Random(u64);

impl Random {
    fn below(&mut self, n: u64) -> u64 {
        self.0 ^= self.0 << 13;
        self.0 ^= self.0 >> 7;
        self.0 ^= self.0 << 17;
        self.0 % n
    }
}

/// The best of several turns, the two taken in alternation so that both meet the same machine.
fn race(turns: usize, mut one: impl FnMut(), mut two: impl FnMut()) -> (Duration, Duration) {
    let mut best = (Duration::MAX, Duration::MAX);
    for _ in 0..turns {
        let start = Instant::now();
        one();
        best.0 = best.0.min(start.elapsed());
        let start = Instant::now();
        two();
        best.1 = best.1.min(start.elapsed());
    }
    best
}

fn report(name: &str, (proved, plain): (Duration, Duration)) {
    let ratio = proved.as_secs_f64() / plain.as_secs_f64();
    println!("| {name} | {proved:?} | {plain:?} | {ratio:.2} |");
}

fn main() {
    let mut random = Random(0x5eed);
    let events: Vec<Scanner> = (0..65_535).map(|_| Scanner { code: random.below(1024) as u16 * 4 }).collect();
    let offsets: Vec<u32> = (0..=512u32).map(|t| (u64::from(t) * 65_535 / 512) as u32).collect();
    println!("| call | proved | plain Rust | ratio |");
    println!("|---|---|---|---|");
    for length in [1usize, 4, 16] {
        let pattern: Vec<Scanner> = (0..length).map(|_| Scanner { code: random.below(1024) as u16 * 4 }).collect();
        assert_eq!(proved::support(&events, &offsets, &pattern), Ok(plain::support(&events, &offsets, &pattern)));
        report(
            &format!("support of {length} events"),
            race(
                200,
                || { let _ = black_box(proved::support(black_box(&events), &offsets, &pattern)); },
                || { black_box(plain::support(black_box(&events), &offsets, &pattern)); },
            ),
        );
    }
    let falling: Vec<Scanner> = (0..65_535u32).map(|i| Scanner { code: (4092 - (i % 1024) * 4) as u16 }).collect();
    for (name, events) in [("learning, random codes", &events), ("learning, falling codes", &falling)] {
        let mut row = vec![Scanner { code: 0 }; 1024];
        let mut other = row.clone();
        assert_eq!(proved::learn(events, &mut row), Ok(plain::learn(events, &mut other) as u32));
        assert_eq!(row, other);
        report(
            name,
            race(
                50,
                || { let _ = black_box(proved::learn(black_box(events), &mut row)); },
                || { black_box(plain::learn(black_box(events), &mut other)); },
            ),
        );
    }
}
