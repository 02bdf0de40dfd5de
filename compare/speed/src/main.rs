//! speed SECONDS FILE...           a row for each file: our check, a walk by all our readers, the Rust's parse, Adler-32
//! speed --check SECONDS FILE...   our check alone
//!
//! The four take turns, and the least time of each counts: what else the machine does adds to a time and takes nothing off.
#[path = "../../src/dralovika.rs"]
mod dralovika;
mod touch;

use dralovika::{Answer, File};
use std::hint::black_box;
use std::time::{Duration, Instant};

/// A plain pass over the bytes.
fn adler32(bytes: &[u8]) -> u32 {
    let (mut a, mut b) = (1u32, 0u32);
    for part in bytes.chunks(5552) {
        for x in part {
            a += *x as u32;
            b += a;
        }
        a %= 65521;
        b %= 65521;
    }
    b << 16 | a
}

fn accepted(bytes: &[u8]) -> bool {
    matches!(File { bytes }.dralovika_check(), Answer::Words(_))
}

/// The least time of one run, in nanoseconds, over at least `least` rounds and until the time is up.
struct Clock {
    best: f64,
    rounds: u32,
}

impl Clock {
    fn new() -> Self {
        Clock { best: f64::MAX, rounds: 0 }
    }
    fn time(&mut self, mut run: impl FnMut()) {
        let start = Instant::now();
        run();
        self.best = self.best.min(start.elapsed().as_nanos() as f64);
        self.rounds += 1;
    }
}

fn mb_per_s(bytes: usize, nanoseconds: f64) -> f64 {
    bytes as f64 * 1000.0 / nanoseconds
}

fn main() {
    let mut words: Vec<String> = std::env::args().skip(1).collect();
    let alone = words.first().is_some_and(|w| w == "--check");
    if alone {
        words.remove(0);
    }
    let limit = Duration::from_secs_f64(words[0].parse().expect("seconds"));
    for name in &words[1..] {
        let bytes = std::fs::read(name).expect(name);
        assert!(accepted(&bytes), "{name} is accepted");
        let short = name.rsplit('/').next().unwrap();
        let [mut check, mut walk, mut parse, mut pass] = [Clock::new(), Clock::new(), Clock::new(), Clock::new()];
        let start = Instant::now();
        while check.rounds < 5 || start.elapsed() < limit {
            // several checks between two of the slow ones
            for _ in 0..10 {
                check.time(|| {
                    black_box(accepted(black_box(&bytes)));
                });
            }
            if alone {
                continue;
            }
            pass.time(|| {
                black_box(adler32(black_box(&bytes)));
            });
            parse.time(|| {
                black_box(dexparser::parse(black_box(&bytes)).is_ok());
            });
            if walk.rounds < 3 {
                walk.time(|| {
                    black_box(touch::all(black_box(&bytes)));
                });
            }
        }
        if alone {
            println!("| {short} | {} | {:.1} | {:.0} |", bytes.len(), check.best / 1000.0, mb_per_s(bytes.len(), check.best));
            continue;
        }
        println!(
            "| {short} | {} | {:.0} | {:.1} | {:.0} | {:.0} | {:.1} |",
            bytes.len(),
            mb_per_s(bytes.len(), check.best),
            mb_per_s(bytes.len(), walk.best),
            mb_per_s(bytes.len(), parse.best),
            mb_per_s(bytes.len(), pass.best),
            parse.best / check.best,
        );
    }
}
