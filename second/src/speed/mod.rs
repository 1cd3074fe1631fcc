//! The parts of the speed program.

pub mod load;
pub mod ubf;
pub mod wire;

use std::time::Instant;

/// The shortest of three runs, in milliseconds.
pub fn best(mut run: impl FnMut()) -> f64 {
    let mut shortest = f64::INFINITY;
    for _ in 0..3 {
        let begun = Instant::now();
        run();
        shortest = shortest.min(begun.elapsed().as_secs_f64() * 1_000.0);
    }
    shortest
}

/// One line of the table: the ratio is the proved time over the second one.
pub fn line(what: &str, bytes: usize, proved: f64, second: f64) {
    let cell = |ms: f64| format!("{ms:.1} ({:.1})", bytes as f64 / 1_000.0 / ms);
    println!("{what:44} {:>20} {:>20} {:>7.2}", cell(proved), cell(second), proved / second);
}
