//! The best time of each side, all of them in turns.

use std::time::Instant;

/// Nanoseconds of the fastest of so many passes, for each side.
pub fn best_of<const SIDES: usize>(
    passes: u32,
    mut sides: [&mut dyn FnMut(); SIDES],
) -> [f64; SIDES] {
    let mut best = [f64::MAX; SIDES];
    for _ in 0..passes {
        for (side, best) in sides.iter_mut().zip(&mut best) {
            let start = Instant::now();
            side();
            *best = best.min(start.elapsed().as_nanos() as f64);
        }
    }
    best
}
