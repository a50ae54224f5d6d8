//! The stopwatch of the peers in Rust.
use std::hint::black_box;
use std::time::Instant;

/// Runs the work a number of times, each on a value made anew, and prints the shortest time.
pub fn timed<V, A>(name: &str, repetitions: usize, make: impl Fn() -> V, mut work: impl FnMut(&mut V) -> A, check: impl Fn(&V, A) -> usize) {
    let (mut best, mut sum) = (u128::MAX, 0);
    for _ in 0..repetitions {
        let mut value = black_box(make());
        let start = Instant::now();
        let answer = black_box(work(&mut value));
        best = best.min(start.elapsed().as_nanos());
        sum = check(black_box(&value), answer);
    }
    println!("{name} {best} {sum}");
}
