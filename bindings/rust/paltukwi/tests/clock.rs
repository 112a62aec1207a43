//! The clock counts microseconds, and goes forward.

use paltukwi::now;
use std::thread::sleep;
use std::time::{Duration, Instant};

#[test]
fn the_clock_counts_microseconds() {
    for _ in 0..10 {
        let (began, first) = (Instant::now(), now());
        sleep(Duration::from_millis(20));
        let (second, outer) = (now(), began.elapsed().as_micros());
        assert!(second - first >= 20_000);
        // Each number is cut to whole microseconds, so that the inner one may come out one more.
        assert!(u128::from(second - first) <= outer + 1);
    }
}
