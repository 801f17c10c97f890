//! What counts as the time of a call.

use bench::measure::{least, mean, median};
use std::hint::black_box;
use std::thread::sleep;
use std::time::Duration;

/// A call that waits needs no processor, so that its time is not counted; one that works takes some. How much
/// is not tested: a busy machine would fail such a test.
#[test]
fn only_the_time_of_the_processor_counts() {
    let times = least(vec![
        Box::new(|| sleep(Duration::from_millis(50))),
        Box::new(|| {
            black_box((0..100_000).fold(0, |sum, turn| black_box(sum + turn)));
        }),
    ]);
    assert!(times[0] < 0.025, "{times:?}");
    assert!(times[1] > 0.0, "{times:?}");
}

#[test]
fn the_median_is_the_middle_one() {
    assert_eq!(median(vec![9.0, 1.0, 2.0]), 2.0);
    assert_eq!(mean(&[9.0, 1.0, 2.0]), 4.0);
}
