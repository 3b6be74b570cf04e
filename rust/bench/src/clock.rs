//! Medians. Those that are compared take turns, so that what else the machine does meets them alike.

use std::time::{Duration, Instant};

/// Rounds: at least so many, then more until the time is spent, and at most so many.
const LEAST: usize = 5;
const MOST: usize = 201;
const TIME: Duration = Duration::from_millis(1500);

/// Nanoseconds of one call, for each that is compared: the median over the rounds. In a round each
/// is timed once over a whole pass, which makes `calls` calls.
pub fn medians(calls: usize, passes: &mut [&mut dyn FnMut()]) -> Vec<f64> {
    for pass in passes.iter_mut() {
        pass();
    }
    let mut times = vec![Vec::new(); passes.len()];
    let start = Instant::now();
    for round in 0..MOST {
        if round >= LEAST && start.elapsed() > TIME {
            break;
        }
        for (pass, times) in passes.iter_mut().zip(&mut times) {
            let begun = Instant::now();
            pass();
            times.push(begun.elapsed().as_nanos() as f64 / calls as f64);
        }
    }
    times.iter_mut().map(|times| median(times)).collect()
}

fn median(times: &mut [f64]) -> f64 {
    times.sort_by(f64::total_cmp);
    let middle = times.len() / 2;
    if times.len() % 2 == 1 {
        times[middle]
    } else {
        (times[middle - 1] + times[middle]) / 2.0
    }
}

#[cfg(test)]
mod tests {
    #[test]
    fn median_of_odd_and_even() {
        assert_eq!(super::median(&mut [9.0, 1.0, 2.0]), 2.0);
        assert_eq!(super::median(&mut [9.0, 1.0, 2.0, 4.0]), 3.0);
    }
}
