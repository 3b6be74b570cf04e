//! The stored output of the program `desk_calls`, line by line, by the second implementation.

use second::{Desks, Refusal, Rules};
use std::path::Path;

/// The numbers after the `=` signs of a line's part.
fn numbers(part: &str) -> Vec<u64> {
    part.split(['=', ' '])
        .filter_map(|word| word.parse().ok())
        .collect()
}

fn refused(refusal: Refusal) -> String {
    format!(
        " refused={} place={} second={}",
        refusal.number, refusal.place, refusal.second
    )
}

/// What the second implementation answers to the call that a line names, as the program prints it.
fn answer(desks: &mut Desks, call: &str) -> String {
    match numbers(call)[..] {
        [] => desks.hand_out().map_or_else(refused, |job| {
            format!(" desk={} number={} tag={}", job.desk, job.number, job.tag)
        }),
        [desk, tag] => {
            let tag = u32::try_from(tag).expect("a tag has 32 bits");
            desks.submit(desk, tag).map_or_else(refused, |accepted| {
                let before = accepted.before.expect("the rules have turns");
                format!(" number={} before={before}", accepted.number)
            })
        }
        _ => panic!("no call: {call}"),
    }
}

#[test]
fn stored_output() {
    let stored = Path::new(env!("CARGO_MANIFEST_DIR")).join("../../crates/desk_calls/stdout");
    let stored = std::fs::read_to_string(stored).expect("the stored output");
    let mut desks = Desks::new(&Rules::as_of(10));
    let mut lines = 0;
    for line in stored.lines() {
        let (call, told) = line.split_once(':').expect("a call and its answer");
        assert_eq!(told, answer(&mut desks, call), "line {}", lines + 1);
        lines += 1;
    }
    assert_eq!(lines, 1000);
}
