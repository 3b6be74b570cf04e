//! Every step of a plan of any length as the first overload, on the first link, on the last and on
//! others: what the paper says of it, and the second implementation's answer.

use compare::LANDED;
use pavuneshil::{Answer, Refusal};
use second::Checked;

const LINKS: u64 = 64;
const STEPS: u64 = 50;

/// Two tunnels of one flow, on link l and on the next, that carry 5 each; link l can carry no more.
/// The amounts of the last row are given.
fn network(class: u64, l: u64, new: [u64; 2]) -> Vec<u64> {
    let other = (l + 1) % LINKS;
    let mut list = vec![1, 50, 0, LINKS, 1, 2];
    list.extend((0..LINKS).map(|k| if k == l { 5 } else { 10 }));
    list.extend([class, 10]);
    list.extend([0, 1 << l, 5, new[0]]);
    list.extend([0, 1 << other, 5, new[1]]);
    list
}

/// In one listed row, if it is one, the first tunnel has 6; in all others both have 5.
fn plan(steps: u64, row: u64) -> Vec<u64> {
    let mut list = vec![1, steps, steps, 2];
    for a in 1..steps {
        let first = if a == row { 6 } else { 5 };
        list.extend([steps * first, steps * (10 - first)]);
    }
    list
}

fn check(network: &[u64], plan: &[u64], expected: Answer, marks: [u8; 2]) {
    let mut lent = [7; 3];
    let answer = pavuneshil::check_plan(1, network, plan, &mut lent);
    assert_eq!(answer, expected, "{network:?} {plan:?}");
    assert_eq!(lent, [marks[0], marks[1], 7], "{network:?} {plan:?}");
    let theirs = match second::check_plan_by(&LANDED, network, plan, lent.len()) {
        Checked::Accepted { marks } => (Answer::Done(marks.len()), marks),
        Checked::Refused { refusal, marks } => (
            Answer::Refused(Refusal {
                number: refusal.number,
                place: refusal.place,
                second: refusal.second,
            }),
            marks.unwrap_or_default(),
        ),
    };
    assert_eq!(theirs, (expected, marks.to_vec()), "{network:?} {plan:?}");
}

#[test]
fn every_step_can_be_the_first_overload() {
    for steps in 1..=STEPS {
        for row in 1..=steps {
            let new = if row == steps { [6, 4] } else { [5, 5] };
            for l in [0, row, LINKS - 1] {
                for (class, number) in [(0, 7), (1, 7), (2, 8)] {
                    let refusal = Refusal {
                        number,
                        place: row,
                        second: l,
                    };
                    let network = network(class, l, new);
                    let expected = Answer::Refused(refusal);
                    check(&network, &plan(steps, row), expected, [1, 0]);
                }
            }
        }
    }
}

#[test]
fn plans_of_any_length_are_accepted() {
    for steps in 1..=STEPS {
        for class in 0..3 {
            let network = network(class, LINKS - 1, [5, 5]);
            check(&network, &plan(steps, 0), Answer::Done(2), [0, 0]);
        }
    }
}
