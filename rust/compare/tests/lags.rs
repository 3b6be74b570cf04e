//! Agents that fall behind: planner and checker with a lag. What the paper says of small cases, with the
//! answers written down, and laws over many; every answer is held against the second implementation's
//! too. Every choice of rows of a window is tried by `compare` itself.

mod common;

use common::{accepted, check, check_lag, plan, plan_lag, refused, refused_at, sample_lists};
use compare::inputs::{self, LAGS};
use compare::LANDED;
use pavuneshil::{check_plan, make_plan, Answer, Refusal, StepBound, PLAN_NUMBERS};
use second::gen::{any_plan, to_edition, with_unit, Rng, Shape};

const AMOUNT: u64 = 10_000_000;

/// A network of edition 3 from what is said of each link, flow and tunnel.
fn network(
    overrun: u64,
    unit: u64,
    links: &[[u64; 2]],
    flows: &[[u64; 3]],
    tunnels: &[[u64; 4]],
) -> Vec<u64> {
    let counts = [links.len(), flows.len(), tunnels.len()].map(|count| count as u64);
    let head = [&[3, 20, overrun, unit], &counts[..]].concat();
    [head, links.concat(), flows.concat(), tunnels.concat()].concat()
}

/// The swap: two flows of rate 10 change places on two links of this capacity. Tunnels 0 and 3 cross link 0.
fn swap(cap: u64, class: u64, overrun: u64) -> Vec<u64> {
    let mut list = vec![1, 333, overrun, 2, 2, 4, cap, cap, class, 10, class, 10];
    list.extend([0, 1, 10, 0, 0, 2, 0, 10, 1, 2, 10, 0, 1, 1, 0, 10]);
    list
}

/// The same in every edition, and in edition 3 with either `unit`: flow by flow it moves as tunnel by tunnel.
fn in_every_edition(list: &[u64]) -> Vec<Vec<u64>> {
    let last = to_edition(list, 3);
    vec![
        list.to_vec(),
        to_edition(list, 2),
        with_unit(&last, 0),
        with_unit(&last, 1),
    ]
}

/// How many steps the planner takes with this lag; the checker takes its plan with this lag and with less.
fn steps(lag: u64, network: &[u64]) -> Result<u64, Refusal> {
    let made = plan_lag(lag, network)?;
    for lag in 1..=lag {
        assert_eq!(check_lag(lag, network, &made), accepted(made[3] as usize));
    }
    Ok(made[2])
}

// ------------------------------------------------------------------ the swap

/// In q steps link 0 has of tunnel 0 at most 10 (q - a) parts in the window from row a, and of tunnel 3 at
/// most 10 (a + w), or 10 q where q is less: 10 (q + w) in all, which has to be at most cap × q.
#[test]
fn the_swap() {
    for (cap, fewest) in [
        (20, [1, 1, 1, 1]),
        (19, [2, 3, 4, 5]),
        (16, [2, 4, 5, 7]),
        (15, [2, 4, 6, 8]),
        (14, [3, 5, 8, 10]),
        (13, [4, 7, 10, 14]),
        (12, [5, 10, 15, 20]),
        (11, [10, 20, 30, 40]),
    ] {
        for class in 0..3 {
            for network in in_every_edition(&swap(cap, class, 0)) {
                for (lag, fewest) in LAGS.into_iter().zip(fewest) {
                    assert_eq!(steps(lag, &network), Ok(fewest), "cap {cap}, lag {lag}");
                }
            }
        }
    }
    for lag in LAGS {
        for network in in_every_edition(&swap(10, 0, 0)) {
            assert_eq!(plan_lag(lag, &network), Err(refused(9, 1, 0)));
        }
    }
}

/// The plan with lag 2, row by row.
#[test]
fn the_plan_of_the_swap() {
    let rows = [30, 10, 30, 10, 20, 20, 20, 20, 10, 30, 10, 30];
    let expected = [&[1, 4, 4, 4], &rows[..]].concat();
    assert_eq!(plan_lag(2, &swap(15, 0, 0)), Ok(expected));
    let halves = vec![1, 2, 2, 4, 10, 10, 10, 10];
    assert_eq!(plan_lag(1, &swap(15, 0, 0)), Ok(halves));
}

/// A plan that was made for a lag does not do with more: link 0 is overloaded once tunnel 3 is ahead.
#[test]
fn the_swap_with_more_lag_than_planned() {
    for (class, number) in [(0, 7), (1, 7), (2, 8)] {
        for network in in_every_edition(&swap(15, class, 0)) {
            for lag in LAGS {
                let made = plan_lag(lag, &network).expect("a plan");
                for more in lag + 1..=4 {
                    let refusal = (Some(refused(number, 1, 0)), vec![0, 0, 0, 1]);
                    assert_eq!(check_lag(more, &network, &made), refusal);
                }
            }
        }
    }
}

/// With overrun: 10 (q + w) is at most (1 + overrun/1000) × 10 q.
#[test]
fn the_swap_with_overrun() {
    for (overrun, fewest) in [
        (100, [Some(10), Some(20), Some(30), Some(40)]),
        (80, [Some(13), Some(25), Some(38), Some(50)]),
        (79, [Some(13), Some(26), Some(38), None]),
        (60, [Some(17), Some(34), Some(50), None]),
        (40, [Some(25), Some(50), None, None]),
        (20, [Some(50), None, None, None]),
    ] {
        for network in in_every_edition(&swap(10, 2, overrun)) {
            for (lag, fewest) in LAGS.into_iter().zip(fewest) {
                let expected = fewest.ok_or(refused(9, 1, 0));
                assert_eq!(steps(lag, &network), expected, "{overrun}, lag {lag}");
            }
        }
        // protected traffic is not let into the overrun
        for lag in LAGS {
            assert_eq!(plan_lag(lag, &swap(10, 1, overrun)), Err(refused(9, 1, 0)));
        }
    }
}

/// What is held is not there with any lag.
#[test]
fn the_swap_with_capacity_held() {
    let tunnels = [[0, 1, 10, 0], [0, 2, 0, 10], [1, 2, 10, 0], [1, 1, 0, 10]];
    for unit in 0..2 {
        let of = |links: [[u64; 2]; 2]| network(0, unit, &links, &[[0, 10, 10]; 2], &tunnels);
        for (lag, fewest) in LAGS.into_iter().zip([2, 4, 6, 8]) {
            assert_eq!(steps(lag, &of([[20, 5], [15, 0]])), Ok(fewest));
            assert_eq!(steps(lag, &of([[20, 0], [25, 10]])), Ok(fewest));
            assert_eq!(
                plan_lag(lag, &of([[20, 10], [20, 0]])),
                Err(refused(9, 1, 0))
            );
            assert_eq!(
                plan_lag(lag, &of([[20, 0], [20, 10]])),
                Err(refused(9, 1, 1))
            );
        }
    }
}

// --------------------------------------------------------------- no such lag

/// The lags that there are not: beside the others, huge, and with the lowest bits of one of them.
const NONE: [u64; 10] = [
    0,
    5,
    6,
    255,
    257,
    65_537,
    (1 << 32) + 1,
    (1 << 32) + 4,
    1 << 63,
    u64::MAX,
];

/// 19 comes before every other refusal of the planner, and before a plan; nothing is written.
#[test]
fn planner_19_before_all_else() {
    let good = swap(15, 0, 0);
    let mut old = good.clone();
    old[14] = 9;
    let mut new = good.clone();
    new[27] = 11;
    for (network, room, with_lag_1) in [
        (vec![], 8, Answer::Refused(refused(3, 1, 0))),
        (vec![4], 8, Answer::Refused(refused(2, 1, 0))),
        (good[..27].to_vec(), 8, Answer::Refused(refused(3, 28, 0))),
        (old, 8, Answer::Refused(refused(4, 0, 0))),
        (new, 8, Answer::Refused(refused(4, 1, 1))),
        (swap(10, 0, 0), 8, Answer::Refused(refused(9, 1, 0))),
        (good.clone(), 7, Answer::Refused(refused(10, 8, 0))),
        (good.clone(), 0, Answer::Refused(refused(10, 8, 0))),
        (good, 8, Answer::Plan(8)),
    ] {
        let mut out = vec![5; room];
        assert_eq!(make_plan(1, &network, &mut out), with_lag_1);
        for lag in NONE {
            let mut out = vec![5; room];
            let answer = make_plan(lag, &network, &mut out);
            assert_eq!(answer, Answer::Refused(refused(19, lag, 0)));
            assert_eq!(out, vec![5; room]);
            assert_eq!(plan_lag(lag, &network), Err(refused(19, lag, 0)));
        }
    }
}

/// 19 comes before every other refusal of the checker, and before acceptance; no mark is put.
#[test]
fn checker_19_before_all_else() {
    let good = swap(15, 0, 0);
    let halves = vec![1, 2, 2, 4, 10, 10, 10, 10];
    let at_once = vec![1, 1, 1, 4];
    let mut old = good.clone();
    old[14] = 9;
    let mut off = halves.clone();
    off[4] = 11;
    let refusal = |number, place, second| Answer::Refused(refused(number, place, second));
    for (network, plan, room, with_lag_1) in [
        (vec![], halves.clone(), 4, refusal(3, 1, 0)),
        (vec![0], vec![], 4, refusal(2, 1, 0)),
        (old, halves.clone(), 4, refusal(4, 0, 0)),
        (good.clone(), vec![], 4, refusal(3, 1, 1)),
        (good.clone(), vec![1, 0], 4, refusal(2, 2, 1)),
        (good.clone(), vec![1, 1, 1, 3], 4, refusal(5, 4, 1)),
        (good.clone(), off, 4, refusal(6, 1, 0)),
        (good.clone(), halves.clone(), 3, refusal(10, 4, 0)),
        (good.clone(), at_once.clone(), 0, refusal(10, 4, 0)),
        (good.clone(), at_once.clone(), 4, refusal(7, 1, 0)),
        (swap(15, 2, 0), at_once, 4, refusal(8, 1, 0)),
        (good, halves, 4, Answer::Done(4)),
    ] {
        let mut marks = vec![5; room];
        assert_eq!(check_plan(1, &network, &plan, &mut marks), with_lag_1);
        for lag in NONE {
            let mut marks = vec![5; room];
            let answer = check_plan(lag, &network, &plan, &mut marks);
            assert_eq!(answer, refusal(19, lag, 0));
            assert_eq!(marks, vec![5; room]);
            assert_eq!(check_lag(lag, &network, &plan), refused_at(19, lag, 0));
        }
    }
}

/// The other refusals of planner and checker are the same with every lag, and in the same order.
#[test]
fn other_refusals_with_every_lag() {
    for lag in LAGS {
        let good = swap(15, 0, 0);
        let at_once = [1, 1, 1, 4];
        let mut out = [5; 40];
        let mut plan = |network: &[u64], room| make_plan(lag, network, &mut out[..room]);
        let refusal = |number, place, second| Answer::Refused(refused(number, place, second));
        assert_eq!(plan(&[], 40), refusal(3, 1, 0));
        assert_eq!(plan(&[1, 19], 40), refusal(2, 2, 0));
        // 9 before 10
        assert_eq!(plan(&swap(10, 0, 0), 0), refusal(9, 1, 0));
        let length = 4 + 4 * (2 * lag as usize - 1);
        assert_eq!(plan(&good, length - 1), refusal(10, length as u64, 0));
        assert_eq!(plan(&good, 0), refusal(10, length as u64, 0));
        assert_eq!(out, [5; 40]);
        assert_eq!(
            make_plan(lag, &good, &mut out[..length]),
            Answer::Plan(length)
        );
        assert_eq!(out[length..], [5; 40][length..]);

        let mut marks = [5; 4];
        let mut check = |plan: &[u64], room| check_plan(lag, &good, plan, &mut marks[..room]);
        assert_eq!(check(&[1, 51], 4), refusal(2, 2, 1));
        assert_eq!(check(&[1, 1, 1, 5], 4), refusal(5, 4, 1));
        assert_eq!(check(&[1, 2, 2, 4, 10, 11, 10, 10], 4), refusal(6, 1, 0));
        assert_eq!(check(&[1, 2, 2, 4, 10, 10, 10, 9], 3), refusal(6, 1, 1));
        // 10 before 7
        assert_eq!(check(&at_once, 3), refusal(10, 4, 0));
        assert_eq!(marks, [5; 4]);
    }
}

// ------------------------------------------------------------------- windows

/// What the link has for the two of `two_peaks`: enough unless both have their 6.
const CAP: u64 = 11;

/// A plan of so many steps over three links in which on link l something has 6 in one row and 5 in all
/// others, and something else has 6 in another row: with `unit` 0 tunnels of one flow, with `unit` 1 flows of
/// two tunnels across the link that shift their amounts about. What is left is on link 2 - l. The network,
/// the plan, and the marks of the one and of the other.
fn two_peaks(
    unit: u64,
    class: u64,
    l: u64,
    steps: u64,
    rows: [u64; 2],
) -> (Vec<u64>, Vec<u64>, [Vec<u8>; 2]) {
    let peak = |which: usize, row| 5 + u64::from(row == rows[which]);
    let amounts = |row: u64| -> Vec<u64> {
        let (one, other) = (peak(0, row), peak(1, row));
        match unit {
            0 => vec![one, 12 - one - other, other],
            _ => {
                // of each flow: two across the link, one elsewhere
                let (first, second) = (row % 4, 3 - row % 3);
                vec![
                    first,
                    second,
                    one - first,
                    6 - one,
                    other - second,
                    6 - other,
                ]
            }
        }
    };
    let (here, there) = (1 << l, 1 << (2 - l));
    let (vias, flow_of, flows) = match unit {
        0 => (
            vec![here, there, here],
            vec![0, 0, 0],
            vec![[class, 12, 12]],
        ),
        _ => (
            vec![here, here, here, there, here, there],
            vec![0, 1, 0, 0, 1, 1],
            vec![[class, 6, 6]; 2],
        ),
    };
    let tunnels: Vec<[u64; 4]> = (0..vias.len())
        .map(|t| [flow_of[t], vias[t], amounts(0)[t], amounts(steps)[t]])
        .collect();
    let mut plan = vec![1, 1, steps, vias.len() as u64];
    for row in 1..steps {
        plan.extend(amounts(row));
    }
    let mut links = vec![[50, 0]; 3];
    links[l as usize] = [CAP + 7, 7];
    let marks = match unit {
        0 => [vec![1, 0, 0], vec![0, 0, 1]],
        _ => [vec![1, 0, 1, 0, 0, 0], vec![0, 1, 0, 0, 1, 0]],
    };
    let network = network(0, unit, &links, &flows, &tunnels);
    (network, plan, marks)
}

/// Of plans of every length, any two rows: the link is overloaded just where one window has both. The first
/// such window is named, and those are marked that have their 6 after its first row.
#[test]
fn two_rows_in_one_window() {
    let mut seen = [[0; 3]; 4];
    for (unit, class, number, l) in [(0, 0, 7, 0), (1, 1, 7, 2), (0, 2, 8, 2), (1, 2, 8, 0)] {
        for steps in 1..=50u64 {
            for one in 0..=steps {
                for other in one.saturating_sub(5)..=(one + 5).min(steps) {
                    let rows = [one, other];
                    // those in the middle of long plans are like each other
                    let ends = one.min(steps - one) < 6;
                    if steps > 14 && !ends && one % 7 != 0 {
                        continue;
                    }
                    let (network, plan, marks) = two_peaks(unit, class, l, steps, rows);
                    for lag in LAGS {
                        let verdict = check_lag(lag, &network, &plan);
                        if one.abs_diff(other) > lag {
                            seen[lag as usize - 1][0] += 1;
                            assert_eq!(verdict, accepted(plan[3] as usize));
                            continue;
                        }
                        let first = one.max(other).saturating_sub(lag);
                        let after = |which: usize| u8::from(rows[which] > first);
                        let marked = (0..marks[0].len())
                            .map(|t| after(0) * marks[0][t] + after(1) * marks[1][t])
                            .collect();
                        let refusal = Some(refused(number, first + 1, l));
                        assert_eq!(verdict, (refusal, marked), "{steps} steps, {rows:?}, {lag}");
                        seen[lag as usize - 1][1] += u64::from(first > 0 && first + lag == steps);
                        seen[lag as usize - 1][2] += u64::from(steps < lag);
                    }
                }
            }
        }
    }
    // there is no plan of fewer steps than 1
    assert_eq!(seen[0][2], 0);
    let counts = [&seen[0][..2], &seen[1], &seen[2], &seen[3]].concat();
    assert!(counts.iter().all(|&count| count > 10), "{seen:?}");
}

/// A plan of fewer steps than the lag has one window, all of its rows: every lag from its steps on gives the
/// same answer, which names step 1.
#[test]
fn fewer_steps_than_the_lag() {
    // one flow of 10 on two tunnels over one link: 6 and 6 at the most of all rows, 6 and 5 of any two
    let of = |cap| {
        network(
            0,
            0,
            &[[cap, 0]],
            &[[0, 10, 10]],
            &[[0, 1, 6, 4], [0, 1, 4, 6]],
        )
    };
    let halves = [1, 1, 2, 2, 5, 5];
    assert_eq!(check(&of(11), &halves), accepted(2));
    assert_eq!(
        check(&of(10), &halves),
        (Some(refused(7, 1, 0)), vec![0, 1])
    );
    for lag in 2..=4 {
        assert_eq!(check_lag(lag, &of(12), &halves), accepted(2));
        let refusal = (Some(refused(7, 1, 0)), vec![0, 1]);
        assert_eq!(check_lag(lag, &of(11), &halves), refusal);
    }
    // three steps: with lag 2 two windows, of which the second overloads
    let thirds = [1, 1, 3, 2, 6, 4, 5, 5];
    assert_eq!(check(&of(11), &thirds), accepted(2));
    let refusal = (Some(refused(7, 2, 0)), vec![0, 1]);
    assert_eq!(check_lag(2, &of(11), &thirds), refusal);
    for lag in 3..=4 {
        let refusal = (Some(refused(7, 1, 0)), vec![0, 1]);
        assert_eq!(check_lag(lag, &of(11), &thirds), refusal);
        assert_eq!(check_lag(lag, &of(12), &thirds), accepted(2));
    }
    // at once
    for lag in LAGS {
        let at_once = [1, 1, 1, 2];
        let refusal = (Some(refused(7, 1, 0)), vec![0, 1]);
        assert_eq!(check_lag(lag, &of(11), &at_once), refusal);
        assert_eq!(check_lag(lag, &of(12), &at_once), accepted(2));
    }
    // no tunnels, and no mark
    let none = [1, 20, 0, 1, 0, 0, 0];
    for lag in LAGS {
        assert_eq!(check_lag(lag, &none, &[1, 1, 1, 0]), accepted(0));
        assert_eq!(plan_lag(lag, &none), Ok(vec![1, 1, 1, 0]));
    }
}

/// An even plan of no more steps than the lag has all of the move in one window: if that does, one step does.
#[test]
fn one_step_or_more_than_the_lag() {
    let mut rng = Rng::new(51);
    let mut seen = [[0; 2]; 4];
    for i in 0..3000 {
        let lag = LAGS[i % 4];
        let network = inputs::network_at(&mut rng, lag);
        if let Ok(steps) = steps(lag, &network) {
            assert!(steps == 1 || steps > lag, "{steps}, {lag}: {network:?}");
            seen[i % 4][usize::from(steps > lag)] += 1;
        }
    }
    assert!(seen.concat().iter().all(|&count| count > 50), "{seen:?}");
}

/// The first window counts, then the first link of it, and on a link 7 before 8.
#[test]
fn by_window_then_by_link() {
    // parts 1, three steps; tunnels of classes 0 and 2 on links 0 and 1
    let of = |caps: [u64; 2], overrun| {
        let flows = [[0, 4, 6], [2, 4, 6], [0, 6, 4], [2, 6, 4]];
        let tunnels = [[0, 1, 4, 6], [1, 1, 4, 6], [2, 2, 6, 4], [3, 2, 6, 4]];
        network(overrun, 0, &caps.map(|cap| [cap, 0]), &flows, &tunnels)
    };
    // on link 0 a tunnel has 4 4 5 6, on link 1 another 6 5 5 4
    let plan = [1, 1, 3, 4, 4, 4, 5, 5, 5, 5, 5, 5];
    let is =
        |number, step, link, marks: [u8; 4]| (Some(refused(number, step, link)), marks.to_vec());
    // all of link 0 at most 8, 10, 12 of the windows of lag 1, and of link 1 12, 10, 10
    assert_eq!(check_lag(1, &of([12, 12], 0), &plan), accepted(4));
    assert_eq!(
        check_lag(1, &of([11, 12], 0), &plan),
        is(8, 3, 0, [1, 1, 0, 0])
    );
    assert_eq!(
        check_lag(1, &of([11, 11], 0), &plan),
        is(8, 1, 1, [0, 0, 0, 0])
    );
    // with lag 2 10, 12 and 12, 10: link 1 in the first window, though link 0 comes before it
    assert_eq!(check_lag(2, &of([12, 12], 0), &plan), accepted(4));
    assert_eq!(
        check_lag(2, &of([11, 12], 0), &plan),
        is(8, 2, 0, [1, 1, 0, 0])
    );
    assert_eq!(
        check_lag(2, &of([11, 11], 0), &plan),
        is(8, 1, 1, [0, 0, 0, 0])
    );
    assert_eq!(
        check_lag(2, &of([9, 11], 0), &plan),
        is(8, 1, 0, [1, 1, 0, 0])
    );
    // with lag 3 12 and 12, in one window
    assert_eq!(check_lag(3, &of([12, 12], 0), &plan), accepted(4));
    assert_eq!(
        check_lag(3, &of([11, 11], 0), &plan),
        is(8, 1, 0, [1, 1, 0, 0])
    );
    // protected 5 and 6 of link 0 in the two windows of lag 2; 8 on link 0 before 7 on link 1
    assert_eq!(
        check_lag(2, &of([5, 20], 0), &plan),
        is(8, 1, 0, [1, 1, 0, 0])
    );
    assert_eq!(
        check_lag(2, &of([5, 5], 0), &plan),
        is(8, 1, 0, [1, 1, 0, 0])
    );
    assert_eq!(
        check_lag(2, &of([4, 20], 0), &plan),
        is(7, 1, 0, [1, 1, 0, 0])
    );
    assert_eq!(
        check_lag(2, &of([20, 5], 0), &plan),
        is(7, 1, 1, [0, 0, 0, 0])
    );
    // with overrun 500 link 0 has 12 of 8 and of 7.5
    assert_eq!(check_lag(2, &of([8, 8], 500), &plan), accepted(4));
    assert_eq!(
        check_lag(2, &of([7, 8], 500), &plan),
        is(8, 2, 0, [1, 1, 0, 0])
    );
    assert_eq!(
        check_lag(3, &of([7, 8], 500), &plan),
        is(8, 1, 0, [1, 1, 0, 0])
    );
}

// --------------------------------------------------------------------- marks

/// A tunnel that has its largest between the first row and the last is marked, though it ends as it began;
/// one that has its largest in the first row is not, though it rises later.
#[test]
fn marks_by_the_largest() {
    // 4 9 4, 8 3 8, 1 1 2, and 3 3 3, of which the last crosses; and one that does not, 0 5 9
    let of = |cap| {
        let flows = [[0, 12, 12], [2, 1, 2], [1, 3, 3], [0, 0, 9]];
        let tunnels = [
            [0, 1, 4, 4],
            [0, 1, 8, 8],
            [1, 1, 1, 2],
            [2, 3, 3, 3],
            [3, 2, 0, 9],
        ];
        network(0, 0, &[[cap, 0], [20, 0]], &flows, &tunnels)
    };
    let plan = [1, 1, 2, 5, 9, 3, 1, 3, 5];
    // lag 1: 9 8 1 3, then 9 8 2 3; lag 2 and more: 9 8 2 3 at once
    assert_eq!(check_lag(1, &of(22), &plan), accepted(5));
    let of_step_2 = (Some(refused(8, 2, 0)), vec![0, 1, 1, 0, 0]);
    assert_eq!(check_lag(1, &of(21), &plan), of_step_2);
    let of_step_1 = (Some(refused(8, 1, 0)), vec![1, 0, 0, 0, 0]);
    assert_eq!(check_lag(1, &of(20), &plan), of_step_1);
    for lag in 2..=4 {
        assert_eq!(check_lag(lag, &of(22), &plan), accepted(5));
        let of_all = (Some(refused(8, 1, 0)), vec![1, 0, 1, 0, 0]);
        assert_eq!(check_lag(lag, &of(21), &plan), of_all);
        assert_eq!(check_lag(lag, &of(20), &plan), of_all);
        // protected 9 8 3
        let of_all = (Some(refused(7, 1, 0)), vec![1, 0, 1, 0, 0]);
        assert_eq!(check_lag(lag, &of(19), &plan), of_all);
    }
}

/// The largest in each row of the longest window: 7 in one row and 2 in all others, with one that has 5 in
/// the first row alone.
#[test]
fn marks_by_a_largest_in_any_row() {
    for lag in LAGS {
        for peak in 0..=lag {
            for steps in [lag, lag + 1, 50] {
                let at = |row| if row == peak { 7 } else { 2 };
                let falling = |row| if row == 0 { 5 } else { 0 };
                let tunnels = [
                    [0, 1, at(0), at(steps)],
                    [0, 2, 7 - at(0), 7 - at(steps)],
                    [1, 1, falling(0), falling(steps)],
                    [1, 2, 5 - falling(0), 5 - falling(steps)],
                ];
                let flows = [[0, 7, 7], [1, 5, 5]];
                let mut plan = vec![1, 1, steps, 4];
                for row in 1..steps {
                    plan.extend([at(row), 7 - at(row), falling(row), 5 - falling(row)]);
                }
                for unit in 0..2 {
                    let of = |cap| network(0, unit, &[[cap, 0], [12, 0]], &flows, &tunnels);
                    assert_eq!(check_lag(lag, &of(12), &plan), accepted(4));
                    let marks = vec![u8::from(peak > 0), 0, 0, 0];
                    let refusal = (Some(refused(7, 1, 0)), marks);
                    assert_eq!(check_lag(lag, &of(11), &plan), refusal, "{lag} {peak}");
                }
            }
        }
    }
}

// --------------------------------------------------------------- whole flows

/// P11: a flow moves from a tunnel over link 0 to one over links 0 and 1. With `unit` 1 link 0 has 10 in every
/// row, however far behind an agent is.
#[test]
fn the_move_of_p11() {
    let of = |unit, cap| {
        let tunnels = [[0, 1, 10, 0], [0, 3, 0, 10]];
        network(0, unit, &[[cap, 0], [15, 0]], &[[0, 10, 10]], &tunnels)
    };
    for (lag, fewest) in LAGS.into_iter().zip([2, 4, 6, 8]) {
        assert_eq!(steps(lag, &of(0, 15)), Ok(fewest));
        assert_eq!(steps(lag, &of(1, 15)), Ok(1));
        assert_eq!(steps(lag, &of(1, 10)), Ok(1));
        assert_eq!(plan_lag(lag, &of(0, 10)), Err(refused(9, 1, 0)));
        assert_eq!(plan_lag(lag, &of(1, 9)), Err(refused(9, 1, 0)));
        let quarters = [1, 4, 4, 2, 30, 10, 20, 20, 10, 30];
        assert_eq!(check_lag(lag, &of(1, 10), &quarters), accepted(2));
        // by tunnels 10 and a quarter of 10 for each step of the lag
        let most = 10 + (10 * lag).div_ceil(4);
        assert_eq!(check_lag(lag, &of(0, most), &quarters), accepted(2));
        let refusal = (Some(refused(7, 1, 0)), vec![0, 1]);
        assert_eq!(check_lag(lag, &of(0, most - 1), &quarters), refusal);
    }
}

/// The largest sum of a flow on the link counts, and not the sum of its tunnels' largest; it marks all of the
/// flow's tunnels across the link, also one that falls, and no others.
#[test]
fn the_largest_sum_of_each_flow() {
    // on link 0 flow 0 has 3 and 1, 2 and 5, 4 and 1: sums 4 7 5; flow 1 has 6 and 0, 1 and 2, 0 and 6: 6 3 6
    let of = |unit, cap| {
        let tunnels = [
            [0, 1, 3, 4],
            [1, 1, 6, 0],
            [0, 3, 1, 1],
            [1, 1, 0, 6],
            [0, 2, 3, 2],
            [1, 2, 0, 0],
        ];
        let flows = [[0, 7, 7], [0, 6, 6]];
        network(0, unit, &[[cap, 0], [30, 0]], &flows, &tunnels)
    };
    let plan = [1, 1, 2, 6, 2, 1, 5, 2, 0, 3];
    // lag 1: 7 and 6 in either step
    assert_eq!(check_lag(1, &of(1, 13), &plan), accepted(6));
    let of_step_1 = (Some(refused(7, 1, 0)), vec![1, 0, 1, 0, 0, 0]);
    assert_eq!(check_lag(1, &of(1, 12), &plan), of_step_1);
    for lag in 2..=4 {
        assert_eq!(check_lag(lag, &of(1, 13), &plan), accepted(6));
        assert_eq!(check_lag(lag, &of(1, 12), &plan), of_step_1);
        // by tunnels 4 and 5, 6 and 6
        assert_eq!(check_lag(lag, &of(0, 21), &plan), accepted(6));
        let by_tunnels = (Some(refused(7, 1, 0)), vec![1, 0, 1, 1, 0, 0]);
        assert_eq!(check_lag(lag, &of(0, 20), &plan), by_tunnels);
    }
    // from row 1 on flow 0 falls and flow 1 rises: with lag 1 the second step, once the first does
    let longer = [1, 1, 3, 6, 3, 6, 1, 0, 3, 0, 2, 1, 5, 2, 0, 3];
    let of_step_2 = (Some(refused(7, 2, 0)), vec![1, 0, 1, 0, 0, 0]);
    assert_eq!(check_lag(1, &of(1, 12), &longer), of_step_2);
    for lag in 2..=4 {
        assert_eq!(check_lag(lag, &of(1, 12), &longer), of_step_1);
        assert_eq!(check_lag(lag, &of(1, 13), &longer), accepted(6));
    }
}

/// The network, or in edition 3 the network with either `unit`, 0 before 1.
fn units(network: Vec<u64>) -> Vec<Vec<u64>> {
    match network[0] {
        3 => vec![with_unit(&network, 0), with_unit(&network, 1)],
        _ => vec![network],
    }
}

/// What passes with a lag passes with less, and what passes with `unit` 0 passes with `unit` 1.
#[test]
fn passing_with_less() {
    let mut rng = Rng::new(52);
    let mut seen = [[0; 5]; 2];
    for i in 0..12_000 {
        let (network, list) = inputs::pair(&mut rng, LAGS[i % 4]);
        if !matches!(
            check(&network, &list).0,
            None | Some(Refusal { number: 7 | 8, .. })
        ) {
            continue;
        }
        let mut by_tunnels = 0;
        for (unit, network) in units(network).iter().enumerate() {
            let passes = |&lag: &u64| check_lag(lag, network, &list).0.is_none();
            let count = LAGS.iter().filter(|lag| passes(lag)).count();
            assert!(LAGS[..count].iter().all(passes), "{network:?} {list:?}");
            assert!(count >= by_tunnels, "{network:?} {list:?}");
            by_tunnels = count;
            seen[unit][count] += 1;
        }
    }
    assert!(seen.concat().iter().all(|&count| count > 12), "{seen:?}");
}

/// And so the planner takes no more steps with less lag, and with `unit` 1.
#[test]
fn fewer_steps_with_less() {
    let mut rng = Rng::new(56);
    let mut seen = [0; 2];
    for i in 0..1200 {
        let network = inputs::network_at(&mut rng, LAGS[i % 4]);
        if Shape::of(&network).tunnels > 20 {
            continue;
        }
        // 51 where there is no plan
        let mut by_tunnels = [51; 4];
        for (unit, network) in units(network).iter().enumerate() {
            let made = LAGS.map(|lag| plan_lag(lag, network).map_or(51, |plan| plan[2]));
            assert!(made.is_sorted(), "{made:?}: {network:?}");
            assert!(made
                .iter()
                .zip(by_tunnels)
                .all(|(&one, other)| one <= other));
            seen[0] += u64::from(made[0] < made[3]);
            seen[1] += u64::from(unit == 1 && made[3] < by_tunnels[3]);
            by_tunnels = made;
        }
    }
    assert!(seen.iter().all(|&count| count > 50), "{seen:?}");
}

// ------------------------------------------------------------ the 50-step plan

/// 9 names the first overload of the 50-step plan with this lag. Flow 0 grows from 10 to 20 and flow 1
/// shrinks from 20 to 15: the window from row a has 30 + w/5 + a/10 at the most, which is above 35 from a =
/// 51 - 2 w on.
#[test]
fn nine_with_a_lag() {
    for unit in 0..2 {
        for (class, link) in [(0, 0), (2, 0), (1, 1), (2, 3)] {
            let of = |cap: u64| {
                let mut links = [[60, 5]; 4];
                links[link] = [cap + 9, 9];
                let tunnels = [[0, 1 << link, 10, 20], [1, 1 << link, 20, 15]];
                let flows = [[class, 10, 20], [class, 20, 15]];
                network(0, unit, &links, &flows, &tunnels)
            };
            for (lag, place) in LAGS.into_iter().zip([50, 48, 46, 44]) {
                let refusal = Err(refused(9, place, link as u64));
                assert_eq!(plan_lag(lag, &of(35)), refusal);
            }
            // with 36 a window may have 1 more than 35: 5 w/q
            for (lag, fewest) in LAGS.into_iter().zip([5, 10, 15, 20]) {
                assert_eq!(steps(lag, &of(36)), Ok(fewest));
            }
            for lag in LAGS {
                assert_eq!(steps(lag, &of(40)), Ok(1));
                // less than what is there at first: 30.2 to 30.8
                let refusal = Err(refused(9, 1, link as u64));
                assert_eq!(plan_lag(lag, &of(30)), refusal);
            }
        }
    }
}

/// All of 50 parts of all amounts: sums beyond 32 bits, at which no number returns to 0.
#[test]
fn the_largest_sums() {
    for flows in 1..=32 {
        let mut tunnels = Vec::new();
        for flow in 0..flows {
            tunnels.extend([[flow, 1, AMOUNT, 0], [flow, 1, 0, AMOUNT]]);
        }
        for (class, number) in [(0, 7), (2, 8)] {
            let rates = vec![[class, AMOUNT, AMOUNT]; flows as usize];
            let of = |unit| network(500, unit, &[[AMOUNT, 0]], &rates, &tunnels);
            let even = second::even_plan_by(&LANDED, &of(0), 50);
            for lag in LAGS {
                // by tunnels flows × (50 + w) amounts, by flows flows × 50
                let share = if class == 0 { 1000 } else { 1500 };
                let marks = |mark| [0, mark].repeat(flows as usize);
                let expected = |most: u64, mark| match 1000 * most > share * 50 {
                    true => (Some(refused(number, 1, 0)), marks(mark)),
                    false => (None, marks(0)),
                };
                assert_eq!(
                    check_lag(lag, &of(0), &even),
                    expected(flows * (50 + lag), 1)
                );
                assert_eq!(check_lag(lag, &of(1), &even), expected(flows * 50, 0));
            }
        }
    }
}

// ------------------------------------------------------------ the step bound

/// "A network that keeps its scratch needs at most ceil(w × (1000 - scratch)/scratch) steps": the swap with no
/// room beyond its scratch needs just so many, wherever that is 50 or less, and has no plan where it is not;
/// but with a scratch of 500 it moves at once.
#[test]
fn the_bound_of_every_scratch() {
    let mut seen = [[0; 2]; 4];
    for scratch in 20..=500 {
        for class in [1, 2] {
            let rate = 1000 - scratch;
            let mut list = vec![1, scratch, 0, 2, 2, 4, 1000, 1000, class, rate, class, rate];
            list.extend([0, 1, rate, 0, 0, 2, 0, rate, 1, 2, rate, 0, 1, 1, 0, rate]);
            assert!(second::keeps_scratch_by(&LANDED, &list));
            for lag in LAGS {
                let bound = (lag * (1000 - scratch)).div_ceil(scratch);
                if lag == 1 {
                    assert_eq!(pavuneshil::step_bound(scratch, 0), StepBound::Steps(bound));
                }
                let made = plan_lag(lag, &list).map(|plan| plan[2]);
                seen[lag as usize - 1][usize::from(bound <= 50)] += 1;
                match (scratch, bound) {
                    (500, _) => assert_eq!(made, Ok(1)),
                    (_, 0..=50) => assert_eq!(made, Ok(bound), "scratch {scratch}, lag {lag}"),
                    _ => assert_eq!(made, Err(refused(9, 1, 0))),
                }
            }
        }
    }
    // 50 steps do with lag 1 for every scratch, and with lag 4 from 75 on
    assert_eq!(seen.map(|counts| counts[0] / 2), [0, 19, 37, 55]);
}

/// "Or, with overrun, ceil(1000 × w/overrun) if larger": full links of background traffic.
#[test]
fn the_bound_of_every_overrun() {
    for overrun in 20..=500 {
        let mut list = vec![1, 500, overrun, 2, 2, 4, 1000, 1000, 2, 1000, 2, 1000];
        list.extend([0, 1, 1000, 0, 0, 2, 0, 1000, 1, 2, 1000, 0, 1, 1, 0, 1000]);
        assert!(second::keeps_scratch_by(&LANDED, &list));
        for lag in LAGS {
            let bound = (1000 * lag).div_ceil(overrun);
            let expected = match bound <= 50 {
                true => Ok(bound),
                false => Err(refused(9, 1, 0)),
            };
            let made = plan_lag(lag, &list).map(|plan| plan[2]);
            assert_eq!(made, expected, "overrun {overrun}, lag {lag}");
        }
        let of_lag_1 = StepBound::Steps(1000_u64.div_ceil(overrun));
        assert_eq!(pavuneshil::step_bound(500, overrun), of_lag_1);
    }
}

/// Networks of any kind that keep their scratch, with overrun and without.
#[test]
fn networks_that_keep_their_scratch() {
    use second::gen::keeping_scratch_of;
    let mut rng = Rng::new(53);
    let mut seen = [[0; 3]; 4];
    for i in 0..6000 {
        let lag = LAGS[i % 4];
        let list = keeping_scratch_of(&mut rng, 1 + i as u64 / 4 % 3, i % 8 < 4);
        let (scratch, overrun) = (list[1], list[2]);
        let of_scratch = (lag * (1000 - scratch)).div_ceil(scratch);
        let of_overrun = match overrun {
            0 => 0,
            _ => (1000 * lag).div_ceil(overrun),
        };
        let bound = of_scratch.max(of_overrun);
        let mut out = [0; PLAN_NUMBERS];
        let answer = make_plan(lag, &list, &mut out);
        let kind = match answer {
            _ if bound > 50 => 0,
            Answer::Plan(_) if out[2] < bound => 1,
            Answer::Plan(_) if out[2] == bound => 2,
            _ => panic!("{answer:?}, {} steps, bound {bound}: {list:?}", out[2]),
        };
        seen[i % 4][kind] += 1;
    }
    let counts = [&seen[0][1..], &seen[1], &seen[2], &seen[3]].concat();
    assert!(counts.iter().all(|&count| count > 30), "{seen:?}");
}

// ---------------------------------------------------------------- lag 1, editions

/// Lag 1 is the rule as it was: the steps one by one, of networks and plans of any kind.
#[test]
fn lag_1_is_the_rule_as_it_was() {
    let mut rng = Rng::new(54);
    let mut seen = [0; 3];
    for _ in 0..4000 {
        let (network, list) = inputs::pair(&mut rng, 1);
        let verdict = check(&network, &list);
        let theirs = second::check_plan_by(&LANDED, &network, &list, 96);
        let second::Checked::Refused { refusal, marks } = theirs else {
            assert_eq!(verdict, accepted(list[3] as usize));
            seen[0] += 1;
            continue;
        };
        let same = refused(refusal.number, refusal.place, refusal.second);
        assert_eq!(verdict, (Some(same), marks.unwrap_or_default()));
        if !matches!(same.number, 7 | 8) {
            seen[1] += 1;
            continue;
        }
        seen[2] += 1;
        // by hand: a mark is for what rises in the step
        let shape = Shape::of(&network);
        let (step, link) = (same.place, same.second);
        let crosses = |t: usize| (network[shape.tunnel(t) + 1] >> link) & 1 == 1;
        let together = |t: usize, u: usize| {
            t == u || shape.unit && network[shape.tunnel(t)] == network[shape.tunnel(u)]
        };
        for t in 0..shape.tunnels {
            let sum = |row| -> u64 {
                let mine = (0..shape.tunnels).filter(|&u| crosses(u) && together(t, u));
                mine.map(|u| inputs::amount(&network, &list, u, row)).sum()
            };
            let rises = crosses(t) && sum(step) > sum(step - 1);
            assert_eq!(verdict.1[t], u8::from(rises));
        }
    }
    assert!(seen.iter().all(|&count| count > 500), "{seen:?}");
}

/// A network of edition 1 said in editions 2 and 3 gets the same answers with every lag.
#[test]
fn editions_with_a_lag() {
    let mut rng = Rng::new(55);
    let mut seen = [0; 2];
    for i in 0..600 {
        let lag = LAGS[i % 4];
        let network = inputs::network_at(&mut rng, lag);
        if network[0] != 1 {
            continue;
        }
        let list = any_plan(&mut rng, &network);
        let (made, verdict) = (plan_lag(lag, &network), check_lag(lag, &network, &list));
        seen[usize::from(verdict.0.is_none())] += 1;
        for edition in 2..=3 {
            let later = to_edition(&network, edition);
            assert_eq!(plan_lag(lag, &later), made);
            assert_eq!(check_lag(lag, &later, &list), verdict);
        }
    }
    assert!(seen.iter().all(|&count| count > 30), "{seen:?}");
}

// ------------------------------------------------------------------- samples

/// The steps that the samples take with each lag. Their plans were made for lag 1, and overload a link with
/// more.
#[test]
fn samples_with_a_lag() {
    for (folder, fewest, first) in [
        ("swap", [2, 4, 6, 8], refused(7, 1, 0)),
        ("overrun", [10, 20, 30, 40], refused(8, 1, 0)),
        ("squeezed", [3, 6, 9, 12], refused(7, 1, 1)),
        ("broker", [3, 5, 8, 10], refused(7, 1, 0)),
        ("crew", [3, 5, 8, 10], refused(8, 1, 0)),
        ("weights", [2, 3, 5, 6], refused(7, 1, 1)),
        ("backbone", [6, 12, 18, 24], refused(8, 1, 9)),
    ] {
        let (network, list) = sample_lists(folder);
        assert_eq!(plan(&network), Ok(list.clone()));
        assert_eq!(check_lag(2, &network, &list).0, Some(first), "{folder}");
        for (lag, fewest) in LAGS.into_iter().zip(fewest) {
            assert_eq!(steps(lag, &network), Ok(fewest), "{folder}, lag {lag}");
        }
    }
}

/// The sample whose plan was made for lag 3: in 8 steps the southern cable has 20000 less 1250 a of the feeds
/// in the window from row a, and 2000 (a + w) of the copies; with lag 4 that is above 30000 from a = 3 on.
#[test]
fn the_sample_of_late_agents() {
    let (network, list) = sample_lists("late");
    assert_eq!(plan_lag(3, &network), Ok(list.clone()));
    for (lag, fewest) in LAGS.into_iter().zip([3, 5, 8, 10]) {
        assert_eq!(steps(lag, &network), Ok(fewest));
    }
    for lag in 1..=3 {
        assert_eq!(check_lag(lag, &network, &list), accepted(4));
    }
    let refusal = (Some(refused(7, 4, 1)), vec![0, 1, 0, 0]);
    assert_eq!(check_lag(4, &network, &list), refusal);
}
