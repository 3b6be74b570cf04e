//! Switches that change a whole flow, and capacity that is held, edition 3: what the paper says of
//! small cases, with the answers written down; and the older editions, read as if `unit` and `held`
//! were 0. Every answer is held against the second implementation's too.

mod common;

use common::{accepted, check, plan, read, refused, refused_at, sample_lists, write};
use compare::{inputs, LANDED};
use pavuneshil::{Answer, Refusal, StepBound, MARKS, NETWORK_NUMBERS, TEXT_BYTES};
use second::gen::{any_even_plan, any_plan, broken_plan, to_edition, with_unit, Rng, Shape};

const AMOUNT: u64 = 10_000_000;

/// The plan that moves everything in one step.
fn at_once(tunnels: u64) -> Vec<u64> {
    vec![1, 1, 1, tunnels]
}

/// How many steps the planner takes, and that the checker takes its plan.
fn steps(network: &[u64]) -> Result<u64, Refusal> {
    let made = plan(network)?;
    assert_eq!(check(network, &made), accepted(made[3] as usize));
    Ok(made[2])
}

/// A network of edition 3 from what is said of each link, flow and tunnel.
fn network(
    overrun: u64,
    unit: u64,
    links: &[[u64; 2]],
    flows: &[[u64; 3]],
    tunnels: &[[u64; 4]],
) -> Vec<u64> {
    let counts = [links.len(), flows.len(), tunnels.len()].map(|count| count as u64);
    let head = [&[3, 20, overrun, unit], &counts[..]].concat();
    [head, links.concat(), flows.concat(), tunnels.concat()].concat()
}

/// P11: a flow of rate 10 moves from a tunnel over link 0 to one over links 0 and 1.
fn longer(unit: u64, class: u64, links: [[u64; 2]; 2]) -> Vec<u64> {
    let flows = [[class, 10, 10]];
    network(0, unit, &links, &flows, &[[0, 1, 10, 0], [0, 3, 0, 10]])
}

/// The swap: two flows of rate 10 change places on two links.
fn swap(overrun: u64, unit: u64, class: u64, links: [[u64; 2]; 2]) -> Vec<u64> {
    let tunnels = [[0, 1, 10, 0], [0, 2, 0, 10], [1, 2, 10, 0], [1, 1, 0, 10]];
    network(overrun, unit, &links, &[[class, 10, 10]; 2], &tunnels)
}

// -------------------------------------------------------- choices of flows

/// With `unit` 0 both tunnels may carry the flow at once; with `unit` 1 link 0 has 10 in every order.
#[test]
fn the_move_of_p11() {
    for (class, number) in [(0, 7), (1, 7), (2, 8)] {
        let of = |unit, cap| longer(unit, class, [[cap, 0], [15, 0]]);
        let refusal = (Some(refused(number, 1, 0)), vec![0, 1]);
        assert_eq!(check(&of(0, 15), &at_once(2)), refusal);
        assert_eq!(check(&of(1, 15), &at_once(2)), accepted(2));
        assert_eq!(steps(&of(0, 15)), Ok(2));
        assert_eq!(steps(&of(1, 15)), Ok(1));
        // with no room beyond the flow
        assert_eq!(plan(&of(0, 10)), Err(refused(9, 1, 0)));
        assert_eq!(steps(&of(1, 10)), Ok(1));
        let halves = [1, 2, 2, 2, 10, 10];
        assert_eq!(check(&of(1, 10), &halves), accepted(2));
        assert_eq!(
            check(&of(0, 10), &halves),
            (Some(refused(number, 1, 0)), vec![0, 1])
        );
        // and less than the flow: nothing rises
        let full = (Some(refused(number, 1, 0)), vec![0, 0]);
        assert_eq!(check(&of(1, 9), &at_once(2)), full);
        assert_eq!(plan(&of(1, 9)), Err(refused(9, 1, 0)));
    }
}

/// Two flows that change places move each for itself with either `unit`: P2 to P7 and P10.
#[test]
fn the_swap_takes_as_many_steps() {
    for unit in 0..2 {
        for (class, number) in [(0, 7), (1, 7), (2, 8)] {
            let of = |cap| swap(0, unit, class, [[cap, 0]; 2]);
            for (cap, fewest) in [(20, 1), (19, 2), (15, 2), (14, 3), (11, 10)] {
                assert_eq!(steps(&of(cap)), Ok(fewest), "unit {unit}, cap {cap}");
            }
            assert_eq!(plan(&of(10)), Err(refused(9, 1, 0)));
            let refusal = (Some(refused(number, 1, 0)), vec![0, 0, 0, 1]);
            assert_eq!(check(&of(15), &at_once(4)), refusal);
            // link 1 alone
            let tight = swap(0, unit, class, [[20, 0], [19, 0]]);
            let refusal = (Some(refused(number, 1, 1)), vec![0, 1, 0, 0]);
            assert_eq!(check(&tight, &at_once(4)), refusal);
        }
        // P8 and P9
        assert_eq!(steps(&swap(100, unit, 2, [[10, 0]; 2])), Ok(10));
        assert_eq!(steps(&swap(20, unit, 2, [[10, 0]; 2])), Ok(50));
        assert_eq!(
            plan(&swap(100, unit, 1, [[10, 0]; 2])),
            Err(refused(9, 1, 0))
        );
    }
}

/// A flow's sum is over its tunnels across the link, not over all of them.
#[test]
fn the_sum_on_the_link_alone() {
    // the flow has 10 in all, on link 0 in the earlier row 4 and in the later 7
    let of = |unit, cap| {
        let tunnels = [[0, 1, 1, 5], [0, 2, 6, 3], [0, 1, 3, 2]];
        network(0, unit, &[[cap, 0], [9, 0]], &[[0, 10, 10]], &tunnels)
    };
    assert_eq!(check(&of(1, 7), &at_once(3)), accepted(3));
    let refusal = (Some(refused(7, 1, 0)), vec![1, 0, 1]);
    assert_eq!(check(&of(1, 6), &at_once(3)), refusal);
    // by tunnels 5 and 3
    assert_eq!(check(&of(0, 8), &at_once(3)), accepted(3));
    let refusal = (Some(refused(7, 1, 0)), vec![1, 0, 0]);
    assert_eq!(check(&of(0, 7), &at_once(3)), refusal);
}

/// The larger sum of a flow counts, not the sum of one row over all flows: one falls, one rises.
#[test]
fn the_larger_sum_of_each_flow() {
    for (class, number) in [(0, 7), (2, 8)] {
        // flow 0 has 9 and then 6, flow 1 has 2 and then 6
        let of = |cap| {
            let tunnels = [[0, 1, 9, 1], [1, 1, 0, 4], [0, 1, 0, 5], [1, 1, 2, 2]];
            let flows = [[class, 9, 6], [class, 2, 6]];
            network(0, 1, &[[cap, 0]], &flows, &tunnels)
        };
        assert_eq!(check(&of(15), &at_once(4)), accepted(4));
        let refusal = (Some(refused(number, 1, 0)), vec![0, 1, 0, 1]);
        assert_eq!(check(&of(14), &at_once(4)), refusal);
        // in q steps at most 12 and a qth of 3 at the last, 11 and a qth of 4 at the first
        for (cap, fewest) in [(15, Ok(1)), (14, Ok(2)), (13, Ok(3)), (12, Err(()))] {
            assert_eq!(steps(&of(cap)).map_err(|_| ()), fewest, "{cap}");
        }
    }
}

/// Every network of one link, two flows and two tunnels of each with amounts up to 1: the four choices
/// of flows.
#[test]
fn every_small_choice() {
    let mut seen = [0; 3];
    for code in 0..256u64 {
        let bit = |at: u64| code >> at & 1;
        // the tunnels of the two flows take turns
        let tunnels: [[u64; 4]; 4] = [0, 1, 2, 3].map(|t| [t % 2, 1, bit(2 * t), bit(2 * t + 1)]);
        let sum = |flow: usize, row: usize| tunnels[flow][2 + row] + tunnels[flow + 2][2 + row];
        for classes in [[0, 0], [2, 1], [1, 2], [2, 2]] {
            let flows = [0, 1].map(|f| [classes[f], sum(f, 0), sum(f, 1)]);
            for (cap, overrun) in [(0, 0), (1, 0), (1, 500), (2, 0), (2, 500), (3, 0), (3, 20)] {
                let network = network(overrun, 1, &[[cap, 0]], &flows, &tunnels);
                let (mut protected, mut all) = (0, 0);
                for choice in [[0, 0], [0, 1], [1, 0], [1, 1]] {
                    let shown = [sum(0, choice[0]), sum(1, choice[1])];
                    let of_class = |f: usize| if classes[f] < 2 { shown[f] } else { 0 };
                    protected = protected.max(of_class(0) + of_class(1));
                    all = all.max(shown[0] + shown[1]);
                }
                let rises = |t: &[u64; 4]| sum(t[0] as usize, 1) > sum(t[0] as usize, 0);
                let marks = tunnels.iter().map(|t| u8::from(rises(t))).collect();
                let expected = if protected > cap {
                    (Some(refused(7, 1, 0)), marks)
                } else if 1000 * all > (1000 + overrun) * cap {
                    (Some(refused(8, 1, 0)), marks)
                } else {
                    accepted(4)
                };
                let number = expected.0.map_or(6, |refusal| refusal.number);
                seen[number as usize - 6] += 1;
                assert_eq!(check(&network, &at_once(4)), expected, "{network:?}");
            }
        }
    }
    assert!(seen.iter().all(|&count| count > 500), "{seen:?}");
}

/// Every step of a plan of any length as the first overload, on several links: of three tunnels of a
/// flow two cross link l, with 5 together, and in one row 6, one of them less than before.
#[test]
fn every_step_can_be_the_first_overload() {
    const LINKS: u64 = 64;
    for count in 1..=50 {
        for row in 1..=count {
            for l in [0, row, LINKS - 1] {
                for (class, number) in [(0, 7), (2, 8)] {
                    let amounts = |r| if r == row { [1, 5, 4] } else { [3, 2, 5] };
                    let (old, new) = (amounts(0), amounts(count));
                    let via = [1 << l, 1 << l, 1 << ((l + 1) % LINKS)];
                    let tunnels = [2, 0, 1].map(|t: usize| [0, via[t], old[t], new[t]]);
                    let links: Vec<_> =
                        (0..LINKS).map(|k| [5 + 2 * u64::from(k != l), 0]).collect();
                    let mut plan = vec![1, count, count, 3];
                    for r in 1..count {
                        plan.extend([2, 0, 1].map(|t: usize| count * amounts(r)[t]));
                    }
                    let network = network(0, 1, &links, &[[class, 10, 10]], &tunnels);
                    let marks = vec![0, 1, 1];
                    assert_eq!(
                        check(&network, &plan),
                        (Some(refused(number, row, l)), marks),
                        "{count} {row} {l}"
                    );
                }
            }
        }
    }
}

/// Thirty-two flows of three tunnels each, all over the last of 64 links, in turn: the flow that rises is
/// named by its tunnels, whichever it is; by tunnels each of them could rise.
#[test]
fn every_flow_can_be_the_one_that_rises() {
    for rises in 0..32 {
        let tunnels: Vec<[u64; 4]> = (0..96)
            .map(|t| {
                let (flow, part) = (t % 32, t / 32);
                let more = u64::from(flow == rises && part == 0);
                [
                    flow,
                    1 << 63,
                    [9, 0, 3][part as usize],
                    [1, 10, 1][part as usize] + more,
                ]
            })
            .collect();
        let flows: Vec<_> = (0..32)
            .map(|flow| [flow % 3, 12, 12 + u64::from(flow == rises)])
            .collect();
        let mut links = vec![[0, 0]; 64];
        for (cap, fits) in [(384, false), (385, true)] {
            links[63] = [cap + 5, 5];
            let network = network(0, 1, &links, &flows, &tunnels);
            if fits {
                assert_eq!(check(&network, &at_once(96)), accepted(96));
                assert_eq!(steps(&network), Ok(1));
                // each tunnel at its larger amount: 22 a flow
                let by_tunnels = check(&with_unit(&network, 0), &at_once(96)).0;
                assert_eq!(by_tunnels, Some(refused(7, 1, 63)));
            } else {
                let marks = (0..96).map(|t| u8::from(t % 32 == rises)).collect();
                let refusal = (Some(refused(8, 1, 63)), marks);
                assert_eq!(check(&network, &at_once(96)), refusal);
                // a fiftieth of it is too much
                assert_eq!(plan(&network), Err(refused(9, 1, 63)));
            }
        }
    }
}

/// Flows without tunnels, more of them than there are tunnels, before and after the one that moves.
#[test]
fn flows_without_tunnels() {
    for flows in 1..=32 {
        for mine in [0, flows / 2, flows - 1] {
            let rates: Vec<_> = (0..flows)
                .map(|flow| if flow == mine { [0, 5, 6] } else { [1, 0, 0] })
                .collect();
            let tunnels = [[mine, 1, 4, 0], [mine, 1, 1, 6]];
            let of = |cap| network(0, 1, &[[cap, 0]], &rates, &tunnels);
            assert_eq!(steps(&of(6)), Ok(1));
            let refusal = (Some(refused(7, 1, 0)), vec![1, 1]);
            assert_eq!(check(&of(5), &at_once(2)), refusal);
        }
    }
    let none = network(0, 1, &[[15, 15]], &[], &[]);
    assert_eq!(plan(&none), Ok(at_once(0)));
    assert_eq!(check(&none, &at_once(0)), accepted(0));
}

/// Where the plan of 50 steps first overloads, by flows: link 0 has just what the flow has, which P11's
/// move would break by tunnels; on link 2 two flows change places.
#[test]
fn nine_names_the_first_overload_by_flows() {
    let of = |unit| {
        let tunnels = [
            [0, 0b001, 10, 0],
            [0, 0b011, 0, 10],
            [1, 0b100, 10, 0],
            [1, 0b010, 0, 10],
            [2, 0b010, 10, 0],
            [2, 0b100, 0, 10],
        ];
        let links = [[10, 0], [30, 0], [10, 0]];
        network(0, unit, &links, &[[0, 10, 10]; 3], &tunnels)
    };
    assert_eq!(plan(&of(0)), Err(refused(9, 1, 0)));
    assert_eq!(plan(&of(1)), Err(refused(9, 1, 2)));
    // a flow that grows above its link late in the plan, over two tunnels that change places
    let of = |unit| {
        let tunnels = [[0, 1, 0, 102], [0, 1, 98, 0]];
        network(0, unit, &[[100, 0]], &[[1, 98, 102]], &tunnels)
    };
    // by flows 98 and 4 a-fiftieths, above 100 from row 26 on; by tunnels a fiftieth of 98 or more at once
    assert_eq!(plan(&of(1)), Err(refused(9, 26, 0)));
    assert_eq!(plan(&of(0)), Err(refused(9, 1, 0)));
}

/// Nine flows of 10,000,000 on a link that has as much: in 50 parts together 205,032,704 and 2^32, of
/// 500,000,000.
#[test]
fn sums_beyond_32_bits() {
    assert_eq!(9 * 50 * AMOUNT, (1 << 32) + 205_032_704);
    for (class, number) in [(0, 7), (2, 8)] {
        let tunnels: Vec<_> = (0..9)
            .flat_map(|flow| {
                [
                    [flow, 1, AMOUNT - flow, flow],
                    [flow, 1, flow, AMOUNT - flow],
                ]
            })
            .collect();
        let of = |flows: usize| {
            let rates = vec![[class, AMOUNT, AMOUNT]; flows];
            network(0, 1, &[[AMOUNT, 0]], &rates, &tunnels[..2 * flows])
        };
        assert_eq!(check(&of(1), &[1, 50, 1, 2]), accepted(2));
        for flows in 2..=9 {
            let at_once = [1, 50, 1, 2 * flows as u64];
            let refusal = (Some(refused(number, 1, 0)), vec![0; 2 * flows]);
            assert_eq!(check(&of(flows), &at_once), refusal);
        }
        assert_eq!(plan(&of(9)), Err(refused(9, 1, 0)));
    }
}

// ------------------------------------------------------------------- marks

/// A mark falls on every tunnel of the flow across the link, also where its own amount falls or stays, of
/// any class, and on none that does not cross it.
#[test]
fn marks_of_a_flow() {
    let of = |unit, cap| {
        let tunnels = [
            [1, 0b01, 2, 0], // falls, in a flow that rises
            [0, 0b01, 6, 0], // falls, in a flow that stays
            [0, 0b11, 0, 6], // rises, in a flow that stays
            [1, 0b01, 0, 5], // rises
            [1, 0b11, 3, 3], // stays, in a flow that rises
            [1, 0b10, 0, 1], // does not cross it
            [2, 0b01, 0, 1], // background, rises
            [2, 0b10, 1, 0], // does not cross it
        ];
        let flows = [[0, 6, 6], [1, 5, 9], [2, 1, 1]];
        network(500, unit, &[[cap, 0], [50, 0]], &flows, &tunnels)
    };
    // protected 6 and 8, and 1 more
    assert_eq!(check(&of(1, 14), &at_once(8)), accepted(8));
    let refusal = (Some(refused(7, 1, 0)), vec![1, 0, 0, 1, 1, 0, 1, 0]);
    assert_eq!(check(&of(1, 13), &at_once(8)), refusal);
    // by tunnels 2, 6, 6, 5 and 3
    assert_eq!(check(&of(0, 22), &at_once(8)), accepted(8));
    let refusal = (Some(refused(7, 1, 0)), vec![0, 0, 1, 1, 0, 0, 1, 0]);
    assert_eq!(check(&of(0, 21), &at_once(8)), refusal);
    // 10 comes before 7, with the number of tunnels, and nothing is marked
    let mut marks = [7; 7];
    let answer = pavuneshil::check_plan(1, &of(1, 13), &at_once(8), &mut marks);
    assert_eq!(answer, Answer::Refused(refused(10, 8, 0)));
    assert_eq!(marks, [7; 7]);
}

/// The sum rises over listed rows, not from old to new.
#[test]
fn marks_of_a_listed_row() {
    // the flow has 4 on link 0 before and after
    let tunnels = [[0, 1, 4, 0], [0, 1, 0, 4], [0, 2, 0, 0]];
    let network = network(0, 1, &[[4, 0], [9, 0]], &[[2, 4, 4]], &tunnels);
    for (rows, expected) in [
        ([[6, 2, 0], [2, 6, 0]], accepted(3)),
        ([[1, 2, 5], [8, 0, 0]], accepted(3)),
        ([[3, 4, 1], [0, 8, 0]], accepted(3)),
    ] {
        let plan = [&[1, 2, 3, 3], &rows.concat()[..]].concat();
        assert_eq!(check(&network, &plan), expected, "{rows:?}");
    }
    let mut tight = network.clone();
    tight[7] = 3;
    // 8 halves on a link of 3 in row 0; and from row 2 on, if row 0 has less
    let plan = [1, 2, 3, 3, 1, 2, 5, 8, 0, 0];
    let full = (Some(refused(8, 1, 0)), vec![0, 0, 0]);
    assert_eq!(check(&tight, &plan), full);
    let at = tight.len() - 12;
    tight[at..].copy_from_slice(&[0, 1, 1, 0, 0, 1, 2, 4, 0, 2, 1, 0]);
    let refusal = (Some(refused(8, 2, 0)), vec![1, 1, 0]);
    assert_eq!(check(&tight, &plan), refusal);
}

// -------------------------------------------------------------------- held

/// "Everything that read cap reads cap - held": every part of a capacity that can be held, of a link of
/// 10 to 20 Mbit/s and of the largest, with either `unit`, in planner and checker.
#[test]
fn every_part_can_be_held() {
    for unit in 0..2 {
        for (left, fewest) in [
            (20, 1),
            (19, 2),
            (15, 2),
            (14, 3),
            (11, 10),
            (10, 0),
            (0, 0),
        ] {
            for held in [0, 1, 2, 5, 100, AMOUNT - left] {
                let other = |held: u64| [20 + held.min(5), held.min(5)];
                let of = |held| swap(0, unit, 0, [[left + held, held], other(held)]);
                let network = of(held);
                assert_eq!(plan(&network), plan(&of(0)));
                if fewest == 0 {
                    assert_eq!(plan(&network), Err(refused(9, 1, 0)));
                } else {
                    assert_eq!(steps(&network), Ok(fewest));
                    let fewer = second::even_plan_by(&LANDED, &network, (fewest - 1).max(1));
                    let refusal = (Some(refused(7, 1, 0)), vec![0, 0, 0, 1]);
                    let expected = if fewest > 1 { refusal } else { accepted(4) };
                    assert_eq!(check(&network, &fewer), expected);
                }
            }
        }
    }
}

/// Of which link it is held: one of two, and one of 64.
#[test]
fn held_of_one_link() {
    for unit in 0..2 {
        for (held, refusal) in [
            ([0, 0], accepted(4)),
            ([1, 0], (Some(refused(7, 1, 0)), vec![0, 0, 0, 1])),
            ([0, 1], (Some(refused(7, 1, 1)), vec![0, 1, 0, 0])),
        ] {
            let network = swap(0, unit, 0, [[20, held[0]], [20, held[1]]]);
            assert_eq!(check(&network, &at_once(4)), refusal);
        }
        for l in 0..64 {
            for (class, overrun, number) in [(0, 0, 7), (2, 0, 8), (2, 500, 8)] {
                let left = if overrun == 500 { 2 } else { 3 };
                let links = |left: u64| -> Vec<_> {
                    let held = |k: u64| if k == l { AMOUNT - left } else { k };
                    (0..64).map(|k| [AMOUNT, held(k)]).collect()
                };
                let tunnels = [[0, u64::MAX, 3, 0], [0, u64::MAX, 0, 3]];
                let of = |left| network(overrun, unit, &links(left), &[[class, 3, 3]], &tunnels);
                if unit == 1 {
                    assert_eq!(check(&of(left), &at_once(2)), accepted(2));
                    let refusal = (Some(refused(number, 1, l)), vec![0, 0]);
                    assert_eq!(check(&of(left - 1), &at_once(2)), refusal);
                } else {
                    assert_eq!(check(&of(2 * left), &at_once(2)), accepted(2));
                    let refusal = (Some(refused(number, 1, l)), vec![0, 1]);
                    assert_eq!(check(&of(2 * left - 1), &at_once(2)), refusal);
                }
            }
        }
    }
}

/// A link of which all is held has nothing left, for no class and with no overrun; nothing may cross it
/// but tunnels that carry nothing.
#[test]
fn nothing_left() {
    for unit in 0..2 {
        for cap in [0, 1, 10, AMOUNT] {
            for (class, overrun, number) in [(0, 0, 7), (1, 500, 7), (2, 0, 8), (2, 500, 8)] {
                let of = |old, new| {
                    let tunnels = [[0, 1, old, new], [0, 2, 5, 5], [0, 1, 0, 0]];
                    let links = [[cap, cap], [5, 0]];
                    let flows = [[class, 5 + old, 5 + new]];
                    network(overrun, unit, &links, &flows, &tunnels)
                };
                assert_eq!(steps(&of(0, 0)), Ok(1));
                for (old, new) in [(0, 1), (1, 0), (1, 1)] {
                    let together = u8::from(old < new && unit == 1);
                    let marks = vec![u8::from(old < new), 0, together];
                    let refusal = (Some(refused(number, 1, 0)), marks);
                    assert_eq!(check(&of(old, new), &at_once(3)), refusal);
                    assert_eq!(plan(&of(old, new)), Err(refused(9, 1, 0)));
                }
            }
        }
    }
}

/// The overrun is of what is left: 1000 x all is at most (1000 + overrun) x parts x (cap - held).
#[test]
fn overrun_of_what_is_left() {
    for unit in 0..2 {
        for (left, overrun, most) in [(10, 20, 10), (10, 100, 11), (50, 20, 51), (10, 500, 15)] {
            for held in [0, 7, 1000] {
                for (amount, expected) in [
                    (most, accepted(1)),
                    (most + 1, (Some(refused(8, 1, 0)), vec![1])),
                ] {
                    let flows = [[2, 0, amount]];
                    let links = [[left + held, held]];
                    let network = network(overrun, unit, &links, &flows, &[[0, 1, 0, amount]]);
                    assert_eq!(check(&network, &at_once(1)), expected);
                }
            }
        }
    }
}

fn bound(scratch: u64, overrun: u64) -> u64 {
    match pavuneshil::step_bound(scratch, overrun) {
        StepBound::Steps(steps) => steps,
        StepBound::Refused(refusal) => panic!("{refusal:?}"),
    }
}

/// The scratch is kept of what is left: with no room beyond it, or with overrun none at all, it takes
/// as many steps as the bound says, for every scratch and every overrun, with either `unit`.
#[test]
fn as_many_steps_as_the_bound_says() {
    // one flow begins while another ends, each over two tunnels
    let of = |unit, scratch, overrun, links, class, rate: u64| {
        let parts = [rate / 3, rate - rate / 3];
        let tunnels = [0, 1].map(|part| {
            let amount = parts[part];
            [[0, 1, 0, amount], [1, 1, amount, 0]]
        });
        let flows = [[class, 0, rate], [class, rate, 0]];
        let mut list = network(overrun, unit, &[links], &flows, &tunnels.concat());
        list[1] = scratch;
        list
    };
    for unit in 0..2 {
        for scratch in 20..=500 {
            let held = scratch * 7;
            let kept = of(unit, scratch, 0, [1000 + held, held], 1, 1000 - scratch);
            assert!(second::keeps_scratch_by(&LANDED, &kept));
            assert_eq!(steps(&kept), Ok(bound(scratch, 0)), "{scratch}");
        }
        for overrun in 20..=500 {
            let kept = of(unit, 500, overrun, [1001, 1], 2, 1000);
            assert!(second::keeps_scratch_by(&LANDED, &kept));
            assert_eq!(steps(&kept), Ok(bound(500, overrun)), "{overrun}");
        }
    }
}

// ---------------------------------------------------------- texts and lists

/// P11's move with `unit` 1, 5 of 15 held of link 0, as a text and as its list.
const LONGER: &str = "net=3
scratch=20
overrun=0
unit=1
links=2
flows=1
tunnels=2
cap=15
held=5
cap=15
held=0
class=0
rate=10
next=10
flow=0
via=0000000000000001
old=10
new=0
flow=0
via=0000000000000003
old=0
new=10
";

fn longer_list() -> Vec<u64> {
    vec![
        3, 20, 0, 1, 2, 1, 2, 15, 5, 15, 0, 0, 10, 10, //
        0, 1, 10, 0, 0, 3, 0, 10,
    ]
}

#[test]
fn there_and_back() {
    let list = longer_list();
    assert_eq!(longer(1, 0, [[15, 5], [15, 0]]), list);
    assert_eq!(read(LONGER.as_bytes()), Ok(list.clone()));
    assert_eq!(write(&list), Ok(LONGER.as_bytes().to_vec()));
    // with remarks around `unit` and `held`, which are not written
    let remarked = LONGER
        .replace("unit=1\n", "# new switches\nunit=1\n#\n")
        .replace("held=5\n", "# a crew\nheld=5\n#\n");
    assert_eq!(read(remarked.as_bytes()), Ok(list));
}

/// Judged alike as a text and as a list, by every operation on a network.
fn refused_alike(list: &[u64], number: u64, line: u64) {
    let refusal = refused(number, line, 0);
    assert_eq!(write(list), Err(refusal), "{list:?}");
    assert_eq!(plan(list), Err(refusal), "{list:?}");
    assert_eq!(check(list, &[]), refused_at(number, line, 0), "{list:?}");
    let text = inputs::lines(list, Shape::of(&longer_list()));
    assert_eq!(read(&text), Err(refusal), "{list:?}");
}

/// "`unit` 0 or 1 after `overrun`": line 4.
#[test]
fn every_value_of_unit() {
    for unit in 0..2 {
        let list = with_unit(&longer_list(), unit);
        let text = write(&list).expect("a text");
        assert_eq!(read(&text), Ok(list));
        let line = format!("\nunit={unit}\n");
        assert!(String::from_utf8(text).expect("plain").contains(&line));
    }
    for unit in [2, 3, 10, 11, 20, 500, AMOUNT, 9_999_999_999] {
        let mut list = longer_list();
        list[3] = unit;
        refused_alike(&list, 2, 4);
        // before `links`, and after `overrun`
        list[4] = 65;
        refused_alike(&list, 2, 4);
        list[2] = 19;
        refused_alike(&list, 2, 3);
    }
    for unit in [1 << 32, (1 << 32) + 1, 1 << 63, u64::MAX] {
        let mut list = longer_list();
        list[3] = unit;
        assert_eq!(write(&list), Err(refused(2, 4, 0)));
        assert_eq!(plan(&list), Err(refused(2, 4, 0)));
    }
    let unit = |value: &str| LONGER.replace("unit=1", &format!("unit={value}"));
    for value in ["", "01", "00", "+1", " 1", "1 ", "1\r", "a", "10000000000"] {
        assert_eq!(read(unit(value).as_bytes()), Err(refused(1, 4, 0)));
    }
    for line in [
        "",
        "unit\n",
        "Unit=1\n",
        "uni=1\n",
        "units=1\n",
        "held=1\n",
        "\n",
    ] {
        let text = LONGER.replace("unit=1\n", line);
        assert_eq!(read(text.as_bytes()), Err(refused(1, 4, 0)), "{line:?}");
    }
    // before `overrun`, and twice
    let early = LONGER.replace("overrun=0\nunit=1\n", "unit=1\noverrun=0\n");
    assert_eq!(read(early.as_bytes()), Err(refused(1, 3, 0)));
    let twice = LONGER.replace("unit=1\n", "unit=1\nunit=1\n");
    assert_eq!(read(twice.as_bytes()), Err(refused(1, 5, 0)));
}

/// "`held` 0..cap after each `cap`": above it, 2 at the line of `held`.
#[test]
fn every_value_of_held() {
    for (cap, line) in [(7, 9), (9, 11)] {
        for held in 0..=15 {
            let mut list = longer_list();
            list[cap + 1] = held;
            assert_eq!(read(&write(&list).expect("a text")), Ok(list));
        }
        for held in [16, 17, 20, 500, AMOUNT, AMOUNT + 1, 9_999_999_999] {
            let mut list = longer_list();
            list[cap + 1] = held;
            refused_alike(&list, 2, line);
        }
        for held in [1 << 32, (1 << 32) + 5, 1 << 63, u64::MAX] {
            let mut list = longer_list();
            list[cap + 1] = held;
            assert_eq!(write(&list), Err(refused(2, line, 0)));
            assert_eq!(plan(&list), Err(refused(2, line, 0)));
        }
        // of every capacity all may be held, and no more
        for most in [0, 1, 4, AMOUNT - 1, AMOUNT] {
            let mut list = longer_list();
            (list[cap], list[cap + 1]) = (most, most);
            assert_eq!(read(&write(&list).expect("a text")), Ok(list.clone()));
            list[cap + 1] += 1;
            refused_alike(&list, 2, line);
        }
        // the capacity's own range comes first
        let mut list = longer_list();
        (list[cap], list[cap + 1]) = (AMOUNT + 1, AMOUNT + 2);
        refused_alike(&list, 2, line - 1);
    }
    // held of link 0 above its own cap, though not above that of link 1
    let mut list = longer_list();
    (list[7], list[8]) = (4, 5);
    refused_alike(&list, 2, 9);
    // of both links: the first
    list[10] = 16;
    refused_alike(&list, 2, 9);
    // before 4, which comes after all lines
    let mut list = longer_list();
    (list[12], list[8]) = (11, 16);
    refused_alike(&list, 2, 9);
    let held = |value: &str| LONGER.replace("held=5", &format!("held={value}"));
    for value in ["", "05", "00", "+5", " 5", "5 ", "5\r", "a", "10000000000"] {
        assert_eq!(read(held(value).as_bytes()), Err(refused(1, 9, 0)));
    }
    for line in [
        "",
        "held\n",
        "Held=5\n",
        "hel=5\n",
        "helds=5\n",
        "cap=5\n",
        "\n",
    ] {
        let text = LONGER.replace("held=5\n", line);
        assert_eq!(read(text.as_bytes()), Err(refused(1, 9, 0)), "{line:?}");
    }
    // before `cap`, twice, and a line that counts remarks
    let early = LONGER.replace("cap=15\nheld=5\n", "held=5\ncap=15\n");
    assert_eq!(read(early.as_bytes()), Err(refused(1, 8, 0)));
    let twice = LONGER.replace("held=5\n", "held=5\nheld=5\n");
    assert_eq!(read(twice.as_bytes()), Err(refused(1, 10, 0)));
    let remarked = LONGER.replace("held=5\n", "# a crew\nheld=16\n");
    assert_eq!(read(remarked.as_bytes()), Err(refused(2, 10, 0)));
}

/// The lines of one edition under the `net` of another.
#[test]
fn the_lines_of_the_other_editions() {
    for (net, line) in [(1, 4), (2, 4)] {
        let text = LONGER.replace("net=3", &format!("net={net}"));
        assert_eq!(read(text.as_bytes()), Err(refused(1, line, 0)));
        // without `unit` it is a `held` that is not there
        let text = text.replace("unit=1\n", "");
        assert_eq!(read(text.as_bytes()), Err(refused(1, 8, 0)));
        let text = text.replace("held=5\n", "").replace("held=0\n", "");
        let expected = match net {
            1 => Err(refused(1, 11, 0)),
            _ => Ok(vec![
                2, 20, 0, 2, 1, 2, 15, 15, 0, 10, 10, 0, 1, 10, 0, 0, 3, 0, 10,
            ]),
        };
        assert_eq!(read(text.as_bytes()), expected);
    }
    let no_next = LONGER.replace("next=10\n", "");
    assert_eq!(read(no_next.as_bytes()), Err(refused(1, 14, 0)));
    // in lists the numbers stand for other lines: `unit` for `links`, `links` for `unit`
    for (net, line) in [(1, 4), (2, 4)] {
        let mut list = with_unit(&longer_list(), 0);
        list[0] = net;
        assert_eq!(write(&list), Err(refused(2, line, 0)));
    }
    let mut list = vec![2, 20, 0, 2, 1, 1, 30, 0, 10, 20, 0, 1, 10, 20];
    list[0] = 3;
    assert_eq!(write(&list), Err(refused(2, 4, 0)));
    // one link: `links` is taken for `unit`, `flows` for `links`, and a capacity for `tunnels`
    list[3] = 1;
    (list[4], list[5], list[6]) = (0, 0, 30);
    assert_eq!(write(&list), Err(refused(2, 5, 0)));
}

/// Every byte of the text changed into every other, left out, and every byte put before it: the two
/// implementations agree, and some are good.
#[test]
fn every_byte() {
    let text = LONGER.as_bytes();
    let mut good = 0;
    for at in 0..=text.len() {
        for byte in 0..=255 {
            let put = [&text[..at], &[byte], &text[at..]].concat();
            good += u64::from(read(&put).is_ok());
            if at < text.len() {
                let other = [&text[..at], &[byte], &text[at + 1..]].concat();
                good += u64::from(read(&other).is_ok());
            }
        }
        if at < text.len() {
            let out = [&text[..at], &text[at + 1..]].concat();
            good += u64::from(read(&out).is_ok());
        }
    }
    assert!(good > text.len() as u64);
}

#[test]
fn every_truncation() {
    let text = LONGER.as_bytes();
    for length in 0..text.len() {
        let cut = &text[..length];
        let before = cut.iter().filter(|&&byte| byte == b'\n').count() as u64;
        let between = cut.last().is_none_or(|&byte| byte == b'\n');
        let number = if between { 3 } else { 1 };
        assert_eq!(read(cut), Err(refused(number, before + 1, 0)));
    }
    let list = longer_list();
    for length in 0..list.len() {
        let missing = refused(3, length as u64 + 1, 0);
        assert_eq!(write(&list[..length]), Err(missing));
        assert_eq!(plan(&list[..length]), Err(missing));
    }
    for more in [0, 1, 20, u64::MAX] {
        let long = [&list[..], &[more]].concat();
        assert_eq!(write(&long), Err(refused(3, 23, 0)));
        assert_eq!(plan(&long), Err(refused(3, 23, 0)));
    }
}

/// Sums that miss, rows that miss, and another number of tunnels, with either `unit`.
#[test]
fn unit_changes_neither_4_nor_5_nor_6() {
    for unit in 0..2 {
        let of = |cap| {
            let tunnels = [[0, 1, 10, 0], [0, 1, 0, 20], [1, 1, 3, 3]];
            let flows = [[0, 10, 20], [0, 3, 3]];
            network(0, unit, &[[cap, 0]], &flows, &tunnels)
        };
        let good = of(100);
        // rate and next of either flow
        for (at, flow, second) in [(10, 0, 0), (11, 0, 1), (13, 1, 0), (14, 1, 1)] {
            for number in [good[at] - 1, good[at] + 1] {
                let mut list = good.clone();
                list[at] = number;
                assert_eq!(plan(&list), Err(refused(4, flow, second)));
                assert_eq!(check(&list, &[]), refused_at(4, flow, second));
            }
        }
        assert_eq!(check(&good, &at_once(2)), refused_at(5, 4, 1));
        // in two parts flow 0 has 20 to 40, whatever its tunnels have; flow 1 has 6
        for (row, expected) in [
            ([20, 0, 6], accepted(3)),
            ([0, 40, 6], accepted(3)),
            ([40, 1, 6], refused_at(6, 1, 0)),
            ([0, 19, 6], refused_at(6, 1, 0)),
            ([10, 20, 5], refused_at(6, 1, 1)),
            ([10, 20, 7], refused_at(6, 1, 1)),
        ] {
            let plan = [&[1, 2, 2, 3], &row[..]].concat();
            assert_eq!(check(&good, &plan), expected);
            // 6 before 7
            if expected.1.is_empty() {
                assert_eq!(check(&of(0), &plan), expected);
            }
        }
    }
}

/// The largest network: its list has 615 numbers.
#[test]
fn the_longest_list() {
    let mut list = vec![3, 500, 500, 1, 64, 32, 96];
    list.extend([AMOUNT; 128]);
    list.extend([2, AMOUNT, AMOUNT].repeat(32));
    for flow in 0..32 {
        list.extend([flow, u64::MAX, AMOUNT, 0]);
        list.extend([flow, u64::MAX, 0, AMOUNT]);
        list.extend([flow, u64::MAX, 0, 0]);
    }
    assert_eq!(list.len(), 615);
    assert_eq!(NETWORK_NUMBERS, 615);
    let text = write(&list).expect("a text");
    assert_eq!(read(&text), Ok(list.clone()));
    // with its remarks too
    assert!(text.len() + 32 * 81 <= TEXT_BYTES);
    for room in [0, 550, 614] {
        let mut out = vec![7; room];
        let answer = pavuneshil::read_network(&text, &mut out);
        assert_eq!(answer, Answer::Refused(refused(10, 615, 0)));
        assert_eq!(out, vec![7; room]);
    }
    // nothing is left of any link; and where nothing is held 32 x 10,000,000 are on one of 10,000,000
    assert_eq!(plan(&list), Err(refused(9, 1, 0)));
    let full = (Some(refused(8, 1, 0)), vec![0; MARKS]);
    assert_eq!(check(&list, &at_once(96)), full);
    for held in (0..64).map(|link| 8 + 2 * link) {
        list[held] = 0;
    }
    assert_eq!(check(&list, &at_once(96)), full);
    // a flow of the largest rate alone, on links that have as much: by tunnels it is twice that
    let mut alone = list.clone();
    for flow in 1..32 {
        alone[135 + 3 * flow + 1] = 0;
        alone[135 + 3 * flow + 2] = 0;
        for tunnel in 3 * flow..3 * flow + 3 {
            alone[231 + 4 * tunnel + 2] = 0;
            alone[231 + 4 * tunnel + 3] = 0;
        }
    }
    assert_eq!(steps(&alone), Ok(1));
    assert_eq!(steps(&with_unit(&alone, 0)), Ok(2));
}

// ------------------------------------------------------------- by cases

/// "What passes with `unit=0` passes with `unit=1`": plans of every kind, and the planner's, which needs
/// no more steps. What is neither an overload nor done is the same with both.
#[test]
fn what_passes_by_tunnels_passes_by_flows() {
    let mut rng = Rng::new(701);
    let (mut verdicts, mut plans) = ([0; 4], [0; 4]);
    for i in 0..6000 {
        let network = inputs::edition_3(&mut rng, 1);
        let (by_tunnels, by_flows) = (with_unit(&network, 0), with_unit(&network, 1));
        let plan_of = match i % 8 {
            0 => broken_plan(&mut rng, &network),
            1..=2 => any_even_plan(&mut rng, &network),
            _ => any_plan(&mut rng, &network),
        };
        let overload = |refusal: Refusal| matches!(refusal.number, 7 | 8);
        match (check(&by_tunnels, &plan_of), check(&by_flows, &plan_of)) {
            ((None, _), (None, _)) => verdicts[0] += 1,
            ((None, _), other) => panic!("{other:?}: {network:?} {plan_of:?}"),
            ((Some(one), _), (None, _)) if overload(one) => verdicts[1] += 1,
            ((Some(one), _), (Some(other), _)) if overload(one) && overload(other) => {
                // the overload by flows is no earlier
                let place = |refusal: Refusal| (refusal.place, refusal.second, refusal.number);
                assert!(place(one) <= place(other));
                verdicts[2] += 1;
            }
            (one, other) => {
                assert_eq!(one, other);
                verdicts[3] += 1;
            }
        }
        if i % 3 > 0 {
            continue;
        }
        match (plan(&by_tunnels), plan(&by_flows)) {
            (Ok(one), Ok(other)) => {
                assert!(other[2] <= one[2], "{network:?}");
                plans[usize::from(other[2] < one[2])] += 1;
            }
            (Err(one), Ok(_)) if one.number == 9 => plans[2] += 1,
            (Err(one), Err(other)) if one.number == 9 => {
                assert_eq!(other.number, 9);
                plans[3] += 1;
            }
            (one, other) => panic!("{one:?} {other:?}: {network:?}"),
        }
    }
    assert!(verdicts.iter().all(|&count| count > 300), "{verdicts:?}");
    assert!(plans.iter().all(|&count| count > 50), "{plans:?}");
}

/// "Everything that read cap reads cap - held": the network with that much less, of which nothing is
/// held, gets the same plan and the same verdicts.
#[test]
fn held_capacity_is_not_there() {
    let mut rng = Rng::new(702);
    let (mut refusals, mut passed) = (0, 0);
    for i in 0..3000 {
        let network = inputs::edition_3(&mut rng, 1);
        let shape = Shape::of(&network);
        let mut less = network.clone();
        for cap in (0..shape.links).map(|link| shape.cap(link)) {
            less[cap] -= less[cap + 1];
            less[cap + 1] = 0;
        }
        let plan_of = any_plan(&mut rng, &network);
        let checked = check(&network, &plan_of);
        assert_eq!(checked, check(&less, &plan_of), "{network:?}");
        match checked.0 {
            None => passed += 1,
            Some(_) => refusals += 1,
        }
        if i % 3 == 0 {
            assert_eq!(plan(&network), plan(&less), "{network:?}");
        }
    }
    assert!(refusals > 300 && passed > 300);
}

/// A list of an older edition as it is said in edition 3: `unit` and every `held` 0.
fn in_edition_3(list: &[u64]) -> Vec<u64> {
    let shape = Shape::of(list);
    let mut later = vec![3, list[1], list[2], 0, list[3], list[4], list[5]];
    for link in 0..shape.links {
        later.extend([list[shape.cap(link)], 0]);
    }
    for flow in 0..shape.flows {
        later.extend([shape.class(flow), shape.rate(flow), shape.next(flow)].map(|at| list[at]));
    }
    later.extend(&list[shape.tunnel(0)..]);
    later
}

/// "Older editions have `unit` and `held` 0."
#[test]
fn older_editions_say_the_same() {
    let mut rng = Rng::new(703);
    let mut seen = [[0; 3]; 2];
    for i in 0..4000 {
        let network = inputs::network(&mut rng);
        if network[0] == 3 {
            continue;
        }
        let later = in_edition_3(&network);
        if network[0] == 1 {
            assert_eq!(later, to_edition(&network, 3));
        }
        let plan_of = match i % 5 {
            0 => broken_plan(&mut rng, &network),
            _ => any_plan(&mut rng, &network),
        };
        let checked = check(&network, &plan_of);
        assert_eq!(check(&later, &plan_of), checked, "{network:?} {plan_of:?}");
        let made = plan(&network);
        assert_eq!(plan(&later), made, "{network:?}");
        let seen = &mut seen[network[0] as usize - 1];
        seen[usize::from(checked.0.is_none())] += 1;
        seen[2] += u64::from(made.is_ok());
    }
    assert!(seen.concat().iter().all(|&count| count > 100), "{seen:?}");
}

// ------------------------------------------------------------------ samples

/// A crew holds 10 of 40 Gbit/s: three steps, where one would do.
#[test]
fn of_the_sample_crew() {
    let (network, stored) = sample_lists("crew");
    assert_eq!((network[0], network[3]), (3, 0));
    assert_eq!(network[7..11], [40_000, 10_000, 40_000, 0]);
    assert!(second::keeps_scratch_by(&LANDED, &network));
    assert_eq!(plan(&network), Ok(stored.clone()));
    assert_eq!(stored[2], 3);
    assert_eq!(check(&network, &stored), accepted(5));
    let held = |held| {
        let mut network = network.clone();
        network[8] = held;
        network
    };
    assert_eq!(steps(&held(0)), Ok(1));
    // in q steps link 0 carries 26,000 and a qth of 10,000 at the last
    for (left, fewest) in [(36_000, 1), (31_000, 2), (28_500, 4), (26_200, 50)] {
        assert_eq!(steps(&held(40_000 - left)), Ok(fewest));
        if fewest < 50 {
            assert_eq!(steps(&held(40_001 - left)), Ok(fewest + 1));
        }
    }
    assert_eq!(
        plan(&held(13_801)).map_err(|refusal| refusal.number),
        Err(9)
    );
    assert_eq!(plan(&held(14_000)), Err(refused(9, 49, 0)));
    assert_eq!(plan(&held(40_000)), Err(refused(9, 1, 0)));
    assert_eq!(plan(&held(40_001)), Err(refused(2, 9, 0)));
    // three steps are two too few where 12 are held: 29,333 in the last, of 28,000
    let marks = vec![0, 0, 1, 0, 0];
    assert_eq!(
        check(&held(12_000), &stored),
        (Some(refused(8, 3, 0)), marks)
    );
}

/// Two steps; with `unit` 0 seven, since on the trunk each tunnel would count for itself.
#[test]
fn of_the_sample_weights() {
    let (network, stored) = sample_lists("weights");
    assert_eq!((network[0], network[3]), (3, 1));
    assert!(second::keeps_scratch_by(&LANDED, &network));
    assert_eq!(plan(&network), Ok(stored.clone()));
    assert_eq!(stored, [1, 2, 2, 4, 20_000, 20_000, 6000, 6000]);
    assert_eq!(check(&network, &stored), accepted(4));
    let by_tunnels = with_unit(&network, 0);
    assert_eq!(steps(&by_tunnels), Ok(7));
    let refusal = (Some(refused(7, 1, 0)), vec![0, 1, 0, 1]);
    assert_eq!(check(&by_tunnels, &stored), refusal);
    // at once link 1 carries 26,000 of 24,000 when the calls come before the copies have gone
    let refusal = (Some(refused(7, 1, 1)), vec![0, 0, 0, 1]);
    assert_eq!(check(&network, &at_once(4)), refusal);
}
