//! The inputs: networks of the largest size, each with its plan of 50 steps, and the swap; pairs for
//! the step bound; rule tables of the largest size; rates and demands to share; submissions for the
//! desks.

use crate::LANDED;
use second::gen::{Rng, Shape};

const ROOM: usize = usize::MAX;
const LINKS: usize = 64;
const FLOWS: usize = 32;
const TUNNELS: usize = 96;
const STEPS: u64 = 50;
const OVERRUN: u64 = 100;

/// The most that a capacity, a rate or a demand may be.
const AMOUNT: u64 = 10_000_000;

/// A network with the plan that the planner makes for it with a lag, as lists and as texts.
pub struct Input {
    pub lag: u64,
    pub network: Vec<u64>,
    pub plan: Vec<u64>,
    pub network_text: Vec<u8>,
    /// The network's text with as many remarks as it may have, each as long as it may be.
    pub remarked_text: Vec<u8>,
    pub plan_text: Vec<u8>,
    /// The network with link 63 (1 of the swap) cut down to nothing, so that no plan fits.
    pub stuck: Vec<u64>,
    /// The network with one Mbit/s less than the plan needs on a link, late in the plan if it can be.
    pub tight: Vec<u64>,
}

impl Input {
    fn of(lag: u64, network: Vec<u64>, tight: Vec<u64>) -> Input {
        let plan = second::make_plan_lag(&LANDED, &network, lag, ROOM).expect("a plan");
        let mut stuck = network.clone();
        let shape = Shape::of(&network);
        let last = shape.cap(shape.links - 1)..shape.cap(shape.links);
        stuck[last].fill(0);
        let text = second::write_network_by(&LANDED, &network, ROOM);
        let network_text = text.expect("a valid network");
        Input {
            lag,
            remarked_text: remarked(&network_text),
            network_text,
            plan_text: second::write_plan(&plan, ROOM).expect("a valid plan"),
            network,
            plan,
            stuck,
            tight,
        }
    }
}

/// A text with 32 remarks of 80 bytes, spread over its lines, the last after them.
fn remarked(text: &[u8]) -> Vec<u8> {
    let remark = [&b"#".repeat(80)[..], b"\n"].concat();
    let lines: Vec<&[u8]> = text.split_inclusive(|&byte| byte == b'\n').collect();
    let mut remarked = Vec::new();
    for i in 0..32 {
        let part = lines.len() * i / 32..lines.len() * (i + 1) / 32;
        remarked.extend([&lines[part].concat()[..], &remark].concat());
    }
    remarked
}

/// So many networks of 64 links, 32 flows and 96 tunnels, each tunnel over so many links, for
/// which the plan of fewest steps with this lag has 50: of edition 3 where a `unit` is given, else of edition
/// 1. Of one seed they differ in that alone, and by lag and with `unit` 1 in the capacities.
pub fn largest(count: usize, hops: u32, unit: Option<u64>, lag: u64, seed: u64) -> Vec<Input> {
    let mut rng = Rng::new(seed);
    let mut inputs = Vec::new();
    while inputs.len() < count {
        let Some((network, tight)) = network(&mut rng, hops, unit, lag) else {
            continue;
        };
        let input = Input::of(lag, network, tight);
        if input.plan[2] == STEPS {
            inputs.push(input);
        }
    }
    inputs
}

/// The swap: two flows of 10 Mbit/s change places on two links of 15.
pub fn swap(lag: u64) -> Input {
    let network = |cap| {
        vec![
            1, 333, 0, 2, 2, 4, cap, cap, 0, 10, 0, 10, //
            0, 1, 10, 0, 0, 2, 0, 10, 1, 2, 10, 0, 1, 1, 0, 10,
        ]
    };
    Input::of(lag, network(15), network(14))
}

/// Three parts of a rate, any of them 0 now and then.
fn parts(rng: &mut Rng, rate: u64) -> [u64; 3] {
    let mut cuts = [rng.below(rate + 1), rng.below(rate + 1)];
    cuts.sort_unstable();
    [cuts[0], cuts[1] - cuts[0], rate - cuts[1]]
}

/// A via set of exactly so many links, or switches, of which there are as many.
fn via(rng: &mut Rng, hops: u32) -> u64 {
    let mut set = 0u64;
    while set.count_ones() < hops {
        set |= 1 << rng.below(LINKS as u64);
    }
    set
}

/// A network in which every link has just what the even plan of 50 steps needs with this lag, and the
/// same with one less on the link that needs its capacity latest. `None` where a capacity is out of range.
fn network(rng: &mut Rng, hops: u32, unit: Option<u64>, lag: u64) -> Option<(Vec<u64>, Vec<u64>)> {
    // amounts of all lengths, and the capacities still in range
    let most = 28_000_000 / u64::from(hops) / 8;
    let mut flows = Vec::new();
    let mut tunnels = Vec::new();
    for flow in 0..FLOWS as u64 {
        let most = rng.pick(&[most, most, most / 10, most / 100]);
        let rate = rng.between(most / 2, most);
        flows.push((rng.below(3), rate));
        let (old, new) = (parts(rng, rate), parts(rng, rate));
        for part in 0..TUNNELS / FLOWS {
            tunnels.push((flow, via(rng, hops), old[part], new[part]));
        }
    }
    // a flow's tunnels need not lie together
    for last in (1..tunnels.len()).rev() {
        tunnels.swap(last, rng.below(last as u64 + 1) as usize);
    }
    let mut list = match unit {
        None => vec![1, 20, OVERRUN],
        Some(unit) => vec![3, 20, OVERRUN, unit],
    };
    list.extend([LINKS, FLOWS, TUNNELS].map(|count| count as u64));
    let mut latest = (0, 0);
    for link in 0..LINKS {
        let (mut cap, mut at) = (0, 0);
        for first in 0..=STEPS - lag {
            let (mut protected, mut all) = (0, 0);
            // of each tunnel, or with `unit` 1 of each flow: whether it is protected, and its sums in the first
            // row of the window and in the last, of which the larger is the largest of all
            let mut sums = [(false, [0; 2]); TUNNELS];
            for (t, &(flow, via, old, new)) in tunnels.iter().enumerate() {
                if (via >> link) & 1 == 1 {
                    let row = |a| (STEPS - a) * old + a * new;
                    let sum = &mut sums[if unit == Some(1) { flow as usize } else { t }];
                    sum.0 = flows[flow as usize].0 < 2;
                    sum.1[0] += row(first);
                    sum.1[1] += row(first + lag);
                }
            }
            for (of_protected, [earlier, later]) in sums {
                let worst = earlier.max(later);
                all += worst;
                if of_protected {
                    protected += worst;
                }
            }
            let needed = protected
                .div_ceil(STEPS)
                .max((1000 * all).div_ceil((1000 + OVERRUN) * STEPS));
            if needed > cap {
                (cap, at) = (needed, first);
            }
        }
        if cap == 0 || cap > AMOUNT {
            return None;
        }
        if at >= latest.0 {
            latest = (at, link);
        }
        // of edition 3 some is held, and so much more is there
        let held = (1000 * link as u64).min(AMOUNT - cap);
        match unit {
            None => list.push(cap),
            Some(_) => list.extend([cap + held, held]),
        }
    }
    for (class, rate) in flows {
        list.extend([class, rate]);
        if unit.is_some() {
            list.push(rate);
        }
    }
    for (flow, via, old, new) in tunnels {
        list.extend([flow, via, old, new]);
    }
    let mut tight = list.clone();
    match unit {
        None => tight[Shape::of(&list).cap(latest.1)] -= 1,
        Some(_) => tight[Shape::of(&list).cap(latest.1) + 1] += 1,
    }
    Some((list, tight))
}

/// Pairs for the step bound, both in range.
pub fn shares(count: usize, seed: u64) -> Vec<(u64, u64)> {
    let mut rng = Rng::new(seed);
    (0..count)
        .map(|_| {
            let overrun = rng.between(20, 500);
            (rng.between(20, 500), rng.pick(&[0, overrun]))
        })
        .collect()
}

/// Rule tables as a list and as a text.
pub struct Tables {
    pub list: Vec<u64>,
    pub text: Vec<u8>,
    /// The tables with one rule's room less at the last switch that has rules, so that a set does
    /// not fit.
    pub short: Vec<u64>,
}

/// So many rule tables of 64 switches and 96 tunnels, a third of them kept, added and removed each,
/// each over so many switches. Slack is 20, so that there are 49 stages, and every room is the least
/// in which both sets fit.
pub fn tables(count: usize, hops: u32, seed: u64) -> Vec<Tables> {
    let mut rng = Rng::new(seed);
    (0..count)
        .map(|_| {
            let mut kinds = [1, 2, 3].repeat(TUNNELS / 3);
            for last in (1..kinds.len()).rev() {
                kinds.swap(last, rng.below(last as u64 + 1) as usize);
            }
            let tunnels: Vec<_> = kinds
                .into_iter()
                .map(|kind| (via(&mut rng, hops), kind))
                .collect();
            let mut list = vec![1, 20, LINKS as u64, TUNNELS as u64];
            for switch in 0..LINKS {
                let set = |other| {
                    tunnels
                        .iter()
                        .filter(|&&(via, kind)| (via >> switch) & 1 == 1 && kind != other)
                        .count() as u64
                };
                list.push((1000 * set(2).max(set(3))).div_ceil(1000 - 20));
            }
            let mut short = list.clone();
            let last = short.iter().rposition(|&number| number > 0);
            short[last.expect("a room")] -= 1;
            for (via, kind) in tunnels {
                list.extend([via, kind]);
                short.extend([via, kind]);
            }
            let text = second::write_rules(&list, ROOM).expect("valid rule tables");
            Tables { list, text, short }
        })
        .collect()
}

/// So many times 16 demands of any size, with a rate that meets all of them or part of them.
pub fn demands(count: usize, met: bool, seed: u64) -> Vec<(u64, Vec<u64>)> {
    let mut rng = Rng::new(seed);
    (0..count)
        .map(|_| {
            let demands: Vec<u64> = (0..16).map(|_| rng.below(AMOUNT / 16 + 1)).collect();
            let sum: u64 = demands.iter().sum();
            (if met { sum } else { rng.below(sum) }, demands)
        })
        .collect()
}

/// So many times 16 demands of which the level meets one after the other: what the rate leaves to
/// the unmet, shared evenly, meets just one more each time, until it rises by less than 1.
pub fn stairs(count: usize, seed: u64) -> Vec<(u64, Vec<u64>)> {
    let mut rng = Rng::new(seed);
    (0..count)
        .map(|_| {
            let rate = rng.between(AMOUNT / 2, AMOUNT);
            let mut demands = vec![];
            let (mut met, mut level) = (0, 0);
            for unmet in (2..=16).rev() {
                let next = (rate - met) / unmet;
                demands.push(level);
                met += level;
                level = next + 1;
            }
            demands.push(AMOUNT);
            for last in (1..demands.len()).rev() {
                demands.swap(last, rng.below(last as u64 + 1) as usize);
            }
            (rate, demands)
        })
        .collect()
}

/// So many orders in which the eight desks submit four jobs each: desk and tag.
pub fn submissions(count: usize, seed: u64) -> Vec<Vec<(u64, u32)>> {
    let mut rng = Rng::new(seed);
    (0..count)
        .map(|_| {
            let mut jobs: Vec<_> = (0..32).map(|i| (i % 8, rng.any() as u32)).collect();
            for last in (1..jobs.len()).rev() {
                jobs.swap(last, rng.below(last as u64 + 1) as usize);
            }
            jobs
        })
        .collect()
}

#[cfg(test)]
mod tests {
    use super::*;

    #[test]
    fn of_the_largest_size() {
        for hops in [4, 32] {
            for unit in [None, Some(0), Some(1)] {
                for (lag, input) in [1, 4].into_iter().flat_map(|lag| {
                    let inputs = largest(2, hops, unit, lag, 1);
                    inputs.into_iter().map(move |input| (lag, input))
                }) {
                    // edition 1 has no `unit`, no `held` of a link and no `next` of a flow
                    let more = if unit.is_none() { 1 + LINKS + FLOWS } else { 0 };
                    assert_eq!(input.network.len() + more, pavuneshil::NETWORK_NUMBERS);
                    assert_eq!(input.plan.len(), pavuneshil::PLAN_NUMBERS);
                    let check = |network: &[u64], lag| {
                        second::check_plan_lag(&LANDED, network, &input.plan, lag, ROOM)
                    };
                    let accepted = check(&input.network, lag);
                    assert!(matches!(accepted, second::Checked::Accepted { .. }));
                    let refused = check(&input.tight, lag);
                    assert!(matches!(refused, second::Checked::Refused { .. }));
                    let with_more = check(&input.network, lag + 1);
                    assert!(matches!(with_more, second::Checked::Refused { .. }));
                }
            }
            // of one seed the tunnels are the same
            let tunnels = |unit, lag| -> Vec<Vec<u64>> {
                let inputs = largest(2, hops, unit, lag, 1);
                let last = |list: &Vec<u64>| list[list.len() - 4 * TUNNELS..].to_vec();
                inputs.iter().map(|input| last(&input.network)).collect()
            };
            for lag in [1, 4] {
                assert_eq!(tunnels(Some(0), lag), tunnels(None, 1));
                assert_eq!(tunnels(Some(1), lag), tunnels(None, 1));
            }
            for tables in tables(2, hops, 1) {
                assert_eq!(tables.list.len(), pavuneshil::RULES_NUMBERS);
            }
        }
    }
}
