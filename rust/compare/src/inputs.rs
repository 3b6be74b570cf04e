//! Inputs, good and damaged: valid, one edge off, truncated, random.

use crate::LANDED;
use second::gen::*;
use second::{even_plan_by, write_network_by, write_plan, write_rules};

const ROOM: usize = usize::MAX;

/// "amounts up to 10,000,000 (Mbit/s)"
const AMOUNT: u64 = 10_000_000;

/// The bytes that texts are made of, and some others.
const BYTES: &[u8] = b"0123456789=\nabcdefnetscrahvilowpkug \r#\0\xff";

/// The keys of all texts.
const KEYS: [&str; 26] = [
    "net", "scratch", "overrun", "links", "flows", "tunnels", "cap", "class", "rate", "next",
    "flow", "via", "old", "new", "plan", "parts", "steps", "at", "", "rules", "slack", "switches",
    "room", "kind", "unit", "held",
];

/// The lags that there are.
pub const LAGS: [u64; 4] = [1, 2, 3, 4];

/// A lag, mostly one that there is; else one beside these, or one whose lowest bits are one of them.
pub fn lag(rng: &mut Rng) -> u64 {
    match rng.below(20) {
        0 => rng.pick(&[0, 5]),
        1 => rng.pick(&[
            0,
            5,
            6,
            8,
            257,
            (1 << 32) + 1,
            (1 << 32) + 4,
            1 << 63,
            u64::MAX,
        ]),
        _ => rng.pick(&LAGS),
    }
}

/// A valid network of any size, of any edition.
pub fn network(rng: &mut Rng) -> Vec<u64> {
    network_at(rng, 1)
}

/// One whose capacities are mostly near what an even plan needs with this lag, or with lag 1 where there is
/// no such lag.
pub fn network_at(rng: &mut Rng, lag: u64) -> Vec<u64> {
    let lag = if LAGS.contains(&lag) { lag } else { 1 };
    match rng.below(20) {
        0..=4 => edition_1(rng, lag),
        // one that says the same in a later edition
        5 => to_edition(&edition_1(rng, lag), 2),
        6 => to_edition(&edition_1(rng, lag), 3),
        7..=11 => of_edition(rng, 2, lag),
        _ => edition_3(rng, lag),
    }
}

/// One of edition 1, the largest more often than `any_network` has them.
fn edition_1(rng: &mut Rng, lag: u64) -> Vec<u64> {
    match rng.below(50) {
        0 => maximal_of(rng, 1, lag),
        1..=20 => tiny_of(rng, 1, lag),
        21..=30 => of_edition(rng, 1, lag),
        _ => any_network(rng),
    }
}

/// One of edition 3, in the same sizes, and with `unit` 0 and 1: half of them with flows that have
/// several tunnels over the same links. Of some links a crew holds nothing, of some a little, of some
/// all.
pub fn edition_3(rng: &mut Rng, lag: u64) -> Vec<u64> {
    let mut list = match rng.below(50) {
        0..=1 => bundled(rng, lag, 64, 32, 96),
        2..=14 => {
            let (links, flows, tunnels) = (rng.between(1, 8), rng.between(1, 6), 16);
            bundled(rng, lag, links, flows, tunnels)
        }
        15..=25 => tiny_bundled(rng, lag),
        _ => of_edition(rng, 3, lag),
    };
    if rng.percent(30) {
        list[3] = 1;
    }
    if rng.percent(10) {
        hold_all(rng, &mut list);
    }
    list
}

/// One of an edition, in all sizes. From edition 2 on, of its flows that have tunnels some grow, some shrink
/// and some stay, and now and then one begins or ends: a rate of 0.
fn of_edition(rng: &mut Rng, edition: u64, lag: u64) -> Vec<u64> {
    let with_overrun = rng.percent(50);
    match rng.below(50) {
        0 => maximal_of(rng, edition, lag),
        1 => to_edition(&no_flows(rng), edition),
        2..=6 => full_of(rng, edition),
        7..=13 => keeping_scratch_of(rng, edition, with_overrun),
        14..=22 => medium_of(rng, edition, lag),
        _ => tiny_of(rng, edition, lag),
    }
}

/// A crew holds all of a link, whether it carries traffic or not.
fn hold_all(rng: &mut Rng, list: &mut [u64]) {
    let shape = Shape::of(list);
    let cap = shape.cap(rng.below(shape.links as u64) as usize);
    list[cap + 1] = list[cap];
}

/// Up to 3 links, 3 flows and 7 tunnels, of which every choice of flows can be tried.
pub fn tiny_bundled(rng: &mut Rng, lag: u64) -> Vec<u64> {
    let (links, flows, tunnels) = (rng.between(1, 3), rng.between(1, 3), rng.between(2, 7));
    bundled(rng, lag, links, flows, tunnels)
}

/// A network of edition 3 whose flows have several tunnels over the same links, between which they
/// shift their amounts, in up to so many tunnels. Most links have just what an even plan of some
/// number of steps needs with the lag by the network's `unit`, or one less, or what it needs by the other
/// `unit`; now and then one link alone, often the last, and the others have more.
fn bundled(rng: &mut Rng, lag: u64, links: u64, flows: u64, tunnels: u64) -> Vec<u64> {
    let top = rng.pick(&[4, 20, 1000, AMOUNT / 100]);
    let overrun = rng.pick(&[0, 0, 20, 100, 500]);
    let unit = u64::from(rng.percent(70));
    let all = u64::MAX >> (64 - links);
    let mut list = vec![3, rng.between(20, 500), overrun, unit, links, flows, 0];
    list.resize(list.len() + 2 * links as usize, 0);
    let mut lines = Vec::new();
    let classes: &[u64] = rng.pick(&[&[0, 1, 2], &[0, 2], &[0], &[2]]);
    for flow in 0..flows {
        let count = rng.between(0, (tunnels / flows + 1).min(tunnels - lines.len() as u64));
        let rate = if count == 0 { 0 } else { rng.below(top + 1) };
        let next = match rng.below(4) {
            _ if count == 0 => 0,
            0 => rng.below(top + 1),
            1 => (rate + rng.below(3)).saturating_sub(1).min(top),
            _ => rate,
        };
        list.extend([rng.pick(classes), rate, next]);
        if count == 0 {
            continue;
        }
        // all of the flow's tunnels cross one link, most of them others too
        let common = 1 << rng.below(links);
        let (old, new) = (
            spread(rng, rate, count as usize),
            spread(rng, next, count as usize),
        );
        for (old, new) in old.into_iter().zip(new) {
            let via = match rng.below(5) {
                0 => common,
                1 => (rng.any() & all).max(1),
                _ => common | (rng.any() & rng.any() & all),
            };
            lines.push([flow, via, old, new]);
        }
    }
    for last in (1..lines.len()).rev() {
        lines.swap(last, rng.below(last as u64 + 1) as usize);
    }
    list[6] = lines.len() as u64;
    list.extend(lines.concat());
    let shape = Shape::of(&list);
    let steps = rng.pick(&[1, 1, 2, 2, 3, 4, 7, 50]);
    let even = even_plan_by(&LANDED, &list, steps);
    let alone = match rng.below(6) {
        0 => Some(shape.links - 1),
        1 => Some(rng.below(links) as usize),
        _ => None,
    };
    for link in 0..shape.links {
        let of_unit = needed(&list, &even, link, lag, unit == 1);
        let cap = match rng.below(12) {
            _ if alone.is_some_and(|alone| alone != link) => 3 * of_unit,
            0..=6 => of_unit,
            7 => of_unit.saturating_sub(1),
            8..=9 => needed(&list, &even, link, lag, unit == 0),
            10 => of_unit + rng.below(3),
            _ => rng.below(2 * top + 1),
        };
        let cap = cap.min(AMOUNT);
        let held = match rng.below(6) {
            0..=1 => 0,
            2..=3 => rng.below(5),
            4 => rng.below(top + 1),
            _ => AMOUNT,
        };
        let held = held.min(AMOUNT - cap);
        let at = shape.cap(link);
        (list[at], list[at + 1]) = (cap + held, held);
    }
    list
}

/// A tunnel's amount in a row of the plan, counted in parts.
pub fn amount(network: &[u64], plan: &[u64], tunnel: usize, row: u64) -> u64 {
    let line = Shape::of(network).tunnel(tunnel);
    let (parts, steps) = (plan[1], plan[2]);
    if row == 0 {
        parts * network[line + 2]
    } else if row == steps {
        parts * network[line + 3]
    } else {
        plan[4 + ((row - 1) * plan[3]) as usize + tunnel]
    }
}

/// The least capacity of a link that a plan needs with a lag, by choices of flows or of tunnels.
fn needed(list: &[u64], plan: &[u64], link: usize, lag: u64, by_flows: bool) -> u64 {
    needed_first(list, plan, link, lag, by_flows).0
}

/// The same, and the first row of the first window that needs it.
fn needed_first(list: &[u64], plan: &[u64], link: usize, lag: u64, by_flows: bool) -> (u64, u64) {
    let shape = Shape::of(list);
    let (parts, steps) = (plan[1], plan[2]);
    let line = |t: usize| &list[shape.tunnel(t)..];
    let protected = |flow: u64| list[shape.class(flow as usize)] < 2;
    // of each tunnel or flow: whether it is protected, and what it has on the link in each row
    let mut movers = vec![(false, vec![0; steps as usize + 1]); shape.flows.max(shape.tunnels)];
    for t in (0..shape.tunnels).filter(|&t| (line(t)[1] >> link) & 1 == 1) {
        let mover = &mut movers[if by_flows { line(t)[0] as usize } else { t }];
        mover.0 = protected(line(t)[0]);
        for (row, sum) in mover.1.iter_mut().enumerate() {
            *sum += amount(list, plan, t, row as u64);
        }
    }
    let mut most = (0, 0);
    for first in 0..=steps.saturating_sub(lag) {
        let window = first as usize..=(first + lag).min(steps) as usize;
        let (mut protected, mut all) = (0, 0);
        for (of_protected, sums) in &movers {
            let worst = sums[window.clone()].iter().max().expect("a row");
            all += worst;
            protected += if *of_protected { *worst } else { 0 };
        }
        let with_overrun = (1000 * all).div_ceil((1000 + list[2]) * parts);
        let cap = protected.div_ceil(parts).max(with_overrun);
        if cap > most.0 {
            most = (cap, first);
        }
    }
    most
}

/// Gives every link just what the plan needs with this lag; mostly one link has one less, often the one that
/// needs it latest, and now and then the others have more. For a plan of the network.
fn fit(rng: &mut Rng, network: &mut [u64], plan: &[u64], lag: u64) {
    let shape = Shape::of(network);
    let needed = needed_on_links(network, plan, lag);
    let short = match rng.below(4) {
        0 => None,
        1 => Some(rng.below(shape.links as u64) as usize),
        _ => (0..shape.links).max_by_key(|&link| needed[link].1),
    };
    let more = rng.percent(50);
    for (link, (cap, _)) in needed.into_iter().enumerate() {
        let cap = match Some(link) == short {
            true => cap.saturating_sub(1),
            false if more => 3 * cap,
            false => cap,
        };
        give(network, link, cap);
    }
}

/// For each link what a plan needs with a lag, and the first row of the first window that needs it.
fn needed_on_links(network: &[u64], plan: &[u64], lag: u64) -> Vec<(u64, u64)> {
    let shape = Shape::of(network);
    (0..shape.links)
        .map(|link| needed_first(network, plan, link, lag, shape.unit))
        .collect()
}

/// Gives a link this capacity, as far as one goes, beside what is held of it.
fn give(network: &mut [u64], link: usize, cap: u64) {
    let shape = Shape::of(network);
    let at = shape.cap(link);
    network[at] = cap.min(AMOUNT);
    if shape.edition == 3 {
        network[at + 1] = network[at + 1].min(AMOUNT - network[at]);
        network[at] += network[at + 1];
    }
}

/// What an answer is counted by: the edition of the network, and in edition 3 whether its `unit` is 1.
pub const EDITIONS: [&str; 4] = ["edition 1", "edition 2", "edition 3", "edition 3, unit 1"];

/// The edition that a list is judged by, if there is one.
pub fn edition_of_list(list: &[u64]) -> Option<&'static str> {
    edition(list.first().copied(), list.get(3).copied())
}

/// The edition that a text is judged by, if there is one: what its first line that is no remark says,
/// and its fourth.
pub fn edition_of_text(text: &[u8]) -> Option<&'static str> {
    let mut lines = text
        .split_inclusive(|&byte| byte == b'\n')
        .filter(|line| line[0] != b'#');
    let net = match lines.next()? {
        [b'n', b'e', b't', b'=', digit @ b'0'..=b'9', b'\n'] => Some(u64::from(digit - b'0')),
        _ => None,
    };
    edition(net, (lines.nth(2) == Some(b"unit=1\n")).then_some(1))
}

fn edition(net: Option<u64>, unit: Option<u64>) -> Option<&'static str> {
    match net? {
        3 if unit == Some(1) => Some(EDITIONS[3]),
        net @ 1..=3 => Some(EDITIONS[net as usize - 1]),
        _ => None,
    }
}

/// A valid plan list, for this network or for none.
fn plan_list(rng: &mut Rng, network: &[u64]) -> Vec<u64> {
    match rng.below(200) {
        0 => longest_plan(rng),
        1..=20 => stray_plan(rng),
        21..=50 => broken_plan(rng, network),
        51..=65 => at_an_end(rng, network),
        _ => any_plan(rng, network),
    }
}

/// An amount cut into so many, at least one.
fn spread(rng: &mut Rng, amount: u64, count: usize) -> Vec<u64> {
    let mut all = vec![0; count];
    let mut left = amount;
    for _ in 0..rng.below(count as u64) {
        let some = rng.below(left + 1);
        all[rng.below(count as u64) as usize] += some;
        left -= some;
    }
    all[rng.below(count as u64) as usize] += left;
    all
}

/// A plan with a flow's sum in a listed row at an end of what it may be, or one beside it: parts x
/// the lesser of its two rates, parts x the greater. In more than one row now and then.
fn at_an_end(rng: &mut Rng, network: &[u64]) -> Vec<u64> {
    let shape = Shape::of(network);
    let (parts, steps) = (rng.between(1, 4), rng.between(2, 6));
    let mut plan = plan_like(rng, network, parts, steps);
    if shape.tunnels == 0 {
        return plan;
    }
    let flow_of = |t: usize| network[shape.tunnel(t)];
    for _ in 0..rng.pick(&[1, 1, 1, 2, 3]) {
        let flow = flow_of(rng.below(shape.tunnels as u64) as usize);
        let mine: Vec<usize> = (0..shape.tunnels).filter(|&t| flow_of(t) == flow).collect();
        let rates = [shape.rate(flow as usize), shape.next(flow as usize)].map(|at| network[at]);
        let least = parts * rates[0].min(rates[1]);
        let most = parts * rates[0].max(rates[1]);
        let sum = match rng.below(4) {
            0 => least,
            1 => most,
            2 => least.saturating_sub(1),
            // a tunnel's amount stays in its range
            _ => (most + 1).min(parts * AMOUNT),
        };
        let row = 4 + (rng.below(steps - 1) * plan[3]) as usize;
        for (t, amount) in mine.iter().zip(spread(rng, sum, mine.len())) {
            plan[row + t] = amount;
        }
    }
    plan
}

/// A list changed by one damage or more, cut anywhere, far too long, or of random numbers.
fn damaged(rng: &mut Rng, list: &[u64]) -> Vec<u64> {
    match rng.below(100) {
        0..=59 => damage_list(rng, list),
        60..=79 => {
            let once = damage_list(rng, list);
            damage_list(rng, &once)
        }
        80..=88 => list[..rng.below(list.len() as u64 + 1) as usize].to_vec(),
        89 => {
            let more = rng.between(1, 6000) as usize;
            [list, &vec![rng.below(3); more]].concat()
        }
        _ => (0..rng.below(40))
            .map(|_| rng.any() >> rng.below(64))
            .collect(),
    }
}

/// A network's list, two in five valid.
pub fn any_network_list(rng: &mut Rng, lag: u64) -> Vec<u64> {
    let list = network_at(rng, lag);
    match rng.below(20) {
        0..=7 => list,
        8..=10 => off_rate(rng, list),
        11 => off_held(rng, list),
        12..=13 => off_edition(rng, list),
        _ => damaged(rng, &list),
    }
}

/// A plan's list, two in five valid.
pub fn any_plan_list(rng: &mut Rng) -> Vec<u64> {
    let network = network(rng);
    let list = plan_list(rng, &network);
    match rng.below(5) {
        0..=1 => list,
        _ => damaged(rng, &list),
    }
}

/// A network with one `rate`, `next`, `old` or `new` off by one or a little, in its range or just out
/// of it; or with a flow's `rate` and `next` changed over, so that its old amounts add up to `next`.
fn off_rate(rng: &mut Rng, mut list: Vec<u64>) -> Vec<u64> {
    let shape = Shape::of(&list);
    if shape.flows > 0 && rng.percent(15) {
        let flow = rng.below(shape.flows as u64) as usize;
        list.swap(shape.rate(flow), shape.next(flow));
        return list;
    }
    let mut places = Vec::new();
    for f in 0..shape.flows {
        places.extend([shape.rate(f), shape.next(f)]);
    }
    for t in 0..shape.tunnels {
        places.extend([shape.tunnel(t) + 2, shape.tunnel(t) + 3]);
    }
    if places.is_empty() {
        return list;
    }
    let at = rng.pick(&places);
    list[at] = match rng.below(12) {
        0..=3 => (list[at] + 1).min(AMOUNT),
        4..=7 => list[at].saturating_sub(1),
        8 => rng.pick(&[AMOUNT, AMOUNT + 1]),
        _ => rng.below(AMOUNT + 1),
    };
    list
}

/// A network with the `net` of another edition or of none, the other numbers as they are: there are
/// then numbers too many or too few.
fn off_edition(rng: &mut Rng, mut list: Vec<u64>) -> Vec<u64> {
    list[0] = match rng.below(3) {
        0 => rng.pick(&[0, 4, 5, 10, (1 << 32) + 3, 9_999_999_999, 1 << 63, u64::MAX]),
        _ => 1 + (list[0] + rng.below(2)) % 3,
    };
    list
}

/// A network of edition 3 with a `held` above its `cap`, by one or by far, or just not above it, or with
/// a `unit` that is none. Of another edition, as it is.
fn off_held(rng: &mut Rng, mut list: Vec<u64>) -> Vec<u64> {
    let shape = Shape::of(&list);
    if shape.edition != 3 {
        return list;
    }
    if rng.percent(20) {
        list[3] = rng.pick(&[2, 3, 10, 1 << 32, (1 << 32) + 1, 1 << 63, u64::MAX]);
        return list;
    }
    let cap = shape.cap(rng.below(shape.links as u64) as usize);
    match rng.below(8) {
        0..=2 => list[cap + 1] = list[cap] + 1,
        3 => list[cap + 1] = list[cap],
        4 => list[cap + 1] = list[cap] + rng.pick(&[2, 1000, 1 << 32, 1 << 63]),
        5 => list[cap + 1] = rng.pick(&[AMOUNT, AMOUNT + 1, 9_999_999_999, u64::MAX]),
        // of the link before it, or after it, all could be held
        6 => list[cap + 1] = list[shape.cap(rng.below(shape.links as u64) as usize)],
        _ => list[cap] = list[cap + 1].saturating_sub(1),
    }
    list
}

/// A network and a plan, mostly both valid and mostly made for each other, the capacities often for the plan
/// and this lag.
pub fn pair(rng: &mut Rng, lag: u64) -> (Vec<u64>, Vec<u64>) {
    let mut network = network_at(rng, lag);
    let plan = match rng.below(20) {
        0..=1 => stray_plan(rng),
        2..=4 => broken_plan(rng, &network),
        5..=7 => at_an_end(rng, &network),
        8..=9 => any_even_plan(rng, &network),
        10..=14 => any_plan(rng, &network),
        _ => {
            let plan = any_plan(rng, &network);
            fit(rng, &mut network, &plan, lag.clamp(1, 4));
            plan
        }
    };
    match rng.below(40) {
        0..=1 => (damaged(rng, &network), plan),
        2..=5 => {
            let damaged = damaged(rng, &plan);
            (network, damaged)
        }
        6..=7 => (damaged(rng, &network), damaged(rng, &plan)),
        8..=9 => (off_rate(rng, network), plan),
        10 => (off_edition(rng, network), plan),
        11 => (off_held(rng, network), plan),
        _ => (network, plan),
    }
}

/// A network, a plan and a step: a pair as for the checker, or one that is mostly accepted, every link having what
/// the plan needs or more; now and then no network.
pub fn step_of_plan(rng: &mut Rng) -> (Vec<u64>, Vec<u64>, u64) {
    let (network, plan) = match rng.below(200) {
        0 => (Vec::new(), any_plan_list(rng)),
        1..=99 => pair(rng, 1),
        _ => {
            let mut network = network(rng);
            let plan = any_plan(rng, &network);
            let needed = needed_on_links(&network, &plan, 1);
            for (link, (cap, _)) in needed.into_iter().enumerate() {
                let more = rng.pick(&[0, 0, 1, cap, AMOUNT]);
                give(&mut network, link, cap + more);
            }
            (network, plan)
        }
    };
    let step = step(rng, &plan);
    (network, plan, step)
}

/// A step, mostly one that the plan has, the first and the last more often than others; else one beside
/// these, or one whose lowest bits are one of them.
fn step(rng: &mut Rng, plan: &[u64]) -> u64 {
    let steps = plan.get(2).map_or(1, |&steps| steps.clamp(1, 50));
    match rng.below(20) {
        0..=1 => 0,
        2 => steps + 1,
        3 => rng.pick(&[
            51,
            256 + steps,
            (1 << 32) + 1,
            (1 << 32) + steps,
            1 << 63,
            u64::MAX,
        ]),
        4..=6 => 1,
        7..=9 => steps,
        _ => rng.between(1, steps),
    }
}

/// How many bytes a page of a network has, by the counts of a list that need not be one.
pub fn page_bytes(list: &[u64]) -> usize {
    let counts = if list.first() == Some(&3) { 4 } else { 3 };
    let count = |at: usize, most: u64| list.get(at).map_or(0, |&count| count.min(most)) as usize;
    43 * (2 + count(counts, 64) + count(counts + 2, 96))
}

/// What a text reader may meet: a text with remarks or without, then damaged, then with remarks that may be out of order.
fn any_text(rng: &mut Rng, text: Vec<u8>, other: Vec<u8>) -> Vec<u8> {
    let text = match rng.below(4) {
        0 => remarked_text(rng, &text),
        _ => text,
    };
    let text = damaged_text(rng, text, other);
    match rng.below(8) {
        0 => remarked_text(rng, &text),
        1 => damaged_remarks(rng, &text),
        _ => text,
    }
}

/// The text, or one damaged, cut anywhere, far too long, or of random bytes.
fn damaged_text(rng: &mut Rng, text: Vec<u8>, other: Vec<u8>) -> Vec<u8> {
    if rng.below(500) == 0 {
        return too_long(rng, text);
    }
    match rng.below(20) {
        0..=5 => text,
        6..=12 => damage_text(rng, &text),
        13..=14 => {
            let once = damage_text(rng, &text);
            damage_text(rng, &once)
        }
        15..=16 => text[..rng.below(text.len() as u64 + 1) as usize].to_vec(),
        17 => random_bytes(rng),
        18 => random_lines(rng),
        _ => match rng.below(3) {
            0 => other,
            1 => [text, other].concat(),
            _ => {
                let at = rng.below(text.len() as u64 + 1) as usize;
                [&text[..at], &random_bytes(rng)].concat()
            }
        },
    }
}

/// A text that goes on, in one line or in many, for more than 65,536 bytes.
pub fn too_long(rng: &mut Rng, text: Vec<u8>) -> Vec<u8> {
    let more = match rng.below(6) {
        0 => b"9".repeat(70_000),
        1 => b"\n".repeat(70_000),
        2 => b"at=1\n".repeat(14_000),
        3 => b"#\n".repeat(35_000),
        4 => b"#".repeat(70_000),
        _ => b"cap=0\n".repeat(14_000),
    };
    let at = rng.below(text.len() as u64 + 1) as usize;
    let at = if rng.percent(50) { at } else { text.len() };
    [&text[..at], &more, &text[at..]].concat()
}

fn random_bytes(rng: &mut Rng) -> Vec<u8> {
    let length = rng.below(80);
    if rng.percent(50) {
        (0..length).map(|_| rng.below(256) as u8).collect()
    } else {
        (0..length).map(|_| rng.pick(BYTES)).collect()
    }
}

/// Lines in some order, each mostly in its form.
fn random_lines(rng: &mut Rng) -> Vec<u8> {
    let mut text = String::new();
    for _ in 0..rng.below(30) {
        let key = rng.pick(&KEYS);
        text += key;
        text += "=";
        text += &match key {
            "via" => format!("{:016x}", rng.any() >> rng.below(64)),
            "net" => rng.between(1, 3).to_string(),
            "unit" => rng.below(2).to_string(),
            "plan" | "rules" => "1".to_string(),
            _ => (rng.any() >> rng.between(20, 63)).to_string(),
        };
        text += "\n";
    }
    text.into_bytes()
}

/// What a network text reader may meet.
pub fn network_text(rng: &mut Rng) -> Vec<u8> {
    let list = network(rng);
    let shape = Shape::of(&list);
    let plan = any_plan(rng, &list);
    let other = write_plan(&plan, ROOM).expect("a valid plan");
    // now and then amounts that miss a rate, more held than there is, or another edition: lines that the
    // writer refuses
    let text = match rng.below(20) {
        0..=1 => lines(&off_rate(rng, list), shape),
        2 => lines(&off_held(rng, list), shape),
        3..=4 => lines(&off_edition(rng, list), shape),
        _ => written(&list),
    };
    any_text(rng, text, other)
}

/// What a plan text reader may meet.
pub fn plan_text(rng: &mut Rng) -> Vec<u8> {
    let network = network(rng);
    let plan = plan_list(rng, &network);
    let text = write_plan(&plan, ROOM).expect("a valid plan");
    let other = written(&network);
    any_text(rng, text, other)
}

/// The text of a valid network.
pub fn written(network: &[u64]) -> Vec<u8> {
    write_network_by(&LANDED, network, ROOM).expect("a valid network")
}

/// The lines of a list that has this shape, whatever its numbers are.
pub fn lines(list: &[u64], shape: Shape) -> Vec<u8> {
    let mut keys = vec!["net", "scratch", "overrun"];
    if shape.edition == 3 {
        keys.push("unit");
    }
    keys.extend(["links", "flows", "tunnels"]);
    let link: &[&str] = match shape.edition {
        3 => &["cap", "held"],
        _ => &["cap"],
    };
    let flow: &[&str] = match shape.edition {
        1 => &["class", "rate"],
        _ => &["class", "rate", "next"],
    };
    keys.extend(link.repeat(shape.links));
    keys.extend(flow.repeat(shape.flows));
    keys.extend(["flow", "via", "old", "new"].repeat(shape.tunnels));
    assert_eq!(keys.len(), list.len());
    let lines = keys.into_iter().zip(list);
    let lines = lines.map(|(key, number)| match key {
        "via" => format!("{key}={number:016x}\n"),
        _ => format!("{key}={number}\n"),
    });
    lines.collect::<String>().into_bytes()
}

/// A number for the step bound: an end of a range, beside one, in it, or any.
pub fn share(rng: &mut Rng) -> u64 {
    match rng.below(4) {
        0 => rng.pick(&[0, 1, 18, 19, 20, 21, 499, 500, 501, 1000, 1 << 63, u64::MAX]),
        1..=2 => rng.between(0, 520),
        _ => rng.any() >> rng.below(64),
    }
}

/// Demands of which the level meets one after the other: what the rate leaves to the unmet, shared
/// evenly, meets just one more each time, until it rises by less than 1. In any order.
fn stairs(rng: &mut Rng, rate: u64) -> Vec<u64> {
    let count = rng.between(2, 16);
    let mut demands = Vec::new();
    let (mut met, mut level) = (0, 0);
    for unmet in (2..=count).rev() {
        let next = (rate - met) / unmet;
        let demand = rng.between(level.min(next), next);
        demands.push(demand);
        met += demand;
        level = next + 1;
    }
    demands.push(rng.pick(&[level, 10_000_000]));
    for last in (1..demands.len()).rev() {
        demands.swap(last, rng.below(last as u64 + 1) as usize);
    }
    demands
}

/// A rate and demands: around the edge where each is met, with something out of range, or met one
/// after the other.
pub fn sharing(rng: &mut Rng) -> (u64, Vec<u64>) {
    match rng.below(10) {
        0..=4 => services(rng),
        5..=7 => damaged_services(rng),
        _ => {
            let most = rng.pick(&[100, 10_000, 10_000_000]);
            let rate = rng.below(most + 1);
            (rate, stairs(rng, rate))
        }
    }
}

/// Where the lines of the tunnels begin in a list of rule tables.
fn tunnels_at(list: &[u64]) -> usize {
    4 + list[2] as usize
}

/// The rules at a switch of the tunnels kept and of those of another kind.
fn set(list: &[u64], switch: usize, other: u64) -> u64 {
    list[tunnels_at(list)..]
        .chunks(2)
        .filter(|line| (line[0] >> switch) & 1 == 1 && (line[1] == 1 || line[1] == other))
        .count() as u64
}

/// Valid rule tables of which every set just fits: each room is the least that does.
fn tight_tables(rng: &mut Rng) -> Vec<u64> {
    let (switches, tunnels) = match rng.below(40) {
        0 => (64, 96),
        1..=3 => (64, rng.between(0, 12)),
        4..=5 => (rng.between(1, 3), 96),
        _ => (rng.between(1, 5), rng.between(0, 20)),
    };
    let slack = match rng.below(4) {
        0 => rng.pick(&[20, 500]),
        1 => rng.pick(&[21, 50, 100, 111, 200, 250, 333, 334, 499]),
        _ => rng.between(20, 500),
    };
    let all = u64::MAX >> (64 - switches);
    let mut list = vec![1, slack, switches, tunnels];
    list.resize(tunnels_at(&list), 0);
    let kinds: &[u64] = rng.pick(&[&[1, 2, 3], &[2, 3], &[2], &[3], &[1]]);
    for _ in 0..tunnels {
        let via = match rng.below(6) {
            0 => all,
            1 => 1 << (switches - 1),
            2 => 1 | 1 << (switches - 1),
            3 => (rng.any() & all).max(1),
            _ => 1 << rng.below(switches),
        };
        list.extend([via, rng.pick(kinds)]);
    }
    for switch in 0..switches as usize {
        let larger = set(&list, switch, 2).max(set(&list, switch, 3));
        list[4 + switch] = (1000 * larger).div_ceil(1000 - slack);
    }
    list
}

/// Valid rule tables: as the second implementation makes them, or with every set just fitting, or
/// with one that just does not.
pub fn rule_tables(rng: &mut Rng) -> Vec<u64> {
    match rng.below(8) {
        0..=2 => rules_list(rng),
        3..=5 => tight_tables(rng),
        6 => {
            let mut list = tight_tables(rng);
            let room = 4 + rng.below(list[2]) as usize;
            list[room] = list[room].saturating_sub(1);
            list
        }
        // more room than rules
        _ => {
            let mut list = tight_tables(rng);
            let room = 4 + rng.below(list[2]) as usize;
            list[room] = rng.pick(&[list[room] + 1, 97, 65_534, 65_535]);
            list
        }
    }
}

/// Rule tables with one number beside its range.
fn off_range(rng: &mut Rng, mut list: Vec<u64>) -> Vec<u64> {
    let tunnels = tunnels_at(&list);
    let beyond = if list[2] < 64 { 1 << list[2] } else { 0 };
    let at = match rng.below(3) {
        0 => rng.below(4) as usize,
        _ => rng.below(list.len() as u64) as usize,
    };
    list[at] = match at {
        0 => rng.pick(&[0, 2, 3]),
        1 => rng.pick(&[0, 19, 501, 1000]),
        2 => rng.pick(&[0, 65]),
        3 => 97,
        _ if at < tunnels => rng.pick(&[65_536, 65_537, 9_999_999_999]),
        _ if (at - tunnels) % 2 == 1 => rng.pick(&[0, 4]),
        _ => rng.pick(&[0, beyond, beyond | list[at]]),
    };
    list
}

/// A list of rule tables, half of them valid.
pub fn any_rules_list(rng: &mut Rng) -> Vec<u64> {
    let list = rule_tables(rng);
    match rng.below(10) {
        0..=4 => list,
        5..=6 => off_range(rng, list),
        _ => damaged(rng, &list),
    }
}

/// What a rules text reader may meet.
pub fn rules_text(rng: &mut Rng) -> Vec<u8> {
    let list = rule_tables(rng);
    let other = match rng.below(2) {
        0 => written(&network(rng)),
        _ => write_rules(&rule_tables(rng), ROOM).expect("valid rule tables"),
    };
    // now and then a value beside its range, in lines that the writer refuses
    let text = if rng.percent(15) {
        let switches = list[2] as usize;
        rules_lines(&off_range(rng, list), switches)
    } else {
        write_rules(&list, ROOM).expect("valid rule tables")
    };
    let text = damaged_text(rng, text, other);
    match rng.below(16) {
        0 => remarked_text(rng, &text),
        1 => [&text[..], b"# no remarks here\n"].concat(),
        _ => text,
    }
}

/// The lines of a list that has the shape of rule tables with so many switches.
fn rules_lines(list: &[u64], switches: usize) -> Vec<u8> {
    let mut text = String::new();
    for (i, number) in list.iter().enumerate() {
        text += &match i {
            0..=3 => format!(
                "{}={number}\n",
                ["rules", "slack", "switches", "tunnels"][i]
            ),
            _ if i < 4 + switches => format!("room={number}\n"),
            _ if (i - switches) % 2 == 1 => format!("kind={number}\n"),
            _ => format!("via={number:016x}\n"),
        };
    }
    text.into_bytes()
}

#[cfg(test)]
mod tests {
    use super::*;
    use second::{check_plan_by, check_plan_lag, Checked};

    /// All editions come up, in all sizes; of the flows of editions 2 and 3 those that grow, shrink and
    /// stay, that begin and end, and that have no tunnels.
    #[test]
    fn kinds_of_networks() {
        let mut rng = Rng::new(10);
        let mut first = 0;
        let mut seen = [[0; 6]; 3];
        let mut sizes = [0; 4];
        for _ in 0..4000 {
            let list = network(&mut rng);
            let shape = Shape::of(&list);
            let kind = shape.edition as usize - 1 + usize::from(shape.unit);
            assert_eq!(edition_of_list(&list), Some(EDITIONS[kind]));
            assert_eq!(edition_of_text(&written(&list)), Some(EDITIONS[kind]));
            sizes[kind] += u64::from(shape.tunnels > 60 && shape.links == 64);
            if shape.edition == 1 {
                first += 1;
                continue;
            }
            let seen = &mut seen[kind - 1];
            for f in 0..shape.flows {
                match (list[shape.rate(f)], list[shape.next(f)]) {
                    (0, 0) => seen[0] += 1,
                    (0, _) => seen[1] += 1,
                    (_, 0) => seen[2] += 1,
                    (rate, next) if rate < next => seen[3] += 1,
                    (rate, next) if rate > next => seen[4] += 1,
                    _ => seen[5] += 1,
                }
            }
        }
        assert!(first > 100);
        assert!(seen.concat().iter().all(|&count| count > 50), "{seen:?}");
        assert!(sizes.iter().all(|&count| count > 0), "{sizes:?}");
    }

    /// Of a link nothing is held, a little, most, and all of it, where it carries traffic and where it
    /// does not; with `unit` 0 and 1.
    #[test]
    fn kinds_of_held() {
        let mut rng = Rng::new(15);
        let mut seen = [[0; 6]; 2];
        for _ in 0..4000 {
            let list = edition_3(&mut rng, 1);
            let shape = Shape::of(&list);
            let at_once = [1, 1, 1, shape.tunnels as u64];
            for link in 0..shape.links {
                let (cap, held) = (list[shape.cap(link)], list[shape.cap(link) + 1]);
                assert!(held <= cap);
                let carries = needed(&list, &at_once, link, 1, shape.unit) > 0;
                let kind = match (held, cap - held) {
                    (0, 0) => 0,
                    (0, _) => 1,
                    (_, 0) if carries => 2,
                    (_, 0) => 3,
                    (_, left) if held < left => 4,
                    _ => 5,
                };
                seen[usize::from(shape.unit)][kind] += 1;
            }
        }
        assert!(seen.concat().iter().all(|&count| count > 50), "{seen:?}");
    }

    /// With `unit` 1 it is common that several tunnels of a flow cross the same link, and that one
    /// rises while another falls; and that choices of flows and of tunnels get other verdicts, or other
    /// marks after the same.
    #[test]
    fn flows_and_tunnels_differ() {
        let mut rng = Rng::new(16);
        let (mut several, mut against) = (0, 0);
        let mut verdicts = [0; 4];
        for _ in 0..2000 {
            let network = with_unit(&edition_3(&mut rng, 1), 1);
            let shape = Shape::of(&network);
            let mut common = [false; 2];
            for (link, flow) in (0..shape.links).flat_map(|l| (0..shape.flows).map(move |f| (l, f)))
            {
                let lines = network[shape.tunnel(0)..].chunks(4);
                let mine = lines.filter(|line| line[0] == flow as u64 && line[1] >> link & 1 == 1);
                let mine: Vec<_> = mine.collect();
                let rises = mine.iter().any(|line| line[2] < line[3]);
                let falls = mine.iter().any(|line| line[2] > line[3]);
                common[0] |= mine.len() > 1;
                common[1] |= rises && falls;
            }
            several += u64::from(common[0]);
            against += u64::from(common[1]);
            let plan = any_plan(&mut rng, &network);
            let by_flows = check_plan_by(&LANDED, &network, &plan, ROOM);
            let by_tunnels = check_plan_by(&LANDED, &with_unit(&network, 0), &plan, ROOM);
            verdicts[match (by_flows, by_tunnels) {
                (Checked::Accepted { .. }, Checked::Accepted { .. }) => 0,
                (Checked::Accepted { .. }, _) => 1,
                (one, other) if one == other => 2,
                _ => 3,
            }] += 1;
        }
        assert!(several > 1000 && against > 800, "{several} {against}");
        assert!(verdicts.iter().all(|&count| count > 100), "{verdicts:?}");
    }

    /// Whether a plan passes with a lag.
    fn passes(network: &[u64], plan: &[u64], lag: u64) -> bool {
        let checked = check_plan_lag(&LANDED, network, plan, lag, ROOM);
        matches!(checked, Checked::Accepted { .. })
    }

    /// A link has just what the plan needs with the lag: one less, and the plan is refused. By flows and by
    /// tunnels, for even plans and any others.
    #[test]
    fn just_what_is_needed() {
        let mut rng = Rng::new(17);
        let mut seen = [0; 4];
        for i in 0..2000 {
            let lag = LAGS[i % 4];
            let mut list = with_unit(&tiny_bundled(&mut rng, lag), i as u64 / 4 % 2);
            let shape = Shape::of(&list);
            let plan = match i / 8 % 2 {
                0 => even_plan_by(&LANDED, &list, 1 + i as u64 % 7),
                _ => any_plan(&mut rng, &list),
            };
            for link in 0..shape.links {
                list[shape.cap(link)] = needed(&list, &plan, link, lag, shape.unit);
                list[shape.cap(link) + 1] = 0;
            }
            assert!(passes(&list, &plan, lag), "{list:?} {plan:?}");
            for cap in (0..shape.links).map(|link| shape.cap(link)) {
                if list[cap] > 0 {
                    seen[i % 4] += 1;
                    let mut less = list.clone();
                    less[cap] -= 1;
                    assert!(!passes(&less, &plan, lag), "{less:?} {plan:?}");
                    // and so if a crew holds it
                    let mut held = list.clone();
                    held[cap + 1] = 1;
                    assert!(!passes(&held, &plan, lag), "{held:?} {plan:?}");
                }
            }
        }
        assert!(seen.iter().all(|&count| count > 500), "{seen:?}");
    }

    /// All lags come up, and lags that there are not. It is common that a plan passes with its lag and not with
    /// one more, that it passes with one less alone, and that the first overload is in the first window, in
    /// the last, and between; that a plan has fewer steps than the lag, as many, and more; and that the largest
    /// of a marked tunnel or flow is in the last row of the window, and that it is before.
    #[test]
    fn kinds_of_lags() {
        let mut rng = Rng::new(19);
        let mut lags = [0; 6];
        let mut none = [0; 3];
        let mut verdicts = [[0; 5]; 4];
        let mut lengths = [[0; 3]; 3];
        let mut largest = [[0; 2]; 6];
        for _ in 0..20_000 {
            let lag = lag(&mut rng);
            lags[lag.min(5) as usize] += 1;
            none[0] += u64::from(lag == 5);
            none[1] += u64::from(lag > 5 && lag < 1 << 32);
            none[2] += u64::from(lag > 1 << 32);
            let (network, plan) = pair(&mut rng, lag);
            let (number, place, link, marks) =
                match check_plan_lag(&LANDED, &network, &plan, lag, ROOM) {
                    Checked::Accepted { .. } => (0, 0, 0, Vec::new()),
                    Checked::Refused { refusal, marks } => {
                        let marks = marks.unwrap_or_default();
                        (refusal.number, refusal.place, refusal.second, marks)
                    }
                };
            if !matches!(number, 0 | 7 | 8) {
                continue;
            }
            let steps = plan[2];
            let last = steps.saturating_sub(lag) + 1;
            let seen = &mut verdicts[lag as usize - 1];
            match number {
                0 => seen[0] += u64::from(lag == 4 || !passes(&network, &plan, lag + 1)),
                _ => seen[1] += u64::from(lag == 1 || passes(&network, &plan, lag - 1)),
            }
            if number > 0 && last > 2 {
                seen[2] += u64::from(place == 1);
                seen[3] += u64::from(place > 1 && place < last);
                seen[4] += u64::from(place == last);
            }
            if lag == 1 {
                continue;
            }
            let length = match steps.cmp(&lag) {
                std::cmp::Ordering::Less => 0,
                std::cmp::Ordering::Equal => 1,
                std::cmp::Ordering::Greater => 2,
            };
            lengths[lag as usize - 2][length] += 1;
            let shape = Shape::of(&network);
            let flow = |t: usize| network[shape.tunnel(t)];
            let crosses = |t: usize| (network[shape.tunnel(t) + 1] >> link) & 1 == 1;
            for t in (0..marks.len()).filter(|&t| marks[t] == 1) {
                let sum = |row| -> u64 {
                    let with_it = (0..shape.tunnels)
                        .filter(|&u| crosses(u) && (t == u || shape.unit && flow(t) == flow(u)));
                    with_it.map(|u| amount(&network, &plan, u, row)).sum()
                };
                let window = place - 1..=(place - 1 + lag).min(steps);
                let most = window.clone().map(sum).max().expect("a row");
                let kind = 3 * usize::from(shape.unit) + lag as usize - 2;
                largest[kind][usize::from(sum(*window.end()) == most)] += 1;
            }
        }
        assert!(lags.iter().all(|&count| count > 500), "{lags:?}");
        assert!(none.iter().all(|&count| count > 200), "{none:?}");
        assert!(
            verdicts.concat().iter().all(|&count| count > 25),
            "{verdicts:?}"
        );
        assert!(
            lengths.concat().iter().all(|&count| count > 100),
            "{lengths:?}"
        );
        assert!(
            largest.concat().iter().all(|&count| count > 100),
            "{largest:?}"
        );
    }

    /// Most pages are asked for of an accepted plan, and most of these of a step that it has: the first, the last
    /// and those between. It is common that on a page choices of tunnels come to more than those of flows, that
    /// on one link the earlier row has more and on another the later, that there is background traffic, and that
    /// some capacity is held; every column has numbers of few digits and of many.
    #[test]
    fn kinds_of_pages() {
        let mut rng = Rng::new(20);
        let (mut pages, mut refused) = (0, [0; 3]);
        let mut steps = [0; 4];
        let mut loads = [0; 6];
        let mut held = [0; 2];
        let mut widths = [[0; 11]; 10];
        for _ in 0..10_000 {
            let (network, plan, step) = step_of_plan(&mut rng);
            match second::page(&LANDED, &network, &plan, step, ROOM) {
                Ok(page) => {
                    pages += 1;
                    assert_eq!(page.len(), page_bytes(&network));
                    let lines = page.chunks(43).enumerate();
                    let of_links = Shape::of(&network).links;
                    for (line, numbers) in lines.filter(|&(at, _)| at != 0 && at != of_links + 1) {
                        for (column, end) in [6, 12, 22, 32, 42].into_iter().enumerate() {
                            let digits = numbers[..end].iter().rev();
                            let width = digits.take_while(|byte| byte.is_ascii_digit()).count();
                            widths[column + if line > of_links { 5 } else { 0 }][width] += 1;
                        }
                    }
                }
                Err(refusal) => {
                    refused[match refusal.number {
                        11 => 0,
                        7 | 8 => 1,
                        _ => 2,
                    }] += 1;
                    continue;
                }
            }
            steps[match step {
                _ if plan[2] == 1 => 0,
                1 => 1,
                _ if step == plan[2] => 2,
                _ => 3,
            }] += 1;
            let shape = Shape::of(&network);
            let worst = |network: &[u64], plan: &[u64], step: u64| {
                second::rule_loads(&LANDED, network, plan, 1, step as usize)
            };
            let of_step = worst(&network, &plan, step);
            if shape.unit {
                let by_tunnels = worst(&with_unit(&network, 0), &plan, step);
                loads[0] += u64::from(of_step != by_tunnels);
            }
            let row = |link: usize, row: u64| -> u64 {
                let lines = network[shape.tunnel(0)..].chunks(4).enumerate();
                let across = lines.filter(|(_, line)| line[1] >> link & 1 == 1);
                across.map(|(t, _)| amount(&network, &plan, t, row)).sum()
            };
            let (mut rises, mut falls) = (false, false);
            for (link, &(protected, all)) in of_step.iter().enumerate() {
                let rows = [row(link, step - 1), row(link, step)].map(u128::from);
                rises |= rows[0] < rows[1];
                falls |= rows[0] > rows[1];
                loads[1] += u64::from(all > rows[0] && all > rows[1]);
                loads[2] += u64::from(0 < protected && protected < all);
            }
            loads[3] += u64::from(rises && falls);
            loads[4] += u64::from(rises && !falls);
            loads[5] += u64::from(falls && !rises);
            if shape.edition == 3 {
                let some = (0..shape.links).any(|link| network[shape.cap(link) + 1] > 0);
                held[usize::from(some)] += 1;
            }
        }
        assert!(pages > 4000, "{pages}");
        assert!(refused.iter().all(|&count| count > 500), "{refused:?}");
        assert!(steps.iter().all(|&count| count > 300), "{steps:?}");
        assert!(loads.iter().all(|&count| count > 300), "{loads:?}");
        assert!(held.iter().all(|&count| count > 100), "{held:?}");
        // the most digits that a column's numbers can have, and one; a load can have nine
        for (column, most) in [2, 2, 9, 9, 9, 2, 2, 2, 8, 8].into_iter().enumerate() {
            let seen = widths[column];
            assert!(seen[1] > 0 && seen[most] > 0, "{column}: {seen:?}");
            assert!(seen[0] == 0 && seen[most + 1..].iter().all(|&count| count == 0));
        }
    }

    /// What tells the edition of a text, and what does not.
    #[test]
    fn editions_of_texts() {
        for (text, edition) in [
            (&b"net=1\n"[..], Some("edition 1")),
            (b"net=2\n", Some("edition 2")),
            (b"# net=1\n#\nnet=2\nscratch", Some("edition 2")),
            (b"net=3\n", Some("edition 3")),
            (b"net=3\nscratch=20\noverrun=0\nunit=0\n", Some("edition 3")),
            (b"net=3\nscratch=20\noverrun=0\nunit=1", Some("edition 3")),
            (
                b"net=3\n#\nscratch=20\noverrun=0\n#\nunit=1\n",
                Some("edition 3, unit 1"),
            ),
            (b"net=2\nscratch=20\noverrun=0\nunit=1\n", Some("edition 2")),
            (b"net=0\n", None),
            (b"net=4\n", None),
            (b"net=12\n", None),
            (b"net=2", None),
            (b"#\n", None),
            (b"", None),
            (b"\nnet=2\n", None),
            (b"scratch=2\n", None),
        ] {
            assert_eq!(edition_of_text(text), edition);
        }
        assert_eq!(LANDED.newest_edition, 3);
    }

    /// The lines are those of the writer.
    #[test]
    fn lines_of_networks() {
        let mut rng = Rng::new(11);
        for _ in 0..1000 {
            let list = network(&mut rng);
            assert_eq!(lines(&list, Shape::of(&list)), written(&list));
        }
    }

    /// The refusal of a network, if it is refused.
    fn refusal(list: &[u64]) -> Option<(u64, u64, u64)> {
        let refused = write_network_by(&LANDED, list, ROOM).err();
        refused.map(|r| (r.number, r.place, r.second))
    }

    /// Of all editions old and new amounts miss by one; in editions 2 and 3 also by `rate` alone, by
    /// `next` alone, and with both changed over.
    #[test]
    fn near_misses_of_networks() {
        let mut rng = Rng::new(12);
        let mut seen = [[0; 5]; 3];
        for _ in 0..6000 {
            let list = network(&mut rng);
            let shape = Shape::of(&list);
            let off = off_rate(&mut rng, list.clone());
            let changed: Vec<usize> = (0..list.len()).filter(|&i| list[i] != off[i]).collect();
            let is_rate = |at| (0..shape.flows).any(|f| shape.rate(f) == at);
            let by_one = changed.iter().all(|&at| list[at].abs_diff(off[at]) == 1);
            let seen = &mut seen[shape.edition as usize - 1];
            match (shape.edition, refusal(&off), &changed[..]) {
                (1, Some((4, _, 0)), _) if by_one => seen[0] += 1,
                (1, Some((4, _, 1)), _) if by_one => seen[1] += 1,
                (_, Some((4, _, 0)), &[at]) if by_one && is_rate(at) => seen[0] += 1,
                (_, Some((4, _, 0)), &[_]) if by_one => seen[1] += 1,
                (_, Some((4, _, 1)), &[at]) if by_one && at < shape.tunnel(0) => seen[2] += 1,
                (_, Some((4, _, 1)), &[_]) if by_one => seen[3] += 1,
                (_, Some((4, _, 0)), &[_, _]) => seen[4] += 1,
                _ => {}
            }
        }
        let counts = [&seen[0][..2], &seen[1], &seen[2]].concat();
        assert!(counts.iter().all(|&count| count > 30), "{seen:?}");
    }

    /// In edition 3 `held` is above its `cap` by one and by far, and just not above it; and `unit` is none.
    #[test]
    fn near_misses_of_held() {
        let mut rng = Rng::new(18);
        let mut seen = [0; 4];
        for _ in 0..3000 {
            let list = network(&mut rng);
            let shape = Shape::of(&list);
            let off = off_held(&mut rng, list.clone());
            if shape.edition < 3 {
                assert_eq!(off, list);
                continue;
            }
            let links = (0..shape.links).map(|link| shape.cap(link));
            let above = links.clone().find(|&cap| off[cap] < off[cap + 1]);
            let refused = |line: usize| assert_eq!(refusal(&off), Some((2, line as u64 + 1, 0)));
            if off[3] > 1 {
                seen[0] += 1;
                refused(3);
            } else if let Some(cap) = above {
                seen[if off[cap] + 1 == off[cap + 1] { 1 } else { 2 }] += 1;
                refused(cap + 1);
            } else {
                seen[3] += u64::from(off != list);
                assert_eq!(refusal(&off), None);
            }
        }
        assert!(seen.iter().all(|&count| count > 30), "{seen:?}");
    }

    /// Lists with the numbers of one edition and the `net` of another, and with no edition.
    #[test]
    fn other_editions() {
        let mut rng = Rng::new(13);
        let mut seen = [[0; 4]; 3];
        let mut none = 0;
        for _ in 0..2000 {
            let list = network(&mut rng);
            let off = off_edition(&mut rng, list.clone());
            assert_eq!(off[1..], list[1..]);
            let refusal = refusal(&off);
            match off[0] {
                net @ 1..=3 => {
                    assert_ne!(net, list[0]);
                    seen[list[0] as usize - 1][net as usize] += 1;
                }
                0 | 4 => seen[list[0] as usize - 1][0] += 1,
                _ => none += 1,
            }
            if edition_of_list(&off).is_none() {
                assert_eq!(refusal, Some((2, 1, 0)));
            } else if off[0] < 3 && list[0] < 3 && list[4] > 0 {
                assert!(matches!(refusal, Some((2 | 3, 8.., 0))), "{off:?}");
            } else if off[0] == 3 {
                // `links` is taken for `unit`
                assert!(list[3] == 1 || refusal == Some((2, 4, 0)), "{off:?}");
            } else if list[0] == 3 && list[3] == 0 {
                // `unit` is taken for `links`
                assert_eq!(refusal, Some((2, 4, 0)), "{off:?}");
            }
        }
        for (edition, counts) in seen.iter().enumerate() {
            let there = (0..4).filter(|&other| other != edition + 1);
            assert!(there.clone().all(|other| counts[other] > 30), "{seen:?}");
        }
        assert!(none > 30);
    }

    /// Sums in a listed row at either end of the two rates are taken, and beside it meet 6; of all
    /// editions, and in editions 2 and 3 where the ends are apart.
    #[test]
    fn rows_at_the_ends() {
        let mut rng = Rng::new(14);
        let mut seen = [[0; 4]; 5];
        for _ in 0..10_000 {
            let network = network(&mut rng);
            let shape = Shape::of(&network);
            let plan = at_an_end(&mut rng, &network);
            let (parts, tunnels) = (plan[1], shape.tunnels);
            let mut outside = false;
            for (f, row) in
                (0..shape.flows).flat_map(|f| (1..plan[2] as usize).map(move |r| (f, r)))
            {
                let of_flow = |&t: &usize| network[shape.tunnel(t)] as usize == f;
                let at = |t: usize| plan[4 + (row - 1) * tunnels + t];
                let sum: u64 = (0..tunnels).filter(of_flow).map(at).sum();
                let (rate, next) = (network[shape.rate(f)], network[shape.next(f)]);
                let (least, most) = (parts * rate.min(next), parts * rate.max(next));
                let kind = match shape.edition {
                    1 => 0,
                    2 if rate == next => 1,
                    2 => 2,
                    _ if rate == next => 3,
                    _ => 4,
                };
                if sum + 1 == least {
                    seen[kind][0] += 1;
                } else if sum == most + 1 {
                    seen[kind][3] += 1;
                }
                seen[kind][1] += u64::from(sum == least);
                seen[kind][2] += u64::from(sum == most);
                outside |= sum < least || sum > most;
            }
            let six = match check_plan_by(&LANDED, &network, &plan, ROOM) {
                Checked::Refused { refusal, .. } => refusal.number == 6,
                Checked::Accepted { .. } => false,
            };
            assert_eq!(six, outside, "{network:?} {plan:?}");
        }
        for counts in seen {
            assert!(counts.iter().all(|&count| count > 30), "{seen:?}");
        }
    }

    /// The lines are those of the writer.
    #[test]
    fn lines_of_rule_tables() {
        let mut rng = Rng::new(8);
        for _ in 0..1000 {
            let list = rule_tables(&mut rng);
            assert_eq!(
                Ok(rules_lines(&list, list[2] as usize)),
                write_rules(&list, ROOM)
            );
        }
    }

    /// The ends of every range come up, and both sets that do not fit.
    #[test]
    fn kinds_of_rule_tables() {
        let mut rng = Rng::new(7);
        let lists: Vec<_> = (0..2000).map(|_| rule_tables(&mut rng)).collect();
        let some = |holds: &dyn Fn(&[u64]) -> bool| lists.iter().any(|list| holds(list));
        for (at, ends) in [(1, [20, 500]), (2, [1, 64]), (3, [0, 96]), (4, [0, 65_535])] {
            assert!(ends.iter().all(|&end| some(&|list| list[at] == end)));
        }
        assert!(some(&|list| list[tunnels_at(list)..].contains(&(1 << 63))));
        assert!(some(&|list| list[tunnels_at(list)..].contains(&u64::MAX)));
        for set in 0..2 {
            assert!(some(
                &|list| second::stage_rules(list, ROOM).is_err_and(|refusal| refusal.second == set)
            ));
        }
    }

    /// Every set just fits, and with one rule's room less at a switch that has rules one does not.
    #[test]
    fn sets_that_just_fit() {
        let mut rng = Rng::new(9);
        for _ in 0..300 {
            let mut list = tight_tables(&mut rng);
            let stages = second::stage_rules(&list, ROOM);
            assert_eq!(stages.map(|stages| stages.len() as u64), Ok(list[3]));
            let switches = 0..list[2];
            let Some(switch) = switches.clone().find(|&s| list[4 + s as usize] > 0) else {
                continue;
            };
            list[4 + switch as usize] -= 1;
            let refusal = second::stage_rules(&list, ROOM).expect_err("a set too large");
            assert_eq!((refusal.number, refusal.place), (18, switch));
        }
    }
}
