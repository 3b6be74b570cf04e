//! A page for the change board: what the paper says of small cases and of the largest, with the pages written
//! down. Every answer is held against the second implementation's too.

use compare::inputs::{amount, tiny_bundled};
use compare::LANDED;
use pavuneshil::{Answer, Refusal, NETWORK_NUMBERS, PAGE_BYTES, PLAN_NUMBERS};
use second::gen::{any_plan, tiny_of, to_edition, with_unit, Rng, Shape};
use std::path::Path;

const AMOUNT: u64 = 10_000_000;

/// The two headings.
const LINKS: &str = "  step  link       cap protected       all\n";
const TUNNELS: &str = "tunnel  flow      hops       old       new\n";

fn refused(number: u64, place: u64, second: u64) -> Refusal {
    Refusal {
        number,
        place,
        second,
    }
}

/// The answer with so much room, and that no byte is touched where it is refused, and none beyond the page.
fn page_in(network: &[u64], plan: &[u64], step: u64, room: usize) -> Result<String, Refusal> {
    let mut out = vec![b'~'; room];
    let answer = pavuneshil::page(network, plan, step, &mut out);
    let (ours, length) = match answer {
        Answer::Done(length) => (Ok(out[..length].to_vec()), length),
        Answer::Refused(refusal) => (Err(refusal), 0),
        Answer::Plan(_) => panic!("no plan is made"),
    };
    assert!(out[length..].iter().all(|&byte| byte == b'~'));
    let theirs = second::page(&LANDED, network, plan, step, room);
    let theirs = theirs.map_err(|r| refused(r.number, r.place, r.second));
    assert_eq!(ours, theirs, "{network:?} {plan:?}, step {step}");
    ours.map(|page| String::from_utf8(page).expect("characters"))
}

/// The answer with room for more than any page.
fn page(network: &[u64], plan: &[u64], step: u64) -> Result<String, Refusal> {
    page_in(network, plan, step, PAGE_BYTES + 9)
}

/// The page of these lines, in which a line feed follows each.
fn lines(links: &[&str], tunnels: &[&str]) -> Result<String, Refusal> {
    let block = |heading: &str, lines: &[&str]| {
        let lines = lines.iter().map(|line| format!("{line}\n"));
        heading.to_string() + &lines.collect::<String>()
    };
    let page = block(LINKS, links) + &block(TUNNELS, tunnels);
    assert!(page.split_inclusive('\n').all(|line| line.len() == 43));
    Ok(page)
}

/// The swap: two flows of rate 10 and this class change places on two links.
fn swap(cap: u64, class: u64, overrun: u64) -> Vec<u64> {
    let mut list = vec![1, 333, overrun, 2, 2, 4, cap, cap, class, 10, class, 10];
    list.extend([0, 1, 10, 0, 0, 2, 0, 10, 1, 2, 10, 0, 1, 1, 0, 10]);
    list
}

const HALVES: [u64; 8] = [1, 2, 2, 4, 10, 10, 10, 10];

/// A network of edition 3 from what is said of each link, flow and tunnel.
fn network(
    overrun: u64,
    unit: u64,
    links: &[[u64; 2]],
    flows: &[[u64; 3]],
    tunnels: &[[u64; 4]],
) -> Vec<u64> {
    let counts = [links.len(), flows.len(), tunnels.len()].map(|count| count as u64);
    let head = [&[3, 20, overrun, unit], &counts[..]].concat();
    [head, links.concat(), flows.concat(), tunnels.concat()].concat()
}

/// A file of a sample.
fn sample(folder: &str, name: &str) -> Vec<u8> {
    let path = format!("../../samples/{folder}/{name}.txt");
    std::fs::read(Path::new(env!("CARGO_MANIFEST_DIR")).join(path)).expect("a sample")
}

/// The page of a step of a sample's plan.
fn sample_page(folder: &str, step: u64) -> Result<String, Refusal> {
    let (mut network, mut plan) = ([0; NETWORK_NUMBERS], [0; PLAN_NUMBERS]);
    let done = |answer| match answer {
        Answer::Done(length) => length,
        other => panic!("{other:?}"),
    };
    let numbers = done(pavuneshil::read_network(
        &sample(folder, "network"),
        &mut network,
    ));
    let rows = done(pavuneshil::read_plan(&sample(folder, "plan"), &mut plan));
    page(&network[..numbers], &plan[..rows], step)
}

// -------------------------------------------------------- pages

/// In either step of the paper's session both links are full; said in every edition, it has the same page.
#[test]
fn the_pages_of_the_swap() {
    let tunnels = [
        "     0     0         1        10         0",
        "     1     0         1         0        10",
        "     2     1         1        10         0",
        "     3     1         1         0        10",
    ];
    let pages = [
        lines(
            &[
                "     1     0        30        30        30",
                "     1     1        30        30        30",
            ],
            &tunnels,
        ),
        lines(
            &[
                "     2     0        30        30        30",
                "     2     1        30        30        30",
            ],
            &tunnels,
        ),
    ];
    for (step, written) in (1..).zip(&pages) {
        assert_eq!(page(&swap(15, 0, 0), &HALVES, step), *written);
        assert_eq!(sample_page("swap", step), *written);
        for edition in [2, 3] {
            let network = to_edition(&swap(15, 0, 0), edition);
            assert_eq!(page(&network, &HALVES, step), *written);
        }
        let network = with_unit(&to_edition(&swap(15, 0, 0), 3), 1);
        assert_eq!(page(&network, &HALVES, step), *written);
        // where the switches may be a step behind, the plan does not do: the page is with lag 1
        let mut marks = [0; 4];
        let behind = pavuneshil::check_plan(2, &swap(15, 0, 0), &HALVES, &mut marks);
        assert_eq!(behind, Answer::Refused(refused(7, 1, 0)));
    }
    assert_eq!(sample("swap", "page"), pages[0].clone().unwrap().as_bytes());
}

/// The larger of two neighbouring rows counts, in each step of its own two: a plan that goes to and fro, in
/// other parts than steps.
#[test]
fn the_worst_of_two_rows() {
    // a flow of 9 on two links; in parts of 2 its first tunnel has 0, 14, 4 and 18
    let network = [1, 20, 0, 2, 1, 2, 9, 10, 0, 9, 0, 1, 0, 9, 0, 2, 9, 0];
    let plan = [1, 2, 3, 2, 14, 4, 4, 14];
    let tunnels = [
        "     0     0         1         0         9",
        "     1     0         1         9         0",
    ];
    let of =
        |step, links: [&str; 2]| assert_eq!(page(&network, &plan, step), lines(&links, &tunnels));
    of(
        1,
        [
            "     1     0        18        14        14",
            "     1     1        20        18        18",
        ],
    );
    of(
        2,
        [
            "     2     0        18        14        14",
            "     2     1        20        14        14",
        ],
    );
    of(
        3,
        [
            "     3     0        18        18        18",
            "     3     1        20        14        14",
        ],
    );
}

/// Interactive and elastic traffic is protected, background traffic counts with all.
#[test]
fn classes() {
    let flows = [[0, 1, 1], [1, 20, 20], [2, 300, 300]];
    let tunnels = [[2, 1, 300, 300], [0, 1, 1, 1], [1, 1, 20, 20]];
    let network = network(0, 0, &[[400, 0], [400, 0]], &flows, &tunnels);
    let written = lines(
        &[
            "     1     0      4000       210      3210",
            "     1     1      4000         0         0",
        ],
        &[
            "     0     2         1       300       300",
            "     1     0         1         1         1",
            "     2     1         1        20        20",
        ],
    );
    assert_eq!(page(&network, &[1, 10, 1, 3], 1), written);
}

/// With an overrun background traffic may be above the capacity: the overrun of P8, all of which is used.
#[test]
fn above_the_capacity() {
    let plan = planned(&swap(10, 2, 100));
    let tunnels = [
        "     0     0         1        10         0",
        "     1     0         1         0        10",
        "     2     1         1        10         0",
        "     3     1         1         0        10",
    ];
    let written = lines(
        &[
            "    10     0       100         0       110",
            "    10     1       100         0       110",
        ],
        &tunnels,
    );
    assert_eq!(page(&swap(10, 2, 100), &plan, 10), written);
}

/// The planner's own plan.
fn planned(network: &[u64]) -> Vec<u64> {
    let mut plan = [0; PLAN_NUMBERS];
    match pavuneshil::make_plan(1, network, &mut plan) {
        Answer::Plan(length) => plan[..length].to_vec(),
        other => panic!("{other:?}"),
    }
}

/// Edition 2: of the broker's sample, in thirds, step 2.
#[test]
fn rates_that_change() {
    let written = lines(
        &[
            "     2     0     33600     33000     33000",
            "     2     1     30000     15000     21000",
        ],
        &[
            "     0     0         1      4000      7000",
            "     1     0         1         0      3000",
            "     2     1         1      6000      3000",
            "     3     1         1      3000      3000",
            "     4     2         1      2000      2000",
        ],
    );
    assert_eq!(sample_page("broker", 2), written);
}

/// Edition 3: of the 40,000 of the crew's first trunk 10,000 are held, and the page has 3 x 30,000.
#[test]
fn capacity_that_is_held() {
    let written = lines(
        &[
            "     2     0     90000     52000     82000",
            "     2     1    120000     52000     52000",
        ],
        &[
            "     0     0         1     10000         0",
            "     1     0         1         0     10000",
            "     2     1         1         0     16000",
            "     3     1         1     16000         0",
            "     4     2         1     10000     10000",
        ],
    );
    assert_eq!(sample_page("crew", 2), written);
    // all of a link that nothing crosses, and all but what the flow needs
    let tunnels = [[0, 2, 7, 7]];
    let network = network(0, 0, &[[9, 9], [9, 2]], &[[0, 7, 7]], &tunnels);
    let written = lines(
        &[
            "     1     0         0         0         0",
            "     1     1        35        35        35",
        ],
        &["     0     0         1         7         7"],
    );
    assert_eq!(page(&network, &[1, 5, 1, 1], 1), written);
}

/// With `unit` 1 a flow's amounts on a link are added for each row, and the larger sum counts; with `unit` 0 the
/// larger amount of each tunnel.
#[test]
fn flows_and_tunnels() {
    // flow 0 has 9 and then 6, flow 1, of background traffic, 2 and then 6
    let of = |unit| {
        let tunnels = [[0, 1, 9, 1], [1, 1, 0, 4], [0, 1, 0, 5], [1, 1, 2, 2]];
        let flows = [[1, 9, 6], [2, 2, 6]];
        network(0, unit, &[[20, 0]], &flows, &tunnels)
    };
    let tunnels = [
        "     0     0         1         9         1",
        "     1     1         1         0         4",
        "     2     0         1         0         5",
        "     3     1         1         2         2",
    ];
    let at_once = [1, 1, 1, 4];
    let written = lines(&["     1     0        20         9        15"], &tunnels);
    assert_eq!(page(&of(1), &at_once, 1), written);
    let written = lines(&["     1     0        20        14        20"], &tunnels);
    assert_eq!(page(&of(0), &at_once, 1), written);
    // the sample: on the trunk, which all tunnels cross, either flow has in every row what it has in all
    let written = lines(
        &[
            "     1     0     60000     52000     52000",
            "     1     1     48000     46000     46000",
            "     1     2     48000     32000     32000",
        ],
        &[
            "     0     0         2     20000         0",
            "     1     0         2         0     20000",
            "     2     1         2      6000         0",
            "     3     1         2         0      6000",
        ],
    );
    assert_eq!(sample_page("weights", 1), written);
}

/// P11 in one step: refused where each tunnel counts for itself, a page where the flow moves as a whole.
#[test]
fn the_move_of_p11() {
    let of = |unit| {
        let tunnels = [[0, 1, 10, 0], [0, 3, 0, 10]];
        network(0, unit, &[[15, 0], [15, 0]], &[[0, 10, 10]], &tunnels)
    };
    let at_once = [1, 1, 1, 2];
    assert_eq!(page(&of(0), &at_once, 1), Err(refused(7, 1, 0)));
    assert_eq!(sample_page("longer", 1), Err(refused(7, 1, 0)));
    let written = lines(
        &[
            "     1     0        15        10        10",
            "     1     1        15        10        10",
        ],
        &[
            "     0     0         1        10         0",
            "     1     0         2         0        10",
        ],
    );
    assert_eq!(page(&of(1), &at_once, 1), written);
}

/// P12: two headings and the links. A plan without tunnels may have any steps and parts.
#[test]
fn no_flows_and_no_tunnels() {
    let network = [1, 333, 0, 1, 0, 0, 15];
    let written = lines(&["     1     0        15         0         0"], &[]);
    for edition in 1..=3 {
        let network = to_edition(&network, edition);
        assert_eq!(page(&network, &[1, 1, 1, 0], 1), written);
    }
    let written = lines(&["    49     0       750         0         0"], &[]);
    assert_eq!(page(&network, &[1, 50, 50, 0], 49), written);
    assert_eq!(page(&network, &[1, 1, 1, 0], 2), Err(refused(11, 2, 0)));
    // a flow without tunnels has no line
    let network = [1, 333, 0, 1, 1, 0, 0, 0, 0];
    let written = lines(&["     1     0         0         0         0"], &[]);
    assert_eq!(page(&network, &[1, 50, 1, 0], 1), written);
}

/// Hops count links, of the tunnel itself, up to the highest; and each link's line has its own numbers.
#[test]
fn hops() {
    let vias = [
        (u64::MAX, 64),
        (1, 1),
        (1 << 63, 1),
        (u64::MAX >> 1, 63),
        (1 << 63 | 1, 2),
        (0xaaaa_aaaa_aaaa_aaaa, 32),
        (u64::MAX << 32, 32),
        (0xff << 28, 8),
    ];
    let tunnels = vias.map(|(via, _)| [0, via, 1, 1]);
    let links: Vec<[u64; 2]> = (0..64).map(|link| [100 + link, link]).collect();
    let of = |unit| network(0, unit, &links, &[[0, 8, 8]], &tunnels);
    let crossed: Vec<String> = (0..64)
        .map(|link| {
            let tunnels = vias.iter().filter(|(via, _)| via >> link & 1 == 1);
            let load = 3 * tunnels.count();
            format!("     2{link:>6}       300{load:>10}{load:>10}")
        })
        .collect();
    let crossed: Vec<&str> = crossed.iter().map(|line| line.as_str()).collect();
    assert_eq!(crossed[0], "     2     0       300        12        12");
    assert_eq!(crossed[63], "     2    63       300        15        15");
    let written = lines(
        &crossed,
        &[
            "     0     0        64         1         1",
            "     1     0         1         1         1",
            "     2     0         1         1         1",
            "     3     0        63         1         1",
            "     4     0         2         1         1",
            "     5     0        32         1         1",
            "     6     0        32         1         1",
            "     7     0         8         1         1",
        ],
    );
    let plan = [&[1, 3, 2, 8], &[3; 8][..]].concat();
    for unit in 0..2 {
        assert_eq!(page(&of(unit), &plan, 2), written);
    }
}

/// The largest numbers in every column, on the longest page: 50 parts of 10,000,000, all of which protected
/// traffic takes, and half as much again of background traffic, which is as far as an overrun of 500 goes.
#[test]
fn the_largest_numbers() {
    let mut flows = [[2, 0, 0]; 32];
    flows[30] = [2, AMOUNT / 2, AMOUNT / 2];
    flows[31] = [1, AMOUNT, AMOUNT];
    let mut tunnels = [[0, 1 << 63, 0, 0]; 96];
    tunnels[94] = [30, u64::MAX, AMOUNT / 2, AMOUNT / 2];
    tunnels[95] = [31, u64::MAX, AMOUNT, AMOUNT];
    let row = tunnels.map(|[_, _, old, _]| 50 * old);
    let plan = [vec![1, 50, 50, 96], row.repeat(49)].concat();
    let links: Vec<String> = (0..64)
        .map(|link| format!("    50{link:>6} 500000000 500000000 750000000"))
        .collect();
    let links: Vec<&str> = links.iter().map(|line| line.as_str()).collect();
    let mut last: Vec<String> = (0..94)
        .map(|tunnel| format!("{tunnel:>6}     0         1         0         0"))
        .collect();
    last.push("    94    30        64   5000000   5000000".to_string());
    last.push("    95    31        64  10000000  10000000".to_string());
    let last: Vec<&str> = last.iter().map(|line| line.as_str()).collect();
    let written = lines(&links, &last);
    assert_eq!(links[63], "    50    63 500000000 500000000 750000000");
    let of = |overrun, unit| network(overrun, unit, &[[AMOUNT, 0]; 64], &flows, &tunnels);
    for unit in 0..2 {
        let page = page(&of(500, unit), &plan, 50);
        assert_eq!(page, written);
        assert_eq!(page.map(|page| page.len()), Ok(PAGE_BYTES));
    }
    assert_eq!(page(&of(499, 0), &plan, 50), Err(refused(8, 1, 0)));
    assert_eq!(
        page_in(&of(500, 0), &plan, 50, PAGE_BYTES - 1),
        Err(refused(10, 6966, 0))
    );
    // and the smallest: nothing on a link that has nothing
    let network = [1, 20, 0, 1, 1, 1, 0, 0, 0, 0, 1, 0, 0];
    let written = lines(
        &["     1     0         0         0         0"],
        &["     0     0         1         0         0"],
    );
    assert_eq!(page(&network, &[1, 50, 1, 1], 1), written);
}

/// The numbers of a page's column, of the links.
fn column(page: &str, links: usize, from: usize, to: usize) -> Vec<u64> {
    let lines = page.lines().skip(1).take(links);
    lines
        .map(|line| line[from..to].trim_start().parse().expect("a number"))
        .collect()
}

/// No choice in the step, of tunnels or with `unit` 1 of flows, comes to more on a link than the page says, and
/// one comes to as much: of protected traffic, and of all.
#[test]
fn every_choice() {
    let mut rng = Rng::new(21);
    let mut pages = [0; 4];
    for i in 0..3000 {
        let network = match i % 4 {
            0 => tiny_bundled(&mut rng, 1),
            edition => tiny_of(&mut rng, edition, 1),
        };
        let plan = any_plan(&mut rng, &network);
        let shape = Shape::of(&network);
        let step = rng.between(1, plan[2]);
        let mover = |t: usize| match shape.unit {
            true => network[shape.tunnel(t)],
            false => t as u64,
        };
        let movers = if shape.unit {
            shape.flows
        } else {
            shape.tunnels
        };
        let Ok(page) = page(&network, &plan, step) else {
            continue;
        };
        if movers > 10 {
            continue;
        }
        pages[shape.edition as usize - 1 + usize::from(shape.unit)] += 1;
        let mut most = vec![[0; 2]; shape.links];
        for choice in 0..1u64 << movers {
            for (link, most) in most.iter_mut().enumerate() {
                let mut shown = [0; 2];
                for t in 0..shape.tunnels {
                    let line = &network[shape.tunnel(t)..];
                    if line[1] >> link & 1 == 1 {
                        let later = choice >> mover(t) & 1;
                        let shows = amount(&network, &plan, t, step - 1 + later);
                        let protected = network[shape.class(line[0] as usize)] < 2;
                        shown[0] += if protected { shows } else { 0 };
                        shown[1] += shows;
                    }
                }
                *most = [most[0].max(shown[0]), most[1].max(shown[1])];
            }
        }
        let told = |at: usize| -> Vec<u64> { most.iter().map(|most| most[at]).collect() };
        assert_eq!(
            column(&page, shape.links, 22, 32),
            told(0),
            "{network:?} {plan:?}"
        );
        assert_eq!(
            column(&page, shape.links, 32, 42),
            told(1),
            "{network:?} {plan:?}"
        );
    }
    assert!(pages.iter().all(|&count| count > 100), "{pages:?}");
}

// -------------------------------------------------------- refusals

/// Exact, one short, none, and longer: what lies beyond the page is left, and all of it where there is no room.
#[test]
fn room() {
    let network = swap(15, 0, 0);
    let written = page(&network, &HALVES, 1);
    for room in [344, 345, 387, 6966, 70_000] {
        assert_eq!(page_in(&network, &HALVES, 1, room), written);
    }
    for room in [0, 1, 43, 301, 343] {
        let refusal = Err(refused(10, 344, 0));
        assert_eq!(page_in(&network, &HALVES, 1, room), refusal);
    }
    let network = [1, 333, 0, 1, 0, 0, 15];
    for (room, answer) in [(129, Ok(129)), (128, Err(refused(10, 129, 0)))] {
        let page = page_in(&network, &[1, 1, 1, 0], 1, room);
        assert_eq!(page.map(|page| page.len()), answer);
    }
}

/// A step is any number: 0, one more than the plan has, the most steps of any plan, and those whose lowest bits
/// are a step of the plan.
#[test]
fn steps() {
    let network = swap(15, 0, 0);
    for step in [
        0,
        3,
        4,
        50,
        51,
        256 + 1,
        65_536 + 2,
        (1 << 32) + 1,
        (1 << 32) + 2,
        1 << 63,
        u64::MAX - 1,
        u64::MAX,
    ] {
        let eleven = Err(refused(11, step, 0));
        assert_eq!(page(&network, &HALVES, step), eleven);
        // before 10
        for room in [0, 343] {
            assert_eq!(page_in(&network, &HALVES, step, room), eleven);
        }
    }
    // every step of the longest plan, and none after it
    let network = swap(10, 2, 20);
    let plan = planned(&network);
    assert_eq!(plan[2], 50);
    for step in 1..=50 {
        let page = page(&network, &plan, step).expect("a page");
        assert_eq!(column(&page, 2, 0, 6), [step; 2]);
        assert_eq!(column(&page, 2, 12, 22), [500; 2]);
        assert_eq!(column(&page, 2, 32, 42), [510; 2]);
    }
    assert_eq!(page(&network, &plan, 51), Err(refused(11, 51, 0)));
}

/// The checker's refusals in its order, whatever the step and the room, and then 11, and then 10.
#[test]
fn refusals_in_their_order() {
    let good = swap(15, 0, 0);
    let with = |list: &[u64], changes: &[(usize, u64)]| {
        let mut list = list.to_vec();
        for &(line, number) in changes {
            list[line - 1] = number;
        }
        list
    };
    let at_once = [1, 1, 1, 4];
    for (network, plan, refusal) in [
        // the network before the plan
        (vec![], vec![], refused(3, 1, 0)),
        (good[..27].to_vec(), vec![], refused(3, 28, 0)),
        ([&good[..], &[0]].concat(), vec![], refused(3, 29, 0)),
        (with(&good, &[(1, 4)]), vec![], refused(2, 1, 0)),
        (with(&good, &[(28, AMOUNT + 1)]), vec![], refused(2, 28, 0)),
        (with(&good, &[(15, 9)]), vec![], refused(4, 0, 0)),
        (with(&good, &[(28, 9)]), vec![], refused(4, 1, 1)),
        // the plan, before it is held against the network
        (good.clone(), vec![], refused(3, 1, 1)),
        (good.clone(), HALVES[..7].to_vec(), refused(3, 8, 1)),
        (good.clone(), with(&HALVES, &[(3, 51)]), refused(2, 3, 1)),
        (good.clone(), with(&HALVES, &[(4, 5)]), refused(3, 9, 1)),
        (good.clone(), vec![1, 1, 1, 5], refused(5, 4, 1)),
        (good.clone(), vec![1, 2, 2, 3, 9, 9, 9], refused(5, 4, 1)),
        // rows, before overloads
        (good.clone(), with(&HALVES, &[(6, 11)]), refused(6, 1, 0)),
        (swap(0, 0, 0), with(&HALVES, &[(8, 9)]), refused(6, 1, 1)),
        // the first overload of any step, also of one that the page is not of
        (good.clone(), at_once.to_vec(), refused(7, 1, 0)),
        (swap(14, 0, 0), HALVES.to_vec(), refused(7, 1, 0)),
        (swap(14, 2, 0), HALVES.to_vec(), refused(8, 1, 0)),
        (with(&good, &[(8, 14)]), HALVES.to_vec(), refused(7, 1, 1)),
    ] {
        for step in [0, 1, 2, 3, u64::MAX] {
            for room in [0, 3, 4, 344, 400] {
                let answer = page_in(&network, &plan, step, room);
                assert_eq!(answer, Err(refusal), "step {step}, room {room}");
            }
        }
    }
    // in the last step alone: nothing is laid out of the first
    let late = [
        &[1, 333, 0, 1, 2, 2, 15, 0, 10, 2, 0][..],
        &[0, 1, 10, 10, 1, 1, 0, 0],
    ]
    .concat();
    let fine = [1, 1, 3, 2, 10, 0, 10, 0];
    assert!(page(&late, &fine, 1).is_ok());
    let grows = with(&to_edition(&late, 2), &[(13, 6), (21, 6)]);
    for step in [1, 2, 3] {
        assert_eq!(page(&grows, &fine, step), Err(refused(8, 3, 0)));
    }
    // `unit` and `held` out of range
    let third = to_edition(&good, 3);
    let unit = with(&third, &[(4, 2)]);
    assert_eq!(page(&unit, &HALVES, 0), Err(refused(2, 4, 0)));
    let held = with(&third, &[(9, 16)]);
    assert_eq!(page(&held, &HALVES, 0), Err(refused(2, 9, 0)));
}
