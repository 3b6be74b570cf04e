//! Rates that change on the way, edition 2: what the paper says of small cases, with the answers
//! written down; and edition 1, read as if `next` equalled `rate`. Every answer is held against the
//! second implementation's too. Edition 3 is in `units.rs`.

mod common;

use common::{accepted, check, plan, read, refused, refused_at, sample_lists, write};
use compare::{inputs, LANDED};
use pavuneshil::{Answer, StepBound, NETWORK_NUMBERS, TEXT_BYTES};
use second::gen::{any_plan, broken_plan, to_edition, Rng};

const AMOUNT: u64 = 10_000_000;

/// One link, over which flow 0 grows from 10 to 20 while flow 1 shrinks from 20 to 10.
fn exchange(cap: u64, class: u64, overrun: u64) -> Vec<u64> {
    vec![
        2, 250, overrun, 1, 2, 2, cap, class, 10, 20, class, 20, 10, //
        0, 1, 10, 20, 1, 1, 20, 10,
    ]
}

/// Its text, with a capacity of 35 and class 0.
const EXCHANGE: &str = "net=2
scratch=250
overrun=0
links=1
flows=2
tunnels=2
cap=35
class=0
rate=10
next=20
class=0
rate=20
next=10
flow=0
via=0000000000000001
old=10
new=20
flow=1
via=0000000000000001
old=20
new=10
";

// ------------------------------------------------------- planner and checker

/// In q steps the link carries at most 30 and a qth of 10 in any step: q x cap is 30 x q + 10.
#[test]
fn one_grows_and_one_shrinks() {
    for (cap, steps) in [
        (40, 1),
        (39, 2),
        (35, 2),
        (34, 3),
        (33, 4),
        (32, 5),
        (31, 10),
    ] {
        for class in 0..3 {
            let network = exchange(cap, class, 0);
            let made = plan(&network).expect("a plan");
            assert_eq!(made[..4], [1, steps, steps, 2], "cap {cap}");
            for a in 1..steps {
                let row = [10 * steps + 10 * a, 20 * steps - 10 * a];
                assert_eq!(made[2 + 2 * a as usize..][..2], row, "cap {cap}, row {a}");
            }
            assert_eq!(check(&network, &made), accepted(2));
        }
    }
    assert_eq!(plan(&exchange(35, 0, 0)), Ok(vec![1, 2, 2, 2, 30, 30]));
    assert_eq!(
        plan(&exchange(33, 0, 0)),
        Ok(vec![1, 4, 4, 2, 50, 70, 60, 60, 70, 50])
    );
    assert_eq!(plan(&exchange(30, 0, 0)), Err(refused(9, 1, 0)));
    // 1000 times the 30 x q + 10 is at most 1100 x q x 30; but not of protected traffic
    assert_eq!(plan(&exchange(30, 2, 100)).map(|plan| plan[2]), Ok(4));
    assert_eq!(plan(&exchange(30, 1, 100)), Err(refused(9, 1, 0)));
}

/// With one step too few, the tunnel that grows shows the overload before the other has shrunk.
#[test]
fn one_step_too_few() {
    for (class, number) in [(0, 7), (1, 7), (2, 8)] {
        for (cap, parts, rows) in [
            (39, 1, &[][..]),
            (34, 2, &[30, 30]),
            (33, 3, &[40, 50, 50, 40]),
        ] {
            let even = [&[1, parts, parts, 2], rows].concat();
            assert_eq!(
                check(&exchange(cap, class, 0), &even),
                (Some(refused(number, 1, 0)), vec![1, 0])
            );
            assert_eq!(check(&exchange(cap + 1, class, 0), &even), accepted(2));
        }
    }
    // the later step alone, where the first moves little: row 1 is 21 and 39
    let late = [1, 2, 2, 2, 21, 39];
    assert_eq!(
        check(&exchange(39, 0, 0), &late),
        (Some(refused(7, 2, 0)), vec![1, 0])
    );
    assert_eq!(check(&exchange(40, 0, 0), &late), accepted(2));
}

/// A link on which a flow begins while another of that class and rate ends.
fn replaced(scratch: u64, overrun: u64, cap: u64, class: u64, rate: u64) -> Vec<u64> {
    vec![
        2, scratch, overrun, 1, 2, 2, cap, class, 0, rate, class, rate, 0, //
        0, 1, 0, rate, 1, 1, rate, 0,
    ]
}

fn bound(scratch: u64, overrun: u64) -> u64 {
    match pavuneshil::step_bound(scratch, overrun) {
        StepBound::Steps(steps) => steps,
        StepBound::Refused(refusal) => panic!("{refusal:?}"),
    }
}

/// With no room beyond the scratch, or with overrun none at all, it takes as many steps as the bound
/// says, for every scratch and every overrun. A link of 1 less does not keep its scratch.
#[test]
fn as_many_steps_as_the_bound_says() {
    for scratch in 20..=500 {
        let rate = 1000 - scratch;
        let kept = replaced(scratch, 0, 1000, 1, rate);
        assert!(second::keeps_scratch_by(&LANDED, &kept));
        let steps = plan(&kept).map(|plan| plan[2]);
        assert_eq!(steps, Ok(bound(scratch, 0)), "{scratch}");
        // rate x (q + 1) is at most 999 x q
        let least = rate.div_ceil(scratch - 1);
        let steps = plan(&replaced(scratch, 0, 999, 1, rate)).map(|plan| plan[2]);
        if least <= 50 {
            assert_eq!(steps, Ok(least), "{scratch}");
        } else {
            assert_eq!(steps, Err(refused(9, 1, 0)), "{scratch}");
        }
    }
    for overrun in 20..=500 {
        let kept = replaced(500, overrun, 1000, 2, 1000);
        assert!(second::keeps_scratch_by(&LANDED, &kept));
        let steps = plan(&kept).map(|plan| plan[2]);
        assert_eq!(steps, Ok(bound(500, overrun)), "{overrun}");
    }
}

/// A flow of one tunnel that grows from 5 to 6 on a link of 5, all at once, in any step of a plan of any
/// length; and one that shrinks from 6 to 5, which overloads the link before it moves.
#[test]
fn every_step_can_be_the_first_overload() {
    let network =
        |cap, class, rate, next| [2, 50, 0, 1, 1, 1, cap, class, rate, next, 0, 1, rate, next];
    for steps in 1..=50 {
        for step in 1..=steps {
            // the rows before the step have the one rate, those from it on the other
            let rows = |rate, next| {
                let listed = (1..steps).map(|row| steps * if row < step { rate } else { next });
                [1, steps, steps, 1]
                    .into_iter()
                    .chain(listed)
                    .collect::<Vec<u64>>()
            };
            for (class, number) in [(0, 7), (1, 7), (2, 8)] {
                let overload = (Some(refused(number, step, 0)), vec![1]);
                let first = (Some(refused(number, 1, 0)), vec![0]);
                assert_eq!(check(&network(5, class, 5, 6), &rows(5, 6)), overload);
                assert_eq!(check(&network(5, class, 6, 5), &rows(6, 5)), first);
                assert_eq!(check(&network(6, class, 5, 6), &rows(5, 6)), accepted(1));
                assert_eq!(check(&network(6, class, 6, 5), &rows(6, 5)), accepted(1));
            }
        }
    }
}

/// Every rate may begin or end at nothing, and one tunnel may do it alone.
#[test]
fn from_nothing_and_to_nothing() {
    for (rate, next) in [(0, 7), (7, 0), (0, 0), (7, 7), (0, AMOUNT), (AMOUNT, 0)] {
        let cap = rate.max(next);
        let alone = [2, 20, 0, 1, 1, 1, cap, 0, rate, next, 0, 1, rate, next];
        assert_eq!(plan(&alone), Ok(vec![1, 1, 1, 1]));
        assert_eq!(check(&alone, &[1, 1, 1, 1]), accepted(1));
        let even = [1, 2, 2, 1, rate + next];
        assert_eq!(check(&alone, &even), accepted(1));
        if cap > 0 {
            let mut short = alone;
            short[6] -= 1;
            assert_eq!(plan(&short).map_err(|refusal| refusal.number), Err(9));
        }
    }
}

// ------------------------------------------------------------- sums in a row

/// In two parts flow 0 has 20 to 40 in a listed row, flow 1 too: both ends and beyond, in each row.
#[test]
fn every_sum_about_the_two_rates() {
    let network = exchange(100, 0, 0);
    for steps in 2..=4 {
        for row in 1..steps {
            for flow in 0..2 {
                for sum in 0..=60 {
                    let mut plan = vec![1, 2, steps, 2];
                    plan.extend([30; 2].repeat(steps as usize - 1));
                    plan[(2 + 2 * row + flow) as usize] = sum;
                    let expected = if (20..=40).contains(&sum) {
                        accepted(2)
                    } else {
                        refused_at(6, row, flow)
                    };
                    assert_eq!(check(&network, &plan), expected, "{plan:?}");
                }
            }
        }
    }
}

#[test]
fn the_first_row_outside_then_the_first_flow() {
    let network = exchange(100, 0, 0);
    for (rows, expected) in [
        ([19, 30, 30, 30], refused_at(6, 1, 0)),
        ([41, 30, 30, 30], refused_at(6, 1, 0)),
        ([30, 19, 30, 30], refused_at(6, 1, 1)),
        ([30, 41, 19, 30], refused_at(6, 1, 1)),
        ([30, 30, 30, 41], refused_at(6, 2, 1)),
        ([30, 30, 41, 41], refused_at(6, 2, 0)),
        ([20, 40, 41, 30], refused_at(6, 2, 0)),
        // at the ends, and not steadily from one rate to the other
        ([20, 20, 40, 40], accepted(2)),
        ([40, 40, 20, 20], accepted(2)),
        ([40, 20, 20, 40], accepted(2)),
    ] {
        let plan = [&[1, 2, 3, 2], &rows[..]].concat();
        assert_eq!(check(&network, &plan), expected, "{rows:?}");
    }
    // 6 comes before 7, and before 10 for the marks
    let full = exchange(0, 0, 0);
    assert_eq!(check(&full, &[1, 2, 2, 2, 30, 19]), refused_at(6, 1, 1));
    let answer = pavuneshil::check_plan(1, &network, &[1, 2, 2, 2, 30, 19], &mut []);
    assert_eq!(answer, Answer::Refused(refused(6, 1, 1)));
    let answer = pavuneshil::check_plan(1, &network, &[1, 2, 2, 2, 30, 20], &mut []);
    assert_eq!(answer, Answer::Refused(refused(10, 2, 0)));
}

/// One flow over two tunnels: every pair of rates, every row of two parts. The sum counts, not a
/// tunnel's own amount.
#[test]
fn every_small_row() {
    for (rate, next) in (0..16).map(|code| (code / 4, code % 4)) {
        let network = [
            2, 20, 0, 2, 1, 2, 100, 100, 0, rate, next, //
            0, 1, rate, 0, 0, 2, 0, next,
        ];
        for (one, other) in (0..81).map(|code| (code / 9, code % 9)) {
            let least = 2 * rate.min(next);
            let most = 2 * rate.max(next);
            let expected = if least <= one + other && one + other <= most {
                accepted(2)
            } else {
                refused_at(6, 1, 0)
            };
            let plan = [1, 2, 2, 2, one, other];
            assert_eq!(check(&network, &plan), expected, "{rate} {next} {plan:?}");
        }
    }
}

/// The range of `at` stays: 10,000,000 x parts, whatever the rates are.
#[test]
fn the_range_of_an_amount_stays() {
    let network = exchange(AMOUNT, 0, 0);
    for (parts, at, expected) in [
        (1, AMOUNT, refused_at(6, 1, 0)),
        (1, AMOUNT + 1, refused_at(2, 5, 1)),
        (50, 50 * AMOUNT, refused_at(6, 1, 0)),
        (50, 50 * AMOUNT + 1, refused_at(2, 5, 1)),
    ] {
        let plan = [1, parts, 2, 2, at, 15 * parts];
        assert_eq!(check(&network, &plan), expected);
    }
    // nine tunnels of a flow that grows from 10 to 20, each in its range: together 750 and 2^32
    let mut network = vec![2, 20, 0, 1, 1, 9, AMOUNT, 2, 10, 20, 0, 1, 10, 20];
    network.extend([0, 1, 0, 0].repeat(8));
    let mut plan = vec![1, 50, 2, 9];
    plan.extend([50 * AMOUNT; 8]);
    plan.push((1 << 32) - 400 * AMOUNT + 750);
    assert_eq!(check(&network, &plan), refused_at(6, 1, 0));
    plan[4..].copy_from_slice(&[750, 0, 0, 0, 0, 0, 0, 0, 0]);
    assert_eq!(check(&network, &plan), accepted(9));
}

// ------------------------------------------------------- sums of the network

/// "Old amounts add up to `rate`, new ones to `next`, else refusal 4": all operations say it, of the
/// list and of its text.
fn misses(list: &[u64], flow: u64, second: u64) {
    let refusal = refused(4, flow, second);
    assert_eq!(write(list), Err(refusal), "{list:?}");
    assert_eq!(plan(list), Err(refusal), "{list:?}");
    assert_eq!(check(list, &[]), refused_at(4, flow, second), "{list:?}");
    assert_eq!(read(&lines(list)), Err(refusal), "{list:?}");
}

/// The lines of a list of edition 2, also of one that the writer refuses.
fn lines(list: &[u64]) -> Vec<u8> {
    let (links, flows) = (list[3] as usize, list[4] as usize);
    let head = ["net", "scratch", "overrun", "links", "flows", "tunnels"];
    let keys = head.into_iter().chain(vec!["cap"; links]);
    let keys = keys.chain(["class", "rate", "next"].repeat(flows));
    let keys = keys.chain(["flow", "via", "old", "new"].into_iter().cycle());
    let lines = keys.zip(list).map(|(key, number)| match key {
        "via" => format!("{key}={number:016x}\n"),
        _ => format!("{key}={number}\n"),
    });
    lines.collect::<String>().into_bytes()
}

#[test]
fn amounts_that_miss() {
    let good = exchange(35, 0, 0);
    assert_eq!(lines(&good), EXCHANGE.as_bytes());
    // rate and next of flow 0, of flow 1; old and new of tunnel 0, of tunnel 1
    for (at, flow, second) in [
        (8, 0, 0),
        (9, 0, 1),
        (11, 1, 0),
        (12, 1, 1),
        (15, 0, 0),
        (16, 0, 1),
        (19, 1, 0),
        (20, 1, 1),
    ] {
        for number in [good[at] - 1, good[at] + 1, 0, AMOUNT] {
            let mut list = good.clone();
            list[at] = number;
            misses(&list, flow, second);
        }
    }
    // the old amounts add up to next, and the new ones to rate: old is told first
    for flow in 0..2 {
        let mut list = good.clone();
        list.swap(8 + 3 * flow, 9 + 3 * flow);
        misses(&list, flow as u64, 0);
    }
    // all of edition 1's sums, but not of this one: new amounts that add up to the rate
    let mut list = good.clone();
    list[16] = 10;
    misses(&list, 0, 1);
    // new of flow 0 before old of flow 1
    let mut list = good.clone();
    (list[9], list[11]) = (21, 21);
    misses(&list, 0, 1);
}

#[test]
fn a_flow_without_tunnels_has_neither() {
    let alone = |rate, next| vec![2, 20, 0, 1, 1, 0, 5, 0, rate, next];
    assert_eq!(plan(&alone(0, 0)), Ok(vec![1, 1, 1, 0]));
    for (rate, next, second) in [(1, 0, 0), (0, 1, 1), (1, 1, 0), (AMOUNT, AMOUNT, 0)] {
        misses(&alone(rate, next), 0, second);
    }
}

/// One flow over two tunnels: every rate and next up to 3 with all amounts up to 2.
#[test]
fn every_small_sum() {
    let mut taken = 0;
    for code in 0..1296 {
        let (rate, next) = (code % 4, code / 4 % 4);
        let amounts = [16, 48, 144, 432].map(|unit| code / unit % 3);
        let list = [
            2, 20, 0, 1, 1, 2, 10, 2, rate, next, //
            0, 1, amounts[0], amounts[1], 0, 1, amounts[2], amounts[3],
        ];
        if amounts[0] + amounts[2] != rate {
            misses(&list, 0, 0);
        } else if amounts[1] + amounts[3] != next {
            misses(&list, 0, 1);
        } else {
            taken += 1;
            assert_eq!(read(&write(&list).expect("a text")), Ok(list.to_vec()));
            assert_eq!(plan(&list), Ok(vec![1, 1, 1, 2]));
        }
    }
    // for 81 amounts, one pair of rates where neither sum is 4: 8 of the 9 pairs each
    assert_eq!(taken, 64);
}

// ---------------------------------------------------------- texts and lists

#[test]
fn there_and_back() {
    let list = exchange(35, 0, 0);
    assert_eq!(read(EXCHANGE.as_bytes()), Ok(list.clone()));
    assert_eq!(write(&list), Ok(EXCHANGE.as_bytes().to_vec()));
    // with remarks around a `next`, which are not written
    let remarked = EXCHANGE.replace("next=20\n", "# grows\nnext=20\n#\n");
    assert_eq!(read(remarked.as_bytes()), Ok(list));
}

/// "`next` with the same range", on the line after `rate`.
#[test]
fn every_value_of_next() {
    let next = |value: &str| EXCHANGE.replace("next=20", &format!("next={value}"));
    for number in [0, 1, 19, 21, AMOUNT - 1, AMOUNT] {
        let text = next(&number.to_string());
        assert_eq!(read(text.as_bytes()), Err(refused(4, 0, 1)));
    }
    for number in [AMOUNT + 1, 9_999_999_999] {
        let text = next(&number.to_string());
        assert_eq!(read(text.as_bytes()), Err(refused(2, 10, 0)));
        let mut list = exchange(35, 0, 0);
        list[9] = number;
        assert_eq!(write(&list), Err(refused(2, 10, 0)));
        assert_eq!(plan(&list), Err(refused(2, 10, 0)));
    }
    for value in [
        "",
        "020",
        "00",
        "+20",
        "-20",
        " 20",
        "20 ",
        "20\r",
        "2a",
        "20#",
        "10000000000",
        "0000000000000014",
    ] {
        assert_eq!(read(next(value).as_bytes()), Err(refused(1, 10, 0)));
    }
    for line in [
        "",
        "next\n",
        "Next=20\n",
        "nex=20\n",
        "nextt=20\n",
        "new=20\n",
        "net=20\n",
        "rate=20\n",
        " next=20\n",
        "next =20\n",
        "next:20\n",
        "\n",
    ] {
        let text = EXCHANGE.replace("next=20\n", line);
        assert_eq!(read(text.as_bytes()), Err(refused(1, 10, 0)), "{line:?}");
    }
    // before `rate`, and a line too many
    let early = EXCHANGE.replace("rate=10\nnext=20\n", "next=20\nrate=10\n");
    assert_eq!(read(early.as_bytes()), Err(refused(1, 9, 0)));
    let twice = EXCHANGE.replace("next=20\n", "next=20\nnext=20\n");
    assert_eq!(read(twice.as_bytes()), Err(refused(1, 11, 0)));
}

/// `net` other than 1, 2 and 3: 2 at line 1, before all else.
#[test]
fn no_other_edition() {
    let refusal = refused(2, 1, 0);
    let good = exchange(35, 0, 0);
    let of_edition_3 = vec![3, 250, 0, 0, 1, 0, 0, 35, 0];
    for net in [0, 4, 5, 10, 255, 9_999_999_999u64] {
        let text = EXCHANGE.replace("net=2", &format!("net={net}"));
        assert_eq!(read(text.as_bytes()), Err(refusal), "{net}");
        assert_eq!(read(format!("net={net}\n").as_bytes()), Err(refusal));
    }
    for net in [
        0,
        4,
        5,
        1 << 32,
        (1 << 32) + 2,
        (1 << 32) + 3,
        10_000_000_000,
        1 << 63,
        u64::MAX,
    ] {
        for list in [&good, &of_edition_3, &vec![2]] {
            let mut list = list.clone();
            list[0] = net;
            assert_eq!(write(&list), Err(refusal), "{list:?}");
            assert_eq!(plan(&list), Err(refusal));
            assert_eq!(check(&list, &[]), refused_at(2, 1, 0));
        }
    }
    // not in its form, or not there
    for text in ["net=02", "net=10000000000", "net=", "net=2.0", "net=-2"] {
        let text = EXCHANGE.replace("net=2", text);
        assert_eq!(read(text.as_bytes()), Err(refused(1, 1, 0)));
    }
    assert_eq!(read(b"net=2"), Err(refused(1, 1, 0)));
    assert_eq!(read(b"net=2\n"), Err(refused(3, 2, 0)));
    assert_eq!(plan(&[2]), Err(refused(3, 2, 0)));
    // a remark before it counts as a line
    assert_eq!(read(b"# why\nnet=4\n"), Err(refused(2, 2, 0)));
}

/// A flow has two lines in edition 1 and three in edition 2.
#[test]
fn the_lines_of_the_other_edition() {
    // `next` where the next class should stand
    let text = EXCHANGE.replace("net=2", "net=1");
    assert_eq!(read(text.as_bytes()), Err(refused(1, 10, 0)));
    // the next class, or the first tunnel, where `next` should stand
    let text = EXCHANGE.replace("next=20\n", "").replace("next=10\n", "");
    assert_eq!(read(text.as_bytes()), Err(refused(1, 10, 0)));
    let text = EXCHANGE.replace("next=10\n", "");
    assert_eq!(read(text.as_bytes()), Err(refused(1, 13, 0)));
    // in a list the numbers stand for other lines: a class of 20
    let mut list = exchange(35, 0, 0);
    list[0] = 1;
    for answer in [write(&list).map(|_| ()), plan(&list).map(|_| ())] {
        assert_eq!(answer, Err(refused(2, 10, 0)));
    }
    // of one flow: a tunnel of flow 20
    let three = [1, 20, 0, 1, 1, 1, 30, 0, 10, 20, 0, 1, 10, 20];
    assert_eq!(write(&three), Err(refused(2, 10, 0)));
    // two numbers a flow: `flow` is taken for `next`, and the tunnel's set for its flow
    let two = [2, 20, 0, 1, 1, 1, 30, 0, 10, 0, 1, 10, 10];
    assert_eq!(write(&two), Err(refused(2, 11, 0)));
    // a class is taken for `next` and a rate for a class, of two flows
    let two = [2, 20, 0, 1, 2, 0, 30, 0, 10, 1, 10];
    assert_eq!(write(&two), Err(refused(2, 11, 0)));
    // and where all are in range, a number is missing at the end or too many
    let two = [2, 20, 0, 1, 1, 0, 30, 0, 0];
    assert_eq!(write(&two), Err(refused(3, 10, 0)));
    let three = [1, 20, 0, 1, 1, 0, 30, 0, 0, 0];
    assert_eq!(write(&three), Err(refused(3, 10, 0)));
}

/// Every byte of the text changed into every other, left out, and every byte put before it: the two
/// implementations agree, and some are good.
#[test]
fn every_byte() {
    let text = EXCHANGE.as_bytes();
    let mut good = 0;
    for at in 0..=text.len() {
        for byte in 0..=255 {
            let put = [&text[..at], &[byte], &text[at..]].concat();
            good += u64::from(read(&put).is_ok());
            if at < text.len() {
                let other = [&text[..at], &[byte], &text[at + 1..]].concat();
                good += u64::from(read(&other).is_ok());
            }
        }
        if at < text.len() {
            let out = [&text[..at], &text[at + 1..]].concat();
            good += u64::from(read(&out).is_ok());
        }
    }
    assert!(good > text.len() as u64);
}

#[test]
fn every_truncation() {
    let text = EXCHANGE.as_bytes();
    for length in 0..text.len() {
        let cut = &text[..length];
        let before = cut.iter().filter(|&&byte| byte == b'\n').count() as u64;
        let between = cut.last().is_none_or(|&byte| byte == b'\n');
        let number = if between { 3 } else { 1 };
        assert_eq!(read(cut), Err(refused(number, before + 1, 0)));
    }
    let list = exchange(35, 0, 0);
    for length in 0..list.len() {
        let missing = refused(3, length as u64 + 1, 0);
        assert_eq!(write(&list[..length]), Err(missing));
        assert_eq!(plan(&list[..length]), Err(missing));
    }
    for more in [0, 1, 20, u64::MAX] {
        let long = [&list[..], &[more]].concat();
        assert_eq!(write(&long), Err(refused(3, 22, 0)));
        assert_eq!(plan(&long), Err(refused(3, 22, 0)));
    }
}

/// The largest network: its list has 550 numbers, and no list of edition 1 has more than 518; one of
/// edition 3 may have more.
#[test]
fn the_longest_list() {
    let mut list = vec![2, 500, 500, 64, 32, 96];
    list.extend([AMOUNT; 64]);
    list.extend([2, AMOUNT, AMOUNT].repeat(32));
    for flow in 0..32 {
        list.extend([flow, u64::MAX, AMOUNT, 0]);
        list.extend([flow, u64::MAX, 0, AMOUNT]);
        list.extend([flow, u64::MAX, 0, 0]);
    }
    assert_eq!(list.len(), 550);
    assert_eq!(NETWORK_NUMBERS, 550 + 1 + 64);
    let text = write(&list).expect("a text");
    assert_eq!(read(&text), Ok(list.clone()));
    // with its remarks too
    assert!(text.len() + 32 * 81 <= TEXT_BYTES);
    for room in [0, 518, 549] {
        let mut out = vec![7; room];
        let answer = pavuneshil::read_network(&text, &mut out);
        assert_eq!(answer, Answer::Refused(refused(10, 550, 0)));
        assert_eq!(out, vec![7; room]);
    }
    // 32 x 10,000,000 on a link of 10,000,000
    assert_eq!(plan(&list), Err(refused(9, 1, 0)));
    assert_eq!(check(&list, &[1, 1, 1, 96]).0, Some(refused(8, 1, 0)));
}

// ------------------------------------------------------------------ edition 1

/// A list of edition 1 and the one of edition 2 with `next` = `rate` get the same plan, and every
/// plan the same verdict.
fn say_the_same(first: &[u64], second: &[u64], plans: &[Vec<u64>]) {
    assert_eq!((first[0], second[0]), (1, 2));
    assert_eq!(second.len(), first.len() + first[4] as usize);
    assert_eq!(plan(second), plan(first));
    for plan in plans {
        assert_eq!(check(second, plan), check(first, plan));
    }
}

#[test]
fn edition_1_as_if_next_equalled_rate() {
    let swap = |cap| {
        [
            1, 333, 0, 2, 2, 4, cap, cap, 0, 10, 0, 10, //
            0, 1, 10, 0, 0, 2, 0, 10, 1, 2, 10, 0, 1, 1, 0, 10,
        ]
    };
    let with_next = |cap| {
        [
            2, 333, 0, 2, 2, 4, cap, cap, 0, 10, 10, 0, 10, 10, //
            0, 1, 10, 0, 0, 2, 0, 10, 1, 2, 10, 0, 1, 1, 0, 10,
        ]
    };
    let halves = vec![1, 2, 2, 4, 10, 10, 10, 10];
    let plans = [
        halves.clone(),
        vec![1, 1, 1, 4],
        vec![1, 2, 2, 4, 11, 10, 10, 10],
        vec![1, 2, 2, 4, 10, 10, 10, 9],
    ];
    let (one, two) = (swap(15), with_next(15));
    say_the_same(&one, &two, &plans);
    // what they say
    assert_eq!(plan(&two), Ok(halves));
    let verdicts: Vec<_> = plans.iter().map(|plan| check(&two, plan)).collect();
    let overload = (Some(refused(7, 1, 0)), vec![0, 0, 0, 1]);
    let rest = [refused_at(6, 1, 0), refused_at(6, 1, 1)];
    assert_eq!(verdicts[..2], [accepted(4), overload]);
    assert_eq!(verdicts[2..], rest);
    for (cap, steps) in [(20, 1), (19, 2), (14, 3), (11, 10)] {
        let made = plan(&with_next(cap)).expect("a plan");
        assert_eq!(made[2], steps);
        say_the_same(&swap(cap), &with_next(cap), &[made]);
    }
    assert_eq!(plan(&with_next(10)), Err(refused(9, 1, 0)));
    say_the_same(&swap(10), &with_next(10), &plans);
    // an edition 1 list stays as it is: two numbers a flow
    let text = write(&one).expect("a text");
    assert_eq!(read(&text), Ok(one.to_vec()));
    assert!(!String::from_utf8(text).expect("plain").contains("next"));
}

/// Networks of edition 1 of any size and kind, and plans that are accepted and that are not.
#[test]
fn editions_say_the_same() {
    let mut rng = Rng::new(505);
    let (mut accepted, mut refused, mut planned) = (0, 0, 0);
    for _ in 0..3000 {
        let network = inputs::network(&mut rng);
        if network[0] != 1 {
            continue;
        }
        let plans = [
            any_plan(&mut rng, &network),
            broken_plan(&mut rng, &network),
        ];
        for plan in &plans {
            match check(&network, plan).0 {
                None => accepted += 1,
                Some(_) => refused += 1,
            }
        }
        planned += u64::from(plan(&network).is_ok());
        say_the_same(&network, &to_edition(&network, 2), &plans);
    }
    assert!(accepted > 100 && refused > 100 && planned > 100);
}

/// Rates that do not change, in edition 2, keep every row at parts x rate; and where they change, the
/// amounts of a row may be those of edition 1 with either rate.
#[test]
fn a_flow_that_stays_beside_one_that_grows() {
    // flow 0 stays at 10, flow 1 grows from 10 to 12
    let network = [
        2, 20, 0, 1, 2, 2, 100, 0, 10, 10, 0, 10, 12, //
        0, 1, 10, 10, 1, 1, 10, 12,
    ];
    for (row, expected) in [
        ([30, 30], accepted(2)),
        ([30, 36], accepted(2)),
        ([30, 37], refused_at(6, 1, 1)),
        ([30, 29], refused_at(6, 1, 1)),
        ([29, 33], refused_at(6, 1, 0)),
        ([31, 33], refused_at(6, 1, 0)),
        ([36, 36], refused_at(6, 1, 0)),
    ] {
        let plan = [&[1, 3, 2, 2], &row[..]].concat();
        assert_eq!(check(&network, &plan), expected, "{row:?}");
    }
}

// ------------------------------------------------------------------ the sample

/// As its description says: rates of 4, 6, 8 and 10 Gbit/s, and of 9, 8, 7 and 6, in three steps.
#[test]
fn of_the_sample() {
    let (network, stored) = sample_lists("broker");
    let made = plan(&network).expect("a plan");
    assert_eq!(
        made,
        [
            1, 3, 3, 5, //
            15_000, 3000, 15_000, 9000, 6000, //
            18_000, 6000, 12_000, 9000, 6000,
        ]
    );
    for (row, rates) in [(4, [6000, 8000, 2000]), (9, [8000, 7000, 2000])] {
        let at = &made[row..row + 5];
        let sums = [at[0] + at[1], at[2] + at[3], at[4]];
        assert_eq!(sums, rates.map(|rate| 3 * rate));
    }
    assert_eq!(check(&network, &made), accepted(5));
    assert_eq!(stored, made);
    // in two steps link 0 would carry 23,000 halves, of 22,400
    let two = [1, 2, 2, 5, 11_000, 3000, 9000, 6000, 4000];
    let marks = vec![1, 0, 0, 0, 0];
    assert_eq!(check(&network, &two), (Some(refused(7, 1, 0)), marks));
}
