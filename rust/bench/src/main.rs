//! Prints the time of every operation beside the second implementation's. No test: nothing fails for being slow.
//!
//! Our operations write into buffers that are lent again and again and are not cleared in between;
//! the second implementation allocates what it returns, and the desks' queues.

#![forbid(unsafe_code)]

use bench::clock::medians;
use bench::inputs::{self, Input, Tables};
use bench::LANDED;
use pavuneshil::{
    Answer, Desks, Refusal, StepBound, MARKS, PAGE_BYTES, PLAN_NUMBERS, RULES_BYTES, RULES_NUMBERS,
    SERVICES, STAGES, TEXT_BYTES,
};
use second::{
    check_plan_lag, make_plan_lag, read_network_by, read_plan_by, write_network_by, Checked,
};
use std::hint::black_box;

/// The networks of a size, and the seed of the inputs.
const COUNT: usize = 40;
const SEED: u64 = 431;

/// Planner and checker are measured with lag 1 and with this one.
const MOST_LAG: u64 = 4;

fn row(name: &str, calls: usize, ours: &mut dyn FnMut(), second: &mut dyn FnMut()) {
    let times = medians(calls, &mut [ours, second]);
    let ratio = times[1] / times[0];
    println!(
        "{name:<44} {:>12.1} {:>14.1} {ratio:>12.1}",
        times[0], times[1]
    );
}

fn told(refusal: second::Refusal) -> Refusal {
    Refusal {
        number: refusal.number,
        place: refusal.place,
        second: refusal.second,
    }
}

fn refused(refusal: second::Refusal) -> Answer {
    Answer::Refused(told(refusal))
}

/// Both answers must agree, or the times compare nothing.
fn agree<T: PartialEq>(ours: Answer, out: &[T], second: Result<Vec<T>, second::Refusal>) {
    match (ours, second) {
        (Answer::Done(length) | Answer::Plan(length), Ok(written)) => {
            assert!(out[..length] == written[..], "another output")
        }
        (_, Err(refusal)) => assert_eq!(ours, refused(refusal)),
        (_, Ok(_)) => panic!("{ours:?}, and the second implementation does it"),
    }
}

fn agree_checked(ours: Answer, marks: &[u8], second: Checked) {
    match second {
        Checked::Accepted { marks: those } => {
            assert_eq!(ours, Answer::Done(those.len()));
            assert_eq!(marks[..those.len()], those[..]);
        }
        Checked::Refused {
            refusal,
            marks: those,
        } => {
            assert_eq!(ours, refused(refusal));
            let those = those.unwrap_or_default();
            assert_eq!(marks[..those.len()], those[..]);
        }
    }
}

/// A row of an operation from one slice to another, over a field of the inputs, to so much room; each pass
/// goes over all inputs `repeat` times.
fn convert_row<I, O: PartialEq + Copy>(
    name: &str,
    (inputs, repeat): (&[Input], usize),
    pick: fn(&Input) -> &[I],
    out: &mut [O],
    room: fn(&Input) -> usize,
    ours: impl Fn(&[I], &mut [O]) -> Answer,
    second: impl Fn(&[I], usize) -> Result<Vec<O>, second::Refusal>,
) {
    for input in inputs {
        let answer = ours(pick(input), &mut out[..room(input)]);
        agree(answer, out, second(pick(input), room(input)));
    }
    row(
        name,
        inputs.len() * repeat,
        &mut || {
            for input in (0..repeat).flat_map(|_| inputs) {
                black_box(ours(black_box(pick(input)), &mut out[..room(input)]));
            }
        },
        &mut || {
            for input in (0..repeat).flat_map(|_| inputs) {
                black_box(second(black_box(pick(input)), room(input))).ok();
            }
        },
    );
}

/// A row of the checker, on the network itself or another that the input has.
fn check_row(
    name: &str,
    (inputs, repeat): (&[Input], usize),
    pick: fn(&Input) -> &[u64],
    room: usize,
) {
    let mut marks = [0u8; MARKS];
    for input in inputs {
        let (lag, network, plan) = (input.lag, pick(input), &input.plan);
        let answer = pavuneshil::check_plan(lag, network, plan, &mut marks[..room]);
        let second = check_plan_lag(&LANDED, network, plan, lag, room);
        agree_checked(answer, &marks, second);
    }
    row(
        name,
        inputs.len() * repeat,
        &mut || {
            for input in (0..repeat).flat_map(|_| inputs) {
                black_box(pavuneshil::check_plan(
                    black_box(input.lag),
                    black_box(pick(input)),
                    black_box(&input.plan),
                    &mut marks[..room],
                ));
            }
        },
        &mut || {
            for input in (0..repeat).flat_map(|_| inputs) {
                black_box(check_plan_lag(
                    &LANDED,
                    black_box(pick(input)),
                    black_box(&input.plan),
                    black_box(input.lag),
                    room,
                ));
            }
        },
    );
}

/// A row of the page of a step: of one that the plan has, which is picked, or of one after its last.
fn page_row(name: &str, (inputs, repeat): (&[Input], usize), pick: fn(&Input) -> u64) {
    let mut out = [0u8; PAGE_BYTES];
    let second =
        |input: &Input, step| second::page(&LANDED, &input.network, &input.plan, step, PAGE_BYTES);
    for input in inputs {
        let step = pick(input);
        let answer = pavuneshil::page(&input.network, &input.plan, step, &mut out);
        agree(answer, &out, second(input, step));
    }
    row(
        name,
        inputs.len() * repeat,
        &mut || {
            for input in (0..repeat).flat_map(|_| inputs) {
                black_box(pavuneshil::page(
                    black_box(&input.network),
                    black_box(&input.plan),
                    black_box(pick(input)),
                    &mut out,
                ));
            }
        },
        &mut || {
            for input in (0..repeat).flat_map(|_| inputs) {
                black_box(second(black_box(input), black_box(pick(input)))).ok();
            }
        },
    );
}

/// Rows of the page, of inputs that were made for lag 1.
fn page_rows(inputs: (&[Input], usize)) {
    page_row("page, the first step", inputs, |_| 1);
    page_row("page, the last step", inputs, |input| input.plan[2]);
    page_row("page, refused 11", inputs, |input| input.plan[2] + 1);
}

/// Rows of the texts of one set of inputs.
fn text_rows(inputs: (&[Input], usize)) {
    let mut numbers = vec![0u64; PLAN_NUMBERS];
    let mut text = vec![0u8; TEXT_BYTES];
    let second_read = |text: &[u8], room| read_network_by(&LANDED, text, room);
    let second_write = |list: &[u64], room| write_network_by(&LANDED, list, room);
    for (name, pick) in [
        (
            "read_network",
            (|input| &input.network_text) as fn(&Input) -> &[u8],
        ),
        ("read_network, 32 remarks of 80 bytes", |input| {
            &input.remarked_text
        }),
    ] {
        convert_row(
            name,
            inputs,
            pick,
            &mut numbers,
            |_| PLAN_NUMBERS,
            pavuneshil::read_network,
            second_read,
        );
    }
    convert_row(
        "read_plan",
        inputs,
        |input| &input.plan_text,
        &mut numbers,
        |_| PLAN_NUMBERS,
        pavuneshil::read_plan,
        |text: &[u8], room| read_plan_by(&LANDED, text, room),
    );
    for (name, room) in [
        ("write_network", (|_| TEXT_BYTES) as fn(&Input) -> usize),
        ("write_network, room exact", |input| {
            input.network_text.len()
        }),
    ] {
        convert_row(
            name,
            inputs,
            |input| &input.network,
            &mut text,
            room,
            pavuneshil::write_network,
            second_write,
        );
    }
    for (name, room) in [
        ("write_plan", (|_| TEXT_BYTES) as fn(&Input) -> usize),
        ("write_plan, room exact", |input| input.plan_text.len()),
    ] {
        convert_row(
            name,
            inputs,
            |input| &input.plan,
            &mut text,
            room,
            pavuneshil::write_plan,
            second::write_plan,
        );
    }
}

/// Rows of the planner and the checker, with the lag that the inputs were made for.
fn plan_rows(inputs: (&[Input], usize)) {
    let mut numbers = vec![0u64; PLAN_NUMBERS];
    let lag = inputs.0[0].lag;
    let with_lag = match lag {
        1 => String::new(),
        _ => format!(", lag {lag}"),
    };
    for (name, pick) in [
        (
            "make_plan",
            (|input| &input.network) as fn(&Input) -> &[u64],
        ),
        ("make_plan, refused 9", |input| &input.stuck),
    ] {
        convert_row(
            &format!("{name}{with_lag}"),
            inputs,
            pick,
            &mut numbers,
            |_| PLAN_NUMBERS,
            |list, out| pavuneshil::make_plan(lag, list, out),
            |list: &[u64], room| make_plan_lag(&LANDED, list, lag, room),
        );
    }
    let of = |name: &str| format!("{name}{with_lag}");
    check_row(
        &of("check_plan, accepted"),
        inputs,
        |input| &input.network,
        MARKS,
    );
    check_row(
        &of("check_plan, refused 7 or 8"),
        inputs,
        |input| &input.tight,
        MARKS,
    );
    if lag == 1 {
        let name = "check_plan, judging alone (no marks, 10)";
        check_row(name, inputs, |input| &input.network, 0);
    }
}

/// A row of rule tables: an operation on what is picked of them, to as much output as there is room for.
fn rules_row<I, O: PartialEq + Default + Copy, const ROOM: usize>(
    name: &str,
    tables: &[Tables],
    pick: fn(&Tables) -> &[I],
    ours: impl Fn(&[I], &mut [O]) -> Answer,
    second: impl Fn(&[I], usize) -> Result<Vec<O>, second::Refusal>,
) {
    let mut out = [O::default(); ROOM];
    for input in tables.iter().map(pick) {
        agree(ours(input, &mut out), &out, second(input, ROOM));
    }
    row(
        name,
        tables.len(),
        &mut || {
            for input in tables.iter().map(pick) {
                black_box(ours(black_box(input), &mut out));
            }
        },
        &mut || {
            for input in tables.iter().map(pick) {
                black_box(second(black_box(input), ROOM)).ok();
            }
        },
    );
}

/// Rows of rule tables.
fn rules_rows(tables: &[Tables]) {
    use pavuneshil::{read_rules, stage_rules, write_rules};
    rules_row::<_, _, RULES_NUMBERS>(
        "read_rules",
        tables,
        |tables| &tables.text,
        read_rules,
        second::read_rules,
    );
    rules_row::<_, _, RULES_BYTES>(
        "write_rules",
        tables,
        |tables| &tables.list,
        write_rules,
        second::write_rules,
    );
    for (name, pick) in [
        (
            "stage_rules",
            (|tables| &tables.list) as fn(&Tables) -> &[u64],
        ),
        ("stage_rules, refused 18", |tables| &tables.short),
    ] {
        rules_row::<_, _, STAGES>(name, tables, pick, stage_rules, second::stage_rules);
    }
}

/// A row of sharing.
fn share_row(name: &str, cases: &[(u64, Vec<u64>)]) {
    let mut out = [0; SERVICES];
    for (rate, demands) in cases {
        let answer = pavuneshil::share(*rate, demands, &mut out);
        agree(answer, &out, second::share(*rate, demands, SERVICES));
    }
    row(
        name,
        cases.len(),
        &mut || {
            for (rate, demands) in cases {
                black_box(pavuneshil::share(
                    black_box(*rate),
                    black_box(demands),
                    &mut out,
                ));
            }
        },
        &mut || {
            for (rate, demands) in cases {
                black_box(second::share(
                    black_box(*rate),
                    black_box(demands),
                    SERVICES,
                ))
                .ok();
            }
        },
    );
}

/// The same state, ours and the second implementation's.
type Both = (Desks, second::Desks);

fn agree_submitted(both: &mut Both, desk: u64, tag: u32) {
    let ours = both.0.submit(desk, tag).map(|job| (job.number, job.before));
    let second = both
        .1
        .submit(desk, tag)
        .map(|job| (job.number, job.before.unwrap()));
    assert_eq!(ours, second.map_err(told));
}

fn agree_handed(both: &mut Both) {
    let ours = both.0.hand_out().map(|job| (job.desk, job.number, job.tag));
    let second = both.1.hand_out().map(|job| (job.desk, job.number, job.tag));
    assert_eq!(ours, second.map_err(told));
}

/// A row of the desks: from a copy of each state, a call for each job of a round. The copy counts.
fn desk_row<A, B>(
    name: &str,
    states: &[Both],
    rounds: &[Vec<(u64, u32)>],
    ours: impl Fn(&mut Desks, u64, u32) -> A,
    second: impl Fn(&mut second::Desks, u64, u32) -> B,
) {
    row(
        name,
        rounds.iter().map(Vec::len).sum(),
        &mut || {
            for (state, jobs) in states.iter().zip(rounds) {
                let mut desks = state.0;
                for &(desk, tag) in jobs {
                    black_box(ours(&mut desks, black_box(desk), black_box(tag)));
                }
            }
        },
        &mut || {
            for (state, jobs) in states.iter().zip(rounds) {
                let mut desks = state.1.clone();
                for &(desk, tag) in jobs {
                    black_box(second(&mut desks, black_box(desk), black_box(tag)));
                }
            }
        },
    );
}

/// Rows of the desks, with nothing waiting and with four jobs of each desk.
fn desk_rows(rounds: &[Vec<(u64, u32)>]) {
    let empty = (Desks::new(), second::Desks::new(&LANDED));
    let empty = vec![empty; rounds.len()];
    let mut full = empty.clone();
    for (state, jobs) in full.iter_mut().zip(rounds) {
        for &(desk, tag) in jobs {
            agree_submitted(state, desk, tag);
        }
        // one refused
        agree_submitted(state, 0, 0);
        let mut state = state.clone();
        for _ in 0..=jobs.len() {
            agree_handed(&mut state);
        }
    }
    for (name, states) in [("submit", &empty), ("submit, refused 13", &full)] {
        desk_row(
            name,
            states,
            rounds,
            |desks, desk, tag| desks.submit(desk, tag),
            |desks, desk, tag| desks.submit(desk, tag),
        );
    }
    for (name, states) in [("hand_out", &full), ("hand_out, refused 14", &empty)] {
        desk_row(
            name,
            states,
            rounds,
            |desks, _, _| desks.hand_out(),
            |desks, _, _| desks.hand_out(),
        );
    }
}

fn main() {
    println!("nanoseconds of one call, medians of one run; the inputs in turn; buffers lent again, not cleared");
    println!(
        "{:<44} {:>12} {:>14} {:>12}",
        "operation", "ours", "second", "second/ours"
    );
    for (name, hops) in [("sparse via, 4 links", 4), ("dense via, 32 links", 32)] {
        for (edition, unit) in [
            ("edition 1", None),
            ("edition 3, unit 0", Some(0)),
            ("edition 3, unit 1", Some(1)),
        ] {
            println!(
                "-- {COUNT} networks of 64 links, 32 flows, 96 tunnels; 50 steps; {name} a tunnel; {edition}"
            );
            let inputs = inputs::largest(COUNT, hops, unit, 1, SEED);
            text_rows((&inputs, 1));
            plan_rows((&inputs, 1));
            page_rows((&inputs, 1));
            // the same but for the capacities, which are those of a plan of 50 steps again
            plan_rows((&inputs::largest(COUNT, hops, unit, MOST_LAG, SEED), 1));
        }
    }
    println!("-- the swap");
    let swap = [inputs::swap(1)];
    text_rows((&swap, 500));
    plan_rows((&swap, 500));
    page_rows((&swap, 500));
    plan_rows((&[inputs::swap(MOST_LAG)], 500));

    let shares = inputs::shares(4096, SEED);
    println!("-- {} pairs of scratch and overrun", shares.len());
    for &(scratch, overrun) in &shares {
        let second = second::step_bound(scratch, overrun).expect("in range");
        assert_eq!(
            pavuneshil::step_bound(scratch, overrun),
            StepBound::Steps(second)
        );
    }
    row(
        "step_bound",
        shares.len(),
        &mut || {
            for &(scratch, overrun) in &shares {
                black_box(pavuneshil::step_bound(
                    black_box(scratch),
                    black_box(overrun),
                ));
            }
        },
        &mut || {
            for &(scratch, overrun) in &shares {
                black_box(second::step_bound(black_box(scratch), black_box(overrun))).ok();
            }
        },
    );

    for (name, hops) in [
        ("sparse via, 4 switches", 4),
        ("dense via, 32 switches", 32),
    ] {
        println!(
            "-- {COUNT} rule tables of 64 switches, 96 tunnels; slack 20, 49 stages; {name} a tunnel"
        );
        rules_rows(&inputs::tables(COUNT, hops, SEED));
    }

    println!("-- a rate shared among 16 services, 1,024 times");
    share_row("share, each met", &inputs::demands(1024, true, SEED));
    share_row("share, cut", &inputs::demands(1024, false, SEED));
    share_row("share, met one by one", &inputs::stairs(1024, SEED));

    let rounds = inputs::submissions(64, SEED);
    println!(
        "-- the desks: {} rounds of 32 jobs, four of each desk; a copy of the state before each round",
        rounds.len()
    );
    desk_rows(&rounds);
}
