//! One call of one operation, compared whole. The lent output lies in the middle of a larger buffer
//! that is filled with a pattern, and all of the buffer is compared: what was written, what lies
//! beyond it, and what lies around what was lent.

use crate::{Outcome, Reached};
use compare::{inputs, LANDED};
use pavuneshil::{Answer, Refusal, StepBound};
use second::gen::Rng;
use second::Checked;
use std::fmt::Debug;

/// So much of the buffer lies before and after what is lent.
const AROUND: usize = 8;

/// The longest output is the text of the longest plan; a length at which nothing is ever short.
const AMPLE: usize = 65_536;

/// A length to lend where so much is needed: exact, one short, none, ample, or any. `needed` is
/// `None` where the input is refused before the room counts.
fn room(rng: &mut Rng, needed: Option<usize>, other: usize) -> usize {
    let needed = needed.unwrap_or(other);
    match rng.below(10) {
        0..=2 => needed,
        3..=4 => needed.saturating_sub(1),
        5 => 0,
        6 => needed + 1,
        7 => needed + rng.below(40) as usize,
        8 => rng.below(needed as u64 + 1) as usize,
        _ => {
            if rng.percent(20) {
                AMPLE
            } else {
                needed + 100
            }
        }
    }
}

/// How a room compares with what is needed, for the account.
fn room_name(room: usize, needed: Option<usize>) -> &'static str {
    match needed {
        None => "",
        Some(n) if room == n => ", room exact",
        Some(n) if room + 1 == n => ", room one short",
        Some(_) if room == 0 => ", room zero",
        Some(n) if room < n => ", room short",
        Some(_) => ", room ample",
    }
}

/// The refusal of the second implementation, in the library's type.
pub fn told(refusal: second::Refusal) -> Refusal {
    Refusal {
        number: refusal.number,
        place: refusal.place,
        second: refusal.second,
    }
}

/// A refusal as the kinds of cases name it: its number and, where it has several causes, which.
fn named(refusal: Refusal) -> String {
    let cause = match (refusal.number, refusal.place, refusal.second) {
        (1..=3, _, 0) => ", network",
        (1..=3, _, 1) => ", plan",
        (1..=3, _, _) => ", rules",
        (4 | 18, _, 0) => ", old",
        (4 | 18, _, _) => ", new",
        (11, 0, _) => ", below",
        (11, _, _) => ", above",
        (21, 0, 0) => ", count",
        (21, 0, _) => ", rate",
        (21, _, _) => ", demand",
        _ => "",
    };
    format!("refusal {}{cause}", refusal.number)
}

/// What the second implementation answers, as the kinds of cases name it.
fn named_answer<T>(answer: &Result<Vec<T>, second::Refusal>, good: &str) -> String {
    match answer {
        Ok(_) => good.to_string(),
        Err(refusal) => named(told(*refusal)),
    }
}

/// An answer that depends on the lag, with the edition and the lag.
pub fn by_lag(answer: &str, edition: Option<&str>, lag: u64) -> String {
    format!("{}, lag {lag}", by_edition(answer, edition))
}

/// An answer of the planner or the checker: by edition and lag where it depends on the lag, by edition where
/// it does not; and 19 with what the answer is with lag 1.
fn with_lag(answer: &str, edition: Option<&str>, lag: u64, with_lag_1: &str) -> String {
    match answer {
        "plan" | "done" | "refusal 7" | "refusal 8" | "refusal 9" => by_lag(answer, edition, lag),
        "refusal 19" => format!("{answer} before {with_lag_1}"),
        _ => by_edition(answer, edition),
    }
}

/// An answer with the edition by which its network was judged; by none, the answer itself.
pub fn by_edition(answer: &str, edition: Option<&str>) -> String {
    match edition {
        Some(edition) => format!("{answer}, {edition}"),
        None => answer.to_string(),
    }
}

/// A buffer with the pattern of this case.
fn pattern<T>(rng: &mut Rng, length: usize, make: fn(u64) -> T) -> Vec<T> {
    let base = rng.any();
    (0..length as u64)
        .map(|i| make((base ^ i).wrapping_mul(0x9e37_79b9_7f4a_7c15) >> 8))
        .collect()
}

/// Lends the middle of a patterned buffer of this room to `call`, and compares the answer, and
/// the whole buffer with the pattern into which `written` was put at the start of what was lent.
fn lend<T: Copy + PartialEq + Debug>(
    rng: &mut Rng,
    make: fn(u64) -> T,
    room: usize,
    call: impl FnOnce(&mut [T]) -> Answer,
    expected: Answer,
    written: &[T],
) -> Result<(), String> {
    let mut buffer = pattern(rng, room + 2 * AROUND, make);
    let mut whole = buffer.clone();
    whole[AROUND..AROUND + written.len()].copy_from_slice(written);
    let answer = call(&mut buffer[AROUND..AROUND + room]);
    if answer != expected {
        return Err(format!("{answer:?}, expected {expected:?}, room {room}"));
    }
    if let Some(at) = (0..whole.len()).find(|&i| buffer[i] != whole[i]) {
        return Err(format!(
            "{answer:?}, room {room}: at {} of what was lent {:?}, expected {:?}",
            at as i64 - AROUND as i64,
            buffer[at],
            whole[at]
        ));
    }
    Ok(())
}

/// An operation from one slice to another, held against the second implementation's. An answer is counted as
/// `called` says, of the answer and the room.
#[allow(clippy::too_many_arguments)]
fn convert<I: Copy + PartialEq + Debug, O: Copy + PartialEq + Debug>(
    rng: &mut Rng,
    name: &str,
    called: impl Fn(&str, usize) -> String,
    input: &[I],
    make: fn(u64) -> O,
    ours: impl Fn(&[I], &mut [O]) -> Answer,
    theirs: impl Fn(&[I], usize) -> Result<Vec<O>, second::Refusal>,
    good: fn(usize) -> Answer,
) -> Outcome {
    let needed = theirs(input, usize::MAX).map(|output| output.len());
    let room = room(rng, needed.ok(), input.len());
    let given = input.to_vec();
    let (expected, written) = match theirs(input, room) {
        Ok(output) => (good(output.len()), output),
        Err(refusal) => (Answer::Refused(told(refusal)), Vec::new()),
    };
    lend(rng, make, room, |out| ours(&given, out), expected, &written)
        .and_then(|()| {
            if given == input {
                Ok(())
            } else {
                Err("the input was changed".to_string())
            }
        })
        .map_err(|why| format!("{name}: {why}: {input:?}"))?;
    let answer = match expected {
        Answer::Done(_) => "done".to_string(),
        Answer::Plan(_) => "plan".to_string(),
        Answer::Refused(refusal) => named(refusal),
    };
    let answer = called(&answer, room);
    Ok(Reached::one(name, &answer, room_name(room, needed.ok())))
}

/// An answer by the edition of the network, or by none.
fn of_edition(edition: Option<&'static str>) -> impl Fn(&str, usize) -> String {
    move |answer, _| by_edition(answer, edition)
}

fn number(n: u64) -> u64 {
    n
}

fn byte(n: u64) -> u8 {
    (n % 256) as u8
}

pub fn read_network(rng: &mut Rng) -> Outcome {
    let text = inputs::network_text(rng);
    convert(
        rng,
        "read_network",
        of_edition(inputs::edition_of_text(&text)),
        &text,
        number,
        pavuneshil::read_network,
        |text, room| second::read_network_by(&LANDED, text, room),
        Answer::Done,
    )
}

pub fn read_plan(rng: &mut Rng) -> Outcome {
    let text = inputs::plan_text(rng);
    convert(
        rng,
        "read_plan",
        of_edition(None),
        &text,
        number,
        pavuneshil::read_plan,
        |text, room| second::read_plan_by(&LANDED, text, room),
        Answer::Done,
    )
}

pub fn write_network(rng: &mut Rng) -> Outcome {
    let list = inputs::any_network_list(rng, 1);
    convert(
        rng,
        "write_network",
        of_edition(inputs::edition_of_list(&list)),
        &list,
        byte,
        pavuneshil::write_network,
        |list, room| second::write_network_by(&LANDED, list, room),
        Answer::Done,
    )
}

pub fn write_plan(rng: &mut Rng) -> Outcome {
    let list = inputs::any_plan_list(rng);
    convert(
        rng,
        "write_plan",
        of_edition(None),
        &list,
        byte,
        pavuneshil::write_plan,
        second::write_plan,
        Answer::Done,
    )
}

pub fn make_plan(rng: &mut Rng) -> Outcome {
    let lag = inputs::lag(rng);
    let list = inputs::any_network_list(rng, lag);
    let edition = inputs::edition_of_list(&list);
    convert(
        rng,
        "make_plan",
        |answer, room| {
            let with_lag_1 = second::make_plan_by(&LANDED, &list, room);
            with_lag(answer, edition, lag, &named_answer(&with_lag_1, "plan"))
        },
        &list,
        number,
        |list, out| pavuneshil::make_plan(lag, list, out),
        |list, room| second::make_plan_lag(&LANDED, list, lag, room),
        Answer::Plan,
    )
    .map_err(|why| format!("{why}, lag {lag}"))
}

/// The second implementation's check, as an answer and the marks that it puts.
fn second_check(lag: u64, network: &[u64], plan: &[u64], room: usize) -> (Answer, Vec<u8>) {
    match second::check_plan_lag(&LANDED, network, plan, lag, room) {
        Checked::Accepted { marks } => (Answer::Done(marks.len()), marks),
        Checked::Refused { refusal, marks } => {
            (Answer::Refused(told(refusal)), marks.unwrap_or_default())
        }
    }
}

pub fn check_plan(rng: &mut Rng) -> Outcome {
    let lag = inputs::lag(rng);
    let (network, plan) = inputs::pair(rng, lag);
    let tunnels = if network.first() == Some(&3) { 6 } else { 5 };
    let needed = network.get(tunnels).map_or(0, |&count| count.min(96)) as usize;
    let room = room(rng, Some(needed), needed);
    let (expected, written) = second_check(lag, &network, &plan, room);
    let given = (network.clone(), plan.clone());
    lend(
        rng,
        byte,
        room,
        |marks| pavuneshil::check_plan(lag, &given.0, &given.1, marks),
        expected,
        &written,
    )
    .and_then(|()| {
        if given.0 == network && given.1 == plan {
            Ok(())
        } else {
            Err("the input was changed".to_string())
        }
    })
    .map_err(|why| format!("check_plan: {why}: {network:?} {plan:?}, lag {lag}"))?;
    let named_check = |answer| match answer {
        Answer::Refused(refusal) => named(refusal),
        _ => "done".to_string(),
    };
    let counts = match expected {
        Answer::Refused(refusal) => matches!(refusal.number, 7 | 8 | 10),
        _ => true,
    };
    let with_lag_1 = named_check(second_check(1, &network, &plan, room).0);
    let edition = inputs::edition_of_list(&network);
    let answer = with_lag(&named_check(expected), edition, lag, &with_lag_1);
    let how = room_name(room, counts.then_some(needed));
    Ok(Reached::one("check_plan", &answer, how))
}

/// The page of a step. Beside the answer by edition it is counted which later refusal an answer comes before:
/// those of the checker before 11, which step 0 would meet, and 11 before 10.
pub fn page(rng: &mut Rng) -> Outcome {
    let (network, plan, step) = inputs::step_of_plan(rng);
    let theirs = |room| second::page(&LANDED, &network, &plan, step, room);
    let needed = theirs(usize::MAX).map(|page| page.len()).ok();
    let of_network = inputs::page_bytes(&network);
    let room = room(rng, needed, of_network);
    let (expected, written) = match theirs(room) {
        Ok(page) => (Answer::Done(page.len()), page),
        Err(refusal) => (Answer::Refused(told(refusal)), Vec::new()),
    };
    let given = (network.clone(), plan.clone());
    lend(
        rng,
        byte,
        room,
        |out| pavuneshil::page(&given.0, &given.1, step, out),
        expected,
        &written,
    )
    .and_then(|()| {
        if given.0 == network && given.1 == plan {
            Ok(())
        } else {
            Err("the input was changed".to_string())
        }
    })
    .map_err(|why| format!("page: {why}: {network:?} {plan:?}, step {step}"))?;
    let answer = match expected {
        Answer::Refused(refusal) => named(refusal),
        _ => "done".to_string(),
    };
    let before = match expected {
        Answer::Refused(refusal) if refusal.number < 10 && step == 0 => Some("refusal 11"),
        Answer::Refused(refusal) if refusal.number == 11 && room < of_network => Some("refusal 10"),
        _ => None,
    };
    let edition = inputs::edition_of_list(&network);
    let how = room_name(room, needed);
    let mut reached = Reached::one("page", &by_edition(&answer, edition), how);
    let before = before.map(|later| format!("{answer} before {later}"));
    reached.answers.extend(before);
    Ok(reached)
}

pub fn step_bound(rng: &mut Rng) -> Outcome {
    let (scratch, overrun) = (inputs::share(rng), inputs::share(rng));
    let expected = match second::step_bound(scratch, overrun) {
        Ok(steps) => StepBound::Steps(steps),
        Err(refusal) => StepBound::Refused(told(refusal)),
    };
    let answer = pavuneshil::step_bound(scratch, overrun);
    if answer != expected {
        return Err(format!(
            "step_bound({scratch}, {overrun}): {answer:?}, expected {expected:?}"
        ));
    }
    let answer = match expected {
        StepBound::Steps(_) => "steps",
        StepBound::Refused(refusal) if refusal.place == 2 => "refusal 2, scratch",
        StepBound::Refused(_) => "refusal 2, overrun",
    };
    Ok(Reached::one("step_bound", answer, ""))
}

pub fn share(rng: &mut Rng) -> Outcome {
    let (rate, demands) = inputs::sharing(rng);
    let wanted: u128 = demands.iter().copied().map(u128::from).sum();
    let name = if wanted <= rate.into() {
        "share, each met"
    } else {
        "share, cut"
    };
    convert(
        rng,
        name,
        of_edition(None),
        &demands,
        number,
        |demands, out| pavuneshil::share(rate, demands, out),
        |demands, room| second::share(rate, demands, room),
        Answer::Done,
    )
    .map_err(|why| format!("{why}, rate {rate}"))
}

pub fn read_rules(rng: &mut Rng) -> Outcome {
    let text = inputs::rules_text(rng);
    convert(
        rng,
        "read_rules",
        of_edition(None),
        &text,
        number,
        pavuneshil::read_rules,
        second::read_rules,
        Answer::Done,
    )
}

pub fn write_rules(rng: &mut Rng) -> Outcome {
    let list = inputs::any_rules_list(rng);
    convert(
        rng,
        "write_rules",
        of_edition(None),
        &list,
        byte,
        pavuneshil::write_rules,
        second::write_rules,
        Answer::Done,
    )
}

pub fn stage_rules(rng: &mut Rng) -> Outcome {
    let list = inputs::any_rules_list(rng);
    let name = match second::stage_rules(&list, usize::MAX) {
        Ok(stages) => match stages.iter().max() {
            None => "stage_rules, no tunnels",
            Some(0) => "stage_rules, all kept",
            Some(1) => "stage_rules, one stage",
            Some(_) => "stage_rules, more stages",
        },
        Err(_) => "stage_rules",
    };
    convert(
        rng,
        name,
        of_edition(None),
        &list,
        number,
        pavuneshil::stage_rules,
        second::stage_rules,
        Answer::Done,
    )
}

#[cfg(test)]
mod tests {
    use super::*;

    /// Every pair about the ranges.
    #[test]
    fn every_step_bound() {
        for scratch in 0..=520 {
            for overrun in 0..=520 {
                let expected = match second::step_bound(scratch, overrun) {
                    Ok(steps) => StepBound::Steps(steps),
                    Err(refusal) => StepBound::Refused(told(refusal)),
                };
                assert_eq!(pavuneshil::step_bound(scratch, overrun), expected);
            }
        }
    }

    /// Every sharing among up to four services with demands up to 4.
    #[test]
    fn every_small_share() {
        for count in 1..=4 {
            for code in 0..5u64.pow(count) {
                let demands: Vec<u64> = (0..count).map(|i| code / 5u64.pow(i) % 5).collect();
                for rate in 0..=17 {
                    let mut out = vec![0; demands.len()];
                    let answer = pavuneshil::share(rate, &demands, &mut out);
                    assert_eq!(answer, Answer::Done(demands.len()));
                    assert_eq!(second::share(rate, &demands, out.len()), Ok(out));
                }
            }
        }
    }

    fn lend_two(expected: Answer, written: &[u64], put: &[(usize, u64)]) -> bool {
        let call = |out: &mut [u64]| {
            for &(at, number) in put {
                out[at] = number;
            }
            Answer::Done(2)
        };
        lend(&mut Rng::new(1), number, 4, call, expected, written).is_ok()
    }

    /// The comparison sees another answer, another number written, one not written and one too many.
    #[test]
    fn differences_are_seen() {
        assert!(lend_two(Answer::Done(2), &[3, 4], &[(0, 3), (1, 4)]));
        assert!(!lend_two(Answer::Plan(2), &[3, 4], &[(0, 3), (1, 4)]));
        assert!(!lend_two(Answer::Done(2), &[3, 4], &[(0, 3), (1, 5)]));
        assert!(!lend_two(Answer::Done(2), &[3, 4], &[(0, 3)]));
        assert!(!lend_two(
            Answer::Done(2),
            &[3, 4],
            &[(0, 3), (1, 4), (3, 1)]
        ));
    }
}
