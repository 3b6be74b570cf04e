//! Calls of the eight desks, one after the other. After each, the answer and all that waits are held
//! against the second implementation; or, from six parts of any
//! values, which the second implementation cannot be given, against a plain model of them.

use crate::call::told;
use crate::{Outcome, Reached};
use compare::LANDED;
use pavuneshil::{Accepted, Desks, Handed, Refusal};
use second::gen::{desk_calls, Call, Rng};
use std::collections::{BTreeSet, VecDeque};

/// A job that waits: its number and its tag.
type Job = (u32, u32);

/// "returning to 1 after 4,294,967,295"
const LAST_NUMBER: u32 = 4_294_967_295;

fn next_number(counter: u32) -> u32 {
    counter % LAST_NUMBER + 1
}

/// What a call is answered where it is not refused.
#[derive(Debug, Clone, Copy, PartialEq, Eq)]
enum Good {
    Accepted(Accepted),
    Job(Handed),
}

type Answer = Result<Good, Refusal>;

/// What the library's desks are held against.
trait Beside {
    fn call(&mut self, call: Call) -> Answer;

    /// The jobs of a desk that wait, the oldest first.
    fn jobs(&self, desk: usize) -> Vec<Job>;
}

impl Beside for second::Desks {
    fn call(&mut self, call: Call) -> Answer {
        match call {
            Call::Submit(desk, tag) => self.submit(desk, tag).map(|accepted| {
                Good::Accepted(Accepted {
                    number: accepted.number,
                    before: accepted.before.expect("the rules have turns"),
                })
            }),
            Call::HandOut => self.hand_out().map(|job| {
                Good::Job(Handed {
                    desk: job.desk,
                    number: job.number,
                    tag: job.tag,
                })
            }),
        }
        .map_err(told)
    }

    fn jobs(&self, desk: usize) -> Vec<Job> {
        second::Desks::jobs(self, desk)
    }
}

/// What six parts of any values mean.
#[derive(Clone)]
struct Model {
    queues: [VecDeque<Job>; 8],
    counters: [u32; 8],
    last: usize,
}

impl Model {
    fn of(desks: &Desks) -> Model {
        Model {
            queues: std::array::from_fn(|desk| jobs(desks, desk).into()),
            counters: desks.counters,
            last: desks.last as usize % 8,
        }
    }

    /// How many jobs are handed out before a desk's youngest one if nothing else is called.
    fn before(&self, desk: usize) -> u64 {
        let mut later = self.clone();
        let mut jobs = 0;
        while !later.queues[desk].is_empty() {
            later.call(Call::HandOut).expect("a job waits");
            jobs += 1;
        }
        jobs - 1
    }
}

impl Beside for Model {
    fn call(&mut self, call: Call) -> Answer {
        let refused = |number, place| Refusal {
            number,
            place,
            second: 0,
        };
        match call {
            Call::Submit(desk, tag) => {
                let Some(queue) = self.queues.get_mut(desk.min(8) as usize) else {
                    return Err(refused(12, desk));
                };
                if queue.len() == 4 {
                    return Err(refused(13, desk));
                }
                let counter = &mut self.counters[desk as usize];
                *counter = next_number(*counter);
                let number = *counter;
                queue.push_back((number, tag));
                Ok(Good::Accepted(Accepted {
                    number,
                    before: self.before(desk as usize),
                }))
            }
            Call::HandOut => {
                for desk in (self.last + 1..).take(8).map(|desk| desk % 8) {
                    if let Some((number, tag)) = self.queues[desk].pop_front() {
                        self.last = desk;
                        return Ok(Good::Job(Handed {
                            desk: desk as u64,
                            number,
                            tag,
                        }));
                    }
                }
                Err(refused(14, 0))
            }
        }
    }

    fn jobs(&self, desk: usize) -> Vec<Job> {
        self.queues[desk].iter().copied().collect()
    }
}

/// The jobs of a desk that wait, by the library's parts.
fn jobs(desks: &Desks, desk: usize) -> Vec<Job> {
    let waiting = desks.waiting[desk].min(4) as usize;
    (0..waiting)
        .map(|i| 4 * desk + (desks.oldest[desk] as usize + i) % 4)
        .map(|place| (desks.numbers[place], desks.tags[place]))
        .collect()
}

/// One call of the library.
fn ours(desks: &mut Desks, call: Call) -> Answer {
    match call {
        Call::Submit(desk, tag) => desks.submit(desk, tag).map(Good::Accepted),
        Call::HandOut => desks.hand_out().map(Good::Job),
    }
}

/// The counters after a call: an accepted submission moves its desk's, and nothing else moves any.
fn moved(mut counters: [u32; 8], call: Call, answer: Answer) -> [u32; 8] {
    if let (Call::Submit(desk, _), Ok(Good::Accepted(job))) = (call, answer) {
        counters[desk as usize] = job.number;
    }
    counters
}

/// Compares what a call came to: the answer, the counters and the last desk, every queue, and after
/// a refusal every part, bit for bit.
fn same(
    before: &Desks,
    after: &Desks,
    call: Call,
    answer: Answer,
    expected: Answer,
    beside: &impl Beside,
) -> Result<(), String> {
    if answer != expected {
        return Err(format!("{answer:?}, expected {expected:?}"));
    }
    let left = match answer {
        Err(_) => after == before,
        Ok(Good::Accepted(_)) => after.last == before.last,
        Ok(Good::Job(job)) => u64::from(after.last) == job.desk,
    };
    if !left || after.counters != moved(before.counters, call, answer) {
        return Err(format!("{answer:?}, but then {after:?}"));
    }
    for desk in 0..8 {
        let (ours, theirs) = (jobs(after, desk), beside.jobs(desk));
        if ours != theirs {
            return Err(format!(
                "{answer:?}, but then of desk {desk} {ours:?} wait, expected {theirs:?}"
            ));
        }
    }
    Ok(())
}

/// The calls one after the other. What came up: which answers, and whether numbers returned to 1.
fn hold(name: &str, start: Desks, mut beside: impl Beside, calls: &[Call]) -> Outcome {
    let mut desks = start;
    let mut answers = BTreeSet::new();
    let mut returned = "";
    for (i, &call) in calls.iter().enumerate() {
        let before = desks;
        let answer = ours(&mut desks, call);
        let expected = beside.call(call);
        same(&before, &desks, call, answer, expected, &beside)
            .map_err(|why| format!("{name}, call {i}, {call:?}: {why}: {before:?}"))?;
        answers.insert(match answer {
            Ok(Good::Accepted(_)) => "accepted".to_string(),
            Ok(Good::Job(_)) => "handed out".to_string(),
            Err(refusal) => format!("refusal {}", refusal.number),
        });
        // only a counter that returns gets smaller
        if (0..8).any(|desk| desks.counters[desk] < before.counters[desk]) {
            returned = ", numbers return to 1";
        }
    }
    let refused = |answer: &&String| answer.starts_with("refusal");
    let refusals = match answers.iter().filter(refused).count() {
        0 => "no refusal",
        3 => "refusals 12, 13 and 14",
        _ => "some of the refusals",
    };
    Ok(Reached {
        answers: answers.into_iter().collect(),
        account: format!("{name}: {refusals}{returned}"),
    })
}

/// From the empty state, or from one in which each desk's last number is near the last there is, or
/// that one.
pub fn from_empty(rng: &mut Rng) -> Outcome {
    let count = rng.between(100, 400) as usize;
    let calls = desk_calls(rng, count);
    let empty = Desks::new();
    if rng.percent(60) {
        return hold(
            "desks from the empty state",
            empty,
            second::Desks::new(&LANDED),
            &calls,
        );
    }
    let counters = std::array::from_fn(|_| {
        let before_last = rng.below(100);
        LAST_NUMBER - rng.pick(&[0, 1, 2, before_last]) as u32
    });
    hold(
        "desks from late numbers",
        Desks { counters, ..empty },
        second::Desks::with_next(&LANDED, counters.map(next_number)),
        &calls,
    )
}

/// Six parts of any values: any counts, rings and round, mostly with room for some jobs.
fn any_parts(rng: &mut Rng) -> Desks {
    let most = rng.pick(&[0, 1, 3, 4, 5, 255]);
    Desks {
        numbers: std::array::from_fn(|_| rng.any() as u32),
        tags: std::array::from_fn(|_| rng.any() as u32),
        oldest: std::array::from_fn(|_| rng.any() as u8),
        waiting: std::array::from_fn(|_| rng.below(most + 1) as u8),
        counters: std::array::from_fn(|_| match rng.below(3) {
            0 => LAST_NUMBER - rng.below(10) as u32,
            1 => rng.below(10) as u32,
            _ => rng.any() as u32,
        }),
        last: rng.any() as u8,
    }
}

/// From six parts of any values.
pub fn from_any_parts(rng: &mut Rng) -> Outcome {
    let start = any_parts(rng);
    let count = rng.between(1, 80) as usize;
    let calls = desk_calls(rng, count);
    let beyond = start.waiting.iter().any(|&waiting| waiting > 4);
    hold(
        if beyond {
            "desks from any parts, counts above 4"
        } else {
            "desks from any parts"
        },
        start,
        Model::of(&start),
        &calls,
    )
}

#[cfg(test)]
mod tests {
    use super::*;

    const SUBMIT: Call = Call::Submit(3, 30);

    /// A state with one job, of desk 3, and a model that the same job is submitted to.
    fn submitted() -> (Desks, Desks, Answer, Model) {
        let before = Desks::new();
        let mut model = Model::of(&before);
        let mut after = before;
        let answer = ours(&mut after, SUBMIT);
        assert_eq!(answer, model.call(SUBMIT));
        (before, after, answer, model)
    }

    /// The comparison sees another answer, and another value of every part.
    #[test]
    fn differences_are_seen() {
        let (before, after, answer, model) = submitted();
        let differs = |after: &Desks, expected| {
            same(&before, after, SUBMIT, answer, expected, &model).is_err()
        };
        assert!(!differs(&after, answer));
        for (number, jobs) in [(2, 0), (1, 1)] {
            let other = Ok(Good::Accepted(Accepted {
                number,
                before: jobs,
            }));
            assert!(differs(&after, other));
        }
        let place = 12 + after.oldest[3] as usize % 4;
        let changes: [fn(&mut Desks, usize); 9] = [
            |desks, place| desks.numbers[place] += 1,
            |desks, place| desks.tags[place] += 1,
            |desks, _| desks.oldest[3] += 1,
            |desks, _| desks.waiting[3] += 1,
            |desks, _| desks.waiting[3] -= 1,
            |desks, _| desks.waiting[4] += 1,
            |desks, _| desks.last = 3,
            |desks, _| desks.counters[3] += 1,
            |desks, _| desks.counters[4] += 1,
        ];
        for change in changes {
            let mut other = after;
            change(&mut other, place);
            assert!(differs(&other, answer), "{other:?}");
        }
    }

    /// After a refusal it sees also what no queue shows.
    #[test]
    fn differences_after_a_refusal_are_seen() {
        let before = Desks::new();
        let mut model = Model::of(&before);
        let answer = model.call(Call::HandOut);
        let differs =
            |after: &Desks| same(&before, after, Call::HandOut, answer, answer, &model).is_err();
        assert!(!differs(&before));
        let changes: [fn(&mut Desks); 5] = [
            |desks| desks.numbers[31] += 1,
            |desks| desks.tags[0] += 1,
            |desks| desks.oldest[5] += 4,
            |desks| desks.last += 8,
            |desks| desks.counters[5] += 1,
        ];
        for change in changes {
            let mut after = before;
            change(&mut after);
            assert!(differs(&after));
        }
    }

    /// A comparison with desks that go by other rules fails.
    #[test]
    fn other_rules_are_seen() {
        let calls = [
            Call::Submit(1, 10),
            Call::Submit(2, 20),
            Call::HandOut,
            Call::HandOut,
        ];
        let start = Desks::new();
        let with = |counter: u32, last| {
            let mut model = Model::of(&start);
            (model.counters[2], model.last) = (counter, last);
            hold("desks", start, model, &calls)
        };
        let account = with(0, 7).map(|reached| reached.account);
        assert_eq!(account, Ok("desks: no refusal".to_string()));
        assert!(with(1, 7).is_err());
        assert!(with(0, 1).is_err());
        // one counter for all desks, as before request (x)
        let shared = second::Desks::new(&second::Rules::as_of(9));
        assert!(hold("desks", start, shared, &calls).is_err());
    }

    /// Both, held against each other, as far as the second implementation can be given the state.
    #[test]
    fn model_and_second() {
        let mut rng = Rng::new(404);
        for _ in 0..100 {
            let mut model = Model::of(&Desks::new());
            let mut second = second::Desks::new(&LANDED);
            for call in desk_calls(&mut rng, 300) {
                assert_eq!(model.call(call), Beside::call(&mut second, call));
                for desk in 0..8 {
                    assert_eq!(model.jobs(desk), second.jobs(desk));
                }
            }
        }
    }
}
