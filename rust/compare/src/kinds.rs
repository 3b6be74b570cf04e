//! The kinds of cases, and the answers that each of them has to reach.

use crate::call::{by_edition, by_lag};
use crate::{call, choices, desks, Outcome};
use compare::inputs::{EDITIONS, LAGS};
use second::gen::Rng;
use std::collections::{BTreeMap, BTreeSet};

/// A kind of cases.
pub struct Kind {
    pub name: &'static str,
    /// So many cases of every 25 are of it: every operation comes up, the cheap ones more often. Pages have rounds of their own.
    share: u64,
    /// One case.
    pub case: fn(&mut Rng) -> Outcome,
    /// By the papers the answers that the operation can give, all of them and no others. A refusal
    /// has its number and, where it has several causes, which of them.
    answers: &'static [&'static str],
    /// Those that it gives of networks of every edition, and of those of edition 3 also with `unit` 1.
    of_each_edition: &'static [&'static str],
    /// Those that depend on the lag: it gives them of networks of every edition, in the same way, with
    /// every lag.
    of_each_lag: &'static [&'static str],
}

const DESKS: &[&str] = &[
    "accepted",
    "handed out",
    "refusal 12",
    "refusal 13",
    "refusal 14",
];

pub static KINDS: [Kind; 15] = [
    Kind {
        name: "read_network",
        share: 3,
        case: call::read_network,
        // before a line tells the edition, or where it tells none
        answers: &[
            "refusal 1, network",
            "refusal 2, network",
            "refusal 3, network",
        ],
        of_each_edition: &[
            "done",
            "refusal 1, network",
            "refusal 2, network",
            "refusal 3, network",
            "refusal 4, old",
            "refusal 4, new",
            "refusal 10",
        ],
        of_each_lag: &[],
    },
    Kind {
        name: "read_plan",
        share: 2,
        case: call::read_plan,
        answers: &[
            "done",
            "refusal 1, plan",
            "refusal 2, plan",
            "refusal 3, plan",
            "refusal 10",
        ],
        of_each_edition: &[],
        of_each_lag: &[],
    },
    Kind {
        name: "write_network",
        share: 2,
        case: call::write_network,
        answers: &["refusal 2, network", "refusal 3, network"],
        of_each_edition: &[
            "done",
            "refusal 2, network",
            "refusal 3, network",
            "refusal 4, old",
            "refusal 4, new",
            "refusal 10",
        ],
        of_each_lag: &[],
    },
    Kind {
        name: "write_plan",
        share: 2,
        case: call::write_plan,
        answers: &["done", "refusal 2, plan", "refusal 3, plan", "refusal 10"],
        of_each_edition: &[],
        of_each_lag: &[],
    },
    Kind {
        name: "make_plan",
        share: 2,
        case: call::make_plan,
        answers: &[
            "refusal 2, network",
            "refusal 3, network",
            "refusal 19 before plan",
            "refusal 19 before refusal 2, network",
            "refusal 19 before refusal 3, network",
            "refusal 19 before refusal 4, old",
            "refusal 19 before refusal 4, new",
            "refusal 19 before refusal 9",
            "refusal 19 before refusal 10",
        ],
        of_each_edition: &[
            "refusal 2, network",
            "refusal 3, network",
            "refusal 4, old",
            "refusal 4, new",
            "refusal 10",
        ],
        of_each_lag: &["plan", "refusal 9"],
    },
    Kind {
        name: "check_plan",
        share: 3,
        case: call::check_plan,
        answers: &[
            "refusal 2, network",
            "refusal 3, network",
            "refusal 19 before done",
            "refusal 19 before refusal 2, network",
            "refusal 19 before refusal 3, network",
            "refusal 19 before refusal 4, old",
            "refusal 19 before refusal 4, new",
            "refusal 19 before refusal 2, plan",
            "refusal 19 before refusal 3, plan",
            "refusal 19 before refusal 5",
            "refusal 19 before refusal 6",
            "refusal 19 before refusal 7",
            "refusal 19 before refusal 8",
            "refusal 19 before refusal 10",
        ],
        of_each_edition: &[
            "refusal 2, network",
            "refusal 3, network",
            "refusal 4, old",
            "refusal 4, new",
            "refusal 2, plan",
            "refusal 3, plan",
            "refusal 5",
            "refusal 6",
            "refusal 10",
        ],
        of_each_lag: &["done", "refusal 7", "refusal 8"],
    },
    Kind {
        name: "step_bound",
        share: 1,
        case: call::step_bound,
        answers: &["steps", "refusal 2, scratch", "refusal 2, overrun"],
        of_each_edition: &[],
        of_each_lag: &[],
    },
    Kind {
        name: "every choice",
        share: 3,
        case: choices::hold,
        answers: &[],
        of_each_edition: &[],
        of_each_lag: &["done", "refusal 7", "refusal 8", "plan", "refusal 9"],
    },
    Kind {
        name: "desks from the empty state",
        share: 1,
        case: desks::from_empty,
        answers: DESKS,
        of_each_edition: &[],
        of_each_lag: &[],
    },
    Kind {
        name: "desks from any parts",
        share: 1,
        case: desks::from_any_parts,
        answers: DESKS,
        of_each_edition: &[],
        of_each_lag: &[],
    },
    Kind {
        name: "share",
        share: 1,
        case: call::share,
        answers: &[
            "done",
            "refusal 21, count",
            "refusal 21, rate",
            "refusal 21, demand",
            "refusal 10",
        ],
        of_each_edition: &[],
        of_each_lag: &[],
    },
    Kind {
        name: "read_rules",
        share: 1,
        case: call::read_rules,
        answers: &[
            "done",
            "refusal 1, rules",
            "refusal 2, rules",
            "refusal 3, rules",
            "refusal 10",
        ],
        of_each_edition: &[],
        of_each_lag: &[],
    },
    Kind {
        name: "write_rules",
        share: 1,
        case: call::write_rules,
        answers: &["done", "refusal 2, rules", "refusal 3, rules", "refusal 10"],
        of_each_edition: &[],
        of_each_lag: &[],
    },
    Kind {
        name: "stage_rules",
        share: 2,
        case: call::stage_rules,
        answers: &[
            "done",
            "refusal 2, rules",
            "refusal 3, rules",
            "refusal 18, old",
            "refusal 18, new",
            "refusal 10",
        ],
        of_each_edition: &[],
        of_each_lag: &[],
    },
    Kind {
        name: "page",
        share: 0,
        case: call::page,
        answers: &[
            "refusal 2, network",
            "refusal 3, network",
            "refusal 2, network before refusal 11",
            "refusal 3, network before refusal 11",
            "refusal 4, old before refusal 11",
            "refusal 4, new before refusal 11",
            "refusal 2, plan before refusal 11",
            "refusal 3, plan before refusal 11",
            "refusal 5 before refusal 11",
            "refusal 6 before refusal 11",
            "refusal 7 before refusal 11",
            "refusal 8 before refusal 11",
            "refusal 11, below before refusal 10",
            "refusal 11, above before refusal 10",
        ],
        of_each_edition: &[
            "done",
            "refusal 2, network",
            "refusal 3, network",
            "refusal 4, old",
            "refusal 4, new",
            "refusal 2, plan",
            "refusal 3, plan",
            "refusal 5",
            "refusal 6",
            "refusal 7",
            "refusal 8",
            "refusal 11, below",
            "refusal 11, above",
            "refusal 10",
        ],
        of_each_lag: &[],
    },
];

/// One round of cases of so many is of pages, the one at this place.
const ROUNDS: u64 = 13;
const OF_PAGES: u64 = 6;

/// The kind of the case with this number, as a place in `KINDS`.
pub fn kind_of(number: u64) -> usize {
    let round = KINDS.iter().map(|kind| kind.share).sum::<u64>();
    if number / round % ROUNDS == OF_PAGES {
        return KINDS.len() - 1;
    }
    let mut before = number % round;
    for (place, kind) in KINDS.iter().enumerate() {
        if before < kind.share {
            return place;
        }
        before -= kind.share;
    }
    unreachable!("the shares add up")
}

/// What the cases of a kind came to.
#[derive(Debug, Clone, Default)]
pub struct Tally {
    pub cases: u64,
    differing: u64,
    answers: BTreeSet<String>,
    pub account: BTreeMap<String, u64>,
}

impl Tally {
    pub fn count(&mut self, outcome: Outcome) {
        self.cases += 1;
        match outcome {
            Ok(reached) => {
                self.answers.extend(reached.answers);
                *self.account.entry(reached.account).or_insert(0) += 1;
            }
            Err(_) => self.differing += 1,
        }
    }

    pub fn add(&mut self, more: Tally) {
        self.cases += more.cases;
        self.differing += more.differing;
        self.answers.extend(more.answers);
        for (what, count) in more.account {
            *self.account.entry(what).or_insert(0) += count;
        }
    }
}

impl Kind {
    /// Its answers, those of each edition that has landed and of each lag among them.
    fn all_answers(&self) -> Vec<String> {
        let mut answers: Vec<String> = self.answers.iter().map(|a| a.to_string()).collect();
        for edition in EDITIONS {
            let of_it = self.of_each_edition.iter();
            answers.extend(of_it.map(|answer| by_edition(answer, Some(edition))));
            for lag in LAGS {
                let of_it = self.of_each_lag.iter();
                answers.extend(of_it.map(|answer| by_lag(answer, Some(edition), lag)));
            }
        }
        answers
    }

    /// Why the kind does not pass: cases that differ, answers that are not the operation's, and, of
    /// many cases, answers that none reached.
    pub fn faults(&self, tally: &Tally, many: bool) -> Vec<String> {
        let answers = self.all_answers();
        let mut faults = Vec::new();
        if tally.differing > 0 {
            faults.push(format!("{} of {} differ", tally.differing, tally.cases));
        }
        for answer in &tally.answers {
            if !answers.contains(answer) {
                faults.push(format!("reached {answer}, which is no answer of it"));
            }
        }
        for answer in &answers {
            if many && !tally.answers.contains(answer) {
                faults.push(format!("no case reached {answer}"));
            }
        }
        faults
    }
}

#[cfg(test)]
mod tests {
    use super::*;
    use crate::Reached;

    /// The cases of a seed stay the same as long as their kinds do.
    #[test]
    fn kinds_of_cases() {
        let names: Vec<&str> = (0..25).map(|number| KINDS[kind_of(number)].name).collect();
        for (number, name) in [(0, "read_network"), (2, "read_network"), (3, "read_plan")] {
            assert_eq!(names[number], name);
        }
        for (number, name) in [(14, "step_bound"), (22, "write_rules"), (24, "stage_rules")] {
            assert_eq!(names[number], name);
        }
        assert_eq!(kind_of(25 * 1000 + 7), kind_of(7));
        for number in [6 * 25, 7 * 25 - 1, (13 + 6) * 25] {
            assert_eq!(KINDS[kind_of(number)].name, "page");
        }
    }

    fn tally(answers: &[&str], differing: u64) -> Tally {
        let mut tally = Tally::default();
        for answer in answers {
            tally.count(Ok(Reached::one("case", answer, "")));
        }
        for _ in 0..differing {
            tally.count(Err("it differs".to_string()));
        }
        tally
    }

    /// A case that differs, an answer that is missing and one too many are seen, of every kind.
    #[test]
    fn faults_are_seen() {
        for kind in &KINDS {
            let answers = kind.all_answers();
            let all: Vec<&str> = answers.iter().map(|answer| answer.as_str()).collect();
            let faults = |answers: &[&str], differing, many| {
                kind.faults(&tally(answers, differing), many).len()
            };
            assert_eq!(faults(&all, 0, true), 0);
            assert_eq!(faults(&all, 2, true), 1);
            assert_eq!(faults(&all[1..], 0, true), 1);
            assert_eq!(faults(&all[1..], 0, false), 0);
            let one_more = [&all[..], &["refusal 11"]].concat();
            assert_eq!(faults(&one_more, 0, false), 1);
            assert_eq!(faults(&[], 1, true), 1 + all.len());
        }
    }

    /// An answer that networks of one edition do not reach, or those with `unit` 1, is missing.
    #[test]
    fn each_edition_reaches_its_answers() {
        let kind = &KINDS[kind_of(0)];
        let answers = kind.all_answers();
        for edition in EDITIONS {
            assert!(answers.contains(&format!("done, {edition}")));
            let others = answers.iter().map(|answer| answer.as_str());
            let others: Vec<_> = others.filter(|answer| !answer.ends_with(edition)).collect();
            let faults = kind.faults(&tally(&others, 0), true);
            assert_eq!(faults.len(), kind.of_each_edition.len());
            assert!(faults[0].contains(&format!("done, {edition}")));
        }
    }

    /// An answer that one lag does not reach, of networks of one edition, is missing.
    #[test]
    fn each_lag_reaches_its_answers() {
        let kind = KINDS.iter().find(|kind| kind.name == "check_plan");
        let kind = kind.expect("a kind");
        let answers = kind.all_answers();
        for lag in LAGS {
            for edition in EDITIONS {
                let missing = format!("refusal 8, {edition}, lag {lag}");
                assert!(answers.contains(&missing));
                let others = answers.iter().map(|answer| answer.as_str());
                let others: Vec<_> = others.filter(|&answer| answer != missing).collect();
                let faults = kind.faults(&tally(&others, 0), true);
                assert_eq!(faults, [format!("no case reached {missing}")]);
            }
        }
    }

    /// Tallies of two threads are added up.
    #[test]
    fn tallies_add_up() {
        let mut all = tally(&["done", "done"], 1);
        all.add(tally(&["done", "refusal 2"], 2));
        assert_eq!((all.cases, all.differing), (7, 3));
        assert_eq!(all.account["case: done"], 3);
        assert!(all.answers.contains("refusal 2"));
    }
}
