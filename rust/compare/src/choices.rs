//! Demand 3 by trying every choice on tiny networks, with every lag: "lets each tunnel, or with `unit=1`
//! each flow, show any row of the window". If the planner returns a plan, or the checker answers done, none
//! overloads a link. After 7 or 8 from the checker "the marked ones overload the named link at their
//! largest, the rest at row a": it breaks that number's bound. "Passing with w means passing with less", and
//! "a network that keeps its scratch needs at most ceil(w × (1000 - scratch)/scratch) steps, or, with
//! overrun, ceil(1000 × w/overrun) if larger, wherever this is 50 or less".

use crate::call::{by_lag, told};
use crate::{Outcome, Reached};
use compare::inputs::{amount, edition_of_list, tiny_bundled, LAGS};
use compare::LANDED;
use pavuneshil::{check_plan, make_plan, step_bound, Answer, Refusal, StepBound, PLAN_NUMBERS};
use second::gen::*;
use second::{even_plan_by, first_by_choices, keeps_scratch_by, shown_overloads};

/// Longer plans are not held against every choice.
const STEPS: u64 = 10;

/// A window of more choices is not tried: for the checker, and for the planner, which has up to 50 plans.
const CHOICES: u64 = 700;
const CHOICES_OF_PLANS: u64 = 130;

/// A network of some kind, with a lag.
#[derive(Debug)]
struct Case {
    lag: u64,
    network: Vec<u64>,
    shape: Shape,
}

/// One tiny network of any edition, held against every choice: the checker with any plan, or the
/// planner.
pub fn hold(rng: &mut Rng) -> Outcome {
    let lag = rng.pick(&LAGS);
    let of_checker = rng.percent(70);
    let most = if of_checker {
        CHOICES
    } else {
        CHOICES_OF_PLANS
    };
    let case = loop {
        let network = tiny_network(rng, lag);
        let shape = Shape::of(&network);
        let case = Case {
            lag,
            network,
            shape,
        };
        if case.choices() <= most && shape.links <= 4 {
            break case;
        }
    };
    let held = if of_checker {
        let plan = loop {
            let plan = any_plan(rng, &case.network);
            if plan[2] <= STEPS {
                break plan;
            }
        };
        let checked = case.checker(&plan);
        checked.map_err(|why| format!("checker: {why}: {plan:?}"))
    } else {
        case.planner().map_err(|why| format!("planner: {why}"))
    };
    held.map_err(|why| format!("every choice, {why}: {:?}, lag {lag}", case.network))
}

/// A network of any edition, mostly with few tunnels.
fn tiny_network(rng: &mut Rng, lag: u64) -> Vec<u64> {
    let with_overrun = rng.percent(50);
    let edition = rng.pick(&[1, 2, 3, 3]);
    match rng.below(12) {
        0 => to_edition(&no_flows(rng), edition),
        1 => to_edition(&tiny(rng), edition),
        2..=3 => keeping_scratch_of(rng, edition, with_overrun),
        4..=5 => full_of(rng, edition),
        6..=8 => tiny_of(rng, edition, lag),
        9 if edition < 3 => tiny_of(rng, edition, lag),
        _ if edition < 3 => full_of(rng, edition),
        _ => tiny_bundled(rng, lag),
    }
}

/// A row of the window in which something has the most.
fn largest(window: impl Iterator<Item = u64>, has: impl Fn(u64) -> u64) -> u64 {
    window.max_by_key(|&row| has(row)).expect("a row")
}

impl Case {
    fn flow(&self, tunnel: usize) -> u64 {
        self.network[self.shape.tunnel(tunnel)]
    }

    fn crosses(&self, tunnel: usize, link: u64) -> bool {
        (self.network[self.shape.tunnel(tunnel) + 1] >> link) & 1 == 1
    }

    /// Whether two tunnels are one, or show the same row because they are of one flow.
    fn together(&self, one: usize, other: usize) -> bool {
        one == other || self.shape.unit && self.flow(one) == self.flow(other)
    }

    /// How many choices a window of lag + 1 rows has.
    fn choices(&self) -> u64 {
        let first = |t: usize| (0..t).all(|u| !self.together(t, u));
        let movers = (0..self.shape.tunnels).filter(|&t| first(t)).count();
        (self.lag + 1).saturating_pow(movers as u32)
    }

    /// The first overload that some choice makes, as a refusal.
    fn by_choices(&self, plan: &[u64]) -> Option<Refusal> {
        first_by_choices(&LANDED, &self.network, plan, self.lag).map(told)
    }

    fn reached(&self, answer: &str, how: &str) -> Outcome {
        let answer = by_lag(answer, edition_of_list(&self.network), self.lag);
        Ok(Reached::one("every choice", &answer, how))
    }

    /// What a tunnel has on a link in a row, with `unit` 1 its flow.
    fn has(&self, plan: &[u64], tunnel: usize, link: u64, row: u64) -> u64 {
        (0..self.shape.tunnels)
            .filter(|&u| self.crosses(u, link) && self.together(tunnel, u))
            .map(|u| amount(&self.network, plan, u, row))
            .sum()
    }

    /// The rows of the window whose overload names this step.
    fn window(&self, plan: &[u64], step: u64) -> std::ops::RangeInclusive<u64> {
        step - 1..=(step - 1 + self.lag).min(plan[2])
    }

    /// The tunnels that cross the link and have more in some row of the window than in its first, with
    /// `unit` 1 by their flow's sum.
    fn exceeding(&self, plan: &[u64], step: u64, link: u64) -> Vec<u8> {
        let exceeds = |t: usize| {
            let has = |row| self.has(plan, t, link, row);
            self.crosses(t, link) && self.window(plan, step).any(|row| has(row) > has(step - 1))
        };
        let tunnels = 0..self.shape.tunnels;
        tunnels.map(|t| u8::from(exceeds(t))).collect()
    }

    /// For each tunnel the row that it shows: the marked ones, with `unit` 1 all of their flows, one in which
    /// they have the most on the link, the rest the first of the window.
    fn shown(&self, plan: &[u64], refusal: Refusal, marks: &[u8]) -> Vec<usize> {
        let (step, link) = (refusal.place, refusal.second);
        let tunnels = 0..self.shape.tunnels;
        let marked = |t: usize| {
            let mut all = tunnels.clone();
            all.find(|&u| marks[u] == 1 && self.together(t, u))
        };
        let row = |t: usize| match marked(t) {
            Some(u) => largest(self.window(plan, step), |row| self.has(plan, u, link, row)),
            None => step - 1,
        };
        tunnels.clone().map(|t| row(t) as usize).collect()
    }

    /// What the checker answers with another lag, or of another network of as many tunnels.
    fn passes(&self, lag: u64, network: &[u64], plan: &[u64]) -> bool {
        let mut marks = vec![77; self.shape.tunnels];
        let answer = check_plan(lag, network, plan, &mut marks);
        matches!(answer, Answer::Done(_)) && marks.iter().all(|&mark| mark == 0)
    }

    /// The checker's answer on a plan whose rows add up.
    fn checker(&self, plan: &[u64]) -> Outcome {
        let tunnels = self.shape.tunnels;
        let mut marks = vec![77; tunnels];
        let answer = check_plan(self.lag, &self.network, plan, &mut marks);
        let by_tunnels = match self.shape.edition {
            3 => Some(self.passes(self.lag, &with_unit(&self.network, 0), plan)),
            _ => None,
        };
        match (answer, self.by_choices(plan)) {
            (Answer::Done(length), None) if length == tunnels && marks.iter().all(|&m| m == 0) => {
                for less in 1..self.lag {
                    if !self.passes(less, &self.network, plan) {
                        return Err(format!("it passes, but not with lag {less}"));
                    }
                }
                // what passes by flows alone
                let how = match by_tunnels {
                    Some(false) => ", none overloads, but one of tunnels does",
                    _ => ", none overloads",
                };
                self.reached("done", how)
            }
            (Answer::Refused(refusal), Some(first)) if refusal == first => {
                let (step, link) = (refusal.place, refusal.second);
                if marks != self.exceeding(plan, step, link) {
                    return Err(format!("{refusal:?}, marks {marks:?}"));
                }
                if by_tunnels == Some(true) {
                    return Err(format!("{refusal:?}, but with unit 0 it passes"));
                }
                for more in self.lag + 1..=4 {
                    if self.passes(more, &self.network, plan) {
                        return Err(format!("{refusal:?}, but with lag {more} it passes"));
                    }
                }
                let rows = self.shown(plan, refusal, &marks);
                let broken = shown_overloads(&LANDED, &self.network, plan, link as usize, &rows);
                if ![broken.0, broken.1][refusal.number as usize - 7] {
                    return Err(format!(
                        "{refusal:?}, but the marks {marks:?} show no overload"
                    ));
                }
                // whether the step alone would do, and whether all that are marked show the same row
                let of_step = (0..tunnels).all(|t| {
                    let has = |row| self.has(plan, t, link, row);
                    marks[t] == 0 || has(rows[t] as u64) == has(step)
                });
                let last = *self.window(plan, step).end() as usize;
                let how = match of_step {
                    true => ", the marks show it",
                    false if (0..tunnels).all(|t| marks[t] == 0 || rows[t] == last) => {
                        ", the marks show it, at the last row"
                    }
                    false => ", the marks show it, at a row before the last",
                };
                self.reached(&format!("refusal {}", refusal.number), how)
            }
            (answer, first) => Err(format!("{answer:?}, marks {marks:?}, by choices {first:?}")),
        }
    }

    /// The steps of the planner's plan with a lag, of a network like this one; none after a refusal.
    fn steps(&self, lag: u64, network: &[u64]) -> Option<u64> {
        let mut plan = [0; PLAN_NUMBERS];
        match make_plan(lag, network, &mut plan) {
            Answer::Plan(_) => Some(plan[2]),
            _ => None,
        }
    }

    /// The most steps that are needed with the lag, if the network keeps its scratch and they are 50 or less.
    fn bound(&self) -> Result<Option<u64>, String> {
        let (scratch, overrun) = (self.network[1], self.network[2]);
        let of_scratch = (self.lag * (1000 - scratch)).div_ceil(scratch);
        let of_overrun = match overrun {
            0 => 0,
            _ => (1000 * self.lag).div_ceil(overrun),
        };
        let most = of_scratch.max(of_overrun);
        let of_lag_1 = step_bound(scratch, overrun);
        if self.lag == 1 && of_lag_1 != StepBound::Steps(most) {
            return Err(format!("{of_lag_1:?}, by division {most}"));
        }
        Ok((most <= 50 && keeps_scratch_by(&LANDED, &self.network)).then_some(most))
    }

    /// The planner's answer: the even plan of fewest steps that no choice overloads, or none of 50.
    fn planner(&self) -> Outcome {
        let network = &self.network[..];
        let mut plan = [0; PLAN_NUMBERS];
        let answer = make_plan(self.lag, network, &mut plan);
        let bound = self.bound()?;
        let by_tunnels = match self.shape.edition {
            3 => self.steps(self.lag, &with_unit(network, 0)),
            _ => None,
        };
        match answer {
            Answer::Plan(length) => {
                let plan = &plan[..length];
                let steps = plan[2];
                if plan != even_plan_by(&LANDED, network, steps) {
                    return Err(format!("not even: {plan:?}"));
                }
                if let Some(first) = self.by_choices(plan) {
                    return Err(format!("{first:?} in the plan {plan:?}"));
                }
                for fewer in 1..steps {
                    let fewer_do = even_plan_by(&LANDED, network, fewer);
                    if self.by_choices(&fewer_do).is_none() {
                        return Err(format!("{steps} steps, but {fewer} do"));
                    }
                }
                if !self.passes(self.lag, network, plan) {
                    return Err("its plan is not accepted".to_string());
                }
                if let Some(other) = by_tunnels.filter(|&other| other < steps) {
                    return Err(format!("{steps} steps, but {other} with unit 0"));
                }
                for less in 1..self.lag {
                    let of_less = self.steps(less, network);
                    if of_less.is_none_or(|of_less| of_less > steps) {
                        return Err(format!("{steps} steps, but {of_less:?} with lag {less}"));
                    }
                }
                match bound {
                    Some(most) if steps > most => Err(format!("{steps} steps, bound {most}")),
                    Some(most) if steps == most => self.reached("plan", ", at the step bound"),
                    Some(_) => self.reached("plan", ", within the step bound"),
                    None => self.reached("plan", ", fewest steps"),
                }
            }
            Answer::Refused(refusal) if refusal.number == 9 => {
                if let Some(most) = bound {
                    return Err(format!("{refusal:?}, but the bound is {most}"));
                }
                if by_tunnels.is_some() {
                    return Err(format!("{refusal:?}, but with unit 0 there is a plan"));
                }
                for more in self.lag + 1..=4 {
                    if self.steps(more, network).is_some() {
                        return Err(format!("{refusal:?}, but with lag {more} there is a plan"));
                    }
                }
                for steps in 1..=50 {
                    let first = self.by_choices(&even_plan_by(&LANDED, network, steps));
                    let Some(first) = first else {
                        return Err(format!("{refusal:?}, but {steps} steps do"));
                    };
                    if steps == 50 && (first.place, first.second) != (refusal.place, refusal.second)
                    {
                        return Err(format!("{refusal:?}, by choices {first:?}"));
                    }
                }
                self.reached("refusal 9", ", all 50 overload")
            }
            other => Err(format!("{other:?}")),
        }
    }
}

#[cfg(test)]
mod tests {
    use super::*;

    /// The swap at cap 15 in four steps, with lag 3: from row 0 on, link 0 has 10 at the most of the
    /// first flow and 7.5 of the second.
    #[test]
    fn rows_of_a_window() {
        let network = vec![
            1, 333, 0, 2, 2, 4, 15, 15, 0, 10, 0, 10, //
            0, 1, 10, 0, 0, 2, 0, 10, 1, 2, 10, 0, 1, 1, 0, 10,
        ];
        let shape = Shape::of(&network);
        let case = Case {
            lag: 3,
            network,
            shape,
        };
        let plan = even_plan_by(&LANDED, &case.network, 4);
        assert_eq!(case.choices(), 256);
        assert_eq!(case.window(&plan, 1), 0..=3);
        assert_eq!(case.window(&plan, 2), 1..=4);
        let refusal = Refusal {
            number: 7,
            place: 1,
            second: 0,
        };
        assert_eq!(case.by_choices(&plan), Some(refusal));
        assert_eq!(case.exceeding(&plan, 1, 0), [0, 0, 0, 1]);
        assert_eq!(case.shown(&plan, refusal, &[0, 0, 0, 1]), [0, 0, 0, 3]);
        assert_eq!(case.bound(), Ok(Some(7)));
    }
}
