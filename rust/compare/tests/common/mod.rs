//! The operations on networks and plans, each answer held against the second implementation's.

use compare::LANDED;
use pavuneshil::{Answer, Refusal, MARKS, NETWORK_NUMBERS, PLAN_NUMBERS, TEXT_BYTES};
use second::Checked;
use std::path::Path;

pub fn refused(number: u64, place: u64, second: u64) -> Refusal {
    Refusal {
        number,
        place,
        second,
    }
}

fn told(refusal: second::Refusal) -> Refusal {
    refused(refusal.number, refusal.place, refusal.second)
}

/// An answer as a result, which the second implementation must give too.
fn same<T: Clone + PartialEq + std::fmt::Debug>(
    answer: Answer,
    out: &[T],
    second: Result<Vec<T>, second::Refusal>,
) -> Result<Vec<T>, Refusal> {
    let ours = match answer {
        Answer::Done(length) | Answer::Plan(length) => Ok(out[..length].to_vec()),
        Answer::Refused(refusal) => Err(refusal),
    };
    assert_eq!(ours, second.map_err(told));
    ours
}

pub fn read(text: &[u8]) -> Result<Vec<u64>, Refusal> {
    let mut out = [0; NETWORK_NUMBERS];
    let answer = pavuneshil::read_network(text, &mut out);
    assert!(!matches!(answer, Answer::Plan(_)));
    same(
        answer,
        &out,
        second::read_network_by(&LANDED, text, NETWORK_NUMBERS),
    )
}

pub fn write(list: &[u64]) -> Result<Vec<u8>, Refusal> {
    let mut out = vec![0; TEXT_BYTES];
    let answer = pavuneshil::write_network(list, &mut out);
    assert!(!matches!(answer, Answer::Plan(_)));
    same(
        answer,
        &out,
        second::write_network_by(&LANDED, list, TEXT_BYTES),
    )
}

pub fn plan(network: &[u64]) -> Result<Vec<u64>, Refusal> {
    plan_lag(1, network)
}

pub fn plan_lag(lag: u64, network: &[u64]) -> Result<Vec<u64>, Refusal> {
    let mut out = [0; PLAN_NUMBERS];
    let answer = pavuneshil::make_plan(lag, network, &mut out);
    assert!(!matches!(answer, Answer::Done(_)));
    same(
        answer,
        &out,
        second::make_plan_lag(&LANDED, network, lag, PLAN_NUMBERS),
    )
}

/// The checker's verdict: none, or a refusal; and the marks that it put.
pub fn check(network: &[u64], plan: &[u64]) -> (Option<Refusal>, Vec<u8>) {
    check_lag(1, network, plan)
}

pub fn check_lag(lag: u64, network: &[u64], plan: &[u64]) -> (Option<Refusal>, Vec<u8>) {
    let mut lent = [7; MARKS];
    let verdict = match pavuneshil::check_plan(lag, network, plan, &mut lent) {
        Answer::Done(_) => None,
        Answer::Refused(refusal) => Some(refusal),
        Answer::Plan(_) => panic!("no plan is made"),
    };
    let theirs = match second::check_plan_lag(&LANDED, network, plan, lag, MARKS) {
        Checked::Accepted { marks } => (None, marks),
        Checked::Refused { refusal, marks } => (Some(told(refusal)), marks.unwrap_or_default()),
    };
    let put = lent.iter().take_while(|&&mark| mark != 7).count();
    let ours = (verdict, lent[..put].to_vec());
    assert_eq!(ours, theirs, "lag {lag}, {network:?} {plan:?}");
    assert!(lent[put..].iter().all(|&mark| mark == 7));
    ours
}

/// A verdict that puts no marks.
pub fn refused_at(number: u64, place: u64, second: u64) -> (Option<Refusal>, Vec<u8>) {
    (Some(refused(number, place, second)), Vec::new())
}

/// An accepted plan: a 0 for each tunnel.
pub fn accepted(tunnels: usize) -> (Option<Refusal>, Vec<u8>) {
    (None, vec![0; tunnels])
}

/// A text of a sample.
pub fn sample(folder: &str, name: &str) -> Vec<u8> {
    let path = format!("../../samples/{folder}/{name}.txt");
    std::fs::read(Path::new(env!("CARGO_MANIFEST_DIR")).join(path)).expect("a sample")
}

/// A sample's network, which comes back from its list without the remarks, and its plan, as lists.
pub fn sample_lists(folder: &str) -> (Vec<u64>, Vec<u64>) {
    let text = sample(folder, "network");
    let network = read(&text).expect("a good text");
    let lines = text.split_inclusive(|&byte| byte == b'\n');
    let plain: Vec<&[u8]> = lines.filter(|line| line[0] != b'#').collect();
    assert_eq!(write(&network), Ok(plain.concat()));
    let mut plan = [0; PLAN_NUMBERS];
    match pavuneshil::read_plan(&sample(folder, "plan"), &mut plan) {
        Answer::Done(length) => (network, plan[..length].to_vec()),
        other => panic!("{other:?}"),
    }
}
