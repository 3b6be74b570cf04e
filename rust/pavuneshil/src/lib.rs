//! Even-step update plans for a tunnelled backbone with a printed [`page`] of each step, the staging
//! of rule tables, [`stage_rules`], the sharing of a flow among services, [`share`], and a fair
//! hand-out for eight desks, [`Desks`]: the proved operations, for Rust.
//!
//! Texts and lists go in as slices, and results are written into a slice that the caller lends.
//! No operation has a precondition: whatever is given, the answer says what came of it, and what
//! is lent holds what the operation promises. Where the answer is a refusal, everything lent is
//! left as it was, except the marks of a check after 7 and 8. Output beyond the written length stays
//! untouched.
//!
//! A line of a network or plan text that begins with `#` is a remark, which the readers pass over:
//! up to 80 bytes before its line feed, at most 32 in a text, anywhere. Lists, written texts and
//! rules texts have none.
//!
//! A network's first number is its edition. In edition 1 a flow has a class and a rate; in edition 2
//! also the rate that it has after the move, `next`. In edition 3, beside that, `unit` follows
//! `overrun`, and each `cap` is followed by `held`, what is lent to a repair crew: a link has
//! `cap` - `held`. With `unit` 1 the switches change all tunnels of a flow at once, so that choices are
//! of flows; with `unit` 0 each tunnel for itself. Edition 1 is read as if `next` equalled `rate`, and
//! editions 1 and 2 as if `unit` and `held` were 0; their lists have no numbers for these.
//!
//! Planner and checker are given a lag, 1 to 4: how many steps a switch may be behind. With lag 1
//! every switch has finished a step before the next begins. With a larger lag w a tunnel, or with
//! `unit` 1 a flow, may show any row of a window, from some row a to row a + w, or to the last row
//! where that comes sooner. What passes with a lag passes with every smaller one.
//!
//! ```
//! use pavuneshil::{make_plan, Answer};
//! // one link of 15 Mbit/s, no flows, no tunnels
//! let network = [1, 333, 0, 1, 0, 0, 15];
//! let mut plan = [0; pavuneshil::PLAN_NUMBERS];
//! assert_eq!(make_plan(1, &network, &mut plan), Answer::Plan(4));
//! assert_eq!(plan[..4], [1, 1, 1, 0]);
//! ```

#![deny(unsafe_op_in_unsafe_fn)]

mod desks;

pub use desks::{Accepted, Desks, Handed};

/// The version of what callers of the library are built against, in C `PAVUNESHIL_VERSION`: 1 had no
/// lag. A function whose parameters change gets another name in the library, so that what was built
/// against another version does not link.
pub const VERSION: u64 = 2;

/// No valid network's list, of any edition, has more numbers.
pub const NETWORK_NUMBERS: usize = 7 + 2 * 64 + 3 * 32 + 4 * 96;

/// No valid plan's list has more numbers.
pub const PLAN_NUMBERS: usize = 4 + 49 * 96;

/// No valid rule tables' list has more numbers.
pub const RULES_NUMBERS: usize = 4 + 64 + 2 * 96;

/// No valid text has more bytes, with all its remarks.
pub const TEXT_BYTES: usize = 65_536;

/// No valid rules text has more bytes.
pub const RULES_BYTES: usize = 3_433;

/// No network has more tunnels, so no check writes more marks.
pub const MARKS: usize = 96;

/// No page has more bytes: two headings and a line for each link and tunnel, of 43 bytes each.
pub const PAGE_BYTES: usize = 43 * (2 + 64 + 96);

/// No rule tables have more tunnels, so no staging gives more stages.
pub const STAGES: usize = 96;

/// No flow is shared among more services.
pub const SERVICES: usize = 16;

/// Why nothing was done: the number of the cause, and its place and second.
#[derive(Debug, Clone, Copy, PartialEq, Eq, Hash)]
pub struct Refusal {
    /// 1 line not in its form, 2 value outside its range, 3 a line missing or too many,
    /// 4 old amounts that miss a flow's rate or new ones its next rate, 5 another number of
    /// tunnels, 6 a row in which a flow's sum is not between parts × the lesser and parts × the
    /// greater of its two rates, 7 protected overload, 8 overload of all classes, 9 no even plan
    /// of 1 to 50 steps, 10 lent output too short, 11 no such step of the plan, 12 no such desk,
    /// 13 four jobs of the desk wait already, 14 hand-out with nothing waiting, 18 a set of rules that
    /// does not fit, 19 a lag that is not 1 to 4, 21 count of services, rate or demand out of range.
    pub number: u64,
    /// The line, in a text counted with the remarks; the flow, row or step; the length needed for 10;
    /// the step that was asked for, for 11; the desk for 12 and 13; 0 for 14; the switch for 18; the lag for 19; for 21 the first service,
    /// counted from 1, whose demand is out of range, 0 for count and rate.
    pub place: u64,
    /// 0 network, 1 plan and 2 rules for 1, 2 and 3; 1 for 5; 0 old and 1 new for 4 and 18; the flow
    /// for 6; the link for 7, 8 and 9; 0 for 10 to 14 and 19; 1 for a rate out of range in 21,
    /// else 0.
    pub second: u64,
}

/// What an operation answers. Lengths are in bytes for texts, pages and marks, in numbers for lists.
#[derive(Debug, Clone, Copy, PartialEq, Eq, Hash)]
pub enum Answer {
    /// Done, and so much of the lent output was written.
    Done(usize),
    /// A plan, and so much of the lent output was written.
    Plan(usize),
    Refused(Refusal),
}

/// What the step bound answers.
#[derive(Debug, Clone, Copy, PartialEq, Eq, Hash)]
pub enum StepBound {
    /// So many even steps suffice for a network that keeps its scratch.
    Steps(u64),
    Refused(Refusal),
}

/// The functions of libpavuneshil.a: a slice is a pointer and a length, an array a pointer, the
/// answer a pointer to four numbers.
mod archive {
    extern "C" {
        pub fn pavuneshil_read_network(
            text: *const u8,
            text_len: usize,
            out: *mut u64,
            out_len: usize,
            answer: *mut [u64; 4],
        );
        pub fn pavuneshil_read_plan(
            text: *const u8,
            text_len: usize,
            out: *mut u64,
            out_len: usize,
            answer: *mut [u64; 4],
        );
        pub fn pavuneshil_write_network(
            list: *const u64,
            list_len: usize,
            out: *mut u8,
            out_len: usize,
            answer: *mut [u64; 4],
        );
        pub fn pavuneshil_write_plan(
            list: *const u64,
            list_len: usize,
            out: *mut u8,
            out_len: usize,
            answer: *mut [u64; 4],
        );
        pub fn pavuneshil_make_plan_at_lag(
            lag: u64,
            network: *const u64,
            network_len: usize,
            out: *mut u64,
            out_len: usize,
            answer: *mut [u64; 4],
        );
        pub fn pavuneshil_check_plan_at_lag(
            lag: u64,
            network: *const u64,
            network_len: usize,
            plan: *const u64,
            plan_len: usize,
            marks: *mut u8,
            marks_len: usize,
            answer: *mut [u64; 4],
        );
        pub fn pavuneshil_page(
            network: *const u64,
            network_len: usize,
            plan: *const u64,
            plan_len: usize,
            step: u64,
            out: *mut u8,
            out_len: usize,
            answer: *mut [u64; 4],
        );
        pub fn pavuneshil_step_bound(scratch: u64, overrun: u64, answer: *mut [u64; 4]);
        pub fn pavuneshil_share(
            rate: u64,
            demands: *const u64,
            demands_len: usize,
            out: *mut u64,
            out_len: usize,
            answer: *mut [u64; 4],
        );
        pub fn pavuneshil_read_rules(
            text: *const u8,
            text_len: usize,
            out: *mut u64,
            out_len: usize,
            answer: *mut [u64; 4],
        );
        pub fn pavuneshil_write_rules(
            list: *const u64,
            list_len: usize,
            out: *mut u8,
            out_len: usize,
            answer: *mut [u64; 4],
        );
        pub fn pavuneshil_stage_rules(
            list: *const u64,
            list_len: usize,
            out: *mut u64,
            out_len: usize,
            answer: *mut [u64; 4],
        );
        pub fn pavuneshil_none_waiting(
            numbers: *mut [u32; 32],
            tags: *mut [u32; 32],
            oldest: *mut [u8; 8],
            waiting: *mut [u8; 8],
            counters: *mut [u32; 8],
            last: *mut u8,
        );
        pub fn pavuneshil_submit(
            numbers: *mut [u32; 32],
            tags: *mut [u32; 32],
            oldest: *mut [u8; 8],
            waiting: *mut [u8; 8],
            counters: *mut [u32; 8],
            last: *mut u8,
            desk: u64,
            tag: u32,
            answer: *mut [u64; 4],
        );
        pub fn pavuneshil_hand_out(
            numbers: *mut [u32; 32],
            tags: *mut [u32; 32],
            oldest: *mut [u8; 8],
            waiting: *mut [u8; 8],
            counters: *mut [u32; 8],
            last: *mut u8,
            answer: *mut [u64; 4],
        );
    }
}

/// Four numbers that are no answer, so that one not written cannot be taken for one.
const UNWRITTEN: [u64; 4] = [u64::MAX; 4];

fn refusal(number: u64, place: u64, second: u64) -> Refusal {
    Refusal {
        number,
        place,
        second,
    }
}

/// The answer that four numbers tell. The library's contract allows no others.
fn answer(four: [u64; 4]) -> Answer {
    match four {
        [0, length, 0, 0] => Answer::Done(length as usize),
        [1, length, 0, 0] => Answer::Plan(length as usize),
        [2, number, place, second] => Answer::Refused(refusal(number, place, second)),
        _ => unreachable!("no answer: {four:?}"),
    }
}

/// An operation from one slice to another.
macro_rules! convert {
    ($operation:ident, $input:expr, $out:expr) => {{
        let mut four = UNWRITTEN;
        // Sound: the pointers and lengths are those of live slices that do not overlap, and the
        // function, which has no precondition, touches nothing beyond them.
        unsafe {
            archive::$operation(
                $input.as_ptr(),
                $input.len(),
                $out.as_mut_ptr(),
                $out.len(),
                &mut four,
            );
        }
        answer(four)
    }};
}

/// Reads a network text into a list of numbers, one for each line that is no remark. Refusals 1 to
/// 4 and 10.
pub fn read_network(text: &[u8], out: &mut [u64]) -> Answer {
    convert!(pavuneshil_read_network, text, out)
}

/// Reads a plan text into a list of numbers, one for each line that is no remark. Refusals 1 to 3
/// and 10.
pub fn read_plan(text: &[u8], out: &mut [u64]) -> Answer {
    convert!(pavuneshil_read_plan, text, out)
}

/// Writes the text of a network's list. Refusals 2 to 4 and 10.
pub fn write_network(list: &[u64], out: &mut [u8]) -> Answer {
    convert!(pavuneshil_write_network, list, out)
}

/// Writes the text of a plan's list. Refusals 2, 3 and 10.
pub fn write_plan(list: &[u64], out: &mut [u8]) -> Answer {
    convert!(pavuneshil_write_plan, list, out)
}

/// Makes the even plan of fewest steps for a network's list that is safe with this lag. Refusals 19, 2
/// to 4, 9 and 10.
///
/// ```
/// use pavuneshil::{make_plan, Answer};
/// // two flows of 10 change places on two links of 15
/// let mut network = vec![1, 333, 0, 2, 2, 4, 15, 15, 0, 10, 0, 10];
/// network.extend([0, 1, 10, 0, 0, 2, 0, 10, 1, 2, 10, 0, 1, 1, 0, 10]);
/// let mut plan = [0; pavuneshil::PLAN_NUMBERS];
/// for (lag, steps) in [(1, 2), (2, 4), (3, 6), (4, 8)] {
///     assert!(matches!(make_plan(lag, &network, &mut plan), Answer::Plan(_)));
///     assert_eq!(plan[2], steps);
/// }
/// ```
pub fn make_plan(lag: u64, network: &[u64], out: &mut [u64]) -> Answer {
    let mut four = UNWRITTEN;
    // Sound: as in `convert`.
    unsafe {
        archive::pavuneshil_make_plan_at_lag(
            lag,
            network.as_ptr(),
            network.len(),
            out.as_mut_ptr(),
            out.len(),
            &mut four,
        );
    }
    answer(four)
}

/// Checks anybody's plan against a network, with this lag. Done: no choice of a row of a window for each
/// tunnel, or with `unit` 1 for each flow, overloads a link, and the marks, one for each tunnel, are 0.
/// Refusals 19, 2 to 8 and 10; after 7 and 8 in step a + 1 the link named is overloaded once the marked
/// tunnels, with `unit` 1 the flows of the marked tunnels, show the row of the window from row a in which
/// they have the most on it, and all others row a. A mark is 1 where a tunnel crosses that link and the
/// largest of its amounts in the window exceeds that of row a, with `unit` 1 the largest sum of its
/// flow's amounts across that link. With lag 1 the window has two rows, those that the step leads from
/// and to.
///
/// ```
/// use pavuneshil::{check_plan, Answer};
/// // a flow of 10 moves from a tunnel over link 0 to one over links 0 and 1, of 15 each, at once
/// let mut network = [3, 333, 0, 0, 2, 1, 2, 15, 0, 15, 0, 0, 10, 10, 0, 1, 10, 0, 0, 3, 0, 10];
/// let mut marks = [0; 2];
/// let answer = check_plan(1, &network, &[1, 1, 1, 2], &mut marks);
/// assert!(matches!(answer, Answer::Refused(refusal) if refusal.number == 7));
/// assert_eq!(marks, [0, 1]);
/// // half at a time, and with switches that may be a step behind
/// let halves = [1, 2, 2, 2, 10, 10];
/// assert_eq!(check_plan(1, &network, &halves, &mut marks), Answer::Done(2));
/// let answer = check_plan(2, &network, &halves, &mut marks);
/// assert!(matches!(answer, Answer::Refused(refusal) if refusal.number == 7));
/// // with unit 1 both tunnels change at once
/// network[3] = 1;
/// assert_eq!(check_plan(2, &network, &halves, &mut marks), Answer::Done(2));
/// ```
pub fn check_plan(lag: u64, network: &[u64], plan: &[u64], marks: &mut [u8]) -> Answer {
    let mut four = UNWRITTEN;
    // Sound: as in `convert`.
    unsafe {
        archive::pavuneshil_check_plan_at_lag(
            lag,
            network.as_ptr(),
            network.len(),
            plan.as_ptr(),
            plan.len(),
            marks.as_mut_ptr(),
            marks.len(),
            &mut four,
        );
    }
    answer(four)
}

/// Lays out the page of one step of an accepted plan, for a change board that reads paper; with lag 1.
/// Done: a heading and a line for each link, then a heading and a line for each tunnel, in columns of
/// 6, 6, 10, 10 and 10, in which words and numbers stand at the right: 42 characters and a line feed.
/// A link's line has the step, the link, parts × its capacity, in edition 3 `cap` - `held`, and the
/// most that protected traffic can come to on it in the step, and all traffic, counted in parts too: of
/// each tunnel the larger of its two amounts, or with `unit` 1 of each flow the larger of its two sums
/// on the link. A tunnel's line has the tunnel, its flow, how many links it crosses, and its `old` and
/// its `new` as the network has them. Refusals 2 to 8, which leave everything as it was, since no marks
/// are lent, 11 and 10.
///
/// ```
/// use pavuneshil::{page, Answer};
/// // a flow of 10 moves from a tunnel over link 0 to one over links 0 and 1, of 15 each, half at a time
/// let network = [1, 333, 0, 2, 1, 2, 15, 15, 0, 10, 0, 1, 10, 0, 0, 3, 0, 10];
/// let plan = [1, 2, 2, 2, 10, 10];
/// let mut out = [0; pavuneshil::PAGE_BYTES];
/// let Answer::Done(length) = page(&network, &plan, 1, &mut out) else {
///     panic!("the plan is accepted, and has a step 1");
/// };
/// let lines = [
///     "  step  link       cap protected       all\n",
///     "     1     0        30        30        30\n",
///     "     1     1        30        10        10\n",
///     "tunnel  flow      hops       old       new\n",
///     "     0     0         1        10         0\n",
///     "     1     0         2         0        10\n",
/// ];
/// assert_eq!(out[..length], *lines.concat().as_bytes());
/// ```
pub fn page(network: &[u64], plan: &[u64], step: u64, out: &mut [u8]) -> Answer {
    let mut four = UNWRITTEN;
    // Sound: as in `convert`.
    unsafe {
        archive::pavuneshil_page(
            network.as_ptr(),
            network.len(),
            plan.as_ptr(),
            plan.len(),
            step,
            out.as_mut_ptr(),
            out.len(),
            &mut four,
        );
    }
    answer(four)
}

/// How many even steps suffice for a network that keeps its scratch, with lag 1. Refusal 2.
pub fn step_bound(scratch: u64, overrun: u64) -> StepBound {
    let mut four = UNWRITTEN;
    // Sound: `four` is live for the call, and the function has no precondition.
    unsafe { archive::pavuneshil_step_bound(scratch, overrun, &mut four) };
    match four {
        [0, steps, 0, 0] => StepBound::Steps(steps),
        [2, number, place, second] => StepBound::Refused(refusal(number, place, second)),
        _ => unreachable!("no answer: {four:?}"),
    }
}

/// Divides a flow's rate among 1 to 16 services with these demands; rate and demands up to
/// 10,000,000. Done: one share for each service. If the demands add up to at most the rate, each is
/// met. Else the shares add up to the rate, none is above its demand, and nobody short of its
/// demand has over one unit less than another, or less than one after it. Refusals 21 and 10.
///
/// ```
/// use pavuneshil::{share, Answer};
/// let mut shares = [0; 3];
/// assert_eq!(share(10, &[3, 5, 7], &mut shares), Answer::Done(3));
/// assert_eq!(shares, [3, 4, 3]);
/// ```
pub fn share(rate: u64, demands: &[u64], out: &mut [u64]) -> Answer {
    let mut four = UNWRITTEN;
    // Sound: as in `convert`.
    unsafe {
        archive::pavuneshil_share(
            rate,
            demands.as_ptr(),
            demands.len(),
            out.as_mut_ptr(),
            out.len(),
            &mut four,
        );
    }
    answer(four)
}

/// Reads a rules text into a list of numbers, one for each line. It has no remarks. Refusals 1 to 3
/// and 10.
///
/// ```
/// use pavuneshil::{read_rules, Answer};
/// let text = b"rules=1\nslack=250\nswitches=1\ntunnels=1\nroom=4\nvia=0000000000000001\nkind=2\n";
/// let mut list = [0; pavuneshil::RULES_NUMBERS];
/// assert_eq!(read_rules(text, &mut list), Answer::Done(7));
/// assert_eq!(list[..7], [1, 250, 1, 1, 4, 1, 2]);
/// ```
pub fn read_rules(text: &[u8], out: &mut [u64]) -> Answer {
    convert!(pavuneshil_read_rules, text, out)
}

/// Writes the text of a rule tables' list. Refusals 2, 3 and 10.
pub fn write_rules(list: &[u64], out: &mut [u8]) -> Answer {
    convert!(pavuneshil_write_rules, list, out)
}

/// Tells in which stage each tunnel's rules go in or out, for a rule tables' list. Done: one number
/// for each tunnel, 0 for one that is kept, else a stage of 1 to ceil(1000 / slack) - 1. In a stage,
/// those to add go in, then those to remove go out. No switch ever holds more rules than its room,
/// whichever of a stage's tunnels have gone; after each stage `slack` thousandths of every room are
/// free; after the last the switches hold the tunnels kept and added. Refusals 2, 3, 18 and 10.
///
/// ```
/// use pavuneshil::{stage_rules, Answer};
/// // slack 250, so three stages; one switch with room for 4 rules, of which 3 may be used: three
/// // tunnels to add and three to remove
/// let list = [1, 250, 1, 6, 4, 1, 2, 1, 2, 1, 2, 1, 3, 1, 3, 1, 3];
/// let mut stages = [0; 6];
/// assert_eq!(stage_rules(&list, &mut stages), Answer::Done(6));
/// assert_eq!(stages, [1, 2, 3, 1, 2, 3]);
/// ```
pub fn stage_rules(list: &[u64], out: &mut [u64]) -> Answer {
    convert!(pavuneshil_stage_rules, list, out)
}
