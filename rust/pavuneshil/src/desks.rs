//! A fair hand-out for eight desks.

use crate::{archive, refusal, Refusal, UNWRITTEN};

/// Desks 0 to 7, their jobs that wait, and whose turn it is. At most four jobs of a desk wait.
///
/// Over any calls from [`Desks::new`], a desk's jobs are handed out in the order of submission, none
/// twice and none that was not accepted; if nobody submits after it, exactly as many jobs are handed
/// out before a job as it was told when it was accepted, and whoever submits, at most 8 p + 7 where p
/// jobs of its desk are older, so at most seven once it is its desk's oldest; and every job has been
/// handed out once 32 hand-outs have been called after it was accepted. A desk's job numbers say
/// nothing of the other desks: its n-th accepted submission, counted from 0, has number
/// n % 4,294,967,295 + 1, so that of the jobs waiting no two share both desk and number.
///
/// Every value of the fields is a state. Each desk has a ring of four places: the job of desk `d`
/// before which `i` others of that desk wait is at place `4 * d + (oldest[d] + i) % 4` of `numbers`
/// and of `tags`. Two values may differ and yet be the same state; `==` compares the fields.
///
/// ```
/// use pavuneshil::{Accepted, Desks, Handed};
/// let mut desks = Desks::new();
/// let accepted = |number, before| Ok(Accepted { number, before });
/// assert_eq!(desks.submit(2, 201), accepted(1, 0));
/// assert_eq!(desks.submit(5, 501), accepted(1, 1));
/// // desk 5 comes before the second job of desk 2
/// assert_eq!(desks.submit(2, 202), accepted(2, 2));
/// let handed = |desk, number, tag| Ok(Handed { desk, number, tag });
/// assert_eq!(desks.hand_out(), handed(2, 1, 201));
/// assert_eq!(desks.hand_out(), handed(5, 1, 501));
/// assert_eq!(desks.hand_out(), handed(2, 2, 202));
/// assert_eq!(desks.hand_out().unwrap_err().number, 14);
/// ```
#[derive(Debug, Clone, Copy, PartialEq, Eq)]
pub struct Desks {
    /// The jobs' numbers, four places for each desk.
    pub numbers: [u32; 32],
    /// The jobs' tags, in the same places.
    pub tags: [u32; 32],
    /// Where in its ring a desk's oldest job is. Taken modulo 4.
    pub oldest: [u8; 8],
    /// How many jobs of a desk wait. More than 4 is taken as 4.
    pub waiting: [u8; 8],
    /// The job number that a desk was given last, at first 0.
    pub counters: [u32; 8],
    /// The desk served last, at first 7. Taken modulo 8.
    pub last: u8,
}

/// What a desk learns of a job that is accepted.
#[derive(Debug, Clone, Copy, PartialEq, Eq, Hash)]
pub struct Accepted {
    /// The job's number, from the desk's own counter.
    pub number: u32,
    /// The exact number of jobs to be handed out before this one if nobody submits again.
    pub before: u64,
}

/// A job that is handed out.
#[derive(Debug, Clone, Copy, PartialEq, Eq, Hash)]
pub struct Handed {
    pub desk: u64,
    pub number: u32,
    pub tag: u32,
}

/// A function of the library on the six parts of a state, then what else it takes.
macro_rules! on_parts {
    ($operation:ident, $desks:expr $(, $other:expr)*) => {
        // Sound: the pointers are those of live fields that do not overlap, and of live locals, and
        // the function, which has no precondition, touches nothing beyond them.
        unsafe {
            archive::$operation(
                &mut $desks.numbers,
                &mut $desks.tags,
                &mut $desks.oldest,
                &mut $desks.waiting,
                &mut $desks.counters,
                &mut $desks.last
                $(, $other)*
            )
        }
    };
}

impl Desks {
    /// The empty state: nothing waits, the round begins at desk 0, and each desk's job numbers at 1.
    pub fn new() -> Desks {
        let mut desks = Desks {
            numbers: [0; 32],
            tags: [0; 32],
            oldest: [0; 8],
            waiting: [0; 8],
            counters: [0; 8],
            last: 0,
        };
        on_parts!(pavuneshil_none_waiting, desks);
        desks
    }

    /// A desk submits a job, which waits behind the desk's others: the desk's next job number, which
    /// returns to 1 after 4,294,967,295, and how many jobs go before it if nobody submits again.
    /// Refusals 12, then 13; both leave every field as it was.
    pub fn submit(&mut self, desk: u64, tag: u32) -> Result<Accepted, Refusal> {
        let mut four = UNWRITTEN;
        on_parts!(pavuneshil_submit, self, desk, tag, &mut four);
        match four {
            [0, number, before, 0] => Ok(Accepted {
                number: number as u32,
                before,
            }),
            [2, number, place, second] => Err(refusal(number, place, second)),
            _ => unreachable!("no answer: {four:?}"),
        }
    }

    /// Hands out the oldest job of the first desk with work, going round from the desk after the one
    /// served last. Refusal 14, which leaves every field as it was.
    pub fn hand_out(&mut self) -> Result<Handed, Refusal> {
        let mut four = UNWRITTEN;
        on_parts!(pavuneshil_hand_out, self, &mut four);
        match four {
            [0, desk, number, tag] => Ok(Handed {
                desk,
                number: number as u32,
                tag: tag as u32,
            }),
            [2, number, place, second] => Err(refusal(number, place, second)),
            _ => unreachable!("no answer: {four:?}"),
        }
    }
}

impl Default for Desks {
    /// The empty state, as [`Desks::new`].
    fn default() -> Desks {
        Desks::new()
    }
}
