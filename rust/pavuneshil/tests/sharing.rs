//! Sharing a flow among services, through the wrapper.

use pavuneshil::*;

const MOST: u64 = 10_000_000;

/// The answer, and the output, lent with 7s.
fn shared(rate: u64, demands: &[u64], room: usize) -> (Answer, Vec<u64>) {
    let mut out = vec![7; room];
    (share(rate, demands, &mut out), out)
}

#[test]
fn shares() {
    for (rate, demands, shares) in [
        // each is met
        (15, &[3, 5, 7][..], &[3, 5, 7][..]),
        (MOST, &[0], &[0]),
        (0, &[0, 0], &[0, 0]),
        (MOST, &[MOST], &[MOST]),
        // level 3 takes 9 and level 4 would take 11: the unit left goes to service 2, since 1 is met
        (10, &[3, 5, 7], &[3, 4, 3]),
        // level 3, and nothing left
        (9, &[3, 5, 7], &[3, 3, 3]),
        // level 0: two units for the first two of the three that ask for any
        (2, &[0, 9, 1, 4], &[0, 1, 1, 0]),
        (0, &[5, 5], &[0, 0]),
        // each round meets one demand more
        (40, &[1, 3, 7, 15, 31], &[1, 3, 7, 15, 14]),
        (MOST, &[MOST, 1], &[MOST - 1, 1]),
        (MOST, &[MOST; 16], &[MOST / 16; 16]),
    ] {
        let (answer, out) = shared(rate, demands, demands.len() + 2);
        assert_eq!(answer, Answer::Done(demands.len()), "{rate} {demands:?}");
        assert_eq!(out[..demands.len()], *shares, "{rate} {demands:?}");
        assert_eq!(out[demands.len()..], [7, 7]);
    }
}

#[test]
fn refusals() {
    for (rate, demands, room, number, place, second) in [
        // count, rate, the first demand out of range, room, in this order
        (MOST + 1, &[][..], 0, 21, 0, 0),
        (MOST + 1, &[MOST + 1; 17], 0, 21, 0, 0),
        (MOST + 1, &[MOST + 1; 16], 0, 21, 0, 1),
        (MOST, &[MOST, MOST + 1, u64::MAX], 0, 21, 2, 0),
        (u64::MAX, &[0], 1, 21, 0, 1),
        (MOST, &[MOST; 16], 15, 10, 16, 0),
        (0, &[0], 0, 10, 1, 0),
    ] {
        let refusal = Refusal {
            number,
            place,
            second,
        };
        let (answer, out) = shared(rate, demands, room);
        assert_eq!(answer, Answer::Refused(refusal), "{rate} {demands:?}");
        assert_eq!(out, vec![7; room]);
    }
}
