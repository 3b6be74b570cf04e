//! The hand-out for eight desks, through the wrapper.

use pavuneshil::*;

const LAST_NUMBER: u32 = 4_294_967_295;

fn refused(number: u64, place: u64) -> Refusal {
    Refusal {
        number,
        place,
        second: 0,
    }
}

fn accepted(number: u32, before: u64) -> Result<Accepted, Refusal> {
    Ok(Accepted { number, before })
}

fn handed(desk: u64, number: u32, tag: u32) -> Result<Handed, Refusal> {
    Ok(Handed { desk, number, tag })
}

/// A state with a count, rings and a round beyond what calls from the empty state reach.
fn any_state() -> Desks {
    Desks {
        numbers: std::array::from_fn(|i| 1000 + i as u32),
        tags: std::array::from_fn(|i| 2000 + i as u32),
        oldest: [0, 1, 2, 3, 4, 5, 6, 255],
        waiting: [4, 0, 1, 2, 3, 4, 5, 255],
        counters: std::array::from_fn(|desk| 70 + desk as u32),
        last: 250,
    }
}

#[test]
fn the_empty_state() {
    let desks = Desks::new();
    assert_eq!(desks, Desks::default());
    assert_eq!((desks.waiting, desks.last), ([0; 8], 7));
    assert_eq!(desks.counters, [0; 8]);
}

#[test]
fn the_round() {
    let mut desks = Desks::new();
    // desk d submits d + 1 jobs, at most four
    for desk in 0..8 {
        for job in 0..(desk + 1).min(4) {
            assert!(desks.submit(desk, (10 * desk + job) as u32).is_ok());
        }
    }
    // at first from desk 0, and then on from the desk after; in a desk the oldest first
    for job in 0..4 {
        for desk in job..8 {
            let out = desks.hand_out().expect("a job waits");
            assert_eq!((out.desk, out.tag), (desk, (10 * desk + job) as u32));
        }
    }
    assert_eq!(desks.hand_out(), Err(refused(14, 0)));
    // last served was 7; after 3 comes 5, though desk 0 submitted before it
    assert_eq!(desks.submit(3, 1), accepted(5, 0));
    assert_eq!(desks.hand_out(), handed(3, 5, 1));
    assert_eq!(desks.submit(0, 2), accepted(2, 0));
    assert_eq!(desks.submit(3, 3), accepted(6, 1));
    assert_eq!(desks.submit(5, 4), accepted(5, 0));
    assert_eq!(desks.hand_out(), handed(5, 5, 4));
    assert_eq!(desks.hand_out(), handed(0, 2, 2));
    assert_eq!(desks.hand_out(), handed(3, 6, 3));
    // a desk alone is served again and again
    assert_eq!(desks.submit(3, 5), accepted(7, 0));
    assert_eq!(desks.submit(3, 6), accepted(8, 1));
    assert_eq!(desks.hand_out(), handed(3, 7, 5));
    assert_eq!(desks.hand_out(), handed(3, 8, 6));
}

#[test]
fn four_wait() {
    let mut desks = Desks::new();
    for desk in 0..8 {
        for _ in 0..4 {
            assert!(desks.submit(desk, 9).is_ok());
        }
        assert_eq!(desks.submit(desk, 9), Err(refused(13, desk)));
    }
    assert_eq!(desks.waiting, [4; 8]);
    // a refusal takes no number; a job handed out makes room for one of its desk
    assert_eq!(desks.hand_out(), handed(0, 1, 9));
    assert_eq!(desks.submit(1, 9), Err(refused(13, 1)));
    assert_eq!(desks.submit(0, 9), accepted(5, 31));
    assert_eq!(desks.submit(0, 9), Err(refused(13, 0)));
}

/// The jobs handed out before a job of this desk with this number.
fn handed_out_before(mut desks: Desks, desk: u64, number: u32) -> u64 {
    let out = std::iter::from_fn(|| desks.hand_out().ok());
    out.take_while(|job| (job.desk, job.number) != (desk, number))
        .count() as u64
}

#[test]
fn the_turn() {
    // each desk comes earlier than desk 4 or later, with fewer jobs than its own or more
    for last in 0..8 {
        for p in 0..4 {
            let mut desks = Desks::new();
            desks.last = last;
            for (desk, jobs) in [4, 3, 2, 1, p, 1, 2, 3].into_iter().enumerate() {
                for _ in 0..jobs {
                    assert!(desks.submit(desk as u64, 0).is_ok());
                }
            }
            let job = desks.submit(4, 0).expect("room for one more");
            assert_eq!(job.before, handed_out_before(desks, 4, job.number));
        }
    }
}

#[test]
fn others_submit_in_between() {
    // desk 4 was just served, and every other desk submits whenever it can: 8 p + 7 jobs go before
    for p in 0..4 {
        let mut desks = Desks::new();
        desks.last = 4;
        let mut number = 0;
        for _ in 0..p + 1 {
            number = desks.submit(4, 0).expect("room for one more").number;
        }
        let mut before = 0;
        loop {
            for desk in [0, 1, 2, 3, 5, 6, 7] {
                while desks.submit(desk, 0).is_ok() {}
            }
            let job = desks.hand_out().expect("a job waits");
            if (job.desk, job.number) == (4, number) {
                break;
            }
            before += 1;
        }
        assert_eq!(before, 8 * p + 7);
    }
}

#[test]
fn no_such_desk() {
    for mut desks in [Desks::new(), any_state()] {
        for desk in [8, 9, 15, 16, 255, 256, 1 << 32, (1 << 32) + 1, u64::MAX] {
            assert_eq!(desks.submit(desk, 1), Err(refused(12, desk)));
        }
    }
}

#[test]
fn a_desk_has_its_own_numbers() {
    // however many jobs of others are accepted, and however many of its own are refused, in between
    let mut desks = Desks::new();
    for round in 0..5 {
        for desk in [0, 1, 2, 4, 5, 6, 7] {
            while desks.submit(desk, 0).is_ok() {}
        }
        for number in 4 * round + 1..=4 * round + 4 {
            let job = desks.submit(3, 0).expect("room for one more");
            assert_eq!(job.number, number);
        }
        assert_eq!(desks.submit(3, 0), Err(refused(13, 3)));
        while desks.waiting[3] > 0 {
            assert!(desks.hand_out().is_ok());
        }
    }
}

#[test]
fn numbers_return_to_1() {
    let mut desks = Desks::new();
    desks.counters[6] = LAST_NUMBER - 2;
    for (number, before) in [(LAST_NUMBER - 1, 0), (LAST_NUMBER, 1), (1, 2), (2, 3)] {
        assert_eq!(desks.submit(6, number), accepted(number, before));
    }
    for number in [LAST_NUMBER - 1, LAST_NUMBER, 1, 2] {
        assert_eq!(desks.hand_out(), handed(6, number, number));
    }
    desks.counters[6] = LAST_NUMBER;
    assert_eq!(desks.submit(6, 0), accepted(1, 0));
}

#[test]
fn refusals_leave_every_field() {
    let mut desks = any_state();
    for desk in [0, 5, 6, 7] {
        assert_eq!(desks.submit(desk, 1), Err(refused(13, desk)));
        assert_eq!(desks, any_state());
    }
    for desk in [8, u64::MAX] {
        assert_eq!(desks.submit(desk, 1), Err(refused(12, desk)));
        assert_eq!(desks, any_state());
    }
    let nothing_waits = Desks {
        waiting: [0; 8],
        ..any_state()
    };
    let mut desks = nothing_waits;
    assert_eq!(desks.hand_out(), Err(refused(14, 0)));
    assert_eq!(desks, nothing_waits);
}

#[test]
fn every_value_is_a_state() {
    let mut desks = any_state();
    // desk 1, whose ring begins at its place 1, and desk 4 at its place 0, where three jobs wait
    assert_eq!(desks.submit(1, 5), accepted(72, 6));
    assert_eq!((desks.numbers[5], desks.tags[5], desks.last), (72, 5, 250));
    assert_eq!(desks.submit(4, 6), accepted(75, 19));
    assert_eq!((desks.numbers[19], desks.tags[19]), (75, 6));
    // the desk after 250 is desk 3, as 250 is taken for 2; the count 255 for 4
    let places = [
        15, 16, 21, 26, 31, 0, 5, 10, // desks 3 to 7, then 0 to 2
        12, 17, 22, 27, 28, 1, // desks 3 to 7 and 0
        18, 23, 24, 29, 2, 19, 20, 25, 30, 3,
    ];
    for place in places {
        let number = match place {
            5 => 72,
            19 => 75,
            _ => 1000 + place,
        };
        let out = desks.hand_out().expect("a job waits");
        assert_eq!((out.desk, out.number), (place as u64 / 4, number));
        assert_eq!(desks.last as u64, out.desk);
    }
    assert_eq!(desks.hand_out(), Err(refused(14, 0)));
    assert_eq!(desks.counters, [70, 72, 72, 73, 75, 75, 76, 77]);
}
