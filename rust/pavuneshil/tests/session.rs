//! The session of the paper, its edges and some refusals, through the wrapper.

use pavuneshil::*;

/// The swap: two flows of rate 10 change places on two links of this capacity.
fn swap(cap: u64, class: u64, overrun: u64) -> Vec<u64> {
    let mut list = vec![1, 333, overrun, 2, 2, 4, cap, cap, class, 10, class, 10];
    list.extend([0, 1, 10, 0, 0, 2, 0, 10, 1, 2, 10, 0, 1, 1, 0, 10]);
    list
}

fn refused(number: u64, place: u64, second: u64) -> Answer {
    Answer::Refused(Refusal {
        number,
        place,
        second,
    })
}

#[test]
fn session_in_full() {
    let text = b"net=1\nscratch=333\noverrun=0\nlinks=2\nflows=2\ntunnels=4\ncap=15\ncap=15\n\
        class=0\nrate=10\nclass=0\nrate=10\n\
        flow=0\nvia=0000000000000001\nold=10\nnew=0\n\
        flow=0\nvia=0000000000000002\nold=0\nnew=10\n\
        flow=1\nvia=0000000000000002\nold=10\nnew=0\n\
        flow=1\nvia=0000000000000001\nold=0\nnew=10\n";
    let mut network = [0; NETWORK_NUMBERS];
    assert_eq!(read_network(text, &mut network), Answer::Done(28));
    assert_eq!(network[..28], swap(15, 0, 0));
    let mut plan = [0; PLAN_NUMBERS];
    assert_eq!(make_plan(1, &network[..28], &mut plan), Answer::Plan(8));
    let mut printed = [0; TEXT_BYTES];
    let Answer::Done(length) = write_plan(&plan[..8], &mut printed) else {
        panic!("a plan is written");
    };
    let expected = b"plan=1\nparts=2\nsteps=2\ntunnels=4\nat=10\nat=10\nat=10\nat=10\n";
    assert_eq!(printed[..length], expected[..]);
    let mut again = [0; PLAN_NUMBERS];
    assert_eq!(read_plan(expected, &mut again), Answer::Done(8));
    assert_eq!(again[..8], plan[..8]);
    let mut marks = [7; MARKS];
    assert_eq!(
        check_plan(1, &network[..28], &plan[..8], &mut marks),
        Answer::Done(4)
    );
    assert_eq!(marks[..5], [0, 0, 0, 0, 7]);
    let Answer::Done(length) = write_network(&network[..28], &mut printed) else {
        panic!("a network is written");
    };
    assert_eq!(printed[..length], text[..]);
}

/// Edition 2: a flow that grows from 10 to 20 and one that shrinks from 20 to 10, on a link of 35.
#[test]
fn rates_that_change() {
    let text = b"net=2\nscratch=100\noverrun=0\nlinks=1\nflows=2\ntunnels=2\ncap=35\n\
        class=0\nrate=10\nnext=20\nclass=0\nrate=20\nnext=10\n\
        flow=0\nvia=0000000000000001\nold=10\nnew=20\n\
        flow=1\nvia=0000000000000001\nold=20\nnew=10\n";
    let mut network = [0; NETWORK_NUMBERS];
    assert_eq!(read_network(text, &mut network), Answer::Done(21));
    let network = &mut network[..21];
    let list = [
        2, 100, 0, 1, 2, 2, 35, 0, 10, 20, 0, 20, 10, 0, 1, 10, 20, 1, 1, 20, 10,
    ];
    assert_eq!(network, list);
    let mut plan = [0; PLAN_NUMBERS];
    assert_eq!(make_plan(1, network, &mut plan), Answer::Plan(6));
    assert_eq!(plan[..6], [1, 2, 2, 2, 30, 30]);
    let mut marks = [7; 2];
    assert_eq!(
        check_plan(1, network, &plan[..6], &mut marks),
        Answer::Done(2)
    );
    assert_eq!(marks, [0, 0]);
    let mut printed = [0; TEXT_BYTES];
    assert_eq!(
        write_network(network, &mut printed),
        Answer::Done(text.len())
    );
    assert_eq!(printed[..text.len()], text[..]);
    // in two parts either flow has 20 to 40 in a row
    let mut marks = [7; 2];
    for (row, refusal) in [([19, 30], refused(6, 1, 0)), ([30, 41], refused(6, 1, 1))] {
        let plan = [1, 2, 2, 2, row[0], row[1]];
        assert_eq!(check_plan(1, network, &plan, &mut marks), refusal);
    }
    assert_eq!(marks, [7, 7]);
    // flow 1 misses its next rate, and there is no edition 4
    network[12] = 11;
    assert_eq!(make_plan(1, network, &mut plan), refused(4, 1, 1));
    network[0] = 4;
    assert_eq!(make_plan(1, network, &mut plan), refused(2, 1, 0));
}

/// Edition 3: a flow moves from a tunnel over link 0 to one over links 0 and 1; a crew holds 5 of the
/// 20 of link 0.
#[test]
fn whole_flows_and_held_capacity() {
    let text = b"net=3\nscratch=333\noverrun=0\nunit=1\nlinks=2\nflows=1\ntunnels=2\n\
        cap=20\nheld=5\ncap=15\nheld=0\n\
        class=0\nrate=10\nnext=10\n\
        flow=0\nvia=0000000000000001\nold=10\nnew=0\n\
        flow=0\nvia=0000000000000003\nold=0\nnew=10\n";
    let mut network = [0; NETWORK_NUMBERS];
    assert_eq!(read_network(text, &mut network), Answer::Done(22));
    let network = &mut network[..22];
    let list = [
        3, 333, 0, 1, 2, 1, 2, 20, 5, 15, 0, 0, 10, 10, 0, 1, 10, 0, 0, 3, 0, 10,
    ];
    assert_eq!(network, list);
    let mut printed = [0; TEXT_BYTES];
    assert_eq!(
        write_network(network, &mut printed),
        Answer::Done(text.len())
    );
    assert_eq!(printed[..text.len()], text[..]);
    let mut plan = [0; PLAN_NUMBERS];
    assert_eq!(make_plan(1, network, &mut plan), Answer::Plan(4));
    assert_eq!(plan[..4], [1, 1, 1, 2]);
    let mut marks = [7; 3];
    let at_once = [1, 1, 1, 2];
    assert_eq!(
        check_plan(1, network, &at_once, &mut marks),
        Answer::Done(2)
    );
    assert_eq!(marks, [0, 0, 7]);
    // each tunnel for itself: 20 on link 0, of which a crew holds 5
    network[3] = 0;
    assert_eq!(make_plan(1, network, &mut plan), Answer::Plan(6));
    assert_eq!(plan[..6], [1, 2, 2, 2, 10, 10]);
    assert_eq!(
        check_plan(1, network, &at_once, &mut marks),
        refused(7, 1, 0)
    );
    assert_eq!(marks, [0, 1, 7]);
    // all that link 0 has, and more than it has
    network[8] = 20;
    assert_eq!(make_plan(1, network, &mut plan), refused(9, 1, 0));
    network[8] = 21;
    assert_eq!(make_plan(1, network, &mut plan), refused(2, 9, 0));
    network[3] = 2;
    assert_eq!(make_plan(1, network, &mut plan), refused(2, 4, 0));
}

#[test]
fn edges() {
    for (scratch, steps) in [(500, 1), (334, 2), (333, 3), (100, 9), (20, 49)] {
        assert_eq!(step_bound(scratch, 0), StepBound::Steps(steps));
    }
    let mut plan = [0; PLAN_NUMBERS];
    let mut steps = |network: &[u64]| match make_plan(1, network, &mut plan) {
        Answer::Plan(_) => Ok(plan[2]),
        other => Err(other),
    };
    for (cap, fewest) in [(20, 1), (19, 2), (15, 2), (14, 3), (11, 10)] {
        assert_eq!(steps(&swap(cap, 0, 0)), Ok(fewest));
    }
    assert_eq!(steps(&swap(10, 0, 0)), Err(refused(9, 1, 0)));
    assert_eq!(steps(&swap(10, 2, 100)), Ok(10));
    assert_eq!(steps(&swap(10, 2, 20)), Ok(50));
    let mut marks = [9; 4];
    assert_eq!(
        check_plan(1, &swap(15, 0, 0), &[1, 1, 1, 4], &mut marks),
        refused(7, 1, 0)
    );
    assert_eq!(marks, [0, 0, 0, 1]);
}

/// The swap at cap 15: with lag w the two flows may be w steps apart, so that w times as many are needed.
#[test]
fn agents_that_fall_behind() {
    let network = swap(15, 0, 0);
    let mut plan = [0; PLAN_NUMBERS];
    let mut marks = [7; 4];
    for (lag, steps) in [(1, 2), (2, 4), (3, 6), (4, 8)] {
        let length = 4 + 4 * (steps as usize - 1);
        let answer = make_plan(lag, &network, &mut plan);
        assert_eq!(answer, Answer::Plan(length));
        assert_eq!(plan[..4], [1, steps, steps, 4]);
        let plan = &plan[..length];
        for other in 1..=4 {
            let answer = check_plan(other, &network, plan, &mut marks);
            if other <= lag {
                assert_eq!((answer, marks), (Answer::Done(4), [0; 4]));
            } else {
                assert_eq!((answer, marks), (refused(7, 1, 0), [0, 0, 0, 1]));
            }
        }
    }
    // no other lag, whatever else there is
    let (mut out, mut marks) = ([5; 2], [5; 2]);
    for lag in [0, 5, u64::MAX] {
        assert_eq!(make_plan(lag, &[], &mut out), refused(19, lag, 0));
        let answer = check_plan(lag, &network, &[], &mut marks);
        assert_eq!(answer, refused(19, lag, 0));
    }
    assert_eq!((out, marks), ([5; 2], [5; 2]));
}

#[test]
fn refusals_leave_all_as_it_was() {
    let mut out = [5; 28];
    assert_eq!(read_network(b"", &mut out), refused(3, 1, 0));
    assert_eq!(read_plan(b"plan=2\n", &mut out), refused(2, 1, 1));
    assert_eq!(make_plan(1, &[], &mut out), refused(3, 1, 0));
    assert_eq!(make_plan(1, &swap(11, 0, 0), &mut out), refused(10, 40, 0));
    assert_eq!(make_plan(1, &swap(15, 0, 0), &mut []), refused(10, 8, 0));
    assert_eq!(out, [5; 28]);
    let two = |place| {
        StepBound::Refused(Refusal {
            number: 2,
            place,
            second: 0,
        })
    };
    assert_eq!(step_bound(19, 19), two(2));
    assert_eq!(step_bound(20, 19), two(3));
}
