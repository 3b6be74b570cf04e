//! The page of a step, through the wrapper.

use pavuneshil::*;

/// The swap of the paper: two flows of rate 10 change places on two links of 15; and its plan of two steps.
const SWAP: [u64; 28] = [
    1, 333, 0, 2, 2, 4, 15, 15, 0, 10, 0, 10, //
    0, 1, 10, 0, 0, 2, 0, 10, 1, 2, 10, 0, 1, 1, 0, 10,
];
const PLAN: [u64; 8] = [1, 2, 2, 4, 10, 10, 10, 10];

const STEP_1: &str = "  step  link       cap protected       all
     1     0        30        30        30
     1     1        30        30        30
tunnel  flow      hops       old       new
     0     0         1        10         0
     1     0         1         0        10
     2     1         1        10         0
     3     1         1         0        10
";
const STEP_2: &str = "  step  link       cap protected       all
     2     0        30        30        30
     2     1        30        30        30
tunnel  flow      hops       old       new
     0     0         1        10         0
     1     0         1         0        10
     2     1         1        10         0
     3     1         1         0        10
";

fn refused(number: u64, place: u64, second: u64) -> Answer {
    Answer::Refused(Refusal {
        number,
        place,
        second,
    })
}

/// The session of the paper, from its texts to the pages of both steps.
#[test]
fn session_in_full() {
    let text = b"net=1\nscratch=333\noverrun=0\nlinks=2\nflows=2\ntunnels=4\ncap=15\ncap=15\n\
        class=0\nrate=10\nclass=0\nrate=10\n\
        flow=0\nvia=0000000000000001\nold=10\nnew=0\n\
        flow=0\nvia=0000000000000002\nold=0\nnew=10\n\
        flow=1\nvia=0000000000000002\nold=10\nnew=0\n\
        flow=1\nvia=0000000000000001\nold=0\nnew=10\n";
    let mut network = [0; NETWORK_NUMBERS];
    assert_eq!(read_network(text, &mut network), Answer::Done(28));
    assert_eq!(network[..28], SWAP);
    let mut plan = [0; PLAN_NUMBERS];
    assert_eq!(make_plan(1, &network[..28], &mut plan), Answer::Plan(8));
    assert_eq!(plan[..8], PLAN);
    for (step, printed) in [(1, STEP_1), (2, STEP_2)] {
        let mut out = [9; PAGE_BYTES];
        let answer = page(&network[..28], &plan[..8], step, &mut out);
        assert_eq!(answer, Answer::Done(344));
        assert_eq!(out[..344], *printed.as_bytes());
        assert!(out[344..].iter().all(|&byte| byte == 9));
        // in room for just the page
        let mut exact = [9; 344];
        assert_eq!(page(&SWAP, &PLAN, step, &mut exact), Answer::Done(344));
        assert_eq!(exact, *printed.as_bytes());
    }
}

/// No page is longer than one of 64 links and 96 tunnels.
#[test]
fn the_longest_page() {
    let mut network = vec![1, 20, 0, 64, 32, 96];
    network.extend([96; 64]);
    network.extend([0, 3].repeat(32));
    for tunnel in 0..96 {
        network.extend([tunnel % 32, u64::MAX, 1, 1]);
    }
    let plan = [1, 1, 1, 96];
    let mut out = [0; PAGE_BYTES];
    let answer = page(&network, &plan, 1, &mut out);
    assert_eq!(answer, Answer::Done(PAGE_BYTES));
    let lines: Vec<&[u8]> = out.chunks(43).collect();
    assert_eq!(lines[64], b"     1    63        96        96        96\n");
    assert_eq!(lines[65], b"tunnel  flow      hops       old       new\n");
    assert_eq!(lines[161], b"    95    31        64         1         1\n");
    let short = &mut out[..PAGE_BYTES - 1];
    assert_eq!(page(&network, &plan, 1, short), refused(10, 6966, 0));
}

#[test]
fn refusals_leave_all_as_it_was() {
    let mut out = [5; 400];
    // the lists and the rows, as from the checker
    assert_eq!(page(&[], &[], 0, &mut out), refused(3, 1, 0));
    assert_eq!(page(&[4], &[], 0, &mut out), refused(2, 1, 0));
    let mut network = SWAP;
    network[14] = 9;
    assert_eq!(page(&network, &PLAN, 1, &mut out), refused(4, 0, 0));
    assert_eq!(page(&SWAP, &PLAN[..7], 1, &mut out), refused(3, 8, 1));
    assert_eq!(page(&SWAP, &[2], 1, &mut out), refused(2, 1, 1));
    assert_eq!(page(&SWAP, &[1, 1, 1, 3], 1, &mut out), refused(5, 4, 1));
    let plan = [1, 2, 2, 4, 10, 10, 10, 11];
    assert_eq!(page(&SWAP, &plan, 1, &mut out), refused(6, 1, 1));
    // an overload, with room and without: there are no marks that it could leave
    let at_once = [1, 1, 1, 4];
    assert_eq!(page(&SWAP, &at_once, 1, &mut out), refused(7, 1, 0));
    assert_eq!(page(&SWAP, &at_once, 0, &mut []), refused(7, 1, 0));
    let mut background = SWAP;
    (background[8], background[10]) = (2, 2);
    assert_eq!(page(&background, &at_once, 1, &mut out), refused(8, 1, 0));
    // a step that the plan does not have, then room
    for step in [0, 3, u64::MAX] {
        assert_eq!(page(&SWAP, &PLAN, step, &mut out), refused(11, step, 0));
        assert_eq!(page(&SWAP, &PLAN, step, &mut []), refused(11, step, 0));
    }
    assert_eq!(page(&SWAP, &PLAN, 2, &mut []), refused(10, 344, 0));
    let short = &mut out[..343];
    assert_eq!(page(&SWAP, &PLAN, 1, short), refused(10, 344, 0));
    assert_eq!(out, [5; 400]);
}
