//! Staging the rule tables, through the wrapper.

use pavuneshil::*;

/// Two switches with room for 4 and 6 rules, of which 3 and 4 may be used. Tunnel 0 is kept, 1 to 3 are
/// added, 4 to 6 removed.
const TEXT: &[u8] = b"rules=1\nslack=250\nswitches=2\ntunnels=7\nroom=4\nroom=6\n\
    via=0000000000000003\nkind=1\n\
    via=0000000000000003\nkind=2\nvia=0000000000000001\nkind=2\nvia=0000000000000002\nkind=2\n\
    via=0000000000000001\nkind=3\nvia=0000000000000003\nkind=3\nvia=0000000000000002\nkind=3\n";
const LIST: [u64; 20] = [1, 250, 2, 7, 4, 6, 3, 1, 3, 2, 1, 2, 2, 2, 1, 3, 3, 3, 2, 3];

fn refused(number: u64, place: u64, second: u64) -> Answer {
    Answer::Refused(Refusal {
        number,
        place,
        second,
    })
}

/// The list with another number in place of its own, places counted from 1 as lines are.
fn with(changes: &[(usize, u64)]) -> Vec<u64> {
    let mut list = LIST.to_vec();
    for &(line, number) in changes {
        list[line - 1] = number;
    }
    list
}

/// The stages of a list, all of what is lent being written.
fn staged(list: &[u64]) -> Vec<u64> {
    let mut stages = vec![7; list[3] as usize];
    assert_eq!(stage_rules(list, &mut stages), Answer::Done(stages.len()));
    stages
}

#[test]
fn session_in_full() {
    let mut list = [9; RULES_NUMBERS];
    assert_eq!(read_rules(TEXT, &mut list), Answer::Done(20));
    assert_eq!(list[..20], LIST);
    assert_eq!(list[20..], [9; RULES_NUMBERS - 20]);
    let mut stages = [9; STAGES];
    assert_eq!(stage_rules(&list[..20], &mut stages), Answer::Done(7));
    assert_eq!(stages[..7], [0, 2, 3, 1, 1, 2, 3]);
    assert_eq!(stages[7..], [9; STAGES - 7]);
    let mut printed = [9; RULES_BYTES];
    assert_eq!(write_rules(&LIST, &mut printed), Answer::Done(TEXT.len()));
    assert_eq!(printed[..TEXT.len()], *TEXT);
    assert!(printed[TEXT.len()..].iter().all(|&byte| byte == 9));
}

#[test]
fn stages() {
    // one stage: all in, and then all out
    let list = [1, 500, 1, 4, 4, 1, 2, 1, 3, 1, 2, 1, 3];
    assert_eq!(staged(&list), [1, 1, 1, 1]);
    // slack 200: four stages, 8 of 10 rules may be used, so two go in and two go out in each
    let list = [
        &[1, 200, 1, 16, 10][..],
        &[1, 2].repeat(8),
        &[1, 3].repeat(8),
    ]
    .concat();
    let two = [1, 1, 2, 2, 3, 3, 4, 4];
    assert_eq!(staged(&list), [two, two].concat());
    // slack 20: 49 stages, one out in each but the last, one in in each but the first
    let list = [&[1, 20, 1, 96, 49][..], &[1, 2, 1, 3].repeat(48)].concat();
    let stages = staged(&list);
    assert_eq!(stages[..4], [2, 1, 3, 2]);
    assert_eq!(stages[92..], [48, 47, 49, 48]);
    // nothing to add: out by and by all the same
    let list = with(&[(5, 8), (6, 8), (10, 1), (12, 1), (14, 1)]);
    assert_eq!(staged(&list), [0, 0, 0, 0, 2, 2, 3]);
    // no tunnels, and no room that they would need
    assert_eq!(stage_rules(&[1, 20, 1, 0, 0], &mut []), Answer::Done(0));
    // the highest switch
    let mut list = [
        &[1, 334, 64, 2][..],
        &[0; 63],
        &[2],
        &[1 << 63, 2, 1 << 63, 3],
    ]
    .concat();
    assert_eq!(staged(&list), [2, 1]);
    list[67] = 1;
    assert_eq!(stage_rules(&list, &mut [0; 2]), refused(18, 63, 0));
}

#[test]
fn largest() {
    let mut list = vec![1, 500, 64, 96];
    list.extend([65_535; 64]);
    list.extend([u64::MAX, 3].repeat(96));
    assert_eq!(list.len(), RULES_NUMBERS);
    let mut text = [0; RULES_BYTES];
    assert_eq!(write_rules(&list, &mut text), Answer::Done(RULES_BYTES));
    let mut again = [0; RULES_NUMBERS];
    assert_eq!(read_rules(&text, &mut again), Answer::Done(RULES_NUMBERS));
    assert_eq!(again[..], list);
    let mut stages = [0; STAGES];
    assert_eq!(stage_rules(&list, &mut stages), Answer::Done(STAGES));
    assert_eq!(stages, [1; STAGES]);
}

#[test]
fn refusals_leave_all_as_it_was() {
    let mut numbers = [5; 20];
    let mut bytes = [5; 400];
    // lines
    assert_eq!(read_rules(b"", &mut numbers), refused(3, 1, 2));
    assert_eq!(read_rules(b"rules=1", &mut numbers), refused(1, 1, 2));
    assert_eq!(read_rules(b"rules=2\n", &mut numbers), refused(2, 1, 2));
    let noted = [b"# no remarks here\n", TEXT].concat();
    assert_eq!(read_rules(&noted, &mut numbers), refused(1, 1, 2));
    let noted = [TEXT, b"# no remarks here\n"].concat();
    assert_eq!(read_rules(&noted, &mut numbers), refused(3, 21, 2));
    // numbers
    for (line, number) in [
        (1, 0),
        (1, 2),
        (2, 19),
        (2, 501),
        (3, 0),
        (3, 65),
        (4, 97),
        (5, 65_536),
        (6, u64::MAX),
        (7, 0),
        (7, 4),
        (9, 1 << 63),
        (8, 0),
        (20, 4),
    ] {
        let list = with(&[(line, number)]);
        let two = refused(2, line as u64, 2);
        assert_eq!(stage_rules(&list, &mut numbers), two);
        assert_eq!(write_rules(&list, &mut bytes), two);
    }
    for length in 0..20 {
        let three = refused(3, length as u64 + 1, 2);
        assert_eq!(stage_rules(&LIST[..length], &mut numbers), three);
        assert_eq!(write_rules(&LIST[..length], &mut bytes), three);
    }
    let long = [&LIST[..], &[1]].concat();
    assert_eq!(stage_rules(&long, &mut numbers), refused(3, 21, 2));
    assert_eq!(write_rules(&long, &mut bytes), refused(3, 21, 2));
    // sets that do not fit: after 2 and 3, before 10; the lowest switch, then old before new
    for (changes, switch, set) in [
        (&[(5, 3)][..], 0, 0),
        (&[(5, 3), (6, 0)], 0, 0),
        (&[(6, 3)], 1, 0),
        (&[(5, 3), (16, 2)], 0, 1),
        (&[(6, 5), (20, 2)], 1, 1),
        (&[(16, 2), (6, 0)], 0, 1),
    ] {
        let list = with(changes);
        let unfit = refused(18, switch, set);
        assert_eq!(stage_rules(&list, &mut numbers), unfit, "{list:?}");
        assert_eq!(stage_rules(&list, &mut []), unfit);
    }
    assert_eq!(
        stage_rules(&with(&[(5, 0), (20, 4)]), &mut []),
        refused(2, 20, 2)
    );
    // room
    assert_eq!(read_rules(TEXT, &mut numbers[..19]), refused(10, 20, 0));
    let length = TEXT.len();
    let ten = refused(10, length as u64, 0);
    assert_eq!(write_rules(&LIST, &mut bytes[..length - 1]), ten);
    assert_eq!(stage_rules(&LIST, &mut numbers[..6]), refused(10, 7, 0));
    assert_eq!(numbers, [5; 20]);
    assert_eq!(bytes, [5; 400]);
}
