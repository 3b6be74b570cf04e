//! The rule tables: what the paper says of the stages, tried on every small table by going through
//! all that can happen in a stage, and on larger ones; and the form of their text, line by line.
//! Every answer is held against the second implementation's too.

use compare::inputs;
use pavuneshil::{Answer, Refusal, RULES_BYTES, RULES_NUMBERS, STAGES};
use second::gen::Rng;
use std::path::Path;

const KEEP: u64 = 1;
const ADD: u64 = 2;
const REMOVE: u64 = 3;

fn refused(number: u64, place: usize, second: u64) -> Refusal {
    Refusal {
        number,
        place: place as u64,
        second,
    }
}

/// An answer as a result, which the second implementation must give too.
fn same<T: Clone + PartialEq + std::fmt::Debug>(
    answer: Answer,
    out: &[T],
    second: Result<Vec<T>, second::Refusal>,
) -> Result<Vec<T>, Refusal> {
    let ours = match answer {
        Answer::Done(length) => Ok(out[..length].to_vec()),
        Answer::Refused(refusal) => Err(refusal),
        Answer::Plan(_) => panic!("no plan is made"),
    };
    let second = second.map_err(|r| refused(r.number, r.place as usize, r.second));
    assert_eq!(ours, second);
    ours
}

fn read(text: &[u8]) -> Result<Vec<u64>, Refusal> {
    let mut out = [0; RULES_NUMBERS];
    let answer = pavuneshil::read_rules(text, &mut out);
    same(answer, &out, second::read_rules(text, RULES_NUMBERS))
}

fn write(list: &[u64]) -> Result<Vec<u8>, Refusal> {
    let mut out = [0; RULES_BYTES];
    let answer = pavuneshil::write_rules(list, &mut out);
    same(answer, &out, second::write_rules(list, RULES_BYTES))
}

fn stage(list: &[u64]) -> Result<Vec<u64>, Refusal> {
    let mut out = [0; STAGES];
    let answer = pavuneshil::stage_rules(list, &mut out);
    same(answer, &out, second::stage_rules(list, STAGES))
}

// ---------------------------------------------------------------- the stages

/// The tables of a list. A set of tunnels is the bits of a number.
struct Tables {
    slack: u64,
    rooms: Vec<u64>,
    kinds: Vec<u64>,
    /// For each switch the tunnels that cross it.
    crossing: Vec<u128>,
}

impl Tables {
    fn of(list: &[u64]) -> Tables {
        let switches = list[2] as usize;
        let tunnels = &list[4 + switches..];
        let crosses = |t: usize, s: usize| (tunnels[2 * t] >> s) & 1 == 1;
        let count = tunnels.len() / 2;
        Tables {
            slack: list[1],
            rooms: list[4..4 + switches].to_vec(),
            kinds: (0..count).map(|t| tunnels[2 * t + 1]).collect(),
            crossing: (0..switches)
                .map(|s| (0..count).filter(|&t| crosses(t, s)).map(|t| 1 << t).sum())
                .collect(),
        }
    }

    /// The tunnels of which something holds.
    fn those(&self, holds: impl Fn(usize) -> bool) -> u128 {
        let tunnels = 0..self.kinds.len();
        tunnels.filter(|&t| holds(t)).map(|t| 1 << t).sum()
    }

    fn of_kind(&self, kind: u64) -> u128 {
        self.those(|t| self.kinds[t] == kind)
    }

    /// At every switch, the rules of a set times `times` are at most `most` of its room.
    fn everywhere(&self, set: u128, times: u64, most: impl Fn(u64) -> u64) -> bool {
        (0..self.rooms.len()).all(|s| {
            times * u64::from((set & self.crossing[s]).count_ones()) <= most(self.rooms[s])
        })
    }

    /// "No switch exceeds its room"
    fn has_room(&self, held: u128) -> bool {
        self.everywhere(held, 1, |room| room)
    }

    /// "`slack` is free"
    fn is_free(&self, held: u128) -> bool {
        self.everywhere(held, 1000, |room| (1000 - self.slack) * room)
    }

    /// The first set that does not fit: "place lowest switch, then second 0 old before 1 new".
    fn unfit(&self) -> Option<Refusal> {
        let sets = [REMOVE, ADD].map(|other| self.of_kind(KEEP) | self.of_kind(other));
        (0..self.rooms.len()).find_map(|s| {
            (0..2).find_map(|second| {
                let rules = u64::from((sets[second] & self.crossing[s]).count_ones());
                (1000 * rules > (1000 - self.slack) * self.rooms[s])
                    .then(|| refused(18, s, second as u64))
            })
        })
    }

    /// What is claimed of the stages; what is broken, or how many stages have moves.
    fn claim(&self, stages: &[u64]) -> Result<usize, &'static str> {
        // "Let k be ceil(1000/slack) - 1": the fewest pieces of slack that come to 1000, less one
        let k = (0..).find(|k| (k + 1) * self.slack >= 1000).expect("one");
        if stages.len() != self.kinds.len() {
            return Err("another number of stages");
        }
        for (t, &stage) in stages.iter().enumerate() {
            match self.kinds[t] {
                KEEP if stage != 0 => return Err("a stage for a kept one"),
                ADD | REMOVE if stage < 1 || stage > k => return Err("not in stage 1 to k"),
                _ => {}
            }
        }
        let mut held = self.of_kind(KEEP) | self.of_kind(REMOVE);
        let mut with_moves = 0;
        for i in 1..=k {
            let moves =
                [ADD, REMOVE].map(|kind| self.those(|t| self.kinds[t] == kind && stages[t] == i));
            let [adds, removes] = moves;
            with_moves += usize::from(adds | removes != 0);
            // one after the other in number order, first those to add
            let mut then = held;
            for set in moves {
                for t in (0..stages.len()).filter(|t| (set >> t) & 1 == 1) {
                    then ^= 1 << t;
                    if !self.has_room(then) {
                        return Err("no room, in number order");
                    }
                }
            }
            // in any order: any of the stage's moves are made, the others not; where these are
            // many, the ones that make most rules
            let both = adds | removes;
            if both.count_ones() <= 10 {
                let mut made = both;
                while made != 0 {
                    if !self.has_room(held ^ made) {
                        return Err("no room, in some order");
                    }
                    made = (made - 1) & both;
                }
            }
            if !self.has_room(held | adds) {
                return Err("no room between adding and removing");
            }
            held = then;
            if !self.is_free(held) {
                return Err("slack not free after a stage");
            }
        }
        if held != self.of_kind(KEEP) | self.of_kind(ADD) {
            return Err("not the new set at the end");
        }
        Ok(with_moves)
    }
}

/// How many tables were refused, and how many had moves in no stage, in one, and in more.
#[derive(Default, Debug)]
struct Seen {
    unfit: u64,
    still: u64,
    one: u64,
    more: u64,
}

impl Seen {
    /// Each came up more often than that.
    fn each_over(&self, least: u64) {
        let each = [self.unfit, self.still, self.one, self.more];
        assert!(each.iter().all(|&count| count > least), "{self:?}");
    }

    /// Stages a list and holds what is answered to the claim.
    fn hold(&mut self, list: &[u64]) {
        let tables = Tables::of(list);
        match (stage(list), tables.unfit()) {
            (Err(refusal), Some(unfit)) if refusal == unfit => self.unfit += 1,
            (Ok(stages), None) => match tables.claim(&stages) {
                Ok(0) => self.still += 1,
                Ok(1) => self.one += 1,
                Ok(_) => self.more += 1,
                Err(why) => panic!("{why}: {stages:?} for {list:?}"),
            },
            (answer, unfit) => panic!("{answer:?}, {unfit:?} for {list:?}"),
        }
    }
}

/// Every list of rule tables with so many switches and tunnels, one of the slacks, and at each switch
/// one of the rooms.
fn every(switches: u32, tunnels: u32, slacks: &[u64], rooms: &[u64], mut take: impl FnMut(&[u64])) {
    let vias = 2u64.pow(switches) - 1;
    let ways = 3 * vias;
    let all_rooms = (rooms.len() as u64).pow(switches);
    let mut list = vec![0; (4 + switches + 2 * tunnels) as usize];
    let first = 4 + switches as usize;
    for &slack in slacks {
        list[..4].copy_from_slice(&[1, slack, switches.into(), tunnels.into()]);
        for mut code in 0..all_rooms {
            for room in &mut list[4..first] {
                *room = rooms[(code % rooms.len() as u64) as usize];
                code /= rooms.len() as u64;
            }
            for mut code in 0..ways.pow(tunnels) {
                for tunnel in list[first..].chunks_mut(2) {
                    tunnel.copy_from_slice(&[code % ways / 3 + 1, code % 3 + 1]);
                    code /= ways;
                }
                take(&list);
            }
        }
    }
}

/// Where k changes and where it does not, and both ends. All moves in one stage exceed a room only where
/// two are added and two removed: some tables of each size have so many.
const SLACKS: [u64; 10] = [20, 21, 50, 100, 111, 250, 333, 334, 499, 500];

#[test]
fn every_table_of_one_switch() {
    let mut seen = Seen::default();
    for tunnels in 0..=6 {
        let rooms: Vec<u64> = (0..=8).chain([65_535]).collect();
        every(1, tunnels, &SLACKS, &rooms, |list| seen.hold(list));
    }
    seen.each_over(100);
}

#[test]
fn every_table_of_two_switches() {
    let mut seen = Seen::default();
    for tunnels in 0..=3 {
        every(2, tunnels, &SLACKS, &[0, 1, 2, 3, 4], |list| {
            seen.hold(list)
        });
    }
    every(2, 4, &[20, 250, 334, 500], &[2, 3, 4, 5], |list| {
        seen.hold(list)
    });
    every(2, 5, &[250], &[3, 4], |list| seen.hold(list));
    seen.each_over(100);
}

#[test]
fn every_table_of_three_switches() {
    let mut seen = Seen::default();
    every(3, 2, &SLACKS, &[0, 1, 2, 3, 4], |list| seen.hold(list));
    every(3, 3, &[333], &[2, 3, 5], |list| seen.hold(list));
    every(3, 4, &[250], &[3], |list| seen.hold(list));
    seen.each_over(100);
}

/// The tables of two switches once more, as switches 62 and 63 of 64.
#[test]
fn every_table_of_the_last_switches() {
    let mut seen = Seen::default();
    every(2, 4, &[20, 250], &[3, 4], |list| {
        let mut high = vec![list[0], list[1], 64, list[3]];
        high.extend([0; 62]);
        high.extend(&list[4..6]);
        let tunnels = list[6..].chunks(2);
        high.extend(tunnels.flat_map(|tunnel| [tunnel[0] << 62, tunnel[1]]));
        seen.hold(&high);
        let lower = |stages: Result<_, Refusal>| {
            stages.map_err(|r| refused(r.number, r.place as usize - 62, r.second))
        };
        assert_eq!(lower(stage(&high)), stage(list));
    });
    seen.each_over(100);
}

/// Larger ones, by chance, most with little room to spare; each is written and read back.
#[test]
fn larger_tables() {
    let mut rng = Rng::new(808);
    let mut seen = Seen::default();
    for _ in 0..3000 {
        let list = inputs::rule_tables(&mut rng);
        seen.hold(&list);
        assert_eq!(read(&write(&list).expect("a text")), Ok(list));
    }
    seen.each_over(100);
}

/// What is claimed can be broken: stages that are none, and what is wrong with each.
#[test]
fn wrong_stages_are_seen() {
    // three to add and three to remove at a switch of which 3 of 4 rules may be used
    let tables = Tables::of(&[1, 250, 1, 6, 4, 1, 2, 1, 2, 1, 2, 1, 3, 1, 3, 1, 3]);
    assert_eq!(tables.unfit(), None);
    assert_eq!(tables.claim(&[1, 2, 3, 1, 2, 3]), Ok(3));
    for (stages, why) in [
        (&[1, 2, 3, 1, 2][..], "another number of stages"),
        (&[0, 2, 3, 1, 2, 3], "not in stage 1 to k"),
        (&[1, 2, 4, 1, 2, 3], "not in stage 1 to k"),
        (&[1, 1, 3, 1, 2, 3], "no room, in number order"),
        (&[1, 2, 3, 2, 2, 3], "slack not free after a stage"),
    ] {
        assert_eq!(tables.claim(stages), Err(why), "{stages:?}");
    }
    // one kept, one to add and one to remove, with room for 2
    let tables = Tables::of(&[1, 334, 1, 2, 2, 1, 1, 1, 2]);
    assert_eq!(tables.unfit(), Some(refused(18, 0, 1)));
    let tables = Tables::of(&[1, 334, 1, 2, 4, 1, 1, 1, 2]);
    assert_eq!(tables.claim(&[1, 1]), Err("a stage for a kept one"));
    assert_eq!(tables.claim(&[0, 1]), Ok(1));
}

// ---------------------------------------------------------------- the text

/// The sample's lines, each with its line feed.
fn sample() -> Vec<Vec<u8>> {
    let path = Path::new(env!("CARGO_MANIFEST_DIR")).join("../../samples/rules/rules.txt");
    let text = std::fs::read(path).expect("the sample");
    text.split_inclusive(|&byte| byte == b'\n')
        .map(<[u8]>::to_vec)
        .collect()
}

/// The sample's text with one line, counted from 0, changed into some others.
fn changed(lines: &[Vec<u8>], at: usize, others: &[&[u8]]) -> Vec<u8> {
    [
        &lines[..at].concat()[..],
        &others.concat(),
        &lines[at + 1..].concat(),
    ]
    .concat()
}

#[test]
fn of_the_sample() {
    let lines = sample();
    let list = read(&lines.concat()).expect("a good text");
    assert_eq!(list.len(), lines.len());
    assert_eq!(write(&list), Ok(lines.concat()));
    // as its description and its man page say
    assert_eq!(stage(&list), Ok(vec![0, 2, 3, 1, 1, 2, 3]));
    Seen::default().hold(&list);
}

/// Every line changed in its key, its sign, its value or its end.
#[test]
fn every_line_not_in_its_form() {
    let lines = sample();
    for (at, line) in lines.iter().enumerate() {
        let line = String::from_utf8(line.clone()).expect("plain text");
        let (key, value) = line.trim_end().split_once('=').expect("a key and a value");
        let mut wrong: Vec<String> = [
            "", " ", "\t", "#", "net", "plan", "cap", "at", "flow", "scratch", "links",
        ]
        .iter()
        .map(|other| format!("{other}={value}\n"))
        .collect();
        for other in [
            "rules", "slack", "switches", "tunnels", "room", "via", "kind",
        ] {
            if other != key {
                wrong.push(format!("{other}={value}\n"));
            }
        }
        let upper = key.to_uppercase();
        let cut = &key[1..];
        wrong.extend([
            format!("{key}{value}\n"),
            format!("{key}\n"),
            format!("{key}=\n"),
            format!("{key}=={value}\n"),
            format!("{key}:{value}\n"),
            format!("{key} ={value}\n"),
            format!("{key}= {value}\n"),
            format!(" {key}={value}\n"),
            format!("{upper}={value}\n"),
            format!("{cut}={value}\n"),
            format!("{key}{key}={value}\n"),
            format!("{key}=0{value}\n"),
            format!("{key}=+{value}\n"),
            format!("{key}=-{value}\n"),
            format!("{key}={value} \n"),
            format!("{key}={value}\r\n"),
            format!("{key}={value}#\n"),
            format!("{key}={value}.0\n"),
            format!("{key}=00\n"),
            format!("{key}=01\n"),
            format!("{key}=12345678901\n"),
            format!("{key}=00000000000000001\n"),
            format!("{key}=000000000000000A\n"),
            format!("{key}=000000000000000g\n"),
            "\n".to_string(),
        ]);
        if key == "via" {
            wrong.extend(["0", "3", "1234567890", "000000000000003"].map(|v| format!("via={v}\n")));
        } else {
            wrong.extend(["a", "0x1", "0000000000000001"].map(|v| format!("{key}={v}\n")));
        }
        for other in wrong {
            let text = changed(&lines, at, &[other.as_bytes()]);
            assert_eq!(read(&text), Err(refused(1, at + 1, 2)), "{other:?}");
        }
        // without its line feed it runs into the next line, or is cut by the end
        let text = changed(&lines, at, &[line.trim_end().as_bytes()]);
        assert_eq!(read(&text), Err(refused(1, at + 1, 2)));
    }
}

/// Every line with each value about the ends of the ranges of all lines.
#[test]
fn every_value_about_its_range() {
    let lines = sample();
    let numbers = [
        0,
        1,
        2,
        3,
        4,
        5,
        19,
        20,
        21,
        63,
        64,
        65,
        95,
        96,
        97,
        499,
        500,
        501,
        65_534,
        65_535,
        65_536,
        9_999_999_999,
    ];
    for (at, line) in lines.iter().enumerate() {
        for number in numbers {
            let value = match at {
                6.. if at % 2 == 0 => format!("via={number:016x}\n"),
                0 => format!("rules={number}\n"),
                1 => format!("slack={number}\n"),
                2 => format!("switches={number}\n"),
                3 => format!("tunnels={number}\n"),
                4..=5 => format!("room={number}\n"),
                _ => format!("kind={number}\n"),
            };
            let answer = read(&changed(&lines, at, &[value.as_bytes()]));
            let in_range = match at {
                0 => number == 1,
                1 => (20..=500).contains(&number),
                2 => (1..=64).contains(&number),
                3 => number <= 96,
                4..=5 => number <= 65_535,
                // a kind, or a set of some of two switches
                _ => (1..=3).contains(&number),
            };
            let of_counts = at == 2 || at == 3;
            if !in_range {
                assert_eq!(answer, Err(refused(2, at + 1, 2)), "{value:?}");
            } else if !of_counts {
                assert_eq!(answer.map(|list| list[at]), Ok(number), "{line:?}");
            } else if value.as_bytes() != &line[..] {
                // the lines no longer are those that the counts say
                let refusal = answer.expect_err("another number of lines");
                assert!(matches!(refusal.number, 1..=3) && refusal.place > 4);
            }
        }
    }
}

/// Every line left out, doubled, and changed over with every other.
#[test]
fn every_line_out_of_place() {
    let lines = sample();
    for (at, line) in lines.iter().enumerate() {
        let out = read(&changed(&lines, at, &[])).expect_err("a line too few");
        assert!(out.place > at as u64);
        let doubled = read(&changed(&lines, at, &[line, line])).expect_err("a line too many");
        assert!(doubled.place > at as u64);
        for other in 0..at {
            let mut swapped = lines.clone();
            swapped.swap(at, other);
            let key = |i: usize| lines[i].split(|&byte| byte == b'=').next();
            let answer = read(&swapped.concat());
            assert_eq!(answer.is_ok(), key(at) == key(other), "{at} and {other}");
        }
    }
}

/// Every byte changed into every other, left out, and every byte put before it.
#[test]
fn every_byte() {
    let text = sample().concat();
    let mut good = 0;
    for at in 0..=text.len() {
        for byte in 0..=255 {
            let put = [&text[..at], &[byte], &text[at..]].concat();
            good += u64::from(read(&put).is_ok());
            if at < text.len() {
                let other = [&text[..at], &[byte], &text[at + 1..]].concat();
                good += u64::from(read(&other).is_ok());
            }
        }
        if at < text.len() {
            let out = [&text[..at], &text[at + 1..]].concat();
            good += u64::from(read(&out).is_ok());
        }
    }
    assert!(good > text.len() as u64);
}

/// "no remarks": a line that begins with # is not in its form, or too many after the last.
#[test]
fn number_signs_at_every_place() {
    let lines = sample();
    let longest = [&[b'#'; 80][..], b"\n"].concat();
    for place in 0..=lines.len() {
        for line in [&b"#\n"[..], b"# why\n", b"#rules=1\n", &longest, b"#"] {
            let text = [&lines[..place].concat()[..], line, &lines[place..].concat()].concat();
            let number = if place == lines.len() { 3 } else { 1 };
            assert_eq!(read(&text), Err(refused(number, place + 1, 2)));
        }
    }
}

#[test]
fn every_truncation() {
    let lines = sample();
    let text = lines.concat();
    for length in 0..text.len() {
        let cut = &text[..length];
        let before = cut.iter().filter(|&&byte| byte == b'\n').count();
        let between = cut.last().is_none_or(|&byte| byte == b'\n');
        let number = if between { 3 } else { 1 };
        assert_eq!(read(cut), Err(refused(number, before + 1, 2)));
    }
    for more in [
        &b"\n"[..],
        b"x",
        b"kind=1\n",
        b"via=0000000000000001\nkind=1\n",
    ] {
        let long = [&text, more].concat();
        assert_eq!(read(&long), Err(refused(3, lines.len() + 1, 2)));
    }
    // far too long, in one line and in many
    for more in [&b"9"[..], b"\n", b"room=1\n", b"#\n"] {
        let long = [&text[..], &more.repeat(1_000_000)].concat();
        assert_eq!(read(&long), Err(refused(3, lines.len() + 1, 2)));
        assert_eq!(read(&more.repeat(1_000_000)), Err(refused(1, 1, 2)));
    }
}

#[test]
fn every_cut_list() {
    let list = read(&sample().concat()).expect("a good text");
    for length in 0..list.len() {
        let missing = refused(3, length + 1, 2);
        assert_eq!(stage(&list[..length]), Err(missing));
        assert_eq!(write(&list[..length]), Err(missing));
    }
    for more in [0, 1, u64::MAX] {
        let long = [&list[..], &[more]].concat();
        let too_many = refused(3, list.len() + 1, 2);
        assert_eq!(stage(&long), Err(too_many));
        assert_eq!(write(&long), Err(too_many));
    }
}

/// Every room up to what is needed and beyond: 10 with the length needed, and nothing written.
#[test]
fn every_room() {
    fn hold<T: Copy + PartialEq + std::fmt::Debug>(
        needed: usize,
        seven: T,
        call: impl Fn(&mut [T]) -> Answer,
    ) {
        for room in 0..needed + 4 {
            let mut out = vec![seven; room];
            let answer = call(&mut out);
            if room < needed {
                assert_eq!(answer, Answer::Refused(refused(10, needed, 0)));
                assert_eq!(out, vec![seven; room]);
            } else {
                assert_eq!(answer, Answer::Done(needed));
                assert_eq!(out[needed..], vec![seven; room - needed]);
            }
        }
    }
    let text = sample().concat();
    let list = read(&text).expect("a good text");
    hold(list.len(), 7, |out| pavuneshil::read_rules(&text, out));
    hold(text.len(), 7, |out| pavuneshil::write_rules(&list, out));
    hold(7, 7, |out| pavuneshil::stage_rules(&list, out));
    // a set that does not fit is told before the room
    let mut short = list;
    short[4] -= 1;
    for room in 0..=STAGES {
        let mut out = vec![7; room];
        let answer = pavuneshil::stage_rules(&short, &mut out);
        assert_eq!(answer, Answer::Refused(refused(18, 0, 0)));
        assert_eq!(out, vec![7; room]);
    }
}
