//! Remarks at every place of the sample texts, of every length and number around the limits: what
//! the paper says of each, and the second implementation's answer.

use compare::LANDED;
use pavuneshil::{Answer, Refusal, PLAN_NUMBERS, TEXT_BYTES};
use std::path::Path;

/// The lines of a text, the form by its name, and the second number of its refusals.
struct Sample {
    name: &'static str,
    second: u64,
    lines: Vec<Vec<u8>>,
}

fn samples() -> Vec<Sample> {
    [("network", 0), ("plan", 1)]
        .map(|(name, second)| {
            let path = format!("../../samples/swap/{name}.txt");
            let text = std::fs::read(Path::new(env!("CARGO_MANIFEST_DIR")).join(path));
            let text = text.expect("a sample");
            let lines = text.split_inclusive(|&byte| byte == b'\n');
            Sample {
                name,
                second,
                lines: lines.map(<[u8]>::to_vec).collect(),
            }
        })
        .into()
}

/// So many bytes and a line feed.
fn remark(length: usize) -> Vec<u8> {
    let mut line = vec![b'#'; length];
    line.push(b'\n');
    line
}

impl Sample {
    /// The text with some lines put in at a place.
    fn with(&self, place: usize, put: &[Vec<u8>]) -> Vec<u8> {
        let (before, after) = self.lines.split_at(place);
        [before, put, after].concat().concat()
    }

    /// What a text is read as, which the second implementation must say too.
    fn read(&self, text: &[u8]) -> Result<Vec<u64>, Refusal> {
        let mut list = [0; PLAN_NUMBERS];
        let (answer, second) = if self.name == "network" {
            (
                pavuneshil::read_network(text, &mut list),
                second::read_network_by(&LANDED, text, PLAN_NUMBERS),
            )
        } else {
            (
                pavuneshil::read_plan(text, &mut list),
                second::read_plan_by(&LANDED, text, PLAN_NUMBERS),
            )
        };
        let read = match answer {
            Answer::Done(length) => Ok(list[..length].to_vec()),
            Answer::Refused(refusal) => Err(refusal),
            Answer::Plan(_) => panic!("no plan is made"),
        };
        let second = second.map_err(|r| (r.number, r.place, r.second));
        let ours = read.clone().map_err(|r| (r.number, r.place, r.second));
        assert_eq!(ours, second, "{:?}", String::from_utf8_lossy(text));
        read
    }

    /// A text is read as the sample is, and what is written of that is the sample.
    fn good(&self, text: &[u8]) {
        let list = self.read(text).expect("a good text");
        let mut written = vec![0; TEXT_BYTES];
        let answer = if self.name == "network" {
            pavuneshil::write_network(&list, &mut written)
        } else {
            pavuneshil::write_plan(&list, &mut written)
        };
        let plain = self.lines.concat();
        assert_eq!(answer, Answer::Done(plain.len()));
        assert_eq!(written[..plain.len()], plain[..]);
    }

    /// A text is refused at a line, counted from 0 here.
    fn refused(&self, text: &[u8], number: u64, line: usize) {
        let refusal = Refusal {
            number,
            place: line as u64 + 1,
            second: self.second,
        };
        assert_eq!(self.read(text), Err(refusal));
    }
}

#[test]
fn of_every_length_at_every_place() {
    for sample in samples() {
        for place in 0..=sample.lines.len() {
            for length in 1..=80 {
                sample.good(&sample.with(place, &[remark(length)]));
            }
            for length in 81..=200 {
                sample.refused(&sample.with(place, &[remark(length)]), 1, place);
            }
        }
    }
}

#[test]
fn of_every_number_at_every_place() {
    for sample in samples() {
        for place in 0..=sample.lines.len() {
            for number in 0..=40 {
                // all at one place, and all but this one at the start
                let together = sample.with(place, &vec![remark(1); number]);
                let first = vec![remark(1); number.max(1) - 1].concat();
                let apart = [first, sample.with(place, &[remark(80)])].concat();
                if number <= 32 {
                    sample.good(&together);
                    sample.good(&apart);
                } else {
                    sample.refused(&together, 1, place + 32);
                    sample.refused(&apart, 1, 32 + if number == 33 { place } else { 0 });
                }
            }
        }
    }
}

#[test]
fn of_any_bytes() {
    for sample in samples() {
        for byte in (0..=255).filter(|&byte| byte != b'\n') {
            sample.good(&sample.with(1, &[vec![b'#', byte, b'\n']]));
        }
    }
}

#[test]
fn cut_by_the_end() {
    for sample in samples() {
        for place in 0..=sample.lines.len() {
            let before = sample.lines[..place].concat();
            for length in [1, 2, 79, 80, 81, 100_000] {
                let text = [&before[..], &vec![b'#'; length]].concat();
                sample.refused(&text, 1, place);
            }
        }
    }
}

#[test]
fn counted_as_lines() {
    for sample in samples() {
        let end = sample.lines.len();
        for place in 0..=end {
            // so many remarks, and no line after them
            let before = sample.lines[..place].concat();
            for number in 0..=32 {
                let text = [before.clone(), vec![remark(3); number].concat()].concat();
                if place == end {
                    sample.good(&text);
                } else {
                    sample.refused(&text, 3, place + number);
                }
                // a line that is none of the form, or one too many
                let wrong = [text, b" # no remark\n".to_vec()].concat();
                let refused = if place == end { 3 } else { 1 };
                sample.refused(&wrong, refused, place + number);
            }
        }
    }
}

#[test]
fn many_lines_in_one_pass() {
    for sample in samples() {
        sample.refused(&remark(1).repeat(1_000_000), 1, 32);
        sample.refused(&b"\n".repeat(1_000_000), 1, 0);
        let all = sample.with(sample.lines.len(), &vec![b"\n".to_vec(); 1_000_000]);
        sample.refused(&all, 3, sample.lines.len());
    }
}

/// "Both read at most 65,536 bytes of a text": what comes after them changes no answer.
#[test]
fn first_bytes() {
    for sample in samples() {
        let end = sample.lines.len();
        for place in 0..=end {
            for more in [&b"#"[..], b"#\n", b"\n", b"9", b"cap=0\n", b"at=0\n"] {
                let text = sample.with(place, &[more.repeat(100_000)]);
                assert_eq!(sample.read(&text), sample.read(&text[..TEXT_BYTES]));
            }
        }
    }
}
