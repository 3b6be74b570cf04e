//! Holds the two built programs against the second implementation's on the same inputs: what each
//! prints on standard output, and its status. On the error stream ours says nothing, or that its
//! answer could not be written, where standard output is closed; the second's says nothing.
//!
//!     programs OURS THEIRS [INPUTS [SEED]]
//!
//! OURS is the folder of `make_plan` and `check_plan`, THEIRS of `second-plan` and `second-check`.
//! Each program is one test, which passes if none of its inputs differs. The last line is
//! 'N passed, M failed'.

#![forbid(unsafe_code)]

use compare::{inputs, LANDED};
use second::gen::Rng;
use second::{write_network_by, write_plan};
use std::fs::{self, File, Permissions};
use std::io::Write;
use std::os::unix::fs::{MetadataExt, PermissionsExt};
use std::os::unix::process::CommandExt;
use std::path::{Path, PathBuf};
use std::process::{Command, Output, Stdio};

/// How many inputs each program gets, and the seed, where none are given.
const INPUTS: u64 = 150;
const SEED: u64 = 20_131_009;

/// What the second implementation's programs are told: the seventh request, edition 3, has landed, and
/// none after it that changes what the programs print. Both plan and check with lag 1.
const REQUESTS: &str = "7";

fn argument(name: &str) -> Option<&str> {
    name.starts_with("second-").then_some(REQUESTS)
}

/// The user and group `nobody`, for a file that cannot be read: root can read any.
const NOBODY: u32 = 65_534;

/// How a text comes to standard input.
#[derive(Debug, Clone, Copy)]
enum Way {
    File,
    Pipe,
    ByteByByte,
    Folder,
    OutputClosed,
}

/// What stands in place of a file.
#[derive(Debug, Clone, Copy, PartialEq, Eq)]
enum Place {
    File,
    Missing,
    Folder,
    Unreadable,
}

struct Run {
    room: PathBuf,
    /// Of the program at hand.
    inputs: u64,
    differing: u64,
    /// Of the programs before it.
    passed: u64,
    failed: u64,
}

impl Run {
    /// The two outputs are the same, and on the error stream ours says what is expected of it.
    fn hold(&mut self, name: &str, said: &str, ours: &Output, theirs: &Output) {
        self.inputs += 1;
        let same = ours.stdout == theirs.stdout && ours.status == theirs.status;
        if same && ours.stderr == said.as_bytes() && theirs.stderr.is_empty() {
            return;
        }
        self.differing += 1;
        println!(
            "FAILED: {name}: {:?} {:?}, expected {:?} {:?}; error stream {:?}, expected {said:?}",
            ours.status,
            String::from_utf8_lossy(&ours.stdout),
            theirs.status,
            String::from_utf8_lossy(&theirs.stdout),
            String::from_utf8_lossy(&ours.stderr),
        );
    }

    /// A program has had all of its inputs.
    fn ends(&mut self, name: &str) {
        println!("{:>9}  {name}, {} differ", self.inputs, self.differing);
        if self.inputs > 0 && self.differing == 0 {
            self.passed += 1;
        } else {
            self.failed += 1;
        }
        (self.inputs, self.differing) = (0, 0);
    }

    fn program(&self, name: &str) -> Command {
        let mut command = Command::new(self.room.join("bin").join(name));
        command.args(argument(name));
        command.current_dir(self.room.join("case"));
        command.stdin(Stdio::null());
        command
    }

    /// A planning program on a text that comes this way.
    fn plan(&self, name: &str, text: &[u8], way: Way) -> Output {
        let file = self.room.join("input");
        fs::write(&file, text).expect("the input is written");
        let mut command = self.program(name);
        match way {
            Way::File => command.stdin(File::open(&file).expect("the input opens")),
            Way::Folder => command.stdin(File::open(&self.room).expect("a folder opens")),
            Way::OutputClosed => {
                command = self.program_of_shell(name, "<../input >&-");
                &mut command
            }
            Way::Pipe | Way::ByteByByte => command.stdin(Stdio::piped()),
        };
        command.stdout(Stdio::piped()).stderr(Stdio::piped());
        let mut child = command.spawn().expect("the program starts");
        if let Some(mut pipe) = child.stdin.take() {
            let at_once = if matches!(way, Way::Pipe) { 4096 } else { 1 };
            for part in text.chunks(at_once) {
                // a program that has read all it reads may be gone
                if pipe.write_all(part).is_err() {
                    break;
                }
            }
        }
        child.wait_with_output().expect("the program ends")
    }

    /// The program run by the shell, with its streams set as the shell says.
    fn program_of_shell(&self, name: &str, streams: &str) -> Command {
        let told = argument(name).unwrap_or("");
        let mut command = Command::new("sh");
        command
            .args(["-c", &format!("exec ../bin/{name} {told} {streams}")])
            .current_dir(self.room.join("case"));
        command
    }

    /// A checking program in the folder `case`.
    fn check(&self, name: &str, unreadable: bool, output_closed: bool) -> Output {
        let mut command = if output_closed {
            self.program_of_shell(name, ">&-")
        } else {
            self.program(name)
        };
        let root = fs::metadata(&self.room).expect("the folder is there").uid() == 0;
        if unreadable && root {
            command.uid(NOBODY).gid(NOBODY);
        }
        command.output().expect("the program runs")
    }

    /// Puts a text, or what stands in its place, into the folder `case`.
    fn put(&self, name: &str, text: &[u8], place: Place) {
        let file = self.room.join("case").join(name);
        match place {
            Place::Missing => {}
            Place::Folder => fs::create_dir(&file).expect("a folder is made"),
            Place::File | Place::Unreadable => {
                fs::write(&file, text).expect("the text is written");
                let mode = if place == Place::File { 0o644 } else { 0 };
                fs::set_permissions(&file, Permissions::from_mode(mode)).expect("a mode is set");
            }
        }
    }

    /// An empty folder `case`.
    fn clear(&self) {
        let case = self.room.join("case");
        let _ = fs::remove_dir_all(&case);
        fs::create_dir(&case).expect("a folder is made");
        fs::set_permissions(&case, Permissions::from_mode(0o755)).expect("a mode is set");
    }
}

/// What a program of ours says on the error stream.
fn said(program: &str, output_closed: bool) -> String {
    if output_closed {
        format!("{program}: the answer could not be written\n")
    } else {
        String::new()
    }
}

/// A text of a pair of lists that are mostly valid, or one damaged.
fn texts(rng: &mut Rng) -> (Vec<u8>, Vec<u8>) {
    let (network, plan) = inputs::pair(rng, 1);
    let network = match write_network_by(&LANDED, &network, usize::MAX) {
        Ok(text) if rng.percent(90) => text,
        _ => inputs::network_text(rng),
    };
    let plan = match write_plan(&plan, usize::MAX) {
        Ok(text) if rng.percent(90) => text,
        _ => inputs::plan_text(rng),
    };
    (network, plan)
}

fn main() {
    let words: Vec<String> = std::env::args().skip(1).collect();
    let [ours, theirs, numbers @ ..] = &words[..] else {
        panic!("programs OURS THEIRS [INPUTS [SEED]]");
    };
    let given = |i: usize, other: u64| {
        numbers
            .get(i)
            .map_or(other, |word| word.parse().expect("a number"))
    };
    let (count, seed) = (given(0, INPUTS), given(1, SEED));
    let room = std::env::temp_dir().join(format!("pavuneshil-programs-{}", std::process::id()));
    fs::create_dir_all(room.join("bin")).expect("a folder is made");
    for folder in [room.clone(), room.join("bin")] {
        fs::set_permissions(&folder, Permissions::from_mode(0o755)).expect("a mode is set");
    }
    for (folder, name) in [
        (ours, "make_plan"),
        (ours, "check_plan"),
        (theirs, "second-plan"),
        (theirs, "second-check"),
    ] {
        let copy = room.join("bin").join(name);
        fs::copy(Path::new(folder).join(name), &copy).expect("the program is there");
        fs::set_permissions(&copy, Permissions::from_mode(0o755)).expect("a mode is set");
    }
    let mut run = Run {
        room,
        inputs: 0,
        differing: 0,
        passed: 0,
        failed: 0,
    };
    let mut rng = Rng::new(seed);
    for i in 0..count {
        let text = if rng.percent(50) {
            inputs::written(&inputs::network(&mut rng))
        } else {
            inputs::network_text(&mut rng)
        };
        // beyond what a program reads
        let text = match i % 25 {
            7 => inputs::too_long(&mut rng, text),
            _ => text,
        };
        let way = match i % 10 {
            0..=3 => Way::File,
            4..=6 => Way::Pipe,
            7..=8 => Way::ByteByByte,
            _ if i % 20 == 9 => Way::OutputClosed,
            _ => Way::Folder,
        };
        run.clear();
        let outputs = ["make_plan", "second-plan"].map(|name| run.plan(name, &text, way));
        let name = format!("make_plan, input {i} of seed {seed}, {way:?}");
        let said = said("make_plan", matches!(way, Way::OutputClosed));
        run.hold(&name, &said, &outputs[0], &outputs[1]);
    }
    run.ends("make_plan");
    for i in 0..count {
        let (network, mut plan) = texts(&mut rng);
        if i % 25 == 12 {
            plan = inputs::too_long(&mut rng, plan);
        }
        let odd = [Place::Missing, Place::Folder, Place::Unreadable];
        let places = match i % 12 {
            10 => (rng.pick(&odd), Place::File),
            11 => (Place::File, rng.pick(&odd)),
            9 => (rng.pick(&odd), rng.pick(&odd)),
            _ => (Place::File, Place::File),
        };
        run.clear();
        run.put("network.txt", &network, places.0);
        run.put("plan.txt", &plan, places.1);
        let unreadable = places.0 == Place::Unreadable || places.1 == Place::Unreadable;
        let closed = i % 40 == 1;
        let outputs =
            ["check_plan", "second-check"].map(|name| run.check(name, unreadable, closed));
        let name = format!("check_plan, input {i} of seed {seed}, {places:?}");
        run.hold(&name, &said("check_plan", closed), &outputs[0], &outputs[1]);
    }
    run.ends("check_plan");
    let _ = fs::remove_dir_all(&run.room);
    println!("{} passed, {} failed", run.passed, run.failed);
    std::process::exit(i32::from(run.failed > 0));
}
