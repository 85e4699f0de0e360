//! The calls of the archive from Rust, linked in or by the bridge, and the comparison of what they give with what the second model
//! says. Shared by compare.rs, compare_walls.rs and compare_live.rs.
//!
//! Built with `--cfg linked`, the real archives (target/staticlib) are linked in and do nearly all the work, and a sample goes by the
//! bridge too; without it everything goes by the bridge.
#![allow(dead_code)]

#[cfg(linked)]
#[path = "archive.rs"]
mod archive;

use crate::files::{enough, with, Rng, LAYOUTS};
use crate::model::{number, record_octets, Run};
use std::collections::HashMap;
use std::io::{BufReader, BufWriter, Read, Write};
use std::process::{Child, ChildStdin, ChildStdout, Command, Stdio};

/// What stands in the lent buffers before a call, and in a lent state that is only written.
const RECORDS_PATTERN: u8 = 0xA5;
const ANSWERS_PATTERN: u8 = 0x5A;
pub const STATE_PATTERN: u8 = 0xC3;

/// The calls for C; the letter is the bridge's.
#[derive(Clone, Copy, Debug, PartialEq, Eq)]
#[repr(u8)]
pub enum Call {
    Run = b'c',
    WallRun = b'w',
    Fresh = b'f',
    Change = b'h',
    Move = b'm',
    RunTo = b't',
}

impl Call {
    /// Which of list, state, records and answers it takes.
    fn takes(self) -> [bool; 4] {
        match self {
            Call::Run | Call::WallRun => [true, false, true, true],
            Call::Fresh => [true, true, false, false],
            Call::Change | Call::RunTo => [true; 4],
            Call::Move => [false, true, true, false],
        }
    }
}

/// One call, with what it is lent. A call that takes no list, state, stamp or buffer leaves it as it is.
#[derive(Clone)]
pub struct Case {
    pub call: Call,
    /// A cue file, a wall list, parameters or inputs.
    pub list: Vec<u8>,
    /// The octets that stand in the state before the call.
    pub state: Vec<u8>,
    pub stamp: u32,
    pub records_len: usize,
    pub answers_len: usize,
    /// Whether NULL stands for what has length 0.
    pub null: bool,
}

impl Case {
    /// A run over a list, into buffers of these lengths.
    pub fn run(call: Call, list: Vec<u8>, (records_len, answers_len): (usize, usize)) -> Case {
        Case { call, list, state: Vec::new(), stamp: 0, records_len, answers_len, null: false }
    }
}

/// What a call gave: the number, the state and both buffers whole, and whether the list was left alone.
#[derive(PartialEq, Eq, Debug)]
pub struct Outcome {
    pub number: u64,
    pub state: Vec<u8>,
    pub records: Vec<u8>,
    pub answers: Vec<u8>,
    pub list_unchanged: bool,
}

impl Outcome {
    /// All that is lent, as it stands before a call.
    pub fn before(case: &Case) -> Outcome {
        Outcome {
            number: 0,
            state: case.state.clone(),
            records: vec![RECORDS_PATTERN; case.records_len],
            answers: vec![ANSWERS_PATTERN; case.answers_len],
            list_unchanged: true,
        }
    }

    /// What the second model says of a run; a refused one has neither records nor answers.
    pub fn of_model<End>(case: &Case, run: &Run<End>) -> Outcome {
        let mut outcome = Outcome { number: number(run), ..Outcome::before(case) };
        assert!(8 * run.records.len() <= outcome.records.len());
        for (place, record) in outcome.records.chunks_exact_mut(8).zip(&run.records) {
            place.copy_from_slice(&record_octets(record));
        }
        outcome.answers[..run.answers.len()].copy_from_slice(&run.answers);
        outcome
    }

    pub fn code(&self) -> usize {
        (self.number >> 48) as usize
    }

    pub fn place(&self) -> usize {
        (self.number >> 32) as usize & 0xFFFF
    }

    pub fn count(&self) -> usize {
        self.number as u32 as usize
    }
}

/// What the archive gives, linked into this program.
#[cfg(linked)]
fn by_link(case: &Case) -> Outcome {
    let list = case.list.clone();
    let mut given = Outcome::before(case);
    let from = |octets: &[u8]| if case.null && octets.is_empty() { std::ptr::null() } else { octets.as_ptr() };
    let to = |octets: &mut [u8]| if case.null && octets.is_empty() { std::ptr::null_mut() } else { octets.as_mut_ptr() };
    let (l, ll) = (from(&list), list.len());
    let (s, sl) = (to(&mut given.state), given.state.len());
    let (r, rl) = (to(&mut given.records), given.records.len());
    let (a, al) = (to(&mut given.answers), given.answers.len());
    // The slices are whole and do not overlap, which is all that the header asks.
    given.number = unsafe {
        match case.call {
            Call::Run => archive::house_run(l, ll, r, rl, a, al),
            Call::WallRun => archive::house_wall_run(l, ll, r, rl, a, al),
            Call::Fresh => archive::house_fresh(l, ll, s, sl),
            Call::Change => archive::house_change(s, sl, l, ll, r, rl, a, al),
            Call::Move => archive::house_move(s, sl, case.stamp, r, rl),
            Call::RunTo => archive::house_run_to(l, ll, s, sl, r, rl, a, al),
        }
    };
    given.list_unchanged = list == case.list;
    given
}

/// The same call in another program, over a pipe.
struct Bridge {
    child: Child,
    to: BufWriter<ChildStdin>,
    from: BufReader<ChildStdout>,
}

impl Bridge {
    fn start(command: &[String]) -> Bridge {
        let mut child = Command::new(&command[0])
            .args(&command[1..])
            .stdin(Stdio::piped())
            .stdout(Stdio::piped())
            .spawn()
            .expect("the bridge does not start");
        let to = BufWriter::new(child.stdin.take().unwrap());
        let from = BufReader::new(child.stdout.take().unwrap());
        Bridge { child, to, from }
    }

    fn call(&mut self, case: &Case) -> Outcome {
        self.ask(case).expect("the bridge stopped");
        let mut given = Outcome::before(case);
        let (mut number, mut unchanged) = ([0; 8], [0]);
        for octets in [&mut number[..], &mut given.state, &mut given.records, &mut given.answers, &mut unchanged] {
            self.from.read_exact(octets).expect("the bridge stopped");
        }
        given.number = u64::from_le_bytes(number);
        given.list_unchanged = unchanged[0] == 1;
        given
    }

    fn ask(&mut self, case: &Case) -> std::io::Result<()> {
        self.to.write_all(&[case.call as u8])?;
        for len in [case.list.len(), case.state.len(), case.records_len, case.answers_len] {
            self.to.write_all(&(len as u32).to_le_bytes())?;
        }
        self.to.write_all(&case.stamp.to_le_bytes())?;
        self.to.write_all(&[RECORDS_PATTERN, ANSWERS_PATTERN, u8::from(case.null)])?;
        self.to.write_all(&case.list)?;
        self.to.write_all(&case.state)?;
        self.to.flush()
    }

    fn stop(self) {
        let Bridge { mut child, to, from } = self;
        drop(to);
        drop(from);
        let _ = child.wait();
    }
}

/// The archive, and how many calls of it were compared and differed.
pub struct Comparison {
    bridge: Bridge,
    pub compared: u64,
    pub by_bridge: u64,
    pub differing: u64,
    /// By the call's letter: which of list, state, records and answers were NULL at least once.
    nulls: HashMap<u8, [bool; 4]>,
}

impl Comparison {
    /// With the bridge that the program's own words name.
    pub fn start() -> Comparison {
        let command: Vec<String> = std::env::args().skip(1).collect();
        assert!(!command.is_empty(), "the bridge's command is not named");
        Comparison { bridge: Bridge::start(&command), compared: 0, by_bridge: 0, differing: 0, nulls: HashMap::new() }
    }

    /// One call, linked in where that can be, and by the bridge where it is of the sample or cannot.
    pub fn check(&mut self, case: &Case, expected: &Outcome, sample: bool) {
        self.compared += 1;
        self.note_nulls(case);
        #[cfg(linked)]
        {
            let found = by_link(case);
            if found != *expected {
                self.differ("linked", case, expected, &found);
            }
        }
        if sample || cfg!(not(linked)) {
            self.by_bridge += 1;
            let found = self.bridge.call(case);
            if found != *expected {
                self.differ("bridge", case, expected, &found);
            }
        }
    }

    fn note_nulls(&mut self, case: &Case) {
        let lengths = [case.list.len(), case.state.len(), case.records_len, case.answers_len];
        let met = self.nulls.entry(case.call as u8).or_default();
        for (i, takes) in case.call.takes().into_iter().enumerate() {
            met[i] |= case.null && takes && lengths[i] == 0;
        }
    }

    /// Whether every pointer that these calls take was NULL at least once.
    pub fn null_is_met(&self, calls: &[Call]) -> bool {
        calls.iter().all(|&call| self.nulls.get(&(call as u8)) == Some(&call.takes()))
    }

    /// What the archive alone gives.
    pub fn given(&mut self, case: &Case) -> Outcome {
        #[cfg(linked)]
        return by_link(case);
        #[cfg(not(linked))]
        return self.bridge.call(case);
    }

    fn differ(&mut self, way: &str, case: &Case, expected: &Outcome, found: &Outcome) {
        self.differing += 1;
        if self.differing <= 3 {
            println!("DIFFERS ({}): {:?}, list {:?}", way, case.call, case.list);
            println!("  state {:?}, stamp {}", case.state, case.stamp);
            println!("  lent {} and {} octets; NULL for none: {}", case.records_len, case.answers_len, case.null);
            println!("  the model says {:#x}, the archive {:#x}", expected.number, found.number);
            let at = |a: &[u8], b: &[u8]| a.iter().zip(b).position(|(a, b)| a != b);
            println!("  first differing octet of the state: {:?}", at(&expected.state, &found.state));
            println!("  first differing octet of the records: {:?}", at(&expected.records, &found.records));
            println!("  first differing answer: {:?}", at(&expected.answers, &found.answers));
            println!("  list unchanged: {}", found.list_unchanged);
        }
    }

    /// How many calls went by the bridge, and how many differed.
    pub fn stop(self) -> (u64, u64) {
        let Comparison { bridge, compared, by_bridge, differing, .. } = self;
        bridge.stop();
        println!("by the bridge: {}; by the linked archive: {}", by_bridge, if cfg!(linked) { compared } else { 0 });
        (by_bridge, differing)
    }
}

/// As many octets of records and of answers as n inputs ask for, one too few, none, or more.
pub fn room(n: usize, rng: &mut Rng) -> (usize, usize) {
    let (records, answers) = enough(n);
    match rng.below(16) {
        0 => (records - 1, answers),
        1 => (records, answers.saturating_sub(1)),
        2 => (0, 0),
        3..=9 => (records + rng.below(20) as usize, answers + rng.below(5) as usize),
        _ => (records, answers),
    }
}

/// Every prefix of a list, and every list that differs from it in one octet.
pub fn damaged(list: &[u8]) -> Vec<Vec<u8>> {
    let mut lists: Vec<Vec<u8>> = (0..list.len()).map(|len| list[..len].to_vec()).collect();
    for at in 0..list.len() {
        for value in 0..=255 {
            if value != list[at] {
                lists.push(with(list, at, value));
            }
        }
    }
    lists
}

/// One more than the greatest code.
pub const CODES: usize = 13;

/// How often each answer was met, from 0 to the greatest: 6, noted and different.
pub type AnswersMet = [u64; 7];

/// What a row of counts by version is of: of a version that is played, or of any other.
pub fn row_name(row: usize) -> String {
    LAYOUTS.get(row).map_or("any other version".to_string(), |layout| format!("version {}", layout.version))
}

/// Whether all was met that is possible, and nothing else.
pub fn exactly(met: &[u64], possible: &[usize]) -> bool {
    (0..met.len()).all(|i| possible.contains(&i) == (met[i] > 0))
}

/// A number from the environment, or the default.
pub fn number_named(name: &str, default: u64) -> u64 {
    std::env::var(name).ok().map_or(default, |x| x.parse().expect("a number"))
}

/// Checks, said and counted as they are made.
pub struct Claims {
    passed: u64,
    failed: u64,
}

impl Claims {
    pub fn new() -> Claims {
        Claims { passed: 0, failed: 0 }
    }

    pub fn claim(&mut self, name: &str, holds: bool) {
        println!("{}: {}", if holds { "ok" } else { "FAILED" }, name);
        if holds {
            self.passed += 1;
        } else {
            self.failed += 1;
        }
    }

    /// The last line, and the end of the program.
    pub fn finish(self) -> ! {
        println!("{} passed, {} failed", self.passed, self.failed);
        std::process::exit(if self.failed == 0 { 0 } else { 1 })
    }
}
