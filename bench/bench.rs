//! The proved calls and the second model, side by side in one program, over the kinds of show of `shows.rs`: five of cue files, one of
//! wall lists, and a drag that is played live, each in every version.
//!
//! bench shows: a line for each show, its name and its lengths.
//! bench mix SHOW N: what the N inputs of a show do: how many change something, change nothing, are noted, are stopped; and the records.
//! bench count SHOW N SIDE TIMES: plays it so many times, by the `proved` calls or by the `model`, for a tool that counts
//! instructions: what ten times more cost is ten times one, without the start and the end of the program.
//! bench time SHOW N: the nanoseconds of one time, both sides, the best of several rounds taken in turn.
//! The buffers are as long as the header asks, and are not cleared between calls: either side writes all that it answers for. A show
//! that is played live starts each time from the same image, which is copied anew.

#[path = "../tests/archive.rs"]
mod archive;
#[path = "../tests/files.rs"]
mod files;
#[path = "../tests/images.rs"]
mod images;
#[path = "../tests/live.rs"]
mod live;
#[path = "../tests/model.rs"]
mod model;
mod shows;
#[path = "../tests/wall.rs"]
mod wall;
#[path = "../tests/walls.rs"]
mod walls;

use std::time::Instant;

/// The second model under a name that a counting tool finds; it is compiled with this program, at its best optimisation.
#[no_mangle]
#[inline(never)]
pub fn model_run(file: &[u8], records: &mut [u8], answers: &mut [u8]) -> u64 {
    model::run_into(file, records, answers)
}

/// The same for wall lists.
#[no_mangle]
#[inline(never)]
pub fn model_wall_run(list: &[u8], records: &mut [u8], answers: &mut [u8]) -> u64 {
    wall::wall_run_into(list, records, answers)
}

/// The same for changes.
#[no_mangle]
#[inline(never)]
pub fn model_change(state: &mut [u8], inputs: &[u8], records: &mut [u8], answers: &mut [u8]) -> u64 {
    live::change_into(state, inputs, records, answers)
}

/// house_run or house_wall_run.
type RunForC = unsafe extern "C" fn(*const u8, usize, *mut u8, usize, *mut u8, usize) -> u64;

fn proved(run: RunForC, list: &[u8], records: &mut [u8], answers: &mut [u8]) -> u64 {
    unsafe { run(list.as_ptr(), list.len(), records.as_mut_ptr(), records.len(), answers.as_mut_ptr(), answers.len()) }
}

fn proved_change(state: &mut [u8], inputs: &[u8], records: &mut [u8], answers: &mut [u8]) -> u64 {
    let ((s, sl), (i, il)) = ((state.as_mut_ptr(), state.len()), (inputs.as_ptr(), inputs.len()));
    unsafe { archive::house_change(s, sl, i, il, records.as_mut_ptr(), records.len(), answers.as_mut_ptr(), answers.len()) }
}

/// The two sides of every comparison.
const SIDES: [&str; 2] = ["proved", "model"];

type Run = fn(&[u8], &mut [u8], &mut [u8]) -> u64;
type Change = fn(&mut [u8], &[u8], &mut [u8], &mut [u8]) -> u64;

fn run_of(show: &str, side: &str) -> Run {
    match (side, shows::is_wall(show)) {
        ("proved", false) => |list, records, answers| proved(archive::house_run, list, records, answers),
        ("proved", true) => |list, records, answers| proved(archive::house_wall_run, list, records, answers),
        ("model", false) => model_run,
        ("model", true) => model_wall_run,
        _ => panic!("no side {side}"),
    }
}

fn change_of(side: &str) -> Change {
    match side {
        "proved" => proved_change,
        "model" => model_change,
        _ => panic!("no side {side}"),
    }
}

/// A show, and the memory that it is played into.
struct Stage {
    show: String,
    list: Vec<u8>,
    image: Vec<u8>,
    state: Vec<u8>,
    records: Vec<u8>,
    answers: Vec<u8>,
}

/// What a show gave: how often it was refused, its records and answers, and the state at the end of one that was played live.
#[derive(PartialEq, Eq, Debug, Default)]
struct Given {
    refused: usize,
    records: Vec<u8>,
    answers: Vec<u8>,
    state: Vec<u8>,
}

impl Stage {
    fn new(show: &str, n: usize) -> Stage {
        let image = shows::image(show, n);
        let (records, answers) = files::enough(n);
        Stage {
            show: show.to_string(),
            list: shows::octets(show, n),
            state: image.clone(),
            image,
            records: vec![0; records],
            answers: vec![0; answers],
        }
    }

    fn play(&mut self, side: &str, times: usize) {
        match shows::in_a_call(&self.show) {
            None => {
                let run = run_of(&self.show, side);
                for _ in 0..times {
                    std::hint::black_box(run(&self.list, &mut self.records, &mut self.answers));
                }
            }
            Some(in_a_call) => {
                let change = change_of(side);
                for _ in 0..times {
                    self.play_live(change, in_a_call, |number, _, _| {
                        std::hint::black_box(number);
                    });
                }
            }
        }
    }

    /// The inputs, so many in a call; after each call its number, records and answers are shown. No inputs are one call too.
    fn play_live(&mut self, change: Change, in_a_call: usize, mut after: impl FnMut(u64, &[u8], &[u8])) {
        self.state.copy_from_slice(&self.image);
        let mut left = &self.list[..];
        loop {
            let (inputs, later) = left.split_at(left.len().min(8 * in_a_call));
            let number = change(&mut self.state, inputs, &mut self.records, &mut self.answers);
            after(number, &self.records, &self.answers[..inputs.len() / 8]);
            left = later;
            if left.is_empty() {
                break;
            }
        }
    }

    fn given(&mut self, side: &str) -> Given {
        let mut given = Given::default();
        let mut note = |number: u64, records: &[u8], answers: &[u8]| {
            given.refused += usize::from(number >> 48 != 0);
            given.records.extend_from_slice(&records[..8 * (number & 0xFFFF_FFFF) as usize]);
            given.answers.extend_from_slice(answers);
        };
        match shows::in_a_call(&self.show) {
            None => {
                let number = run_of(&self.show, side)(&self.list, &mut self.records, &mut self.answers);
                note(number, &self.records, &self.answers);
            }
            Some(in_a_call) => self.play_live(change_of(side), in_a_call, note),
        }
        given.state = self.state.clone();
        given
    }
}

/// Both sides must have played the show, and alike, or their cost says nothing.
fn mix(show: &str, n: usize) {
    let mut stage = Stage::new(show, n);
    let [given, model] = SIDES.map(|side| stage.given(side));
    assert_eq!(given, model);
    assert_eq!(given.refused, 0, "{show} is refused");
    // the start record of a run is no timer's
    let start = usize::from(shows::in_a_call(show).is_none());
    let (records, answers) = (given.records, given.answers);
    let by_timers = records.chunks(8).skip(start).filter(|record| files::cause_of(record) == 0).count();
    let answered = |wanted: std::ops::RangeInclusive<u8>| answers.iter().filter(|a| wanted.contains(a)).count();
    let [changing, idle, noted, stopped] = [0..=0, 1..=1, 6..=6, 2..=5].map(answered);
    println!("{changing} {idle} {noted} {stopped} {} {by_timers}", records.len() / 8);
}

fn time(show: &str, n: usize) {
    let mut stage = Stage::new(show, n);
    let times = 20_000 / (n + 10) + 1;
    let mut best = [f64::MAX; 2];
    for _ in 0..15 {
        for (side, best) in SIDES.iter().zip(&mut best) {
            let start = Instant::now();
            stage.play(side, times);
            *best = best.min(start.elapsed().as_nanos() as f64 / times as f64);
        }
    }
    println!("{:.1} {:.1}", best[0], best[1]);
}

fn main() {
    let words: Vec<String> = std::env::args().skip(1).collect();
    let words: Vec<&str> = words.iter().map(String::as_str).collect();
    match words[..] {
        ["shows"] => shows::all().for_each(|(name, lengths)| println!("{name} {lengths}")),
        ["mix", show, n] => mix(show, n.parse().unwrap()),
        ["time", show, n] => time(show, n.parse().unwrap()),
        ["count", show, n, side, times] => {
            Stage::new(show, n.parse().unwrap()).play(side, times.parse().unwrap());
        }
        _ => panic!("see the head of bench.rs"),
    }
}
