//! Writes the inputs with which the fuzz tests start (script.h has their form): shows, wall lists and scripts of live calls of every
//! version, as the comparisons play them, some of them spoilt, and the shows that are written down.
//!
//! Usage: seeds FOLDER, from the repository's root. They go to FOLDER/TARGET, those whose first call is refused to FOLDER/TARGET-refused.

#[path = "../files.rs"]
mod files;
#[path = "../images.rs"]
mod images;
#[path = "../live.rs"]
mod live;
#[path = "../model.rs"]
mod model;
#[path = "../wall.rs"]
mod wall;
#[path = "../walls.rs"]
mod walls;

use files::{enough, inputs_in, CueFile, Layout, Rng, HEADER, LAYOUTS};
use images::Fields;
use std::fs;
use std::path::{Path, PathBuf};
use walls::WallList;

/// What a step of a live script does: enum step_kind of script.h.
const FRESH_STATE: u8 = 0;
const WILD_STATE: u8 = 1;
const CHANGE_AS_IS: u8 = 2;
const CHANGE_IN_TIME: u8 = 3;
const MOVE_AS_IS: u8 = 4;
const MOVE_IN_TIME: u8 = 5;

/// Where seeds go, and how many went there.
struct Seeds {
    folder: PathBuf,
    written: usize,
}

impl Seeds {
    fn write(&mut self, target: &str, refused: bool, octets: &[u8]) {
        let folder = self.folder.join(format!("{}{}", target, if refused { "-refused" } else { "" }));
        fs::create_dir_all(&folder).expect("no folder for seeds");
        fs::write(folder.join(format!("seed-{:04}", self.written)), octets).expect("no room for seeds");
        self.written += 1;
    }

    /// A cue file, with rooms that differ so much from what it asks for.
    fn cues(&mut self, file: &[u8], deviations: [i8; 3]) {
        let (records, answers) = rooms(file, deviations);
        self.write("cues", model::run(file, records, answers).code != 0, &with_head(b'c', deviations, file));
    }

    fn walls(&mut self, list: &[u8], deviations: [i8; 3]) {
        let (records, answers) = rooms(list, deviations);
        self.write("walls", wall::wall_run(list, records, answers).code != 0, &with_head(b'w', deviations, list));
    }

    /// A script that starts with a state or with parameters.
    fn live(&mut self, start: u8, octets: &[u8], steps: &[u8]) {
        let refused = match start {
            FRESH_STATE => live::fresh_into(octets, &mut [0; images::OCTETS]) != 0,
            _ => live::state_of(octets).is_none(),
        };
        let script = [b"l".as_slice(), &step(start, [0, 0], octets), steps].concat();
        self.write("live", refused, &script);
    }
}

/// What as many inputs ask for as a header counts, as far as there can be so many, more or less by the deviations.
fn rooms(list: &[u8], deviations: [i8; 3]) -> (usize, usize) {
    let (records, answers) = enough(Some(inputs_in(list)).filter(|n| *n <= 2048).unwrap_or(0));
    let about = |enough: usize, deviation: i8| (enough as isize + isize::from(deviation)).max(0) as usize;
    (about(records, deviations[0]), about(answers, deviations[1]))
}

fn with_head(letter: u8, deviations: [i8; 3], file: &[u8]) -> Vec<u8> {
    let mut octets = vec![letter];
    octets.extend(deviations.map(|deviation| deviation as u8));
    octets.extend_from_slice(file);
    octets
}

fn step(kind: u8, deviations: [i8; 2], octets: &[u8]) -> Vec<u8> {
    let mut step = vec![kind, deviations[0] as u8, deviations[1] as u8];
    step.extend((octets.len() as u16).to_be_bytes());
    step.extend_from_slice(octets);
    step
}

/// Mostly just the room that is asked for.
fn deviations(rng: &mut Rng) -> [i8; 3] {
    [0; 3].map(|_: i8| if rng.chance(5) { rng.below(9) as i8 - 4 } else { 0 })
}

/// Inputs whose stamps are steps from the one before, or aim at the end of a phase.
fn inputs_in_time(rng: &mut Rng, n: usize) -> Vec<u8> {
    let mut inputs = files::inputs_from(0, 1, n, rng);
    for input in &mut inputs {
        let aims = rng.chance(30) as u8;
        input[..4].copy_from_slice(&[aims, 0, 0, rng.below(100) as u8]);
    }
    inputs.concat()
}

/// A few changes and moves, mostly such as follow the clock.
fn steps(rng: &mut Rng) -> Vec<u8> {
    let mut steps = Vec::new();
    for _ in 0..1 + rng.below(5) {
        let n = rng.below(8) as usize;
        let [one, two, _] = deviations(rng);
        let octets = match rng.below(10) {
            0..=4 => step(CHANGE_IN_TIME, [one, two], &inputs_in_time(rng, n)),
            5 => step(CHANGE_AS_IS, [one, two], &files::inputs_from(rng.below(3000) as u32, 200, n, rng).concat()),
            6 => step(MOVE_AS_IS, [one, two], &(rng.below(900_000) as u32).to_be_bytes()),
            _ => step(MOVE_IN_TIME, [one, two], &[rng.below(2) as u8, 0, rng.below(4) as u8, rng.next() as u8]),
        };
        steps.extend(octets);
    }
    steps
}

fn random(seeds: &mut Seeds, layout: &'static Layout, rng: &mut Rng) {
    let n = rng.below(16) as usize;
    let show = CueFile::random_in(layout, rng, n).spoilt_if(rng.chance(30), rng);
    seeds.cues(&show.octets(), deviations(rng));
    let list = WallList::random_in(layout, rng, n);
    let octets = if rng.chance(30) { list.spoilt(rng) } else { list.octets() };
    seeds.walls(&octets, deviations(rng));
    let steps = steps(rng);
    if rng.chance(30) {
        seeds.live(FRESH_STATE, &show.octets()[HEADER..layout.inputs_at()], &steps);
    } else {
        let mut image = Fields::random_in(layout, rng);
        if rng.chance(20) {
            image.spoil(rng);
        }
        seeds.live(WILD_STATE, &image.octets(), &steps);
    }
}

/// Nothing, as much as a change takes, and a little more. The longest files are left to the comparisons: here they cost too many others.
fn ends(seeds: &mut Seeds, layout: &'static Layout, rng: &mut Rng) {
    for n in [0, 256] {
        seeds.cues(&CueFile::random_in(layout, rng, n).octets(), [0; 3]);
        seeds.walls(&WallList::random_in(layout, rng, n).octets(), [0; 3]);
    }
    let show = CueFile::random_in(layout, rng, 0);
    let fresh = Fields::fresh(&show).octets();
    for len in [8 * 256, 8 * 257, 9] {
        let inputs = files::inputs_from(0, 5, 300, rng).concat();
        seeds.live(WILD_STATE, &fresh, &step(CHANGE_AS_IS, [0, 0], &inputs[..len]));
    }
    // too little room for a move, and then for a fresh state
    let short = [step(MOVE_IN_TIME, [-1, 0], &[0; 4]), step(FRESH_STATE, [0, -1], &show.octets()[HEADER..])].concat();
    seeds.live(WILD_STATE, &fresh, &short);
}

/// The shows that are written down.
fn shows(seeds: &mut Seeds) {
    let mut names: Vec<PathBuf> = fs::read_dir("shows").expect("no shows").map(|entry| entry.unwrap().path()).collect();
    names.sort();
    for name in names {
        let octets = fs::read(&name).expect("a show that cannot be read");
        match name.extension().and_then(|end| end.to_str()) {
            Some("cue") => seeds.cues(&octets, [0; 3]),
            Some("wall") => seeds.walls(&octets, [0; 3]),
            _ => {}
        }
    }
}

fn main() {
    let folder = std::env::args().nth(1).expect("usage: seeds FOLDER");
    let mut seeds = Seeds { folder: Path::new(&folder).to_path_buf(), written: 0 };
    let mut rng = Rng::new(20_260_105);
    shows(&mut seeds);
    for layout in &LAYOUTS {
        ends(&mut seeds, layout, &mut rng);
        for _ in 0..100 {
            random(&mut seeds, layout, &mut rng);
        }
    }
    println!("{} seeds", seeds.written);
}
