//! The kinds of show, so that nobody tunes the run to one of them: five cue files, a wall list, and a drag that is played live, each in
//! every version.

use crate::files::{input, CueFile, Layout, Rng, LAST, LAYOUTS};
use crate::images::Fields;
use crate::walls::WallList;

/// A kind of show: its name, the lengths that it is measured at, and how one of n inputs is made. It is made of version 1, and has the
/// same times in every other.
struct Kind {
    name: &'static str,
    lengths: &'static str,
    made: Made,
}

/// A cue file, or a wall list, which another call plays, or inputs that are played live to a fresh state, so many in a call.
enum Made {
    Cues(fn(usize) -> CueFile),
    Wall(fn(usize) -> WallList),
    Live { made: fn(usize) -> CueFile, in_a_call: usize },
}

static KINDS: [Kind; 9] = [
    Kind { name: "empty", lengths: "0", made: Made::Cues(mixed) },
    Kind { name: "mixed", lengths: "256 1024 2048", made: Made::Cues(mixed) },
    Kind { name: "switching", lengths: "256 1024 2048", made: Made::Cues(switching) },
    Kind { name: "timers", lengths: "256 1024 2048", made: Made::Cues(timers) },
    Kind { name: "random", lengths: "2048", made: Made::Cues(random) },
    Kind { name: "wall", lengths: "2048", made: Made::Wall(wall) },
    Kind { name: "image", lengths: "0", made: Made::Live { made: drag, in_a_call: 256 } },
    Kind { name: "drag", lengths: "60", made: Made::Live { made: drag, in_a_call: 256 } },
    Kind { name: "drag-singly", lengths: "60", made: Made::Live { made: drag, in_a_call: 1 } },
];

/// The name of a kind in a version: its own in the first, then with the version behind it.
fn name(kind: &Kind, layout: &Layout) -> String {
    match layout.version {
        1 => kind.name.to_string(),
        version => format!("{}-{}", kind.name, version),
    }
}

/// Every kind in every version.
fn shows() -> impl Iterator<Item = (&'static Kind, &'static Layout)> {
    LAYOUTS.iter().flat_map(|layout| KINDS.iter().map(move |kind| (kind, layout)))
}

fn named(show: &str) -> (&'static Kind, &'static Layout) {
    let found = shows().find(|(kind, layout)| name(kind, layout) == show);
    found.unwrap_or_else(|| panic!("no show {show}"))
}

/// Each show, and the lengths that it is measured at.
pub fn all() -> impl Iterator<Item = (String, &'static str)> {
    shows().map(|(kind, layout)| (name(kind, layout), kind.lengths))
}

/// Whether a show is a wall list.
pub fn is_wall(show: &str) -> bool {
    matches!(named(show).0.made, Made::Wall(_))
}

/// Of a show that is played live: how many inputs go in a call.
pub fn in_a_call(show: &str) -> Option<usize> {
    match named(show).0.made {
        Made::Live { in_a_call, .. } => Some(in_a_call),
        _ => None,
    }
}

/// A cue file of n inputs, or a wall list of n items, or n inputs alone.
pub fn octets(show: &str, n: usize) -> Vec<u8> {
    let (kind, layout) = named(show);
    match kind.made {
        Made::Cues(made) => made(n).in_version(layout).octets(),
        Made::Wall(made) => {
            let list = made(n);
            WallList { cues: list.cues.in_version(layout), ..list }.octets()
        }
        Made::Live { made, .. } => made(n).inputs.concat(),
    }
}

/// The image of the state from which a show is played live; none of any other.
pub fn image(show: &str, n: usize) -> Vec<u8> {
    let (kind, layout) = named(show);
    match kind.made {
        Made::Live { made, .. } => Fields::fresh(&made(n).in_version(layout)).octets(),
        _ => Vec::new(),
    }
}

/// OnDelay, OffDelay, TimedOn and Prewarning in tenths: those of document 01's cases.
const DELAYS: [u32; 4] = [20, 50, 600, 100];

/// A timed light is over before the next input.
const SHORT_DELAYS: [u32; 4] = [20, 50, 200, 100];

/// A random show of version 1.
fn random_show(seed: u64, n: usize) -> CueFile {
    CueFile::random_in(&LAYOUTS[0], &mut Rng::new(seed), n)
}

fn random(n: usize) -> CueFile {
    random_show(42, n)
}

/// 256 random inputs of all kinds, from a power cut on, so that every block meets the same state.
fn mixed(n: usize) -> CueFile {
    let inputs = random_show(7, 256).inputs;
    let mut block: Vec<[u8; 2]> = inputs.iter().map(|input| [input[4], input[5]]).collect();
    block[0] = [8, 0];
    block[1] = [8, 1];
    repeated(n, DELAYS, true, &block)
}

/// 96 On and Off of 100, and a lock that stops two more.
fn switching(n: usize) -> CueFile {
    let mut rng = Rng::new(3);
    let mut block: Vec<[u8; 2]> = (0..100).map(|_| [1, rng.below(2) as u8]).collect();
    block[50] = [5, 1];
    block[53] = [5, 0];
    repeated(n, DELAYS, true, &block)
}

/// A timed start each time.
fn timers(n: usize) -> CueFile {
    repeated(n, SHORT_DELAYS, false, &[[2, 1]])
}

/// About two presses and releases for each cue, again and again: both buttons toggle when they are pressed, button 2 sends Off when it
/// is let go; a lock swallows a few.
fn wall(n: usize) -> WallList {
    let mut rng = Rng::new(5);
    let mut block: Vec<[u8; 2]> = (0..100)
        .map(|_| match rng.below(100) {
            0..=63 => [11 + rng.below(2) as u8, rng.below(2) as u8],
            64..=79 => [1, rng.below(2) as u8],
            80..=91 => [2, rng.below(2) as u8],
            _ => [6, rng.below(2) as u8],
        })
        .collect();
    block[50] = [5, 1];
    block[55] = [5, 0];
    WallList { cues: repeated(n, DELAYS, true, &block), actions: [3, 0, 3, 1] }
}

/// What the editor sends at a drag of the mouse: mostly On, Off and timed lights, eight tenths apart and every fifth at the stamp of the
/// one before, with scenes and nights among them, and a lock, a force and a bus failure that stop a few.
fn drag(n: usize) -> CueFile {
    let mut rng = Rng::new(11);
    let mut orders: Vec<(u8, u8)> = (0..n)
        .map(|_| match rng.below(100) {
            0..=49 => (1, rng.below(2) as u8),
            50..=69 => (2, rng.below(2) as u8),
            70..=84 => (3, rng.below(8) as u8 + 128 * rng.chance(20) as u8),
            _ => (6, rng.below(2) as u8),
        })
        .collect();
    for (at, order) in [(20, (5, 1)), (23, (5, 0)), (35, (4, 3)), (38, (4, 0)), (50, (7, 0)), (52, (7, 1))] {
        if at < n {
            orders[at] = order;
        }
    }
    let stamp = |i: usize| 8 * (i - usize::from(i % 5 == 4)) as u32;
    let inputs = orders.iter().enumerate().map(|(i, (kind, value))| input(stamp(i), *kind, *value)).collect();
    CueFile { times: DELAYS, inputs, count: n as u32, end: LAST, ..random_show(7, 256) }
}

/// The same kinds and values again and again, so that what a longer show costs more is what more inputs cost. An input is 42
/// seconds after the one before, with ties every fifth at the same stamp.
fn repeated(n: usize, times: [u32; 4], ties: bool, block: &[[u8; 2]]) -> CueFile {
    let repeated = |i: usize| {
        let stamp = (i - usize::from(ties && i % 5 == 4)) as u32 * 420;
        let [kind, value] = block[i % block.len()];
        input(stamp, kind, value)
    };
    CueFile { times, inputs: (0..n).map(repeated).collect(), count: n as u32, end: LAST, ..random_show(7, 256) }
}
