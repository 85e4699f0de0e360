//! Wall lists made at random: cues and presses at the moments at which timers are due, in ties with each other, and spoilt ones.
//! Shared by the tests and the bench.
#![allow(dead_code)]

use crate::files::{CueFile, Layout, Rng, LAST};

/// A wall list: a cue file in which an input may also be an edge, then the four actions of the sensor.
pub struct WallList {
    pub cues: CueFile,
    pub actions: [u8; 4],
}

/// The kinds of an edge, one for each button.
pub const BUTTONS: [u8; 2] = [11, 12];

pub fn is_edge(item: &[u8]) -> bool {
    BUTTONS.contains(&item[4])
}

/// Kinds that no wall list may have: the neighbours of the good ones, and the sensor's own status.
const WRONG_KINDS: [u8; 6] = [0, 9, 10, 13, 14, 255];

/// Short times, so that presses can be aimed at the timers that they start; in tenths, of which a version may keep whole seconds.
fn short_times(layout: &Layout, rng: &mut Rng) -> [u32; 4] {
    [0, 0, layout.unit, 0].map(|least| {
        let tenths = [0, 0, 10, 20, 50, 70][rng.below(6) as usize] + [0, 3, 5, 8][rng.below(4) as usize];
        least.max(tenths - tenths % layout.unit)
    })
}

/// How long after an input one of the timers is due that it may have started, in tenths.
fn sums(times: &[u32; 4]) -> [u32; 6] {
    let [on, off, timed, prewarning] = *times;
    [on, off, timed, on + timed, timed + prewarning, on + timed + prewarning]
}

/// A press of either button, or its release.
fn edge(rng: &mut Rng) -> [u8; 2] {
    [BUTTONS[rng.below(2) as usize], rng.chance(70) as u8]
}

/// The next stamp: the same again, a moment at which a timer of one of the last inputs may be due, or a little later.
fn next_stamp(rng: &mut Rng, sums: &[u32; 6], stamps: &[u32]) -> u32 {
    let now = *stamps.last().unwrap();
    let next = match rng.below(10) {
        0..=2 => now,
        3..=7 => {
            let back = rng.below(4).min(stamps.len() as u64 - 1) as usize;
            stamps[stamps.len() - 1 - back] + sums[rng.below(6) as usize]
        }
        _ => now + rng.below(40) as u32,
    };
    next.max(now).min(LAST)
}

impl WallList {
    /// A list of n items that is in order, of any version. Most lists have short times and aim at them; half are calm, with few
    /// locks, forces and cuts.
    pub fn random(rng: &mut Rng, n: usize) -> WallList {
        let layout = Layout::random(rng);
        WallList::random_in(layout, rng, n)
    }

    /// The same, of this version.
    pub fn random_in(layout: &'static Layout, rng: &mut Rng, n: usize) -> WallList {
        let mut cues = CueFile::random_in(layout, rng, n);
        let calm = rng.chance(50);
        for input in &mut cues.inputs {
            let holds_up = matches!(input[4], 4 | 5 | 7 | 8);
            if rng.chance(if calm && holds_up { 90 } else { 45 }) {
                input[4..6].copy_from_slice(&edge(rng));
            }
        }
        if rng.chance(80) {
            aim(&mut cues, rng);
        }
        let actions = [0; 4].map(|_: u8| rng.below(6).min(3) as u8);
        WallList { cues, actions }
    }

    pub fn octets(&self) -> Vec<u8> {
        let mut list = self.cues.octets();
        list.extend_from_slice(&self.actions);
        list
    }

    /// The octets of the list with one thing put out of order, or two, so that their ranks are tried too.
    pub fn spoilt(mut self, rng: &mut Rng) -> Vec<u8> {
        if rng.chance(25) {
            self.spoil(rng);
        }
        match rng.below(8) {
            0 => {
                let octets = self.octets();
                let len = rng.below(octets.len() as u64) as usize;
                octets[..len].to_vec()
            }
            1 => {
                let mut octets = self.octets();
                octets.extend((0..1 + rng.below(12)).map(|_| rng.below(4) as u8));
                octets
            }
            2 => self.cues.octets(),
            _ => {
                self.spoil(rng);
                self.octets()
            }
        }
    }

    fn spoil(&mut self, rng: &mut Rng) {
        let n = self.cues.inputs.len() as u64;
        let which = if n == 0 { rng.below(4) } else { rng.below(8) };
        let at = rng.below(n.max(1)) as usize;
        match which {
            0..=2 => self.actions[rng.below(4) as usize] = 4 + rng.below(252) as u8,
            3 | 4 => self.cues.spoil(rng),
            5 => self.cues.inputs[at][4] = WRONG_KINDS[rng.below(6) as usize],
            6 => self.cues.inputs[at][4..6].copy_from_slice(&[edge(rng)[0], 2 + rng.below(254) as u8]),
            _ => self.cues.inputs[at][6 + rng.below(2) as usize] = 1 + rng.below(255) as u8,
        }
    }
}

/// Short times, and stamps at which timers are due; the end time too.
fn aim(cues: &mut CueFile, rng: &mut Rng) {
    cues.times = short_times(cues.layout, rng);
    let sums = sums(&cues.times);
    let mut stamps = vec![if rng.chance(4) { 863_900 } else { 0 }];
    for input in &mut cues.inputs {
        let stamp = next_stamp(rng, &sums, &stamps);
        input[0..4].copy_from_slice(&stamp.to_be_bytes());
        stamps.push(stamp);
    }
    cues.end = next_stamp(rng, &sums, &stamps);
}
