//! How a cue file is written, part by part, in every version; and cue files made at random: shows that reach every kind, phase, mode and
//! answer, and spoilt ones. Shared by the tests and the bench.
#![allow(dead_code)]

/// The kinds of an input.
pub mod kinds {
    pub const ON_OFF: u8 = 1;
    pub const TIMED: u8 = 2;
    pub const SCENE: u8 = 3;
    pub const FORCED: u8 = 4;
    pub const LOCK: u8 = 5;
    pub const NIGHT: u8 = 6;
    pub const BUS: u8 = 7;
    pub const POWER: u8 = 8;
}

/// The last stamp.
pub const LAST: u32 = 864_000;

/// The longest time, in tenths.
pub const LONGEST: u32 = 655_350;

/// A small generator of random numbers (xorshift64*), so that a seed gives the same files everywhere.
pub struct Rng(u64);

impl Rng {
    pub fn new(seed: u64) -> Rng {
        Rng(seed.wrapping_mul(0x9E37_79B9_7F4A_7C15) | 1)
    }

    pub fn next(&mut self) -> u64 {
        self.0 ^= self.0 >> 12;
        self.0 ^= self.0 << 25;
        self.0 ^= self.0 >> 27;
        self.0.wrapping_mul(0x2545_F491_4F6C_DD1D)
    }

    /// 0 to n-1.
    pub fn below(&mut self, n: u64) -> u64 {
        (self.next() >> 16) % n
    }

    pub fn chance(&mut self, percent: u64) -> bool {
        self.below(100) < percent
    }
}

/// How a version of the cue file is written, and which times its shows have.
pub struct Layout {
    pub version: u16,
    /// How many tenths of a second a unit of its times lasts, and how many octets one of them has.
    pub unit: u32,
    time: usize,
    /// A time in tenths.
    random_time: fn(&mut Rng) -> u32,
}

pub static LAYOUTS: [Layout; 2] = [
    // the times in seconds
    Layout { version: 1, unit: 10, time: 2, random_time: seconds },
    // the times in tenths
    Layout { version: 2, unit: 1, time: 4, random_time: tenths },
];

impl Layout {
    /// One of them, each as often as any other.
    pub fn random(rng: &mut Rng) -> &'static Layout {
        &LAYOUTS[rng.below(LAYOUTS.len() as u64) as usize]
    }

    /// How many octets the parameters have: four times, modes and scenes.
    pub fn parameters(&self) -> usize {
        4 * self.time + REST
    }

    /// Where the inputs start.
    pub fn inputs_at(&self) -> usize {
        HEADER + self.parameters()
    }
}

/// How many octets a header has.
pub const HEADER: usize = 20;

/// Modes, learning, two zeros and eight scenes, which are the same octets in every version.
pub const REST: usize = 24;

/// The rest of these modes, with this learning and with these scenes (number and flags); the other entries are unused.
pub fn rest_of(modes: [u8; 5], learning: u8, scenes: &[(u8, u8)]) -> [u8; REST] {
    let mut rest = [0; REST];
    rest[..5].copy_from_slice(&modes);
    rest[5] = learning;
    for (entry, place) in rest[8..].chunks_exact_mut(2).enumerate() {
        let (number, flags) = *scenes.get(entry).unwrap_or(&(255, 0));
        place.copy_from_slice(&[number, flags]);
    }
    rest
}

/// Parameters of these times in tenths and this rest, in the octets of a version.
pub fn parameters(layout: &Layout, times: [u32; 4], rest: &[u8; REST]) -> Vec<u8> {
    let octets = times.map(|time| (time / layout.unit).to_be_bytes());
    let times = octets.iter().flat_map(|time| &time[4 - layout.time..]);
    times.chain(rest).copied().collect()
}

/// An input: its stamp, kind and value, and two zeros.
pub fn input(stamp: u32, kind: u8, value: u8) -> [u8; 8] {
    let s = stamp.to_be_bytes();
    [s[0], s[1], s[2], s[3], kind, value, 0, 0]
}

/// A cue file: version and count of actuators; offset of parameters, count and offset of inputs, end time; parameters; inputs.
pub fn cue_file(start: [u16; 2], numbers: [u32; 4], parameters: &[u8], inputs: &[[u8; 8]]) -> Vec<u8> {
    let header = [start.map(u16::to_be_bytes).concat(), numbers.map(u32::to_be_bytes).concat()].concat();
    [&header, parameters, &inputs.concat()].concat()
}

/// Numbers are most significant octet first.
pub fn u32_at(octets: &[u8], at: usize) -> u32 {
    u32::from_be_bytes([octets[at], octets[at + 1], octets[at + 2], octets[at + 3]])
}

/// The stamp with which an input and a record start.
pub fn stamp_of(octets: &[u8]) -> u32 {
    u32_at(octets, 0)
}

/// The cause with which a record was written: the kind of an input, 0 for a timer and for the start.
pub fn cause_of(record: &[u8]) -> u8 {
    record[6]
}

/// How many inputs a header counts; none, where it is cut off before.
pub fn inputs_in(list: &[u8]) -> usize {
    list.get(8..12).map_or(0, |count| u32_at(count, 0) as usize)
}

/// As many octets of records and of answers as n inputs ask for.
pub fn enough(n: usize) -> (usize, usize) {
    (8 * (3 * n + 3), n)
}

/// An octet changed.
pub fn with(octets: &[u8], octet: usize, value: u8) -> Vec<u8> {
    let mut octets = octets.to_vec();
    octets[octet] = value;
    octets
}

/// Cut to this length, or prolonged with zeros.
pub fn resized(octets: &[u8], length: usize) -> Vec<u8> {
    let mut octets = octets.to_vec();
    octets.resize(length, 0);
    octets
}

/// The parts of a cue file, in the order in which they are written; the times in tenths, whatever the version.
pub struct CueFile {
    pub layout: &'static Layout,
    pub version: u16,
    pub actuators: u16,
    pub parameters_offset: u32,
    pub count: u32,
    pub inputs_offset: u32,
    pub end: u32,
    pub times: [u32; 4],
    pub rest: [u8; REST],
    pub inputs: Vec<[u8; 8]>,
}

/// How many inputs a show has: mostly few, sometimes many.
pub fn length(rng: &mut Rng) -> usize {
    match rng.below(1000) {
        0 => rng.below(2049) as usize,
        1..=20 => rng.below(200) as usize,
        _ => rng.below(24) as usize,
    }
}

/// Octets that mean nothing.
pub fn noise(rng: &mut Rng) -> Vec<u8> {
    let len = rng.below(200) as usize;
    (0..len).map(|_| rng.next() as u8).collect()
}

/// Whole seconds: often none, mostly few.
fn seconds(rng: &mut Rng) -> u32 {
    10 * match rng.below(8) {
        0..=2 => 0,
        3..=5 => 1 + rng.below(4) as u32,
        6 => rng.below(100) as u32,
        _ => u32::from(rng.next() as u16),
    }
}

/// Tenths, which seldom are whole seconds: often none, mostly few, sometimes the most that there can be.
fn tenths(rng: &mut Rng) -> u32 {
    match rng.below(16) {
        0..=4 => 0,
        5..=10 => 1 + rng.below(40) as u32,
        11..=12 => rng.below(1000) as u32,
        13..=14 => rng.below(u64::from(LONGEST) + 1) as u32,
        _ => LONGEST,
    }
}

/// Modes, learning and scenes: distinct numbers, from a small range so that inputs hit them, and some unused entries.
fn random_rest(rng: &mut Rng) -> [u8; REST] {
    let modes = [2, 3, 2, 2, 2].map(|greatest| rng.below(greatest + 1) as u8);
    let learning = rng.below(2) as u8;
    let mut next = rng.below(3) as u8;
    let scenes = [(); 8].map(|_| {
        if !rng.chance(60) {
            return (255, 0);
        }
        let number = next;
        next += 1 + rng.below(3) as u8;
        (number, rng.below(4) as u8)
    });
    rest_of(modes, learning, &scenes)
}

/// An input whose kind is met about as often as any other; locks, forces and cuts end again soon.
fn kind_and_value(rng: &mut Rng) -> (u8, u8) {
    match rng.below(20) {
        0..=4 => (1, rng.below(2) as u8),
        5..=7 => (2, rng.below(2) as u8),
        8..=9 => (3, rng.below(12) as u8 + if rng.chance(30) { 128 } else { 0 }),
        10..=12 => (4, if rng.chance(60) { rng.below(2) as u8 } else { 2 + rng.below(2) as u8 }),
        13..=14 => (5, rng.chance(40) as u8),
        15..=16 => (6, rng.below(2) as u8),
        17..=18 => (7, rng.chance(60) as u8),
        _ => (8, rng.chance(65) as u8),
    }
}

/// The widest gap between two inputs of a list.
pub fn widest_gap(rng: &mut Rng) -> u64 {
    [1, 5, 30, 200, 2000][rng.below(5) as usize]
}

/// So many inputs in order, from a stamp on, with ties.
pub fn inputs_from(start: u32, widest: u64, n: usize, rng: &mut Rng) -> Vec<[u8; 8]> {
    let mut stamp = u64::from(start);
    let mut inputs = Vec::with_capacity(n);
    for _ in 0..n {
        if !rng.chance(35) {
            stamp += rng.below(widest);
        }
        stamp = stamp.min(LAST.into());
        let (kind, value) = kind_and_value(rng);
        inputs.push(input(stamp as u32, kind, value));
    }
    inputs
}

impl CueFile {
    /// A show of n inputs that is in order, of any version.
    pub fn random(rng: &mut Rng, n: usize) -> CueFile {
        let layout = Layout::random(rng);
        CueFile::random_in(layout, rng, n)
    }

    /// The same, of this version.
    pub fn random_in(layout: &'static Layout, rng: &mut Rng, n: usize) -> CueFile {
        let widest = widest_gap(rng);
        let inputs = inputs_from(0, widest, n, rng);
        let stamp = inputs.last().map_or(0, |input| u64::from(stamp_of(input)));
        let end = (stamp + rng.below(widest * 3 + 1)).min(LAST.into()) as u32;
        let mut times = [0; 4].map(|_: u32| (layout.random_time)(rng));
        times[TIMED_ON] = times[TIMED_ON].max(layout.unit);
        CueFile {
            layout,
            version: layout.version,
            actuators: 1,
            parameters_offset: HEADER as u32,
            count: n as u32,
            inputs_offset: layout.inputs_at() as u32,
            end,
            times,
            rest: random_rest(rng),
            inputs,
        }
    }

    /// The same show in a version that can write its times.
    pub fn in_version(self, layout: &'static Layout) -> CueFile {
        CueFile { layout, version: layout.version, inputs_offset: layout.inputs_at() as u32, ..self }
    }

    /// The same show, or with one thing put out of order.
    pub fn spoilt_if(mut self, spoilt: bool, rng: &mut Rng) -> CueFile {
        if spoilt {
            self.spoil(rng);
        }
        self
    }

    /// One thing is put out of order.
    pub fn spoil(&mut self, rng: &mut Rng) {
        let which = rng.below(14);
        let n = self.inputs.len();
        match which {
            0 => self.version = rng.below(5) as u16,
            1 => self.actuators = rng.below(4) as u16,
            2 => self.parameters_offset = rng.below(40) as u32,
            3 => self.count = self.count.wrapping_add(1),
            4 => self.inputs_offset = if rng.chance(50) { rng.below(100) as u32 } else { 52 + 8 * rng.below(2) as u32 },
            5 => self.end = LAST + rng.below(3) as u32,
            6..=7 => self.rest[rng.below(REST as u64) as usize] = rng.next() as u8,
            8 => self.times[TIMED_ON] = 0,
            // what a version cannot write, it writes as another time
            9 => self.times[rng.below(4) as usize] = LONGEST + 1 + rng.below(3) as u32,
            10 => self.times[rng.below(4) as usize] = rng.next() as u32,
            11 if n > 0 => self.inputs[rng.below(n as u64) as usize][4 + rng.below(4) as usize] = rng.next() as u8,
            12 if n > 1 => {
                let at = rng.below(n as u64 - 1) as usize;
                self.inputs.swap(at, at + 1);
            }
            13 if n > 0 => self.inputs[rng.below(n as u64) as usize][rng.below(4) as usize] = rng.next() as u8,
            _ => self.end = self.end / 2,
        }
    }

    pub fn octets(&self) -> Vec<u8> {
        let numbers = [self.parameters_offset, self.count, self.inputs_offset, self.end];
        cue_file([self.version, self.actuators], numbers, &parameters(self.layout, self.times, &self.rest), &self.inputs)
    }
}

/// Which of the four times is TimedOn.
pub const TIMED_ON: usize = 2;
