//! Images of states made at random, field by field, and the rules that an image keeps or breaks, each by itself. Shared by the tests
//! of the live calls.
#![allow(dead_code)]

use crate::files::{u32_at, CueFile, Layout, Rng, LAST, LONGEST, REST, TIMED_ON};

/// How many octets an image has.
pub const OCTETS: usize = 56;

/// The phases by their numbers; those from STARTING on have a deadline.
pub const DARK: u8 = 0;
pub const LIT: u8 = 1;
pub const STARTING: u8 = 2;
pub const PHASES: u8 = 7;

pub const FORCE_OFF: u8 = 2;
pub const FORCE_ON: u8 = 3;
pub const POWER_DOWN: u8 = 2;

/// The fields of an image, with whatever numbers stand there.
#[derive(Clone, Debug, PartialEq, Eq)]
pub struct Fields {
    pub times: [u32; 4],
    pub rest: [u8; REST],
    pub version: u8,
    pub night: u8,
    pub lock: u8,
    pub force: u8,
    pub link: u8,
    pub at_locking: u8,
    pub at_failure: u8,
    pub phase: u8,
    pub clock: u32,
    pub deadline: u32,
}

impl Fields {
    /// The fields that an image of the right length spells.
    pub fn of(image: &[u8]) -> Fields {
        let mut rest = [0; REST];
        rest.copy_from_slice(&image[16..40]);
        Fields {
            times: [0, 4, 8, 12].map(|at| u32_at(image, at)),
            rest,
            version: image[40],
            night: image[41],
            lock: image[42],
            force: image[43],
            link: image[44],
            at_locking: image[45],
            at_failure: image[46],
            phase: image[47],
            clock: u32_at(image, 48),
            deadline: u32_at(image, 52),
        }
    }

    pub fn octets(&self) -> Vec<u8> {
        let mut image = Vec::with_capacity(OCTETS);
        for time in self.times {
            image.extend_from_slice(&time.to_be_bytes());
        }
        image.extend_from_slice(&self.rest);
        image.extend_from_slice(&[self.version, self.night, self.lock, self.force, self.link]);
        image.extend_from_slice(&[self.at_locking, self.at_failure, self.phase]);
        image.extend_from_slice(&self.clock.to_be_bytes());
        image.extend_from_slice(&self.deadline.to_be_bytes());
        image
    }

    /// A fresh state with the parameters of a show, whose times are in tenths here.
    pub fn fresh(show: &CueFile) -> Fields {
        Fields::fresh_with(show.times, show.rest, show.layout.version as u8)
    }

    /// A fresh state with these parameters.
    pub fn fresh_with(times: [u32; 4], rest: [u8; REST], version: u8) -> Fields {
        Fields {
            times,
            rest,
            version,
            night: 0,
            lock: 0,
            force: 0,
            link: 0,
            at_locking: 0,
            at_failure: 0,
            phase: DARK,
            clock: 0,
            deadline: 0,
        }
    }

    /// Sound parameters of a version, and the other fields combined at random: about half of these are sound.
    pub fn random_in(layout: &'static Layout, rng: &mut Rng) -> Fields {
        let show = CueFile::random_in(layout, rng, 0);
        let clock = match rng.below(8) {
            0 => 0,
            1 => LAST,
            2 => LAST - rng.below(3) as u32,
            3 => rng.below(u64::from(LAST)) as u32,
            _ => rng.below(3000) as u32,
        };
        let mut fields = Fields {
            night: rng.below(2) as u8,
            lock: rng.chance(25) as u8,
            force: if rng.chance(25) { FORCE_OFF + rng.below(2) as u8 } else { 0 },
            link: [0, 0, 0, 1, 1, POWER_DOWN][rng.below(6) as usize],
            at_locking: rng.below(2) as u8,
            at_failure: rng.below(2) as u8,
            phase: if rng.chance(40) { rng.below(2) as u8 } else { rng.below(u64::from(PHASES)) as u8 },
            clock,
            ..Fields::fresh(&show)
        };
        if fields.has_deadline() {
            let longest = [1, 40, 2000, u64::from(LONGEST)][rng.below(4) as usize];
            fields.deadline = clock + 1 + rng.below(longest) as u32;
        }
        fields
    }

    /// Whether the phase has a deadline.
    pub fn has_deadline(&self) -> bool {
        self.phase >= STARTING
    }

    /// One field is put where a rule may forbid it.
    pub fn spoil(&mut self, rng: &mut Rng) {
        let scene = 8 + 2 * rng.below(8) as usize;
        match rng.below(17) {
            0 => self.version = rng.below(4) as u8,
            1 => self.times[rng.below(4) as usize] += 1 + rng.below(9) as u32,
            2 => self.times[rng.below(4) as usize] = LONGEST + 10 * rng.below(3) as u32 + rng.below(2) as u32,
            3 => self.times[TIMED_ON] = 0,
            4 => self.rest[rng.below(8) as usize] = rng.below(5) as u8,
            5 => self.rest[scene] = [rng.below(64), 64, 254, 255][rng.below(4) as usize] as u8,
            6 => self.rest[scene + 1] = [rng.below(4), 4, 128, 255][rng.below(4) as usize] as u8,
            7 => self.rest[scene] = self.rest[8],
            8 => self.night = rng.below(3) as u8,
            9 => self.lock = rng.below(3) as u8,
            10 => self.force = rng.below(5) as u8,
            11 => self.link = rng.below(4) as u8,
            12 => self.at_locking = rng.below(3) as u8,
            13 => self.at_failure = rng.below(3) as u8,
            14 => self.phase = rng.below(u64::from(PHASES) + 1) as u8,
            15 => self.clock = LAST + rng.below(3) as u32,
            _ => self.deadline = self.near_the_clock(rng),
        }
    }

    /// A moment at an end of the range of a deadline, none, or the greatest number.
    fn near_the_clock(&self, rng: &mut Rng) -> u32 {
        match rng.below(6) {
            0 => self.clock.saturating_sub(1),
            1 => self.clock,
            2 => self.clock + 1,
            3 => self.clock + LONGEST,
            4 => self.clock + LONGEST + 1,
            _ => [0, u32::MAX][rng.below(2) as usize],
        }
    }

    fn scenes(&self) -> impl Iterator<Item = (u8, u8)> + '_ {
        self.rest[8..].chunks_exact(2).map(|entry| (entry[0], entry[1]))
    }

    fn scenes_are_distinct(&self) -> bool {
        let used: Vec<u8> = self.scenes().map(|(number, _)| number).filter(|&number| number != 255).collect();
        (0..used.len()).all(|later| !used[..later].contains(&used[later]))
    }

    /// "lock or force"; whatever is not 0 counts, so that a rule is broken for its own reason.
    fn held(&self) -> bool {
        self.lock != 0 || self.force != 0
    }

    fn dark_or_lit(&self) -> bool {
        !self.has_deadline()
    }
}

/// What an image of a sound state keeps.
pub struct Rule {
    pub name: &'static str,
    pub kept: fn(&Fields) -> bool,
}

/// Document 01's rules of a sound state with document 02's of its version, and the octets without meaning of include/house.h: each can
/// be broken while all others are kept.
pub static RULES: [Rule; 33] = [
    Rule { name: "a version that is played", kept: |f| f.version == 1 || f.version == 2 },
    Rule { name: "whole seconds in version 1", kept: |f| f.version != 1 || f.times.iter().all(|time| time % 10 == 0) },
    Rule { name: "OnDelay of at most 655,350 tenths", kept: |f| f.times[0] <= LONGEST },
    Rule { name: "OffDelay of at most 655,350 tenths", kept: |f| f.times[1] <= LONGEST },
    Rule { name: "TimedOn of at most 655,350 tenths", kept: |f| f.times[2] <= LONGEST },
    Rule { name: "Prewarning of at most 655,350 tenths", kept: |f| f.times[3] <= LONGEST },
    Rule { name: "TimedOn not 0", kept: |f| f.times[TIMED_ON] != 0 },
    Rule { name: "BehaviourAtLocking", kept: |f| f.rest[0] <= 2 },
    Rule { name: "BehaviourAtUnlocking", kept: |f| f.rest[1] <= 3 },
    Rule { name: "BusFailureMode", kept: |f| f.rest[2] <= 2 },
    Rule { name: "BusReturnMode", kept: |f| f.rest[3] <= 2 },
    Rule { name: "PowerReturnMode", kept: |f| f.rest[4] <= 2 },
    Rule { name: "scene learning", kept: |f| f.rest[5] <= 1 },
    Rule { name: "two zeros after it", kept: |f| f.rest[6..8] == [0, 0] },
    Rule { name: "scene numbers", kept: |f| f.scenes().all(|(number, _)| number <= 63 || number == 255) },
    Rule { name: "distinct scenes", kept: |f| f.scenes_are_distinct() },
    Rule { name: "scene flags", kept: |f| f.scenes().all(|(_, flags)| flags <= 3) },
    Rule { name: "no flags of an unused entry", kept: |f| f.scenes().all(|(number, flags)| number != 255 || flags & 3 == 0) },
    Rule { name: "night 0 or 1", kept: |f| f.night <= 1 },
    Rule { name: "lock 0 or 1", kept: |f| f.lock <= 1 },
    Rule { name: "force 0, 2 or 3", kept: |f| matches!(f.force, 0 | FORCE_OFF | FORCE_ON) },
    Rule { name: "link 0 to 2", kept: |f| f.link <= POWER_DOWN },
    Rule { name: "outputs remembered 0 or 1", kept: |f| f.at_locking <= 1 && f.at_failure <= 1 },
    Rule { name: "phase 0 to 6", kept: |f| f.phase < PHASES },
    Rule { name: "no deadline in Dark and Lit", kept: |f| f.has_deadline() || f.deadline == 0 },
    Rule { name: "a clock of at most 864,000", kept: |f| f.clock <= LAST },
    Rule { name: "a deadline after the clock", kept: |f| !f.has_deadline() || f.deadline > f.clock },
    Rule {
        name: "a deadline at most 655,350 after the clock",
        kept: |f| !f.has_deadline() || f.deadline.saturating_sub(f.clock) <= LONGEST,
    },
    Rule { name: "lock or force leaves only Dark or Lit", kept: |f| !f.held() || f.dark_or_lit() },
    Rule {
        name: "force without lock agrees with the phase",
        // of phases that end by themselves the rule before this one speaks
        kept: |f| f.lock != 0 || !f.dark_or_lit() || !matches!((f.force, f.phase), (FORCE_OFF, LIT) | (FORCE_ON, DARK)),
    },
    Rule { name: "Lit in night needs lock or force", kept: |f| f.phase != LIT || f.night == 0 || f.held() },
    Rule { name: "power down means Dark", kept: |f| f.link != POWER_DOWN || f.phase == DARK },
    Rule {
        name: "power down means night, lock and force clear",
        kept: |f| f.link != POWER_DOWN || (f.night == 0 && !f.held()),
    },
];

/// The rules that an image of the right length breaks, by their places in the table.
pub fn broken(fields: &Fields) -> Vec<usize> {
    (0..RULES.len()).filter(|&rule| !(RULES[rule].kept)(fields)).collect()
}
