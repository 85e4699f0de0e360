//! What the comparisons meet of noted values (document 02, request 4): how a night or a force is noted, and what becomes of it. It is told
//! from the inputs and their answers alone. Shared by compare.rs, compare_walls.rs and compare_live.rs.

use crate::calls::Claims;
use crate::files::kinds::{FORCED, LOCK, NIGHT, POWER};

/// The ways to note a value, and what may happen to one.
#[derive(Clone, Copy)]
enum Way {
    NightUnderLock,
    NightUnderForce,
    NightUnderBoth,
    ForceOn,
    ForceOff,
    Release,
    ForceForTheOther,
    EqualNight,
    EqualForce,
    ThenRelease,
    ThenUnlock,
    ThenPowerFailure,
    NightDroppedByBus,
    ForceDroppedByBus,
}

const WAYS: [(Way, &str); 14] = [
    (Way::NightUnderLock, "night noted under a lock"),
    (Way::NightUnderForce, "night noted under a force"),
    (Way::NightUnderBoth, "night noted under both"),
    (Way::ForceOn, "force On noted"),
    (Way::ForceOff, "force Off noted"),
    (Way::Release, "release noted"),
    (Way::ForceForTheOther, "a force noted for the other"),
    (Way::EqualNight, "equal night"),
    (Way::EqualForce, "equal force"),
    (Way::ThenRelease, "noted, then a release"),
    (Way::ThenUnlock, "noted, then an unlock"),
    (Way::ThenPowerFailure, "noted, then a power failure"),
    (Way::NightDroppedByBus, "night dropped by a bus that is down, not noted"),
    (Way::ForceDroppedByBus, "force dropped by a bus that is down, not noted"),
];

const CHANGED: u8 = 0;
const UNCHANGED: u8 = 1;
const BUS_DOWN: u8 = 4;
const NOTED: u8 = 6;

/// What was met, and what stands in the list that is followed: whether the house is locked, its force (0 none, 2 off, 3 on), and whether
/// something was noted that no end of lock and force has met.
#[derive(Default)]
pub struct Noted {
    met: [u64; WAYS.len()],
    lock: bool,
    force: u8,
    waits: bool,
}

impl Noted {
    /// A list is played to a fresh state.
    pub fn start(&mut self) {
        self.start_from(0, 0);
    }

    /// A list is played to a state with this lock and this force.
    pub fn start_from(&mut self, lock: u8, force: u8) {
        *self = Noted { met: self.met, lock: lock == 1, force, waits: false };
    }

    /// The next input of the list.
    pub fn note(&mut self, input: &[u8], answer: u8) {
        match input[4] {
            NIGHT => self.note_night(answer),
            FORCED => self.note_force(input[5], answer),
            LOCK if answer == CHANGED => self.note_lock(input[5] == 1),
            POWER if answer == CHANGED => self.note_power(),
            _ => {}
        }
    }

    fn meet(&mut self, way: Way) {
        self.met[way as usize] += 1;
    }

    fn note_night(&mut self, answer: u8) {
        match (answer, self.lock, self.force > 0) {
            (NOTED, true, false) => self.meet(Way::NightUnderLock),
            (NOTED, false, true) => self.meet(Way::NightUnderForce),
            (NOTED, true, true) => self.meet(Way::NightUnderBoth),
            (UNCHANGED, true, _) | (UNCHANGED, _, true) => self.meet(Way::EqualNight),
            (BUS_DOWN, true, _) | (BUS_DOWN, _, true) => self.meet(Way::NightDroppedByBus),
            _ => {}
        }
        self.waits |= answer == NOTED;
    }

    fn note_force(&mut self, value: u8, answer: u8) {
        let force = if value < 2 { 0 } else { value };
        match (answer, force) {
            (NOTED, 0) => self.meet(Way::Release),
            (NOTED, 2) => self.meet(Way::ForceOff),
            (NOTED, _) => self.meet(Way::ForceOn),
            (UNCHANGED, _) if self.lock => self.meet(Way::EqualForce),
            (BUS_DOWN, _) if self.lock => self.meet(Way::ForceDroppedByBus),
            (CHANGED, 0) if self.waits => self.meet(Way::ThenRelease),
            _ => {}
        }
        if answer == NOTED && self.force > 0 && force > 0 {
            self.meet(Way::ForceForTheOther);
        }
        if matches!(answer, CHANGED | NOTED) {
            self.force = force;
            self.waits = answer == NOTED || (self.waits && force > 0);
        }
    }

    fn note_lock(&mut self, lock: bool) {
        if self.waits && !lock {
            self.meet(Way::ThenUnlock);
        }
        self.lock = lock;
        // what was noted before a force's release waits on
        self.waits &= lock || self.force > 0;
    }

    /// A failure leaves neither lock nor force; a return finds none.
    fn note_power(&mut self) {
        if self.waits {
            self.meet(Way::ThenPowerFailure);
        }
        self.start();
    }

    /// Behind an indent.
    pub fn say(&self, indent: &str) {
        let counts: Vec<String> = WAYS.iter().map(|(way, name)| format!("{} {}", name, self.met[*way as usize])).collect();
        println!("{}noted values: {}", indent, counts.join("; "));
    }

    /// `of` says of what the counts are.
    pub fn claim(&self, of: &str, claims: &mut Claims) {
        let all = self.met.iter().all(|&k| k > 0);
        claims.claim(&format!("{}every way to note a value, and all that may become of it, is met", of), all);
    }
}
