//! The house-light actuator of document 01, as an independent model, with the tenths in the delays of
//! document 02, request 2, and its request 4: night and force are values, not events. (Its requests 1
//! and 3 are in wall.rs and live.rs; what these share with a cue file is here.)
//!
//! Written from documents 00, 01 and 02 alone, to be read beside document 01: the sections come in
//! its order and each rule stands under the sentence it renders. All times inside the model are
//! tenths of a second, whatever the file holds.
#![allow(dead_code)]

use std::cmp::min;
use std::fmt::Write;

// ================================================================================================
// Time and the cue file
// ================================================================================================

/// "A stamp is in tenths of a second, 0 to 864,000."
pub const LAST_STAMP: u32 = 864_000;

/// "a deadline lies 1 to 655,350 after the clock"; and a time of the parameters has "0 to 655,350"
/// tenths: the longest U16 delay of version 1.
pub const LONGEST_DELAY: u32 = 655_350;

/// "8-11 count n of inputs (0 to 2,048)"
pub const MOST_INPUTS: u32 = 2_048;

/// "20 octets of counts and offsets"; "Input, 8 octets"; and "A record is 8 octets".
pub(crate) const HEADER: usize = 20;
pub(crate) const INPUT: usize = 8;
pub(crate) const RECORD: usize = 8;

/// "version is tested on files of at least 52 octets" (document 02)
pub(crate) const LEAST_FILE: usize = 52;

/// What differs between the versions of the cue file, and of the states that come of them.
pub(crate) struct Version {
    /// "0-1 version"
    number: u8,
    /// How many octets each of the four times has, how many tenths one of its units lasts, and the
    /// four in units.
    time: usize,
    unit: u32,
    times: fn(&[u8]) -> [u32; 4],
    /// How many octets the parameters have.
    parameters: usize,
}

/// A row for each version; it is chosen once, by the version that a file or a state has, or by the
/// length of parameters alone.
static VERSIONS: [Version; 2] = [
    // "Delays are U16 seconds; a delay of s lasts 10*s tenths."; "Parameters, 32 octets"
    Version { number: 1, time: 2, unit: 10, times: four_u16, parameters: 32 },
    // "Version 2 files hold the four times as U32 tenths ... in parameter octets 0-15; the rest
    // follows, 40 octets in all" (document 02)
    Version { number: 2, time: 4, unit: 1, times: four_u32, parameters: 40 },
];

impl Version {
    /// The version of a file or of a state; "2 now means neither version" (document 02).
    fn of(number: u16) -> Option<&'static Version> {
        VERSIONS.iter().find(|version| u16::from(version.number) == number)
    }

    /// "parameters alone are told by 32 or 40 octets" (document 02)
    fn of_parameters(length: usize) -> Option<&'static Version> {
        VERSIONS.iter().find(|version| version.parameters == length)
    }

    /// "offset of inputs", which is also the "least length" of a file.
    fn inputs_at(&self) -> usize {
        HEADER + self.parameters
    }
}

/// "Numbers are most significant octet first."
fn u16_at(octets: &[u8], at: usize) -> u16 {
    u16::from_be_bytes([octets[at], octets[at + 1]])
}

pub(crate) fn u32_at(octets: &[u8], at: usize) -> u32 {
    u32::from_be_bytes([octets[at], octets[at + 1], octets[at + 2], octets[at + 3]])
}

fn four_u16(octets: &[u8]) -> [u32; 4] {
    [0, 2, 4, 6].map(|at| u16_at(octets, at).into())
}

pub(crate) fn four_u32(octets: &[u8]) -> [u32; 4] {
    [0, 4, 8, 12].map(|at| u32_at(octets, at))
}

/// "0-1 OnDelay; 2-3 OffDelay; 4-5 TimedOnDuration, 1 or more; 6-7 PrewarningDuration;
/// 8 BehaviourAtLocking (0 keep, 1 off, 2 on); 9 BehaviourAtUnlocking (0 to 2 alike, 3 as before
/// locking); 10 BusFailureMode, 11 BusReturnMode (0 keep, 1 off, 2 on); 12 PowerReturnMode (0 as
/// before the failure, 1 off, 2 on); 13 SceneLearningModeEnable (0, 1)"
///
/// The version goes with them, and the times are in tenths in either version. The fields can hold
/// values out of range, since a state handed in is judged for that.
#[derive(Clone, Copy, Debug, PartialEq, Eq)]
pub struct Params {
    pub version: u8,
    pub on_delay: u32,
    pub off_delay: u32,
    pub timed_on: u32,
    pub prewarning: u32,
    pub behaviour_at_locking: u8,
    pub behaviour_at_unlocking: u8,
    pub bus_failure_mode: u8,
    pub bus_return_mode: u8,
    pub power_return_mode: u8,
    pub scene_learning_mode_enable: u8,
}

/// The mode codes. 0 is "keep", except in PowerReturnMode where it is "as before the failure".
pub const KEEP: u8 = 0;
pub const OFF: u8 = 1;
pub const ON: u8 = 2;
pub const AS_BEFORE_LOCKING: u8 = 3;
pub const AS_BEFORE_THE_FAILURE: u8 = 0;

/// "eight scene entries of two octets: number (0 to 63, or 255 for unused) and flags (bit 0 value,
/// bit 1 taught in, others zero)"
#[derive(Clone, Copy, Debug, PartialEq, Eq)]
pub struct Scene {
    pub number: u8,
    pub flags: u8,
}

pub const UNUSED: u8 = 255;
const SCENE_VALUE: u8 = 1;
const SCENE_TAUGHT: u8 = 2;

impl Scene {
    fn value(&self) -> bool {
        self.flags & SCENE_VALUE != 0
    }

    fn taught(&self) -> bool {
        self.flags & SCENE_TAUGHT != 0
    }
}

/// "the rest follows" (document 02): after the times, modes, learning, zeros and scenes, the same
/// octets in every version.
pub(crate) const REST: usize = 24;

/// Where the scene entries start in the rest: after five modes, learning and two zeros.
const SCENES_AT: usize = 8;

/// The four times in tenths, and the rest. Here, and nowhere else, seconds become tenths.
fn times_and_rest<'a>(version: &Version, octets: &'a [u8]) -> ([u32; 4], &'a [u8; REST]) {
    let (times, rest) = octets.split_at(4 * version.time);
    let tenths = (version.times)(times).map(|time| version.unit * time);
    (tenths, rest[..REST].try_into().expect("parameters have their rest"))
}

/// The rest of the parameters as it stands in a file, from a state's parameters and scene table.
pub(crate) fn rest_of(p: &Params, scenes: &[Scene; 8]) -> [u8; REST] {
    let mut rest = [0; REST];
    rest[0] = p.behaviour_at_locking;
    rest[1] = p.behaviour_at_unlocking;
    rest[2] = p.bus_failure_mode;
    rest[3] = p.bus_return_mode;
    rest[4] = p.power_return_mode;
    rest[5] = p.scene_learning_mode_enable;
    for (entry, scene) in rest[SCENES_AT..].chunks_exact_mut(2).zip(scenes) {
        entry.copy_from_slice(&[scene.number, scene.flags]);
    }
    rest
}

/// The parameters and the scene table that four times and the rest spell, in range or not.
pub(crate) fn decode_parameters(
    version: u8,
    times: [u32; 4],
    rest: &[u8; REST],
) -> (Params, [Scene; 8]) {
    let [on_delay, off_delay, timed_on, prewarning] = times;
    let params = Params {
        version,
        on_delay,
        off_delay,
        timed_on,
        prewarning,
        behaviour_at_locking: rest[0],
        behaviour_at_unlocking: rest[1],
        bus_failure_mode: rest[2],
        bus_return_mode: rest[3],
        power_return_mode: rest[4],
        scene_learning_mode_enable: rest[5],
    };
    let mut scenes = [Scene { number: UNUSED, flags: 0 }; 8];
    for (scene, entry) in scenes.iter_mut().zip(rest[SCENES_AT..].chunks_exact(2)) {
        *scene = Scene { number: entry[0], flags: entry[1] };
    }
    (params, scenes)
}

/// "parameter out of range | lowest bad octet in 0-31 (TimedOn 0: 4; a repeated scene: the later
/// entry's number)"; "5 use[s] the version's sizes and places" (document 02)
///
/// The octets are judged in order, so the first found is the lowest.
fn lowest_bad_octet(version: &Version, times: &[u32; 4], rest: &[u8; REST]) -> Option<usize> {
    match bad_time(version, times) {
        // "a bad time: its first octet" (document 02)
        Some(which) => Some(version.time * which),
        None => bad_rest(rest).map(|octet| 4 * version.time + octet),
    }
}

/// "the four times as U32 tenths, 0 to 655,350, timed-on at least 1" (document 02). In version 1
/// they are seconds, and so no other tenths are in range.
fn bad_time(version: &Version, times: &[u32; 4]) -> Option<usize> {
    let bad = |time: u32| time > LONGEST_DELAY || time % version.unit != 0;
    let timed_on = 2;
    (0..4).find(|which| bad(times[*which]) || (*which == timed_on && times[timed_on] == 0))
}

/// The first octet of the rest that is out of range; the places quoted are those of version 1.
fn bad_rest(rest: &[u8; REST]) -> Option<usize> {
    // octet by octet, the highest value it may have
    let highest = [
        2, // "8 BehaviourAtLocking (0 keep, 1 off, 2 on)"
        3, // "9 BehaviourAtUnlocking (0 to 2 alike, 3 as before locking)"
        2, // "10 BusFailureMode ... (0 keep, 1 off, 2 on)"
        2, // "11 BusReturnMode (0 keep, 1 off, 2 on)"
        2, // "12 PowerReturnMode (0 as before the failure, 1 off, 2 on)"
        1, // "13 SceneLearningModeEnable (0, 1)"
        0, // "14-15 zero"
        0,
    ];
    for (octet, most) in highest.iter().enumerate() {
        if rest[octet] > *most {
            return Some(octet);
        }
    }
    // a bit for each number that an entry before uses
    let mut seen: u64 = 0;
    for at in (SCENES_AT..REST).step_by(2) {
        let (number, flags) = (rest[at], rest[at + 1]);
        let used = number != UNUSED;
        if used {
            // "number (0 to 63, or 255 for unused)"; "Used numbers are distinct."
            if number > 63 || seen >> number & 1 != 0 {
                return Some(at);
            }
            seen |= 1 << number;
        }
        // "flags (bit 0 value, bit 1 taught in, others zero). Unused entries have flags 0."
        if flags > 3 || (!used && flags != 0) {
            return Some(at + 1);
        }
    }
    None
}

/// "An input is one of eight kinds, each with its own value"
#[derive(Clone, Copy, Debug, PartialEq, Eq)]
pub enum Input {
    SwitchOnOff { on: bool },
    TimedStartStop { start: bool },
    NumberedSceneControl { learn: bool, number: u8 },
    SwitchOnOffForced { force: Force },
    LockDevice { lock: bool },
    NightMode { night: bool },
    Bus { back: bool },
    Power { back: bool },
}

/// "Input, 8 octets: 0-3 stamp; 4 kind; 5 value; 6-7 zero."
///
/// None where "kind, value or zero octet wrong" (refusal 6).
pub(crate) fn decode_input(octets: &[u8]) -> Option<Input> {
    if octets[6] != 0 || octets[7] != 0 {
        return None;
    }
    match (octets[4], octets[5]) {
        // "1 SwitchOnOff, 2 TimedStartStop, 5 LockDevice (1 locks), 6 NightMode: 0 or 1."
        (1, value @ 0..=1) => Some(Input::SwitchOnOff { on: value == 1 }),
        (2, value @ 0..=1) => Some(Input::TimedStartStop { start: value == 1 }),
        (5, value @ 0..=1) => Some(Input::LockDevice { lock: value == 1 }),
        (6, value @ 0..=1) => Some(Input::NightMode { night: value == 1 }),
        // "3 scene: bit 7 set is learn, bit 6 zero, low six bits the number."
        (3, value) if value & 0x40 == 0 => {
            Some(Input::NumberedSceneControl { learn: value & 0x80 != 0, number: value & 0x3F })
        }
        // "4 forced: 0 and 1 no control, 2 Off, 3 On."
        (4, 0..=1) => Some(Input::SwitchOnOffForced { force: Force::None }),
        (4, 2) => Some(Input::SwitchOnOffForced { force: Force::Off }),
        (4, 3) => Some(Input::SwitchOnOffForced { force: Force::On }),
        // "7 bus and 8 power: 0 failure, 1 return."
        (7, value @ 0..=1) => Some(Input::Bus { back: value == 1 }),
        (8, value @ 0..=1) => Some(Input::Power { back: value == 1 }),
        _ => None,
    }
}

// ================================================================================================
// Phases
// ================================================================================================

/// "force (none, off, on)"
#[derive(Clone, Copy, Debug, PartialEq, Eq)]
pub enum Force {
    None,
    Off,
    On,
}

/// "link (up, bus down, power down)"
#[derive(Clone, Copy, Debug, PartialEq, Eq)]
pub enum Link {
    Up,
    BusDown,
    PowerDown,
}

/// "and one phase, some with a deadline"
///
/// "Dark (off), Lit (on): no deadline."
/// "Starting (off), steady or timed."
/// "Timed (on)."
/// "Warning and Ending (on)."
#[derive(Clone, Copy, Debug, PartialEq, Eq)]
pub enum Phase {
    Dark,
    Lit,
    Starting { timed: bool, deadline: u32 },
    Timed { deadline: u32 },
    Warning { deadline: u32 },
    Ending { deadline: u32 },
}

impl Phase {
    fn output(self) -> bool {
        match self {
            Phase::Dark | Phase::Starting { .. } => false,
            Phase::Lit | Phase::Timed { .. } | Phase::Warning { .. } | Phase::Ending { .. } => true,
        }
    }

    pub(crate) fn deadline(self) -> Option<u32> {
        match self {
            Phase::Dark | Phase::Lit => None,
            Phase::Starting { deadline, .. }
            | Phase::Timed { deadline }
            | Phase::Warning { deadline }
            | Phase::Ending { deadline } => Some(deadline),
        }
    }
}

/// "The state holds its parameters and current scene table, the clock, night, lock, force (none,
/// off, on), link (up, bus down, power down), the outputs remembered at locking and at power
/// failure, and one phase, some with a deadline"
#[derive(Clone, Copy, Debug, PartialEq, Eq)]
pub struct State {
    pub clock: u32,
    pub phase: Phase,
    pub night: bool,
    pub lock: bool,
    pub force: Force,
    pub link: Link,
    pub output_at_locking: bool,
    pub output_at_power_failure: bool,
    pub scenes: [Scene; 8],
    pub params: Params,
}

/// "Fresh: clock 0, Dark, link up, night off, no lock, no force, both remembered outputs off."
fn fresh_state(params: Params, scenes: [Scene; 8]) -> State {
    State {
        clock: 0,
        phase: Phase::Dark,
        night: false,
        lock: false,
        force: Force::None,
        link: Link::Up,
        output_at_locking: false,
        output_at_power_failure: false,
        scenes,
        params,
    }
}

/// "every deadline at or before t is run, each at its own moment, at most three"
///
/// Starting, Timed, Warning, Dark is the longest way, so the loop turns at most three times.
pub(crate) fn move_clock(state: &mut State, t: u32, tape: &mut impl Tape) {
    while let Some(d) = state.phase.deadline() {
        if d > t {
            break;
        }
        let before = status(state);
        state.phase = at_deadline(state, d);
        write_change(before, state, d, CAUSE_TIMER, tape);
    }
    state.clock = t;
}

/// What the phase becomes at its deadline d.
fn at_deadline(state: &State, d: u32) -> Phase {
    let p = &state.params;
    match state.phase {
        // "At its deadline d: Timed until d+TimedOn if it is timed or night is then on, else Lit."
        Phase::Starting { timed, .. } => {
            if timed || state.night {
                Phase::Timed { deadline: d + p.timed_on }
            } else {
                Phase::Lit
            }
        }
        // "At d: Warning until d+Prewarning; Dark if Prewarning is 0."
        Phase::Timed { .. } => {
            if p.prewarning == 0 {
                Phase::Dark
            } else {
                Phase::Warning { deadline: d + p.prewarning }
            }
        }
        // "Warning and Ending (on). At d: Dark."
        Phase::Warning { .. } | Phase::Ending { .. } => Phase::Dark,
        // "Dark (off), Lit (on): no deadline."
        Phase::Dark => Phase::Dark,
        Phase::Lit => Phase::Lit,
    }
}

/// ""Set off" is Dark. ... Neither waits for a delay."
fn set_off(state: &mut State) {
    state.phase = Phase::Dark;
}

/// ""Set on" is Lit, or Timed until t+TimedOn when night is on and, once the order's own flags are
/// changed, neither lock nor force stands. Neither waits for a delay."
///
/// An order changes its own flags first and calls this last.
fn set_on(state: &mut State, t: u32) {
    state.phase = if state.night && !state.lock && state.force == Force::None {
        Phase::Timed { deadline: t + state.params.timed_on }
    } else {
        Phase::Lit
    };
}

/// "set on if ... else set off"
fn set(state: &mut State, output: bool, t: u32) {
    if output {
        set_on(state, t);
    } else {
        set_off(state);
    }
}

// ================================================================================================
// Which input counts
// ================================================================================================

/// One row of the table: what stops this kind.
struct Barriers {
    power_down: bool,
    bus_down: bool,
    lock: bool,
    force: bool,
}

const fn row(power_down: bool, bus_down: bool, lock: bool, force: bool) -> Barriers {
    Barriers { power_down, bus_down, lock, force }
}

/// "What stops each kind is kept as one table of eight rows that names the barriers of that kind:
/// power down stops 1 to 7; bus down stops 1 to 6; lock stops 1 to 4 and 6; force stops 1 to 3
/// and 6."
const BARRIERS: [Barriers; 8] = [
    // power  bus    lock   force
    row(true, true, true, true),     // 1 SwitchOnOff
    row(true, true, true, true),     // 2 TimedStartStop
    row(true, true, true, true),     // 3 scene
    row(true, true, true, false),    // 4 forced
    row(true, true, false, false),   // 5 LockDevice
    row(true, true, true, true),     // 6 NightMode
    row(true, false, false, false),  // 7 bus
    row(false, false, false, false), // 8 power
];

/// "Night and force are values, not events." (document 02): kinds 4 and 6. Under lock or force they are
/// noted; the other kinds that the table stops there are dropped.
fn is_value(kind: u8) -> bool {
    matches!(kind, 4 | 6)
}

/// "Answer octet, first that fits: 5 power down, 4 bus down, 3 lock, 2 force"
#[derive(Clone, Copy)]
enum Barrier {
    Force = 2,
    Lock = 3,
    BusDown = 4,
    PowerDown = 5,
}

/// The first barrier of that kind that stands.
fn first_barrier(state: &State, kind: u8) -> Option<Barrier> {
    let barriers = &BARRIERS[usize::from(kind) - 1];
    if barriers.power_down && state.link == Link::PowerDown {
        Some(Barrier::PowerDown)
    } else if barriers.bus_down && state.link == Link::BusDown {
        Some(Barrier::BusDown)
    } else if barriers.lock && state.lock {
        Some(Barrier::Lock)
    } else if barriers.force && state.force != Force::None {
        Some(Barrier::Force)
    } else {
        None
    }
}

/// "An input at stamp t first moves the clock ... Then the input acts."
///
/// It stands in each loop that plays a list: a call for every input would cost that loop a fifth more.
#[inline(always)]
pub(crate) fn take_input(
    state: &mut State,
    octets: &[u8],
    input: Input,
    tape: &mut impl Tape,
) -> u8 {
    let (t, kind) = (u32_at(octets, 0), octets[4]);
    move_clock(state, t, tape);
    let before = *state;
    match first_barrier(state, kind) {
        // "then 0 if anything but the clock changed after the due timers had run, else 1"
        None => {
            act(state, input, t);
            record_and_answer(&before, state, kind, 0, tape)
        }
        // "a night value under lock or force, and a force value under lock, is noted"; "Answer 6
        // means noted and different; a noted equal value answers 1." (document 02)
        Some(Barrier::Lock | Barrier::Force) if is_value(kind) => {
            note(state, input);
            record_and_answer(&before, state, kind, 6, tape)
        }
        // "A stopped input is dropped for good; every other is taken, though it may change nothing.";
        // "Bus and power down still drop." (document 02)
        Some(barrier) => barrier as u8,
    }
}

/// What the input did, by its record where there is one, and by its answer.
#[inline(always)]
fn record_and_answer(
    before: &State,
    now: &State,
    kind: u8,
    answer_if_changed: u8,
    tape: &mut impl Tape,
) -> u8 {
    write_change(status(before), now, now.clock, kind, tape);
    if changed(before, now) {
        answer_if_changed
    } else {
        1
    }
}

/// "the flag or force changes, the phase does not" (document 02)
///
/// A release notes that there is no force. "Release and unlocking then act by 01's rules on the noted
/// values": they look at night and force, and need not know how these came.
fn note(state: &mut State, input: Input) {
    match input {
        Input::SwitchOnOffForced { force } => state.force = force,
        Input::NightMode { night } => state.night = night,
        _no_value => {}
    }
}

/// "anything but the clock changed": all fields but the clock, and the parameters, which no input
/// changes.
fn changed(before: &State, now: &State) -> bool {
    before.phase != now.phase
        || before.night != now.night
        || before.lock != now.lock
        || before.force != now.force
        || before.link != now.link
        || before.output_at_locking != now.output_at_locking
        || before.output_at_power_failure != now.output_at_power_failure
        || before.scenes != now.scenes
}

// ================================================================================================
// What each order does, at t
// ================================================================================================

/// "What an order does depends on its kind and on the phase it meets."
fn act(state: &mut State, input: Input, t: u32) {
    match input {
        Input::SwitchOnOff { on: true } => on(state, t),
        Input::SwitchOnOff { on: false } => off(state, t),
        Input::TimedStartStop { start: true } => timed_start(state, t),
        Input::TimedStartStop { start: false } => timed_stop(state, t),
        Input::NumberedSceneControl { learn: false, number } => scene_recall(state, number, t),
        Input::NumberedSceneControl { learn: true, number } => scene_learn(state, number),
        Input::SwitchOnOffForced { force: Force::None } => release(state, t),
        Input::SwitchOnOffForced { force } => force_off_or_on(state, force),
        Input::LockDevice { lock: true } => lock(state),
        Input::LockDevice { lock: false } => unlock(state, t),
        Input::NightMode { night: true } => night_1(state, t),
        Input::NightMode { night: false } => night_0(state),
        Input::Bus { back: false } => bus_failure(state, t),
        Input::Bus { back: true } => bus_return(state, t),
        Input::Power { back: false } => power_failure(state),
        Input::Power { back: true } => power_return(state, t),
    }
}

fn on(state: &mut State, t: u32) {
    let p = state.params;
    match state.phase {
        // "On: Dark becomes lit at once when OnDelay is 0 (Timed if night, else Lit), otherwise
        // Starting, steady, until t+OnDelay."
        Phase::Dark => {
            state.phase = if p.on_delay != 0 {
                Phase::Starting { timed: false, deadline: t + p.on_delay }
            } else if state.night {
                Phase::Timed { deadline: t + p.timed_on }
            } else {
                Phase::Lit
            }
        }
        // "Starting keeps its deadline and becomes steady."
        Phase::Starting { deadline, .. } => {
            state.phase = Phase::Starting { timed: false, deadline }
        }
        // "Lit stays."
        Phase::Lit => {}
        // "Timed, Warning, Ending: set on."
        Phase::Timed { .. } | Phase::Warning { .. } | Phase::Ending { .. } => set_on(state, t),
    }
}

fn timed_start(state: &mut State, t: u32) {
    let p = state.params;
    state.phase = match state.phase {
        // "Timed start: the same from Dark and Starting but timed"
        Phase::Dark => {
            if p.on_delay != 0 {
                Phase::Starting { timed: true, deadline: t + p.on_delay }
            } else {
                Phase::Timed { deadline: t + p.timed_on }
            }
        }
        Phase::Starting { deadline, .. } => Phase::Starting { timed: true, deadline },
        // "every lit phase becomes Timed until t+TimedOn."
        Phase::Lit | Phase::Timed { .. } | Phase::Warning { .. } | Phase::Ending { .. } => {
            Phase::Timed { deadline: t + p.timed_on }
        }
    };
}

/// When a light goes out by itself: "Timed with deadline d: ... d+Prewarning. Warning or Ending: ...
/// d."
fn own_end(phase: Phase, p: &Params) -> Option<u32> {
    match phase {
        Phase::Timed { deadline: d } => Some(d + p.prewarning),
        Phase::Warning { deadline: d } | Phase::Ending { deadline: d } => Some(d),
        Phase::Dark | Phase::Lit | Phase::Starting { .. } => None,
    }
}

fn off(state: &mut State, t: u32) {
    let p = state.params;
    state.phase = match state.phase {
        // "Off: Dark stays; Starting becomes Dark."
        Phase::Dark | Phase::Starting { .. } => Phase::Dark,
        // "With OffDelay 0 the result is Dark."
        _ if p.off_delay == 0 => Phase::Dark,
        // "Lit: Ending until t+OffDelay."; and the others "until the earlier of t+OffDelay and" their end
        lit => {
            let delayed = t + p.off_delay;
            Phase::Ending { deadline: min(delayed, own_end(lit, &p).unwrap_or(delayed)) }
        }
    };
}

/// "Timed stop: as Off in Timed, Warning and timed Starting; otherwise nothing."
fn timed_stop(state: &mut State, t: u32) {
    match state.phase {
        Phase::Timed { .. } | Phase::Warning { .. } | Phase::Starting { timed: true, .. } => {
            off(state, t)
        }
        Phase::Dark | Phase::Lit | Phase::Starting { timed: false, .. } | Phase::Ending { .. } => {}
    }
}

/// "Scene recall: a used, taught entry acts as On or Off by its value; any other number does
/// nothing."
///
/// A recalled number is at most 63, so it never meets an unused entry's 255.
fn scene_recall(state: &mut State, number: u8, t: u32) {
    let entry = state.scenes.iter().copied().find(|scene| scene.number == number);
    match entry {
        Some(scene) if scene.taught() && scene.value() => on(state, t),
        Some(scene) if scene.taught() => off(state, t),
        _ => {}
    }
}

/// "Learn, if enabled and the number is in the table: the entry's value becomes the present output
/// and it is taught."
fn scene_learn(state: &mut State, number: u8) {
    if state.params.scene_learning_mode_enable != 1 {
        return;
    }
    let present_output = state.phase.output();
    if let Some(scene) = state.scenes.iter_mut().find(|scene| scene.number == number) {
        scene.flags = if present_output { SCENE_TAUGHT | SCENE_VALUE } else { SCENE_TAUGHT };
    }
}

fn night_1(state: &mut State, t: u32) {
    // "Night 1, when off:"
    if state.night {
        return;
    }
    let p = state.params;
    // "night on;"
    state.night = true;
    state.phase = match state.phase {
        // "Lit becomes Timed until t+TimedOn;"
        Phase::Lit => Phase::Timed { deadline: t + p.timed_on },
        // "Ending until the earlier of d and t+TimedOn+Prewarning."
        Phase::Ending { deadline: d } => {
            Phase::Ending { deadline: min(d, t + p.timed_on + p.prewarning) }
        }
        other => other,
    };
}

/// "Night 0 clears the flag only."
fn night_0(state: &mut State) {
    state.night = false;
}

/// "Force Off or On: force stands, phase Dark or Lit."
fn force_off_or_on(state: &mut State, force: Force) {
    state.force = force;
    state.phase = if force == Force::On { Phase::Lit } else { Phase::Dark };
}

/// "Release of a standing force: set on if the output is on, else set off."
fn release(state: &mut State, t: u32) {
    if state.force == Force::None {
        return;
    }
    state.force = Force::None;
    let present_output = state.phase.output();
    set(state, present_output, t);
}

fn lock(state: &mut State) {
    // "Lock, when unlocked:"
    if state.lock {
        return;
    }
    // "the output is remembered,"
    let present_output = state.phase.output();
    state.output_at_locking = present_output;
    state.lock = true;
    // "the phase becomes Dark or Lit by BehaviourAtLocking (keep: by the present output)."
    let lit = match state.params.behaviour_at_locking {
        OFF => false,
        ON => true,
        _keep => present_output,
    };
    state.phase = if lit { Phase::Lit } else { Phase::Dark };
}

fn unlock(state: &mut State, t: u32) {
    // "Unlock, when locked:"
    if !state.lock {
        return;
    }
    state.lock = false;
    match state.force {
        // "a standing force decides the phase;"
        Force::Off => state.phase = Phase::Dark,
        Force::On => state.phase = Phase::Lit,
        // "otherwise BehaviourAtUnlocking, by set on or set off ("keep" sets the present output)."
        Force::None => {
            let output = match state.params.behaviour_at_unlocking {
                OFF => false,
                ON => true,
                AS_BEFORE_LOCKING => state.output_at_locking,
                _keep => state.phase.output(),
            };
            set(state, output, t);
        }
    }
}

/// "Bus failure from up ...: the link changes; then the mode"; "Other bus events do nothing."
fn bus_failure(state: &mut State, t: u32) {
    if state.link == Link::Up {
        state.link = Link::BusDown;
        let mode = state.params.bus_failure_mode;
        bus_mode(state, mode, t);
    }
}

/// "return from bus down: the link changes; then the mode"; "Other bus events do nothing."
fn bus_return(state: &mut State, t: u32) {
    if state.link == Link::BusDown {
        state.link = Link::Up;
        let mode = state.params.bus_return_mode;
        bus_mode(state, mode, t);
    }
}

/// "then the mode, unless lock or force stands. Keep leaves phase and timers running."
fn bus_mode(state: &mut State, mode: u8, t: u32) {
    if state.lock || state.force != Force::None {
        return;
    }
    match mode {
        OFF => set_off(state),
        ON => set_on(state, t),
        _keep => {}
    }
}

/// "Power failure, link up or bus down: the output is remembered, the phase is Dark, night, lock
/// and force clear, link power down." ... "Scenes outlive it."
fn power_failure(state: &mut State) {
    if state.link == Link::PowerDown {
        return;
    }
    state.output_at_power_failure = state.phase.output();
    state.phase = Phase::Dark;
    state.night = false;
    state.lock = false;
    state.force = Force::None;
    state.link = Link::PowerDown;
}

/// "Power return from power down: link up, set on or set off by mode. Else nothing."
fn power_return(state: &mut State, t: u32) {
    if state.link != Link::PowerDown {
        return;
    }
    state.link = Link::Up;
    let output = match state.params.power_return_mode {
        OFF => false,
        ON => true,
        _as_before_the_failure => state.output_at_power_failure,
    };
    set(state, output, t);
}

// ================================================================================================
// Records and the printout
// ================================================================================================

/// "Status octets follow document 004, 2.5.3: value 0 or 255; attributes bit 0 valid (power not
/// down), bit 1 locked, 2 forced, 3 night, 4 staircase (our reading, which decides: Timed or
/// Warning, however entered), 5 to 7 zero."
fn status(state: &State) -> (u8, u8) {
    let value = if state.phase.output() { 255 } else { 0 };
    let valid = state.link != Link::PowerDown;
    let forced = state.force != Force::None;
    let staircase = matches!(state.phase, Phase::Timed { .. } | Phase::Warning { .. });
    let attributes = u8::from(valid)
        | u8::from(state.lock) << 1
        | u8::from(forced) << 2
        | u8::from(state.night) << 3
        | u8::from(staircase) << 4;
    (value, attributes)
}

/// "Cause is the input's kind, 0 for a timer and for the start."
#[derive(Clone, Copy, Debug, PartialEq, Eq)]
pub struct Record {
    pub stamp: u32,
    pub value: u8,
    pub attributes: u8,
    pub cause: u8,
}

const CAUSE_TIMER: u8 = 0;
pub(crate) const CAUSE_START: u8 = 0;

/// "A record is 8 octets: stamp, value, attributes, cause, zero."
pub fn record_octets(record: &Record) -> [u8; 8] {
    let s = record.stamp.to_be_bytes();
    [s[0], s[1], s[2], s[3], record.value, record.attributes, record.cause, 0]
}

pub(crate) fn record_of(state: &State, stamp: u32, cause: u8) -> Record {
    let (value, attributes) = status(state);
    Record { stamp, value, attributes, cause }
}

/// "then one after each timer or input that changed value or attributes"
fn write_change(before: (u8, u8), now: &State, stamp: u32, cause: u8, tape: &mut impl Tape) {
    if status(now) != before {
        tape.record(record_of(now, stamp, cause));
    }
}

/// Where records and answers go: into vectors, or into the two lent buffers.
pub(crate) trait Tape {
    fn record(&mut self, record: Record);
    fn answer(&mut self, answer: u8);

    /// What a wall button sends; the two lent buffers have no room for it.
    fn sent(&mut self, _on: bool) {}
}

/// What a wall button sent: the index of its edge, the value, and how many records precede it.
#[derive(Clone, Copy, Debug, PartialEq, Eq)]
pub struct Sent {
    pub index: usize,
    pub on: bool,
    pub records_before: usize,
}

#[derive(Default)]
pub(crate) struct VecTape {
    pub(crate) records: Vec<Record>,
    pub(crate) answers: Vec<u8>,
    pub(crate) records_before: Vec<usize>,
    pub(crate) sends: Vec<Sent>,
}

impl Tape for VecTape {
    fn record(&mut self, record: Record) {
        self.records.push(record);
    }

    fn answer(&mut self, answer: u8) {
        self.records_before.push(self.records.len());
        self.answers.push(answer);
    }

    fn sent(&mut self, on: bool) {
        let (index, records_before) = (self.answers.len(), self.records.len());
        self.sends.push(Sent { index, on, records_before });
    }
}

/// "two lent octet buffers ... Octets past what is written stay."
pub(crate) struct LentTape<'a> {
    records: &'a mut [u8],
    answers: &'a mut [u8],
    pub(crate) record_count: usize,
    answer_count: usize,
}

impl<'a> LentTape<'a> {
    pub(crate) fn new(records: &'a mut [u8], answers: &'a mut [u8]) -> LentTape<'a> {
        LentTape { records, answers, record_count: 0, answer_count: 0 }
    }
}

impl Tape for LentTape<'_> {
    fn record(&mut self, record: Record) {
        let at = RECORD * self.record_count;
        self.records[at..at + RECORD].copy_from_slice(&record_octets(&record));
        self.record_count += 1;
    }

    fn answer(&mut self, answer: u8) {
        self.answers[self.answer_count] = answer;
        self.answer_count += 1;
    }
}

/// An accepted cue file: its parameters as a fresh state, its inputs and its end time.
pub(crate) struct Cues<'a> {
    pub(crate) fresh: State,
    pub(crate) inputs: &'a [u8],
    pub(crate) end_time: u32,
}

/// An accepted list, from the start record to the end time; gives the end state.
pub(crate) fn play(cues: &Cues, tape: &mut impl Tape) -> State {
    let mut state = cues.fresh;
    // "One record is written at the start"
    tape.record(record_of(&state, state.clock, CAUSE_START));
    // "Equal stamps keep list order."
    for octets in cues.inputs.chunks_exact(INPUT) {
        let input = decode_input(octets).expect("an accepted file has no bad input");
        let answer = take_input(&mut state, octets, input, tape);
        tape.answer(answer);
    }
    // "After the last input the clock moves to the end time."
    move_clock(&mut state, cues.end_time, tape);
    state
}

/// What the run gives, of a cue file or of a wall list; `records_before[i]` is how many records
/// precede answer i.
#[derive(Clone, Debug, PartialEq, Eq)]
pub struct Run<End = State> {
    pub code: u8,
    pub place: u16,
    pub records: Vec<Record>,
    pub answers: Vec<u8>,
    pub end: End,
    pub records_before: Vec<usize>,
    pub sends: Vec<Sent>,
}

/// A whole cue file, with the sizes in octets of the two lent buffers.
pub fn run(file: &[u8], records_len: usize, answers_len: usize) -> Run {
    run_of(accept(file, records_len, answers_len), play, state_of_a_refusal())
}

/// What a list gives that is played where it was accepted.
pub(crate) fn run_of<List, End>(
    accepted: Result<List, Refusal>,
    play: impl FnOnce(&List, &mut VecTape) -> End,
    end_of_a_refusal: End,
) -> Run<End> {
    let mut tape = VecTape::default();
    let (code, place, end) = match accepted {
        Err(refusal) => (refusal.code, refusal.place, end_of_a_refusal),
        Ok(list) => (0, 0, play(&list, &mut tape)),
    };
    let VecTape { records, answers, records_before, sends } = tape;
    Run { code, place, records, answers, end, records_before, sends }
}

/// "To C it answers one 64-bit number, code*2^48 + place*2^32 + record count"
pub(crate) fn packed(code: u8, place: u16, record_count: usize) -> u64 {
    (u64::from(code) << 48) + (u64::from(place) << 32) + record_count as u64
}

pub fn number<End>(run: &Run<End>) -> u64 {
    packed(run.code, run.place, run.records.len())
}

/// The number of a call that was refused and has written nothing.
pub(crate) fn packed_refusal(refusal: Refusal) -> u64 {
    packed(refusal.code, refusal.place, 0)
}

/// "calls the run with a file and two lent octet buffers"
pub fn run_into(file: &[u8], records: &mut [u8], answers: &mut [u8]) -> u64 {
    let accepted = accept(file, records.len(), answers.len());
    number_of(accepted, records, answers, |cues, tape| play(cues, tape))
}

/// The number of a list that is played into two lent buffers; a refused call writes nothing.
pub(crate) fn number_of<List, End>(
    accepted: Result<List, Refusal>,
    records: &mut [u8],
    answers: &mut [u8],
    play: impl FnOnce(&List, &mut LentTape) -> End,
) -> u64 {
    match accepted {
        Err(refusal) => packed_refusal(refusal),
        Ok(list) => {
            let mut tape = LentTape::new(records, answers);
            play(&list, &mut tape);
            packed(0, 0, tape.record_count)
        }
    }
}

/// "A single input, eight octets by value, returns state, answer and at most three records"
#[derive(Clone, Debug, PartialEq, Eq)]
pub struct Single {
    pub state: State,
    pub code: u8,
    pub place: u16,
    pub answer: u8,
    pub records: Vec<Record>,
}

/// "For a single input 9, 6, 7, place 0."
pub fn single(state: &State, octets: &[u8; 8]) -> Single {
    // "hands back the state it was given"; "a single input's answer and all by-value records are
    // 0 on refusal"
    let refused = |code| Single { state: *state, code, place: 0, answer: 0, records: Vec::new() };
    let input = match accept_single(sound(state), decode_input(octets), octets, state.clock) {
        Ok(input) => input,
        Err(refusal) => return refused(refusal.code),
    };
    let mut moved = *state;
    let mut tape = VecTape::default();
    let answer = take_input(&mut moved, octets, input, &mut tape);
    Single { state: moved, code: 0, place: 0, answer, records: tape.records }
}

/// "a clock move the state and at most two", of an actuator or of a pair
#[derive(Clone, Debug, PartialEq, Eq)]
pub struct Move<House = State> {
    pub state: House,
    pub code: u8,
    pub place: u16,
    pub records: Vec<Record>,
}

pub fn clock_move(state: &State, stamp: u32) -> Move {
    let bad_stamp = stamp_refused(stamp, state.clock, LAST_STAMP);
    move_of(state, sound(state), bad_stamp, |state, tape| move_clock(state, stamp, tape))
}

/// "A clock move: 9, 7."
pub(crate) fn move_of<House: Copy>(
    before: &House,
    sound: bool,
    bad_stamp: bool,
    play: impl FnOnce(&mut House, &mut VecTape),
) -> Move<House> {
    let (mut state, mut tape) = (*before, VecTape::default());
    let code = match (sound, bad_stamp) {
        (false, _) => 9,
        (true, true) => 7,
        (true, false) => 0,
    };
    if code == 0 {
        play(&mut state, &mut tape);
    }
    Move { state, code, place: 0, records: tape.records }
}

/// "Parameters alone give the fresh state." With it code and place.
pub fn fresh(parameters: &[u8]) -> (State, u8, u16) {
    match accept_fresh(parameters) {
        Err(refusal) => (state_of_a_refusal(), refusal.code, refusal.place),
        Ok(state) => (state, 0, 0),
    }
}

/// "The print program reads a file on standard input." Its buffers are never too short.
///
/// "OK: count of inputs. R: stamp, value, attributes, cause. A: input index from 0, answer.
/// E: count of records. A refused file prints one line, `NO code place`."
pub fn print(file: &[u8]) -> String {
    printed(&run(file, usize::MAX, usize::MAX))
}

/// Where a wall button sends, a line "S: index of the edge, value" stands between the records of the
/// timers before it and the telegram's own record.
pub(crate) fn printed<End>(run: &Run<End>) -> String {
    if run.code != 0 {
        return format!("NO {} {}\n", run.code, run.place);
    }
    let mut text = String::new();
    line(&mut text, "OK", &[run.answers.len() as u32]);
    let mut printed = 0;
    let mut sends = run.sends.iter().peekable();
    for (index, answer) in run.answers.iter().enumerate() {
        if let Some(sent) = sends.next_if(|sent| sent.index == index) {
            print_records(&mut text, &run.records[printed..sent.records_before]);
            printed = sent.records_before;
            line(&mut text, "S", &[index as u32, u32::from(sent.on)]);
        }
        print_records(&mut text, &run.records[printed..run.records_before[index]]);
        printed = run.records_before[index];
        line(&mut text, "A", &[index as u32, u32::from(*answer)]);
    }
    print_records(&mut text, &run.records[printed..]);
    line(&mut text, "E", &[run.records.len() as u32]);
    text
}

pub(crate) fn print_records(text: &mut String, records: &[Record]) {
    for r in records {
        let numbers = [r.stamp, u32::from(r.value), u32::from(r.attributes), u32::from(r.cause)];
        line(text, "R", &numbers);
    }
}

pub(crate) fn line(text: &mut String, word: &str, numbers: &[u32]) {
    text.push_str(word);
    for number in numbers {
        write!(text, " {}", number).expect("writing to a String cannot fail");
    }
    text.push('\n');
}

// ================================================================================================
// Refusal numbers
// ================================================================================================

pub(crate) struct Refusal {
    pub(crate) code: u8,
    pub(crate) place: u16,
}

pub(crate) fn refuse<T>(code: u8, place: u16) -> Result<T, Refusal> {
    Err(Refusal { code, place })
}

/// "Order 1, 2, 3, 4, 5; then the first bad input, 6 before 7; then 8."
pub(crate) fn accept(
    file: &[u8],
    records_len: usize,
    answers_len: usize,
) -> Result<Cues<'_>, Refusal> {
    let cues = accept_header_and_parameters(file)?;
    accept_inputs(&cues, decode_input)?;
    accept_room(cues.inputs.len() / INPUT, records_len, answers_len)?;
    Ok(cues)
}

/// Refusals 1 to 5; the inputs are not looked at.
pub(crate) fn accept_header_and_parameters(file: &[u8]) -> Result<Cues<'_>, Refusal> {
    // "1 | file under 52 octets"
    if file.len() < LEAST_FILE {
        return refuse(1, 0);
    }
    // "2 now means neither version" (document 02): "0-1 version"
    let version = match Version::of(u16_at(file, 0)) {
        Some(version) => version,
        None => return refuse(2, 0),
    };
    // "a version 2 file under 60 then gets 1" (document 02)
    if file.len() < version.inputs_at() {
        return refuse(1, 0);
    }
    // "3 | actuator count not 1": "2-3 count of actuators (1)"
    if u16_at(file, 2) != 1 {
        return refuse(3, 0);
    }
    // "4 | an offset, n, the length or the end time is not as above": "4-7 offset of parameters
    // (20); 8-11 count n of inputs (0 to 2,048); 12-15 offset of inputs (52); 16-19 end time (at
    // most 864,000). The file is exactly 52+8n octets."; "1, 4 and 5 use the version's sizes"
    // (document 02)
    let (parameters_at, n) = (u32_at(file, 4), u32_at(file, 8));
    let (inputs_at, end_time) = (u32_at(file, 12), u32_at(file, 16));
    if parameters_at as usize != HEADER
        || n > MOST_INPUTS
        || inputs_at as usize != version.inputs_at()
        || end_time > LAST_STAMP
        || file.len() != version.inputs_at() + INPUT * n as usize
    {
        return refuse(4, 0);
    }
    let (parameters, inputs) = file[HEADER..].split_at(version.parameters);
    Ok(Cues { fresh: accept_parameters(version, parameters)?, inputs, end_time })
}

/// "Parameters alone give the fresh state"; "1 | ... parameters offered alone not 32 | 0", nor 40.
pub(crate) fn accept_fresh(parameters: &[u8]) -> Result<State, Refusal> {
    match Version::of_parameters(parameters.len()) {
        Some(version) => accept_parameters(version, parameters),
        None => refuse(1, 0),
    }
}

/// "5 | parameter out of range"; otherwise the fresh state.
fn accept_parameters(version: &Version, octets: &[u8]) -> Result<State, Refusal> {
    let (times, rest) = times_and_rest(version, octets);
    if let Some(octet) = lowest_bad_octet(version, &times, rest) {
        return refuse(5, octet as u16);
    }
    let (params, scenes) = decode_parameters(version.number, times, rest);
    Ok(fresh_state(params, scenes))
}

/// "then the first bad input"
pub(crate) fn accept_inputs<Said>(
    cues: &Cues,
    decode: impl Fn(&[u8]) -> Option<Said>,
) -> Result<(), Refusal> {
    let mut stamp_before = 0;
    for (index, octets) in cues.inputs.chunks_exact(INPUT).enumerate() {
        accept_input(decode(octets), octets, index, stamp_before, cues.end_time)?;
        stamp_before = u32_at(octets, 0);
    }
    Ok(())
}

/// "6 before 7", and what an accepted input says.
pub(crate) fn accept_input<Said>(
    said: Option<Said>,
    octets: &[u8],
    index: usize,
    lowest: u32,
    highest: u32,
) -> Result<Said, Refusal> {
    match said {
        // "6 | kind, value or zero octet wrong | input index"
        None => refuse(6, index as u16),
        // "7 | stamp below the one before (or the clock), above the end time ... | input index"
        Some(_) if stamp_refused(u32_at(octets, 0), lowest, highest) => refuse(7, index as u16),
        Some(said) => Ok(said),
    }
}

/// "For a single input 9, 6, 7, place 0."
pub(crate) fn accept_single<Said>(
    sound: bool,
    said: Option<Said>,
    octets: &[u8],
    clock: u32,
) -> Result<Said, Refusal> {
    if sound {
        accept_input(said, octets, 0, clock, LAST_STAMP)
    } else {
        refuse(9, 0)
    }
}

/// "8 | a lent buffer too short": "records, at least 8(3n+3) octets, and answers, at least n", for n
/// inputs.
pub(crate) fn accept_room(n: usize, records_len: usize, answers_len: usize) -> Result<(), Refusal> {
    if records_len < RECORD * (3 * n + 3) || answers_len < n {
        return refuse(8, 0);
    }
    Ok(())
}

/// "7 | stamp below the one before (or the clock), above the end time (single input or clock move:
/// 864,000)"
pub(crate) fn stamp_refused(stamp: u32, lowest: u32, highest: u32) -> bool {
    stamp < lowest || stamp > highest
}

/// "Where no state was handed in, a refusal's state is the fresh one with TimedOn 1 second, other
/// times and modes 0, no scenes."; "(1 in a refusal's own state)" is its version (document 02).
pub fn state_of_a_refusal() -> State {
    let params = Params {
        version: 1,
        on_delay: 0,
        off_delay: 0,
        timed_on: 10,
        prewarning: 0,
        behaviour_at_locking: 0,
        behaviour_at_unlocking: 0,
        bus_failure_mode: 0,
        bus_return_mode: 0,
        power_return_mode: 0,
        scene_learning_mode_enable: 0,
    };
    fresh_state(params, [Scene { number: UNUSED, flags: 0 }; 8])
}

/// "A state keeps its version" (document 02), and the ranges are those of this version; there are
/// none of any other.
fn in_range(p: &Params, scenes: &[Scene; 8]) -> bool {
    let times = [p.on_delay, p.off_delay, p.timed_on, p.prewarning];
    ranged(p.version, &times, &rest_of(p, scenes))
}

/// Whether four times in tenths and the rest are in the ranges of this version.
pub(crate) fn ranged(version: u8, times: &[u32; 4], rest: &[u8; REST]) -> bool {
    let version = Version::of(version.into());
    version.map_or(false, |version| lowest_bad_octet(version, times, rest).is_none())
}

/// "A state is sound when its parameters and scenes are in range, ..."
pub fn sound(state: &State) -> bool {
    in_range(&state.params, &state.scenes) && can_be(state)
}

/// The rules of a sound state that follow the ranges of its parameters.
pub(crate) fn can_be(state: &State) -> bool {
    let lock_or_force = state.lock || state.force != Force::None;

    // "the clock is at most 864,000,"
    let clock_good = state.clock <= LAST_STAMP;

    // "a deadline lies 1 to 655,350 after the clock,"
    let due = |d: u32| d > state.clock && d - state.clock <= LONGEST_DELAY;
    let deadline_good = state.phase.deadline().map_or(true, due);

    // "lock or force leaves only Dark or Lit,"
    let dark_or_lit = !lock_or_force || matches!(state.phase, Phase::Dark | Phase::Lit);

    // "force without lock agrees with the phase,"
    let force_agrees = state.lock
        || match state.force {
            Force::None => true,
            Force::Off => state.phase == Phase::Dark,
            Force::On => state.phase == Phase::Lit,
        };

    // "Lit in night needs lock or force,"
    let night_good = state.phase != Phase::Lit || !state.night || lock_or_force;

    // "and power down means Dark with night, lock and force clear."
    let power_good = state.link != Link::PowerDown
        || (state.phase == Phase::Dark && !state.night && !lock_or_force);

    clock_good && deadline_good && dark_or_lit && force_agrees && night_good && power_good
}
