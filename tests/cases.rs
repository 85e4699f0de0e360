//! Writing cue files and reading what they give, for the tests of the model.
#![allow(dead_code)]

pub use crate::files::kinds::*;

use crate::files::{self, cue_file, rest_of, u32_at, CueFile, Rng, HEADER, LAYOUTS};
use crate::model::*;

pub type Cue = (u32, u8, u8);

/// The versions that are played.
pub const VERSIONS: [u8; 2] = [1, 2];

pub fn no_scenes() -> [Scene; 8] {
    [Scene { number: 255, flags: 0 }; 8]
}

/// Four times in seconds, as files of version 1 have them.
pub fn delays(on_delay: u32, off_delay: u32, timed_on: u32, prewarning: u32) -> Params {
    let in_tenths = tenths(10 * on_delay, 10 * off_delay, 10 * timed_on, 10 * prewarning);
    Params { version: 1, ..in_tenths }
}

/// Four times in tenths, as files of version 2 have them.
pub fn tenths(on_delay: u32, off_delay: u32, timed_on: u32, prewarning: u32) -> Params {
    let none = state_of_a_refusal().params;
    Params { version: 2, on_delay, off_delay, timed_on, prewarning, ..none }
}

/// "OnDelay 2, OffDelay 5, TimedOn 60, Prewarning 10, unlocking 3, other modes 0."
pub fn worked() -> Params {
    Params { behaviour_at_unlocking: 3, ..delays(2, 5, 60, 10) }
}

/// The same times, modes and learning in a file of another version.
pub fn in_version(version: u8, params: &Params) -> Params {
    Params { version, ..*params }
}

/// The parameters as they stand in a file of their version: 32 octets, or 40 in every other than 1.
pub fn parameter_octets(p: &Params, scenes: &[Scene; 8]) -> Vec<u8> {
    let layout = &LAYOUTS[usize::from(p.version != 1)];
    let modes = [
        p.behaviour_at_locking,
        p.behaviour_at_unlocking,
        p.bus_failure_mode,
        p.bus_return_mode,
        p.power_return_mode,
    ];
    let scenes = scenes.map(|scene| (scene.number, scene.flags));
    let rest = rest_of(modes, p.scene_learning_mode_enable, &scenes);
    files::parameters(layout, [p.on_delay, p.off_delay, p.timed_on, p.prewarning], &rest)
}

pub fn input((stamp, kind, value): Cue) -> [u8; 8] {
    files::input(stamp, kind, value)
}

pub fn file_of(version: u8, parameters: &[u8], end: u32, cues: &[Cue]) -> Vec<u8> {
    let inputs: Vec<[u8; 8]> = cues.iter().copied().map(input).collect();
    let inputs_at = HEADER + parameters.len();
    let numbers = [HEADER as u32, inputs.len() as u32, inputs_at as u32, end];
    cue_file([version.into(), 1], numbers, parameters, &inputs)
}

pub fn file(params: &Params, end: u32, cues: &[Cue]) -> Vec<u8> {
    file_of(params.version, &parameter_octets(params, &no_scenes()), end, cues)
}

/// Where the inputs of a file start, by its header.
pub fn inputs_at(file: &[u8]) -> usize {
    u32_at(file, 12) as usize
}

/// The parameters of a file.
pub fn parameters_in(file: &[u8]) -> &[u8] {
    &file[HEADER..inputs_at(file)]
}

/// The fresh state of these parameters, without scenes.
pub fn actuator(params: &Params) -> State {
    fresh(&parameter_octets(params, &no_scenes())).0
}

/// A record: stamp, value, attributes and cause.
pub type Written = (u32, u8, u8, u8);

pub fn record((stamp, value, attributes, cause): Written) -> Record {
    Record { stamp, value, attributes, cause }
}

/// The start record, and these.
pub fn from_the_start(records: &[Written]) -> Vec<Record> {
    [(0, 0, 1, 0)].iter().chain(records).copied().map(record).collect()
}

/// Two lent buffers, with records and answers written over their fronts.
pub fn written_over(
    lent_records: &[u8],
    lent_answers: &[u8],
    records: &[Record],
    answers: &[u8],
) -> (Vec<u8>, Vec<u8>) {
    let over = |written: Vec<u8>, lent: &[u8]| [&written, &lent[written.len()..]].concat();
    let octets = records.iter().flat_map(record_octets).collect();
    (over(octets, lent_records), over(answers.to_vec(), lent_answers))
}

/// Whether there is a cue of this kind with this value.
pub fn is_cue(kind: u8, value: u8) -> bool {
    match kind {
        ON_OFF | TIMED | LOCK | NIGHT | BUS | POWER => value <= 1,
        SCENE => value & 0x40 == 0,
        FORCED => value <= 3,
        _ => false,
    }
}

/// A whole file, with room enough.
pub fn run_all(file: &[u8]) -> Run {
    run(file, usize::MAX, usize::MAX)
}

/// The state at the end of a random show of less than so many inputs, of either version.
pub fn any_end(inputs: u64, rng: &mut Rng) -> State {
    let n = rng.below(inputs) as usize;
    let run = run_all(&CueFile::random(rng, n).octets());
    assert_eq!(run.code, 0);
    run.end
}

pub fn output(state: &State) -> bool {
    !matches!(state.phase, Phase::Dark | Phase::Starting { .. })
}
