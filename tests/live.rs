//! The house that is played live, as an independent model: the image of a state, a whole scene
//! change in one call (document 02, request 3), and what the live calls of include/house.h give.
//!
//! Written from documents 01 and 02 and from include/house.h alone, on top of the actuator of
//! model.rs. Each rule stands under the sentence it renders; "document 02" without more is its
//! request 3. Where that can be read in two ways, the comment over the rule says which way is taken.
#![allow(dead_code)]

use crate::model::{
    accept, accept_fresh, accept_input, accept_room, can_be, decode_input, decode_parameters,
    four_u32, move_clock, number_of, packed, packed_refusal, play, ranged, refuse, rest_of, sound,
    stamp_refused, take_input, u32_at, Force, LentTape, Link, Phase, Record, Refusal, State, Tape,
    VecTape, INPUT, LAST_STAMP, RECORD, REST,
};

// ================================================================================================
// The image of a state
// ================================================================================================

/// "A state is HOUSE_STATE_SIZE octets, its image."
pub const STATE_OCTETS: usize = 56;

pub type Image = [u8; STATE_OCTETS];

/// "0-3 OnDelay, 4-7 OffDelay, 8-11 TimedOnDuration, 12-15 PrewarningDuration: in tenths of a
/// second, whatever the version"; "16-20 the five modes, 21 scene learning, 22-23 zero, 24-39 the
/// scene table as it stands: as in parameters of version 2"
const REST_AT: usize = 16;

/// "40 version (1, 2)", "41 night (0, 1)", "42 lock (0, 1)", "43 force", "44 link", "45 the output
/// remembered at locking", "46 the output remembered at power failure", "47 phase", "48-51 clock, a
/// stamp", "52-55 the moment at which the phase becomes another by itself"
const VERSION_AT: usize = REST_AT + REST;
const FLAGS_AT: usize = 41;
const CLOCK_AT: usize = 48;
const DEADLINE_AT: usize = 52;

/// "Numbers are most significant octet first; every octet has one meaning"
pub fn image(state: &State) -> Image {
    let p = &state.params;
    let mut octets = [0; STATE_OCTETS];
    let times = [p.on_delay, p.off_delay, p.timed_on, p.prewarning];
    for (place, time) in octets.chunks_exact_mut(4).zip(times) {
        place.copy_from_slice(&time.to_be_bytes());
    }
    octets[REST_AT..VERSION_AT].copy_from_slice(&rest_of(p, &state.scenes));
    octets[VERSION_AT] = p.version;
    let (phase, deadline) = phase_numbers(state.phase);
    octets[FLAGS_AT..CLOCK_AT].copy_from_slice(&[
        u8::from(state.night),
        u8::from(state.lock),
        force_number(state.force),
        link_number(state.link),
        u8::from(state.output_at_locking),
        u8::from(state.output_at_power_failure),
        phase,
    ]);
    octets[CLOCK_AT..DEADLINE_AT].copy_from_slice(&state.clock.to_be_bytes());
    octets[DEADLINE_AT..].copy_from_slice(&deadline.to_be_bytes());
    octets
}

/// "Octets that are no image of a sound state are refused ...: a wrong length, an octet without
/// meaning, parameters out of range for the version, or a state that no actuator can be in."
pub fn state_of(octets: &[u8]) -> Option<State> {
    let octets: &Image = octets.try_into().ok()?;
    let in_range = ranged(octets[VERSION_AT], &four_u32(octets), rest_in(octets));
    said_by(octets).filter(|state| in_range && can_be(state))
}

fn rest_in(octets: &Image) -> &[u8; REST] {
    octets[REST_AT..VERSION_AT].try_into().expect("an image has the rest of the parameters")
}

/// The state that an image says, sound or not; none where one of its flags, its force, its link or its
/// phase has no meaning.
pub fn said_by(octets: &Image) -> Option<State> {
    let (params, scenes) = decode_parameters(octets[VERSION_AT], four_u32(octets), rest_in(octets));
    let [night, lock, force, link, at_locking, at_power_failure, phase]: [u8; 7] =
        octets[FLAGS_AT..CLOCK_AT].try_into().ok()?;
    Some(State {
        clock: u32_at(octets, CLOCK_AT),
        phase: phase_of(phase, u32_at(octets, DEADLINE_AT))?,
        night: flag_of(night)?,
        lock: flag_of(lock)?,
        force: force_of(force)?,
        link: link_of(link)?,
        output_at_locking: flag_of(at_locking)?,
        output_at_power_failure: flag_of(at_power_failure)?,
        scenes,
        params,
    })
}

/// "(0, 1)"
pub fn flag_of(octet: u8) -> Option<bool> {
    match octet {
        0 => Some(false),
        1 => Some(true),
        _ => None,
    }
}

/// "43 force (0 none, 2 off, 3 on)"
fn force_number(force: Force) -> u8 {
    match force {
        Force::None => 0,
        Force::Off => 2,
        Force::On => 3,
    }
}

fn force_of(octet: u8) -> Option<Force> {
    match octet {
        0 => Some(Force::None),
        2 => Some(Force::Off),
        3 => Some(Force::On),
        _ => None,
    }
}

/// "44 link (0 up, 1 bus down, 2 power down)"
fn link_number(link: Link) -> u8 {
    match link {
        Link::Up => 0,
        Link::BusDown => 1,
        Link::PowerDown => 2,
    }
}

fn link_of(octet: u8) -> Option<Link> {
    match octet {
        0 => Some(Link::Up),
        1 => Some(Link::BusDown),
        2 => Some(Link::PowerDown),
        _ => None,
    }
}

/// "enum house_phase", and "the moment at which the phase becomes another by itself; 0 in HOUSE_DARK and
/// HOUSE_LIT, which do not"
fn phase_numbers(phase: Phase) -> (u8, u32) {
    match phase {
        Phase::Dark => (0, 0),
        Phase::Lit => (1, 0),
        Phase::Starting { timed: false, deadline } => (2, deadline),
        Phase::Starting { timed: true, deadline } => (3, deadline),
        Phase::Timed { deadline } => (4, deadline),
        Phase::Warning { deadline } => (5, deadline),
        Phase::Ending { deadline } => (6, deadline),
    }
}

fn phase_of(octet: u8, deadline: u32) -> Option<Phase> {
    match (octet, deadline) {
        (0, 0) => Some(Phase::Dark),
        (1, 0) => Some(Phase::Lit),
        (2, deadline) => Some(Phase::Starting { timed: false, deadline }),
        (3, deadline) => Some(Phase::Starting { timed: true, deadline }),
        (4, deadline) => Some(Phase::Timed { deadline }),
        (5, deadline) => Some(Phase::Warning { deadline }),
        (6, deadline) => Some(Phase::Ending { deadline }),
        _ => None,
    }
}

// ================================================================================================
// A whole scene change in one call
// ================================================================================================

/// "up to 256 input octet groups"
pub const MOST_GROUPS: usize = 256;

/// What a change gives by value. Where an input was refused, state, records and answers are what
/// stands before it.
#[derive(Clone, Debug, PartialEq, Eq)]
pub struct Change {
    pub state: State,
    pub code: u8,
    pub place: u16,
    pub records: Vec<Record>,
    pub answers: Vec<u8>,
}

/// "One call takes a state and up to 256 input octet groups", with the sizes in octets of the two
/// lent buffers.
pub fn change(state: &State, inputs: &[u8], records_len: usize, answers_len: usize) -> Change {
    let mut state = *state;
    let mut tape = VecTape::default();
    let played = if sound(&state) {
        accept_groups(inputs, records_len, answers_len)
            .and_then(|()| play_groups(&mut state, inputs, &mut tape))
    } else {
        refuse(9, 0)
    };
    let (code, place) = code_and_place(&played);
    Change { state, code, place, records: tape.records, answers: tape.answers }
}

/// "Refusals: 9, then 12 for more than 256 or a length not a multiple of 8, then 8 as for the run
/// (with n groups), then 6 or 7 as met."
///
/// This is 12 and 8: 8 comes before any input is looked at, and asks for the room of a run of n
/// inputs, though no start record is written.
fn accept_groups(inputs: &[u8], records_len: usize, answers_len: usize) -> Result<(), Refusal> {
    if inputs.len() % INPUT != 0 || inputs.len() > INPUT * MOST_GROUPS {
        return refuse(12, 0);
    }
    accept_room(inputs.len() / INPUT, records_len, answers_len)
}

/// "gives the state, answers and records that single inputs would give, joined in order. At a
/// refused input it stops: what went before stands in state and buffers ..., and the place is that
/// input's index."
///
/// The index is that in this call, from 0. As single inputs, none is played before it has been
/// looked at: a refused one does not move the clock, and there is no end time.
fn play_groups(state: &mut State, inputs: &[u8], tape: &mut impl Tape) -> Result<(), Refusal> {
    for (index, octets) in inputs.chunks_exact(INPUT).enumerate() {
        let input = accept_input(decode_input(octets), octets, index, state.clock, LAST_STAMP)?;
        let answer = take_input(state, octets, input, tape);
        tape.answer(answer);
    }
    Ok(())
}

fn code_and_place(played: &Result<(), Refusal>) -> (u8, u16) {
    match played {
        Ok(()) => (0, 0),
        Err(refusal) => (refusal.code, refusal.place),
    }
}

// ================================================================================================
// The live calls for C
// ================================================================================================

/// "At most two records are written; the room lent for them is at least HOUSE_MOVE_ROOM octets."
pub const MOVE_ROOM: usize = 2 * RECORD;

/// "The fresh state of parameters alone ... is written to state. Refusals: 1, 5 with the place of
/// the lowest bad octet, then 8 for a state_len that is not HOUSE_STATE_SIZE. The count is 0."
pub fn fresh_into(parameters: &[u8], state: &mut [u8]) -> u64 {
    let accepted = accept_fresh(parameters).and_then(|fresh| {
        accept_state_room(state.len())?;
        Ok(fresh)
    });
    match accepted {
        Err(refusal) => packed_refusal(refusal),
        Ok(fresh) => {
            state.copy_from_slice(&image(&fresh));
            packed(0, 0, 0)
        }
    }
}

/// "Plays inputs to a state, one after the other: a whole scene change, or a single input."
pub fn change_into(state: &mut [u8], inputs: &[u8], records: &mut [u8], answers: &mut [u8]) -> u64 {
    let mut played_on = match state_of(state) {
        Some(handed_in) => handed_in,
        None => return packed(9, 0, 0),
    };
    if let Err(refusal) = accept_groups(inputs, records.len(), answers.len()) {
        return packed_refusal(refusal);
    }
    let mut tape = LentTape::new(records, answers);
    let played = play_groups(&mut played_on, inputs, &mut tape);
    state.copy_from_slice(&image(&played_on));
    let (code, place) = code_and_place(&played);
    packed(code, place, tape.record_count)
}

/// "Moves the clock of a state to a stamp ... Refusals: 9, then 7 (below the clock, or above
/// HOUSE_LAST_STAMP), then 8; place 0."
pub fn move_into(state: &mut [u8], stamp: u32, records: &mut [u8]) -> u64 {
    let mut moved = match state_of(state) {
        Some(handed_in) => handed_in,
        None => return packed(9, 0, 0),
    };
    if stamp_refused(stamp, moved.clock, LAST_STAMP) {
        return packed(7, 0, 0);
    }
    if records.len() < MOVE_ROOM {
        return packed(8, 0, 0);
    }
    let mut tape = LentTape::new(records, &mut []);
    move_clock(&mut moved, stamp, &mut tape);
    state.copy_from_slice(&image(&moved));
    packed(0, 0, tape.record_count)
}

/// "As house_run, and the image of the state at the end time is written to state ... Refusals: those
/// of house_run; a state_len that is not HOUSE_STATE_SIZE is refused with 8."
///
/// 8 is the last refusal of the run, and its place is 0, so that the two need no order.
pub fn run_to_into(file: &[u8], state: &mut [u8], records: &mut [u8], answers: &mut [u8]) -> u64 {
    let accepted = accept(file, records.len(), answers.len()).and_then(|cues| {
        accept_state_room(state.len())?;
        Ok(cues)
    });
    number_of(accepted, records, answers, |cues, tape| {
        state.copy_from_slice(&image(&play(cues, tape)))
    })
}

/// "8 for a state_len that is not HOUSE_STATE_SIZE"
fn accept_state_room(state_len: usize) -> Result<(), Refusal> {
    if state_len != STATE_OCTETS {
        return refuse(8, 0);
    }
    Ok(())
}
