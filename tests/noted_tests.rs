//! Tests of document 02, request 4, night and force as values: the readings one by one, each in every
//! form in which a list is played; what holds of every list; and the customer's example.
//!
//!     rustc --edition 2021 --test -O noted_tests.rs -o t && ./t
mod cases;
mod files;
mod live;
mod model;
mod wall;

use cases::*;
use files::{CueFile, Rng};
use model::*;

/// The times of the readings: timed 600, warning 100, no delays.
fn times() -> Params {
    delays(0, 0, 60, 10)
}

/// What a list gives: the records after the start record, the answers and the end state.
#[derive(Debug, PartialEq, Eq)]
struct Given {
    records: Vec<Record>,
    answers: Vec<u8>,
    end: State,
}

fn by_file(params: &Params, end: u32, cues: &[Cue]) -> Given {
    let run = run_all(&file(params, end, cues));
    assert_eq!((run.code, run.place), (0, 0));
    Given { records: run.records[1..].to_vec(), answers: run.answers, end: run.end }
}

/// A wall list in which no button is pressed.
fn by_wall_list(params: &Params, end: u32, cues: &[Cue]) -> Given {
    let list = [file(params, end, cues), vec![3; 4]].concat();
    let run = wall::wall_run(&list, usize::MAX, usize::MAX);
    assert_eq!((run.code, run.place), (0, 0));
    Given { records: run.records[1..].to_vec(), answers: run.answers, end: run.end.actuator }
}

/// Input by input.
fn by_single_inputs(params: &Params, end: u32, cues: &[Cue]) -> Given {
    let mut state = actuator(params);
    let (mut records, mut answers) = (Vec::new(), Vec::new());
    for cue in cues {
        let one = single(&state, &input(*cue));
        assert_eq!(one.code, 0);
        records.extend(one.records);
        answers.push(one.answer);
        state = one.state;
    }
    moved_to(end, Given { records, answers, end: state })
}

/// In one scene change.
fn by_change(params: &Params, end: u32, cues: &[Cue]) -> Given {
    let inputs: Vec<u8> = cues.iter().flat_map(|cue| input(*cue)).collect();
    let change = live::change(&actuator(params), &inputs, usize::MAX, usize::MAX);
    assert_eq!((change.code, change.place), (0, 0));
    moved_to(end, Given { records: change.records, answers: change.answers, end: change.state })
}

/// What was played live, and the clock move that a file has at its end.
fn moved_to(end: u32, mut given: Given) -> Given {
    let moved = clock_move(&given.end, end);
    assert_eq!(moved.code, 0);
    given.records.extend(moved.records);
    Given { end: moved.state, ..given }
}

/// The list gives these records and answers in every version and every form; the end state of
/// version 1 is handed back.
fn expect(params: &Params, end: u32, cues: &[Cue], records: &[Written], answers: &[u8]) -> State {
    let ends = VERSIONS.map(|version| {
        let params = in_version(version, params);
        let first = by_file(&params, end, cues);
        assert_eq!(first.records, records.iter().map(|r| record(*r)).collect::<Vec<Record>>());
        assert_eq!(first.answers, answers);
        for form in [by_wall_list, by_single_inputs, by_change] {
            assert_eq!(form(&params, end, cues), first);
        }
        first.end
    });
    assert_eq!(State { params: ends[0].params, ..ends[1] }, ends[0]);
    ends[0]
}

/// The phases in which the same list stands at several end times.
fn phases_at<const N: usize>(params: &Params, cues: &[Cue], ends: [u32; N]) -> [Phase; N] {
    ends.map(|end| by_file(params, end, cues).end.phase)
}

// ================================================================================================
// The readings
// ================================================================================================

#[test]
fn reading_4_1_the_time_runs_from_the_release() {
    let cues = [(10, FORCED, 3), (20, NIGHT, 1), (30, FORCED, 0)];
    let records = [(10, 255, 5, 4), (20, 255, 13, 6), (30, 255, 25, 4), (730, 0, 9, 0)];
    expect(&times(), 1000, &cues, &records, &[0, 6, 0]);
    assert_eq!(
        phases_at(&times(), &cues, [30, 629, 630, 729, 730]),
        [
            Phase::Timed { deadline: 630 },
            Phase::Timed { deadline: 630 },
            Phase::Warning { deadline: 730 },
            Phase::Warning { deadline: 730 },
            Phase::Dark
        ]
    );
    // while the force stands the noted night has no time
    assert_eq!(phases_at(&times(), &cues[..2], [20, 10_000]), [Phase::Lit, Phase::Lit]);
    // a day that is noted after it: the release finds no night
    let cues = [(10, FORCED, 3), (20, NIGHT, 1), (25, NIGHT, 0), (30, FORCED, 1)];
    let records = [(10, 255, 5, 4), (20, 255, 13, 6), (25, 255, 5, 6), (30, 255, 1, 4)];
    let end = expect(&times(), 1000, &cues, &records, &[0, 6, 6, 0]);
    assert_eq!(end.phase, Phase::Lit);
    // and a house that was forced dark stays dark, by night
    let cues = [(10, FORCED, 2), (20, NIGHT, 1), (30, FORCED, 0)];
    let records = [(10, 0, 5, 4), (20, 0, 13, 6), (30, 0, 9, 4)];
    expect(&times(), 1000, &cues, &records, &[0, 6, 0]);
}

#[test]
fn reading_4_2_a_release_under_lock_is_noted() {
    let params = Params { behaviour_at_unlocking: OFF, ..times() };
    for no_control in [0, 1] {
        let cues = [(0, FORCED, 3), (10, LOCK, 1), (20, FORCED, no_control), (30, LOCK, 0)];
        let records = [(0, 255, 5, 4), (10, 255, 7, 5), (20, 255, 3, 4), (30, 0, 1, 5)];
        expect(&params, 1000, &cues, &records, &[0, 0, 6, 0]);
    }
    // without it the force decides
    let cues = [(0, FORCED, 3), (10, LOCK, 1), (30, LOCK, 0)];
    let records = [(0, 255, 5, 4), (10, 255, 7, 5), (30, 255, 5, 5)];
    expect(&params, 1000, &cues, &records, &[0, 0, 0]);
}

#[test]
fn reading_4_3_after_a_noted_release_unlocking_goes_by_its_mode() {
    let lock_off = Params { behaviour_at_locking: OFF, ..times() };
    let cues = [(0, FORCED, 3), (10, LOCK, 1), (20, FORCED, 1), (30, LOCK, 0)];
    for (unlocking, value) in [(KEEP, 0), (OFF, 0), (ON, 255), (AS_BEFORE_LOCKING, 255)] {
        let params = Params { behaviour_at_unlocking: unlocking, ..lock_off };
        let records = [(0, 255, 5, 4), (10, 0, 7, 5), (20, 0, 3, 4), (30, value, 1, 5)];
        expect(&params, 1000, &cues, &records, &[0, 0, 6, 0]);
    }
}

#[test]
fn reading_4_4_the_newest_force_decides() {
    let cues = [(0, FORCED, 3), (10, LOCK, 1), (20, FORCED, 2), (30, LOCK, 0)];
    let records = [(0, 255, 5, 4), (10, 255, 7, 5), (30, 0, 5, 5)];
    for unlocking in [KEEP, OFF, ON, AS_BEFORE_LOCKING] {
        let params = Params { behaviour_at_unlocking: unlocking, ..times() };
        let end = expect(&params, 1000, &cues, &records, &[0, 0, 6, 0]);
        assert_eq!((end.force, end.phase), (Force::Off, Phase::Dark));
    }
    let cues = [(10, LOCK, 1), (20, FORCED, 2), (25, FORCED, 3), (30, LOCK, 0), (40, FORCED, 0)];
    let records = [(10, 0, 3, 5), (20, 0, 7, 4), (30, 255, 5, 5), (40, 255, 1, 4)];
    expect(&times(), 1000, &cues, &records, &[0, 6, 6, 0, 0]);
}

#[test]
fn reading_4_5_a_force_under_force_is_taken() {
    let cues = [(0, FORCED, 2), (5, FORCED, 3), (6, FORCED, 3), (7, FORCED, 2)];
    let records = [(0, 0, 5, 4), (5, 255, 5, 4), (7, 0, 5, 4)];
    expect(&times(), 1000, &cues, &records, &[0, 0, 1, 0]);
}

#[test]
fn reading_4_6_different_is_told_by_the_value_held() {
    let cues = [
        (0, LOCK, 1),
        (5, FORCED, 1),
        (10, FORCED, 3),
        (15, FORCED, 3),
        (20, FORCED, 2),
        (21, FORCED, 2),
        (25, FORCED, 0),
        (30, FORCED, 1),
        (31, NIGHT, 0),
        (35, NIGHT, 1),
        (40, NIGHT, 1),
        (45, NIGHT, 0),
        (50, NIGHT, 0),
    ];
    // Off after On is different, and its attributes are not
    let records = [(0, 0, 3, 5), (10, 0, 7, 4), (25, 0, 3, 4), (35, 0, 11, 6), (45, 0, 3, 6)];
    expect(&times(), 1000, &cues, &records, &[0, 1, 6, 1, 6, 1, 6, 1, 1, 6, 1, 6, 1]);
    let cues = [(0, FORCED, 3), (5, NIGHT, 0), (10, NIGHT, 1), (15, NIGHT, 1), (20, NIGHT, 0)];
    let records = [(0, 255, 5, 4), (10, 255, 13, 6), (20, 255, 5, 6)];
    expect(&times(), 1000, &cues, &records, &[0, 1, 6, 1, 6]);
}

#[test]
fn reading_4_7_the_attributes_show_noted_values_at_once() {
    let cues = [(10, LOCK, 1), (20, FORCED, 3), (30, NIGHT, 1)];
    let records = [(10, 0, 3, 5), (20, 0, 7, 4), (30, 0, 15, 6)];
    expect(&times(), 1000, &cues, &records, &[0, 6, 6]);
    // a staircase is not shown: the phase does not change
    let cues = [(0, TIMED, 1), (10, LOCK, 1), (30, NIGHT, 1)];
    let records = [(0, 255, 17, 2), (10, 255, 3, 5), (30, 255, 11, 6)];
    expect(&times(), 10_000, &cues, &records, &[0, 0, 6]);
}

#[test]
fn reading_4_8_bus_and_power_down_still_drop() {
    let params = Params { behaviour_at_unlocking: ON, ..times() };
    let dropped = [(20, NIGHT, 1), (25, FORCED, 3), (26, FORCED, 0)];
    let cues =
        [&[(0, LOCK, 1), (10, BUS, 0)], &dropped[..], &[(30, BUS, 1), (40, LOCK, 0)]].concat();
    let end =
        expect(&params, 1000, &cues, &[(0, 0, 3, 5), (40, 255, 1, 5)], &[0, 0, 4, 4, 4, 0, 0]);
    assert_eq!((end.phase, end.night), (Phase::Lit, false));
    // under a force
    let cues = [(0, FORCED, 3), (10, BUS, 0), (20, NIGHT, 1), (30, BUS, 1), (40, FORCED, 0)];
    let end = expect(&times(), 1000, &cues, &[(0, 255, 5, 4), (40, 255, 1, 4)], &[0, 0, 4, 0, 0]);
    assert_eq!((end.phase, end.night), (Phase::Lit, false));
    // what was noted before the bus failed stays noted
    let cues =
        [(0, LOCK, 1), (5, NIGHT, 1), (10, BUS, 0), (20, NIGHT, 0), (30, BUS, 1), (40, LOCK, 0)];
    let records = [(0, 0, 3, 5), (5, 0, 11, 6), (40, 255, 25, 5), (740, 0, 9, 0)];
    expect(&params, 1000, &cues, &records, &[0, 6, 0, 4, 0, 0]);
    // power down leaves neither lock nor force, and drops with 5
    let cues = [&[(0, LOCK, 1), (10, POWER, 0)], &dropped[..], &[(30, POWER, 1)]].concat();
    let records = [(0, 0, 3, 5), (10, 0, 0, 8), (30, 0, 1, 8)];
    expect(&params, 1000, &cues, &records, &[0, 0, 5, 5, 5, 0]);
}

#[test]
fn reading_4_9_a_night_is_noted_whichever_stands() {
    let cues = [(0, FORCED, 3), (5, NIGHT, 1), (10, LOCK, 1), (20, FORCED, 0), (30, LOCK, 0)];
    let records = [
        (0, 255, 5, 4),
        (5, 255, 13, 6),
        (10, 255, 15, 5),
        (20, 255, 11, 4),
        (30, 255, 25, 5),
        (730, 0, 9, 0),
    ];
    expect(&times(), 1000, &cues, &records, &[0, 6, 0, 6, 0]);
    assert_eq!(phases_at(&times(), &cues, [30]), [Phase::Timed { deadline: 630 }]);
    // noted under the lock, the force still stands at unlock: its release sets on
    let cues = [(0, FORCED, 3), (10, LOCK, 1), (20, NIGHT, 1), (30, LOCK, 0), (40, FORCED, 0)];
    let records = [
        (0, 255, 5, 4),
        (10, 255, 7, 5),
        (20, 255, 15, 6),
        (30, 255, 13, 5),
        (40, 255, 25, 4),
        (740, 0, 9, 0),
    ];
    expect(&times(), 1000, &cues, &records, &[0, 0, 6, 0, 0]);
}

#[test]
fn reading_4_10_old_shows_change_too() {
    let cues = [(0, ON_OFF, 1), (10, LOCK, 1), (20, NIGHT, 1), (30, LOCK, 0)];
    let records =
        [(0, 255, 1, 1), (10, 255, 3, 5), (20, 255, 11, 6), (30, 255, 25, 5), (730, 0, 9, 0)];
    let end = expect(&times(), 1000, &cues, &records, &[0, 0, 6, 0]);
    assert_eq!(end.params.version, 1);
}

#[test]
fn reading_4_11_every_other_kind_is_dropped_as_before() {
    let others = [
        (5, ON_OFF, 1),
        (6, ON_OFF, 0),
        (7, TIMED, 1),
        (8, TIMED, 0),
        (9, SCENE, 5),
        (9, SCENE, 133),
    ];
    let held = |hold: Cue| [&[hold], &others[..]].concat();
    expect(&times(), 1000, &held((0, LOCK, 1)), &[(0, 0, 3, 5)], &[0, 3, 3, 3, 3, 3, 3]);
    expect(&times(), 1000, &held((0, FORCED, 2)), &[(0, 0, 5, 4)], &[0, 2, 2, 2, 2, 2, 2]);
    // a noted force is no barrier of its own while the lock stands; after it, it is
    let cues = [(0, LOCK, 1), (1, FORCED, 2), (2, ON_OFF, 1), (3, LOCK, 0), (4, ON_OFF, 1)];
    let records = [(0, 0, 3, 5), (1, 0, 7, 4), (3, 0, 5, 5)];
    expect(&times(), 1000, &cues, &records, &[0, 6, 3, 0, 2]);
}

#[test]
fn reading_4_12_the_rules_of_a_sound_state_stay() {
    let locked = State { lock: true, force: Force::On, phase: Phase::Dark, ..actuator(&times()) };
    assert!(sound(&locked));
    assert!(!sound(&State { lock: false, ..locked }));
    let unlocked = single(&State { lock: false, ..locked }, &input((0, NIGHT, 1)));
    assert_eq!((unlocked.code, unlocked.state), (9, State { lock: false, ..locked }));
    // a note keeps every sound state sound, and so does what ends the lock or the force
    let mut notes = 0;
    for (lock, night) in [(true, false), (true, true), (false, false), (false, true)] {
        for (phase, force) in [Phase::Dark, Phase::Lit]
            .into_iter()
            .flat_map(|phase| [Force::None, Force::Off, Force::On].map(|force| (phase, force)))
        {
            let state = State { lock, night, force, phase, ..actuator(&times()) };
            if !sound(&state) {
                continue;
            }
            for cue in [(FORCED, 0), (FORCED, 2), (FORCED, 3), (NIGHT, 0), (NIGHT, 1)] {
                let noted = single(&state, &input((5, cue.0, cue.1)));
                assert!(sound(&noted.state));
                notes += usize::from(noted.answer == 6);
                for end in [(LOCK, 0), (FORCED, 0), (POWER, 0)] {
                    assert!(sound(&single(&noted.state, &input((9, end.0, end.1))).state));
                }
            }
        }
    }
    // three other values under each of 12 locks, the other night under each of 4 forces
    assert_eq!(notes, 12 * 3 + 4);
}

#[test]
fn reading_4_13_a_dropped_input_leaves_no_trace() {
    let mut rng = Rng::new(413);
    let mut struck = 0;
    for _ in 0..20_000 {
        let n = files::length(&mut rng);
        let mut show = CueFile::random(&mut rng, n);
        let whole = run_all(&show.octets());
        // all of them, or some
        let percent = if rng.chance(50) { 100 } else { 50 };
        let stays: Vec<bool> =
            whole.answers.iter().map(|a| !(2..=5).contains(a) || !rng.chance(percent)).collect();
        let mut left = stays.iter();
        show.inputs.retain(|_| *left.next().unwrap());
        show.count = show.inputs.len() as u32;
        struck += n - show.inputs.len();
        let rest = run_all(&show.octets());
        let answers = whole.answers.iter().zip(&stays).filter(|(_, stays)| **stays);
        assert!(answers.map(|(answer, _)| answer).eq(&rest.answers));
        assert_eq!((rest.records, rest.end), (whole.records, whole.end));
    }
    assert!(struck > 20_000, "{}", struck);
}

#[test]
fn reading_4_14_dark_is_due_from_the_release_on() {
    // L is 0 + 600 + 100: from after the inputs stamped 30 night stands, and neither lock nor force
    let cues = [(10, FORCED, 3), (20, NIGHT, 1), (30, FORCED, 0)];
    let on_at = |end| output(&by_file(&times(), end, &cues).end);
    assert_eq!([on_at(30), on_at(729), on_at(730)], [true, true, false]);
}

#[test]
fn reading_4_15_a_power_failure_clears_noted_values() {
    let params = Params { power_return_mode: ON, ..times() };
    let cues = [(0, LOCK, 1), (10, FORCED, 3), (20, NIGHT, 1), (30, POWER, 0), (40, POWER, 1)];
    let records = [(0, 0, 3, 5), (10, 0, 7, 4), (20, 0, 15, 6), (30, 0, 0, 8), (40, 255, 1, 8)];
    let end = expect(&params, 10_000, &cues, &records, &[0, 6, 6, 0, 0]);
    assert_eq!(
        (end.phase, end.night, end.lock, end.force),
        (Phase::Lit, false, false, Force::None)
    );
    // under a force
    let cues = [(0, FORCED, 3), (20, NIGHT, 1), (30, POWER, 0), (40, POWER, 1)];
    let records = [(0, 255, 5, 4), (20, 255, 13, 6), (30, 0, 0, 8), (40, 255, 1, 8)];
    let end = expect(&params, 10_000, &cues, &records, &[0, 6, 0, 0]);
    assert_eq!((end.phase, end.night, end.force), (Phase::Lit, false, Force::None));
}

// ================================================================================================
// The newest values alone count
// ================================================================================================

/// What holds the house: while it stands, a night, and under a lock a force too, is noted.
#[derive(Clone, Copy, Debug, PartialEq, Eq)]
enum Hold {
    Lock,
    Force,
}

impl Hold {
    fn begins(self, rng: &mut Rng) -> (u8, u8) {
        match self {
            Hold::Lock => (LOCK, 1),
            Hold::Force => (FORCED, 2 + rng.below(2) as u8),
        }
    }

    /// By its own end, or by a power failure.
    fn ends(self, by_power: bool) -> (u8, u8) {
        match self {
            _ if by_power => (POWER, 0),
            Hold::Lock => (LOCK, 0),
            Hold::Force => (FORCED, 1),
        }
    }

    fn stands(self, state: &State) -> bool {
        match self {
            Hold::Lock => state.lock,
            Hold::Force => state.force != Force::None && !state.lock,
        }
    }

    fn any_note(self, rng: &mut Rng) -> (u8, u8) {
        if self == Hold::Lock && rng.chance(50) {
            (FORCED, rng.below(4) as u8)
        } else {
            (NIGHT, rng.below(2) as u8)
        }
    }
}

/// A random state on the way through a show, with the link up and its clock not near the last stamp.
fn any_state(rng: &mut Rng) -> Option<State> {
    let end = any_end(12, rng);
    (end.link == Link::Up && end.clock < 100_000).then_some(end)
}

fn take(state: &mut State, stamp: u32, (kind, value): (u8, u8)) -> Single {
    let one = single(state, &input((stamp, kind, value)));
    assert_eq!(one.code, 0);
    *state = one.state;
    one
}

/// Inputs that leave a hold standing: dropped ones, bus events, and what is the hold's own again.
fn any_common(hold: Hold, rng: &mut Rng) -> (u8, u8) {
    match rng.below(8) {
        0..=1 => (ON_OFF, rng.below(2) as u8),
        2 => (TIMED, rng.below(2) as u8),
        3 => (SCENE, rng.below(8) as u8),
        4 => (BUS, 0),
        5..=6 => (BUS, 1),
        _ => hold.begins(rng),
    }
}

/// From one state on the same inputs, between which each of two houses is told other values.
fn play_notes(states: &mut [State; 2], hold: Hold, rng: &mut Rng) {
    for _ in 0..1 + rng.below(4) {
        let stamp = states[0].clock.max(states[1].clock) + rng.below(40) as u32;
        let common = any_common(hold, rng);
        for state in states.iter_mut() {
            take(state, stamp, common);
            for _ in 0..rng.below(4) {
                let later = state.clock + rng.below(9) as u32;
                if state.link == Link::Up {
                    let note = hold.any_note(rng);
                    assert!(matches!(take(state, later, note).answer, 1 | 6));
                }
            }
            assert!(hold.stands(state));
        }
    }
}

/// The notes that give the second house the values of the first.
fn agree(states: &mut [State; 2]) {
    let [first, second] = states;
    let stamp = first.clock.max(second.clock);
    take(first, stamp, (BUS, 1));
    take(second, stamp, (BUS, 1));
    if first.night != second.night {
        assert_eq!(take(second, stamp, (NIGHT, u8::from(first.night))).answer, 6);
    }
    if first.force != second.force {
        let value = match first.force {
            Force::None => 0,
            Force::Off => 2,
            Force::On => 3,
        };
        assert_eq!(take(second, stamp, (FORCED, value)).answer, 6);
    }
}

/// What a house gives from the end of its hold on: each step, and the clock move at the last.
fn from_the_end_on(mut state: State, inputs: &[[u8; 8]]) -> (Vec<Single>, Move) {
    let mut steps = Vec::new();
    for octets in inputs {
        let one = single(&state, octets);
        state = one.state;
        steps.push(one);
    }
    (steps, clock_move(&state, LAST_STAMP))
}

#[test]
fn lists_that_agree_in_the_newest_values_go_on_alike() {
    let mut rng = Rng::new(404);
    // by hold, and by whether a power failure ended it; and those that did not agree and went on apart
    let mut alike = [[0; 2]; 2];
    let mut apart = [0; 2];
    for _ in 0..40_000 {
        let hold = if rng.chance(50) { Hold::Lock } else { Hold::Force };
        let mut state = match any_state(&mut rng) {
            Some(state) => state,
            None => continue,
        };
        let (stamp, begins) = (state.clock + rng.below(50) as u32, hold.begins(&mut rng));
        take(&mut state, stamp, begins);
        if !hold.stands(&state) {
            continue;
        }
        let mut states = [state; 2];
        play_notes(&mut states, hold, &mut rng);
        let by_power = rng.chance(20);
        let end = states[0].clock.max(states[1].clock) + rng.below(50) as u32;
        let (kind, value) = hold.ends(by_power);
        let mut inputs = vec![files::input(end, kind, value)];
        let widest = files::widest_gap(&mut rng);
        inputs.extend(files::inputs_from(end, widest, rng.below(12) as usize, &mut rng));
        let [first, second] = states.map(|state| from_the_end_on(state, &inputs));
        apart[hold as usize] += usize::from(first != second);
        agree(&mut states);
        let [first, second] = states.map(|state| from_the_end_on(state, &inputs));
        assert_eq!(first, second);
        alike[hold as usize][usize::from(by_power)] += 1;
    }
    assert!(alike.iter().flatten().all(|count| *count > 500), "{:?}", alike);
    assert!(apart.iter().all(|count| *count > 500), "{:?}", apart);
}

// ================================================================================================
// The customer's example: "a night order sent during a force must hold at its release"
// ================================================================================================

/// The house is held, told that it is night, and let go; nothing follows. It is lit then exactly where
/// it is said, by the states before and in the hold, and goes dark at the end of one timed light.
fn held_over_nightfall(seed: u64, hold: Hold, lit_at_the_end: fn(&State, &State) -> bool) {
    let mut rng = Rng::new(seed);
    let mut met = [0; 2];
    for _ in 0..20_000 {
        let mut state = match any_state(&mut rng) {
            Some(state) => state,
            None => continue,
        };
        let own = state.params.timed_on + state.params.prewarning;
        let begins = state.clock + rng.below(3_000) as u32;
        let nightfall = begins + rng.below(3_000) as u32;
        let ends = nightfall + rng.below(3_000) as u32;
        if ends + own > LAST_STAMP || hold.stands(&state) {
            continue;
        }
        let before = clock_move(&state, begins).state;
        take(&mut state, begins, hold.begins(&mut rng));
        if !hold.stands(&state) {
            continue;
        }
        let held = state;
        take(&mut state, nightfall, (NIGHT, 1));
        assert_eq!(state, State { clock: nightfall, night: true, ..held });
        let let_go = take(&mut state, ends, hold.ends(false));
        if state.force != Force::None {
            // a force from before the lock still stands
            continue;
        }
        let lit = lit_at_the_end(&before, &held);
        met[usize::from(lit)] += 1;
        assert_eq!(output(&state), lit);
        assert_eq!(let_go.answer, 0);
        let (value, attributes) = if lit { (255, 25) } else { (0, 9) };
        let cause = hold.ends(false).0;
        assert_eq!(let_go.records, [record((ends, value, attributes, cause))]);
        let moved = clock_move(&state, LAST_STAMP);
        let dark = record((ends + own, 0, 9, 0));
        assert_eq!(moved.records, if lit { vec![dark] } else { vec![] });
        if lit {
            assert!(output(&clock_move(&state, ends + own - 1).state));
            assert!(!output(&clock_move(&state, ends + own).state));
        }
    }
    assert!(met.iter().all(|count| *count > 1_000), "{:?}", met);
}

#[test]
fn a_night_during_a_force_holds_at_its_release() {
    held_over_nightfall(405, Hold::Force, |_, held| held.force == Force::On);
}

#[test]
fn a_night_during_a_lock_holds_at_its_end() {
    held_over_nightfall(406, Hold::Lock, |before, held| match held.params.behaviour_at_unlocking {
        KEEP => output(held),
        OFF => false,
        ON => true,
        _as_before_locking => output(before),
    });
}
