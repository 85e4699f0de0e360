//! Tests of the independent model, each group under the section of document 01 it follows, and those
//! of document 02, request 2, under that request.
//!
//!     rustc --edition 2021 --test -O model_tests.rs -o t && ./t
mod cases;
mod files;
mod model;

use cases::*;
use files::{resized, stamp_of, with, CueFile, Rng};
use model::*;

/// The records after the start record, and the answers.
fn expect(file: &[u8], records: &[Written], answers: &[u8]) {
    let run = run_all(file);
    assert_eq!((run.code, run.place), (0, 0));
    assert_eq!(run.records, from_the_start(records));
    assert_eq!(run.answers, answers);
}

/// The same, with the parameters of the worked cases.
fn worked_gives(cues: &[Cue], records: &[Written], answers: &[u8]) {
    expect(&file(&worked(), 1000, cues), records, answers);
}

// ================================================================================================
// The printout
// ================================================================================================

#[test]
fn printout_of_document_01() {
    let cues = [(0, TIMED, 1), (700, ON_OFF, 1), (700, ON_OFF, 0)];
    let text = print(&file(&delays(0, 0, 60, 10), 1000, &cues));
    assert_eq!(
        text,
        "OK 3\nR 0 0 1 0\nR 0 255 17 2\nA 0 0\nR 700 0 1 0\nR 700 255 1 1\nA 1 0\nR 700 0 1 1\n\
         A 2 0\nE 5\n"
    );
}

#[test]
fn printout_of_no_inputs_and_of_timers_after_the_last_answer() {
    assert_eq!(print(&file(&worked(), 0, &[])), "OK 0\nR 0 0 1 0\nE 1\n");
    assert_eq!(
        print(&file(&worked(), 864_000, &[(0, TIMED, 1)])),
        "OK 1\nR 0 0 1 0\nA 0 0\nR 20 255 17 0\nR 720 0 1 0\nE 3\n"
    );
}

#[test]
fn printout_of_a_refused_file() {
    assert_eq!(print(&[]), "NO 1 0\n");
    assert_eq!(print(&file(&worked(), 100, &[(50, 1, 1), (49, 1, 1)])), "NO 7 1\n");
    assert_eq!(print(&file(&worked(), 100, &[(50, 1, 2)])), "NO 6 0\n");
}

// ================================================================================================
// Worked on paper
// ================================================================================================

#[test]
fn a() {
    worked_gives(&[(0, ON_OFF, 1)], &[(20, 255, 1, 0)], &[0]);
    let state = single(&actuator(&worked()), &input((0, ON_OFF, 1))).state;
    let at_19 = clock_move(&state, 19).state;
    let at_20 = clock_move(&at_19, 20).state;
    assert!(!output(&at_19) && output(&at_20));
}

#[test]
fn b() {
    worked_gives(&[(0, ON_OFF, 1), (15, ON_OFF, 1)], &[(20, 255, 1, 0)], &[0, 1]);
}

#[test]
fn c() {
    worked_gives(&[(0, ON_OFF, 1), (19, ON_OFF, 0)], &[], &[0, 0]);
}

#[test]
fn d() {
    worked_gives(&[(0, ON_OFF, 1), (20, ON_OFF, 0)], &[(20, 255, 1, 0), (70, 0, 1, 0)], &[0, 0]);
}

#[test]
fn e() {
    worked_gives(
        &[(0, ON_OFF, 1), (100, ON_OFF, 0), (140, ON_OFF, 0)],
        &[(20, 255, 1, 0), (150, 0, 1, 0)],
        &[0, 0, 1],
    );
}

#[test]
fn f() {
    worked_gives(&[(0, TIMED, 1)], &[(20, 255, 17, 0), (720, 0, 1, 0)], &[0]);
}

#[test]
fn g() {
    worked_gives(
        &[(0, TIMED, 1), (700, ON_OFF, 0)],
        &[(20, 255, 17, 0), (700, 255, 1, 1), (720, 0, 1, 0)],
        &[0, 0],
    );
}

#[test]
fn h() {
    let cues = [(0, ON_OFF, 1), (50, FORCED, 2), (60, ON_OFF, 1), (80, FORCED, 0)];
    worked_gives(&cues, &[(20, 255, 1, 0), (50, 0, 5, 4), (80, 0, 1, 4)], &[0, 0, 2, 0]);
}

#[test]
fn i() {
    let cues = [(0, ON_OFF, 1), (100, LOCK, 1), (120, ON_OFF, 0), (200, LOCK, 0)];
    worked_gives(&cues, &[(20, 255, 1, 0), (100, 255, 3, 5), (200, 255, 1, 5)], &[0, 0, 3, 0]);
}

#[test]
fn j() {
    worked_gives(
        &[(0, ON_OFF, 1), (100, NIGHT, 1)],
        &[(20, 255, 1, 0), (100, 255, 25, 6), (800, 0, 9, 0)],
        &[0, 0],
    );
}

#[test]
fn run_only_night_shortens_a_long_off_delay() {
    let params = Params { off_delay: 6_000, ..worked() };
    let f = file(&params, 10_000, &[(0, ON_OFF, 1), (100, ON_OFF, 0), (200, NIGHT, 1)]);
    expect(&f, &[(20, 255, 1, 0), (200, 255, 9, 6), (900, 0, 9, 0)], &[0, 0, 0]);
}

#[test]
fn run_only_bus_failure_keeps_the_timers() {
    worked_gives(
        &[(0, TIMED, 1), (50, BUS, 0), (60, ON_OFF, 1)],
        &[(20, 255, 17, 0), (720, 0, 1, 0)],
        &[0, 0, 4],
    );
}

#[test]
fn run_only_power_failure_and_return() {
    worked_gives(
        &[(0, ON_OFF, 1), (50, POWER, 0), (90, POWER, 1)],
        &[(20, 255, 1, 0), (50, 0, 0, 8), (90, 255, 1, 8)],
        &[0, 0, 0],
    );
}

#[test]
fn run_only_falling_stamps() {
    let run = run_all(&file(&worked(), 1000, &[(50, ON_OFF, 1), (49, ON_OFF, 1)]));
    assert_eq!((run.code, run.place), (7, 1));
    assert_eq!(number(&run), 7 << 48 | 1 << 32);
}

#[test]
fn the_end_state_stands_at_the_end_time() {
    let run = run_all(&file(&worked(), 1000, &[(0, ON_OFF, 1), (100, NIGHT, 1)]));
    assert_eq!(run.end.clock, 1000);
    assert_eq!(run.end.phase, Phase::Dark);
    assert!(run.end.night);
    let run = run_all(&file(&worked(), 750, &[(0, ON_OFF, 1), (100, NIGHT, 1)]));
    assert_eq!(run.end.clock, 750);
    assert_eq!(run.end.phase, Phase::Warning { deadline: 800 });
}

#[test]
fn seen_slip_an_unlock_that_forgets_a_standing_force() {
    let cues = [(0, FORCED, 3), (10, LOCK, 1), (20, ON_OFF, 0), (30, LOCK, 0), (40, FORCED, 1)];
    let params = Params { behaviour_at_locking: 1, behaviour_at_unlocking: 1, ..worked() };
    let f = file(&params, 1000, &cues);
    expect(
        &f,
        &[(0, 255, 5, 4), (10, 0, 7, 5), (30, 255, 5, 5), (40, 255, 1, 4)],
        &[0, 0, 3, 0, 0],
    );
}

#[test]
fn ties_run_in_list_order_after_due_timers() {
    // Off then On at the stamp where the lamp goes dark by itself, and the other way round
    let params = delays(0, 0, 60, 10);
    let f = file(&params, 1000, &[(0, TIMED, 1), (700, ON_OFF, 0), (700, ON_OFF, 1)]);
    expect(&f, &[(0, 255, 17, 2), (700, 0, 1, 0), (700, 255, 1, 1)], &[0, 1, 0]);
    let f = file(&params, 1000, &[(0, TIMED, 1), (700, ON_OFF, 1), (700, ON_OFF, 0)]);
    expect(&f, &[(0, 255, 17, 2), (700, 0, 1, 0), (700, 255, 1, 1), (700, 0, 1, 1)], &[0, 0, 0]);
}

#[test]
fn a_stopped_input_still_moves_the_clock() {
    let state = single(&actuator(&worked()), &input((0, TIMED, 1))).state;
    let state = single(&state, &input((0, BUS, 0))).state;
    let stopped = single(&state, &input((800, ON_OFF, 1)));
    assert_eq!(stopped.answer, 4);
    assert_eq!(stopped.records, [record((20, 255, 17, 0)), record((720, 0, 1, 0))]);
    assert_eq!(stopped.state, State { clock: 800, phase: Phase::Dark, ..state });
}

// ================================================================================================
// What each order does, phase by phase
// ================================================================================================

/// OnDelay 20, OffDelay 30, TimedOn 40, Prewarning 50 seconds: with t = 1100 below, t+OnDelay is 1300,
/// t+OffDelay 1400, t+TimedOn 1500, t+TimedOn+Prewarning 2000.
fn table() -> State {
    State { clock: 1000, ..actuator(&delays(20, 30, 40, 50)) }
}

fn steady(deadline: u32) -> Phase {
    Phase::Starting { timed: false, deadline }
}

fn starting_timed(deadline: u32) -> Phase {
    Phase::Starting { timed: true, deadline }
}

fn timed(deadline: u32) -> Phase {
    Phase::Timed { deadline }
}

fn warning(deadline: u32) -> Phase {
    Phase::Warning { deadline }
}

fn ending(deadline: u32) -> Phase {
    Phase::Ending { deadline }
}

const DARK: Phase = Phase::Dark;
const LIT: Phase = Phase::Lit;

/// A cue to a state gives this state and this answer.
fn gives(before: &State, cue: Cue, wanted: State, answer: u8) -> Single {
    let got = single(before, &input(cue));
    assert_eq!((got.state, got.answer), (wanted, answer), "{:?} to {:?}", cue, before);
    got
}

/// Nothing but the clock changes.
fn idles(before: &State, cue: Cue) {
    gives(before, cue, State { clock: cue.0, ..*before }, 1);
}

/// The order at 1100 turns `before` (with phase `from`) into the same state with phase `to`,
/// answering 0 or 1 by whether that differs.
fn phases(before: &State, kind: u8, value: u8, rows: &[(Phase, Phase)]) {
    for (from, to) in rows {
        let before = State { phase: *from, ..*before };
        let wanted = State { clock: 1100, phase: *to, ..before };
        let got = gives(&before, (1100, kind, value), wanted, u8::from(from == to));
        assert_eq!((got.code, got.place), (0, 0), "{:?}", from);
        assert!(sound(&got.state));
    }
}

#[test]
fn order_on() {
    phases(
        &table(),
        ON_OFF,
        1,
        &[
            (DARK, steady(1300)),
            (LIT, LIT),
            (steady(1600), steady(1600)),
            (steady(1150), steady(1150)),
            (starting_timed(1600), steady(1600)),
            (timed(1600), LIT),
            (warning(1600), LIT),
            (ending(1600), LIT),
        ],
    );
    let mut night = table();
    night.night = true;
    phases(
        &night,
        ON_OFF,
        1,
        &[
            (DARK, steady(1300)),
            (steady(1600), steady(1600)),
            (starting_timed(1600), steady(1600)),
            (timed(1600), timed(1500)),
            (timed(1500), timed(1500)),
            (warning(1600), timed(1500)),
            (ending(1600), timed(1500)),
        ],
    );
    let mut at_once = table();
    at_once.params.on_delay = 0;
    phases(&at_once, ON_OFF, 1, &[(DARK, LIT), (steady(1600), steady(1600))]);
    at_once.night = true;
    phases(&at_once, ON_OFF, 1, &[(DARK, timed(1500))]);
}

#[test]
fn order_timed_start() {
    let mut state = table();
    for night in [false, true] {
        state.night = night;
        phases(
            &state,
            TIMED,
            1,
            &[
                (DARK, starting_timed(1300)),
                (steady(1600), starting_timed(1600)),
                (starting_timed(1600), starting_timed(1600)),
                (timed(1600), timed(1500)),
                (timed(1200), timed(1500)),
                (timed(1500), timed(1500)),
                (warning(1600), timed(1500)),
                (ending(1600), timed(1500)),
            ],
        );
    }
    phases(&table(), TIMED, 1, &[(LIT, timed(1500))]);
    state.params.on_delay = 0;
    for night in [false, true] {
        state.night = night;
        phases(&state, TIMED, 1, &[(DARK, timed(1500)), (steady(1600), starting_timed(1600))]);
    }
}

#[test]
fn order_off() {
    let far = [
        (DARK, DARK),
        (LIT, ending(1400)),
        (steady(1600), DARK),
        (starting_timed(1600), DARK),
        (timed(1600), ending(1400)),
        (warning(1600), ending(1400)),
        (ending(1600), ending(1400)),
        (warning(1200), ending(1200)),
        (ending(1200), ending(1200)),
        (ending(1400), ending(1400)),
    ];
    phases(&table(), ON_OFF, 0, &far);
    let mut state = table();
    state.params.prewarning = 100;
    phases(&state, ON_OFF, 0, &[(timed(1150), ending(1250)), (timed(1350), ending(1400))]);
    state.params.prewarning = 0;
    phases(&state, ON_OFF, 0, &[(timed(1150), ending(1150)), (timed(1450), ending(1400))]);
    state.params.off_delay = 0;
    phases(
        &state,
        ON_OFF,
        0,
        &[
            (DARK, DARK),
            (LIT, DARK),
            (steady(1600), DARK),
            (timed(1600), DARK),
            (warning(1600), DARK),
            (ending(1600), DARK),
        ],
    );
}

#[test]
fn order_timed_stop() {
    phases(
        &table(),
        TIMED,
        0,
        &[
            (DARK, DARK),
            (LIT, LIT),
            (steady(1600), steady(1600)),
            (starting_timed(1600), DARK),
            (timed(1600), ending(1400)),
            (warning(1600), ending(1400)),
            (warning(1200), ending(1200)),
            (ending(1600), ending(1600)),
        ],
    );
    let mut state = table();
    state.params.off_delay = 0;
    phases(&state, TIMED, 0, &[(timed(1600), DARK), (warning(1600), DARK), (LIT, LIT)]);
    phases(&state, TIMED, 0, &[(ending(1600), ending(1600))]);
}

#[test]
fn order_scene_recall() {
    let mut state = table();
    state.scenes[0] = Scene { number: 5, flags: 3 }; // on, taught
    state.scenes[3] = Scene { number: 63, flags: 2 }; // off, taught
    state.scenes[7] = Scene { number: 0, flags: 1 }; // on, not taught
    phases(&state, SCENE, 5, &[(DARK, steady(1300)), (timed(1600), LIT), (LIT, LIT)]);
    phases(&state, SCENE, 63, &[(DARK, DARK), (timed(1600), ending(1400)), (LIT, ending(1400))]);
    for number in [0, 1, 62] {
        phases(&state, SCENE, number, &[(DARK, DARK), (timed(1600), timed(1600)), (LIT, LIT)]);
    }
}

#[test]
fn order_scene_learn() {
    let mut before = table();
    before.params.scene_learning_mode_enable = 1;
    before.scenes[2] = Scene { number: 7, flags: 1 };
    for (phase, flags) in [
        (DARK, 2),
        (LIT, 3),
        (steady(1600), 2),
        (starting_timed(1600), 2),
        (timed(1600), 3),
        (warning(1600), 3),
        (ending(1600), 3),
    ] {
        before.phase = phase;
        let mut wanted = State { clock: 1100, ..before };
        wanted.scenes[2].flags = flags;
        let learned = gives(&before, (1100, SCENE, 128 + 7), wanted, 0);
        assert!(learned.records.is_empty());
        idles(&learned.state, (1100, SCENE, 128 + 7));
        // not in the table
        assert_eq!(single(&before, &input((1100, SCENE, 128 + 8))).answer, 1);
        // not enabled
        let mut disabled = before;
        disabled.params.scene_learning_mode_enable = 0;
        idles(&disabled, (1100, SCENE, 128 + 7));
    }
}

#[test]
fn order_night() {
    let off = table();
    let rows = [
        (DARK, DARK),
        (LIT, timed(1500)),
        (steady(1600), steady(1600)),
        (starting_timed(1600), starting_timed(1600)),
        (timed(1600), timed(1600)),
        (warning(1600), warning(1600)),
        (ending(1600), ending(1600)),
        (ending(2000), ending(2000)),
        (ending(2100), ending(2000)),
    ];
    for (from, to) in rows {
        let before = State { phase: from, ..off };
        let night = State { clock: 1100, phase: to, night: true, ..before };
        gives(&before, (1100, NIGHT, 1), night, 0);
        // "Night 0 clears the flag only."
        gives(&night, (1100, NIGHT, 0), State { night: false, ..night }, 0);
        // night 0 when off, night 1 when on
        assert_eq!(single(&before, &input((1100, NIGHT, 0))).answer, 1);
    }
    let on = State { night: true, ..off };
    let same = [DARK, timed(1600), ending(2100)].map(|phase| (phase, phase));
    phases(&on, NIGHT, 1, &same);
}

#[test]
fn starting_meets_night_at_its_deadline() {
    let night = State { night: true, phase: steady(1200), ..table() };
    assert_eq!(clock_move(&night, 1200).state.phase, timed(1600));
    let day = State { night: false, ..night };
    assert_eq!(clock_move(&day, 1200).state.phase, LIT);
    let timed_day = State { phase: starting_timed(1200), ..day };
    assert_eq!(clock_move(&timed_day, 1200).state.phase, timed(1600));
}

#[test]
fn order_force() {
    for phase in [DARK, LIT, steady(1600), timed(1600), warning(1600), ending(1600)] {
        let before = State { phase, ..table() };
        let on = State { clock: 1100, force: Force::On, phase: LIT, ..before };
        let off = State { clock: 1100, force: Force::Off, phase: DARK, ..before };
        gives(&before, (1100, FORCED, 3), on, 0);
        gives(&on, (1100, FORCED, 2), off, 0);
        idles(&off, (1200, FORCED, 2));
        for no_control in [0, 1] {
            gives(&on, (1100, FORCED, no_control), State { force: Force::None, ..on }, 0);
            gives(&off, (1100, FORCED, no_control), State { force: Force::None, ..off }, 0);
            // nothing to release: phase and timers run on
            idles(&before, (1100, FORCED, no_control));
        }
    }
    // release in night
    let forced = State { night: true, force: Force::On, phase: LIT, ..table() };
    let freed = State { clock: 1100, force: Force::None, phase: timed(1500), ..forced };
    gives(&forced, (1100, FORCED, 0), freed, 0);
}

#[test]
fn order_lock_and_unlock() {
    for phase in [DARK, LIT, steady(1600), timed(1600), warning(1600), ending(1600)] {
        let was = output(&State { phase, ..table() });
        for locking in 0..=2 {
            let mut before = State { phase, ..table() };
            before.params.behaviour_at_locking = locking;
            let locked_lit = [was, false, true][usize::from(locking)];
            let locked_phase = if locked_lit { LIT } else { DARK };
            let locked = State {
                clock: 1100,
                phase: locked_phase,
                lock: true,
                output_at_locking: was,
                ..before
            };
            gives(&before, (1100, LOCK, 1), locked, 0);
            // the remembered output stays the one of the first locking
            idles(&locked, (1100, LOCK, 1));
            for unlocking in 0..=3 {
                for night in [false, true] {
                    for force in [Force::None, Force::Off, Force::On] {
                        let mut held = State { night, force, ..locked };
                        held.params.behaviour_at_unlocking = unlocking;
                        let lit = match force {
                            Force::None => [locked_lit, false, true, was][usize::from(unlocking)],
                            Force::Off => false,
                            Force::On => true,
                        };
                        let phase = match (lit, night && force == Force::None) {
                            (false, _) => DARK,
                            (true, false) => LIT,
                            (true, true) => timed(1600),
                        };
                        let wanted = State { clock: 1200, phase, lock: false, ..held };
                        gives(&held, (1200, LOCK, 0), wanted, 0);
                        assert!(sound(&wanted));
                    }
                }
            }
            // unlock when unlocked
            idles(&before, (1100, LOCK, 0));
        }
    }
}

#[test]
fn order_bus() {
    for phase in [DARK, LIT, steady(1600), timed(1600), warning(1600), ending(1600)] {
        for night in [false, true] {
            if night && phase == LIT {
                continue;
            }
            for mode in 0..=2 {
                let lit = if night { timed(1500) } else { LIT };
                let wanted_phase = [phase, DARK, lit][usize::from(mode)];
                for (link, value, other) in
                    [(Link::Up, 0, Link::BusDown), (Link::BusDown, 1, Link::Up)]
                {
                    let mut before = State { phase, night, link, ..table() };
                    // the other mode must not matter
                    before.params.bus_failure_mode = if value == 0 { mode } else { 1 };
                    before.params.bus_return_mode = if value == 1 { mode } else { 1 };
                    let wanted = State { clock: 1100, link: other, phase: wanted_phase, ..before };
                    gives(&before, (1100, BUS, value), wanted, 0);
                    // failure when down, return when up
                    idles(&before, (1100, BUS, 1 - value));
                }
            }
        }
    }
    // "unless lock or force stands"
    for (lock, force) in [(true, Force::None), (false, Force::On), (true, Force::Off)] {
        let mut before = State { phase: LIT, lock, force, ..table() };
        before.params.bus_failure_mode = 1;
        let wanted = State { clock: 1100, link: Link::BusDown, ..before };
        gives(&before, (1100, BUS, 0), wanted, 0);
    }
}

#[test]
fn order_power() {
    for phase in [DARK, LIT, steady(1600), timed(1600), warning(1600), ending(1600)] {
        let was = output(&State { phase, ..table() });
        for link in [Link::Up, Link::BusDown] {
            let mut before = State { phase, link, night: phase != LIT, ..table() };
            before.scenes[0] = Scene { number: 3, flags: 3 };
            let failed = State {
                clock: 1100,
                phase: DARK,
                night: false,
                link: Link::PowerDown,
                output_at_power_failure: was,
                ..before
            };
            gives(&before, (1100, POWER, 0), failed, 0);
            // power return without failure
            idles(&before, (1100, POWER, 1));
            // failure again
            idles(&failed, (1150, POWER, 0));
            for mode in 0..=2 {
                let mut down = failed;
                down.params.power_return_mode = mode;
                let lit = [was, false, true][usize::from(mode)];
                let phase = if lit { LIT } else { DARK };
                let wanted = State { clock: 1200, link: Link::Up, phase, ..down };
                gives(&down, (1200, POWER, 1), wanted, 0);
            }
        }
    }
    // lock and force clear
    for (lock, force) in [(true, Force::None), (false, Force::On), (true, Force::Off)] {
        let before = State { phase: LIT, lock, force, ..table() };
        let got = single(&before, &input((1100, POWER, 0))).state;
        assert!(!got.lock && got.force == Force::None && got.phase == DARK);
        assert!(got.output_at_power_failure);
    }
}

#[test]
fn barriers() {
    let up = State { phase: DARK, ..table() };
    let force = State { force: Force::Off, ..up };
    let lock = State { lock: true, ..up };
    let lock_and_force = State { force: Force::Off, ..lock };
    let bus = State { link: Link::BusDown, ..up };
    let bus_and_all = State { link: Link::BusDown, ..lock_and_force };
    let power = State { link: Link::PowerDown, ..up };
    // by kind: taken (0), noted (6), or dropped with this answer
    let rows: [(&State, [u8; 8]); 7] = [
        (&up, [0; 8]),
        (&force, [2, 2, 2, 0, 0, 6, 0, 0]),
        (&lock, [3, 3, 3, 6, 0, 6, 0, 0]),
        (&lock_and_force, [3, 3, 3, 6, 0, 6, 0, 0]),
        (&bus, [4, 4, 4, 4, 4, 4, 0, 0]),
        (&bus_and_all, [4, 4, 4, 4, 4, 4, 0, 0]),
        (&power, [5, 5, 5, 5, 5, 5, 5, 0]),
    ];
    for (state, stops) in rows {
        assert!(sound(state));
        for kind in 1..=8 {
            for cue in [(1100, kind, 0), (1100, kind, 1)] {
                let dropped = State { clock: 1100, ..*state };
                match stops[usize::from(kind) - 1] {
                    0 => assert!(single(state, &input(cue)).answer <= 1, "{:?} {:?}", cue, state),
                    6 => {
                        let noted = match kind {
                            FORCED => State { force: Force::None, ..dropped },
                            _ => State { night: cue.2 == 1, ..dropped },
                        };
                        gives(state, cue, noted, if noted == dropped { 1 } else { 6 });
                    }
                    stop => assert!(gives(state, cue, dropped, stop).records.is_empty()),
                }
            }
        }
    }
}

// ================================================================================================
// Timers
// ================================================================================================

#[test]
fn a_long_gap_runs_all_three_due_timers() {
    let state = State { phase: starting_timed(1200), ..table() };
    let got = clock_move(&state, 864_000);
    assert_eq!(got.records, [record((1200, 255, 17, 0)), record((2100, 0, 1, 0))]);
    assert_eq!(got.state, State { clock: 864_000, phase: DARK, ..state });
    let got = single(&state, &input((2100, NIGHT, 1)));
    assert_eq!(
        got.records,
        [record((1200, 255, 17, 0)), record((2100, 0, 1, 0)), record((2100, 0, 9, 6))]
    );
    assert_eq!(clock_move(&state, 2099).state.phase, warning(2100));
    assert_eq!(clock_move(&state, 1599).state.phase, timed(1600));
    assert_eq!(clock_move(&state, 1199).state.phase, starting_timed(1200));
}

#[test]
fn no_prewarning_goes_straight_to_dark() {
    let mut state = State { phase: timed(1200), ..table() };
    state.params.prewarning = 0;
    let got = clock_move(&state, 1200);
    assert_eq!((got.state.phase, got.records), (DARK, vec![record((1200, 0, 1, 0))]));
}

#[test]
fn the_longest_delays_fit() {
    let params = delays(65_535, 65_535, 65_535, 65_535);
    let f = file(&params, 864_000, &[(0, TIMED, 1), (864_000, ON_OFF, 0)]);
    let run = run_all(&f);
    assert_eq!(run.records[1..], [record((655_350, 255, 17, 0)), record((864_000, 255, 1, 1))]);
    assert_eq!(run.end.phase, ending(864_000 + 655_350));
    assert!(sound(&run.end));
}

// ================================================================================================
// Refusals
// ================================================================================================

fn refused(file: &[u8], code: u8, place: u16) {
    let run = run_all(file);
    assert_eq!((run.code, run.place), (code, place));
    assert!(run.records.is_empty() && run.answers.is_empty() && run.records_before.is_empty());
    assert_eq!(run.end, state_of_a_refusal());
    assert_eq!(number(&run), u64::from(code) << 48 | u64::from(place) << 32);
    let (mut records, mut answers) = (vec![0xA5; 100_000], vec![0x5A; 5_000]);
    assert_eq!(run_into(file, &mut records, &mut answers), number(&run));
    assert!(records.iter().all(|o| *o == 0xA5) && answers.iter().all(|o| *o == 0x5A));
    assert_eq!(print(file), format!("NO {} {}\n", code, place));
}

fn good(version: u8) -> Vec<u8> {
    let cues = [(10, ON_OFF, 1), (20, ON_OFF, 0), (20, NIGHT, 1)];
    file(&in_version(version, &worked()), 1000, &cues)
}

#[test]
fn the_state_of_a_refusal() {
    let state = state_of_a_refusal();
    let mut octets = [0; 32];
    octets[5] = 1;
    for entry in 0..8 {
        octets[16 + 2 * entry] = 255;
    }
    assert_eq!(fresh(&octets), (state, 0, 0));
    assert!(sound(&state));
}

#[test]
fn refusal_1() {
    for version in VERSIONS {
        let good = good(version);
        for length in 0..52 {
            refused(&good[..length], 1, 0);
        }
    }
    refused(&[0xFF; 51], 1, 0);
    for length in [0, 1, 31, 33, 39, 41, 64] {
        assert_eq!(fresh(&vec![0; length]), (state_of_a_refusal(), 1, 0));
    }
}

#[test]
fn refusals_2_and_3() {
    for version in VERSIONS {
        let good = good(version);
        for other in [0, 3, 255] {
            refused(&with(&good, 1, other), 2, 0);
        }
        refused(&with(&good, 0, 1), 2, 0);
        for count in [0, 2, 255] {
            refused(&with(&good, 3, count), 3, 0);
        }
        refused(&with(&good, 2, 1), 3, 0);
        refused(&with(&with(&good, 3, 2), 1, 3), 2, 0);
        refused(&with(&with(&good, 3, 2), 7, 21), 3, 0);
    }
}

#[test]
fn refusal_4() {
    for version in VERSIONS {
        let good = good(version);
        for octet in 4..16 {
            refused(&with(&good, octet, good[octet] ^ 1), 4, 0);
            refused(&with(&good, octet, good[octet] ^ 0x80), 4, 0);
        }
        refused(&with(&good, 16, 1), 4, 0);
        refused(&good[..good.len() - 1], 4, 0);
        refused(&good[..inputs_at(&good)], 4, 0);
        refused(&resized(&good, good.len() + 1), 4, 0);
        let worked = in_version(version, &worked());
        refused(&file(&worked, 864_001, &[]), 4, 0);
        assert_eq!(run_all(&file(&worked, 864_000, &[])).code, 0);
        assert_eq!(run_all(&file(&worked, 10, &[(1, ON_OFF, 1); 2048])).code, 0);
        refused(&file(&worked, 10, &[(1, ON_OFF, 1); 2049]), 4, 0);
        // before 5
        refused(&with(&with(&good, 7, 21), inputs_at(&good) - 1, 9), 4, 0);
    }
}

fn bad_parameters(version: u8, octets: &[u8], place: usize) {
    let place = place as u16;
    assert_eq!(fresh(octets), (state_of_a_refusal(), 5, place));
    refused(&file_of(version, octets, 1000, &[]), 5, place);
    // before 6 and 7
    refused(&file_of(version, octets, 1000, &[(2000, 9, 9)]), 5, place);
}

/// The parameters of the worked cases, and the octet at which their modes start.
fn worked_octets(version: u8) -> (Vec<u8>, usize) {
    (
        parameter_octets(&in_version(version, &worked()), &no_scenes()),
        [8, 16][usize::from(version) - 1],
    )
}

#[test]
fn refusal_5_the_times_of_version_1_are_any_but_timed_on_0() {
    let (good, _) = worked_octets(1);
    for octet in 0..8 {
        assert_eq!(fresh(&with(&good, octet, 255)).1, 0);
    }
    bad_parameters(1, &with(&good, 5, 0), 4);
    assert_eq!(fresh(&with(&with(&good, 5, 0), 4, 1)).1, 0);
}

#[test]
fn refusal_5_the_modes_and_the_zero_octets() {
    for version in VERSIONS {
        let (good, modes) = worked_octets(version);
        for (mode, most) in [2, 3, 2, 2, 2, 1, 0, 0].into_iter().enumerate() {
            let octet = modes + mode;
            assert_eq!(fresh(&with(&good, octet, most)).1, 0);
            bad_parameters(version, &with(&good, octet, most + 1), octet);
            bad_parameters(version, &with(&good, octet, 255), octet);
        }
    }
}

#[test]
fn refusal_5_scenes() {
    for version in VERSIONS {
        let (good, modes) = worked_octets(version);
        for entry in 0..8 {
            let at = modes + 8 + 2 * entry;
            for number in [0, 63] {
                let used = with(&good, at, number);
                for flags in 0..=3 {
                    assert_eq!(fresh(&with(&used, at + 1, flags)).1, 0);
                }
                for flags in [4, 8, 128, 255] {
                    bad_parameters(version, &with(&used, at + 1, flags), at + 1);
                }
            }
            for number in [64, 128, 254] {
                bad_parameters(version, &with(&good, at, number), at);
            }
            // an unused entry with flags
            for flags in [1, 2, 3, 4, 255] {
                bad_parameters(version, &with(&good, at + 1, flags), at + 1);
            }
            // a repeated scene: the later entry's number
            for earlier in (modes + 8..at).step_by(2) {
                let twice = with(&with(&good, at, 9), earlier, 9);
                bad_parameters(version, &twice, at);
                bad_parameters(version, &with(&twice, at + 1, 3), at);
                bad_parameters(version, &with(&twice, earlier + 1, 4), earlier + 1);
            }
        }
    }
}

#[test]
fn refusal_5_the_lowest_of_several() {
    for version in VERSIONS {
        let (good, modes) = worked_octets(version);
        let last = good.len() - 1;
        let scene = with(&good, last, 1);
        bad_parameters(version, &scene, last);
        let locking = with(&scene, modes, 3);
        bad_parameters(version, &locking, modes);
        // TimedOn 0
        let mut times = locking;
        times[modes / 2..3 * modes / 4].fill(0);
        bad_parameters(version, &times, modes / 2);
    }
}

#[test]
fn refusal_6_every_kind_and_value() {
    for params in VERSIONS.map(|version| in_version(version, &worked())) {
        for kind in 0..=255 {
            for value in 0..=255 {
                let good = is_cue(kind, value);
                let code = if good { 0 } else { 6 };
                let got = single(&actuator(&params), &input((0, kind, value)));
                assert_eq!((got.code, got.place), (code, 0));
                let got = run_all(&file(&params, 1000, &[(0, 1, 1), (0, kind, value)]));
                assert_eq!((got.code, got.place), (code, u16::from(!good)));
            }
        }
    }
}

#[test]
fn refusal_6_the_zero_octets() {
    for version in VERSIONS {
        let (good, state) = (good(version), actuator(&in_version(version, &worked())));
        for octet in [6, 7] {
            for value in [1, 128] {
                for index in 0..3 {
                    let at = inputs_at(&good) + 8 * index + octet;
                    refused(&with(&good, at, value), 6, index as u16);
                }
                let octets = with(&input((0, 1, 1)), octet, value).try_into().unwrap();
                assert_eq!(single(&state, &octets).code, 6);
            }
        }
    }
}

#[test]
fn refusal_7() {
    refused(&file(&worked(), 1000, &[(0, 1, 1), (50, 1, 1), (49, 1, 1)]), 7, 2);
    refused(&file(&worked(), 1000, &[(1001, 1, 1)]), 7, 0);
    refused(&file(&worked(), 1000, &[(1000, 1, 1), (1001, 1, 1)]), 7, 1);
    refused(&file(&worked(), 1000, &[(0, 1, 1), (u32::MAX, 1, 1)]), 7, 1);
    assert_eq!(run_all(&file(&worked(), 1000, &[(1000, 1, 1), (1000, 1, 0)])).code, 0);
    let state = table();
    for (stamp, code) in [(999, 7), (1000, 0), (864_000, 0), (864_001, 7), (u32::MAX, 7), (0, 7)] {
        let got = single(&state, &input((stamp, ON_OFF, 1)));
        assert_eq!((got.code, got.place), (code, 0));
        if code != 0 {
            assert_eq!((got.state, got.answer, got.records.len()), (state, 0, 0));
        }
        let got = clock_move(&state, stamp);
        assert_eq!((got.code, got.place), (code, 0));
        if code != 0 {
            assert_eq!((got.state, got.records.len()), (state, 0));
        }
    }
}

#[test]
fn the_first_bad_input_and_6_before_7() {
    // one input bad both ways
    refused(&file(&worked(), 1000, &[(50, 1, 1), (49, 1, 2)]), 6, 1);
    refused(&file(&worked(), 1000, &[(1001, 9, 0)]), 6, 0);
    // the first bad input decides, whichever way it is bad
    refused(&file(&worked(), 1000, &[(50, 1, 1), (49, 1, 1), (60, 9, 1)]), 7, 1);
    refused(&file(&worked(), 1000, &[(50, 1, 1), (60, 9, 1), (49, 1, 1)]), 6, 1);
    let state = table();
    assert_eq!(single(&state, &input((999, 1, 2))).code, 6);
    assert_eq!(single(&state, &input((864_001, 0, 0))).code, 6);
    // 9 before both
    let bad = State { clock: 864_001, ..state };
    assert_eq!(single(&bad, &input((999, 1, 2))).code, 9);
    assert_eq!(clock_move(&bad, 999).code, 9);
}

#[test]
fn refusal_8() {
    for n in [0, 1, 2, 7] {
        let cues = vec![(5, ON_OFF, 1); n];
        let f = file(&worked(), 1000, &cues);
        let records = 8 * (3 * n + 3);
        assert_eq!(run(&f, records, n).code, 0);
        let short = run(&f, records - 1, n);
        assert_eq!((short.code, short.place, number(&short)), (8, 0, 8 << 48));
        assert_eq!(short.end, state_of_a_refusal());
        if n > 0 {
            assert_eq!(run(&f, records, n - 1).code, 8);
        }
        let mut lent = vec![7; records];
        let mut answers = vec![7; n];
        let written = run_into(&f, &mut lent, &mut answers);
        assert_eq!(written, number(&run(&f, records, n)));
        let mut lent = vec![7; records - 1];
        let mut answers = vec![7; n];
        assert_eq!(run_into(&f, &mut lent, &mut answers), 8 << 48);
        assert!(lent.iter().chain(&answers).all(|o| *o == 7));
    }
    // after 7
    assert_eq!(run(&file(&worked(), 1000, &[(1001, 1, 1)]), 0, 0).code, 7);
    assert_eq!(run(&file(&worked(), 1000, &[(1, 1, 9)]), 0, 0).code, 6);
    assert_eq!(run(&[], 0, 0).code, 1);
}

// ================================================================================================
// Soundness, and refusal 9
// ================================================================================================

fn unsound(state: State) {
    assert!(!sound(&state), "{:?}", state);
    let got = single(&state, &input((state.clock, ON_OFF, 1)));
    assert_eq!((got.code, got.place, got.answer, got.records.len()), (9, 0, 0, 0));
    assert_eq!(got.state, state);
    let got = clock_move(&state, state.clock);
    assert_eq!((got.code, got.place, got.records.len()), (9, 0, 0));
    assert_eq!(got.state, state);
}

#[test]
fn sound_parameters_and_scenes() {
    let good = table();
    assert!(sound(&good));
    let mut s = good;
    s.params.timed_on = 0;
    unsound(s);
    for (bad, field) in [(3, 0), (4, 1), (3, 2), (3, 3), (3, 4), (2, 5)] {
        for value in [bad, 255] {
            let mut s = good;
            let p = &mut s.params;
            let fields = [
                &mut p.behaviour_at_locking,
                &mut p.behaviour_at_unlocking,
                &mut p.bus_failure_mode,
                &mut p.bus_return_mode,
                &mut p.power_return_mode,
                &mut p.scene_learning_mode_enable,
            ];
            for (index, octet) in fields.into_iter().enumerate() {
                if index == field {
                    *octet = value;
                }
            }
            unsound(s);
        }
    }
    for entry in 0..8 {
        for (number, flags) in [(64, 0), (254, 0), (5, 4), (5, 255), (255, 1), (255, 2)] {
            let mut s = good;
            s.scenes[entry] = Scene { number, flags };
            unsound(s);
        }
        for earlier in 0..entry {
            let mut s = good;
            s.scenes[entry] = Scene { number: 5, flags: 3 };
            assert!(sound(&s));
            s.scenes[earlier] = Scene { number: 5, flags: 2 };
            unsound(s);
        }
    }
}

#[test]
fn sound_clock_and_deadlines() {
    let good = table();
    assert!(sound(&State { clock: 864_000, ..good }));
    unsound(State { clock: 864_001, ..good });
    unsound(State { clock: u32::MAX, ..good });
    for clock in [0, 1000, 864_000] {
        for phase_of in [steady, starting_timed, timed, warning, ending] {
            let at = |deadline| State { clock, phase: phase_of(deadline), ..good };
            assert!(sound(&at(clock + 1)));
            assert!(sound(&at(clock + 655_350)));
            unsound(at(clock));
            unsound(at(clock + 655_351));
            unsound(at(u32::MAX));
            if clock > 0 {
                unsound(at(clock - 1));
                unsound(at(0));
            }
        }
    }
}

#[test]
fn sound_lock_and_force() {
    let good = table();
    for phase in [DARK, LIT, steady(1600), starting_timed(1600), timed(1600), warning(1600)] {
        let plain = State { phase, ..good };
        assert!(sound(&plain));
        let dark_or_lit = phase == DARK || phase == LIT;
        for force in [Force::None, Force::Off, Force::On] {
            let locked = State { lock: true, force, ..plain };
            if dark_or_lit {
                assert!(sound(&locked));
            } else {
                unsound(locked);
            }
        }
        for (force, agrees) in [(Force::Off, DARK), (Force::On, LIT)] {
            let forced = State { force, ..plain };
            if phase == agrees {
                assert!(sound(&forced));
            } else {
                unsound(forced);
            }
        }
    }
    unsound(State { lock: true, phase: ending(1600), ..good });
    unsound(State { force: Force::On, phase: ending(1600), ..good });
}

#[test]
fn sound_night() {
    let night = State { night: true, ..table() };
    for phase in [DARK, steady(1600), timed(1600), warning(1600), ending(1600)] {
        assert!(sound(&State { phase, ..night }));
    }
    unsound(State { phase: LIT, ..night });
    unsound(State { phase: LIT, link: Link::BusDown, ..night });
    assert!(sound(&State { phase: LIT, lock: true, ..night }));
    assert!(sound(&State { phase: LIT, force: Force::On, ..night }));
    assert!(sound(&State { phase: LIT, force: Force::Off, lock: true, ..night }));
}

#[test]
fn sound_power_down() {
    let down = State { link: Link::PowerDown, ..table() };
    assert!(sound(&down));
    assert!(sound(&State { output_at_locking: true, output_at_power_failure: true, ..down }));
    for phase in [LIT, steady(1600), starting_timed(1600), timed(1600), warning(1600), ending(1600)]
    {
        unsound(State { phase, ..down });
        assert!(sound(&State { phase, link: Link::BusDown, ..down }));
    }
    unsound(State { night: true, ..down });
    unsound(State { lock: true, ..down });
    unsound(State { force: Force::Off, ..down });
    unsound(State { lock: true, force: Force::On, ..down });
}

// ================================================================================================
// Generated files
// ================================================================================================

/// A good file of either version, with what it is made of.
fn any_file(rng: &mut Rng) -> (Params, Vec<Cue>, u32, Vec<u8>) {
    let n = rng.below(40) as usize;
    let show = CueFile::random(rng, n);
    let [on_delay, off_delay, timed_on, prewarning] = show.times;
    let params = Params {
        version: show.version as u8,
        on_delay,
        off_delay,
        timed_on,
        prewarning,
        behaviour_at_locking: show.rest[0],
        behaviour_at_unlocking: show.rest[1],
        bus_failure_mode: show.rest[2],
        bus_return_mode: show.rest[3],
        power_return_mode: show.rest[4],
        scene_learning_mode_enable: show.rest[5],
    };
    let cues = show.inputs.iter().map(|input| (stamp_of(input), input[4], input[5])).collect();
    (params, cues, show.end, show.octets())
}

/// A file that may be bad: some octets changed, or cut, or prolonged.
fn spoiled(rng: &mut Rng, file: &[u8]) -> Vec<u8> {
    let mut file = file.to_vec();
    match rng.below(4) {
        0 => {}
        1 => {
            let at = rng.below(file.len() as u64) as usize;
            file[at] = rng.next() as u8;
        }
        2 => {
            for _ in 0..=rng.below(3) {
                let at = rng.below(file.len() as u64) as usize;
                file[at] ^= 1 << rng.below(8);
            }
        }
        _ => {
            let length = rng.below(file.len() as u64 + 9) as usize;
            file.resize(length, 0);
        }
    }
    file
}

#[test]
fn run_into_equals_run() {
    let mut rng = Rng::new(0x9E37_79B9_7F4A_7C15);
    let mut codes = [0usize; 9];
    for _ in 0..60_000 {
        let (_, cues, _, good) = any_file(&mut rng);
        let file = spoiled(&mut rng, &good);
        let n = cues.len();
        let records_len = match rng.below(6) {
            0 => rng.below(8 * (3 * n as u64 + 3) + 1) as usize,
            1 => 8 * (3 * n + 3),
            _ => 8 * (3 * n + 3) + rng.below(40) as usize,
        };
        let answers_len = match rng.below(8) {
            0 => rng.below(n as u64 + 1) as usize,
            _ => n + rng.below(5) as usize,
        };
        let run = run(&file, records_len, answers_len);
        codes[usize::from(run.code)] += 1;
        let mut records: Vec<u8> = (0..records_len).map(|_| rng.next() as u8).collect();
        let mut answers: Vec<u8> = (0..answers_len).map(|_| rng.next() as u8).collect();
        let wanted = written_over(&records, &answers, &run.records, &run.answers);
        assert_eq!(run_into(&file, &mut records, &mut answers), number(&run));
        assert_eq!((records, answers), wanted);
        if run.code == 0 {
            assert_eq!(run.answers.len(), (file.len() - inputs_at(&file)) / 8);
            assert!(run.records.len() <= 3 * run.answers.len() + 3);
        }
    }
    for (code, count) in codes.iter().enumerate() {
        assert!(*count > 50, "code {} met {} times", code, count);
    }
}

#[test]
fn run_equals_single_inputs_and_a_clock_move() {
    let mut rng = Rng::new(77);
    for _ in 0..20_000 {
        let (_, cues, end, file) = any_file(&mut rng);
        let run = run_all(&file);
        assert_eq!(run.code, 0);
        let (mut state, code, _) = fresh(parameters_in(&file));
        assert_eq!(code, 0);
        let mut records = vec![record((0, 0, 1, 0))];
        for (index, cue) in cues.iter().enumerate() {
            // clock moves in between change nothing but the clock
            if rng.chance(33) {
                let stamp = state.clock + rng.below(u64::from(cue.0 - state.clock) + 1) as u32;
                let moved = clock_move(&state, stamp);
                assert!(moved.code == 0 && moved.records.len() <= 2);
                records.extend(&moved.records);
                state = moved.state;
                assert!(sound(&state));
            }
            let got = single(&state, &input(*cue));
            assert!(got.code == 0 && got.records.len() <= 3);
            assert_eq!(got.answer, run.answers[index]);
            records.extend(&got.records);
            assert_eq!(records.len(), run.records_before[index]);
            state = got.state;
            assert!(sound(&state));
        }
        let moved = clock_move(&state, end);
        records.extend(&moved.records);
        assert_eq!(records, run.records);
        assert_eq!(moved.state, run.end);
    }
}

#[test]
fn printout_agrees_with_run() {
    let mut rng = Rng::new(4711);
    for _ in 0..3_000 {
        let (_, _, _, good) = any_file(&mut rng);
        let file = spoiled(&mut rng, &good);
        let run = run_all(&file);
        let text = print(&file);
        let lines: Vec<&str> = text.lines().collect();
        assert!(text.ends_with('\n'));
        if run.code != 0 {
            assert_eq!(lines, [format!("NO {} {}", run.code, run.place)]);
            continue;
        }
        let records: Vec<String> = run
            .records
            .iter()
            .map(|r| format!("R {} {} {} {}", r.stamp, r.value, r.attributes, r.cause))
            .collect();
        let printed: Vec<&str> = lines.iter().copied().filter(|l| l.starts_with('R')).collect();
        assert_eq!(printed, records);
        let answers: Vec<String> =
            run.answers.iter().enumerate().map(|(i, a)| format!("A {} {}", i, a)).collect();
        let printed: Vec<&str> = lines.iter().copied().filter(|l| l.starts_with('A')).collect();
        assert_eq!(printed, answers);
        assert_eq!(lines[0], format!("OK {}", run.answers.len()));
        assert_eq!(*lines.last().unwrap(), format!("E {}", run.records.len()));
        assert_eq!(lines.len(), records.len() + answers.len() + 2);
    }
}

// ================================================================================================
// Demand 3 of the customer's words: nobody waits for ever
// ================================================================================================

/// States in the order they stand: after each input, with its index, and after each clock move.
struct Trace {
    fresh: State,
    after_input: Vec<State>,
}

fn trace(file: &[u8], cues: &[Cue]) -> Trace {
    let (fresh, _, _) = fresh(parameters_in(file));
    let mut state = fresh;
    let mut after_input = Vec::new();
    for cue in cues {
        state = single(&state, &input(*cue)).state;
        after_input.push(state);
    }
    Trace { fresh, after_input }
}

/// The state before the first input whose index is `index`, moved to `stamp`.
fn at(trace: &Trace, index: usize, stamp: u32) -> State {
    let state = if index == 0 { trace.fresh } else { trace.after_input[index - 1] };
    clock_move(&state, stamp).state
}

/// What input `index` asks: Some(true) for On, timed start or scene-on; Some(false) for Off, timed
/// stop or scene-off.
fn asks(trace: &Trace, index: usize, cue: Cue) -> Option<bool> {
    match cue.1 {
        1 | 2 => Some(cue.2 == 1),
        3 if cue.2 < 64 => {
            let state = at(trace, index, cue.0);
            let scene = state.scenes.iter().find(|s| s.number == cue.2 && s.flags & 2 != 0);
            scene.map(|s| s.flags & 1 == 1)
        }
        _ => None,
    }
}

#[test]
fn demand_3_light() {
    let mut rng = Rng::new(31);
    let mut met = 0;
    for _ in 0..20_000 {
        let (params, cues, end, file) = any_file(&mut rng);
        let trace = trace(&file, &cues);
        let run = run_all(&file);
        for (index, cue) in cues.iter().enumerate() {
            if asks(&trace, index, *cue) != Some(true) || run.answers[index] > 1 {
                continue;
            }
            let until = cue.0 + params.on_delay;
            let disturbed = (index + 1..cues.len()).any(|later| {
                let other = cues[later];
                other.0 < until
                    && (matches!(other.1, 4 | 5 | 7 | 8)
                        || asks(&trace, later, other) == Some(false))
            });
            if until > end || disturbed {
                continue;
            }
            // on right after the input, or at some record up to the end
            let shown = output(&trace.after_input[index])
                || run.records[run.records_before[index]..]
                    .iter()
                    .any(|r| r.value == 255 && r.stamp <= until);
            assert!(shown, "{}", print(&file));
            met += 1;
        }
    }
    assert!(met > 10_000, "{}", met);
}

#[test]
fn demand_3_dark() {
    let mut rng = Rng::new(32);
    let mut met = 0;
    for _ in 0..60_000 {
        let (params, cues, end, file) = any_file(&mut rng);
        let trace = trace(&file, &cues);
        let run = run_all(&file);
        let l = params.on_delay + params.timed_on + params.prewarning;
        // every stamp where the window can have just opened, and its neighbours
        let mut moments: Vec<u32> = cues.iter().flat_map(|c| [c.0, c.0 + l, c.0 + l + 1]).collect();
        moments.push(end);
        moments.push(l);
        for t in moments {
            if t < l || t > end {
                continue;
            }
            let first = cues.iter().filter(|c| c.0 <= t - l).count();
            let last = cues.iter().filter(|c| c.0 <= t).count();
            let calm = |s: &State| {
                s.night && !s.lock && s.force == Force::None && s.link != Link::PowerDown
            };
            let quiet = calm(&at(&trace, first, t - l))
                && (first..last).all(|index| {
                    let taken_on =
                        asks(&trace, index, cues[index]) == Some(true) && run.answers[index] <= 1;
                    let mode = if cues[index].2 == 0 {
                        params.bus_failure_mode
                    } else {
                        params.bus_return_mode
                    };
                    calm(&trace.after_input[index])
                        && !taken_on
                        && !(cues[index].1 == BUS && mode == 2)
                });
            if quiet {
                assert!(!output(&at(&trace, last, t)), "at {}\n{}", t, print(&file));
                met += 1;
            }
        }
    }
    assert!(met > 1_000, "{}", met);
}

// ================================================================================================
// Document 02, request 2: tenths in the delays
// ================================================================================================

/// A time in the octets of version 2.
fn with_time(octets: &[u8], first: usize, tenths: u32) -> Vec<u8> {
    let mut octets = octets.to_vec();
    octets[first..first + 4].copy_from_slice(&tenths.to_be_bytes());
    octets
}

/// The code and place of each length from 51 to 61 octets of a file without inputs, by cutting it or
/// by zeros behind it.
fn codes_by_length(file: &[u8]) -> Vec<(u8, u16)> {
    let run = |length| run_all(&resized(file, length));
    (51..=61).map(run).map(|run| (run.code, run.place)).collect()
}

#[test]
fn a_prewarning_of_2_5_seconds_is_not_rounded() {
    let cues = [(0, TIMED, 1)];
    let f = file(&tenths(0, 0, 600, 25), 1000, &cues);
    expect(&f, &[(0, 255, 17, 2), (625, 0, 1, 0)], &[0]);
    let at = |end| run_all(&file(&tenths(0, 0, 600, 25), end, &cues)).end.phase;
    assert_eq!(
        [at(599), at(600), at(624), at(625)],
        [timed(600), warning(625), warning(625), DARK]
    );
    // whole seconds would round it
    for (seconds, dark) in [(2, 620), (3, 630)] {
        let f = file(&delays(0, 0, 60, seconds), 1000, &cues);
        expect(&f, &[(0, 255, 17, 2), (dark, 0, 1, 0)], &[0]);
    }
}

#[test]
fn every_time_counts_in_tenths() {
    // OnDelay 7, OffDelay 13, TimedOn 61, Prewarning 25
    let p = tenths(7, 13, 61, 25);
    expect(&file(&p, 500, &[(0, ON_OFF, 1)]), &[(7, 255, 1, 0)], &[0]);
    expect(&file(&p, 500, &[(0, ON_OFF, 1), (6, ON_OFF, 0)]), &[], &[0, 0]);
    let f = file(&p, 500, &[(0, ON_OFF, 1), (7, ON_OFF, 0), (15, ON_OFF, 0)]);
    expect(&f, &[(7, 255, 1, 0), (20, 0, 1, 0)], &[0, 0, 1]);
    let f = file(&p, 500, &[(0, TIMED, 1)]);
    expect(&f, &[(7, 255, 17, 0), (93, 0, 1, 0)], &[0]);
    // the earlier of t+OffDelay and the lamp's own end, by a tenth
    for (off, dark) in [(78, 91), (79, 92), (80, 93), (81, 93)] {
        let f = file(&p, 500, &[(0, TIMED, 1), (off, ON_OFF, 0)]);
        expect(&f, &[(7, 255, 17, 0), (off, 255, 1, 1), (dark, 0, 1, 0)], &[0, 0]);
    }
    // night: Lit until t+TimedOn and its prewarning
    let f = file(&p, 500, &[(0, ON_OFF, 1), (100, NIGHT, 1)]);
    expect(&f, &[(7, 255, 1, 0), (100, 255, 25, 6), (186, 0, 9, 0)], &[0, 0]);
    // the shortest: one tenth
    let f = file(&tenths(1, 1, 1, 1), 500, &[(0, TIMED, 1), (10, ON_OFF, 1), (12, ON_OFF, 0)]);
    expect(&f, &[(1, 255, 17, 0), (3, 0, 1, 0), (11, 255, 1, 0), (13, 0, 1, 0)], &[0, 0, 0]);
}

#[test]
fn reading_2_1_the_rest_follows_the_times() {
    let mut octets = vec![0, 0, 1, 2, 0, 0, 3, 4, 0, 0, 5, 6, 0, 0, 7, 8];
    octets.extend([2, 3, 1, 2, 1, 1, 0, 0]);
    octets.extend([10, 0, 11, 1, 12, 2, 13, 3, 14, 0, 15, 1, 16, 2, 255, 0]);
    let (state, code, _) = fresh(&octets);
    let wanted = Params {
        version: 2,
        on_delay: 0x0102,
        off_delay: 0x0304,
        timed_on: 0x0506,
        prewarning: 0x0708,
        behaviour_at_locking: 2,
        behaviour_at_unlocking: 3,
        bus_failure_mode: 1,
        bus_return_mode: 2,
        power_return_mode: 1,
        scene_learning_mode_enable: 1,
    };
    assert_eq!((code, state.params), (0, wanted));
    assert_eq!(state.scenes[0], Scene { number: 10, flags: 0 });
    assert_eq!(state.scenes[6], Scene { number: 16, flags: 2 });
    assert_eq!(state.scenes[7], Scene { number: 255, flags: 0 });
    // BehaviourAtLocking 3
    bad_parameters(2, &with(&octets, 16, 3), 16);
}

#[test]
fn reading_2_2_version_2_under_60_comes_before_the_count_of_actuators() {
    let two_actuators = with(&file(&tenths(0, 0, 1, 0), 10, &[]), 3, 2);
    refused(&two_actuators[..55], 1, 0);
    refused(&two_actuators, 3, 0);
    // and after another version
    refused(&with(&two_actuators, 1, 3)[..55], 2, 0);
    refused(&two_actuators[..51], 1, 0);
}

#[test]
fn reading_2_3_lengths_51_to_61_of_each_version() {
    let empty = |version| file(&in_version(version, &worked()), 10, &[]);
    let codes = |codes: [u8; 11]| codes.map(|code| (code, 0)).to_vec();
    assert_eq!(codes_by_length(&empty(1)), codes([1, 0, 4, 4, 4, 4, 4, 4, 4, 4, 4]));
    assert_eq!(codes_by_length(&empty(2)), codes([1, 1, 1, 1, 1, 1, 1, 1, 1, 0, 4]));
    for version in [0, 3, 255] {
        assert_eq!(codes_by_length(&empty(version)), codes([1, 2, 2, 2, 2, 2, 2, 2, 2, 2, 2]));
    }
    // one input more in the header: 60 octets of version 1 hold it
    let one = |version| file(&in_version(version, &worked()), 10, &[(5, ON_OFF, 1)]);
    assert_eq!(codes_by_length(&one(1)), codes([1, 4, 4, 4, 4, 4, 4, 4, 4, 0, 4]));
    assert_eq!(codes_by_length(&one(2)), codes([1, 1, 1, 1, 1, 1, 1, 1, 1, 4, 4]));
    // the version has two octets
    let far = with(&empty(2), 0, 1);
    assert_eq!(codes_by_length(&far), codes([1, 2, 2, 2, 2, 2, 2, 2, 2, 2, 2]));
}

#[test]
fn reading_2_4_a_bad_time_is_at_its_first_octet() {
    let good = parameter_octets(&tenths(1, 2, 3, 4), &no_scenes());
    for first in [0, 4, 8, 12] {
        for tenths in [655_351, 655_360, 0x0A_0000, 0x0100_0000, u32::MAX] {
            bad_parameters(2, &with_time(&good, first, tenths), first);
        }
    }
    bad_parameters(2, &with_time(&good, 8, 0), 8);
    // the lowest of all bad
    let off_delay = with_time(&with_time(&good, 8, 0), 4, 655_351);
    bad_parameters(2, &off_delay, 4);
    bad_parameters(2, &with_time(&off_delay, 0, u32::MAX), 0);
    let prewarning = with_time(&with(&good, 16, 9), 12, 655_351);
    bad_parameters(2, &prewarning, 12);
}

#[test]
fn reading_2_5_sound_parameters_of_version_1_are_whole_seconds() {
    let good = State { clock: 1000, ..actuator(&worked()) };
    assert!(sound(&good));
    for which in 0..4 {
        let at = |tenths| with_state_time(&good, which, tenths);
        for tenths in [10, 20, 650, 655_340, 655_350] {
            assert!(sound(&at(tenths)));
        }
        for tenths in [1, 5, 9, 11, 15, 655_349, 655_351, 655_360, u32::MAX] {
            unsound(at(tenths));
        }
        assert_eq!(sound(&at(0)), which != TIMED_ON);
    }
}

#[test]
fn reading_2_5_sound_parameters_of_version_2_are_any_tenths() {
    let good = State { clock: 1000, ..actuator(&in_version(2, &worked())) };
    assert!(sound(&good));
    for which in 0..4 {
        let at = |tenths| with_state_time(&good, which, tenths);
        for tenths in [1, 5, 9, 10, 15, 655_349, 655_350] {
            assert!(sound(&at(tenths)));
        }
        for tenths in [655_351, 655_360, u32::MAX] {
            unsound(at(tenths));
        }
        assert_eq!(sound(&at(0)), which != TIMED_ON);
    }
    unsound(with_state_time(&good, TIMED_ON, 0));
}

#[test]
fn reading_2_5_no_other_version_is_sound() {
    let good = State { clock: 1000, ..actuator(&worked()) };
    for version in 0..=255 {
        let state = State { params: in_version(version, &good.params), ..good };
        if VERSIONS.contains(&version) {
            assert!(sound(&state));
        } else {
            unsound(state);
        }
    }
}

const TIMED_ON: usize = 2;

/// A state with another OnDelay, OffDelay, TimedOn or Prewarning.
fn with_state_time(state: &State, which: usize, tenths: u32) -> State {
    let mut state = *state;
    let p = &mut state.params;
    let times = [&mut p.on_delay, &mut p.off_delay, &mut p.timed_on, &mut p.prewarning];
    for (index, time) in times.into_iter().enumerate() {
        if index == which {
            *time = tenths;
        }
    }
    state
}

#[test]
fn reading_2_6_the_state_of_a_refusal_is_of_version_1() {
    let (good, _) = worked_octets(2);
    let (state, code, place) = fresh(&with(&good, 23, 1));
    assert_eq!((state, code, place), (state_of_a_refusal(), 5, 23));
    assert_eq!((state.params.version, state.params.timed_on), (1, 10));
    let refused = run_all(&file(&tenths(0, 0, 1, 0), 10, &[(11, ON_OFF, 1)]));
    assert_eq!((refused.code, refused.end), (7, state_of_a_refusal()));
}

#[test]
fn reading_2_7_parameters_alone_have_32_or_40_octets() {
    let (good, _) = worked_octets(2);
    let (old, _) = worked_octets(1);
    for length in [0, 31, 33, 39, 41, 64, 80] {
        for octets in [&good, &old] {
            let octets = resized(octets, length);
            assert_eq!(fresh(&octets), (state_of_a_refusal(), 1, 0), "{}", length);
        }
    }
    let (state, code, place) = fresh(&old);
    assert_eq!((code, place, state.params), (0, 0, worked()));
    let (state, code, place) = fresh(&good);
    assert_eq!((code, place, state.params), (0, 0, in_version(2, &worked())));
}

#[test]
fn reading_2_8_the_offset_of_inputs_is_the_versions_own() {
    for (version, offset) in [(1, 60), (2, 52), (2, 61)] {
        let empty = file(&in_version(version, &worked()), 10, &[]);
        refused(&with(&empty, 15, offset), 4, 0);
        // also where the file is as long as another version's
        refused(&resized(&with(&empty, 15, offset), 60), 4, 0);
    }
}

#[test]
fn reading_2_9_single_inputs_and_clock_moves_keep_the_version() {
    let mut rng = Rng::new(29);
    for _ in 0..2_000 {
        let (params, cues, end, file) = any_file(&mut rng);
        let mut state = fresh(parameters_in(&file)).0;
        for cue in &cues {
            state = single(&state, &input(*cue)).state;
            assert_eq!(state.params, params);
        }
        assert_eq!(clock_move(&state, end).state.params, params);
        assert_eq!(run_all(&file).end.params, params);
    }
}

#[test]
fn reading_2_10_the_longest_file_of_version_2_has_16_444_octets() {
    let longest = file(&tenths(0, 0, 1, 0), 10, &[(5, ON_OFF, 1); 2048]);
    assert_eq!(longest.len(), 16_444);
    assert!(print(&longest).starts_with("OK 2048\nR 0 0 1 0\n"));
    refused(&resized(&longest, 16_445), 4, 0);
    refused(&file(&tenths(0, 0, 1, 0), 10, &[(5, ON_OFF, 1); 2049]), 4, 0);
}

#[test]
fn reading_2_11_a_time_reaches_655_350_tenths() {
    let good = parameter_octets(&tenths(0, 0, 1, 0), &no_scenes());
    for first in [0, 4, 8, 12] {
        assert_eq!(fresh(&with_time(&good, first, 65_536)).1, 0);
        assert_eq!(fresh(&with_time(&good, first, 655_350)).1, 0);
    }
    let longest = tenths(655_350, 655_350, 655_350, 655_350);
    let run = run_all(&file(&longest, 864_000, &[(0, TIMED, 1), (864_000, ON_OFF, 0)]));
    assert_eq!(run.records[1..], [record((655_350, 255, 17, 0)), record((864_000, 255, 1, 1))]);
    assert_eq!(run.end.phase, ending(864_000 + 655_350));
    assert!(sound(&run.end));
}

#[test]
fn reading_2_12_room_and_printout_are_those_of_version_1() {
    let cues = [(0, TIMED, 1), (700, ON_OFF, 1), (700, ON_OFF, 0)];
    let f = file(&in_version(2, &delays(0, 0, 60, 10)), 1000, &cues);
    assert_eq!(print(&f), print(&file(&delays(0, 0, 60, 10), 1000, &cues)));
    assert_eq!(run(&f, 8 * 12, 3).code, 0);
    assert_eq!(run(&f, 8 * 12 - 1, 3).code, 8);
    assert_eq!(run(&f, 8 * 12, 2).code, 8);
}

#[test]
fn the_same_times_give_the_same_in_either_version() {
    let mut rng = Rng::new(212);
    let mut met = 0;
    for _ in 0..20_000 {
        let (params, cues, end, file) = any_file(&mut rng);
        if params.version != 1 {
            continue;
        }
        let scenes = fresh(parameters_in(&file)).0.scenes;
        let octets = parameter_octets(&in_version(2, &params), &scenes);
        let (plain, new) = (run_all(&file), run_all(&file_of(2, &octets, end, &cues)));
        assert_eq!(number(&plain), number(&new));
        assert_eq!((&plain.records, &plain.answers), (&new.records, &new.answers));
        assert_eq!(plain.records_before, new.records_before);
        assert_eq!(State { params: in_version(2, &params), ..plain.end }, new.end);
        met += 1;
    }
    assert!(met > 8_000, "{}", met);
}
