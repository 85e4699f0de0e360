//! The live calls at their ends, in order: every kind and value, every order in every situation, every octet of an image, every length,
//! each refusal before the others. compare_live.rs plays them; chance plays no part here.
#![allow(dead_code)]

use crate::calls::{damaged, Call, Case, Outcome, STATE_PATTERN};
use crate::files::{cue_file, enough, input, parameters, resized, rest_of, with, Layout, HEADER, LAST, LONGEST, REST};
use crate::images::{Fields, DARK, LIT, OCTETS, PHASES, STARTING};

/// What plays a case and says what it must give.
pub type Play<'a> = dyn FnMut(Case) -> Outcome + 'a;

// ---- One case

/// Parameters alone.
pub fn fresh(parameters: Vec<u8>, state_len: usize) -> Case {
    let state = vec![STATE_PATTERN; state_len];
    Case { state, ..Case::run(Call::Fresh, parameters, (0, 0)) }
}

/// Inputs to a state, into buffers of these lengths.
pub fn change(state: Vec<u8>, inputs: Vec<u8>, room: (usize, usize)) -> Case {
    Case { state, ..Case::run(Call::Change, inputs, room) }
}

/// Inputs to a state, with just the room that they ask for.
pub fn change_in_room(state: &[u8], inputs: &[[u8; 8]]) -> Case {
    change(state.to_vec(), inputs.concat(), enough(inputs.len()))
}

pub fn clock_move(state: &[u8], stamp: u32, records_len: usize) -> Case {
    Case { state: state.to_vec(), stamp, ..Case::run(Call::Move, Vec::new(), (records_len, 0)) }
}

pub fn run_to(file: Vec<u8>, state_len: usize, room: (usize, usize)) -> Case {
    let state = vec![STATE_PATTERN; state_len];
    Case { state, ..Case::run(Call::RunTo, file, room) }
}

/// The room that a clock move asks for.
pub const MOVE_ROOM: usize = 16;

// ---- States

/// OnDelay, OffDelay, TimedOn and Prewarning in tenths, by version: in the second no whole seconds.
const TIMES: [[u32; 4]; 2] = [[20, 50, 600, 100], [7, 13, 61, 25]];

/// Used entries: taught Off, taught On, an On that is not taught, one that has nothing.
const SCENES: [(u8, u8); 4] = [(1, 2), (2, 3), (3, 1), (63, 0)];

/// A fresh state of a version, with the modes 0.
fn usual(layout: &Layout) -> Fields {
    Fields::fresh_with(TIMES[usize::from(layout.version) - 1], rest_of([0; 5], 1, &SCENES), layout.version as u8)
}

/// A timed light at 1000 that ends at 1100.
fn timed(layout: &Layout) -> Fields {
    Fields { phase: 4, clock: 1000, deadline: 1100, ..usual(layout) }
}

/// Phase, night, lock, force and link in every combination, with a deadline so far ahead; not all of them are sound.
fn situations(base: &Fields, ahead: u32) -> Vec<Fields> {
    let mut situations = Vec::new();
    for phase in 0..PHASES {
        let deadline = if phase >= STARTING { base.clock + ahead } else { 0 };
        for (night, lock) in [(0, 0), (0, 1), (1, 0), (1, 1)] {
            for (force, link) in [0, 2, 3].into_iter().flat_map(|force| [0, 1, 2].map(|link| (force, link))) {
                situations.push(Fields { phase, deadline, night, lock, force, link, ..base.clone() });
            }
        }
    }
    situations
}

// ---- Every order in every situation

/// Kinds and values.
const ORDERS: [(u8, u8); 25] = [
    (1, 1),
    (1, 0),
    (2, 1),
    (2, 0),
    (3, 1),
    (3, 2),
    (3, 3),
    (3, 63),
    (3, 4),
    (3, 128 + 1),
    (3, 128 + 2),
    (3, 128 + 3),
    (3, 128 + 4),
    (4, 0),
    (4, 1),
    (4, 2),
    (4, 3),
    (5, 1),
    (5, 0),
    (6, 1),
    (6, 0),
    (7, 0),
    (7, 1),
    (8, 0),
    (8, 1),
];

/// Every order in every situation, at the moments that matter: with every value of the mode that an order looks at, whatever outputs are
/// remembered, with delays and without, with learning and without, with a deadline before the off delay would end and one after it. Once
/// for each mode also at the moments of the timers to come, and on from there to the last stamp; and what is noted, to its end.
pub fn grid(layout: &Layout, play: &mut Play) {
    let usual = usual(layout);
    for times in [usual.times, [0, 0, usual.times[2], 0]] {
        for (mode, remembered) in (0..4).flat_map(|mode| (0..4).map(move |remembered| (mode, remembered))) {
            let (up_to_2, learning) = (u8::min(mode, 2), (mode + remembered) % 2);
            let base = Fields {
                times,
                rest: rest_of([up_to_2, mode, up_to_2, up_to_2, up_to_2], learning, &SCENES),
                at_locking: remembered % 2,
                at_failure: remembered / 2,
                clock: 1000,
                ..usual.clone()
            };
            for situation in situations(&base, if mode < 2 { 12 } else { 300 }) {
                orders_in(&situation, mode == remembered, play);
            }
        }
    }
}

/// Every order in one situation, and clock moves in it; where it is not sound one of each shows that.
fn orders_in(situation: &Fields, and_on: bool, play: &mut Play) {
    let state = situation.octets();
    if play(clock_move(&state, situation.clock, MOVE_ROOM)).code() != 0 {
        play(change_in_room(&state, &[input(situation.clock, 1, 1)]));
        play(change_in_room(&state, &[input(situation.clock, 9, 1)]));
        return;
    }
    for stamp in moments(situation, and_on) {
        play(clock_move(&state, stamp, MOVE_ROOM));
        for (kind, value) in ORDERS {
            let after = play(change_in_room(&state, &[input(stamp, kind, value)]));
            if and_on {
                play(clock_move(&after.state, LAST, MOVE_ROOM));
                let_go(&after, stamp, play);
            }
        }
    }
}

/// Where an order was noted, the lock and the force end, each by itself and both.
fn let_go(after: &Outcome, stamp: u32, play: &mut Play) {
    const NOTED: u8 = 6;
    let (unlock, release) = (input(stamp, 5, 0), input(stamp, 4, 0));
    let ends: [&[[u8; 8]]; 3] = [&[unlock], &[release], &[unlock, release]];
    for end in ends.iter().filter(|_| after.answers == [NOTED]) {
        let free = play(change_in_room(&after.state, end));
        play(clock_move(&free.state, LAST, MOVE_ROOM));
    }
}

/// The clock and the last stamp; within a phase, just before its deadline and at it; and at the timers that may follow.
fn moments(situation: &Fields, and_on: bool) -> Vec<u32> {
    let mut moments = vec![situation.clock, LAST];
    if !situation.has_deadline() {
        return moments;
    }
    let first = situation.deadline;
    moments.extend([situation.clock + 5, first - 1, first]);
    if and_on {
        let second = first + situation.times[2];
        let third = second + situation.times[3];
        moments.extend([first + 1, second - 1, second, second + 1, third, third + 1]);
    }
    moments
}

/// Recall and learning of every number, in the light and in the dark, with each entry of a full table in each of its four ways.
pub fn scenes(layout: &Layout, play: &mut Play) {
    let numbers = [1, 2, 3, 4, 0, 63, 62, 61];
    for turn in 0..4 {
        let table: Vec<(u8, u8)> = numbers.iter().enumerate().map(|(i, number)| (*number, (i as u8 + turn) % 4)).collect();
        for (learning, phase) in [(0, DARK), (0, LIT), (1, DARK), (1, LIT)] {
            let state = Fields { rest: rest_of([0; 5], learning, &table), phase, ..usual(layout) }.octets();
            for number in 0..64 {
                play(change_in_room(&state, &[input(5, 3, number), input(6, 3, 128 + number), input(6, 3, number)]));
                play(change_in_room(&state, &[input(5, 3, 128 + number), input(5, 1, 0), input(5, 3, number)]));
            }
        }
    }
}

/// Times at the ends of their ranges, played at the ends of the time line.
pub fn long_times(layout: &Layout, play: &mut Play) {
    let unit = layout.unit;
    for time in [unit, LONGEST - unit, LONGEST] {
        for on in [0, unit, time] {
            let base = Fields { times: [on, time, time, time], ..usual(layout) };
            for clock in [0, 1, LAST - 1, LAST] {
                let state = Fields { clock, ..base.clone() }.octets();
                for (kind, value) in ORDERS {
                    let orders = [input(clock, 6, 1), input(clock, 1, 1), input(clock, kind, value)];
                    let after = play(change_in_room(&state, &orders));
                    play(clock_move(&after.state, LAST, MOVE_ROOM));
                    let orders = [input(clock, 2, 1), input(clock, kind, value), input(LAST, 6, 1), input(LAST, 1, 0)];
                    play(change_in_room(&state, &orders));
                }
            }
        }
    }
}

// ---- Refusals of an input and of a stamp

/// Kinds with every value, and zero octets with every other.
pub fn inputs(layout: &Layout, play: &mut Play) {
    let fields = timed(layout);
    let (state, clock) = (fields.octets(), fields.clock);
    for kind in 0..=255 {
        let values: Vec<u8> = if kind < 14 { (0..=255).collect() } else { vec![0, 1, 2, 3, 128, 255] };
        for value in values {
            play(change_in_room(&state, &[input(clock, kind, value)]));
        }
    }
    for zeros in (1..=255).flat_map(|octet| [[octet, 0], [0, octet], [octet, octet]]) {
        let mut bad = input(clock, 1, 0);
        bad[6..].copy_from_slice(&zeros);
        play(change_in_room(&state, &[bad]));
        play(change_in_room(&state, &[input(clock, 1, 0), bad]));
    }
}

/// Stamps around the clock and around the last one, of a good input, of a bad one and of a clock move; and an early one of every order.
pub fn stamps(layout: &Layout, play: &mut Play) {
    for (phase, clock) in (0..PHASES).flat_map(|phase| [1000, LAST - 1, LAST].map(|clock| (phase, clock))) {
        let deadline = if phase >= STARTING { clock + 100 } else { 0 };
        let state = Fields { phase, clock, deadline, ..usual(layout) }.octets();
        let near = [0, 1, clock - 1, clock, clock + 1, clock + 99, clock + 100];
        let far = [256, 1 << 16, LAST - 1, LAST, LAST + 1, 1 << 24, 1 << 31, u32::MAX];
        for stamp in near.into_iter().chain(far) {
            for value in [0, 1, 2] {
                play(change_in_room(&state, &[input(stamp, 1, value)]));
                play(change_in_room(&state, &[input(clock, 5, 1), input(stamp, 1, value), input(clock, 1, 2)]));
            }
            play(clock_move(&state, stamp, MOVE_ROOM));
        }
        for (kind, value) in ORDERS {
            play(change_in_room(&state, &[input(clock - 1, kind, value)]));
        }
    }
}

// ---- Lengths, rooms, and which refusal comes first

/// So many inputs that are in order: On and Off, each ten tenths after the one before.
fn switching(clock: u32, n: usize) -> Vec<[u8; 8]> {
    (0..n).map(|i| input(clock + 10 * i as u32, 1, (i % 2) as u8)).collect()
}

/// Lists of every length around the ends, and a refused input at the first, a middle and the last place of a list.
pub fn lengths(layout: &Layout, play: &mut Play) {
    let fields = timed(layout);
    let state = fields.octets();
    let long = switching(fields.clock, 300).concat();
    for length in (0..=80).chain(2040..=2070).chain([2400]) {
        play(change(state.clone(), long[..length].to_vec(), enough(300)));
    }
    for n in [1, 2, 3, 60, 255, 256] {
        let good = switching(fields.clock, n);
        play(change_in_room(&state, &good));
        for at in [0, n / 2, n - 1] {
            for bad in [input(fields.clock + 10 * at as u32, 1, 2), input(fields.clock - 1, 1, 1), input(LAST + 1, 1, 1)] {
                let mut inputs = good.clone();
                inputs[at] = bad;
                play(change_in_room(&state, &inputs));
            }
        }
    }
}

/// Buffers and states of every length around what is asked for.
pub fn rooms(layout: &Layout, play: &mut Play) {
    let fields = timed(layout);
    let state = fields.octets();
    for n in [0, 1, 2, 256] {
        let (records, answers) = enough(n);
        for records_len in [0, 1, records - 8, records - 1, records, records + 1, records + 8] {
            for answers_len in [0, n.saturating_sub(1), answers, answers + 1] {
                let inputs = switching(fields.clock, n).concat();
                play(change(state.clone(), inputs, (records_len, answers_len)));
            }
        }
    }
    for records_len in 0..=24 {
        play(clock_move(&state, LAST, records_len));
    }
    let good = parameters(layout, fields.times, &fields.rest);
    for length in 0..=120 {
        play(fresh(good.clone(), length));
        play(run_to(empty_file(layout, &good), length, enough(0)));
        let other = resized(&state, length);
        play(change(other.clone(), Vec::new(), enough(0)));
        play(clock_move(&other, LAST, MOVE_ROOM));
    }
}

/// A cue file without inputs that ends at 77.
fn empty_file(layout: &Layout, parameters: &[u8]) -> Vec<u8> {
    cue_file([layout.version, 1], [HEADER as u32, 0, layout.inputs_at() as u32, 77], parameters, &[])
}

/// Every combination of what is wrong with a call: the first refusal of its order decides.
pub fn first_refusals(layout: &Layout, play: &mut Play) {
    let fields = timed(layout);
    let (good, bad) = (fields.octets(), Fields { lock: 1, ..fields.clone() }.octets());
    let clock = fields.clock;
    for state in [good, bad] {
        for (kind, stamp) in [(1, clock), (9, clock), (1, clock - 1), (9, clock - 1), (1, LAST + 1), (9, LAST + 1)] {
            for (length, room) in [16, 17, 15, 8 * 257].into_iter().flat_map(|l| [enough(257), (0, 0)].map(|room| (l, room))) {
                let mut inputs = switching(clock, 300);
                inputs[1] = input(stamp, kind, 1);
                let inputs = inputs.concat()[..length].to_vec();
                play(change(state.clone(), inputs, room));
            }
        }
        for stamp in [clock, clock - 1, LAST + 1] {
            for room in [MOVE_ROOM, MOVE_ROOM - 1, 0] {
                play(clock_move(&state, stamp, room));
            }
        }
    }
    let octets = parameters(layout, fields.times, &fields.rest);
    let out_of_range = with(&octets, octets.len() - 1, 4);
    for parameters in [octets.clone(), out_of_range.clone(), octets[1..].to_vec(), out_of_range[1..].to_vec()] {
        for length in [OCTETS, OCTETS - 1, 0] {
            play(fresh(parameters.clone(), length));
            play(run_to(empty_file(layout, &parameters), length, enough(0)));
            play(run_to(empty_file(layout, &parameters), length, (23, 0)));
        }
    }
}

// ---- Images

/// Every prefix of an image and every one that differs in one octet, handed to a change, to one whose input is bad too, and to a clock move;
/// and every phase with moments, and every time, at the ends of their ranges.
pub fn images(layout: &Layout, play: &mut Play) {
    let fields = timed(layout);
    for octets in damaged(&fields.octets()) {
        play(change_in_room(&octets, &[input(fields.clock, 1, 1)]));
        play(change_in_room(&octets, &[input(fields.clock, 9, 1)]));
        play(clock_move(&octets, LAST, MOVE_ROOM));
    }
    for clock in [0, 1000, LAST, LAST + 1, u32::MAX - LONGEST - 1, u32::MAX] {
        for phase in 0..=PHASES {
            for deadline in deadlines(clock) {
                let octets = Fields { phase, clock, deadline, ..usual(layout) }.octets();
                play(change_in_room(&octets, &[input(clock, 1, 1)]));
                play(change_in_room(&octets, &[input(clock, 9, 1)]));
                play(clock_move(&octets, clock, MOVE_ROOM));
                play(clock_move(&octets, LAST, MOVE_ROOM));
            }
        }
    }
    for which in 0..4 {
        for time in [0, 1, 5, 9, 10, 11, 15, 65_535, 65_536, LONGEST - 1, LONGEST, LONGEST + 1, LONGEST + 10, 1 << 24, u32::MAX]
        {
            let mut fields = usual(layout);
            fields.times[which] = time;
            for version in 0..4 {
                let octets = Fields { version, ..fields.clone() }.octets();
                play(change_in_room(&octets, &[input(0, 1, 1)]));
                play(change_in_room(&octets, &[input(0, 9, 1)]));
                play(change_in_room(&octets, &[input(0, 6, 1), input(0, 1, 1), input(1, 1, 0)]));
                play(clock_move(&octets, LAST, MOVE_ROOM));
            }
        }
    }
}

/// Moments at the ends of the range of a deadline, and none.
fn deadlines(clock: u32) -> [u32; 8] {
    let after = |tenths: u32| clock.saturating_add(tenths);
    [0, clock.saturating_sub(1), clock, after(1), after(2), after(LONGEST), after(LONGEST + 1), u32::MAX]
}

/// Scene tables with two entries changed: numbers at the ends, repeated numbers, flags, and both wrong in one entry.
pub fn scene_tables(layout: &Layout, play: &mut Play) {
    let fields = usual(layout);
    let entries = [(1, 0), (2, 3), (63, 3), (64, 0), (254, 0), (255, 0), (255, 1), (255, 2), (9, 4), (9, 128), (2, 4)];
    for place in 0..8 {
        for other in (0..8).filter(|other| *other != place) {
            for (one, two) in entries.iter().flat_map(|one| entries.map(|two| (*one, two))) {
                let mut rest = fields.rest;
                rest[8 + 2 * place..10 + 2 * place].copy_from_slice(&[one.0, one.1]);
                rest[8 + 2 * other..10 + 2 * other].copy_from_slice(&[two.0, two.1]);
                play(fresh(parameters(layout, fields.times, &rest), OCTETS));
                let state = Fields { rest, ..fields.clone() }.octets();
                play(clock_move(&state, 5, MOVE_ROOM));
                play(change_in_room(&state, &[input(5, 9, 1)]));
            }
        }
    }
}

// ---- Parameters alone

/// Every prefix of parameters and all that differ in one octet, and other lengths.
pub fn parameters_alone(layout: &Layout, play: &mut Play) {
    let fields = usual(layout);
    let good = parameters(layout, fields.times, &fields.rest);
    for octets in damaged(&good) {
        play(fresh(octets, OCTETS));
    }
    for length in 0..=255 {
        play(fresh(resized(&good, length), OCTETS));
    }
}

/// Times at the ends of their ranges, two at once, beside a good rest and a bad one; and all at their most.
pub fn times_alone(layout: &Layout, play: &mut Play) {
    let fields = usual(layout);
    // 256 seconds have a last octet of 0
    let ends = [0, 1, 9, 10, 2_560, 65_535, 65_536, LONGEST, LONGEST + 1, LONGEST + 10, 1 << 24, u32::MAX];
    for (which, beside) in [(0, 1), (0, 2), (0, 3), (1, 2), (1, 3), (2, 3)] {
        for (time, other) in ends.iter().flat_map(|time| ends.map(|other| (*time, other))) {
            let mut times = fields.times;
            times[which] = time;
            times[beside] = other;
            play(fresh(parameters(layout, times, &fields.rest), OCTETS));
            play(fresh(parameters(layout, times, &rest_of([3, 0, 0, 0, 0], 0, &SCENES)), OCTETS));
        }
    }
    let scenes: Vec<(u8, u8)> = (0..8).map(|i| (56 + i, i % 4)).collect();
    let most = rest_of([2, 3, 2, 2, 2], 1, &scenes);
    for times in [[LONGEST; 4], [0, 0, layout.unit, 0], [u32::MAX; 4]] {
        play(fresh(parameters(layout, times, &most), OCTETS));
        play(fresh(parameters(layout, times, &rest_of([0; 5], 0, &[])), OCTETS));
    }
}

/// Two octets of the rest out of range at once: the lower decides.
pub fn two_bad_octets(layout: &Layout, play: &mut Play) {
    let fields = usual(layout);
    for lower in 0..REST {
        for higher in lower + 1..REST {
            for octet in [4, 64, 200] {
                let mut rest = fields.rest;
                rest[lower] = octet;
                rest[higher] = octet;
                play(fresh(parameters(layout, fields.times, &rest), OCTETS));
                play(clock_move(&Fields { rest, ..fields.clone() }.octets(), 5, MOVE_ROOM));
            }
        }
    }
}
