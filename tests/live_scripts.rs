//! Evenings that are played live, script by script: document 01's cases, the slips that were seen, nights and forces that are noted, times
//! in tenths, every mode, scenes.
//! Each is played from a fresh state input by input, then by clock moves, and again in one change; nothing here knows what it should give.
#![allow(dead_code)]

use crate::files::{input, parameters, rest_of, Layout, LAST, LONGEST};
use crate::images::OCTETS;
use crate::live_cases::{change_in_room, clock_move, fresh, Play, MOVE_ROOM};

type Order = (u8, u8);

const ON: Order = (1, 1);
const OFF: Order = (1, 0);
const START: Order = (2, 1);
const STOP: Order = (2, 0);
const FREE: Order = (4, 0);
const FORCE_OFF: Order = (4, 2);
const FORCE_ON: Order = (4, 3);
const LOCK: Order = (5, 1);
const UNLOCK: Order = (5, 0);
const NIGHT: Order = (6, 1);
const DAY: Order = (6, 0);
const BUS_FAILS: Order = (7, 0);
const BUS_RETURNS: Order = (7, 1);
const POWER_FAILS: Order = (8, 0);
const POWER_RETURNS: Order = (8, 1);

const fn recall(number: u8) -> Order {
    (3, number)
}

const fn learn(number: u8) -> Order {
    (3, 128 + number)
}

/// OnDelay, OffDelay, TimedOn, Prewarning in tenths; the five modes; what is played, and the stamps of clock moves after it.
type Script<'a> = ([u32; 4], [u8; 5], &'a [(u32, Order)], &'a [u32]);

/// Document 01's times, in tenths, and its mode: as before locking.
const WORKED: [u32; 4] = [20, 50, 600, 100];
const AS_BEFORE: [u8; 5] = [0, 3, 0, 0, 0];
const NONE: [u8; 5] = [0; 5];

/// "Worked on paper", "Run only", and the printout.
const DOCUMENT: [Script; 15] = [
    ([0, 0, 600, 100], NONE, &[(0, START), (700, ON), (700, OFF)], &[1000]),
    ([20, 6000, 600, 100], AS_BEFORE, &[(0, ON), (100, OFF), (200, NIGHT)], &[899, 900]),
    (WORKED, AS_BEFORE, &[(0, START), (50, BUS_FAILS), (60, ON)], &[719, 720]),
    (WORKED, AS_BEFORE, &[(0, ON), (50, POWER_FAILS), (90, POWER_RETURNS)], &[1000]),
    (WORKED, AS_BEFORE, &[(50, ON), (49, ON), (50, OFF)], &[49, 50]),
    (WORKED, AS_BEFORE, &[(0, ON)], &[19, 20]),
    (WORKED, AS_BEFORE, &[(0, ON), (15, ON)], &[19, 20]),
    (WORKED, AS_BEFORE, &[(0, ON), (19, OFF)], &[LAST]),
    (WORKED, AS_BEFORE, &[(0, ON), (20, OFF)], &[69, 70]),
    (WORKED, AS_BEFORE, &[(0, ON), (100, OFF), (140, OFF)], &[149, 150]),
    (WORKED, AS_BEFORE, &[(0, START)], &[19, 20, 719, 720]),
    (WORKED, AS_BEFORE, &[(0, START), (700, OFF)], &[719, 720]),
    (WORKED, AS_BEFORE, &[(0, ON), (50, FORCE_OFF), (60, ON), (80, FREE)], &[LAST]),
    (WORKED, AS_BEFORE, &[(0, ON), (100, LOCK), (120, OFF), (200, UNLOCK)], &[LAST]),
    (WORKED, AS_BEFORE, &[(0, ON), (100, NIGHT)], &[799, 800]),
];

/// The slips that were seen, ties, the longest delays, night and the standing force; and the state that a refusal gives.
const SLIPS: [Script; 16] = [
    (WORKED, AS_BEFORE, &[(0, START)], &[LAST]),
    (WORKED, AS_BEFORE, &[(0, START), (LAST, ON)], &[LAST]),
    (WORKED, AS_BEFORE, &[(0, START), (LAST, LOCK)], &[LAST]),
    (
        WORKED,
        AS_BEFORE,
        &[(0, START), (20, OFF), (70, ON), (90, START), (690, ON), (690, START), (1290, START), (1990, OFF)],
        &[1990, 1991],
    ),
    (
        WORKED,
        AS_BEFORE,
        &[(0, ON), (0, OFF), (0, START), (0, STOP), (20, LOCK), (20, UNLOCK), (20, FORCE_ON), (20, FREE)],
        &[LAST],
    ),
    (WORKED, AS_BEFORE, &[(0, ON), (19, ON), (20, ON), (30, OFF), (40, OFF), (79, OFF), (80, OFF), (90, OFF)], &[100]),
    ([20, LONGEST, 600, 100], NONE, &[(0, START), (100, OFF), (200, OFF)], &[719, 720]),
    ([20, LONGEST, 600, 100], NONE, &[(0, START), (650, OFF), (660, OFF)], &[719, 720]),
    ([LONGEST; 4], NONE, &[(0, START), (208_649, NIGHT)], &[208_650, LONGEST - 1, LONGEST, LAST]),
    ([0, LONGEST, LONGEST, LONGEST], NONE, &[(LAST, ON), (LAST, NIGHT), (LAST, OFF), (LAST, DAY), (LAST, NIGHT)], &[LAST]),
    (WORKED, AS_BEFORE, &[(0, ON), (10, NIGHT)], &[20, LAST]),
    (WORKED, AS_BEFORE, &[(0, NIGHT), (1, ON), (10, DAY)], &[21, LAST]),
    ([20, 6000, 600, 100], NONE, &[(0, ON), (20, OFF), (100, NIGHT), (110, NIGHT), (120, DAY), (130, NIGHT)], &[LAST]),
    (WORKED, AS_BEFORE, &[(0, FORCE_ON), (10, LOCK), (20, UNLOCK), (30, FREE)], &[LAST]),
    (WORKED, AS_BEFORE, &[(0, NIGHT), (0, FORCE_ON), (10, LOCK), (20, UNLOCK), (30, FREE)], &[LAST]),
    ([0, 0, 10, 0], NONE, &[(5, ON), (6, NIGHT)], &[LAST]),
];

/// Nights and forces under lock and force (document 02, request 4): the lists of its readings.
const AT_ONCE: [u32; 4] = [0, 0, 600, 100];
const NOTED: [Script; 17] = [
    (AT_ONCE, NONE, &[(10, FORCE_ON), (20, NIGHT), (30, FREE)], &[629, 630, 729, 730]),
    (AT_ONCE, NONE, &[(10, FORCE_ON), (20, NIGHT), (25, DAY), (30, FREE)], &[LAST]),
    (AT_ONCE, NONE, &[(10, FORCE_OFF), (20, NIGHT), (30, FREE), (40, ON)], &[739, 740]),
    (AT_ONCE, [0, 1, 0, 0, 0], &[(0, FORCE_ON), (10, LOCK), (20, FREE), (30, UNLOCK)], &[LAST]),
    (AT_ONCE, [0, 1, 0, 0, 0], &[(0, FORCE_ON), (10, LOCK), (20, (4, 1)), (30, UNLOCK)], &[LAST]),
    (AT_ONCE, [1, 3, 0, 0, 0], &[(0, FORCE_ON), (10, LOCK), (20, (4, 1)), (30, UNLOCK)], &[LAST]),
    (AT_ONCE, NONE, &[(0, FORCE_ON), (10, LOCK), (20, FORCE_OFF), (30, UNLOCK)], &[LAST]),
    (AT_ONCE, NONE, &[(10, LOCK), (20, FORCE_OFF), (25, FORCE_ON), (30, UNLOCK), (40, FREE)], &[LAST]),
    (
        AT_ONCE,
        NONE,
        &[
            (0, LOCK),
            (5, FREE),
            (10, FORCE_ON),
            (15, FORCE_ON),
            (20, FORCE_OFF),
            (25, FREE),
            (35, NIGHT),
            (40, NIGHT),
            (45, DAY),
        ],
        &[LAST],
    ),
    (AT_ONCE, NONE, &[(0, START), (10, LOCK), (30, NIGHT)], &[LAST]),
    (
        AT_ONCE,
        [0, 2, 0, 0, 0],
        &[(0, LOCK), (10, BUS_FAILS), (20, NIGHT), (25, FORCE_ON), (30, BUS_RETURNS), (40, UNLOCK)],
        &[LAST],
    ),
    (AT_ONCE, NONE, &[(0, FORCE_ON), (10, BUS_FAILS), (20, NIGHT), (30, BUS_RETURNS), (40, FREE)], &[LAST]),
    (
        AT_ONCE,
        [0, 2, 0, 0, 0],
        &[(0, LOCK), (5, NIGHT), (10, BUS_FAILS), (20, DAY), (30, BUS_RETURNS), (40, UNLOCK)],
        &[739, 740],
    ),
    (AT_ONCE, NONE, &[(0, FORCE_ON), (5, NIGHT), (10, LOCK), (20, FREE), (30, UNLOCK)], &[629, 630, 729, 730]),
    (AT_ONCE, NONE, &[(0, FORCE_ON), (10, LOCK), (20, NIGHT), (30, UNLOCK), (40, FREE)], &[739, 740]),
    (WORKED, AS_BEFORE, &[(0, ON), (30, LOCK), (40, NIGHT), (50, UNLOCK)], &[649, 650, 749, 750]),
    (
        AT_ONCE,
        [0, 0, 0, 0, 2],
        &[(0, LOCK), (10, FORCE_ON), (20, NIGHT), (30, POWER_FAILS), (35, NIGHT), (40, POWER_RETURNS)],
        &[LAST],
    ),
];

/// Times that no whole seconds give.
const TENTHS: [u32; 4] = [7, 13, 61, 25];
const EVENINGS: [Script; 26] = [
    ([0, 0, 600, 25], NONE, &[(0, START)], &[599, 600, 624, 625]),
    ([0, 0, 600, 25], NONE, &[(0, START)], &[LAST]),
    ([0, 30, 600, 25], NONE, &[(0, START), (599, OFF)], &[624, 625]),
    ([0, 13, 600, 25], NONE, &[(0, START), (610, OFF)], &[622, 623]),
    (TENTHS, AS_BEFORE, &[(0, ON), (6, ON)], &[6, 7]),
    (TENTHS, AS_BEFORE, &[(0, ON), (6, OFF)], &[LAST]),
    (TENTHS, AS_BEFORE, &[(0, ON), (7, OFF), (15, OFF)], &[19, 20]),
    (TENTHS, AS_BEFORE, &[(0, START)], &[LAST]),
    (TENTHS, AS_BEFORE, &[(0, START)], &[6, 7, 67, 68, 92, 93]),
    (TENTHS, AS_BEFORE, &[(0, START), (7, OFF), (20, ON), (27, START), (88, START), (149, OFF), (162, ON)], &[169, LAST]),
    (TENTHS, AS_BEFORE, &[(0, START), (78, OFF)], &[91, 92, 93]),
    (TENTHS, AS_BEFORE, &[(0, START), (79, OFF)], &[91, 92, 93]),
    (TENTHS, AS_BEFORE, &[(0, START), (80, OFF)], &[91, 92, 93]),
    (TENTHS, AS_BEFORE, &[(0, START), (81, OFF)], &[91, 92, 93]),
    (TENTHS, AS_BEFORE, &[(0, ON), (100, NIGHT)], &[160, 161, 185, 186]),
    ([7, 999, 61, 25], NONE, &[(0, ON), (7, OFF), (100, NIGHT)], &[185, 186]),
    (TENTHS, AS_BEFORE, &[(0, NIGHT), (0, FORCE_ON), (33, FREE)], &[93, 94, 118, 119]),
    (TENTHS, AS_BEFORE, &[(0, NIGHT), (0, START), (9, LOCK), (33, UNLOCK)], &[93, 94, 118, 119]),
    (
        TENTHS,
        AS_BEFORE,
        &[(0, START), (9, BUS_FAILS), (10, ON), (11, BUS_RETURNS), (30, POWER_FAILS), (31, ON), (32, POWER_RETURNS)],
        &[LAST],
    ),
    ([1; 4], NONE, &[(0, START), (10, ON), (12, OFF), (20, NIGHT), (20, ON), (22, OFF)], &[22, 23]),
    ([LONGEST; 4], NONE, &[(0, START), (208_649, NIGHT)], &[LONGEST - 1, LONGEST, LAST]),
    (
        [0, LONGEST - 1, LONGEST - 1, LONGEST - 1],
        NONE,
        &[(LAST, ON), (LAST, NIGHT), (LAST, OFF), (LAST, DAY), (LAST, NIGHT)],
        &[LAST],
    ),
    // refused in between: the version stays
    (TENTHS, AS_BEFORE, &[(10, ON), (9, OFF), (10, (9, 1)), (11, (1, 2)), (LAST + 1, OFF)], &[9, LAST + 1, 17]),
    (TENTHS, AS_BEFORE, &[(10, ON), (10, (9, 1))], &[17]),
    (TENTHS, AS_BEFORE, &[(10, ON), (11, (1, 2))], &[17]),
    (TENTHS, AS_BEFORE, &[(10, ON), (LAST + 1, OFF)], &[17]),
];

/// All scripts of a version: those of document 01 in both, the ones in tenths in the second.
pub fn scripts(layout: &Layout, play: &mut Play) {
    let whole_seconds = DOCUMENT.iter().chain(&SLIPS).chain(&NOTED);
    let in_tenths = EVENINGS.iter().filter(|_| layout.unit == 1);
    for (times, modes, cues, stamps) in whole_seconds.chain(in_tenths) {
        evening(&parameters(layout, *times, &rest_of(*modes, 0, &[])), cues, stamps, play);
    }
}

/// From a fresh state input by input, or in one change, then clock moves; a refused step leaves the state as it was.
fn evening(parameters: &[u8], cues: &[(u32, Order)], stamps: &[u32], play: &mut Play) {
    let inputs: Vec<[u8; 8]> = cues.iter().map(|(stamp, (kind, value))| input(*stamp, *kind, *value)).collect();
    let start = play(fresh(parameters.to_vec(), OCTETS)).state;
    let mut one_by_one = start.clone();
    for one in inputs.chunks(1) {
        one_by_one = play(change_in_room(&one_by_one, one)).state;
    }
    let at_once = play(change_in_room(&start, &inputs)).state;
    for mut state in [one_by_one, at_once] {
        for stamp in stamps {
            state = play(clock_move(&state, *stamp, MOVE_ROOM)).state;
        }
    }
}

/// Every pair of modes that meet: at locking and unlocking, at a bus failure and its return; and every power return.
pub fn modes(layout: &Layout, play: &mut Play) {
    let with = |modes: [u8; 5]| parameters(layout, [0, 50, 600, 100], &rest_of(modes, 0, &[]));
    for (locking, unlocking) in (0..3).flat_map(|a| (0..4).map(move |b| (a, b))) {
        let octets = with([locking, unlocking, 0, 0, 0]);
        let day = [(0, LOCK), (10, UNLOCK), (20, OFF), (100, ON), (110, LOCK), (120, UNLOCK)];
        evening(&octets, &day, &[], play);
        evening(&octets, &[&[(0, NIGHT)], &day[..]].concat(), &[LAST], play);
        let forced = [(0, FORCE_OFF), (1, LOCK), (2, UNLOCK), (3, FORCE_ON), (4, LOCK), (5, UNLOCK), (6, FREE)];
        evening(&octets, &forced, &[LAST], play);
        let noted = [(0, ON), (10, LOCK), (20, FORCE_OFF), (21, FORCE_ON), (30, NIGHT), (40, UNLOCK), (50, FREE)];
        evening(&octets, &noted, &[LAST], play);
        evening(&octets, &[(0, FORCE_ON), (10, LOCK), (20, FREE), (30, NIGHT), (40, UNLOCK)], &[LAST], play);
    }
    for (failure, returning) in (0..3).flat_map(|a| (0..3).map(move |b| (a, b))) {
        let octets = with([0, 0, failure, returning, 0]);
        let day = [(0, BUS_FAILS), (10, BUS_RETURNS), (20, OFF), (100, START), (110, BUS_FAILS), (120, BUS_RETURNS)];
        evening(&octets, &day, &[LAST], play);
        evening(&octets, &[(0, NIGHT), (0, BUS_FAILS), (10, BUS_RETURNS)], &[LAST], play);
        let held = [(0, FORCE_ON), (0, BUS_FAILS), (10, BUS_RETURNS), (20, LOCK), (30, BUS_FAILS), (40, BUS_RETURNS)];
        evening(&octets, &held, &[LAST], play);
    }
    for power in 0..3 {
        let day = [(0, POWER_FAILS), (1, POWER_RETURNS), (2, OFF), (100, NIGHT), (100, ON), (110, LOCK)];
        let cut = [(120, POWER_FAILS), (130, POWER_RETURNS)];
        evening(&with([0, 0, 0, 0, power]), &[&day[..], &cut].concat(), &[LAST], play);
    }
}

/// A full table, learnt and recalled by day, while a light starts and ends, and over a power cut; and no table at all.
pub fn learning(layout: &Layout, play: &mut Play) {
    let table = [(1, 2), (2, 3), (3, 0), (4, 1), (0, 2), (63, 3), (62, 0), (61, 1)];
    let numbers = [1, 2, 3, 4, 5, 0, 61, 62, 63];
    let mut cues: Vec<(u32, Order)> = numbers.iter().map(|number| (u32::from(*number), recall(*number))).collect();
    cues.sort_by_key(|cue| cue.0);
    cues.push((100, ON));
    cues.extend(numbers.iter().map(|number| (100, learn(*number))));
    cues.extend([(200, OFF), (200, recall(1)), (201, OFF), (201, learn(63)), (201, learn(62)), (202, recall(61))]);
    cues.extend([(203, recall(63)), (300, learn(0)), (301, START), (302, learn(2)), (303, POWER_FAILS)]);
    cues.extend([(304, learn(1)), (305, POWER_RETURNS), (306, recall(1))]);
    for enabled in 0..2 {
        evening(&parameters(layout, [0, 0, 600, 100], &rest_of(NONE, enabled, &table)), &cues, &[LAST], play);
    }
    let starting = [(0, ON), (10, learn(1)), (20, learn(2)), (30, recall(1)), (40, learn(3)), (80, learn(4))];
    evening(&parameters(layout, WORKED, &rest_of(NONE, 1, &table)), &starting, &[LAST], play);
    let no_table = [(0, recall(0)), (0, learn(0)), (0, learn(63)), (0, recall(63))];
    evening(&parameters(layout, WORKED, &rest_of(NONE, 1, &[])), &no_table, &[1], play);
}
