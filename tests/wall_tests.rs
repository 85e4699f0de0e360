//! Tests of the independent model of the wall buttons: every reading of document 02, request 1, that
//! a test can tell from the other way to read it; the refusals; the tenths of request 2; the noted
//! values of request 4, as the pair meets them; and what holds of every wall list.
//!
//!     rustc --edition 2021 --test -O wall_tests.rs -o t && ./t
mod cases;
mod files;
mod model;
mod wall;
mod walls;

use cases::*;
use files::{enough, inputs_in, resized, stamp_of, with, CueFile, Rng, LAYOUTS};
use model::*;
use wall::*;
use walls::{is_edge, WallList};

// ================================================================================================
// Writing wall lists
// ================================================================================================

const BUTTON_1: u8 = 11;
const BUTTON_2: u8 = 12;
const STATUS: u8 = 13;
const RISING: u8 = 1;
const FALLING: u8 = 0;

/// The actions of a list whose only press is "the rising edge of button 1 with action 3 (other edges
/// 0)".
const TOGGLE: [u8; 4] = [3, 0, 0, 0];

fn press(stamp: u32) -> Cue {
    (stamp, BUTTON_1, RISING)
}

fn wall_list(params: &Params, end: u32, items: &[Cue], actions: &[u8; 4]) -> Vec<u8> {
    let mut list = file(params, end, items);
    list.extend(actions);
    list
}

fn wall_run_all(list: &[u8]) -> Run<Pair> {
    wall_run(list, usize::MAX, usize::MAX)
}

fn play(list: &[u8]) -> Run<Pair> {
    let run = wall_run_all(list);
    assert_eq!((run.code, run.place), (0, 0));
    run
}

fn refused(list: &[u8], code: u8, place: u16) {
    let run = wall_run_all(list);
    assert_eq!((run.code, run.place), (code, place));
    assert_eq!((run.records.len(), run.answers.len(), run.sends.len()), (0, 0, 0));
    assert_eq!(run.end, Pair { actuator: state_of_a_refusal(), sensor: sensor_of_a_refusal() });
}

/// What the edges send, in order.
fn sends(run: &Run<Pair>) -> Vec<bool> {
    run.sends.iter().map(|sent| sent.on).collect()
}

const ON: bool = true;
const OFF: bool = false;

/// The records after the start record, what is sent, and the answers.
fn expect(list: &[u8], records: &[Written], sent: &[bool], answers: &[u8]) -> Run<Pair> {
    let run = play(list);
    assert_eq!(run.records, from_the_start(records));
    assert_eq!(sends(&run), sent);
    assert_eq!(run.answers, answers);
    run
}

fn sensor(actions: &[u8; 4]) -> Sensor {
    fresh_sensor(actions).0
}

fn worked_pair() -> Pair {
    Pair { actuator: actuator(&worked()), sensor: sensor(&TOGGLE) }
}

// ================================================================================================
// The readings of request 1
// ================================================================================================

#[test]
fn reading_1_1_four_octets() {
    let (given, code, place) = fresh_sensor(&[3, 0, 3, 0]);
    assert_eq!((code, place), (0, 0));
    let toggle = Action::SendInverse;
    assert_eq!(given.actions, [toggle, Action::Nothing, toggle, Action::Nothing]);
    for octets in [&[][..], &[3][..], &[3, 0, 3][..], &[3, 0, 3, 0, 2][..], &[9; 5][..]] {
        assert_eq!(fresh_sensor(octets), (sensor_of_a_refusal(), 1, 0));
    }
}

#[test]
fn reading_1_2_an_action_above_3_at_the_lowest_bad_octet() {
    assert_eq!(fresh_sensor(&[0, 4, 9, 0]), (sensor_of_a_refusal(), 11, 1));
    assert_eq!(sensor_of_a_refusal().actions, [Action::Nothing; 4]);
    assert_eq!((sensor_of_a_refusal().clock, sensor_of_a_refusal().value), (0, OFF));
}

#[test]
fn reading_1_3_a_status_is_0_or_1() {
    let fresh = sensor(&TOGGLE);
    assert_eq!(sensor_input(&fresh, &input((5, STATUS, 255))).code, 6);
    let heard = sensor_input(&fresh, &input((5, STATUS, 1)));
    assert_eq!((heard.code, heard.sensor.value, heard.sent), (0, ON, [0; 8]));
}

#[test]
fn reading_1_4_statuses_move_the_clock_too() {
    let heard = sensor_input(&sensor(&TOGGLE), &input((10, STATUS, 0))).sensor;
    assert_eq!(heard.clock, 10);
    assert_eq!(sensor_input(&heard, &input(press(9))).code, 7);
    let sent = sensor_input(&heard, &input(press(10)));
    assert_eq!((sent.code, sent.sent), (0, input((10, ON_OFF, 1))));
}

#[test]
fn reading_1_5_every_send_counts() {
    let items = [press(0), (5, BUTTON_2, RISING)];
    let list = wall_list(&delays(2, 0, 1, 0), 100, &items, &[2, 0, 3, 0]);
    expect(&list, &[], &[ON, OFF], &[0, 0]);
}

#[test]
fn reading_1_6_a_dropped_telegram_was_sent() {
    let items = [(0, BUS, 0), press(10), (20, BUS, 1), press(30)];
    let list = wall_list(&delays(0, 0, 1, 0), 100, &items, &TOGGLE);
    expect(&list, &[], &[ON, OFF], &[0, 4, 0, 1]);
}

#[test]
fn reading_1_7_a_cue_is_not_heard() {
    let list = wall_list(&delays(2, 0, 1, 0), 10, &[(0, ON_OFF, 1), press(5)], &TOGGLE);
    expect(&list, &[], &[ON], &[0, 1]);
}

#[test]
fn reading_1_8_a_record_of_attributes_alone_is_a_status() {
    let items = [press(0), (5, NIGHT, 1), press(10)];
    let list = wall_list(&delays(2, 0, 60, 0), 20, &items, &TOGGLE);
    expect(&list, &[(5, 0, 9, 6), (20, 255, 25, 0)], &[ON, ON], &[0, 0, 1]);
}

/// An Off at 100 whose record says on, and a press after it.
fn an_off_that_says_on(then: u32) {
    let items = [(0, NIGHT, 1), press(10), press(100), press(then)];
    let list = wall_list(&delays(0, 5, 60, 10), 1000, &items, &TOGGLE);
    let records = [(0, 0, 9, 6), (10, 255, 25, 1), (100, 255, 9, 1), (150, 0, 9, 0)];
    expect(&list, &records, &[ON, OFF, OFF], &[0, 0, 0, 1]);
}

#[test]
fn reading_1_9_the_record_of_an_off_may_say_on() {
    an_off_that_says_on(120);
}

#[test]
fn reading_1_10_a_tie_is_told_by_the_order_of_happening() {
    an_off_that_says_on(100);
}

#[test]
fn reading_1_11_a_timer_due_at_the_edge_is_heard_before_it() {
    let items = [(0, TIMED, 1), press(10)];
    let list = wall_list(&delays(0, 0, 1, 0), 10, &items, &TOGGLE);
    expect(&list, &[(0, 255, 17, 2), (10, 0, 1, 0), (10, 255, 1, 1)], &[ON], &[0, 0]);
    // also for an edge that sends nothing
    let list = wall_list(&delays(0, 0, 1, 0), 10, &items, &[0; 4]);
    let run = expect(&list, &[(0, 255, 17, 2), (10, 0, 1, 0)], &[], &[0, 1]);
    assert_eq!((run.end.sensor.value, run.records_before[1]), (OFF, 3));
}

#[test]
fn reading_1_12_each_record_is_heard_once() {
    let list = wall_list(&delays(2, 5, 1, 0), 40, &[press(0), press(20), press(30)], &TOGGLE);
    expect(&list, &[(20, 255, 1, 0)], &[ON, OFF, ON], &[0, 0, 0]);
}

#[test]
fn reading_1_13_timers_between_two_edges_are_heard() {
    let items = [(0, NIGHT, 1), press(10), press(100)];
    let list = wall_list(&delays(0, 0, 6, 1), 100, &items, &TOGGLE);
    let records = [(0, 0, 9, 6), (10, 255, 25, 1), (80, 0, 9, 0), (100, 255, 25, 1)];
    expect(&list, &records, &[ON, ON], &[0, 0, 0]);
}

#[test]
fn reading_1_14_the_records_of_a_bus_failure_are_heard() {
    let params = Params { bus_failure_mode: 2, ..delays(0, 0, 1, 0) };
    let list = wall_list(&params, 100, &[(10, BUS, 0), press(20)], &TOGGLE);
    expect(&list, &[(10, 255, 1, 7)], &[OFF], &[0, 4]);
}

#[test]
fn reading_1_15_a_power_failure_is_heard_as_its_record() {
    let items = [press(0), (10, POWER, 0), press(20), (30, POWER, 1), press(40)];
    let list = wall_list(&delays(0, 0, 1, 0), 100, &items, &TOGGLE);
    let records = [(0, 255, 1, 1), (10, 0, 0, 8), (30, 255, 1, 8), (40, 0, 1, 1)];
    expect(&list, &records, &[ON, ON, OFF], &[0, 0, 5, 0, 0]);
}

#[test]
fn reading_1_16_the_value_before_any_is_off() {
    let lit = State { phase: Phase::Lit, ..actuator(&delays(0, 0, 1, 0)) };
    let pair = Pair { actuator: lit, sensor: sensor(&TOGGLE) };
    let given = pair_single(&pair, &input(press(10)));
    assert_eq!((given.code, given.answer, given.sent), (0, 1, input((10, ON_OFF, 1))));
    assert!(given.records.is_empty());
    assert_eq!(given.pair.actuator, State { clock: 10, ..lit });
}

#[test]
fn reading_1_17_the_last_octets_of_an_edge_are_zero() {
    let pair = worked_pair();
    for place in [6, 7] {
        let mut octets = input(press(0));
        octets[place] = 5;
        assert_eq!(pair_single(&pair, &octets).code, 6);
        assert_eq!(sensor_input(&pair.sensor, &octets).code, 6);
    }
    assert_eq!(pair_single(&pair, &input(press(7))).sent, [0, 0, 0, 7, 1, 1, 0, 0]);
}

#[test]
fn reading_1_18_no_status_in_the_joined_list() {
    let pair = worked_pair();
    assert_eq!(pair_single(&pair, &input((0, STATUS, 1))).code, 6);
    refused(&wall_list(&worked(), 10, &[press(0), (5, STATUS, 0)], &TOGGLE), 6, 1);
}

#[test]
fn reading_1_19_an_edge_that_sends_nothing_is_answered_1() {
    let list = wall_list(&worked(), 10, &[press(0)], &[0; 4]);
    expect(&list, &[], &[], &[1]);
}

#[test]
fn reading_1_20_one_list_has_one_clock() {
    refused(&wall_list(&worked(), 10, &[(5, ON_OFF, 1), press(4)], &TOGGLE), 7, 1);
    refused(&wall_list(&worked(), 10, &[press(5), (4, ON_OFF, 1)], &TOGGLE), 7, 1);
    refused(&wall_list(&worked(), 10, &[press(11)], &TOGGLE), 7, 0);
    // by value, the actuator's clock decides, and the sensor's may be behind it
    let before =
        Pair { actuator: State { clock: 5, ..actuator(&worked()) }, sensor: sensor(&TOGGLE) };
    assert_eq!(pair_single(&before, &input(press(4))).code, 7);
    assert_eq!(pair_single(&before, &input(press(5))).code, 0);
}

#[test]
fn reading_1_21_the_sensors_clock_is_not_after_the_actuators() {
    let starting = Phase::Starting { timed: false, deadline: 200 };
    let state = State { clock: 100, phase: starting, ..actuator(&worked()) };
    let ahead = Pair { actuator: state, sensor: Sensor { clock: 500, ..sensor(&TOGGLE) } };
    let given = pair_single(&ahead, &input(press(600)));
    assert_eq!((given.code, given.pair), (9, ahead));
    assert_eq!(pair_clock_move(&ahead, 600).code, 9);
    let equal = Pair { actuator: state, sensor: Sensor { clock: 100, ..sensor(&TOGGLE) } };
    assert_eq!(pair_single(&equal, &input(press(600))).code, 0);
    assert_eq!(pair_clock_move(&equal, 600).code, 0);
}

#[test]
fn reading_1_22_the_end_time_is_heard() {
    let list = wall_list(&delays(0, 0, 6, 1), 70, &[(0, TIMED, 1)], &TOGGLE);
    let run = expect(&list, &[(0, 255, 17, 2), (70, 0, 1, 0)], &[], &[0]);
    assert_eq!((run.end.sensor.clock, run.end.sensor.value), (70, OFF));
    let list = wall_list(&delays(0, 0, 6, 1), 69, &[(0, TIMED, 1)], &TOGGLE);
    let run = expect(&list, &[(0, 255, 17, 2)], &[], &[0]);
    assert_eq!((run.end.sensor.clock, run.end.sensor.value), (0, ON));
}

#[test]
fn reading_1_23_no_edge_in_a_cue_file() {
    for (kind, value) in [(11, 0), (11, 1), (12, 0), (12, 1), (13, 0)] {
        let run = run(&file(&worked(), 10, &[(0, ON_OFF, 1), (5, kind, value)]), 1000, 1000);
        assert_eq!((run.code, run.place), (6, 1));
        assert_eq!(single(&actuator(&worked()), &input((5, kind, value))).code, 6);
    }
}

#[test]
fn reading_1_24_edges_are_not_paired() {
    let list = wall_list(&delays(2, 0, 1, 0), 100, &[press(0), press(5)], &TOGGLE);
    expect(&list, &[], &[ON, OFF], &[0, 0]);
}

// ================================================================================================
// Every edge, every action
// ================================================================================================

#[test]
fn each_edge_has_its_own_action() {
    let edges = [(11, 1), (11, 0), (12, 1), (12, 0)];
    for (place, (kind, value)) in edges.iter().enumerate() {
        for action in 0..4 {
            for last in [OFF, ON] {
                let mut actions = [0; 4];
                actions[place] = action;
                let before = Sensor { value: last, ..sensor(&actions) };
                let given = sensor_input(&before, &input((7, *kind, *value)));
                let sent = match action {
                    0 => None,
                    1 => Some(OFF),
                    2 => Some(ON),
                    _ => Some(!last),
                };
                let octets = sent.map_or([0; 8], |on| input((7, ON_OFF, u8::from(on))));
                assert_eq!((given.code, given.place, given.sent), (0, 0, octets));
                let wanted = Sensor { clock: 7, value: sent.unwrap_or(last), ..before };
                assert_eq!(given.sensor, wanted);
                // no other edge sends
                for (other, (kind, value)) in edges.iter().enumerate() {
                    if other != place {
                        let given = sensor_input(&before, &input((7, *kind, *value)));
                        assert_eq!(given.sensor, Sensor { clock: 7, ..before });
                        assert_eq!(given.sent, [0; 8]);
                    }
                }
            }
        }
    }
}

#[test]
fn a_silent_edge_moves_both_clocks() {
    let pair = worked_pair();
    let given = pair_single(&pair, &input((30, BUTTON_1, FALLING)));
    assert_eq!((given.answer, given.sent), (1, [0; 8]));
    assert_eq!((given.pair.actuator.clock, given.pair.sensor.clock), (30, 30));
}

#[test]
fn a_cue_moves_the_sensors_clock_by_its_records_alone() {
    let pair = worked_pair();
    let pair = pair_single(&pair, &input((5, ON_OFF, 1))).pair;
    assert_eq!((pair.actuator.clock, pair.sensor.clock, pair.sensor.value), (5, 0, OFF));
    let moved = pair_clock_move(&pair, 30);
    assert_eq!(moved.records, [record((25, 255, 1, 0))]);
    let sensor = moved.state.sensor;
    assert_eq!((moved.state.actuator.clock, sensor.clock, sensor.value), (30, 25, ON));
}

#[test]
fn three_timers_and_the_telegram_in_one_edge() {
    // on at 20, Warning at 620, dark at 720, then the press: its On waits for the delay
    let pair = worked_pair();
    let pair = pair_single(&pair, &input((0, TIMED, 1))).pair;
    let given = pair_single(&pair, &input(press(720)));
    assert_eq!(given.records, [record((20, 255, 17, 0)), record((720, 0, 1, 0))]);
    assert_eq!((given.answer, given.sent), (0, input((720, ON_OFF, 1))));
    // without that delay the telegram's own record is the third
    let params = Params { on_delay: 0, ..worked() };
    let starting = Phase::Starting { timed: true, deadline: 20 };
    let state = State { phase: starting, ..actuator(&params) };
    let given = pair_single(&Pair { actuator: state, ..pair }, &input(press(720)));
    let records = [(20, 255, 17, 0), (720, 0, 1, 0), (720, 255, 1, 1)];
    assert_eq!(given.records, records.map(record));
    assert_eq!((given.pair.sensor.value, given.pair.sensor.clock), (ON, 720));
}

// ================================================================================================
// The printout
// ================================================================================================

#[test]
fn printout_of_edges() {
    // a timer at the stamp of a press, a press that is dropped, and an edge that sends nothing
    let items = [(0, TIMED, 1), press(10), (10, BUTTON_1, FALLING), (20, LOCK, 1), press(30)];
    let list = wall_list(&delays(0, 0, 1, 0), 40, &items, &TOGGLE);
    assert_eq!(
        print_wall(&list),
        "OK 5\nR 0 0 1 0\nR 0 255 17 2\nA 0 0\nR 10 0 1 0\nS 1 1\nR 10 255 1 1\nA 1 0\nA 2 1\n\
         R 20 255 3 5\nA 3 0\nS 4 0\nA 4 3\nE 5\n"
    );
}

#[test]
fn printout_of_a_refused_list() {
    assert_eq!(print_wall(&[]), "NO 1 0\n");
    assert_eq!(print_wall(&wall_list(&worked(), 10, &[], &[0, 0, 4, 0])), "NO 11 2\n");
    assert_eq!(print_wall(&wall_list(&worked(), 10, &[press(5), press(4)], &TOGGLE)), "NO 7 1\n");
}

// ================================================================================================
// Refusals
// ================================================================================================

#[test]
fn a_list_under_56_octets() {
    let list = wall_list(&worked(), 10, &[], &TOGGLE);
    assert_eq!(list.len(), 56);
    play(&list);
    for len in 0..56 {
        refused(&list[..len], 1, 0);
    }
    // before the version is looked at
    refused(&[9; 55], 1, 0);
    refused(&[9; 56], 2, 0);
}

#[test]
fn the_refusals_of_the_run_in_their_order() {
    for version in VERSIONS {
        // what is wrong, worst last: each outranks those before it
        let params = in_version(version, &worked());
        let mut list = wall_list(&params, 10, &[press(3), press(2)], &TOGGLE);
        let (items, actions) = (inputs_at(&list), list.len() - 4);
        refused(&list, 7, 1);
        list[items + 8 + 5] = 2;
        refused(&list, 6, 1);
        list[items + 5] = 2;
        refused(&list, 6, 0);
        list[actions + 3] = 4;
        refused(&list, 11, 3);
        list[actions + 1] = 255;
        refused(&list, 11, 1);
        list[items - 1] = 1;
        refused(&list, 5, items as u16 - 21);
        list[items - 24] = 3;
        refused(&list, 5, items as u16 - 44);
        list[16..20].copy_from_slice(&(LAST_STAMP + 1).to_be_bytes());
        refused(&list, 4, 0);
        list[3] = 2;
        refused(&list, 3, 0);
        list[1] = 3;
        refused(&list, 2, 0);
        list.truncate(55);
        refused(&list, 1, 0);
    }
}

#[test]
fn the_length_is_56_and_8_for_each_item() {
    let list = wall_list(&worked(), 10, &[press(3)], &TOGGLE);
    play(&list);
    for len in 56..64 {
        refused(&list[..len], 4, 0);
    }
    for more in 1..20 {
        let mut longer = list.clone();
        longer.extend(vec![0; more]);
        refused(&longer, 4, 0);
    }
    // the header says as many items as there are octets for
    let mut list = list;
    list[11] = 0;
    refused(&list, 4, 0);
}

#[test]
fn kinds_and_values_of_a_wall_list() {
    for params in VERSIONS.map(|version| in_version(version, &worked())) {
        for kind in 0..=255 {
            for value in 0..=255 {
                let good = is_cue(kind, value) || (matches!(kind, 11 | 12) && value < 2);
                let list = wall_list(&params, 10, &[(0, ON_OFF, 1), (5, kind, value)], &TOGGLE);
                let run = wall_run(&list, 1000, 1000);
                let wanted = if good { (0, 0) } else { (6, 1) };
                assert_eq!((run.code, run.place), wanted, "kind {} value {}", kind, value);
            }
        }
    }
}

#[test]
fn zero_octets_of_a_wall_list() {
    for params in VERSIONS.map(|version| in_version(version, &worked())) {
        let list = wall_list(&params, 10, &[(0, ON_OFF, 1), press(5)], &TOGGLE);
        for octet in [6, 7] {
            refused(&with(&list, inputs_at(&list) + 8 + octet, 1), 6, 1);
        }
    }
}

#[test]
fn short_buffers() {
    let list = wall_list(&worked(), 10, &[press(3), press(4)], &TOGGLE);
    assert_eq!(wall_run(&list, 8 * 9, 2).code, 0);
    for (records, answers) in [(8 * 9 - 1, 2), (8 * 9, 1), (0, 0)] {
        let run = wall_run(&list, records, answers);
        assert_eq!((run.code, run.place), (8, 0));
    }
    // an input's refusal comes before
    let list = wall_list(&worked(), 10, &[press(3), press(2)], &TOGGLE);
    assert_eq!(number(&wall_run(&list, 0, 0)), 7 << 48 | 1 << 32);
}

#[test]
fn an_action_of_each_octet() {
    for place in 0..4 {
        for octet in 0..=255 {
            let mut actions = [0; 4];
            actions[place] = octet;
            let list = wall_list(&worked(), 10, &[press(3)], &actions);
            let run = wall_run(&list, 1000, 1000);
            let wanted = if octet > 3 { (11, place as u16) } else { (0, 0) };
            assert_eq!((run.code, run.place), wanted);
            assert_eq!((fresh_sensor(&actions).1, fresh_sensor(&actions).2), wanted);
        }
    }
}

#[test]
fn the_sensor_alone_refuses_9_then_6_then_7() {
    let at_10 = Sensor { clock: 10, value: ON, ..sensor(&[3, 3, 3, 3]) };
    let late = Sensor { clock: LAST_STAMP + 1, ..at_10 };
    let refused = |sensor: &Sensor, octets: [u8; 8], code: u8| {
        let wanted = Sensed { sensor: *sensor, code, place: 0, sent: [0; 8] };
        assert_eq!(sensor_input(sensor, &octets), wanted);
    };
    refused(&late, input((9, 14, 2)), 9);
    refused(&late, input(press(LAST_STAMP)), 9);
    refused(&at_10, input((9, 14, 2)), 6);
    for kind in (0..=10).chain(14..=255) {
        refused(&at_10, input((10, kind, 1)), 6);
    }
    for kind in [11, 12, 13] {
        refused(&at_10, input((10, kind, 2)), 6);
        refused(&at_10, [0, 0, 0, 10, kind, 0, 1, 0], 6);
        refused(&at_10, [0, 0, 0, 10, kind, 1, 0, 1], 6);
        refused(&at_10, input((9, kind, 1)), 7);
        refused(&at_10, input((LAST_STAMP + 1, kind, 1)), 7);
        assert_eq!(sensor_input(&at_10, &input((LAST_STAMP, kind, 1))).code, 0);
    }
    let last = Sensor { clock: LAST_STAMP, ..at_10 };
    assert_eq!(sensor_input(&last, &input(press(LAST_STAMP))).code, 0);
}

#[test]
fn the_pair_refuses_9_then_6_then_7() {
    let state = State { clock: 10, ..actuator(&worked()) };
    let good = Pair { actuator: state, sensor: Sensor { clock: 4, ..sensor(&TOGGLE) } };
    let unsound = [
        Pair { sensor: Sensor { clock: LAST_STAMP + 1, ..good.sensor }, ..good },
        Pair { sensor: Sensor { clock: 11, ..good.sensor }, ..good },
        Pair { actuator: State { clock: LAST_STAMP + 1, ..state }, ..good },
        Pair { actuator: State { phase: Phase::Timed { deadline: 10 }, ..state }, ..good },
    ];
    let refused = |pair: &Pair, octets: [u8; 8], code: u8| {
        let given = pair_single(pair, &octets);
        let wanted =
            PairSingle { pair: *pair, code, place: 0, answer: 0, records: vec![], sent: [0; 8] };
        assert_eq!(given, wanted);
    };
    for pair in &unsound {
        refused(pair, input((9, 13, 2)), 9);
        refused(pair, input(press(20)), 9);
        refused(pair, input((20, ON_OFF, 1)), 9);
        for stamp in [9, 20] {
            let wanted = Move { state: *pair, code: 9, place: 0, records: vec![] };
            assert_eq!(pair_clock_move(pair, stamp), wanted);
        }
    }
    refused(&good, input((9, 13, 0)), 6);
    for kind in [0, 9, 10, 13, 14, 255] {
        refused(&good, input((10, kind, 1)), 6);
    }
    for stamp in [0, 4, 9, LAST_STAMP + 1, u32::MAX] {
        refused(&good, input(press(stamp)), 7);
        refused(&good, input((stamp, ON_OFF, 1)), 7);
        let wanted = Move { state: good, code: 7, place: 0, records: vec![] };
        assert_eq!(pair_clock_move(&good, stamp), wanted);
    }
}

// ================================================================================================
// Tenths in the delays (request 2)
// ================================================================================================

#[test]
fn lengths_55_to_65_of_each_version() {
    let codes = |version: u8, items: &[Cue]| -> [u8; 11] {
        let list = wall_list(&in_version(version, &worked()), 10, items, &TOGGLE);
        [55, 56, 57, 58, 59, 60, 61, 62, 63, 64, 65].map(|length| {
            let run = wall_run(&resized(&list, length), 1000, 1000);
            assert_eq!(run.place, 0);
            run.code
        })
    };
    assert_eq!(codes(1, &[]), [1, 0, 4, 4, 4, 4, 4, 4, 4, 4, 4]);
    assert_eq!(codes(1, &[press(5)]), [1, 4, 4, 4, 4, 4, 4, 4, 4, 0, 4]);
    assert_eq!(codes(2, &[]), [1, 1, 1, 1, 1, 1, 1, 1, 1, 0, 4]);
    assert_eq!(codes(2, &[press(5)]), [1, 1, 1, 1, 1, 1, 1, 1, 1, 4, 4]);
    for version in [0, 3, 255] {
        assert_eq!(codes(version, &[]), [1, 2, 2, 2, 2, 2, 2, 2, 2, 2, 2]);
    }
}

#[test]
fn version_2_under_64_octets_comes_before_the_actuators_and_the_actions() {
    let list = with(&wall_list(&tenths(0, 0, 1, 0), 10, &[], &[4; 4]), 3, 2);
    refused(&list[..63], 1, 0);
    refused(&list, 3, 0);
    refused(&with(&list, 3, 1), 11, 0);
}

#[test]
fn a_time_out_of_range_comes_before_the_actions() {
    for (time, params) in [
        (0, tenths(655_351, 0, 1, 0)),
        (4, tenths(0, 655_351, 0, 0)),
        (8, tenths(0, 0, 0, 0)),
        (8, tenths(0, 0, 655_351, 655_351)),
        (12, tenths(0, 0, 1, u32::MAX)),
    ] {
        refused(&wall_list(&params, 10, &[press(11)], &[4; 4]), 5, time);
    }
}

#[test]
fn presses_meet_timers_to_the_tenth() {
    // Warning at 605, dark at 630: a press in the tenth before finds the light on, one at it finds it out
    for (stamp, sent) in [(629, OFF), (630, ON)] {
        let items = [(5, TIMED, 1), press(stamp)];
        let run = play(&wall_list(&tenths(0, 13, 600, 25), 1000, &items, &TOGGLE));
        assert_eq!(sends(&run), [sent]);
    }
    // a toggle of a delay of 7 tenths, heard at its end
    let items = [press(0), press(6), press(20), press(27)];
    let list = wall_list(&tenths(7, 13, 1, 0), 100, &items, &TOGGLE);
    expect(&list, &[(27, 255, 1, 0), (40, 0, 1, 0)], &[ON, OFF, ON, OFF], &[0, 0, 0, 0]);
}

#[test]
fn the_pair_keeps_its_version_and_is_sound_by_it() {
    let pair = |params: &Params| Pair { actuator: actuator(params), sensor: sensor(&TOGGLE) };
    let new = pair(&tenths(7, 13, 61, 25));
    let pressed = pair_single(&new, &input(press(3)));
    assert_eq!((pressed.code, pressed.pair.actuator.params.version), (0, 2));
    let moved = pair_clock_move(&pressed.pair, 500);
    assert_eq!((moved.code, moved.state.actuator.params), (0, new.actuator.params));
    for version in [0, 1, 3, 255] {
        let params = in_version(version, &new.actuator.params);
        let other = Pair { actuator: State { params, ..new.actuator }, ..new };
        assert!(!pair_sound(&other));
        assert_eq!(pair_single(&other, &input(press(3))).code, 9);
        assert_eq!(pair_clock_move(&other, 3).code, 9);
    }
}

#[test]
fn the_same_times_give_the_same_in_either_version() {
    let mut rng = Rng::new(108);
    for _ in 0..10_000 {
        let n = files::length(&mut rng);
        let [old, new] = &LAYOUTS;
        let list = WallList::random_in(old, &mut rng, n);
        let octets = list.octets();
        let plain = play(&octets);
        let twin = play(&WallList { cues: list.cues.in_version(new), ..list }.octets());
        assert_eq!(number(&plain), number(&twin));
        assert_eq!((&plain.records, &plain.answers), (&twin.records, &twin.answers));
        assert_eq!((&plain.records_before, &plain.sends), (&twin.records_before, &twin.sends));
        let params = in_version(2, &plain.end.actuator.params);
        let actuator = State { params, ..plain.end.actuator };
        assert_eq!(Pair { actuator, ..plain.end }, twin.end);
    }
}

// ================================================================================================
// Noted values (request 4)
// ================================================================================================

#[test]
fn a_telegram_is_no_value_and_is_dropped_as_before() {
    let params = delays(0, 0, 60, 10);
    let items = [(0, LOCK, 1), press(10), (15, FORCED, 3), press(20), (30, LOCK, 0), press(40)];
    let list = wall_list(&params, 100, &items, &TOGGLE);
    // under the lock with 3, under the force that was noted there with 2
    let records = [(0, 0, 3, 5), (15, 0, 7, 4), (30, 255, 5, 5)];
    expect(&list, &records, &[ON, ON, OFF], &[0, 3, 6, 3, 0, 2]);
}

#[test]
fn the_record_of_a_noted_value_is_heard() {
    // a press under the lock turned the value, the record of a noted night turns it back
    let params = delays(0, 0, 60, 10);
    let items = |value| [(0, LOCK, 1), press(10), (20, NIGHT, value), press(30)];
    let list = wall_list(&params, 100, &items(1), &TOGGLE);
    expect(&list, &[(0, 0, 3, 5), (20, 0, 11, 6)], &[ON, ON], &[0, 3, 6, 3]);
    // an equal one writes none
    let list = wall_list(&params, 100, &items(0), &TOGGLE);
    expect(&list, &[(0, 0, 3, 5)], &[ON, OFF], &[0, 3, 1, 3]);
    // nor does a force that is noted for the other
    let items = [(0, LOCK, 1), (5, FORCED, 3), press(10), (20, FORCED, 2), press(30)];
    let list = wall_list(&params, 100, &items, &TOGGLE);
    expect(&list, &[(0, 0, 3, 5), (5, 0, 7, 4)], &[ON, OFF], &[0, 6, 3, 6, 3]);
}

#[test]
fn a_press_after_a_release_into_the_night_is_timed() {
    let params = delays(0, 0, 60, 10);
    let items = [(0, FORCED, 2), (10, NIGHT, 1), (20, FORCED, 0), press(30)];
    let list = wall_list(&params, 1000, &items, &TOGGLE);
    let records = [(0, 0, 5, 4), (10, 0, 13, 6), (20, 0, 9, 4), (30, 255, 25, 1), (730, 0, 9, 0)];
    expect(&list, &records, &[ON], &[0, 6, 0, 0]);
}

// ================================================================================================
// What holds of every wall list
// ================================================================================================

/// Random lists, some of them spoilt.
fn any_lists(seed: u64, count: usize, mut check: impl FnMut(&[u8])) {
    let mut rng = Rng::new(seed);
    for _ in 0..count {
        let n = files::length(&mut rng);
        let list = WallList::random(&mut rng, n);
        let octets = if rng.chance(15) { list.spoilt(&mut rng) } else { list.octets() };
        check(&octets);
    }
}

/// Those among them that are accepted, and what they give.
fn any_accepted(seed: u64, count: usize, mut check: impl FnMut(&[u8], Run<Pair>)) {
    any_lists(seed, count, |list| {
        let run = wall_run_all(list);
        if run.code == 0 {
            check(list, run);
        }
    });
}

/// The items of an accepted list.
fn items(list: &[u8]) -> Vec<[u8; 8]> {
    let octets = |item: &[u8]| <[u8; 8]>::try_from(item).unwrap();
    list[inputs_at(list)..list.len() - 4].chunks_exact(8).map(octets).collect()
}

#[test]
fn a_cue_file_before_any_actions_is_the_plain_run() {
    let mut rng = Rng::new(101);
    for _ in 0..20_000 {
        let n = files::length(&mut rng);
        let show = CueFile::random(&mut rng, n).spoilt_if(rng.chance(30), &mut rng);
        let octets = show.octets();
        let has_edge = show.inputs.iter().any(|item| is_edge(item));
        for actions in [[0; 4], [0; 4].map(|_: u8| rng.below(4) as u8)] {
            let list = [&octets[..], &actions[..]].concat();
            let (records, answers) = (8 * (3 * n + 3) - usize::from(rng.chance(5)), n);
            let (plain, joined) =
                (run(&octets, records, answers), wall_run(&list, records, answers));
            if has_edge {
                continue;
            }
            assert_eq!(number(&plain), number(&joined));
            assert_eq!((&plain.records, &plain.answers), (&joined.records, &joined.answers));
            assert_eq!(plain.records_before, joined.records_before);
            assert_eq!(plain.end, joined.end.actuator);
            assert!(joined.sends.is_empty());
            if plain.code == 0 {
                assert_eq!(print(&octets), print_wall(&list));
            }
        }
    }
}

#[test]
fn the_actuator_plays_the_telegrams() {
    // demand 2 over the pair, first half: the list with each edge replaced by what it sends (and taken
    // out where it sends nothing) is a cue file with the same records, answers and end state
    let mut telegrams = 0;
    any_accepted(102, 20_000, |list, run| {
        let mut cues = Vec::new();
        let mut answers = Vec::new();
        for (index, item) in items(list).iter().enumerate() {
            let sent = run.sends.iter().find(|sent| sent.index == index);
            let mut octets = *item;
            if let Some(sent) = sent {
                octets[4..6].copy_from_slice(&[ON_OFF, u8::from(sent.on)]);
                telegrams += 1;
            }
            if is_edge(item) && sent.is_none() {
                assert_eq!(run.answers[index], 1);
            } else {
                cues.push(octets);
                answers.push(run.answers[index]);
            }
        }
        let mut file = list[..inputs_at(list)].to_vec();
        file[8..12].copy_from_slice(&(cues.len() as u32).to_be_bytes());
        file.extend(cues.concat());
        let plain = run_all(&file);
        assert_eq!((plain.code, &plain.records, &plain.answers), (0, &run.records, &answers));
        assert_eq!(plain.end, run.end.actuator);
    });
    assert!(telegrams > 50_000, "{}", telegrams);
}

#[test]
fn the_sensor_hears_the_records() {
    // demand 2 over the pair, second half: the sensor alone, given each record as a status and each
    // edge after the records that precede it, sends the same
    let mut statuses = 0;
    any_accepted(103, 20_000, |list, run| {
        let mut sensor = fresh_sensor(&list[list.len() - 4..]).0;
        let mut heard = 0;
        let mut hear_up_to = |sensor: &mut Sensor, count: usize| {
            for r in &run.records[heard..count] {
                let given = sensor_input(sensor, &input((r.stamp, STATUS, r.value / 255)));
                assert_eq!((given.code, given.sent), (0, [0; 8]));
                *sensor = given.sensor;
                statuses += 1;
            }
            heard = count;
        };
        for (index, item) in items(list).iter().enumerate() {
            let sent = run.sends.iter().find(|sent| sent.index == index);
            if is_edge(item) {
                let before = sent.map_or(run.records_before[index], |sent| sent.records_before);
                hear_up_to(&mut sensor, before);
                let given = sensor_input(&sensor, item);
                let stamp = stamp_of(item);
                let octets = |sent: &Sent| input((stamp, ON_OFF, u8::from(sent.on)));
                assert_eq!((given.code, given.sent), (0, sent.map_or([0; 8], octets)));
                sensor = given.sensor;
            }
            hear_up_to(&mut sensor, run.records_before[index]);
        }
        hear_up_to(&mut sensor, run.records.len());
        assert_eq!(sensor, run.end.sensor);
    });
    assert!(statuses > 50_000, "{}", statuses);
}

#[test]
fn by_value_step_by_step_is_the_run() {
    any_accepted(104, 20_000, |list, run| {
        // the start record is heard, and changes nothing of a fresh sensor
        let mut pair = Pair {
            actuator: fresh(parameters_in(list)).0,
            sensor: fresh_sensor(&list[list.len() - 4..]).0,
        };
        let mut records = vec![record((0, 0, 1, 0))];
        let mut sends = 0;
        for (index, item) in items(list).iter().enumerate() {
            let given = pair_single(&pair, item);
            assert_eq!((given.code, given.answer), (0, run.answers[index]));
            assert!(pair_sound(&given.pair) && given.records.len() <= 3);
            records.extend(given.records);
            assert_eq!(records.len(), run.records_before[index]);
            sends += usize::from(given.sent != [0; 8]);
            pair = given.pair;
        }
        let last = pair_clock_move(&pair, u32_at(list, 16));
        assert!(last.code == 0 && last.records.len() <= 2);
        records.extend(last.records);
        assert_eq!((&records, sends, last.state), (&run.records, run.sends.len(), run.end));
    });
}

#[test]
fn lent_buffers_hold_what_the_run_gives() {
    let mut rng = Rng::new(105);
    any_lists(106, 20_000, |list| {
        let (room, places) = enough(inputs_in(list).min(4096));
        let (room, places) = match rng.below(10) {
            0 => (room - 1, places),
            1 => (room, places.saturating_sub(1)),
            2 => (room + 9, places + 3),
            _ => (room, places),
        };
        let run = wall_run(list, room, places);
        let (mut records, mut answers) = (vec![0xA5; room], vec![0x5A; places]);
        let wanted = written_over(&records, &answers, &run.records, &run.answers);
        assert_eq!(wall_run_into(list, &mut records, &mut answers), number(&run));
        assert_eq!((records, answers), wanted);
    });
}
