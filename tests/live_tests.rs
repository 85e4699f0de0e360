//! Tests of the model of the live calls: the image of a state, document 02's request 3 reading by
//! reading, the noted values of its request 4 in an image, and the four calls for C.
//!
//!     rustc --edition 2021 --test -O live_tests.rs -o t && ./t
mod cases;
mod files;
mod images;
mod live;
mod model;

use cases::*;
use files::{resized, with, CueFile, Rng, LAYOUTS};
use images::{broken, Fields, RULES};
use live::*;
use model::*;

/// What stands in lent memory before a call.
const BEFORE: u8 = 0xA5;

/// Inputs as octets, one after the other.
fn groups(cues: &[Cue]) -> Vec<u8> {
    cues.iter().flat_map(|cue| input(*cue)).collect()
}

/// A change with room enough.
fn changed(state: &State, inputs: &[u8]) -> Change {
    change(state, inputs, usize::MAX, usize::MAX)
}

/// What a change for C gives: the number, the image, and the two buffers.
#[derive(Clone, Debug, PartialEq, Eq)]
struct Given {
    number: u64,
    image: Vec<u8>,
    records: Vec<u8>,
    answers: Vec<u8>,
}

/// A change for C, into buffers of these lengths.
fn change_c(image: &[u8], inputs: &[u8], records_len: usize, answers_len: usize) -> Given {
    let mut given = Given {
        number: 0,
        image: image.to_vec(),
        records: vec![BEFORE; records_len],
        answers: vec![BEFORE; answers_len],
    };
    given.number = change_into(&mut given.image, inputs, &mut given.records, &mut given.answers);
    given
}

/// The same with just the room that it needs.
fn change_in_room(image: &[u8], inputs: &[u8]) -> Given {
    let n = inputs.len() / 8;
    change_c(image, inputs, 8 * (3 * n + 3), n)
}

fn number_of(code: u8, place: u16, count: usize) -> u64 {
    u64::from(code) << 48 | u64::from(place) << 32 | count as u64
}

/// What a change by value is for C.
fn for_c(change: &Change, records_len: usize, answers_len: usize) -> Given {
    let (records, answers) = (vec![BEFORE; records_len], vec![BEFORE; answers_len]);
    let (records, answers) = written_over(&records, &answers, &change.records, &change.answers);
    let number = number_of(change.code, change.place, change.records.len());
    Given { number, image: image(&change.state).to_vec(), records, answers }
}

/// A refusal that writes nothing.
fn writes_nothing(given: &Given, image: &[u8], code: u8) {
    assert_eq!(given.number, u64::from(code) << 48);
    assert_eq!(given.image, image);
    assert!(given.records.iter().chain(&given.answers).all(|octet| *octet == BEFORE));
}

/// The worked times and modes, which have an on delay of 2 seconds and an off delay of 5.
fn house() -> State {
    actuator(&worked())
}

/// Inputs that a state takes, some of them spoilt.
fn any_inputs(state: &State, rng: &mut Rng) -> Vec<u8> {
    let n = rng.below(20) as usize;
    let widest = files::widest_gap(rng);
    let mut inputs = files::inputs_from(state.clock, widest, n, rng).concat();
    if n > 0 && rng.chance(40) {
        let at = rng.below(8 * n as u64) as usize;
        inputs[at] = rng.next() as u8;
    }
    inputs
}

// ================================================================================================
// The image of a state
// ================================================================================================

#[test]
fn the_image_of_a_fresh_state() {
    let mut scenes = no_scenes();
    scenes[0] = Scene { number: 7, flags: 3 };
    let (state, code, _) = fresh(&parameter_octets(&worked(), &scenes));
    assert_eq!(code, 0);
    let mut wanted = vec![0, 0, 0, 20, 0, 0, 0, 50, 0, 0, 2, 88, 0, 0, 0, 100];
    wanted.extend([0, 3, 0, 0, 0, 0, 0, 0, 7, 3]);
    wanted.extend([255, 0].repeat(7));
    wanted.push(1);
    wanted.extend([0; 15]);
    assert_eq!(image(&state).to_vec(), wanted);
}

#[test]
fn the_image_of_a_state_in_which_every_field_has_its_own_number() {
    let params = Params {
        version: 2,
        on_delay: 0x0102,
        off_delay: 0x0304,
        timed_on: 0x0506,
        prewarning: 0x0708,
        behaviour_at_locking: 1,
        behaviour_at_unlocking: 3,
        bus_failure_mode: 2,
        bus_return_mode: 1,
        power_return_mode: 2,
        scene_learning_mode_enable: 1,
    };
    let scenes = [0, 1, 2, 3, 4, 5, 6, 7].map(|i| Scene { number: 10 + i, flags: i % 4 });
    let (fresh_one, _, _) = fresh(&parameter_octets(&params, &scenes));
    let state = State {
        clock: 0x0001_0203,
        phase: Phase::Warning { deadline: 0x0001_0304 },
        night: true,
        link: Link::BusDown,
        output_at_power_failure: true,
        ..fresh_one
    };
    let mut wanted = vec![0, 0, 1, 2, 0, 0, 3, 4, 0, 0, 5, 6, 0, 0, 7, 8, 1, 3, 2, 1, 2, 1, 0, 0];
    wanted.extend([10, 0, 11, 1, 12, 2, 13, 3, 14, 0, 15, 1, 16, 2, 17, 3]);
    wanted.extend([2, 1, 0, 0, 1, 0, 1, 5, 0, 1, 2, 3, 0, 1, 3, 4]);
    assert_eq!(image(&state).to_vec(), wanted);
    assert_eq!(state_of(&wanted), Some(state));
}

/// The octets 41 to 55 of the image of this state.
fn tail(state: &State) -> Vec<u8> {
    assert!(sound(state), "{:?}", state);
    assert_eq!(state_of(&image(state)).as_ref(), Some(state));
    image(state)[41..].to_vec()
}

#[test]
fn the_numbers_of_flags_force_link_and_phase() {
    let base = State { clock: 5, ..house() };
    let with_phase = |phase| State { phase, ..base };
    let number_of_phase = |phase| tail(&with_phase(phase))[6];
    assert_eq!(tail(&base), [0, 0, 0, 0, 0, 0, 0, 0, 0, 0, 5, 0, 0, 0, 0]);
    assert_eq!(tail(&State { night: true, ..base })[0], 1);
    assert_eq!(tail(&State { lock: true, ..base })[1], 1);
    assert_eq!(tail(&State { force: Force::Off, ..base })[2], 2);
    assert_eq!(tail(&State { force: Force::On, ..with_phase(Phase::Lit) })[2], 3);
    assert_eq!(tail(&State { link: Link::BusDown, ..base })[3], 1);
    assert_eq!(tail(&State { link: Link::PowerDown, ..base })[3], 2);
    assert_eq!(tail(&State { output_at_locking: true, ..base })[4], 1);
    assert_eq!(tail(&State { output_at_power_failure: true, ..base })[5], 1);
    assert_eq!(number_of_phase(Phase::Dark), 0);
    assert_eq!(number_of_phase(Phase::Lit), 1);
    assert_eq!(number_of_phase(Phase::Starting { timed: false, deadline: 6 }), 2);
    assert_eq!(number_of_phase(Phase::Starting { timed: true, deadline: 6 }), 3);
    assert_eq!(number_of_phase(Phase::Timed { deadline: 6 }), 4);
    assert_eq!(number_of_phase(Phase::Warning { deadline: 6 }), 5);
    assert_eq!(number_of_phase(Phase::Ending { deadline: 6 }), 6);
}

#[test]
fn an_image_of_every_state_on_the_way_is_read_back() {
    let mut rng = Rng::new(1);
    for _ in 0..20_000 {
        let state = any_end(30, &mut rng);
        assert_eq!(state_of(&image(&state)), Some(state));
    }
}

#[test]
fn an_image_is_accepted_exactly_where_no_rule_is_broken() {
    let mut rng = Rng::new(2);
    let mut broken_alone = [0; RULES.len()];
    let mut sound_ones = 0;
    for _ in 0..200_000 {
        let layout = files::Layout::random(&mut rng);
        let mut fields = Fields::random_in(layout, &mut rng);
        for _ in 0..rng.below(3) {
            fields.spoil(&mut rng);
        }
        let octets = fields.octets();
        assert_eq!(Fields::of(&octets), fields);
        let state = state_of(&octets);
        match broken(&fields)[..] {
            [] => sound_ones += 1,
            [rule] => broken_alone[rule] += 1,
            _ => {}
        }
        assert_eq!(state.is_some(), broken(&fields).is_empty(), "{:?}", fields);
        if let Some(state) = state {
            assert!(sound(&state));
            assert_eq!(image(&state).to_vec(), octets);
        }
    }
    assert!(sound_ones > 20_000, "{}", sound_ones);
    for (rule, count) in RULES.iter().zip(broken_alone) {
        assert!(count > 20, "{} is broken alone {} times", rule.name, count);
    }
}

#[test]
fn each_damaged_octet_is_refused_or_spells_another_state() {
    let mut rng = Rng::new(3);
    for _ in 0..60 {
        let good = image(&any_end(30, &mut rng)).to_vec();
        for octet in 0..STATE_OCTETS {
            for value in (0..=255).filter(|value| *value != good[octet]) {
                let damaged = with(&good, octet, value);
                match state_of(&damaged) {
                    Some(state) => assert_eq!(image(&state).to_vec(), damaged),
                    None => assert!(!broken(&Fields::of(&damaged)).is_empty()),
                }
            }
        }
    }
}

/// The values that an octet of an image may have while the others stay.
fn accepted_values(good: &[u8], octet: usize) -> Vec<u8> {
    (0..=255).filter(|value| state_of(&with(good, octet, *value)).is_some()).collect()
}

#[test]
fn the_values_of_each_octet_from_16_on() {
    let good = image(&actuator(&tenths(0, 13, 61, 25))).to_vec();
    let up_to = |most: u8| (0..=most).collect::<Vec<u8>>();
    let modes = [2, 3, 2, 2, 2, 1, 0, 0].map(up_to);
    for (place, values) in modes.iter().enumerate() {
        assert_eq!(accepted_values(&good, 16 + place), *values);
    }
    let numbers: Vec<u8> = (0..64).chain([255]).collect();
    for entry in 0..8 {
        assert_eq!(accepted_values(&good, 24 + 2 * entry), numbers);
        assert_eq!(accepted_values(&good, 25 + 2 * entry), [0]);
        let used = with(&good, 24 + 2 * entry, 63);
        assert_eq!(accepted_values(&used, 25 + 2 * entry), up_to(3));
    }
    // In version 1 tenths that are no whole seconds are out of range.
    assert_eq!(accepted_values(&good, 40), [2]);
    let whole_seconds = image(&house()).to_vec();
    assert_eq!(accepted_values(&whole_seconds, 40), [1, 2]);
    assert_eq!(accepted_values(&good, 41), [0, 1]);
    assert_eq!(accepted_values(&good, 42), [0, 1]);
    assert_eq!(accepted_values(&good, 43), [0, 2]);
    assert_eq!(accepted_values(&with(&good, 42, 1), 43), [0, 2, 3]);
    assert_eq!(accepted_values(&good, 44), [0, 1, 2]);
    assert_eq!(accepted_values(&good, 45), [0, 1]);
    assert_eq!(accepted_values(&good, 46), [0, 1]);
    assert_eq!(accepted_values(&good, 47), [0, 1]);
    assert_eq!(accepted_values(&with(&good, 55, 9), 47), [2, 3, 4, 5, 6]);
}

#[test]
fn an_image_of_another_length_is_refused() {
    let good = image(&house()).to_vec();
    for length in (0..120).filter(|length| *length != STATE_OCTETS) {
        assert_eq!(state_of(&resized(&good, length)), None);
    }
}

#[test]
fn unsound_states_have_images_that_are_refused() {
    let base = house();
    for unsound in [
        State { force: Force::On, ..base },
        State { night: true, phase: Phase::Lit, ..base },
        State { lock: true, phase: Phase::Timed { deadline: 1 }, ..base },
        State { phase: Phase::Ending { deadline: 0 }, ..base },
        State { phase: Phase::Ending { deadline: 655_351 }, ..base },
        State { clock: 864_001, ..base },
        State { link: Link::PowerDown, night: true, ..base },
        State { params: Params { on_delay: 15, ..base.params }, ..base },
        State { params: Params { version: 3, ..base.params }, ..base },
    ] {
        assert!(!sound(&unsound));
        assert_eq!(state_of(&image(&unsound)), None);
        assert_eq!(changed(&unsound, &[]).code, 9);
    }
}

// ================================================================================================
// Request 3, reading by reading
// ================================================================================================

#[test]
fn reading_3_1_the_room_is_that_of_a_run() {
    let good = image(&house());
    writes_nothing(&change_c(&good, &[], 23, 0), &good, 8);
    assert_eq!(change_c(&good, &[], 24, 0).number, 0);
    let two = groups(&[(0, ON_OFF, 1), (5, ON_OFF, 0)]);
    writes_nothing(&change_c(&good, &two, 71, 2), &good, 8);
    writes_nothing(&change_c(&good, &two, 72, 1), &good, 8);
    assert_eq!(change_c(&good, &two, 72, 2).number >> 48, 0);
}

#[test]
fn reading_3_2_no_start_record_and_no_clock_move_at_the_end() {
    let at_once = actuator(&delays(0, 0, 60, 10));
    let given = changed(&at_once, &groups(&[(0, ON_OFF, 1)]));
    assert_eq!((given.code, given.place), (0, 0));
    assert_eq!(given.records, [record((0, 255, 1, 1))]);
    let given = changed(&house(), &groups(&[(7, TIMED, 1)]));
    assert!(given.records.is_empty());
    let starting = Phase::Starting { timed: true, deadline: 27 };
    assert_eq!((given.state.clock, given.state.phase), (7, starting));
}

#[test]
fn reading_3_3_what_went_before_a_refused_input_stands() {
    let inputs = groups(&[(0, ON_OFF, 1), (100, ON_OFF, 0), (120, ON_OFF, 2)]);
    let given = changed(&house(), &inputs);
    assert_eq!((given.code, given.place), (6, 2));
    assert_eq!(given.records, [record((20, 255, 1, 0))]);
    assert_eq!(given.answers, [0, 0]);
    assert_eq!((given.state.clock, given.state.phase), (100, Phase::Ending { deadline: 150 }));
    // octets after them stay
    assert_eq!(change_in_room(&image(&house()), &inputs), for_c(&given, 96, 3));
}

#[test]
fn reading_3_3_a_refused_stamp_does_not_move_the_clock_either() {
    let given = changed(&house(), &groups(&[(0, ON_OFF, 1), (864_001, ON_OFF, 0)]));
    assert_eq!((given.code, given.place), (7, 1));
    let starting = Phase::Starting { timed: false, deadline: 20 };
    assert_eq!((given.state.clock, given.state.phase), (0, starting));
}

#[test]
fn reading_3_4_the_place_is_the_index_in_this_call() {
    let first = changed(&house(), &groups(&[(0, ON_OFF, 1), (1, ON_OFF, 1), (2, ON_OFF, 1)]));
    let bad_first = groups(&[(3, 9, 1), (4, ON_OFF, 0)]);
    let second = changed(&first.state, &bad_first);
    assert_eq!((second.code, second.place), (6, 0));
    assert_eq!((second.state, second.records.len()), (first.state, 0));
    // 9, 12 and 8: place 0, count 0, nothing written
    let good = image(&house());
    writes_nothing(
        &change_in_room(&with(&good, 42, 2), &groups(&[(3, ON_OFF, 1)])),
        &with(&good, 42, 2),
        9,
    );
    writes_nothing(&change_c(&good, &[0; 9], 1000, 1000), &good, 12);
    writes_nothing(&change_c(&good, &groups(&[(3, ON_OFF, 1)]), 47, 1), &good, 8);
}

#[test]
fn reading_3_5_9_then_12_then_8_before_any_input_is_looked_at() {
    let good = image(&house());
    let bad_input = groups(&[(0, ON_OFF, 2)]);
    writes_nothing(&change_c(&good, &bad_input, 0, 0), &good, 8);
    writes_nothing(&change_c(&good, &bad_input[..7], 0, 0), &good, 12);
    let unsound = with(&good, 41, 2);
    writes_nothing(&change_c(&unsound, &bad_input[..7], 0, 0), &unsound, 9);
    writes_nothing(&change_c(&unsound, &bad_input, 1000, 1000), &unsound, 9);
    writes_nothing(&change_c(&good[..55], &bad_input, 1000, 1000), &good[..55], 9);
}

#[test]
fn reading_3_6_0_to_256_groups_and_no_part_of_one() {
    let good = image(&house());
    let inputs = groups(&[(0, ON_OFF, 0); 300]);
    let code = |length: usize| change_c(&good, &inputs[..length], 10_000, 300).number >> 48;
    for n in [0, 1, 2, 60, 255, 256] {
        assert_eq!(code(8 * n), 0);
    }
    for length in [2_049, 2_055, 8 * 257, 8 * 258, 8 * 300] {
        assert_eq!(code(length), 12);
    }
    for length in (0..2_048).filter(|length| length % 8 != 0) {
        assert_eq!(code(length), 12);
    }
}

#[test]
fn reading_3_7_6_or_7_as_met() {
    let clock_50 = clock_move(&house(), 50).state;
    let given = |cues: &[Cue]| {
        let given = changed(&clock_50, &groups(cues));
        (given.code, given.place)
    };
    assert_eq!(given(&[(49, ON_OFF, 1), (50, ON_OFF, 2)]), (7, 0));
    assert_eq!(given(&[(50, ON_OFF, 2), (49, ON_OFF, 1)]), (6, 0));
    assert_eq!(given(&[(49, ON_OFF, 2)]), (6, 0));
    assert_eq!(given(&[(50, ON_OFF, 1), (49, ON_OFF, 2)]), (6, 1));
    assert_eq!(given(&[(50, ON_OFF, 1), (49, ON_OFF, 1)]), (7, 1));
    assert_eq!(given(&[(60, ON_OFF, 1), (59, ON_OFF, 1)]), (7, 1));
    // there is no end time here
    assert_eq!(given(&[(864_000, ON_OFF, 1), (864_000, ON_OFF, 0)]), (0, 0));
    assert_eq!(given(&[(864_001, ON_OFF, 1)]), (7, 0));
    assert_eq!(given(&[(u32::MAX, ON_OFF, 1)]), (7, 0));
}

#[test]
fn reading_3_8_demand_1_holds_from_the_refused_input_on() {
    let before = house();
    let inputs = groups(&[(0, ON_OFF, 1), (30, NIGHT, 1), (29, ON_OFF, 0), (31, ON_OFF, 0)]);
    let given = changed(&before, &inputs);
    assert_eq!((given.code, given.place), (7, 2));
    assert_ne!(given.state, before);
    // it hands back the state that the refused input was given, and writes nothing from there on
    let accepted = changed(&before, &inputs[..16]);
    assert_eq!(given, Change { code: 7, place: 2, ..accepted.clone() });
    assert_eq!(single(&accepted.state, &input((29, ON_OFF, 0))).state, given.state);
}

/// What two changes give as one: the second is played where the first was not refused.
fn joined(first: Change, inputs: &[u8], after: usize) -> Change {
    if first.code != 0 {
        return first;
    }
    let second = changed(&first.state, inputs);
    let place = second.place + if second.code == 0 { 0 } else { after as u16 };
    Change {
        state: second.state,
        code: second.code,
        place,
        records: [first.records, second.records].concat(),
        answers: [first.answers, second.answers].concat(),
    }
}

#[test]
fn reading_3_9_a_list_may_be_cut_in_two_at_any_place() {
    let mut rng = Rng::new(9);
    for _ in 0..3_000 {
        let state = any_end(30, &mut rng);
        let inputs = any_inputs(&state, &mut rng);
        let whole = changed(&state, &inputs);
        for cut in 0..=inputs.len() / 8 {
            let (x, y) = inputs.split_at(8 * cut);
            assert_eq!(joined(changed(&state, x), y, cut), whole);
        }
    }
}

#[test]
fn a_change_is_its_single_inputs_joined() {
    let mut rng = Rng::new(10);
    let mut codes = [0; 13];
    for _ in 0..20_000 {
        let mut state = any_end(30, &mut rng);
        let inputs = any_inputs(&state, &mut rng);
        let whole = changed(&state, &inputs);
        codes[usize::from(whole.code)] += 1;
        let (mut records, mut answers) = (Vec::new(), Vec::new());
        let mut refusal = (0, 0);
        for (index, octets) in inputs.chunks_exact(8).enumerate() {
            let one = single(&state, octets.try_into().unwrap());
            if one.code != 0 {
                refusal = (one.code, index as u16);
                break;
            }
            state = one.state;
            records.extend(one.records);
            answers.push(one.answer);
        }
        let (code, place) = refusal;
        assert_eq!(whole, Change { state, code, place, records, answers });
    }
    assert!(codes[0] > 100 && codes[6] > 100 && codes[7] > 100, "{:?}", codes);
}

// ================================================================================================
// Noted values (request 4)
// ================================================================================================

#[test]
fn an_image_keeps_noted_values_from_call_to_call() {
    let mut octets = image(&house()).to_vec();
    let mut play = |cue: Cue| {
        let given = change_in_room(&octets, &groups(&[cue]));
        assert_eq!(given.number >> 48, 0);
        octets = given.image;
        // night, lock, force, and the phase
        (given.answers[0], [octets[41], octets[42], octets[43], octets[47]])
    };
    assert_eq!(play((0, LOCK, 1)), (0, [0, 1, 0, 0]));
    assert_eq!(play((10, FORCED, 3)), (6, [0, 1, 3, 0]));
    assert_eq!(play((20, NIGHT, 1)), (6, [1, 1, 3, 0]));
    assert_eq!(play((25, NIGHT, 1)), (1, [1, 1, 3, 0]));
    assert_eq!(play((30, LOCK, 0)), (0, [1, 0, 3, 1]));
    assert_eq!(play((40, FORCED, 0)), (0, [1, 0, 0, 4]));
    assert_eq!(octets[52..], 640u32.to_be_bytes());
}

#[test]
fn reading_4_12_an_image_of_a_lock_with_a_noted_force_is_sound() {
    let locked = State { lock: true, force: Force::On, ..house() };
    assert_eq!(state_of(&image(&locked)), Some(locked));
    let unlocked = image(&State { lock: false, ..locked });
    writes_nothing(&change_in_room(&unlocked, &groups(&[(0, NIGHT, 1)])), &unlocked, 9);
}

#[test]
fn what_was_noted_before_a_refused_input_stands() {
    let inputs = groups(&[(0, LOCK, 1), (5, FORCED, 2), (6, NIGHT, 1), (5, LOCK, 0)]);
    let given = changed(&house(), &inputs);
    assert_eq!((given.code, given.place, given.answers), (7, 3, vec![0, 6, 6]));
    let noted = State { clock: 6, lock: true, force: Force::Off, night: true, ..house() };
    assert_eq!(given.state, noted);
}

// ================================================================================================
// The calls for C
// ================================================================================================

#[test]
fn a_change_for_c_is_the_change_by_value() {
    let mut rng = Rng::new(11);
    for _ in 0..20_000 {
        let state = any_end(30, &mut rng);
        let inputs = any_inputs(&state, &mut rng);
        let n = inputs.len() / 8;
        let records_len =
            (8 * (3 * n + 3) + rng.below(24) as usize).saturating_sub(rng.below(9) as usize);
        let answers_len = n + rng.below(3) as usize;
        let by_value = change(&state, &inputs, records_len, answers_len);
        let given = change_c(&image(&state), &inputs, records_len, answers_len);
        assert_eq!(given, for_c(&by_value, records_len, answers_len));
    }
}

#[test]
fn fresh_for_c() {
    let given = |parameters: &[u8], state_len: usize| {
        let mut state = vec![BEFORE; state_len];
        (fresh_into(parameters, &mut state), state)
    };
    for version in VERSIONS {
        let octets = parameter_octets(&in_version(version, &worked()), &no_scenes());
        let wanted = image(&fresh(&octets).0).to_vec();
        assert_eq!(wanted[40], version);
        assert_eq!(given(&octets, 56), (0, wanted));
        for length in [0, 55, 57] {
            assert_eq!(given(&octets, length), (8 << 48, vec![BEFORE; length]));
        }
        // 1, then 5, then 8
        let bad = with(&octets, octets.len() - 1, 1);
        let place = octets.len() as u16 - 1;
        assert_eq!(given(&bad, 56), (number_of(5, place, 0), vec![BEFORE; 56]));
        assert_eq!(given(&bad, 0).0, number_of(5, place, 0));
        assert_eq!(given(&bad[1..], 56), (1 << 48, vec![BEFORE; 56]));
        assert_eq!(given(&bad[1..], 0).0, 1 << 48);
    }
    assert_eq!(given(&[], 56), (1 << 48, vec![BEFORE; 56]));
}

/// A clock move for C: the number, the image, and the records.
fn move_c(image: &[u8], stamp: u32, room: usize) -> (u64, Vec<u8>, Vec<u8>) {
    let (mut state, mut records) = (image.to_vec(), vec![BEFORE; room]);
    let number = move_into(&mut state, stamp, &mut records);
    (number, state, records)
}

/// What a clock move by value is for C.
fn moved_for_c(moved: &Move, room: usize) -> (u64, Vec<u8>, Vec<u8>) {
    let (records, _) = written_over(&vec![BEFORE; room], &[], &moved.records, &[]);
    let number = number_of(moved.code, moved.place, moved.records.len());
    (number, image(&moved.state).to_vec(), records)
}

#[test]
fn a_clock_move_for_c() {
    let starting = changed(&house(), &groups(&[(10, TIMED, 1)])).state;
    let before = image(&starting).to_vec();
    let by_value = clock_move(&starting, 864_000);
    assert_eq!(by_value.records.len(), 2);
    assert_eq!(move_c(&before, 864_000, 17), moved_for_c(&by_value, 17));
    // to its own clock: nothing but the image as it was
    assert_eq!(move_c(&before, 10, 16), (0, before.clone(), vec![BEFORE; 16]));
    // 9, then 7, then 8
    let refused = |image: &[u8], stamp, room, code: u64| {
        assert_eq!(move_c(image, stamp, room), (code << 48, image.to_vec(), vec![BEFORE; room]));
    };
    refused(&before, 20, 15, 8);
    refused(&before, 20, 0, 8);
    for stamp in [0, 9, 864_001, u32::MAX] {
        refused(&before, stamp, 16, 7);
        refused(&before, stamp, 0, 7);
        refused(&with(&before, 47, 7), stamp, 0, 9);
    }
    refused(&before[..55], 20, 16, 9);
    refused(&[], 20, 16, 9);
}

#[test]
fn clock_moves_for_c_are_those_by_value() {
    let mut rng = Rng::new(12);
    for _ in 0..20_000 {
        let state = any_end(30, &mut rng);
        let stamp = (state.clock + rng.below(5_000) as u32).saturating_sub(rng.below(50) as u32);
        let by_value = clock_move(&state, stamp);
        assert_eq!(move_c(&image(&state), stamp, 16), moved_for_c(&by_value, 16));
    }
}

#[test]
fn a_run_to_a_state_is_the_run_and_its_end() {
    let mut rng = Rng::new(13);
    let mut codes = [0; 9];
    for _ in 0..20_000 {
        let n = rng.below(20) as usize;
        let show = CueFile::random(&mut rng, n).spoilt_if(rng.chance(50), &mut rng);
        let mut file = show.octets();
        if rng.chance(2) {
            file.truncate(rng.below(60) as usize);
        }
        let state_len = if rng.chance(10) { rng.below(70) as usize } else { STATE_OCTETS };
        let records_len = 8 * (3 * n + 3) - usize::from(rng.chance(5));
        let (mut state, mut records, mut answers) =
            (vec![BEFORE; state_len], vec![BEFORE; records_len], vec![BEFORE; n]);
        let (mut plain_records, mut plain_answers) = (records.clone(), answers.clone());
        let plain = run(&file, records_len, n);
        let number = run_to_into(&file, &mut state, &mut records, &mut answers);
        let wanted = if plain.code == 0 && state_len != STATE_OCTETS {
            8 << 48
        } else {
            run_into(&file, &mut plain_records, &mut plain_answers)
        };
        assert_eq!(number, wanted);
        assert_eq!((records, answers), (plain_records, plain_answers));
        let code = (number >> 48) as usize;
        codes[code] += 1;
        let end = if code == 0 { image(&plain.end).to_vec() } else { vec![BEFORE; state_len] };
        assert_eq!(state, end);
    }
    assert!(codes.iter().all(|count| *count > 20), "{:?}", codes);
}

#[test]
fn live_from_a_run_on_is_the_longer_run() {
    let mut rng = Rng::new(14);
    for _ in 0..5_000 {
        let n = rng.below(40) as usize;
        let layout = files::Layout::random(&mut rng);
        let show = CueFile::random_in(layout, &mut rng, n);
        let whole = run_all(&show.octets());
        let cut = rng.below(n as u64 + 1) as usize;
        let at_the_cut = if cut == 0 { 0 } else { files::stamp_of(&show.inputs[cut - 1]) };
        let (first, second) = show.inputs.split_at(cut);
        let (second, end) = (second.concat(), show.end);
        let head = CueFile { inputs: first.to_vec(), count: cut as u32, end: at_the_cut, ..show };
        let before = run_all(&head.octets());
        let live = changed(&before.end, &second);
        let last = clock_move(&live.state, end);
        assert_eq!([before.records, live.records, last.records].concat(), whole.records);
        assert_eq!([before.answers, live.answers].concat(), whole.answers);
        assert_eq!(last.state, whole.end);
    }
    assert_eq!(LAYOUTS.len(), VERSIONS.len());
}
