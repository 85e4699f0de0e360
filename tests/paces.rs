//! The comparison of the program `paces` with the independent model: plays the same steps on the
//! model and prints the same lines.
//!
//!     rustc --edition 2021 -O paces.rs -o paces && ./paces <../crates/paces/stdin
//!
//! The forms of the steps and of the lines stand at the top of crates/paces/src/main.rt.
mod live;
mod model;
mod wall;

use live::{flag_of, Image, STATE_OCTETS};
use model::{record_octets, u32_at, Record, State};
use std::io::{Read, Write};
use wall::{Action, Pair, Sensor, EDGES};

/// Octets of the steps; past their end they are 0.
struct Steps {
    octets: Vec<u8>,
    at: usize,
}

impl Steps {
    fn octet(&mut self) -> u8 {
        let octet = self.octets.get(self.at).copied().unwrap_or(0);
        self.at += 1;
        octet
    }

    fn array<const N: usize>(&mut self) -> [u8; N] {
        let mut array = [0; N];
        for place in array.iter_mut() {
            *place = self.octet();
        }
        array
    }

    /// So many octets as the next one says.
    fn counted(&mut self) -> Vec<u8> {
        (0..self.octet()).map(|_| self.octet()).collect()
    }
}

/// The state of an image, which must say nothing that a state does not hold.
fn state_in(octets: Image) -> State {
    let state = live::said_by(&octets).expect("an image of a state, sound or not");
    assert!(octets[21] <= 1 && octets[25..40].iter().step_by(2).all(|flags| *flags <= 3));
    assert_eq!(live::image(&state), octets);
    state
}

const SENSOR_OCTETS: usize = EDGES + 5;

/// "its four actions, its clock in four octets, its value"
fn sensor_in(octets: [u8; SENSOR_OCTETS]) -> Sensor {
    let [one, two, three, four, ..] = octets;
    let known = |octet| wall::action(octet).expect("an action of 0 to 3");
    Sensor {
        actions: [one, two, three, four].map(known),
        clock: u32_at(&octets, EDGES),
        value: flag_of(octets[EDGES + 4]).expect("a value of 0 or 1"),
    }
}

/// The actions in the order of their numbers.
const ACTIONS: [Action; 4] =
    [Action::Nothing, Action::SendOff, Action::SendOn, Action::SendInverse];

fn sensor_octets(sensor: &Sensor) -> Vec<u8> {
    let number = |action: &Action| ACTIONS.iter().position(|known| known == action);
    let numbers = sensor.actions.iter().map(|action| number(action).expect("a number") as u8);
    let mut octets: Vec<u8> = numbers.collect();
    octets.extend(sensor.clock.to_be_bytes());
    octets.push(u8::from(sensor.value));
    octets
}

/// "hexadecimal digits, in groups of eight"
fn digits(octets: &[u8]) -> String {
    let mut text = String::new();
    for eight in octets.chunks(8) {
        text.push(' ');
        text.extend(eight.iter().map(|octet| format!("{:02x}", octet)));
    }
    text
}

/// What a call says beside its states: code, place, answer and count.
fn report_text(code: u8, place: u16, answer: u8, count: usize) -> String {
    format!(" > {} {} {} {}", code, place, answer, count)
}

/// What stands in a lent buffer: what was written at its front, and the pattern behind.
fn lent_text(written: &[u8], room: usize, pattern: u8) -> String {
    let mut octets = vec![pattern; room];
    octets[..written.len()].copy_from_slice(written);
    format!(" |{}", digits(&octets))
}

/// "by-value records not used are 0"
fn records_text(records: &[Record], places: usize) -> String {
    let unused = Record { stamp: 0, value: 0, attributes: 0, cause: 0 };
    assert!(records.len() <= places);
    let mut text = String::new();
    for place in 0..places {
        let octets = record_octets(records.get(place).unwrap_or(&unused));
        text += " |";
        text += &digits(&octets[..7]);
    }
    text
}

struct Player {
    now: Pair,
    kept: Pair,
    text: Vec<u8>,
}

impl Player {
    fn write(&mut self, parts: &[&str]) {
        self.text.extend(parts.concat().into_bytes());
        self.text.push(b'\n');
    }

    fn title(&mut self, text: Vec<u8>) {
        self.text.extend(text);
        self.text.push(b'\n');
    }

    fn pair_in(&mut self, state: Image, sensor: [u8; SENSOR_OCTETS]) {
        self.now = Pair { actuator: state_in(state), sensor: sensor_in(sensor) };
    }

    fn sensor_text(&self) -> String {
        format!(" |{}", digits(&sensor_octets(&self.now.sensor)))
    }

    fn pair_text(&self) -> String {
        format!(" |{}{}", digits(&live::image(&self.now.actuator)), self.sensor_text())
    }

    fn fresh_sensor(&mut self, octets: &[u8]) {
        let (sensor, code, place) = wall::fresh_sensor(octets);
        self.now.sensor = sensor;
        let sensor = self.sensor_text();
        self.write(&["N", &digits(octets), &report_text(code, place, 0, 0), &sensor]);
    }

    fn sensor_input(&mut self, o: [u8; 8]) {
        let given = wall::sensor_input(&self.now.sensor, &o);
        self.now.sensor = given.sensor;
        let report = report_text(given.code, given.place, 0, 0);
        let sensor = self.sensor_text();
        self.write(&["E", &digits(&o), &report, " |", &digits(&given.sent), &sensor]);
    }

    fn pair_single(&mut self, o: [u8; 8]) {
        let given = wall::pair_single(&self.now, &o);
        self.now = given.pair;
        let report = report_text(given.code, given.place, given.answer, given.records.len());
        let records = records_text(&given.records, 3);
        let pair = self.pair_text();
        self.write(&["J", &digits(&o), &report, &records, " |", &digits(&given.sent), &pair]);
    }

    fn pair_clock_move(&mut self, o: [u8; 4]) {
        let given = wall::pair_clock_move(&self.now, u32::from_be_bytes(o));
        self.now = given.state;
        let report = report_text(given.code, given.place, 0, given.records.len());
        let records = records_text(&given.records, 2);
        let pair = self.pair_text();
        self.write(&["M", &digits(&o), &report, &records, &pair]);
    }

    fn single(&mut self, o: [u8; 8]) {
        let given = model::single(&self.now.actuator, &o);
        self.now.actuator = given.state;
        let report = report_text(given.code, given.place, given.answer, given.records.len());
        let records = records_text(&given.records, 3);
        let pair = self.pair_text();
        self.write(&["S", &digits(&o), &report, &records, &pair]);
    }

    fn clock_move(&mut self, o: [u8; 4]) {
        let given = model::clock_move(&self.now.actuator, u32::from_be_bytes(o));
        self.now.actuator = given.state;
        let report = report_text(given.code, given.place, 0, given.records.len());
        let records = records_text(&given.records, 2);
        let pair = self.pair_text();
        self.write(&["C", &digits(&o), &report, &records, &pair]);
    }

    /// "with room for four"
    fn change(&mut self, inputs: &[u8]) {
        const RECORDS: usize = 8 * (3 * 4 + 3);
        const ANSWERS: usize = 4;
        let given = live::change(&self.now.actuator, inputs, RECORDS, ANSWERS);
        self.now.actuator = given.state;
        let report = report_text(given.code, given.place, 0, given.records.len());
        let written: Vec<u8> = given.records.iter().flat_map(record_octets).collect();
        let records = lent_text(&written, RECORDS, 165);
        let answers = lent_text(&given.answers, ANSWERS, 90);
        let pair = self.pair_text();
        self.write(&["H", &digits(inputs), &report, &records, &answers, &pair]);
    }

    fn step(&mut self, steps: &mut Steps) -> bool {
        match steps.octet() {
            b'T' => self.title(steps.counted()),
            b'P' => self.pair_in(steps.array(), steps.array()),
            b'N' => self.fresh_sensor(&steps.counted()),
            b'E' => self.sensor_input(steps.array()),
            b'J' => self.pair_single(steps.array()),
            b'M' => self.pair_clock_move(steps.array()),
            b'S' => self.single(steps.array()),
            b'C' => self.clock_move(steps.array()),
            b'H' => self.change(&steps.counted()),
            b'K' => self.kept = self.now,
            b'B' => self.now = self.kept,
            0 => return false,
            letter => panic!("no step has the letter {}", letter),
        }
        true
    }
}

fn main() {
    let mut steps = Steps { octets: Vec::new(), at: 0 };
    std::io::stdin().read_to_end(&mut steps.octets).expect("reading the steps");
    let actuator = state_in([0; STATE_OCTETS]);
    let now = Pair { actuator, sensor: sensor_in([0; SENSOR_OCTETS]) };
    let mut player = Player { now, kept: now, text: Vec::new() };
    while player.step(&mut steps) {}
    assert_eq!(steps.at, steps.octets.len() + 1, "all steps are played");
    std::io::stdout().write_all(&player.text).expect("writing the lines");
}
