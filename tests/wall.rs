//! The wall buttons of document 02, request 1, as an independent model: the Light Switching Sensor
//! of source document 003 alone, joined with the actuator of document 01 (model.rs), and over a
//! whole wall list.
//!
//! Written from documents 01 and 02 and the source documents 003 and 000 alone. Each rule stands
//! under the sentence it renders; "document 02" without more is its request 1. Where that can be
//! read in two ways, the comment over the rule says which way is taken.
#![allow(dead_code)]

use crate::model::{
    accept_header_and_parameters, accept_inputs, accept_room, accept_single, decode_input,
    move_clock, move_of, number_of, printed, record_of, refuse, run_of, sound, stamp_refused,
    state_of_a_refusal, take_input, u32_at, Cues, Input, Move, Record, Refusal, Run, State, Tape,
    VecTape, CAUSE_START, INPUT, LAST_STAMP, LEAST_FILE,
};

// ================================================================================================
// The sensor
// ================================================================================================

/// "each edge with a PBAction (0 nothing, 1 send Off, 2 send On, 3 send the inverse of InfoOnOff)"
#[derive(Clone, Copy, Debug, PartialEq, Eq)]
pub enum Action {
    Nothing,
    SendOff,
    SendOn,
    SendInverse,
}

/// The action that an octet of the sensor's parameters spells; none "above 3".
pub fn action(octet: u8) -> Option<Action> {
    match octet {
        0 => Some(Action::Nothing),
        1 => Some(Action::SendOff),
        2 => Some(Action::SendOn),
        3 => Some(Action::SendInverse),
        _ => None,
    }
}

/// "two buttons, four edges"
///
/// In the order of 003's parameters: ModePB1RisingEdge (PID 121), ModePB1FallingEdge (122),
/// ModePB2RisingEdge (123), ModePB2FallingEdge (124). "two buttons" is LSSBMode 2, so there is no
/// octet for the mode.
pub const EDGES: usize = 4;

/// One edge of one button. Edges are not paired: two rising edges in a row both act.
#[derive(Clone, Copy, Debug, PartialEq, Eq)]
pub enum Edge {
    Button1Rising,
    Button1Falling,
    Button2Rising,
    Button2Falling,
}

/// The place of an edge's action among the four.
fn place_of(edge: Edge) -> usize {
    match edge {
        Edge::Button1Rising => 0,
        Edge::Button1Falling => 1,
        Edge::Button2Rising => 2,
        Edge::Button2Falling => 3,
    }
}

/// The sensor: its four actions, the clock that "7 ... as for the actuator" needs, and the one
/// value of 000, 1.1.2.3 ("SOO = IOO"; "DP_SOO = InvertValue(DP_SOO)"): "the last value sent or
/// received as InfoOnOff, whichever is later".
#[derive(Clone, Copy, Debug, PartialEq, Eq)]
pub struct Sensor {
    pub actions: [Action; EDGES],
    pub clock: u32,
    pub value: bool,
}

/// "the value before any is off", also where the actuator beside it is lit.
fn sensor_with(actions: [Action; EDGES]) -> Sensor {
    Sensor { actions, clock: 0, value: false }
}

/// "Where no state was handed in, a refusal's state is the fresh one with ... other times and modes
/// 0" (document 01): no edge sends.
pub fn sensor_of_a_refusal() -> Sensor {
    sensor_with([Action::Nothing; EDGES])
}

/// "Refusals: 11, an action above 3, where 5 stands for the sensor's parameters": with 5's place,
/// the lowest bad octet, 0 to 3.
fn accept_actions(octets: &[u8]) -> Result<Sensor, Refusal> {
    let mut actions = [Action::Nothing; EDGES];
    for (place, octet) in octets.iter().enumerate() {
        match action(*octet) {
            Some(action) => actions[place] = action,
            None => return refuse(11, place as u16),
        }
    }
    Ok(sensor_with(actions))
}

/// The sensor's parameters alone give the fresh sensor, with code and place; "1 | ... parameters
/// offered alone not" as long as they must be (document 01).
pub fn fresh_sensor(parameters: &[u8]) -> (Sensor, u8, u16) {
    if parameters.len() != EDGES {
        return (sensor_of_a_refusal(), 1, 0);
    }
    match accept_actions(parameters) {
        Err(refusal) => (sensor_of_a_refusal(), refusal.code, refusal.place),
        Ok(sensor) => (sensor, 0, 0),
    }
}

/// "9 as for the actuator": "the clock is at most 864,000" (document 01). An action cannot be out
/// of range here.
pub fn sensor_sound(sensor: &Sensor) -> bool {
    sensor.clock <= LAST_STAMP
}

/// An edge at t, and the value that it sends, if any.
///
/// "it sends the inverse of the last value sent or received": "Each subsequent transmission on the
/// DP SOO will have an inverted value compared to the previous transmission" (000, rule 1). Every
/// send counts, by action 1 or 2 too, and whatever becomes of it: if InfoOnOff is not received,
/// "then output SwitchOnOff will still toggle" (003, 1.5.4).
fn press(sensor: &mut Sensor, edge: Edge, t: u32) -> Option<bool> {
    sensor.clock = t;
    let sent = match sensor.actions[place_of(edge)] {
        Action::Nothing => None,
        Action::SendOff => Some(false),
        Action::SendOn => Some(true),
        Action::SendInverse => Some(!sensor.value),
    };
    if let Some(on) = sent {
        sensor.value = on;
    }
    sent
}

/// A status at t: "on each reception of IOO, SOO becomes the value of IOO" (000, rule 2).
fn hear(sensor: &mut Sensor, on: bool, t: u32) {
    sensor.clock = t;
    sensor.value = on;
}

/// "yields stamped switch inputs": an input of document 01, kind 1, at the edge's own stamp.
fn telegram(t: u32, on: bool) -> [u8; 8] {
    let s = t.to_be_bytes();
    [s[0], s[1], s[2], s[3], 1, u8::from(on), 0, 0]
}

/// Eight octets by value: the telegram, or zeros where none was sent.
fn sent_octets(t: u32, sent: Option<bool>) -> [u8; 8] {
    sent.map_or([0; 8], |on| telegram(t, on))
}

// ================================================================================================
// The sensor alone
// ================================================================================================

/// "The sensor takes stamped edges and status values", in eight octets as document 01's inputs:
/// kind 11 button 1, 12 button 2 (1 rising, 0 falling), 13 status (0 or 1, as InfoOnOff is of DPT
/// 1.001, 003 1.5.4).
fn decode_edge(octets: &[u8]) -> Option<Edge> {
    if octets[6] != 0 || octets[7] != 0 {
        return None;
    }
    match (octets[4], octets[5]) {
        (11, 1) => Some(Edge::Button1Rising),
        (11, 0) => Some(Edge::Button1Falling),
        (12, 1) => Some(Edge::Button2Rising),
        (12, 0) => Some(Edge::Button2Falling),
        _ => None,
    }
}

fn decode_status(octets: &[u8]) -> Option<bool> {
    match octets[4..8] {
        [13, value @ 0..=1, 0, 0] => Some(value == 1),
        _ => None,
    }
}

/// What the sensor takes.
enum Event {
    Edge(Edge),
    Status(bool),
}

fn decode_event(octets: &[u8]) -> Option<Event> {
    let status = || decode_status(octets).map(Event::Status);
    decode_edge(octets).map(Event::Edge).or_else(status)
}

/// What one input to the sensor alone gives.
#[derive(Clone, Debug, PartialEq, Eq)]
pub struct Sensed {
    pub sensor: Sensor,
    pub code: u8,
    pub place: u16,
    pub sent: [u8; 8],
}

/// "6, 7 and 9 as for the actuator": "For a single input 9, 6, 7, place 0" (document 01). Edges and
/// statuses move the clock; a refused input hands the sensor back, and nothing is sent.
pub fn sensor_input(sensor: &Sensor, octets: &[u8; 8]) -> Sensed {
    let refused = |code| Sensed { sensor: *sensor, code, place: 0, sent: [0; 8] };
    let said = decode_event(octets);
    let event = match accept_single(sensor_sound(sensor), said, octets, sensor.clock) {
        Ok(event) => event,
        Err(refusal) => return refused(refusal.code),
    };
    let t = u32_at(octets, 0);
    let mut moved = *sensor;
    let sent = match event {
        Event::Edge(edge) => press(&mut moved, edge, t),
        Event::Status(on) => {
            hear(&mut moved, on, t);
            None
        }
    };
    Sensed { sensor: moved, code: 0, place: 0, sent: sent_octets(t, sent) }
}

// ================================================================================================
// The pair
// ================================================================================================

/// "Joined": the actuator and its sensor.
#[derive(Clone, Copy, Debug, PartialEq, Eq)]
pub struct Pair {
    pub actuator: State,
    pub sensor: Sensor,
}

/// Both sound, and the sensor's clock not after the actuator's: a record between the two clocks
/// could not be heard.
pub fn pair_sound(pair: &Pair) -> bool {
    sound(&pair.actuator) && sensor_sound(&pair.sensor) && pair.sensor.clock <= pair.actuator.clock
}

/// "each record is a status at its stamp, heard before the next edge"
///
/// Each record, also one in which only attributes changed, once, where it is written. Its value is
/// on exactly where it is 255.
struct Heard<'a, T: Tape> {
    tape: &'a mut T,
    sensor: &'a mut Sensor,
}

impl<T: Tape> Tape for Heard<'_, T> {
    fn record(&mut self, record: Record) {
        self.tape.record(record);
        hear(self.sensor, record.value == 255, record.stamp);
    }

    fn answer(&mut self, answer: u8) {
        self.tape.answer(answer);
    }
}

/// What the pair takes: the actuator's kinds and edges, in one list. A status (kind 13) is not among
/// them: joined, "each record is a status", and no other source is named.
enum Item {
    Cue(Input),
    Edge(Edge),
}

fn decode_item(octets: &[u8]) -> Option<Item> {
    let cue = || decode_input(octets).map(Item::Cue);
    decode_edge(octets).map(Item::Edge).or_else(cue)
}

/// The actuator's own step, or an edge's; gives the answer.
fn take_item(pair: &mut Pair, octets: &[u8], item: Item, tape: &mut impl Tape) -> u8 {
    match item {
        Item::Cue(input) => {
            let mut heard = Heard { tape, sensor: &mut pair.sensor };
            take_input(&mut pair.actuator, octets, input, &mut heard)
        }
        Item::Edge(edge) => take_edge(pair, u32_at(octets, 0), edge, tape),
    }
}

/// "Joined, the actuator's clock first moves to an edge's stamp, and each record is a status at its
/// stamp, heard before the next edge"
///
/// So in order of happening: the records of the clock move, the send, the telegram's own record.
fn take_edge(pair: &mut Pair, t: u32, edge: Edge, tape: &mut impl Tape) -> u8 {
    move_clock(&mut pair.actuator, t, &mut Heard { tape, sensor: &mut pair.sensor });
    match press(&mut pair.sensor, edge, t) {
        // document 01: "0 if anything but the clock changed ..., else 1"
        None => 1,
        Some(on) => {
            tape.sent(on);
            let mut heard = Heard { tape, sensor: &mut pair.sensor };
            let input = Input::SwitchOnOff { on };
            take_input(&mut pair.actuator, &telegram(t, on), input, &mut heard)
        }
    }
}

/// What one input to the pair gives: at most three records, as for the actuator.
#[derive(Clone, Debug, PartialEq, Eq)]
pub struct PairSingle {
    pub pair: Pair,
    pub code: u8,
    pub place: u16,
    pub answer: u8,
    pub records: Vec<Record>,
    pub sent: [u8; 8],
}

/// "6, 7 and 9 as for the actuator": 9, 6, 7, place 0; 7 is against the actuator's clock.
pub fn pair_single(pair: &Pair, octets: &[u8; 8]) -> PairSingle {
    let refused = |code| PairSingle {
        pair: *pair,
        code,
        place: 0,
        answer: 0,
        records: Vec::new(),
        sent: [0; 8],
    };
    let said = decode_item(octets);
    let item = match accept_single(pair_sound(pair), said, octets, pair.actuator.clock) {
        Ok(item) => item,
        Err(refusal) => return refused(refusal.code),
    };
    let mut moved = *pair;
    let mut tape = VecTape::default();
    let answer = take_item(&mut moved, octets, item, &mut tape);
    let sent = sent_octets(u32_at(octets, 0), tape.sends.first().map(|sent| sent.on));
    PairSingle { pair: moved, code: 0, place: 0, answer, records: tape.records, sent }
}

/// A clock move of the pair. The sensor's clock moves by the records alone.
pub fn pair_clock_move(pair: &Pair, stamp: u32) -> Move<Pair> {
    let bad_stamp = stamp_refused(stamp, pair.actuator.clock, LAST_STAMP);
    move_of(pair, pair_sound(pair), bad_stamp, |pair, tape| {
        let mut heard = Heard { tape, sensor: &mut pair.sensor };
        move_clock(&mut pair.actuator, stamp, &mut heard);
    })
}

// ================================================================================================
// The wall list
// ================================================================================================

/// An accepted wall list: a cue file in which an input may also be an edge, then the four octets of
/// the sensor's parameters.
struct Wall<'a> {
    cues: Cues<'a>,
    sensor: Sensor,
}

/// The refusals of the run over the list without its last four octets, and 11 "where 5 stands for
/// the sensor's parameters": after 5 and before the inputs.
fn accept_wall(wall: &[u8], records_len: usize, answers_len: usize) -> Result<Wall<'_>, Refusal> {
    // document 01's "1 | file under 52 octets", and four more; that of a version which asks for more
    // comes with the cue file's own refusals
    if wall.len() < LEAST_FILE + EDGES {
        return refuse(1, 0);
    }
    let (file, actions) = wall.split_at(wall.len() - EDGES);
    let cues = accept_header_and_parameters(file)?;
    let sensor = accept_actions(actions)?;
    accept_inputs(&cues, decode_item)?;
    accept_room(cues.inputs.len() / INPUT, records_len, answers_len)?;
    Ok(Wall { cues, sensor })
}

/// An accepted wall list, from the start record to the end time; gives the end states.
///
/// "each record is a status": the start record too, and those of the clock's move to the end time.
fn play_wall(wall: &Wall, tape: &mut impl Tape) -> Pair {
    let mut pair = Pair { actuator: wall.cues.fresh, sensor: wall.sensor };
    let start = record_of(&pair.actuator, pair.actuator.clock, CAUSE_START);
    Heard { tape, sensor: &mut pair.sensor }.record(start);
    // "Equal stamps keep list order"
    for octets in wall.cues.inputs.chunks_exact(INPUT) {
        let item = decode_item(octets).expect("an accepted list has no bad input");
        let answer = take_item(&mut pair, octets, item, tape);
        tape.answer(answer);
    }
    // document 01: "After the last input the clock moves to the end time."
    let mut heard = Heard { tape, sensor: &mut pair.sensor };
    move_clock(&mut pair.actuator, wall.cues.end_time, &mut heard);
    pair
}

/// A whole wall list, with the sizes in octets of the two lent buffers.
pub fn wall_run(wall: &[u8], records_len: usize, answers_len: usize) -> Run<Pair> {
    let of_a_refusal = Pair { actuator: state_of_a_refusal(), sensor: sensor_of_a_refusal() };
    run_of(accept_wall(wall, records_len, answers_len), play_wall, of_a_refusal)
}

/// The same straight into two lent buffers; a refused call writes nothing.
pub fn wall_run_into(wall: &[u8], records: &mut [u8], answers: &mut [u8]) -> u64 {
    let accepted = accept_wall(wall, records.len(), answers.len());
    number_of(accepted, records, answers, |wall, tape| play_wall(wall, tape))
}

/// Document 01's printout, with what the edges send.
pub fn print_wall(wall: &[u8]) -> String {
    printed(&wall_run(wall, usize::MAX, usize::MAX))
}
