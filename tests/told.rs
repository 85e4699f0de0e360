//! What the second model tells of a list beside its printout: the phase after each step of it, as the print program prints it where it is
//! asked, and the whole run in words. A cue file is a wall list without buttons.

use crate::live::image;
use crate::model::{self, line, print_records, u32_at, Phase, Record, State, HEADER, INPUT};
use crate::wall::{self, fresh_sensor, pair_clock_move, pair_single, Pair, PairSingle};

/// An accepted list: its fresh pair, its inputs and its end time, found by its own header.
struct List<'a> {
    pair: Pair,
    inputs: &'a [u8],
    end: u32,
}

fn list(octets: &[u8], walls: bool) -> List<'_> {
    let behind = if walls { 4 } else { 0 };
    let (file, actions) = octets.split_at(octets.len() - behind);
    let inputs_at = u32_at(file, 12) as usize;
    let (actuator, _, _) = model::fresh(&file[HEADER..inputs_at]);
    let (sensor, _, _) = fresh_sensor(actions);
    List { pair: Pair { actuator, sensor }, inputs: &file[inputs_at..], end: u32_at(file, 16) }
}

/// "P: clock, number of the phase as in an image, its deadline"
fn print_phase(text: &mut String, state: &State) {
    let octets = image(state);
    line(text, "P", &[state.clock, u32::from(octets[47]), u32_at(&octets, 52)]);
}

fn move_to(pair: &mut Pair, stamp: u32, text: &mut String) {
    let moved = pair_clock_move(pair, stamp);
    print_records(text, &moved.records);
    print_phase(text, &moved.state.actuator);
    *pair = moved.state;
}

/// When the next timer runs that is due by a stamp.
fn next_timer(pair: &Pair, stamp: u32) -> Option<u32> {
    pair.actuator.phase.deadline().filter(|&due| due <= stamp)
}

/// Every timer that is due by a stamp, each at its own moment.
fn run_timers(pair: &mut Pair, stamp: u32, text: &mut String) {
    while let Some(due) = next_timer(pair, stamp) {
        move_to(pair, due, text);
    }
}

/// The records and the answers of a list.
pub fn played(octets: &[u8], walls: bool) -> (Vec<Record>, Vec<u8>) {
    if walls {
        let run = wall::wall_run(octets, usize::MAX, usize::MAX);
        (run.records, run.answers)
    } else {
        let run = model::run(octets, usize::MAX, usize::MAX);
        (run.records, run.answers)
    }
}

pub fn printed(octets: &[u8], walls: bool) -> String {
    if walls {
        wall::print_wall(octets)
    } else {
        model::print(octets)
    }
}

/// The printout with the phases; of a refused list as it is.
pub fn phases(octets: &[u8], walls: bool) -> String {
    let plain = printed(octets, walls);
    if plain.starts_with("NO") {
        return plain;
    }
    let mut lines = plain.lines();
    let mut text = format!("{}\n{}\n", lines.next().unwrap(), lines.next().unwrap());
    let List { mut pair, inputs, end } = list(octets, walls);
    print_phase(&mut text, &pair.actuator);
    for (index, input) in inputs.chunks_exact(INPUT).enumerate() {
        run_timers(&mut pair, u32_at(input, 0), &mut text);
        let one = pair_single(&pair, input.try_into().unwrap());
        if one.sent[4] == 1 {
            line(&mut text, "S", &[index as u32, u32::from(one.sent[5])]);
        }
        print_records(&mut text, &one.records);
        line(&mut text, "A", &[index as u32, u32::from(one.answer)]);
        pair = one.pair;
        print_phase(&mut text, &pair.actuator);
    }
    run_timers(&mut pair, end, &mut text);
    move_to(&mut pair, end, &mut text);
    text + lines.last().unwrap() + "\n"
}

fn moment(stamp: u32) -> String {
    format!("{}:{:02}:{:02}.{}", stamp / 36_000, stamp / 600 % 60, stamp / 10 % 60, stamp % 10)
}

/// How long the records say that the light was on, up to the end time.
fn lit(records: &[Record], end: u32) -> u32 {
    let ends = records.iter().skip(1).map(|r| r.stamp).chain([end]);
    records.iter().zip(ends).filter(|(r, _)| r.value == 255).map(|(r, next)| next - r.stamp).sum()
}

/// What the house does by itself from here on.
fn house(state: &State) -> String {
    match state.phase {
        Phase::Dark => "dark".into(),
        Phase::Lit => "lit".into(),
        Phase::Starting { timed: false, deadline } => format!("lit at {}", moment(deadline)),
        Phase::Starting { timed: true, deadline } => format!("lit at {}, for a while", moment(deadline)),
        Phase::Timed { deadline } if state.params.prewarning > 0 => format!("lit, warning at {}", moment(deadline)),
        Phase::Timed { deadline } => format!("lit, dark at {}", moment(deadline)),
        Phase::Warning { deadline } => format!("lit, in its warning, dark at {}", moment(deadline)),
        Phase::Ending { deadline } => format!("dark at {}", moment(deadline)),
    }
}

/// What it would have done after the end.
fn house_at_end(state: &State) -> String {
    match state.phase {
        Phase::Dark | Phase::Lit => house(state),
        Phase::Starting { deadline, .. } => format!("dark, would be lit at {}", moment(deadline)),
        Phase::Timed { deadline } if state.params.prewarning > 0 => format!("lit, its warning would begin at {}", moment(deadline)),
        Phase::Timed { deadline } | Phase::Warning { deadline } | Phase::Ending { deadline } => {
            format!("lit, would be dark at {}", moment(deadline))
        }
    }
}

/// An input by its name, and for an edge what it sends.
fn input_name(kind: u8, value: u8, sent: Option<u8>) -> String {
    let on = |yes: &str, no: &str| if value == 1 { yes.to_string() } else { no.to_string() };
    match kind {
        1 => on("On", "Off"),
        2 => on("Timed start", "Timed stop"),
        3 if value >= 128 => format!("Learn scene {}", value - 128),
        3 => format!("Scene {}", value),
        4 => ["Force released", "Force released", "Force Off", "Force On"][usize::from(value)].into(),
        5 => on("Lock", "Unlock"),
        6 => on("Night", "Day"),
        7 => on("Bus returns", "Bus fails"),
        8 => on("Power returns", "Power fails"),
        _ => {
            let sends = match sent {
                None => "",
                Some(0) => ", sends Off",
                Some(_) => ", sends On",
            };
            format!("Button {} {}{}", kind - 10, on("pressed", "let go"), sends)
        }
    }
}

const REASONS: [&str; 4] = ["a force stands", "the house is locked", "the bus is down", "the power is down"];

fn outcome(input: &[u8], one: &PairSingle, sent: Option<u8>) -> String {
    let (kind, value) = (input[4], input[5]);
    match one.answer {
        2..=5 => format!("dropped, {}", REASONS[usize::from(one.answer) - 2]),
        _ if kind > 8 && sent.is_none() => "sends nothing".into(),
        1 => "changes nothing".into(),
        // under a lock or a force the house is dark or lit, and that is all that there is to tell
        6 => format!("noted, stays {}", house(&one.pair.actuator)),
        _ if kind == 3 && value >= 128 => {
            let entry = one.pair.actuator.scenes.iter().find(|scene| scene.number == value - 128).unwrap();
            format!("taken, learnt as {}", if entry.flags & 1 == 1 { "on" } else { "off" })
        }
        _ => format!("taken, {}", house(&one.pair.actuator)),
    }
}

/// Every timer that is due by a stamp, told at its own moment.
fn tell_timers(pair: &mut Pair, stamp: u32, text: &mut String) {
    while let Some(due) = next_timer(pair, stamp) {
        *pair = pair_clock_move(pair, due).state;
        let said = match pair.actuator.phase {
            Phase::Warning { deadline } => format!("warning begins, dark at {}", moment(deadline)),
            _ => house(&pair.actuator),
        };
        *text += &format!("{}  (timer) {}\n", moment(due), said);
    }
}

/// The whole run in words; of a refused list there is nothing.
pub fn words(octets: &[u8], walls: bool) -> String {
    if printed(octets, walls).starts_with("NO") {
        return String::new();
    }
    let List { mut pair, inputs, end } = list(octets, walls);
    let mut text = String::from("0:00:00.0  (start) dark\n");
    for input in inputs.chunks_exact(INPUT) {
        let stamp = u32_at(input, 0);
        tell_timers(&mut pair, stamp, &mut text);
        let one = pair_single(&pair, input.try_into().unwrap());
        let sent = Some(one.sent[5]).filter(|_| one.sent[4] == 1);
        text += &format!("{}  {}: {}\n", moment(stamp), input_name(input[4], input[5], sent), outcome(input, &one, sent));
        pair = one.pair;
    }
    tell_timers(&mut pair, end, &mut text);
    text + &format!("{}  (end) {}\n\n", moment(end), house_at_end(&pair.actuator)) + &summary(octets, walls)
}

/// Its last lines.
fn summary(octets: &[u8], walls: bool) -> String {
    let (records, answers) = played(octets, walls);
    let end = u32_at(octets, 16);
    let given = |answer: u8| answers.iter().filter(|&&a| a == answer).count();
    let dropped = answers.iter().filter(|a| (2..=5).contains(*a)).count();
    let noted = if given(6) == 0 { String::new() } else { format!(", {} noted", given(6)) };
    let mut text = format!("The house was lit for {} of {}.\n", moment(lit(&records, end)), moment(end));
    let n = answers.len();
    let what = if walls { "input" } else { "cue" };
    let many = if n == 1 { "" } else { "s" };
    let figures = if n >= 1000 { format!("{},{:03}", n / 1000, n % 1000) } else { n.to_string() };
    let stop = if dropped == 0 { "." } else { ":" };
    let changed = format!("{} changed something, {} changed nothing", given(0), given(1));
    text += &format!("{} {}{}: {}{}, {} dropped{}\n", figures, what, many, changed, noted, dropped, stop);
    for (answer, reason) in (2..).zip(REASONS) {
        if given(answer) > 0 {
            text += &format!("  {} because {}\n", given(answer), reason);
        }
    }
    text
}
