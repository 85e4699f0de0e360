//! The proved live calls against the second model: fresh states, changes, clock moves and runs to a state, over very many calls; and
//! changes against the same changes in parts, by the archive alone.
//!
//! Usage: compare_live BRIDGE.. where BRIDGE.. is a command that speaks the protocol of bridge.c on its standard input and output;
//! calls.rs says how the archive is reached. After the calls of live_cases.rs and live_scripts.rs come CALLS=n calls at random, with
//! SEED=n in the environment others.

mod calls;
mod files;
mod images;
mod live;
mod live_cases;
mod live_scripts;
mod model;
mod noted_met;

use calls::{exactly, number_named, room, row_name, AnswersMet, Call, Case, Claims, Comparison, Outcome, CODES};
use files::{cause_of, stamp_of, CueFile, Layout, Rng, HEADER, LAST, LAYOUTS};
use images::{broken, Fields, OCTETS, PHASES, RULES, STARTING};
use live_cases::{clock_move, MOVE_ROOM};
use noted_met::Noted;

/// The calls that are compared, and the codes that each can give: for a version that is played, and for what has no such version.
const CALLS: [(Call, &[usize], &[usize]); 4] = [
    (Call::Fresh, &[0, 5, 8], &[1]),
    (Call::Change, &[0, 6, 7, 8, 9, 12], &[9]),
    (Call::Move, &[0, 7, 8, 9], &[9]),
    (Call::RunTo, &[0, 1, 3, 4, 5, 6, 7, 8], &[1, 2]),
];

/// The answers that a kind can have, by what stops it; a force and a night are noted where lock or force would stop them.
const ANSWERS: [&[usize]; 8] = [
    &[0, 1, 2, 3, 4, 5],
    &[0, 1, 2, 3, 4, 5],
    &[0, 1, 2, 3, 4, 5],
    &[0, 1, 4, 5, 6],
    &[0, 1, 4, 5],
    &[0, 1, 4, 5, 6],
    &[0, 1, 5],
    &[0, 1],
];

/// The rows of what is met, by version: those that are played, then whatever else.
const ROWS: usize = LAYOUTS.len() + 1;

/// What a call gives by the second model.
fn expected(case: &Case) -> Outcome {
    let mut given = Outcome::before(case);
    given.number = match case.call {
        Call::Fresh => live::fresh_into(&case.list, &mut given.state),
        Call::Change => live::change_into(&mut given.state, &case.list, &mut given.records, &mut given.answers),
        Call::Move => live::move_into(&mut given.state, case.stamp, &mut given.records),
        Call::RunTo => live::run_to_into(&case.list, &mut given.state, &mut given.records, &mut given.answers),
        Call::Run | Call::WallRun => panic!("not a live call"),
    };
    given
}

/// The row of a call's version, as the call itself tells it.
fn row(case: &Case) -> usize {
    let known = |layout: &Layout| match case.call {
        Call::Fresh => case.list.len() == layout.parameters(),
        Call::RunTo => case.list.starts_with(&layout.version.to_be_bytes()),
        _ => case.state.len() == OCTETS && u16::from(case.state[40]) == layout.version,
    };
    LAYOUTS.iter().position(known).unwrap_or(LAYOUTS.len())
}

/// What was met of a version, or of whatever has none that is played.
#[derive(Default)]
struct Met {
    /// By call and code.
    codes: [[u64; CODES]; CALLS.len()],
    /// Answers to inputs of changes, by kind, and what was noted.
    answers: [AnswersMet; 8],
    noted: Noted,
    /// The phases of states that were handed in and accepted, and of those given.
    phases_in: [u64; PHASES as usize],
    phases_out: [u64; PHASES as usize],
    /// Handed-in images that break one rule alone, by its place in the table.
    broken_alone: Vec<u64>,
    /// Records of a change of one input, and of a clock move.
    records_of_one: [u64; 4],
    records_of_move: [u64; 3],
    /// Clock moves in which three timers ran, and inputs at the stamp of a timer's record or of the input before.
    three_timers: u64,
    after_a_timer: u64,
    after_an_input: u64,
    /// How many inputs stood before a refused one: none, some, 255.
    stood: [u64; 3],
    /// Accepted changes of 0 and of 256 inputs.
    ends: [u64; 2],
    /// Calls that gave 9 where no rule is broken, or another code where one is.
    against_the_rules: u64,
}

impl Met {
    fn new() -> Met {
        Met { broken_alone: vec![0; RULES.len()], ..Met::default() }
    }

    fn note(&mut self, case: &Case, given: &Outcome) {
        let call = CALLS.iter().position(|(call, _, _)| *call == case.call).expect("a live call");
        self.codes[call][given.code()] += 1;
        if matches!(case.call, Call::Change | Call::Move) {
            self.note_handed_in(case, given);
        }
        if given.code() == 0 {
            self.phases_out[usize::from(given.state[47])] += 1;
        }
        match case.call {
            Call::Change if matches!(given.code(), 0 | 6 | 7) => self.note_change(case, given),
            Call::Move if given.code() == 0 => self.note_move(case, given),
            _ => {}
        }
    }

    /// A state that was handed in: its phase, or the rule that it breaks.
    fn note_handed_in(&mut self, case: &Case, given: &Outcome) {
        let sound = given.code() != 9;
        if case.state.len() != OCTETS {
            self.against_the_rules += u64::from(sound);
            return;
        }
        let broken = broken(&Fields::of(&case.state));
        self.against_the_rules += u64::from(sound != broken.is_empty());
        match broken[..] {
            [] => self.phases_in[usize::from(case.state[47])] += 1,
            [rule] => self.broken_alone[rule] += 1,
            _ => {}
        }
    }

    /// A change that was played, if only to a refused input.
    fn note_change(&mut self, case: &Case, given: &Outcome) {
        let inputs: Vec<&[u8]> = case.list.chunks_exact(8).collect();
        let played = if given.code() == 0 { inputs.len() } else { given.place() };
        let Fields { lock, force, .. } = Fields::of(&case.state);
        self.noted.start_from(lock, force);
        for (index, input) in inputs[..played].iter().enumerate() {
            self.answers[usize::from(input[4]) - 1][usize::from(given.answers[index])] += 1;
            self.noted.note(input, given.answers[index]);
            self.after_an_input += u64::from(index > 0 && inputs[index - 1][..4] == input[..4]);
        }
        let records = given.records[..8 * given.count()].chunks_exact(8);
        let by_timers = records.filter(|record| cause_of(record) == 0);
        let stamps: Vec<&[u8]> = by_timers.map(|record| &record[..4]).collect();
        self.after_a_timer += inputs[..played].iter().filter(|input| stamps.contains(&&input[..4])).count() as u64;
        if given.code() != 0 {
            self.stood[usize::from(played > 0) + usize::from(played == 255)] += 1;
            return;
        }
        match played {
            0 => self.ends[0] += 1,
            1 => self.records_of_one[given.count()] += 1,
            256 => self.ends[1] += 1,
            _ => {}
        }
    }

    fn note_move(&mut self, case: &Case, given: &Outcome) {
        self.records_of_move[given.count()] += 1;
        let (before, after) = (Fields::of(&case.state), Fields::of(&given.state));
        let starting = before.phase == STARTING || before.phase == STARTING + 1;
        // on and off again, with a prewarning in between
        let three = starting && given.count() == 2 && after.times[3] > 0;
        self.three_timers += u64::from(three);
    }

    fn say(&self, row: usize) {
        println!("{}:", row_name(row));
        for ((call, ..), codes) in CALLS.iter().zip(&self.codes) {
            let met: Vec<(usize, u64)> = codes.iter().copied().enumerate().filter(|(_, count)| *count > 0).collect();
            println!("  {:?} by code: {:?}", call, met);
        }
        if row == LAYOUTS.len() {
            return;
        }
        println!("  answers 0 to 6 by kind: {:?}", self.answers);
        self.noted.say("  ");
        println!("  phases 0 to 6 handed in: {:?}; given: {:?}", self.phases_in, self.phases_out);
        println!("  records of one input: {:?}; of a clock move: {:?}", self.records_of_one, self.records_of_move);
        println!("  three timers in a move: {}", self.three_timers);
        println!("  inputs at the stamp of a timer: {}; of an input: {}", self.after_a_timer, self.after_an_input);
        println!("  inputs before a refused one, none, some, 255: {:?}", self.stood);
        println!("  changes of 0 and of 256 inputs: {:?}", self.ends);
        println!("  images that break one rule alone: {:?}", self.broken_alone);
    }

    fn claim_codes(&self, row: usize, claims: &mut Claims) {
        for ((call, played, other), met) in CALLS.iter().zip(&self.codes) {
            let possible = if row < LAYOUTS.len() { played } else { other };
            let what = format!("{}, {:?}: codes {:?} are met, and no other", row_name(row), call, possible);
            claims.claim(&what, exactly(met, possible));
        }
    }

    /// What must be met in each version that is played.
    fn claim_version(&self, row: usize, claims: &mut Claims) {
        let name = row_name(row);
        let mut claim = |what: &str, holds: bool| claims.claim(&format!("{}: {}", name, what), holds);
        let all = |counts: &[u64]| counts.iter().all(|count| *count > 0);
        claim("every kind is answered in every way that it can be, and no other", {
            self.answers.iter().zip(ANSWERS).all(|(met, possible)| exactly(met, possible))
        });
        claim("every phase is handed in, and given", all(&self.phases_in) && all(&self.phases_out));
        // the last rules speak of combinations; the first of the version, and the second of version 1 alone
        let from = if row == 0 { 1 } else { 2 };
        claim("every rule of a sound state is broken alone", all(&self.broken_alone[from..]));
        claim("an input gives 0 to 3 records, a clock move 0 to 2", {
            all(&self.records_of_one) && all(&self.records_of_move)
        });
        claim("three timers run in one clock move", self.three_timers > 0);
        claim("inputs at the stamp of a timer and of an input", self.after_a_timer > 0 && self.after_an_input > 0);
        claim("inputs are refused after none, after some and after 255", all(&self.stood));
        claim("changes of 0 and of 256 inputs", all(&self.ends));
        self.noted.claim(&format!("{}: ", name), claims);
    }
}

/// The comparison, and counts of what was met.
struct Tally {
    comparison: Comparison,
    /// By version.
    met: [Met; ROWS],
    /// Changes that the archive also played in parts, how many parts, and how many differed.
    in_parts: u64,
    parts: u64,
    parts_differing: u64,
}

impl Tally {
    /// One call; what it must give is handed back.
    fn check(&mut self, case: Case) -> Outcome {
        let expected = expected(&case);
        self.met[row(&case)].note(&case, &expected);
        // a number that no pattern of the cases in order meets again and again
        let sample = self.comparison.compared % 97 == 0;
        self.comparison.check(&case, &expected, sample);
        expected
    }

    /// The calls of one version at their ends.
    fn ends(&mut self, layout: &'static Layout) {
        let sections = [
            live_cases::grid,
            live_cases::scenes,
            live_cases::long_times,
            live_cases::inputs,
            live_cases::stamps,
            live_cases::lengths,
            live_cases::rooms,
            live_cases::first_refusals,
            live_cases::images,
            live_cases::scene_tables,
            live_cases::parameters_alone,
            live_cases::times_alone,
            live_cases::two_bad_octets,
            live_scripts::scripts,
            live_scripts::modes,
            live_scripts::learning,
        ];
        let mut null = false;
        let mut play = |case: Case| {
            null = !null;
            self.check(Case { null, ..case })
        };
        for section in sections {
            section(layout, &mut play);
        }
    }

    /// A house that is played live: from parameters or from a show on, by changes and clock moves.
    fn house(&mut self, rng: &mut Rng) {
        let layout = Layout::random(rng);
        let mut state = if rng.chance(50) { self.fresh(layout, rng) } else { self.run_to(layout, rng) };
        for _ in 0..2 + rng.below(8) {
            if state.len() != OCTETS {
                return;
            }
            state = match rng.below(10) {
                0..=5 => self.change(state, rng),
                6..=8 => self.clock_move(state, rng),
                _ => self.damage(state, rng),
            };
        }
    }

    fn fresh(&mut self, layout: &'static Layout, rng: &mut Rng) -> Vec<u8> {
        let mut show = CueFile::random_in(layout, rng, 0);
        for _ in 0..if rng.chance(15) { 1 + rng.below(3) } else { 0 } {
            show.spoil(rng);
        }
        let parameters = show.octets()[HEADER..].to_vec();
        let case = live_cases::fresh(parameters, state_length(rng));
        self.check(case).state
    }

    fn run_to(&mut self, layout: &'static Layout, rng: &mut Rng) -> Vec<u8> {
        let n = if rng.chance(2) { rng.below(300) as usize } else { rng.below(16) as usize };
        let mut file = CueFile::random_in(layout, rng, n).spoilt_if(rng.chance(20), rng).octets();
        if rng.chance(3) {
            file.truncate(rng.below(70) as usize);
        }
        let case = live_cases::run_to(file, state_length(rng), room(n, rng));
        self.check(Case { null: rng.chance(50), ..case }).state
    }

    fn change(&mut self, state: Vec<u8>, rng: &mut Rng) -> Vec<u8> {
        let inputs = random_inputs(&state, rng);
        let room = room(inputs.len() / 8, rng);
        let case = Case { null: rng.chance(50), ..live_cases::change(state, inputs, room) };
        if rng.chance(25) {
            self.check_parts(&case, rng);
        }
        self.check(case).state
    }

    fn clock_move(&mut self, state: Vec<u8>, rng: &mut Rng) -> Vec<u8> {
        let stamp = random_stamp(&state, rng);
        let room = if rng.chance(10) { rng.below(MOVE_ROOM as u64) as usize } else { MOVE_ROOM + rng.below(10) as usize };
        let case = clock_move(&state, stamp, room);
        self.check(Case { null: rng.chance(50), ..case }).state
    }

    /// A damaged image is handed in; the house itself is left as it was.
    fn damage(&mut self, state: Vec<u8>, rng: &mut Rng) -> Vec<u8> {
        let mut other = state.clone();
        match rng.below(10) {
            0 => other.resize(rng.below(120) as usize, 0),
            1..=4 => other[rng.below(OCTETS as u64) as usize] = rng.next() as u8,
            _ => {
                let mut fields = Fields::of(&state);
                fields.spoil(rng);
                other = fields.octets();
            }
        }
        self.hand_in(other, rng);
        state
    }

    /// A state whose fields were combined at random.
    fn combine(&mut self, rng: &mut Rng) {
        let layout = Layout::random(rng);
        let mut fields = Fields::random_in(layout, rng);
        for _ in 0..rng.below(3) {
            fields.spoil(rng);
        }
        self.hand_in(fields.octets(), rng);
    }

    /// A state that may be unsound, to a change or to a clock move.
    fn hand_in(&mut self, state: Vec<u8>, rng: &mut Rng) {
        if rng.chance(50) {
            self.change(state, rng);
        } else {
            self.clock_move(state, rng);
        }
    }

    /// A change gives what its parts give one after the other: two of them, cut anywhere, and one for each input.
    fn check_parts(&mut self, case: &Case, rng: &mut Rng) {
        if !matches!(expected(case).code(), 0 | 6 | 7) {
            return;
        }
        let whole = self.comparison.given(case);
        let cut = 8 * rng.below(case.list.len() as u64 / 8 + 1) as usize;
        let (one, two) = case.list.split_at(cut);
        let singles: Vec<&[u8]> = case.list.chunks_exact(8).collect();
        for parts in [vec![one, two], singles] {
            let joined = self.joined(case, &parts);
            self.in_parts += 1;
            self.parts += parts.len() as u64;
            self.parts_differing += u64::from(joined != whole);
        }
    }

    /// What the archive gives for parts of a change, put together as one outcome.
    fn joined(&mut self, case: &Case, parts: &[&[u8]]) -> Outcome {
        let mut all = Outcome::before(case);
        let (mut code, mut count, mut index) = (0, 0, 0);
        for part in parts {
            let one = self.comparison.given(&Case { list: part.to_vec(), state: all.state.clone(), ..case.clone() });
            let played = if one.code() == 0 { part.len() / 8 } else { one.place() };
            let records = 8 * one.count();
            all.records[8 * count..][..records].copy_from_slice(&one.records[..records]);
            all.answers[index..][..played].copy_from_slice(&one.answers[..played]);
            all.state = one.state;
            count += records / 8;
            index += played;
            code = one.number >> 48;
            if code != 0 {
                break;
            }
        }
        let place = if code == 0 { 0 } else { index as u64 };
        Outcome { number: code << 48 | place << 32 | count as u64, ..all }
    }

    fn finish(self, seed: u64, in_order: u64) -> ! {
        let Tally { comparison, met, in_parts, parts, parts_differing } = self;
        let calls = comparison.compared;
        let null_is_met = comparison.null_is_met(&CALLS.map(|(call, _, _)| call));
        println!("seed {}, {} calls, {} of them in order and {} at random", seed, calls, in_order, calls - in_order);
        let (by_bridge, differing) = comparison.stop();
        println!("changes played in parts too: {}, in {} parts", in_parts, parts);
        met.iter().enumerate().for_each(|(row, met)| met.say(row));
        let mut claims = Claims::new();
        claims.claim("number, state, records, answers and list are the model's for every call", differing == 0);
        claims.claim("a change is its parts, one after the other, cut in two and input by input", parts_differing == 0);
        claims.claim("at least 100,000 calls", calls >= 100_000);
        let asked_for = (calls - in_order) / 10;
        claims.claim("at least 10,000 changes in parts, or as many as were asked for", in_parts >= asked_for.min(10_000));
        met.iter().enumerate().for_each(|(row, met)| met.claim_codes(row, &mut claims));
        let (played, other) = met.split_at(LAYOUTS.len());
        played.iter().enumerate().for_each(|(row, met)| met.claim_version(row, &mut claims));
        claims.claim("a state of another version, but for that sound, is met", other[0].broken_alone[0] > 0);
        let by_the_rules = met.iter().all(|met| met.against_the_rules == 0);
        claims.claim("9 is given exactly where a rule of images.rs is broken", by_the_rules);
        claims.claim("NULL is met for every pointer of every call", null_is_met);
        claims.claim("a sample went by the bridge", by_bridge >= 100);
        claims.finish()
    }
}

/// The length of a lent state: mostly the right one.
fn state_length(rng: &mut Rng) -> usize {
    if rng.chance(90) {
        OCTETS
    } else {
        rng.below(120) as usize
    }
}

/// Where the inputs of a change or a clock move go: from the clock of a state on, often to its deadline or just before it, now and then
/// to a stamp that is refused.
fn random_stamp(state: &[u8], rng: &mut Rng) -> u32 {
    if state.len() != OCTETS {
        return rng.below(u64::from(LAST)) as u32;
    }
    let Fields { clock, deadline, .. } = Fields::of(state);
    match rng.below(20) {
        0 => clock.saturating_sub(1 + rng.below(20) as u32),
        1 => LAST + rng.below(3) as u32,
        2 => rng.next() as u32,
        3 => LAST,
        4..=6 => clock,
        7..=9 => deadline.max(clock).min(LAST),
        10..=11 => deadline.saturating_sub(1).max(clock).min(LAST),
        12 => deadline.saturating_add(1).max(clock).min(LAST),
        _ => clock.saturating_add(rng.below(2000) as u32).min(LAST),
    }
}

/// How many inputs a change has: mostly few, sometimes as many as there may be, or more.
fn random_length(rng: &mut Rng) -> usize {
    match rng.below(100) {
        0..=1 => 256,
        2 => 257 + rng.below(40) as usize,
        3..=6 => rng.below(257) as usize,
        7..=12 => 0,
        13..=45 => 1,
        _ => rng.below(24) as usize,
    }
}

/// Inputs to a state: in order, or with one that is refused, or of a length that no inputs have.
fn random_inputs(state: &[u8], rng: &mut Rng) -> Vec<u8> {
    let n = random_length(rng);
    let start = random_stamp(state, rng).min(LAST);
    let widest = files::widest_gap(rng);
    let mut inputs = files::inputs_from(start, widest, n, rng);
    if n > 0 && rng.chance(20) {
        spoil_one(&mut inputs, rng);
    }
    let mut octets = inputs.concat();
    if rng.chance(3) {
        octets.resize(octets.len() + 1 + rng.below(7) as usize, 0);
    }
    octets
}

/// An input at some place is put out of order: its kind, value or zeros, or its stamp.
fn spoil_one(inputs: &mut [[u8; 8]], rng: &mut Rng) {
    let at = rng.below(inputs.len() as u64) as usize;
    let stamp = match rng.below(8) {
        0..=3 => {
            inputs[at][4 + rng.below(4) as usize] = rng.next() as u8;
            return;
        }
        4 => LAST + 1 + rng.below(3) as u32,
        5 => rng.next() as u32,
        _ => stamp_of(&inputs[at]).saturating_sub(1 + rng.below(30) as u32),
    };
    inputs[at][..4].copy_from_slice(&stamp.to_be_bytes());
}

fn main() {
    let seed = number_named("SEED", 20_260_104);
    let wanted = number_named("CALLS", 150_000);
    let mut rng = Rng::new(seed);
    let met = [(); ROWS].map(|_| Met::new());
    let mut tally = Tally { comparison: Comparison::start(), met, in_parts: 0, parts: 0, parts_differing: 0 };
    for layout in &LAYOUTS {
        tally.ends(layout);
    }
    let in_order = tally.comparison.compared;
    while tally.comparison.compared < in_order + wanted {
        tally.house(&mut rng);
        tally.combine(&mut rng);
    }
    tally.finish(seed, in_order)
}
