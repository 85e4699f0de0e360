//! The proved run over wall lists against the second model, over very many of them.
//!
//! Usage: compare_walls BRIDGE.. where BRIDGE.. is a command that speaks the protocol of bridge.c on its standard input and output;
//! calls.rs says how the archive is reached. SEED=n in the environment gives other lists, WALLS=n another number of them.

mod calls;
mod files;
mod lists;
mod model;
mod noted_met;
mod wall;
mod walls;

use calls::{AnswersMet, Call, Case, Claims};
use files::{CueFile, Layout, Rng};
use lists::{lent, Kind, Tally};
use model::Run;
use noted_met::Noted;
use std::ops::RangeInclusive;
use wall::Pair;
use walls::{is_edge, WallList};

/// What accepted lists met.
#[derive(Default)]
struct Met {
    /// By edge (button 1 rising, 1 falling, 2 rising, 2 falling) and action.
    actions: [[u64; 4]; 4],
    /// Answers to telegrams, none of which is noted, and to cues.
    telegrams: AnswersMet,
    cues: AnswersMet,
    noted: Noted,
    silent: u64,
    sent_off: u64,
    sent_on: u64,
    toggled_off: u64,
    toggled_on: u64,
    /// Toggles that sent the same value as the telegram before: only a status can have turned them.
    turned_by_a_status: u64,
    /// Edges whose clock move wrote a timer's record at their own stamp, of those that sent and that did not.
    at_a_timer: [u64; 2],
    /// Edges at the stamp of the item before, which was a cue or an edge; cues at the stamp of the edge before.
    after_a_cue: u64,
    after_an_edge: u64,
    cue_after_an_edge: u64,
    /// Cues by their kind.
    kinds: [u64; 9],
    /// Refusals of an action, by its place.
    bad_actions: [u64; 4],
    /// Plain cue files.
    plain: u64,
}

impl Met {
    fn note_accepted(&mut self, list: &[u8], run: &Run<Pair>) {
        let (cues, actions) = list.split_at(list.len() - 4);
        let items: Vec<&[u8]> = cues[cues.len() - 8 * run.answers.len()..].chunks_exact(8).collect();
        let mut sends = run.sends.iter().peekable();
        let mut last_sent = None;
        self.noted.start();
        for (index, item) in items.iter().enumerate() {
            let answer = usize::from(run.answers[index]);
            self.noted.note(item, run.answers[index]);
            let tie = index > 0 && items[index - 1][..4] == item[..4];
            if !is_edge(item) {
                self.cues[answer] += 1;
                self.cue_after_an_edge += u64::from(tie && is_edge(items[index - 1]));
                self.kinds[usize::from(item[4])] += 1;
                continue;
            }
            let place = 2 * usize::from(item[4] - 11) + usize::from(item[5] == 0);
            let action = actions[place];
            self.actions[place][usize::from(action)] += 1;
            let sent = sends.next_if(|sent| sent.index == index);
            self.note_send(action, sent.map(|sent| sent.on), last_sent);
            if let Some(sent) = sent {
                self.telegrams[answer] += 1;
                last_sent = Some(sent.on);
            }
            let from = if index == 0 { 1 } else { run.records_before[index - 1] };
            let to = sent.map_or(run.records_before[index], |sent| sent.records_before);
            let at_a_timer = run.records[from..to].iter().any(|r| r.stamp.to_be_bytes() == item[..4]);
            self.at_a_timer[usize::from(sent.is_none())] += u64::from(at_a_timer);
            self.after_a_cue += u64::from(tie && !is_edge(items[index - 1]));
            self.after_an_edge += u64::from(tie && is_edge(items[index - 1]));
        }
    }

    /// What an action sent, and what was sent last before it.
    fn note_send(&mut self, action: u8, sent: Option<bool>, last_sent: Option<bool>) {
        match (action, sent) {
            (1, Some(false)) => self.sent_off += 1,
            (2, Some(true)) => self.sent_on += 1,
            (3, Some(on)) => {
                self.toggled_on += u64::from(on);
                self.toggled_off += u64::from(!on);
                self.turned_by_a_status += u64::from(last_sent == Some(on));
            }
            (0, None) => self.silent += 1,
            other => panic!("an action that sends another value: {:?}", other),
        }
    }
}

impl Kind for Met {
    const NAME: &'static str = "wall list";
    const CALL: Call = Call::WallRun;
    const CODES: &'static [usize] = &[0, 1, 2, 3, 4, 5, 6, 7, 8, 11];
    const SHORTEST: RangeInclusive<usize> = 55..=65;
    type End = Pair;

    fn made(layout: &'static Layout, rng: &mut Rng, n: usize) -> Vec<u8> {
        WallList::random_in(layout, rng, n).octets()
    }

    fn run(list: &[u8], records_len: usize, answers_len: usize) -> Run<Pair> {
        wall::wall_run(list, records_len, answers_len)
    }

    fn note(&mut self, list: &[u8], run: &Run<Pair>) {
        match run.code {
            0 => self.note_accepted(list, run),
            11 => self.bad_actions[usize::from(run.place)] += 1,
            _ => {}
        }
    }

    /// Random octets, plain cue files, and random lists of every length and version, some of them spoilt.
    fn random(tally: &mut Tally<Met>, sample: bool, rng: &mut Rng) {
        let n = files::length(rng);
        let octets = match rng.below(100) {
            0..=1 => files::noise(rng),
            2..=13 => {
                let show = CueFile::random(rng, n).spoilt_if(rng.chance(30), rng);
                return check_plain(tally, &show, sample, rng);
            }
            14..=27 => WallList::random(rng, n).spoilt(rng),
            _ => WallList::random(rng, n).octets(),
        };
        tally.check(octets, sample, rng);
    }

    fn say(&self) {
        println!("{} of them plain cue files; places 0 to 3 of code 11: {:?}", self.plain, self.bad_actions);
        println!("edges by action 0 to 3, for button 1 rising, 1 falling, 2 rising, 2 falling: {:?}", self.actions);
        println!("answers 0 to 6 to telegrams: {:?}; to cues: {:?}", self.telegrams, self.cues);
        self.noted.say("");
        println!(
            "silent edges {}, Off sent {}, On sent {}, toggled to Off {}, toggled to On {}, toggles turned by a status {}",
            self.silent, self.sent_off, self.sent_on, self.toggled_off, self.toggled_on, self.turned_by_a_status
        );
        println!("edges at the stamp of a timer's record: {} that sent, {} silent", self.at_a_timer[0], self.at_a_timer[1]);
        println!(
            "ties: an edge after a cue {}, an edge after an edge {}, a cue after an edge {}",
            self.after_a_cue, self.after_an_edge, self.cue_after_an_edge
        );
        println!("cues of kinds 1 to 8 among the edges: {:?}", &self.kinds[1..]);
    }

    fn claim(&self, claims: &mut Claims) {
        claims.claim("a bad action is met at every place", self.bad_actions.iter().all(|&k| k > 0));
        claims.claim("cue files with four zero octets went by the plain run", self.plain > 0);
        claims.claim("every action is met on every edge", self.actions.iter().flatten().all(|&k| k > 0));
        let (answered, noted) = self.telegrams.split_at(6);
        claims.claim("every answer to a telegram is met, and none is noted", answered.iter().all(|&k| k > 0) && noted == [0]);
        claims.claim("every answer to a cue is met", self.cues.iter().all(|&k| k > 0));
        self.noted.claim("", claims);
        claims.claim("every kind of cue is met", self.kinds[1..].iter().all(|&k| k > 0));
        let sent = [self.silent, self.sent_off, self.sent_on, self.toggled_off, self.toggled_on, self.turned_by_a_status];
        claims.claim("silent edges, Off, On, both toggles, and toggles turned by a status are met", sent.iter().all(|&k| k > 0));
        claims.claim("edges at the stamp of a timer's record are met", self.at_a_timer.iter().all(|&k| k > 0));
        let ties = [self.after_a_cue, self.after_an_edge, self.cue_after_an_edge];
        claims.claim("ties of edges with cues and with edges are met", ties.iter().all(|&k| k > 0));
    }
}

/// A cue file without edges and four zero octets, for which the model's plain run decides.
fn check_plain(tally: &mut Tally<Met>, show: &CueFile, sample: bool, rng: &mut Rng) {
    if show.inputs.iter().any(|input| is_edge(input)) {
        return;
    }
    let file = show.octets();
    let mut case: Case = lent(Call::WallRun, file.clone(), rng);
    case.list.extend_from_slice(&[0; 4]);
    tally.met.plain += 1;
    tally.compare(&case, &model::run(&file, case.records_len, case.answers_len), sample);
}

fn main() {
    lists::compare(Met::default(), 20_260_103, "WALLS")
}
