//! The proved run against the second model, over very many cue files.
//!
//! Usage: compare BRIDGE.. where BRIDGE.. is a command that speaks the protocol of bridge.c on its standard input and output;
//! calls.rs says how the archive is reached. SEED=n in the environment gives other files, FILES=n another number of them.

mod calls;
mod files;
mod lists;
mod model;
mod noted_met;

use calls::{AnswersMet, Call, Claims};
use files::{CueFile, Layout, Rng};
use lists::{Kind, Tally};
use model::{Run, State};
use noted_met::Noted;
use std::ops::RangeInclusive;

/// What cue files met.
#[derive(Default)]
struct Cues {
    answers: AnswersMet,
    noted: Noted,
}

impl Kind for Cues {
    const NAME: &'static str = "file";
    const CALL: Call = Call::Run;
    const CODES: &'static [usize] = &[0, 1, 2, 3, 4, 5, 6, 7, 8];
    const SHORTEST: RangeInclusive<usize> = 51..=61;
    type End = State;

    fn made(layout: &'static Layout, rng: &mut Rng, n: usize) -> Vec<u8> {
        CueFile::random_in(layout, rng, n).octets()
    }

    fn run(file: &[u8], records_len: usize, answers_len: usize) -> Run {
        model::run(file, records_len, answers_len)
    }

    fn note(&mut self, file: &[u8], run: &Run) {
        self.noted.start();
        let inputs = &file[file.len() - 8 * run.answers.len()..];
        for (input, answer) in inputs.chunks_exact(8).zip(&run.answers) {
            self.answers[usize::from(*answer)] += 1;
            self.noted.note(input, *answer);
        }
    }

    /// Random octets, and random shows of every length and version, some of them spoilt.
    fn random(tally: &mut Tally<Cues>, sample: bool, rng: &mut Rng) {
        let which = rng.below(100);
        let file = if which < 3 {
            files::noise(rng)
        } else {
            let n = files::length(rng);
            CueFile::random(rng, n).spoilt_if(which < 15, rng).octets()
        };
        tally.check(file, sample, rng);
    }

    fn say(&self) {
        println!("answers 0 to 6: {:?}", self.answers);
        self.noted.say("");
    }

    fn claim(&self, claims: &mut Claims) {
        claims.claim("every answer is met", self.answers.iter().all(|&k| k > 0));
        self.noted.claim("", claims);
    }
}

fn main() {
    lists::compare(Cues::default(), 20_260_101, "FILES")
}
