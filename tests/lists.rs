//! The comparison of a run over whole lists with the second model: lists of every version at their ends, then at random. compare.rs makes
//! it of cue files, compare_walls.rs of wall lists.

use crate::calls::{damaged, exactly, number_named, room, row_name, Call, Case, Claims, Comparison, Outcome, CODES};
use crate::files::{enough, inputs_in, resized, Layout, Rng, LAYOUTS};
use crate::model::Run;
use std::ops::RangeInclusive;

/// A kind of list, and what was met of it beside what every kind meets.
pub trait Kind: Sized {
    /// What a list is called, the call that plays it, and the codes that it can have.
    const NAME: &'static str;
    const CALL: Call;
    const CODES: &'static [usize];
    /// The lengths at which one version or the other starts.
    const SHORTEST: RangeInclusive<usize>;
    type End;

    /// One of n inputs that is in order.
    fn made(layout: &'static Layout, rng: &mut Rng, n: usize) -> Vec<u8>;

    /// What the second model says of one, with the sizes of the two lent buffers.
    fn run(list: &[u8], records_len: usize, answers_len: usize) -> Run<Self::End>;

    fn note(&mut self, list: &[u8], run: &Run<Self::End>);

    /// One at random.
    fn random(tally: &mut Tally<Self>, sample: bool, rng: &mut Rng);

    fn say(&self);

    fn claim(&self, claims: &mut Claims);
}

/// The comparison, and counts of what was met.
pub struct Tally<K> {
    comparison: Comparison,
    codes: Codes,
    longest: Vec<usize>,
    pub met: K,
}

impl<K: Kind> Tally<K> {
    /// A list, with buffers of some length.
    pub fn check(&mut self, list: Vec<u8>, sample: bool, rng: &mut Rng) {
        self.check_case(lent(K::CALL, list, rng), sample);
    }

    fn check_case(&mut self, case: Case, sample: bool) {
        let run = K::run(&case.list, case.records_len, case.answers_len);
        if run.code == 0 {
            let longest = &mut self.longest[usize::from(case.list[1]) - 1];
            *longest = run.answers.len().max(*longest);
        }
        self.met.note(&case.list, &run);
        self.compare(&case, &run, sample);
    }

    /// A case of which this run decides.
    pub fn compare<End>(&mut self, case: &Case, run: &Run<End>, sample: bool) {
        self.codes.note(&case.list, run.code.into());
        self.comparison.check(case, &Outcome::of_model(case, run), sample);
    }

    /// Lists of one version at its ends: the longest, every prefix and damage of a small one, longer ones, and the lengths at which one
    /// version or the other starts.
    fn ends(&mut self, layout: &'static Layout, rng: &mut Rng) {
        for n in [0, 1, 2, 255, 256, 2047, 2048] {
            self.check_case(Case::run(K::CALL, K::made(layout, rng, n), enough(n)), true);
        }
        let small = K::made(layout, rng, 2);
        for (i, other) in damaged(&small).into_iter().enumerate() {
            self.check(other, i % 50 == 0, rng);
        }
        for other in of_lengths(&small, small.len()..=small.len() + 20) {
            self.check(other, false, rng);
        }
        for n in [0, 0, 1, 1, 2] {
            for other in of_lengths(&K::made(layout, rng, n), K::SHORTEST) {
                self.check(other, true, rng);
            }
        }
    }

    fn finish(self, seed: u64, wanted: u64) -> ! {
        let Tally { comparison, codes, longest, met } = self;
        let compared = comparison.compared;
        let null_is_met = comparison.null_is_met(&[K::CALL]);
        println!("seed {}, {} {}s, the longest of each version with {:?} inputs", seed, compared, K::NAME, longest);
        let (by_bridge, differing) = comparison.stop();
        codes.say(K::CODES);
        met.say();
        let mut claims = Claims::new();
        claims.claim(&format!("number, records, answers and list are the model's for every {}", K::NAME), differing == 0);
        let enough = compared >= wanted.min(120_000);
        claims.claim(&format!("at least 120,000 {}s, or as many as were asked for", K::NAME), enough);
        let longest_of_all = longest.iter().all(|&n| n == 2048);
        claims.claim(&format!("a {} of 2,048 inputs is accepted in every version", K::NAME), longest_of_all);
        codes.claim(K::CODES, &mut claims);
        claims.claim("NULL is met for every pointer", null_is_met);
        met.claim(&mut claims);
        claims.claim("a sample went by the bridge", by_bridge >= 100);
        claims.finish()
    }
}

/// The whole comparison: of 120,000 lists, or of as many as the environment says under this name, from a seed that it may name too.
pub fn compare<K: Kind>(met: K, seed: u64, how_many: &str) -> ! {
    let (seed, wanted) = (number_named("SEED", seed), number_named(how_many, 120_000));
    let mut rng = Rng::new(seed);
    let mut tally = Tally { comparison: Comparison::start(), codes: Codes::new(), longest: vec![0; LAYOUTS.len()], met };
    for layout in &LAYOUTS {
        tally.ends(layout, &mut rng);
    }
    while tally.comparison.compared < wanted {
        let sample = tally.comparison.compared % 100 == 0;
        K::random(&mut tally, sample, &mut rng);
    }
    tally.finish(seed, wanted)
}

/// Buffers as long as the list's n asks for, one too short, or longer.
pub fn lent(call: Call, list: Vec<u8>, rng: &mut Rng) -> Case {
    let room = room(inputs_in(&list).min(4096), rng);
    Case { null: rng.chance(50), ..Case::run(call, list, room) }
}

/// A list cut or prolonged with zeros to each of these lengths, by its own version and by one that nobody plays.
fn of_lengths(list: &[u8], lengths: RangeInclusive<usize>) -> Vec<Vec<u8>> {
    let mut unknown = list.to_vec();
    unknown[0..2].copy_from_slice(&(LAYOUTS.len() as u16 + 1).to_be_bytes());
    lengths.flat_map(|length| [list, &unknown].map(|list| resized(list, length))).collect()
}

/// How many lists met each code, by the version that their first two octets name: the played ones, then any other.
struct Codes {
    met: Vec<[u64; CODES]>,
}

impl Codes {
    fn new() -> Codes {
        Codes { met: vec![[0; CODES]; LAYOUTS.len() + 1] }
    }

    fn note(&mut self, list: &[u8], code: usize) {
        let named = |version: u16| list.get(..2) == Some(&version.to_be_bytes()[..]);
        let row = LAYOUTS.iter().position(|layout| named(layout.version)).unwrap_or(LAYOUTS.len());
        self.met[row][code] += 1;
    }

    /// The rows by name, each with the codes that it can have: a version that is played has no 2, any other has 1 and 2.
    fn rows<'a>(&'a self, codes: &'a [usize]) -> impl Iterator<Item = (String, Vec<usize>, &'a [u64; CODES])> {
        self.met.iter().enumerate().map(move |(row, met)| {
            let played = codes.iter().copied().filter(|&code| code != 2).collect();
            (row_name(row), if row < LAYOUTS.len() { played } else { vec![1, 2] }, met)
        })
    }

    fn say(&self, codes: &[usize]) {
        for (name, possible, met) in self.rows(codes) {
            let refused: u64 = met[1..].iter().sum();
            let by_code: Vec<(usize, u64)> = possible.into_iter().map(|code| (code, met[code])).collect();
            println!("{}: {} accepted, {} refused; by code: {:?}", name, met[0], refused, by_code);
        }
    }

    fn claim(&self, codes: &[usize], claims: &mut Claims) {
        for (name, possible, met) in self.rows(codes) {
            claims.claim(&format!("{}: codes {:?} are met, and no other", name, possible), exactly(met, &possible));
        }
    }
}
