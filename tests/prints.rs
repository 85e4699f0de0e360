//! The print program against the second model's printout, over a sample of files.
//! Usage: prints [--wall] [--phases | --words] PROGRAM.. where PROGRAM.. is the command that prints a list on standard input: with --wall
//! a wall list, with --phases with its phases, with --words in words.

mod files;
mod live;
mod model;
mod told;
mod wall;
mod walls;

use files::{CueFile, Layout, Rng, LAYOUTS};
use std::io::Write;
use std::process::{Command, Stdio};
use walls::WallList;

fn printed(command: &[String], file: &[u8]) -> String {
    let mut child = Command::new(&command[0])
        .args(&command[1..])
        .stdin(Stdio::piped())
        .stdout(Stdio::piped())
        // what is said of a refusal is compared by preview.sh and shows.sh
        .stderr(Stdio::null())
        .spawn()
        .expect("the print program does not start");
    let mut input = child.stdin.take().unwrap();
    let octets = file.to_vec();
    // A long file may be refused before it is read to its end, so a closed pipe is no error here.
    let writer = std::thread::spawn(move || {
        let _ = input.write_all(&octets);
    });
    let output = child.wait_with_output().unwrap();
    writer.join().unwrap();
    String::from_utf8_lossy(&output.stdout).into_owned()
}

/// A cue file of n inputs, in order or spoilt.
fn cue_file(layout: &'static Layout, rng: &mut Rng, n: usize, spoilt: bool) -> Vec<u8> {
    CueFile::random_in(layout, rng, n).spoilt_if(spoilt, rng).octets()
}

/// A wall list of n items, in order or spoilt.
fn wall_list(layout: &'static Layout, rng: &mut Rng, n: usize, spoilt: bool) -> Vec<u8> {
    let list = WallList::random_in(layout, rng, n);
    if spoilt {
        list.spoilt(rng)
    } else {
        list.octets()
    }
}

type Made = fn(&'static Layout, &mut Rng, usize, bool) -> Vec<u8>;

/// The shortest and the longest of each version, one cut where a version starts, and lists of every length, a third of them spoilt.
fn sample(rng: &mut Rng, made: Made) -> Vec<Vec<u8>> {
    let mut sample: Vec<Vec<u8>> = vec![Vec::new(), vec![0; 51], vec![0; 52], vec![0; 55], vec![0; 56], vec![1; 40_000]];
    for layout in &LAYOUTS {
        for n in [0, 1, 2, 7, 300, 2048] {
            sample.push(made(layout, rng, n, false));
        }
        let mut longer = made(layout, rng, 2048, false);
        longer.extend_from_slice(&[0; 3]);
        sample.push(longer);
        let whole = made(layout, rng, 3, false);
        sample.extend([51, 52, 55, 56, 59, 60, 63, 64].map(|length| whole[..length].to_vec()));
    }
    for i in 0..90 {
        let (layout, n) = (Layout::random(rng), files::length(rng));
        sample.push(made(layout, rng, n, i % 3 == 0));
    }
    sample
}

/// Whether a word stands first; it is taken away.
fn told_to(command: &mut Vec<String>, wanted: &str) -> bool {
    let told = command.first().map_or(false, |word| word == wanted);
    if told {
        command.remove(0);
    }
    told
}

fn main() {
    let mut command: Vec<String> = std::env::args().skip(1).collect();
    let walls = told_to(&mut command, "--wall");
    let phases = told_to(&mut command, "--phases");
    let words = told_to(&mut command, "--words");
    assert!(!command.is_empty(), "usage: prints [--wall] [--phases | --words] PROGRAM..");
    let seed = std::env::var("SEED").ok().map_or(20_260_102, |x| x.parse().expect("a number"));
    let mut rng = Rng::new(seed);
    let sample = sample(&mut rng, if walls { wall_list } else { cue_file });
    let mut passed = 0;
    let mut failed = 0;
    let mut answered = [0; 7];
    for file in &sample {
        told::played(file, walls).1.iter().for_each(|answer| answered[usize::from(*answer)] += 1);
        let expected = match (phases, words) {
            (true, _) => told::phases(file, walls),
            (_, true) => told::words(file, walls),
            _ => told::printed(file, walls),
        };
        let found = printed(&command, file);
        if found == expected {
            passed += 1;
        } else {
            failed += 1;
            if failed <= 2 {
                println!("FAILED: file {:?}\nexpected:\n{}found:\n{}", file, expected, found);
            }
        }
    }
    println!("{} printouts compared, seed {}, answers 0 to 6: {:?}", sample.len(), seed, answered);
    if answered.contains(&0) {
        failed += 1;
        println!("FAILED: an answer is not met");
    }
    println!("{} passed, {} failed", passed, failed);
    std::process::exit(if failed == 0 { 0 } else { 1 });
}
