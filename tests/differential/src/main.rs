//! `generate SEED COUNT OUTDIR` writes COUNT runs, each a folder with `segments` and `input`,
//! and fails unless every number and reason of document 01 came in them.

mod arguments;
mod damage;
mod dice;
mod file_damage;
mod listing;
mod plan;
mod run;
mod scenes;
mod spoil;
mod tally;

use std::fs;
use std::io;
use std::path::Path;
use std::process::ExitCode;

use dice::Dice;
use run::Run;
use tally::Tally;

/// What a run is for; it sets how often each scene comes.
#[derive(Clone, Copy, PartialEq)]
enum Style {
    /// Calls as deep as they go and all the way back.
    Deep,
    /// Calls of all sorts, most of them spoiled.
    Spoiled,
    /// Damage to record and file between calls.
    Damaged,
    /// Records that no run of calls made.
    Forged,
    /// A file of 192 records, or one that is empty or missing.
    Files,
}

fn main() -> ExitCode {
    let arguments: Vec<String> = std::env::args().collect();
    let numbers: Vec<u64> = arguments.iter().skip(1).take(2).flat_map(|a| a.parse()).collect();
    let ([seed, count], Some(folder)) = (numbers.as_slice(), arguments.get(3)) else {
        eprintln!("usage: generate SEED COUNT_OF_RUNS OUTDIR");
        return ExitCode::from(2);
    };
    let mut tally = Tally::default();
    for index in 0..*count {
        if let Err(error) = write_run(*seed, index, Path::new(folder), &mut tally) {
            eprintln!("cannot write a run: {error}");
            return ExitCode::from(2);
        }
    }
    tally.print();
    let missing = tally.missing();
    for name in &missing {
        println!("never came: {name}");
    }
    if missing.is_empty() {
        ExitCode::SUCCESS
    } else {
        ExitCode::FAILURE
    }
}

fn write_run(seed: u64, index: u64, folder: &Path, tally: &mut Tally) -> io::Result<()> {
    let mut dice = Dice::new(seed, index);
    let styles = [Style::Deep, Style::Spoiled, Style::Damaged, Style::Spoiled, Style::Forged, Style::Files];
    let style = styles[index as usize % styles.len()];
    let file = file_for(&mut dice, style);
    let place = folder.join(format!("run-{seed}-{index:04}"));
    fs::create_dir_all(&place)?;
    let mut run = Run::new(file.clone().unwrap_or_default(), dice, tally);
    play(&mut run, style);
    fs::write(place.join("input"), &run.input)?;
    match file {
        Some(bytes) => fs::write(place.join("segments"), bytes),
        None => Ok(()),
    }
}

/// `None`: the file is missing.
fn file_for(dice: &mut Dice, style: Style) -> Option<Vec<u8>> {
    let mut rings = vec![dice.pick(&[0, 1]), dice.pick(&[62, 63]), 32, 33];
    for _ in 0..dice.below(4) {
        rings.push(dice.below(64));
    }
    match (style, dice.below(8)) {
        (Style::Files, 0) => None,
        (Style::Files, 1) => Some(Vec::new()),
        (Style::Files, 2) => Some(listing::long(dice, 193)),
        (Style::Files, 3) => Some(listing::long(dice, 1)),
        (Style::Files, 4) => Some(vec![0; 9000]),
        (Style::Files, _) => Some(listing::long(dice, 192)),
        _ => Some(listing::rich(dice, &rings)),
    }
}

fn play(run: &mut Run, style: Style) {
    run.state.file.truncate(reference::program::MOST_FILE_BYTES);
    before_a_start(run);
    let length = match run.dice.below(10) {
        0 => 1024,
        1 => run.dice.between(129, 1023),
        2 => run.dice.between(129, 300),
        _ => 128,
    };
    if length != 128 {
        run.set_length(64 * length);
    }
    let ring = run.dice.pick(&[1, 32, 33, 40, 63]);
    run.start(ring);
    // A long store makes each line dear, so such a run is short.
    let requests = if length > 300 { 200 } else { 1000 };
    if style == Style::Files {
        file_damage::record_193(run);
    }
    if style == Style::Deep {
        climb(run);
    }
    while run.requests() < requests {
        scene(run, style);
    }
    if run.dice.chance(30) {
        run.end_short();
    }
}

/// "Before a start the record is all zero": not sound.
fn before_a_start(run: &mut Run) {
    match run.dice.below(4) {
        0 => damage::malformed(run),
        1 => damage::probe(run),
        2 => scenes::reach(run),
        _ => {
            run.request(1, 1, 0, [8, 100, 64, 64, 0]);
            run.request(1, 2, 1, [0; 5]);
        }
    }
}

/// Up to 32 open calls, more at that depth, then back by some of them.
fn climb(run: &mut Run) {
    for _ in 0..40 {
        if run.state.record.open == 32 {
            break;
        }
        if !scenes::call(run, true, 0) && run.ring() == 0 {
            scenes::go_back(run, true);
        }
    }
    for spoils in [0, 0, 1, 1, 2, 2, 3] {
        scenes::call(run, true, spoils);
    }
    damage::record_field(run);
    for _ in 0..run.dice.between(3, 32) {
        if run.dice.chance(15) {
            scenes::scribble(run);
        }
        scenes::go_back(run, true);
    }
}

fn scene(run: &mut Run, style: Style) {
    if !run.is_sound() {
        let ring = run.dice.pick(&[1, 33, 63]);
        run.start(ring);
        return;
    }
    let heavy = style == Style::Damaged || style == Style::Files;
    match run.dice.below(if heavy { 34 } else { 20 }) {
        0..=4 => {
            scenes::call(run, false, 0);
        }
        5..=8 => scenes::spoiled_calls(run, if style == Style::Spoiled { 30 } else { 6 }),
        9..=11 => {
            let fitting = run.dice.chance(85);
            scenes::go_back(run, fitting);
        }
        12 | 13 => scenes::scribble(run),
        14 => scenes::reach(run),
        15 => rare(run, style),
        16 => damage::malformed(run),
        17 => damage::made_set(run),
        18 | 20..=24 => damage::record_field(run),
        19 | 25 => damage::added_argument(run),
        26 => file_damage::length(run),
        _ => file_damage::bytes(run),
    }
}

fn rare(run: &mut Run, style: Style) {
    match run.dice.below(8) {
        0 => {
            let ring = run.dice.pick(&[0, 63, 64, 255, 5]);
            run.start(ring);
        }
        1 => scenes::store_length(run),
        2 | 3 => scenes::serial(run),
        4 => damage::all_at_once(run),
        _ if style == Style::Forged => {
            let entries = run.dice.pick(&[1, 2, 3, 4, 5, 32]);
            scenes::forged(run, entries);
        }
        5 => scenes::forged(run, 2),
        _ => scenes::reach(run),
    }
}
