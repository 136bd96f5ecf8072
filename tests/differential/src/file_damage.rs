//! Damage to the segment file, rule by rule, and its repair.

use reference::segments::SegmentFile;

use crate::run::Run;

/// Bytes of the file are changed, seen through a crossing that changes nothing, and put back.
pub fn bytes(run: &mut Run) {
    let records = run.state.file.len() / 40;
    if records == 0 {
        return;
    }
    // The first and the last record are the ones that the bounds of the number turn on.
    let any = run.dice.below(records as u32) as usize;
    let record = 40 * run.dice.pick(&[0, records - 1, any, any]);
    let old = run.state.file.clone();
    match run.dice.below(10) {
        0 | 1 => number(run, record),
        2 | 3 => {
            let at = record + 2 + run.dice.below(3) as usize;
            let beside = old[record + 2 + run.dice.below(3) as usize];
            let new = run.dice.pick(&[0, 63, 64, 255, u32::from(beside), u32::from(beside) + 1]);
            run.set_byte(at, new.min(255));
        }
        4 => one(run, record + 5, &[0, 1, 6, 7, 8, 12, 15, 132, 255]),
        5 => one(run, record + 6, &[0, 1, 7, 8, 9, 255]),
        6 => one(run, record + 7, &[1, 255]),
        _ => gate(run, record),
    }
    probe(run);
    repair(run, &old);
}

fn one(run: &mut Run, at: usize, values: &[u32]) {
    let value = run.dice.pick(values);
    run.set_byte(at, value);
}

/// The number at an edge, equal to a neighbour's, or past it.
fn number(run: &mut Run, record: usize) {
    let file = &run.state.file;
    let at = |r: usize| u32::from(file[r]) << 8 | u32::from(file[r + 1]);
    let before = if record >= 40 { at(record - 40) } else { 63 };
    let after = if record + 40 < file.len() { at(record + 40) } else { 1024 };
    let new = run.dice.pick(&[63, 64, 1023, 1024, before, before + 1, after, after.saturating_sub(1), 0]);
    run.set_byte(record, new >> 8 & 255);
    run.set_byte(record + 1, new & 255);
}

/// A gate equal to the one before, at an edge, or past the count.
fn gate(run: &mut Run, record: usize) {
    let count = usize::from(run.state.file[record + 6]).min(8);
    let any = run.dice.below(8) as usize;
    let index = run.dice.pick(&[any, any.min(count) % 8]);
    let at = record + 8 + 4 * index;
    let four = |from: usize| run.state.file[from..from + 4].iter().fold(0, |n: u32, b| n << 8 | u32::from(*b));
    let (before, own) = (four(at - if index > 0 { 4 } else { 0 }), four(at));
    let new = run.dice.pick(&[
        before,
        before.wrapping_add(1),
        before.wrapping_sub(1),
        262_143,
        262_144,
        own.wrapping_add(1),
        1,
        1 << 24,
    ]);
    for (k, byte) in new.to_be_bytes().into_iter().enumerate() {
        if run.state.file[at + k] != byte {
            run.set_byte(at + k, u32::from(byte));
        }
    }
}

/// A crossing, which gives 2 on a broken file: with instruction 2, as a return, or with a bad record.
fn probe(run: &mut Run) {
    match run.dice.below(6) {
        0 => {
            run.request(1, 0, 1, [0; 5]);
        }
        1 => {
            let ring = run.ring() % 64;
            run.write(ring, 5, 78);
            run.request(1, 3, 0, [8, 8, 64, 64, 0]);
        }
        2 if !SegmentFile::new(&run.state.file).is_sound() => {
            run.request(1, 1, 1, [0; 5]);
            run.request(1, 2, 1, [0; 5]);
        }
        _ => {
            run.request(1, 1, 2, [0; 5]);
        }
    }
}

/// Puts the file's bytes back, but leaves a change that broke no rule now and then.
fn repair(run: &mut Run, old: &[u8]) {
    if SegmentFile::new(&run.state.file).is_sound() && run.dice.chance(50) {
        return;
    }
    if run.state.file.len() != old.len() {
        run.set_file_length(old.len());
    }
    for (at, byte) in old.iter().enumerate() {
        if run.state.file[at] != *byte {
            run.set_byte(at, u32::from(*byte));
        }
    }
}

/// The file longer or shorter: by no whole record, or by zeros.
pub fn length(run: &mut Run) {
    let old = run.state.file.clone();
    let more = run.dice.pick(&[1, 7, 39, 40, 80]);
    let less = run.dice.pick(&[1, 39, 40]).min(old.len());
    let length = if run.dice.chance(70) { old.len() + more } else { old.len() - less };
    run.set_file_length(length);
    probe(run);
    repair(run, &old);
}

/// A 193rd record that breaks no rule but the number of them. The file must end below 1023.
pub fn record_193(run: &mut Run) {
    let old = run.state.file.clone();
    let last = old.len().saturating_sub(40);
    if old.len() != 192 * 40 || old[last..last + 2] == [3, 255] {
        return;
    }
    run.set_file_length(193 * 40);
    run.set_byte(old.len(), 3);
    run.set_byte(old.len() + 1, 255);
    run.request(1, 1, 2, [0; 5]);
    run.set_file_length(192 * 40);
}
