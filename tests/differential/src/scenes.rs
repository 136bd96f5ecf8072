//! What a run is made of: calls, returns, scribbling, looks, starts, made-up records.

use crate::damage;
use crate::listing;
use crate::plan::{plan, Plan};
use crate::run::Run;
use crate::spoil::spoil;

/// A call, as planned or spoiled in one to three ways.
pub fn call(run: &mut Run, deep: bool, spoils: u32) -> bool {
    let Some(length) = run.length() else { return false };
    let mut plan = plan(run, deep).unwrap_or_else(|| wild(run));
    for _ in 0..spoils {
        spoil(run, &mut plan, length);
    }
    plan.carry_out(run)
}

/// A plan asked again and again, each time spoiled otherwise: a refusal changes nothing.
pub fn spoiled_calls(run: &mut Run, times: u32) {
    let Some(length) = run.length() else { return };
    let planned = plan(run, false);
    let times = if planned.is_some() { times } else { times.min(5) };
    let good = planned.unwrap_or_else(|| wild(run));
    for _ in 0..times {
        let mut spoiled = good.clone();
        for _ in 0..run.dice.pick(&[1, 1, 1, 2, 2, 3]) {
            spoil(run, &mut spoiled, length);
        }
        let accepted = if run.dice.chance(25) { spoiled.ask(run) } else { spoiled.carry_out(run) };
        if accepted {
            return;
        }
    }
    good.carry_out(run);
}

/// Where no call can be accepted, as from ring 0: any target, in either direction.
fn wild(run: &mut Run) -> Plan {
    let ring = run.ring();
    let listed = listing::read(&run.state.file);
    let runners: Vec<u32> = listed.iter().filter(|s| s.runs_in(ring)).map(|s| s.number).collect();
    let running = if runners.is_empty() { 64 } else { run.dice.pick(&runners) };
    let target = if listed.is_empty() { 1023 } else { run.dice.pick(&listed).number };
    Plan {
        inward: false,
        fault: run.dice.between(1, 2),
        instruction: 0,
        frame: 8,
        place: 100,
        running,
        target,
        offset: 0,
        return_place: [running, 0],
        level: 0,
        count: 0,
        groups: Vec::new(),
        new_ring: 63,
        base: None,
    }
}

/// A return with the fault that fits, or the other one.
pub fn go_back(run: &mut Run, fitting: bool) -> bool {
    let record = &run.state.record;
    let newest = record.entries[(record.open.clamp(1, 32) - 1) as usize];
    let inward = newest.old_ring < record.ring;
    let fault = if inward == fitting { 1 } else { 2 };
    if run.dice.chance(40) {
        touch_copies(run);
    }
    // The five numbers of a return are ignored.
    let numbers = if run.dice.chance(30) { [run.dice.word(); 5] } else { [0; 5] };
    run.request(1, fault, 1, numbers)
}

/// Before an inward return: the copies get new contents.
fn touch_copies(run: &mut Run) {
    let record = &run.state.record;
    let Some(entry) = record.open.checked_sub(1).and_then(|k| record.entries.get(k as usize)) else { return };
    let entry = *entry;
    let Some(length) = run.length() else { return };
    let ring = run.ring().min(63);
    let mut copy = entry.new_frame.saturating_add(33 + 4 * entry.argument_count.min(4));
    for argument in entry.arguments {
        for _ in 0..argument.length.min(2) {
            let at = copy.saturating_add(run.dice.below(argument.length.clamp(1, 16)));
            let value = run.dice.word();
            if at < length {
                run.put(ring, at, value);
            }
        }
        copy = copy.saturating_add(argument.length);
    }
}

/// Words that matter, in stacks that the program may write on: bases, frames, lists, levels.
pub fn scribble(run: &mut Run) {
    let Some(length) = run.length() else { return };
    let ring = run.ring().min(63);
    let made: Vec<u32> = (ring..64).filter(|k| run.is_made(*k)).collect();
    for _ in 0..run.dice.between(1, 5) {
        let stack = if made.is_empty() || run.dice.chance(15) { run.dice.below(64) } else { run.dice.pick(&made) };
        let frame = run.word(stack, 1).min(length - 32);
        let offset = match run.dice.below(5) {
            0 => run.dice.below(8),
            1 => frame + 16 + run.dice.below(16),
            2 => 8 + 16 + run.dice.below(16),
            3 => (frame + 32 + run.dice.below(30)).min(length - 1),
            _ => run.dice.below(length),
        };
        let value = if run.dice.chance(50) { run.dice.edge(length) } else { run.dice.word() };
        run.write(stack, offset, value);
    }
}

/// Writes and looks at the edges of 15 and 16.
pub fn reach(run: &mut Run) {
    let length = run.length().unwrap_or(128);
    let ring = run.ring().min(63);
    let any = run.dice.below(256);
    let stack = run.dice.pick(&[ring, ring, ring + 1, ring.saturating_sub(1), 0, 63, 64, 255, any]);
    let far = u32::MAX - run.dice.below(32);
    if run.dice.chance(50) {
        let offset = run.dice.pick(&[0, 5, length - 1, length, length + 1, far]);
        let value = run.dice.word();
        run.write(stack, offset, value);
    } else {
        let offset = run.dice.pick(&[0, 8, length - 32, length - 31, length - 1, length, far]);
        run.look(stack, offset);
    }
}

/// A store of another length; what is not permitted gives 1 to all that follows.
pub fn store_length(run: &mut Run) {
    let old = run.state.store.len() as u32;
    let bad = [0, 1, 64, 8191, 8193, 64 * 127, 64 * 127 + 1, 64 * 128 + 63, 65_535, 65_537, 64 * 1025, 65_792];
    let words = run.dice.pick(&bad);
    run.set_length(words);
    for _ in 0..run.dice.between(2, 5) {
        match run.dice.below(5) {
            0 => reach(run),
            1 => {
                let ring = run.dice.pick(&[0, 63, 64]);
                run.start(ring);
            }
            2 => {
                let ring = run.ring() % 64;
                run.look(ring, 0);
            }
            _ => {
                let instruction = run.dice.below(3);
                run.request(1, 1, instruction, [8, 8, 64, 64, 0]);
            }
        }
    }
    let length = run.dice.pick(&[128, 128, 129, 200, old / 64]).clamp(128, 1024);
    run.set_length(64 * length);
    if run.dice.chance(30) {
        damage::probe(run);
    }
    let ring = run.dice.below(64);
    run.start(ring);
}

/// The serial just before it goes on to 0.
pub fn serial(run: &mut Run) {
    let value = u32::MAX - run.dice.below(2);
    run.set_field(2, 0, 0, value);
    for _ in 0..2 {
        if run.is_sound() {
            call(run, true, 0);
        }
    }
}

/// A sound record that no run of calls made: every field at an edge or anywhere; then all the way back.
pub fn forged(run: &mut Run, entries: u32) {
    let Some(length) = run.length() else { return };
    let start = run.dice.below(64);
    run.start(start);
    let mut rings = vec![run.dice.below(64)];
    while rings.len() <= entries as usize {
        let ring = run.dice.below(64);
        if rings.last() != Some(&ring) {
            rings.push(ring);
        }
    }
    let made = rings.iter().fold(0u64, |made, ring| made | 1 << ring);
    for (entry, pair) in rings.windows(2).enumerate() {
        forged_entry(run, entry as u32, [pair[0], pair[1]], length);
    }
    let last = rings[entries as usize];
    let another = run.dice.below(64);
    run.set_made(made | 1 << another);
    run.set_field(0, 0, 0, last);
    run.set_field(3, 0, 0, entries);
    for _ in 0..entries {
        if run.dice.chance(20) {
            damage::record_field(run);
        }
        go_back(run, true);
    }
}

fn forged_entry(run: &mut Run, entry: u32, [old, new]: [u32; 2], length: u32) {
    let count = if new < old { 0 } else { run.dice.below(5) };
    let mut words = 33 + 4 * count;
    for argument in 0..count {
        let span = run.dice.pick(&[1, 2, 5, 8]);
        let offset = run.dice.pick(&[8, 40, length - span]) - run.dice.below(2) * (span - 1).min(3);
        let direction = run.dice.between(1, 3);
        for (field, value) in [(20, old), (21, offset.max(8)), (22, span), (23, direction)] {
            run.set_field(field, entry, argument, value);
        }
        words += span;
    }
    let prior = run.dice.pick(&[8, 9, length - words - 32]);
    let between = run.dice.between(prior + 32, length - words);
    let new_frame = run.dice.pick(&[prior + 32, length - words, between]);
    let level = run.dice.pick(&[old, 63, old.midpoint(63)]);
    let frame = run.dice.between(8, length - 32);
    let place = run.dice.between(8, length - 1);
    let fields = [
        (10, old),
        (11, run.dice.pick(&[8, length - 32, frame])),
        (12, level),
        (13, run.dice.pick(&[64, 1023, 100])),
        (14, run.dice.pick(&[0, 262_143, 50])),
        (15, run.dice.pick(&[8, length - 1, place])),
        (16, prior),
        (17, new_frame),
        (18, count),
        (19, run.dice.word()),
    ];
    for (field, value) in fields {
        run.set_field(field, entry, 0, value);
    }
}
