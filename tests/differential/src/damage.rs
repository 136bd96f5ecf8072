//! Damage to the record, clause by clause, and its repair; and requests that are none.

use reference::program::Fields;
use reference::record::Entry;

use crate::run::Run;

/// A field of the record, as kind 5 names it: field, entry, argument, value.
type Field = (u32, u32, u32, u32);

/// What a field holds now.
fn value(run: &Run, field: u32, entry: u32, argument: u32) -> u32 {
    let record = &run.state.record;
    let e: &Entry = &record.entries[entry as usize];
    let a = &e.arguments[argument as usize];
    let early = [record.ring.0, 0, record.serial, record.open];
    let entry_fields = [
        e.old_ring.0,
        e.old_frame,
        e.level.0,
        e.return_segment,
        e.return_offset,
        e.argument_place,
        e.prior,
        e.new_frame,
        e.argument_count,
        e.serial,
    ];
    match field {
        0..=3 => early[field as usize],
        10..=19 => entry_fields[field as usize - 10],
        _ => [a.segment, a.offset, a.length, a.direction][field as usize - 20],
    }
}

/// Crossings, a write and a look on a record or file that may be broken. None of them is a call.
pub fn probe(run: &mut Run) {
    let ring = run.ring() % 64;
    run.look(ring, 0);
    match run.dice.below(4) {
        0 => {
            run.write(ring, 5, 77);
        }
        1 => {
            run.request(1, 1, 2, [0; 5]);
        }
        2 => {
            run.request(1, 0, 1, [0; 5]);
        }
        _ => {}
    }
}

/// One field of the record is changed, seen through a look, and put back where it broke the record.
pub fn record_field(run: &mut Run) {
    let Some(length) = run.length() else { return };
    let (field, entry, argument, new) = pick_field(run, length);
    let old = value(run, field, entry, argument);
    run.set_field(field, entry, argument, new);
    probe(run);
    if !run.is_sound() || run.dice.chance(70) {
        run.set_field(field, entry, argument, old);
    }
}

/// An open entry mostly; a value that one of its clauses turns on.
fn pick_field(run: &mut Run, length: u32) -> Field {
    let open = run.state.record.open.min(32);
    let entry = if open > 0 && run.dice.chance(85) { run.dice.below(open) } else { run.dice.below(32) };
    let count = value(run, 18, entry, 0);
    let argument = if count > 0 && run.dice.chance(80) { run.dice.below(count.min(4)) } else { run.dice.below(4) };
    let field = match run.dice.below(12) {
        0 => run.dice.pick(&[0, 3]),
        1..=7 => run.dice.between(10, 19),
        _ => run.dice.between(20, 23),
    };
    let old = value(run, field, entry, argument);
    let beside = old.wrapping_add(run.dice.pick(&[1, u32::MAX, 65536]));
    let new = if run.dice.chance(25) { beside } else { clause_edge(run, (field, entry, argument, old), length) };
    (field, entry, argument, new)
}

/// The edges of the clause that binds this field, beside its rule and on it.
fn clause_edge(run: &mut Run, (field, entry, argument, old): Field, length: u32) -> u32 {
    let of = |run: &Run, field| value(run, field, entry, argument);
    let words = 33 + 4 * of(run, 18).min(4) + lengths(run, entry);
    let old_ring = of(run, 10);
    let any = run.dice.edge(length);
    let edges: Vec<u32> = match field {
        0 | 10 => vec![0, 63, 64, 1 << 16, run.dice.below(64), neighbour(run, entry)],
        3 => vec![0, 31, 32, 33, old.wrapping_add(1), old.wrapping_sub(1)],
        11 | 16 => vec![7, 8, length - 32, length - 31, of(run, 17).wrapping_sub(31)],
        12 => vec![old_ring.wrapping_sub(1), old_ring, 63, 64],
        13 => vec![63, 64, 1023, 1024],
        14 => vec![0, 262_143, 262_144],
        15 => vec![7, 8, length - 1, length],
        17 => vec![
            of(run, 16).wrapping_add(31),
            of(run, 16).wrapping_add(32),
            length.wrapping_sub(words),
            length.wrapping_sub(words).wrapping_add(1),
            u32::MAX - 20,
        ],
        18 => vec![0, 1, 3, 4, 5, u32::MAX],
        20 => vec![old_ring, old_ring ^ 1, 65536 + old_ring, 64],
        21 => vec![7, 8, length - of(run, 22).min(16), length + 1 - of(run, 22).min(16), u32::MAX - 3],
        22 => vec![0, 1, 16, 17, length.wrapping_sub(of(run, 21)), length.wrapping_sub(of(run, 21)).wrapping_add(1)],
        23 => vec![0, 1, 2, 3, 4],
        _ => vec![any],
    };
    if run.dice.chance(90) {
        run.dice.pick(&edges)
    } else {
        any
    }
}

fn lengths(run: &Run, entry: u32) -> u32 {
    let arguments = &run.state.record.entries[entry as usize].arguments;
    arguments.iter().map(|a| a.length).fold(0, u32::wrapping_add)
}

/// The ring entered by this call, which its old ring must differ from.
fn neighbour(run: &Run, entry: u32) -> u32 {
    let record = &run.state.record;
    let next = record.entries.get(entry as usize + 1);
    next.filter(|_| entry + 1 < record.open).map_or(record.ring.0, |e| e.old_ring.0)
}

/// An open entry gets one more argument, in order in itself: right where the call was outward, wrong where inward.
pub fn added_argument(run: &mut Run) {
    let open = run.state.record.open.min(32);
    let entry = run.dice.below(open.max(1));
    let (old_ring, count) = (value(run, 10, entry, 0), value(run, 18, entry, 0));
    if open == 0 || count > 3 {
        return;
    }
    let words = run.dice.pick(&[1, 1, 2, 16]);
    let direction = run.dice.between(1, 3);
    for (field, new) in [(20, old_ring), (21, 8), (22, words), (23, direction), (18, count + 1)] {
        run.set_field(field, entry, count, new);
    }
    probe(run);
    if !run.is_sound() || run.dice.chance(50) {
        for field in [20, 21, 22, 23] {
            run.set_field(field, entry, count, 0);
        }
        run.set_field(18, entry, 0, count);
    }
}

/// A bit of the made set goes or comes; a missing one may belong to the ring or to an old ring.
pub fn made_set(run: &mut Run) {
    let old = run.state.record.made;
    let record = &run.state.record;
    let open = record.open.min(32);
    let entry = run.dice.below(open.max(1)) as usize;
    let (ring, old_ring) = (record.ring.0, record.entries[entry].old_ring.0);
    let any = run.dice.below(64);
    let bit = run.dice.pick(&[ring, old_ring, old_ring, any]) % 64;
    let new = if run.dice.chance(10) { 0 } else { old ^ (1 << bit) };
    run.set_made(new);
    probe(run);
    if !run.is_sound() || run.dice.chance(50) {
        run.set_made(old);
    }
}

/// The store, the file and the record all broken; they are put right one after the other.
pub fn all_at_once(run: &mut Run) {
    let words = run.state.store.len() as u32;
    let Some(byte) = run.state.file.get(7).copied() else { return };
    let ring = run.ring();
    run.set_length(words + 1);
    run.set_byte(7, 1);
    run.set_field(0, 0, 0, 64 + ring);
    for part in 0..4 {
        for request in [[1, 3, 0], [1, 1, 1], [1, 0, 2], [2, 64, 0], [2, 0, 0], [3, 64, 0]] {
            run.request(request[0], request[1], request[2], [0; 5]);
        }
        match part {
            0 => run.set_length(words),
            1 => run.set_byte(7, u32::from(byte)),
            _ => run.set_field(0, 0, 0, ring),
        };
    }
}

/// Requests that are no requests: number 17.
pub fn malformed(run: &mut Run) {
    let mut fields = Fields { kind: run.dice.below(4) as u8, first: run.ring() as u8, ..Fields::default() };
    match run.dice.below(6) {
        0 => fields.zero = run.dice.pick(&[1, 128, 255]),
        1 => fields.instruction = run.dice.pick(&[1, 2, 255]),
        2 | 3 => fields.numbers[run.dice.below(5) as usize] = run.dice.pick(&[1, 256, 1 << 31]),
        4 => fields.kind = run.dice.pick(&[9, 10, 128, 255]),
        _ => fields = changes_of_nothing(run),
    }
    run.send(fields);
}

/// Kinds 4 to 8 at the edge of what is there.
fn changes_of_nothing(run: &mut Run) -> Fields {
    let (store, file) = (run.state.store.len() as u32, run.state.file.len() as u32);
    let mut fields = Fields { kind: run.dice.between(4, 8) as u8, ..Fields::default() };
    match fields.kind {
        4 => fields.numbers[0] = run.dice.pick(&[65_793, u32::MAX]),
        5 => {
            fields.first = run.dice.pick(&[4, 9, 10, 19, 20, 23, 24, 255]);
            fields.instruction = run.dice.pick(&[32, 255]);
            fields.zero = run.dice.pick(&[0, 4]);
        }
        6 => fields.numbers[0] = run.dice.pick(&[store, u32::MAX]),
        7 => fields.numbers = run.dice.pick(&[[file, 0, 0, 0, 0], [0, 256, 0, 0, 0], [u32::MAX, 0, 0, 0, 0]]),
        _ => fields.numbers[0] = run.dice.pick(&[7_761, u32::MAX]),
    }
    fields
}
