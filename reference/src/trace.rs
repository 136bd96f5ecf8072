//! The test program `trace`: the run program's kinds, a look, and changes to store, record and file.

use std::io::{self, Read, Write};

use crate::answer::Places;
use crate::program::{self, first_state, for_each_request, write_line, Fields, Step, MOST_FILE_BYTES};
use crate::record::{Argument, Entry, Level, Record, Ring};
use crate::state::State;

/// A store may be a little longer than the longest that is permitted.
pub const MOST_STORE_WORDS: usize = 65_792;
const MODULUS: u64 = 4_294_967_291;

/// The digest d: "d := 7, and for each x in turn d := (d × 65,599 + x + 1) mod 4,294,967,291".
#[derive(Clone, Copy, Debug)]
pub struct Digest(u64);

impl Digest {
    pub fn new() -> Self {
        Digest(7)
    }

    /// 2^32 is 5 more than the modulus, so the high part counts five times; the rest is left to `value`.
    pub fn add(&mut self, number: u32) {
        let sum = self.0 * 65_599 + u64::from(number) + 1;
        self.0 = (sum & 0xffff_ffff) + 5 * (sum >> 32);
    }

    pub fn add_all(&mut self, numbers: &[u32]) {
        for number in numbers {
            self.add(*number);
        }
    }

    pub fn value(self) -> u64 {
        self.0 % MODULUS
    }
}

impl Default for Digest {
    fn default() -> Self {
        Digest::new()
    }
}

pub fn digest(numbers: &[u32]) -> u64 {
    let mut digest = Digest::new();
    digest.add_all(numbers);
    digest.value()
}

/// "ring, made (high, low), serial, open count, and for each of the 32 entries .."
pub fn record_digest(record: &Record) -> u64 {
    let mut digest = Digest::new();
    digest.add_all(&[record.ring.0, (record.made >> 32) as u32, record.made as u32]);
    digest.add_all(&[record.serial, record.open]);
    for entry in &record.entries {
        digest.add_all(&[entry.old_ring.0, entry.old_frame, entry.level.0]);
        digest.add_all(&[entry.return_segment, entry.return_offset, entry.argument_place]);
        digest.add_all(&[entry.prior, entry.new_frame, entry.argument_count, entry.serial]);
        for argument in &entry.arguments {
            digest.add_all(&[argument.segment, argument.offset, argument.length, argument.direction]);
        }
    }
    digest.value()
}

/// A step of any kind, and the digest of what an accepted look hands back.
pub fn step(state: &mut State, fields: &Fields) -> (Step, u64) {
    match fields.kind {
        0..=2 => (program::step(state, fields), 0),
        3 if fields.unused_are_zero(1) => look(state, fields),
        4..=8 => (change(state, fields), 0),
        _ => (Step::malformed(), 0),
    }
}

fn look(state: &State, fields: &Fields) -> (Step, u64) {
    let (stack, offset) = (u32::from(fields.first), fields.numbers[0]);
    let answer = state.look_number(stack, offset);
    let shown = if answer.is_ok() { digest(state.look(stack, offset)) } else { 0 };
    (Step::of(3, answer), shown)
}

/// Kinds 4 to 8.
fn change(state: &mut State, fields: &Fields) -> Step {
    let [n1, n2, ..] = fields.numbers;
    let done = match fields.kind {
        4 => set_store_length(state, n1 as usize),
        5 => set_field(&mut state.record, fields).is_some(),
        6 => state.store.get_mut(n1 as usize).map(|word| *word = n2).is_some(),
        7 => set_file_byte(state, n1 as usize, n2),
        _ => set_file_length(state, n1 as usize),
    };
    if done {
        Step::of(fields.kind, Ok(Places::default()))
    } else {
        Step::malformed()
    }
}

fn set_store_length(state: &mut State, words: usize) -> bool {
    if words > MOST_STORE_WORDS {
        return false;
    }
    state.store.clear();
    state.store.resize(words, 0);
    true
}

fn set_file_byte(state: &mut State, at: usize, value: u32) -> bool {
    match (state.file.get_mut(at), u8::try_from(value)) {
        (Some(byte), Ok(value)) => {
            *byte = value;
            true
        }
        _ => false,
    }
}

fn set_file_length(state: &mut State, bytes: usize) -> bool {
    if bytes > MOST_FILE_BYTES {
        return false;
    }
    state.file.resize(bytes, 0);
    true
}

/// Kind 5; `None` for a field, entry or argument that is not there.
fn set_field(record: &mut Record, fields: &Fields) -> Option<()> {
    let [n1, n2, ..] = fields.numbers;
    match fields.first {
        0 => record.ring = Ring(n1),
        1 => record.made = u64::from(n1) << 32 | u64::from(n2),
        2 => record.serial = n1,
        3 => record.open = n1,
        field @ 10..=19 => {
            let entry = record.entries.get_mut(usize::from(fields.instruction))?;
            set_entry_field(entry, field, n1);
        }
        field @ 20..=23 => {
            let entry = record.entries.get_mut(usize::from(fields.instruction))?;
            let argument = entry.arguments.get_mut(usize::from(fields.zero))?;
            set_argument_field(argument, field, n1);
        }
        _ => return None,
    }
    Some(())
}

fn set_entry_field(entry: &mut Entry, field: u8, value: u32) {
    match field {
        10 => entry.old_ring = Ring(value),
        11 => entry.old_frame = value,
        12 => entry.level = Level(value),
        13 => entry.return_segment = value,
        14 => entry.return_offset = value,
        15 => entry.argument_place = value,
        16 => entry.prior = value,
        17 => entry.new_frame = value,
        18 => entry.argument_count = value,
        _ => entry.serial = value,
    }
}

fn set_argument_field(argument: &mut Argument, field: u8, value: u32) {
    match field {
        20 => argument.segment = value,
        21 => argument.offset = value,
        22 => argument.length = value,
        _ => argument.direction = value,
    }
}

/// The whole program `trace`.
pub fn run(file: Vec<u8>, input: &mut impl Read, out: &mut impl Write) -> io::Result<()> {
    let mut state = first_state(file);
    for_each_request(input, |fields| {
        let (step, shown) = match fields {
            Some(fields) => step(&mut state, fields),
            None => (Step::malformed(), 0),
        };
        write_line(out, &state, &step)?;
        writeln!(out, " {} {} {}", digest(&state.store), record_digest(&state.record), shown)
    })?;
    out.flush()
}
