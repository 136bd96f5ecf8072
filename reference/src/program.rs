//! The run program: 24-byte requests in, a line for each out.

use std::io::{self, ErrorKind, Read, Write};

use crate::answer::{Answer, Refusal};
use crate::state::{Request, State, RETURN};

pub const REQUEST_BYTES: usize = 24;
/// One record more than the rules permit, and 40 bytes more: enough to see that a file is too long.
pub const MOST_FILE_BYTES: usize = 7_760;
/// "for a 17, kind is 9"
const MALFORMED_KIND: u32 = 9;
pub const MALFORMED: Refusal = Refusal { number: 17, reason: 0 };

/// The fields of a 24-byte request.
#[derive(Clone, Copy, Debug, Default, PartialEq, Eq)]
pub struct Fields {
    pub kind: u8,
    pub first: u8,
    pub instruction: u8,
    pub zero: u8,
    pub numbers: [u32; 5],
}

impl Fields {
    pub fn from_bytes(bytes: &[u8; REQUEST_BYTES]) -> Self {
        let mut numbers = [0; 5];
        for (number, four) in numbers.iter_mut().zip(bytes[4..].chunks_exact(4)) {
            *number = u32::from_be_bytes([four[0], four[1], four[2], four[3]]);
        }
        Fields { kind: bytes[0], first: bytes[1], instruction: bytes[2], zero: bytes[3], numbers }
    }

    pub fn to_bytes(&self) -> [u8; REQUEST_BYTES] {
        let mut bytes = [0; REQUEST_BYTES];
        bytes[..4].copy_from_slice(&[self.kind, self.first, self.instruction, self.zero]);
        for (four, number) in bytes[4..].chunks_exact_mut(4).zip(self.numbers) {
            four.copy_from_slice(&number.to_be_bytes());
        }
        bytes
    }

    /// "the zero byte or an unused field isn't zero", by how many of the numbers are used.
    pub fn unused_are_zero(&self, used_numbers: usize) -> bool {
        self.instruction == 0 && self.zero == 0 && self.numbers[used_numbers..] == [0; 5][used_numbers..]
    }

    /// A return's five numbers are ignored.
    fn crossing(&self) -> Request {
        let (fault, instruction) = (u32::from(self.first), u32::from(self.instruction));
        if instruction == RETURN {
            return Request { fault, instruction, ..Request::default() };
        }
        let [frame, argument_place, running, target_segment, target_offset] = self.numbers;
        Request { fault, instruction, frame, argument_place, running, target_segment, target_offset }
    }
}

/// What a line is made of: the kind shown and the answer.
#[derive(Clone, Copy, Debug, PartialEq, Eq)]
pub struct Step {
    pub kind: u32,
    pub answer: Answer,
}

impl Step {
    pub fn of(kind: u8, answer: Answer) -> Self {
        Step { kind: u32::from(kind), answer }
    }

    pub fn malformed() -> Self {
        Step { kind: MALFORMED_KIND, answer: Err(MALFORMED) }
    }
}

/// Kinds 0 start, 1 crossing, 2 write; all else is malformed.
pub fn step(state: &mut State, fields: &Fields) -> Step {
    let first = u32::from(fields.first);
    match fields.kind {
        0 if fields.unused_are_zero(0) => Step::of(0, state.start(first)),
        1 if fields.zero == 0 => Step::of(1, state.cross(&fields.crossing())),
        2 if fields.unused_are_zero(2) => Step::of(2, state.write(first, fields.numbers[0], fields.numbers[1])),
        _ => Step::malformed(),
    }
}

/// "kind, number, reason, ring, open, made, serial, segment, offset, frame, argument place", without the newline.
pub fn write_line(out: &mut impl Write, state: &State, step: &Step) -> io::Result<()> {
    let record = &state.record;
    let (number, reason) = match step.answer {
        Ok(_) => (0, 0),
        Err(refusal) => (refusal.number, refusal.reason),
    };
    write!(out, "{} {} {} ", step.kind, number, reason)?;
    write!(out, "{} {} {} {} ", record.ring.0, record.open, record.made_count(), record.serial)?;
    let places = step.answer.unwrap_or_default();
    write!(out, "{} {} {} {}", places.segment, places.offset, places.frame, places.argument_place)
}

/// Reads until a request is full or the input ends; hands back how many bytes came.
pub fn read_request(input: &mut impl Read, bytes: &mut [u8; REQUEST_BYTES]) -> io::Result<usize> {
    let mut filled = 0;
    while filled < REQUEST_BYTES {
        match input.read(&mut bytes[filled..]) {
            Ok(0) => break,
            Ok(count) => filled += count,
            Err(error) if error.kind() == ErrorKind::Interrupted => {}
            Err(error) => return Err(error),
        }
    }
    Ok(filled)
}

/// Every request of the input goes through `work`; a rest of 1 to 23 bytes comes as `None`.
pub fn for_each_request(
    input: &mut impl Read,
    mut work: impl FnMut(Option<&Fields>) -> io::Result<()>,
) -> io::Result<()> {
    let mut bytes = [0; REQUEST_BYTES];
    loop {
        match read_request(input, &mut bytes)? {
            0 => return Ok(()),
            REQUEST_BYTES => work(Some(&Fields::from_bytes(&bytes)))?,
            _ => return work(None),
        }
    }
}

/// The file "segments"; missing means empty. Unreadable is reported and counts as breaking a rule.
pub fn read_segment_file() -> Vec<u8> {
    let mut bytes = Vec::new();
    let read =
        std::fs::File::open("segments").and_then(|file| file.take(MOST_FILE_BYTES as u64).read_to_end(&mut bytes));
    match read {
        Ok(_) => bytes,
        Err(error) if error.kind() == ErrorKind::NotFound => Vec::new(),
        Err(error) => {
            eprintln!("segments cannot be read: {error}");
            vec![0]
        }
    }
}

/// The state of the run program before a start: L is 128, all zero.
pub fn first_state(file: Vec<u8>) -> State {
    State { store: vec![0; 64 * 128], file, ..State::default() }
}

/// The whole run program.
pub fn run(file: Vec<u8>, input: &mut impl Read, out: &mut impl Write) -> io::Result<()> {
    let mut state = first_state(file);
    for_each_request(input, |fields| {
        let step = fields.map_or(Step::malformed(), |fields| step(&mut state, fields));
        write_line(out, &state, &step)?;
        out.write_all(b"\n")
    })?;
    out.flush()
}
