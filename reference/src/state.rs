//! The lent store, the process record and the segment file, and the entries that work on them.

use crate::answer::{self, require, Answer, Places, Refusal};
use crate::memory::{self, ends_within, stack_length, FIRST_PLACE, FRAME_WORDS, SECOND_FRAME};
use crate::record::{Record, Ring, LARGEST_RING};
use crate::segments::SegmentFile;

/// A crossing as asked for; every field takes every 32-bit number.
#[derive(Clone, Copy, Debug, Default, PartialEq, Eq)]
pub struct Request {
    pub fault: u32,
    pub instruction: u32,
    pub frame: u32,
    pub argument_place: u32,
    pub running: u32,
    pub target_segment: u32,
    pub target_offset: u32,
}

/// "1 directed fault 2, 2 attempt to execute data"; "Fault 1 is inward, fault 2 outward."
pub const INWARD_FAULT: u32 = 1;
pub const OUTWARD_FAULT: u32 = 2;
/// "0 transfer, 1 return, 2 other"
pub const TRANSFER: u32 = 0;
pub const RETURN: u32 = 1;

#[derive(Clone, Debug, Default, PartialEq, Eq)]
pub struct State {
    pub store: Vec<u32>,
    pub record: Record,
    pub file: Vec<u8>,
}

impl State {
    /// "Start at a ring, whatever the record was". Order: 1 14.
    pub fn start(&mut self, ring: u32) -> Answer {
        let length = self.length()?;
        require(ring <= LARGEST_RING, answer::START_RING)?;
        let ring = Ring(ring);
        self.store.fill(0);
        self.record = Record { ring, ..Record::default() };
        self.make(ring, length);
        self.stack_mut(ring, length)[memory::LEVEL] = ring.0;
        Ok(Places { frame: FIRST_PLACE, ..Places::default() })
    }

    /// One word, into a stack at or above the running ring. Order: 1 4 16 15.
    pub fn write(&mut self, stack: u32, offset: u32, value: u32) -> Answer {
        let at = self.reach(stack, offset, 1)?;
        self.store[at] = value;
        Ok(Places::default())
    }

    /// "hands back 32 words as that very part of the lent store"; refused, an empty part.
    pub fn look(&self, stack: u32, offset: u32) -> &[u32] {
        match self.reach(stack, offset, FRAME_WORDS) {
            Ok(at) => &self.store[at..at + FRAME_WORDS as usize],
            Err(_) => &[],
        }
    }

    /// "a separate question on the same inputs gives the number"
    pub fn look_number(&self, stack: u32, offset: u32) -> Answer {
        self.reach(stack, offset, FRAME_WORDS).map(|_| Places::default())
    }

    /// The one crossing entry; the instruction tells a call from a return.
    pub fn cross(&mut self, request: &Request) -> Answer {
        let length = self.length()?;
        require(SegmentFile::new(&self.file).is_sound(), answer::SEGMENT_FILE)?;
        require(self.record.is_sound(length), answer::RECORD)?;
        require(known_fault_and_instruction(request), answer::FAULT_OR_INSTRUCTION)?;
        if request.instruction == RETURN {
            let way = self.judge_return(request.fault)?;
            Ok(self.go_back(way, length))
        } else {
            let entrance = self.judge_call(request, length)?;
            Ok(self.build(request, &entrance, length))
        }
    }

    /// Number 1.
    fn length(&self) -> Result<u32, Refusal> {
        stack_length(self.store.len()).ok_or(answer::STORE_LENGTH)
    }

    /// Where a write or look goes in the store. Order: 1 4 16 15.
    fn reach(&self, stack: u32, offset: u32, words: u32) -> Result<usize, Refusal> {
        let length = self.length()?;
        require(self.record.is_sound(length), answer::RECORD)?;
        require(stack <= LARGEST_RING, answer::OUTSIDE_STACK)?;
        require(ends_within(offset, words, length), answer::OUTSIDE_STACK)?;
        require(Ring(stack) >= self.record.ring, answer::BELOW_RING)?;
        Ok((stack * length + offset) as usize)
    }

    /// Ring k's stack: "words k×L to k×L+L-1".
    pub fn stack(&self, ring: Ring, length: u32) -> &[u32] {
        let (from, words) = ((ring.0 * length) as usize, length as usize);
        &self.store[from..from + words]
    }

    pub fn stack_mut(&mut self, ring: Ring, length: u32) -> &mut [u32] {
        let (from, words) = ((ring.0 * length) as usize, length as usize);
        &mut self.store[from..from + words]
    }

    /// "all L words zero, except 0-1 = (k, 8), 26 = k, 27 = 40"
    pub fn make(&mut self, ring: Ring, length: u32) {
        self.record.made |= 1 << ring.0;
        let stack = self.stack_mut(ring, length);
        stack.fill(0);
        stack[0] = ring.0;
        stack[1] = FIRST_PLACE;
        stack[26] = ring.0;
        stack[27] = SECOND_FRAME;
    }
}

/// Number 5: "fault not 1 or 2, or instruction not 0 or 1".
fn known_fault_and_instruction(request: &Request) -> bool {
    let fault = request.fault == INWARD_FAULT || request.fault == OUTWARD_FAULT;
    let instruction = request.instruction == TRANSFER || request.instruction == RETURN;
    fault && instruction
}
