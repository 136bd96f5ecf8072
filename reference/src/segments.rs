//! The segment file: records of 40 bytes, their rules, and the search in them.

use crate::memory::LARGEST_OFFSET;
use crate::record::{Ring, LARGEST_RING};

pub const RECORD_BYTES: usize = 40;
pub const MOST_RECORDS: usize = 192;
pub const READ: u8 = 1;
pub const WRITE: u8 = 2;
pub const EXECUTE: u8 = 4;
const GATES: usize = 8;

/// One record of the segment file.
#[derive(Clone, Copy)]
pub struct Segment<'a> {
    bytes: &'a [u8; RECORD_BYTES],
}

impl<'a> Segment<'a> {
    pub fn number(self) -> u32 {
        u32::from(u16::from_be_bytes([self.bytes[0], self.bytes[1]]))
    }

    pub fn r1(self) -> Ring {
        Ring(u32::from(self.bytes[2]))
    }

    pub fn r2(self) -> Ring {
        Ring(u32::from(self.bytes[3]))
    }

    pub fn r3(self) -> Ring {
        Ring(u32::from(self.bytes[4]))
    }

    pub fn has(self, mode: u8) -> bool {
        self.bytes[5] & mode != 0
    }

    fn gate_count(self) -> usize {
        usize::from(self.bytes[6])
    }

    fn gate(self, index: usize) -> u32 {
        let at = 8 + 4 * index;
        let bytes = &self.bytes[at..at + 4];
        u32::from_be_bytes([bytes[0], bytes[1], bytes[2], bytes[3]])
    }

    /// The zeros past the gate count are no gates.
    pub fn is_gate(self, offset: u32) -> bool {
        (0..self.gate_count()).any(|index| self.gate(index) == offset)
    }

    /// The rules for one record, all but its place in the order.
    fn is_sound(self) -> bool {
        (64..=1023).contains(&self.number())
            && self.r1() <= self.r2()
            && self.r2() <= self.r3()
            && self.r3().0 <= LARGEST_RING
            && self.bytes[5] <= READ + WRITE + EXECUTE
            && self.gate_count() <= GATES
            && self.bytes[7] == 0
            && self.gates_are_sound()
    }

    /// "strictly ascending up to the count, each at most 262143, zero past it"
    fn gates_are_sound(self) -> bool {
        let count = self.gate_count();
        let mut least = 0;
        for index in 0..count {
            let gate = self.gate(index);
            if gate < least || gate > LARGEST_OFFSET {
                return false;
            }
            least = gate + 1;
        }
        self.bytes[8 + 4 * count..].iter().all(|byte| *byte == 0)
    }
}

/// The whole file.
#[derive(Clone, Copy)]
pub struct SegmentFile<'a> {
    records: &'a [[u8; RECORD_BYTES]],
    rest: &'a [u8],
}

impl<'a> SegmentFile<'a> {
    pub fn new(bytes: &'a [u8]) -> Self {
        let (records, rest) = bytes.as_chunks::<RECORD_BYTES>();
        SegmentFile { records, rest }
    }

    /// "Records of 40 bytes, no header, 0 to 192 of them, strictly ascending by number."
    pub fn is_sound(self) -> bool {
        if !self.rest.is_empty() || self.records.len() > MOST_RECORDS {
            return false;
        }
        let mut last = 0;
        for bytes in self.records {
            let segment = Segment { bytes };
            if segment.number() <= last || !segment.is_sound() {
                return false;
            }
            last = segment.number();
        }
        true
    }

    /// The listed segment with this number, in a sound file.
    pub fn find(self, number: u32) -> Option<Segment<'a>> {
        let found = self.records.binary_search_by_key(&number, |bytes| Segment { bytes }.number());
        found.ok().map(|index| Segment { bytes: &self.records[index] })
    }
}
