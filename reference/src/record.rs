//! The process record, and when it is sound.

use crate::memory::{ends_within, is_frame_place, is_list_place};
use crate::memory::{FIRST_PLACE, FRAME_WORDS, LARGEST_OFFSET};

pub const OPEN_CALLS: usize = 32;
pub const ARGUMENTS: usize = 4;
pub const LARGEST_RING: u32 = 63;
pub const LONGEST_ARGUMENT: u32 = 16;

/// Where a program runs. A made-up record may hold any number here.
#[derive(Clone, Copy, Debug, Default, PartialEq, Eq, PartialOrd, Ord)]
pub struct Ring(pub u32);

/// On whose behalf it runs. Never passed for a ring.
#[derive(Clone, Copy, Debug, Default, PartialEq, Eq, PartialOrd, Ord)]
pub struct Level(pub u32);

impl Level {
    /// "the larger of": the one place where a ring meets a level.
    pub fn raised_to(self, ring: Ring) -> Level {
        Level(self.0.max(ring.0))
    }
}

#[derive(Clone, Copy, Debug, Default, PartialEq, Eq)]
pub struct Argument {
    pub segment: u32,
    pub offset: u32,
    pub length: u32,
    pub direction: u32,
}

impl Argument {
    pub fn has_length(&self) -> bool {
        self.length >= 1 && self.length <= LONGEST_ARGUMENT
    }

    pub fn has_direction(&self) -> bool {
        self.direction >= 1 && self.direction <= 3
    }

    /// "1 input, 2 return, 3 both"
    pub fn is_input(&self) -> bool {
        self.direction == 1 || self.direction == 3
    }

    pub fn is_return(&self) -> bool {
        self.direction == 2 || self.direction == 3
    }

    /// "at offset ≥ 8 and ending within L"
    pub fn lies_in_stack(&self, stack_length: u32) -> bool {
        self.offset >= FIRST_PLACE && ends_within(self.offset, self.length, stack_length)
    }
}

/// An open-call entry.
#[derive(Clone, Copy, Debug, Default, PartialEq, Eq)]
pub struct Entry {
    pub old_ring: Ring,
    pub old_frame: u32,
    pub level: Level,
    pub return_segment: u32,
    pub return_offset: u32,
    pub argument_place: u32,
    pub prior: u32,
    pub new_frame: u32,
    pub argument_count: u32,
    pub serial: u32,
    pub arguments: [Argument; ARGUMENTS],
}

#[derive(Clone, Copy, Debug, Default, PartialEq, Eq)]
pub struct Record {
    pub ring: Ring,
    pub made: u64,
    pub serial: u32,
    pub open: u32,
    pub entries: [Entry; OPEN_CALLS],
}

impl Record {
    pub fn is_made(&self, ring: Ring) -> bool {
        ring.0 <= LARGEST_RING && (self.made >> ring.0) & 1 == 1
    }

    /// "how many stacks are made, which is the number of bits set"
    pub fn made_count(&self) -> u32 {
        self.made.count_ones()
    }

    /// The paragraph "Sound".
    pub fn is_sound(&self, stack_length: u32) -> bool {
        if !self.is_made(self.ring) {
            return false;
        }
        let open = self.open as usize;
        if open > OPEN_CALLS {
            return false;
        }
        let (opened, unused) = self.entries.split_at(open);
        let mut entered = self.ring;
        for entry in opened.iter().rev() {
            if !self.is_made(entry.old_ring) || !entry.is_sound(entered, stack_length) {
                return false;
            }
            entered = entry.old_ring;
        }
        unused.iter().all(|entry| *entry == Entry::default())
    }
}

impl Entry {
    fn is_sound(&self, entered: Ring, stack_length: u32) -> bool {
        self.old_ring != entered
            && self.level.raised_to(self.old_ring) == self.level
            && self.level.0 <= LARGEST_RING
            && is_frame_place(self.old_frame, stack_length)
            && is_frame_place(self.prior, stack_length)
            && (64..=1023).contains(&self.return_segment)
            && self.return_offset <= LARGEST_OFFSET
            && is_list_place(self.argument_place, stack_length)
            && ends_within(self.prior, FRAME_WORDS, self.new_frame)
            && self.arguments_are_sound(entered, stack_length)
    }

    fn arguments_are_sound(&self, entered: Ring, stack_length: u32) -> bool {
        let count = self.argument_count as usize;
        // "Where the call was inward, the argument count is 0"
        let most = if entered < self.old_ring { 0 } else { ARGUMENTS };
        if count > most {
            return false;
        }
        let (kept, unused) = self.arguments.split_at(count);
        let mut words = 33 + 4 * self.argument_count;
        for argument in kept {
            if !argument.was_outward(self.old_ring, stack_length) {
                return false;
            }
            words += argument.length;
        }
        ends_within(self.new_frame, words, stack_length)
            && unused.iter().all(|argument| *argument == Argument::default())
    }
}

impl Argument {
    /// "each argument has segment = old ring, offset ≥ 8, length 1 to 16, offset + length ≤ L, direction 1 to 3"
    fn was_outward(&self, old_ring: Ring, stack_length: u32) -> bool {
        self.segment == old_ring.0 && self.has_length() && self.has_direction() && self.lies_in_stack(stack_length)
    }
}
