//! The return: all of it comes from the newest entry, nothing from the stacks' words.

use crate::answer::{self, require, Places, Refusal};
use crate::call::Way;
use crate::memory::{self, FRAME_WORDS};
use crate::record::{Entry, Ring};
use crate::state::{State, INWARD_FAULT, OUTWARD_FAULT};

impl State {
    /// Number 13: "nothing open, or newest call went the other way".
    pub fn judge_return(&self, fault: u32) -> Result<Way, Refusal> {
        require(self.record.open > 0, answer::NOTHING_TO_RETURN)?;
        let newest = &self.record.entries[self.record.open as usize - 1];
        // "fault 1 when old ring < ring"
        if newest.old_ring < self.record.ring {
            require(fault == INWARD_FAULT, answer::NOTHING_TO_RETURN)?;
            Ok(Way::Inward)
        } else {
            require(fault == OUTWARD_FAULT, answer::NOTHING_TO_RETURN)?;
            Ok(Way::Outward)
        }
    }

    /// "The newest entry is struck and zeroed".
    pub fn go_back(&mut self, way: Way, length: u32) -> Places {
        let left = self.record.ring;
        self.record.open -= 1;
        let entry = std::mem::take(&mut self.record.entries[self.record.open as usize]);
        self.record.ring = entry.old_ring;
        if way == Way::Inward {
            self.copy_back(&entry, left, length);
        }
        let stack = self.stack_mut(left, length);
        stack[memory::LAST_USED] = left.0;
        stack[memory::LAST_USED + 1] = entry.prior;
        self.stack_mut(entry.old_ring, length)[memory::LEVEL] = entry.level.0;
        Places {
            segment: entry.return_segment,
            offset: entry.return_offset,
            frame: entry.old_frame,
            argument_place: entry.argument_place,
        }
    }

    /// "arguments of direction 2 and 3 are copied from the copies back to their recorded places, in list order"
    fn copy_back(&mut self, entry: &Entry, left: Ring, length: u32) {
        let count = entry.argument_count;
        let old_stack = entry.old_ring.0 * length;
        let mut copy = left.0 * length + entry.new_frame + FRAME_WORDS + 1 + 4 * count;
        for argument in &entry.arguments[..count as usize] {
            let words = copy as usize..(copy + argument.length) as usize;
            if argument.is_return() {
                self.store.copy_within(words, (old_stack + argument.offset) as usize);
            }
            copy += argument.length;
        }
    }
}
