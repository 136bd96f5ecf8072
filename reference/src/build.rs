//! The frame of an accepted call, and its entry in the record.

use crate::answer::Places;
use crate::call::{Entrance, Way};
use crate::memory::{self, FRAME_WORDS};
use crate::record::{Argument, Entry, ARGUMENTS};
use crate::state::{Request, State};

impl State {
    /// "On acceptance": nothing is refused any more, so the stack may be made now.
    pub fn build(&mut self, request: &Request, entrance: &Entrance, length: u32) -> Places {
        let new_ring = entrance.new_ring;
        if !self.record.is_made(new_ring) {
            self.make(new_ring, length);
        }
        self.build_frame(request, entrance, length);
        match entrance.way {
            Way::Inward => self.copy_list(request, entrance, length),
            Way::Outward => self.copy_arguments(entrance, length),
        }
        self.add_entry(request, entrance);
        self.set_bases(request, entrance, length);
        self.record.ring = new_ring;
        Places {
            segment: request.target_segment,
            offset: request.target_offset,
            frame: entrance.new_frame,
            argument_place: entrance.new_frame + FRAME_WORDS,
        }
    }

    /// "It gets the caller's 32 frame words, then 16-17 .., 18-19 .., 28-29 .."
    fn build_frame(&mut self, request: &Request, entrance: &Entrance, length: u32) {
        let (old, new) = (self.record.ring, entrance.new_ring);
        let from = (old.0 * length + request.frame) as usize;
        let to = (new.0 * length + entrance.new_frame) as usize;
        self.store.copy_within(from..from + FRAME_WORDS as usize, to);
        let frame = &mut self.store[to..to + FRAME_WORDS as usize];
        frame[memory::LAST_FRAME] = 65536 + new.0;
        frame[memory::LAST_FRAME + 1] = entrance.last_used;
        frame[memory::NEXT_FRAME] = new.0;
        frame[memory::NEXT_FRAME + 1] = entrance.end;
        frame[memory::CALLING_FRAME] = old.0;
        frame[memory::CALLING_FRAME + 1] = request.frame;
    }

    /// "Inward, groups are unchanged."
    fn copy_list(&mut self, request: &Request, entrance: &Entrance, length: u32) {
        let from = (self.record.ring.0 * length + request.argument_place) as usize;
        let to = entrance.new_ring.0 * length + entrance.new_frame + FRAME_WORDS;
        let words = entrance.list.words() as usize;
        self.store.copy_within(from..from + words, to as usize);
    }

    /// "Outward, the arguments themselves follow the list in order and groups point at the copies"
    fn copy_arguments(&mut self, entrance: &Entrance, length: u32) {
        let old_stack = self.record.ring.0 * length;
        let new_stack = entrance.new_ring.0 * length;
        let list = &entrance.list;
        let mut group = (new_stack + entrance.new_frame + FRAME_WORDS) as usize;
        let mut copy = entrance.new_frame + FRAME_WORDS + list.words();
        self.store[group] = list.count;
        group += 1;
        for argument in list.arguments() {
            let pointed = [entrance.new_ring.0, copy, argument.length, argument.direction];
            self.store[group..group + 4].copy_from_slice(&pointed);
            let from = (old_stack + argument.offset) as usize;
            let to = (new_stack + copy) as usize;
            self.store.copy_within(from..from + argument.length as usize, to);
            group += 4;
            copy += argument.length;
        }
    }

    /// "the serial goes up by one" and "an entry is added; an inward entry records no arguments"
    fn add_entry(&mut self, request: &Request, entrance: &Entrance) {
        let (argument_count, arguments) = match entrance.way {
            Way::Inward => (0, [Argument::default(); ARGUMENTS]),
            Way::Outward => (entrance.list.count, entrance.list.groups),
        };
        let record = &mut self.record;
        record.serial = record.serial.wrapping_add(1);
        record.entries[record.open as usize] = Entry {
            old_ring: record.ring,
            old_frame: request.frame,
            level: entrance.level,
            return_segment: request.running,
            return_offset: entrance.return_offset,
            argument_place: request.argument_place,
            prior: entrance.last_used,
            new_frame: entrance.new_frame,
            argument_count,
            serial: record.serial,
            arguments,
        };
        record.open += 1;
    }

    /// "words 0-1 of the old stack"; "base words of the new stack: 2 .., 3 .., 4 .."
    fn set_bases(&mut self, request: &Request, entrance: &Entrance, length: u32) {
        let (old_ring, new_ring) = (self.record.ring, entrance.new_ring);
        let (open, serial) = (self.record.open, self.record.serial);
        let old = self.stack_mut(old_ring, length);
        old[memory::LAST_USED] = old_ring.0;
        old[memory::LAST_USED + 1] = request.frame;
        let new = self.stack_mut(new_ring, length);
        new[memory::INVOCATION] = open;
        new[memory::LEVEL] = entrance.level.raised_to(new_ring).0;
        new[memory::SERIAL] = serial;
    }
}
