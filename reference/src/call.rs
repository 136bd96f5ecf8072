//! Is a call accepted? Order: 6 7 8 9 3 10 11 12, after 1 2 4 5. Nothing is changed here.

use crate::answer::{self, require, Refusal};
use crate::memory::{self, ends_within, is_frame_place, is_list_place};
use crate::memory::{FIRST_PLACE, FRAME_WORDS, LARGEST_OFFSET, SECOND_FRAME};
use crate::record::{Argument, Level, Ring, ARGUMENTS, LARGEST_RING, OPEN_CALLS};
use crate::segments::{Segment, SegmentFile, EXECUTE, READ, WRITE};
use crate::state::{Request, State, INWARD_FAULT, OUTWARD_FAULT};

/// The way of a crossing.
#[derive(Clone, Copy, Debug, PartialEq, Eq)]
pub enum Way {
    Inward,
    Outward,
}

/// The argument list as read: the count and the groups.
#[derive(Clone, Copy, Debug, Default, PartialEq, Eq)]
pub struct ArgumentList {
    pub count: u32,
    pub groups: [Argument; ARGUMENTS],
}

impl ArgumentList {
    pub fn arguments(&self) -> &[Argument] {
        &self.groups[..self.count as usize]
    }

    /// The count and n groups of four words.
    pub fn words(&self) -> u32 {
        1 + 4 * self.count
    }

    /// The list, and outward the arguments themselves.
    pub fn copied_words(&self, way: Way) -> u32 {
        match way {
            Way::Inward => self.words(),
            Way::Outward => self.words() + self.arguments().iter().map(|a| a.length).sum::<u32>(),
        }
    }
}

/// All that the builder of the frame needs to know of an accepted call.
#[derive(Clone, Copy, Debug)]
pub struct Entrance {
    pub way: Way,
    pub new_ring: Ring,
    pub level: Level,
    pub return_offset: u32,
    pub list: ArgumentList,
    pub last_used: u32,
    pub new_frame: u32,
    pub end: u32,
}

impl State {
    /// The tests of a call from 6 on.
    pub fn judge_call(&self, request: &Request, length: u32) -> Result<Entrance, Refusal> {
        let file = SegmentFile::new(&self.file);
        let ring = self.record.ring;
        require(is_frame_place(request.frame, length), answer::FRAME)?;
        let return_offset = self.running_place(file, request, length)?;
        let level = self.level(length)?;
        require(self.record.open < OPEN_CALLS as u32, answer::CALLS_OPEN)?;
        let (way, new_ring) = judge_target(file, ring, request)?;
        let list = self.argument_list(request.argument_place, length)?;
        self.judge_arguments(file, way, &list, length)?;
        let (last_used, new_frame) = self.next_frame(new_ring, length)?;
        let words = FRAME_WORDS + list.copied_words(way);
        require(ends_within(new_frame, words, length), answer::NO_ROOM)?;
        let end = new_frame + words;
        Ok(Entrance { way, new_ring, level, return_offset, list, last_used, new_frame, end })
    }

    /// Number 7; hands back the return offset, word 21 of the frame.
    fn running_place(&self, file: SegmentFile, request: &Request, length: u32) -> Result<u32, Refusal> {
        let ring = self.record.ring;
        let running = file.find(request.running).ok_or(answer::RUNNING)?;
        require(running.has(EXECUTE), answer::RUNNING)?;
        require(running.r1() <= ring && ring <= running.r2(), answer::RUNNING)?;
        let at = request.frame as usize + memory::RETURN_PLACE;
        let stack = self.stack(ring, length);
        require(stack[at] == request.running, answer::RUNNING)?;
        require(stack[at + 1] <= LARGEST_OFFSET, answer::RUNNING)?;
        Ok(stack[at + 1])
    }

    /// "Level = the larger of word 3 of the caller's stack and the caller's ring." Number 8.
    fn level(&self, length: u32) -> Result<Level, Refusal> {
        let word = self.stack(self.record.ring, length)[memory::LEVEL];
        require(word <= LARGEST_RING, answer::LEVEL)?;
        Ok(Level(word).raised_to(self.record.ring))
    }

    /// The list in the caller's own stack. Number 10, reasons 1 to 3.
    fn argument_list(&self, place: u32, length: u32) -> Result<ArgumentList, Refusal> {
        require(is_list_place(place, length), answer::argument_list(1))?;
        let words = &self.stack(self.record.ring, length)[place as usize..];
        let mut list = ArgumentList { count: words[0], ..ArgumentList::default() };
        require(list.count <= ARGUMENTS as u32, answer::argument_list(2))?;
        require(ends_within(place, list.words(), length), answer::argument_list(3))?;
        let groups = words[1..].chunks_exact(4).take(list.count as usize);
        for (group, words) in list.groups.iter_mut().zip(groups) {
            *group = Argument { segment: words[0], offset: words[1], length: words[2], direction: words[3] };
        }
        Ok(list)
    }

    /// "then argument by argument 4 length, 5 direction, 6 not permitted"
    fn judge_arguments(&self, file: SegmentFile, way: Way, list: &ArgumentList, length: u32) -> Result<(), Refusal> {
        for argument in list.arguments() {
            require(argument.has_length(), answer::argument_list(4))?;
            require(argument.has_direction(), answer::argument_list(5))?;
            let permitted = match way {
                Way::Inward => self.permits_inward(file, argument, length),
                Way::Outward => self.permits_outward(argument, length),
            };
            require(permitted, answer::argument_list(6))?;
        }
        Ok(())
    }

    /// "a made stack k ≥ caller's ring, at offset ≥ 8 and ending within L; or in a listed segment"
    fn permits_inward(&self, file: SegmentFile, argument: &Argument, length: u32) -> bool {
        let ring = self.record.ring;
        if argument.segment <= LARGEST_RING {
            let stack = Ring(argument.segment);
            stack >= ring && self.record.is_made(stack) && argument.lies_in_stack(length)
        } else {
            file.find(argument.segment).is_some_and(|segment| segment_permits(segment, ring, argument))
        }
    }

    /// "permitted only in the caller's own stack, from offset 8, ending within L"
    fn permits_outward(&self, argument: &Argument, length: u32) -> bool {
        argument.segment == self.record.ring.0 && argument.lies_in_stack(length)
    }

    /// Last-used offset and new frame. Number 11 concerns a made stack; an unmade one is read as made.
    fn next_frame(&self, ring: Ring, length: u32) -> Result<(u32, u32), Refusal> {
        if !self.record.is_made(ring) {
            return Ok((FIRST_PLACE, SECOND_FRAME));
        }
        let stack = self.stack(ring, length);
        let last_used = stack[memory::LAST_USED + 1];
        require(stack[memory::LAST_USED] == ring.0, answer::TARGET_STACK)?;
        require(is_frame_place(last_used, length), answer::TARGET_STACK)?;
        let at = last_used as usize + memory::NEXT_FRAME;
        let next = stack[at + 1];
        require(stack[at] == ring.0, answer::TARGET_STACK)?;
        require(ends_within(last_used, FRAME_WORDS, next), answer::TARGET_STACK)?;
        Ok((last_used, next))
    }
}

/// "caller's ring ≤ r2, read mode for 1 and 3, write mode for 2 and 3, ending at or below 262144"
fn segment_permits(segment: Segment, ring: Ring, argument: &Argument) -> bool {
    ring <= segment.r2()
        && (!argument.is_input() || segment.has(READ))
        && (!argument.is_return() || segment.has(WRITE))
        && ends_within(argument.offset, argument.length, LARGEST_OFFSET + 1)
}

/// Number 3, reasons in the order 1 2 3 4 7 5 6; the way and the ring entered.
pub fn judge_target(file: SegmentFile, ring: Ring, request: &Request) -> Result<(Way, Ring), Refusal> {
    let target = file.find(request.target_segment).ok_or(answer::target(1))?;
    require(request.target_offset <= LARGEST_OFFSET, answer::target(1))?;
    require(target.has(EXECUTE), answer::target(2))?;
    require(ring <= target.r3(), answer::target(3))?;
    if ring < target.r1() {
        require(request.fault == OUTWARD_FAULT, answer::target(7))?;
        require(ring != Ring(0), answer::target(6))?;
        Ok((Way::Outward, target.r1()))
    } else if ring <= target.r2() {
        Err(answer::target(4))
    } else {
        require(request.fault == INWARD_FAULT, answer::target(7))?;
        require(target.is_gate(request.target_offset), answer::target(5))?;
        Ok((Way::Inward, target.r2()))
    }
}
