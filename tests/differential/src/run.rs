//! A run being written: each request goes into the input and through the reference at once.

use reference::memory::stack_length;
use reference::program::{first_state, Fields, Step};
use reference::state::State;
use reference::trace;

use crate::dice::Dice;
use crate::tally::Tally;

pub struct Run<'a> {
    pub state: State,
    pub input: Vec<u8>,
    pub dice: Dice,
    tally: &'a mut Tally,
}

impl<'a> Run<'a> {
    pub fn new(file: Vec<u8>, dice: Dice, tally: &'a mut Tally) -> Self {
        Run { state: first_state(file), input: Vec::new(), dice, tally }
    }

    pub fn requests(&self) -> usize {
        self.input.len() / 24
    }

    pub fn ring(&self) -> u32 {
        self.state.record.ring.0
    }

    /// L, where the store has a permitted length.
    pub fn length(&self) -> Option<u32> {
        stack_length(self.state.store.len())
    }

    /// Store and record as the entries need them: plans rest on that.
    pub fn is_sound(&self) -> bool {
        self.length().is_some_and(|length| self.state.record.is_sound(length))
    }

    pub fn is_made(&self, ring: u32) -> bool {
        ring < 64 && self.state.record.made >> ring & 1 == 1
    }

    pub fn word(&self, stack: u32, offset: u32) -> u32 {
        let length = self.length().unwrap_or(0);
        self.state.store[(stack * length + offset) as usize]
    }

    pub fn send(&mut self, fields: Fields) -> bool {
        self.input.extend(fields.to_bytes());
        let before = self.ring();
        let (step, _) = trace::step(&mut self.state, &fields);
        self.tally.add(&fields, &step, before, self.ring());
        self.note_call(&fields, &step, before);
        step.answer.is_ok()
    }

    fn note_call(&mut self, fields: &Fields, step: &Step, before: u32) {
        let Ok(places) = step.answer else { return };
        if fields.kind == 1 && fields.instruction == 0 {
            let arguments = self.word(self.ring(), places.argument_place);
            self.tally.add_call(self.ring() < before, arguments, self.state.record.open);
        }
    }

    /// A rest that is no whole request.
    pub fn end_short(&mut self) {
        let rest = self.dice.between(1, 23) as usize;
        for _ in 0..rest {
            self.input.push(self.dice.below(3) as u8);
        }
    }

    pub fn request(&mut self, kind: u32, first: u32, instruction: u32, numbers: [u32; 5]) -> bool {
        let (kind, first, instruction) = (kind as u8, first as u8, instruction as u8);
        self.send(Fields { kind, first, instruction, zero: 0, numbers })
    }

    pub fn start(&mut self, ring: u32) -> bool {
        self.request(0, ring, 0, [0; 5])
    }

    pub fn write(&mut self, stack: u32, offset: u32, value: u32) -> bool {
        self.request(2, stack, 0, [offset, value, 0, 0, 0])
    }

    pub fn look(&mut self, stack: u32, offset: u32) -> bool {
        self.request(3, stack, 0, [offset, 0, 0, 0, 0])
    }

    pub fn set_length(&mut self, words: u32) -> bool {
        self.request(4, 0, 0, [words, 0, 0, 0, 0])
    }

    pub fn set_field(&mut self, field: u32, entry: u32, argument: u32, value: u32) -> bool {
        let (first, instruction, zero) = (field as u8, entry as u8, argument as u8);
        self.send(Fields { kind: 5, first, instruction, zero, numbers: [value, 0, 0, 0, 0] })
    }

    pub fn set_made(&mut self, made: u64) -> bool {
        self.request(5, 1, 0, [(made >> 32) as u32, made as u32, 0, 0, 0])
    }

    pub fn set_byte(&mut self, at: usize, value: u32) -> bool {
        self.request(7, 0, 0, [at as u32, value, 0, 0, 0])
    }

    pub fn set_file_length(&mut self, bytes: usize) -> bool {
        self.request(8, 0, 0, [bytes as u32, 0, 0, 0, 0])
    }

    /// Puts a word where it is not there already: as the program would, or past all rules.
    pub fn put(&mut self, stack: u32, offset: u32, value: u32) {
        if self.word(stack, offset) == value {
            return;
        }
        if stack >= self.ring() && self.is_sound() && self.dice.chance(80) {
            self.write(stack, offset, value);
        } else {
            let length = self.length().unwrap_or(0);
            self.request(6, 0, 0, [stack * length + offset, value, 0, 0, 0]);
        }
    }
}
