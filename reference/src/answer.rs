//! What a request gives back: places, or a number with its reason.

/// Segment, offset, frame and argument place; all zero for a refusal.
#[derive(Clone, Copy, Debug, Default, PartialEq, Eq)]
pub struct Places {
    pub segment: u32,
    pub offset: u32,
    pub frame: u32,
    pub argument_place: u32,
}

/// "Numbers given back". "Other numbers have reason 0."
#[derive(Clone, Copy, Debug, PartialEq, Eq)]
pub struct Refusal {
    pub number: u32,
    pub reason: u32,
}

pub const STORE_LENGTH: Refusal = plain(1);
pub const SEGMENT_FILE: Refusal = plain(2);
pub const RECORD: Refusal = plain(4);
pub const FAULT_OR_INSTRUCTION: Refusal = plain(5);
pub const FRAME: Refusal = plain(6);
pub const RUNNING: Refusal = plain(7);
pub const LEVEL: Refusal = plain(8);
pub const CALLS_OPEN: Refusal = plain(9);
pub const TARGET_STACK: Refusal = plain(11);
pub const NO_ROOM: Refusal = plain(12);
pub const NOTHING_TO_RETURN: Refusal = plain(13);
pub const START_RING: Refusal = plain(14);
pub const BELOW_RING: Refusal = plain(15);
pub const OUTSIDE_STACK: Refusal = plain(16);

const fn plain(number: u32) -> Refusal {
    Refusal { number, reason: 0 }
}

pub const fn target(reason: u32) -> Refusal {
    Refusal { number: 3, reason }
}

pub const fn argument_list(reason: u32) -> Refusal {
    Refusal { number: 10, reason }
}

pub type Answer = Result<Places, Refusal>;

/// Refuses with `refusal` unless the rule holds.
pub fn require(rule: bool, refusal: Refusal) -> Result<(), Refusal> {
    if rule {
        Ok(())
    } else {
        Err(refusal)
    }
}
