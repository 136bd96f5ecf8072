//! Places in a stack, and how long a stack is.

/// "The lent store holds exactly 64×L words": one stack for each of the 64 rings.
pub const RINGS: usize = 64;
pub const SHORTEST_STACK: usize = 128;
pub const LONGEST_STACK: usize = 1024;

/// Stack base: "words 0-1 last-used frame; 2 invocation number; 3 validation level; 4 serial".
pub const LAST_USED: usize = 0;
pub const INVOCATION: usize = 2;
pub const LEVEL: usize = 3;
pub const SERIAL: usize = 4;

/// The base is 8 words, so the first frame lies at 8 and the one after it at 40.
pub const FIRST_PLACE: u32 = 8;
pub const FRAME_WORDS: u32 = 32;
pub const SECOND_FRAME: u32 = FIRST_PLACE + FRAME_WORDS;

/// Frame: "16-17 last frame; 18-19 next empty frame; 20-21 return place; 28-29 frame in the calling ring".
pub const LAST_FRAME: usize = 16;
pub const NEXT_FRAME: usize = 18;
pub const RETURN_PLACE: usize = 20;
pub const CALLING_FRAME: usize = 28;

/// The largest offset in a segment from 64 to 1023.
pub const LARGEST_OFFSET: u32 = 262_143;

/// L, from the length of the lent store; `None` where that length is not permitted.
pub fn stack_length(store_words: usize) -> Option<u32> {
    if store_words % RINGS != 0 {
        return None;
    }
    let length = store_words / RINGS;
    if length < SHORTEST_STACK {
        return None;
    }
    if length > LONGEST_STACK {
        return None;
    }
    Some(length as u32)
}

/// Does a part of `length` words from `offset` end at or below `limit`? A true sum, without wrap.
pub fn ends_within(offset: u32, length: u32, limit: u32) -> bool {
    u64::from(offset) + u64::from(length) <= u64::from(limit)
}

/// "8 to L-32": where a frame may lie.
pub fn is_frame_place(place: u32, stack_length: u32) -> bool {
    place >= FIRST_PLACE && ends_within(place, FRAME_WORDS, stack_length)
}

/// "8 to L-1": where an argument list may begin.
pub fn is_list_place(place: u32, stack_length: u32) -> bool {
    place >= FIRST_PLACE && place < stack_length
}
