//! The gatekeeper of document 01 written by hand: one mutable state, no proof.
//! It is a second opinion and shares nothing with the product.
//!
//! * `memory`: the places in a stack and the length L.
//! * `record`: the process record and when it is sound.
//! * `segments`: the segment file and its rules.
//! * `answer`: what a request gives back.
//! * `state`: the store, the record and the file, and the entries start, write, look, cross.
//! * `call`: is the call accepted? `build`: the frame of an accepted call. `back`: the return.
//! * `program`: 24-byte requests and lines. `trace`: the further kinds of the test program. `serve`: what both programs do.

#![forbid(unsafe_code)]

pub mod answer;
pub mod back;
pub mod build;
pub mod call;
pub mod memory;
pub mod program;
pub mod record;
pub mod segments;
pub mod serve;
pub mod state;
pub mod trace;
