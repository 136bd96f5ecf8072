//! How often each number and reason came, and whether all of them did.

use std::collections::BTreeMap;

use reference::program::{Fields, Step};
use reference::state::RETURN;

const KINDS: [&str; 10] =
    ["start", "crossing", "write", "look", "length", "field", "word", "byte", "file", "malformed"];
const ACCEPTED: [&str; 7] =
    ["start", "inward call", "outward call", "inward return", "outward return", "write", "look"];

#[derive(Default)]
pub struct Tally {
    pub requests: u64,
    pub deepest: u32,
    seen: BTreeMap<(u32, u32, u32), u64>,
    accepted: BTreeMap<&'static str, u64>,
    calls_by_count: BTreeMap<(bool, u32), u64>,
}

impl Tally {
    /// One step, with the ring before and after it.
    pub fn add(&mut self, fields: &Fields, step: &Step, before: u32, after: u32) {
        self.requests += 1;
        let (number, reason) = match step.answer {
            Ok(_) => (0, 0),
            Err(refusal) => (refusal.number, refusal.reason),
        };
        *self.seen.entry((step.kind, number, reason)).or_default() += 1;
        if number == 0 && step.kind <= 3 {
            *self.accepted.entry(accepted_kind(fields, before, after)).or_default() += 1;
        }
    }

    pub fn add_call(&mut self, inward: bool, arguments: u32, open: u32) {
        *self.calls_by_count.entry((inward, arguments)).or_default() += 1;
        self.deepest = self.deepest.max(open);
    }

    pub fn print(&self) {
        println!("requests {}, deepest {} open", self.requests, self.deepest);
        for ((kind, number, reason), times) in &self.seen {
            println!("{:9} number {number:2} reason {reason}: {times}", KINDS[*kind as usize]);
        }
        for name in ACCEPTED {
            println!("accepted {name}: {}", self.accepted.get(name).unwrap_or(&0));
        }
        for ((inward, arguments), times) in &self.calls_by_count {
            let way = if *inward { "inward" } else { "outward" };
            println!("accepted {way} call with {arguments} arguments: {times}");
        }
    }

    /// What never came, of all that must.
    pub fn missing(&self) -> Vec<String> {
        let mut wanted: Vec<(u32, u32)> = (1..=17).filter(|n| *n != 3 && *n != 10).map(|n| (n, 0)).collect();
        wanted.extend((1..=7).map(|reason| (3, reason)));
        wanted.extend((1..=6).map(|reason| (10, reason)));
        let came = |w: &(u32, u32)| self.seen.keys().any(|(_, number, reason)| (*number, *reason) == *w);
        wanted.retain(|w| !came(w));
        let mut missing: Vec<String> = wanted.iter().map(|(n, r)| format!("number {n} reason {r}")).collect();
        let unaccepted = ACCEPTED.iter().filter(|name| !self.accepted.contains_key(*name));
        missing.extend(unaccepted.map(|name| format!("accepted {name}")));
        if self.deepest < 32 {
            missing.push("32 open calls".to_string());
        }
        missing
    }
}

fn accepted_kind(fields: &Fields, before: u32, after: u32) -> &'static str {
    let inward = after < before;
    match (fields.kind, u32::from(fields.instruction) == RETURN) {
        (0, _) => "start",
        (1, false) if inward => "inward call",
        (1, false) => "outward call",
        (1, true) if inward => "inward return",
        (1, true) => "outward return",
        (2, _) => "write",
        _ => "look",
    }
}
