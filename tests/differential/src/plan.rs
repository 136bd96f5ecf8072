//! A call prepared so that it is accepted: frame, list, level and target stack as the rules want them.

use crate::arguments::{self, Group};
use crate::listing::{self, Listed};
use crate::run::Run;

/// What words 0-1 of the target stack and 18-19 of its last-used frame are to be.
#[derive(Clone, Copy, Debug)]
pub struct Base {
    pub stack: u32,
    pub last_used: [u32; 2],
    pub next: [u32; 2],
}

#[derive(Clone, Debug)]
pub struct Plan {
    pub inward: bool,
    pub fault: u32,
    pub instruction: u32,
    pub frame: u32,
    pub place: u32,
    pub running: u32,
    pub target: u32,
    pub offset: u32,
    pub return_place: [u32; 2],
    pub level: u32,
    pub count: u32,
    pub groups: Vec<Group>,
    pub new_ring: u32,
    pub base: Option<Base>,
}

/// A plan for a call from the ring as it stands; `None` where no call can be accepted.
pub fn plan(run: &mut Run, deep: bool) -> Option<Plan> {
    let length = run.length()?;
    let ring = run.ring();
    let listed = listing::read(&run.state.file);
    let running = pick(run, &listed, |s| s.runs_in(ring))?;
    let (target, inward) = pick_target(run, &listed, deep)?;
    let new_ring = if inward { target.brackets[1] } else { target.brackets[0] };
    let offset = if inward { run.dice.pick(&target.gates) } else { offset(run) };
    let (count, base) = room(run, new_ring, inward, length);
    let next = base.map_or(40, |base| base.next[1]);
    let budget = length - 33 - 4 * count - next;
    let groups = arguments::groups(run, &listed, inward, count, budget, length);
    let frame = frame(run, length, deep);
    let mut plan = Plan {
        inward,
        fault: if inward { 1 } else { 2 },
        instruction: 0,
        frame,
        place: place(run, frame, count, length),
        running: running.number,
        target: target.number,
        offset,
        return_place: [running.number, self::offset(run)],
        level: level(run),
        count,
        groups,
        new_ring,
        base,
    };
    plan.fill_up(run, length);
    Some(plan)
}

fn pick(run: &mut Run, listed: &[Listed], fits: impl Fn(&Listed) -> bool) -> Option<Listed> {
    let fitting: Vec<&Listed> = listed.iter().filter(|s| fits(s)).collect();
    if fitting.is_empty() {
        return None;
    }
    Some(run.dice.pick(&fitting).clone())
}

/// A target inward or outward; in a deep run none that ends in ring 0, where no outward call is made.
fn pick_target(run: &mut Run, listed: &[Listed], deep: bool) -> Option<(Listed, bool)> {
    let ring = run.ring();
    let inward = |s: &Listed| s.inward_from(ring) && !(deep && s.brackets[1] == 0);
    let outward = |s: &Listed| s.outward_from(ring);
    let first = run.dice.chance(50);
    for way in [first, !first] {
        let target = if way { pick(run, listed, inward) } else { pick(run, listed, outward) };
        if let Some(target) = target {
            return Some((target, way));
        }
    }
    None
}

fn offset(run: &mut Run) -> u32 {
    let any = run.dice.below(262_144);
    run.dice.pick(&[0, 262_143, any, any])
}

fn frame(run: &mut Run, length: u32, deep: bool) -> u32 {
    if deep && run.dice.chance(70) {
        return 8;
    }
    let newest = run.word(run.ring(), 1);
    match run.dice.below(5) {
        0 => 8,
        1 => 40,
        2 => length - 32,
        3 if (8..=length - 32).contains(&newest) => newest,
        _ => run.dice.between(8, length - 32),
    }
}

/// The list: anywhere, ending at L, in the caller's frame, or clear of its words 20-21.
fn place(run: &mut Run, frame: u32, count: u32, length: u32) -> u32 {
    let last = length - 1 - 4 * count;
    match run.dice.below(8) {
        0 => last,
        1 => 8,
        2 => (frame + run.dice.below(32)).min(last),
        _ => {
            for _ in 0..20 {
                let place = run.dice.between(8, last);
                if place > frame + 21 || place + 1 + 4 * count <= frame + 20 {
                    return place;
                }
            }
            last
        }
    }
}

/// Mostly as it stands; a level above 63 is put right.
fn level(run: &mut Run) -> u32 {
    let word = run.word(run.ring(), 3);
    if word <= 63 && run.dice.chance(60) {
        return word;
    }
    let ring = run.ring();
    let any = run.dice.below(64);
    run.dice.pick(&[0, ring.saturating_sub(1), ring, 63, any])
}

/// Is the made target stack in order, with room for the list?
fn natural_room(run: &Run, ring: u32, words: u32, length: u32) -> bool {
    if !run.is_made(ring) {
        return 40 + words <= length;
    }
    let last_used = run.word(ring, 1);
    if run.word(ring, 0) != ring || !(8..=length - 32).contains(&last_used) {
        return false;
    }
    let next = run.word(ring, last_used + 19);
    let in_order = run.word(ring, last_used + 18) == ring && next >= last_used + 32;
    in_order && u64::from(next) + u64::from(words) <= u64::from(length)
}

/// The argument count, and the base of a made target stack: a new one where its own has no room.
fn room(run: &mut Run, ring: u32, inward: bool, length: u32) -> (u32, Option<Base>) {
    let count = run.dice.below(5);
    let words = 33 + if inward { 4 * count } else { 5 * count };
    let renew = !natural_room(run, ring, words, length) || run.dice.chance(15);
    if !run.is_made(ring) {
        return (count, None);
    }
    if !renew {
        let last_used = run.word(ring, 1);
        let next = run.word(ring, last_used + 19);
        return (count, Some(Base { stack: ring, last_used: [ring, last_used], next: [ring, next] }));
    }
    let last_used = match run.dice.below(4) {
        0 => 8,
        1 => length - words - 32,
        _ => run.dice.between(8, length - words - 32),
    };
    let next = match run.dice.below(4) {
        0 => last_used + 32,
        1 => length - words,
        _ => run.dice.between(last_used + 32, length - words),
    };
    (count, Some(Base { stack: ring, last_used: [ring, last_used], next: [ring, next] }))
}

impl Plan {
    /// Words from the new frame to the end of all copied.
    pub fn words(&self) -> u32 {
        let lengths: u32 = self.groups.iter().map(|g| g[2]).fold(0, u32::wrapping_add);
        (33 + 4 * self.count.min(4)).wrapping_add(if self.inward { 0 } else { lengths })
    }

    /// Now and then the end of all copied is to be L itself.
    fn fill_up(&mut self, run: &mut Run, length: u32) {
        let words = self.words();
        if let Some(base) = &mut self.base {
            if run.dice.chance(30) && base.last_used[1] + 32 + words <= length {
                base.next[1] = length - words;
            }
        }
    }

    /// Writes what the plan needs into the stacks, then asks for the call.
    pub fn carry_out(&self, run: &mut Run) -> bool {
        self.prepare(run);
        self.ask(run)
    }

    pub fn ask(&self, run: &mut Run) -> bool {
        let numbers = [self.frame, self.place, self.running, self.target, self.offset];
        run.request(1, self.fault, self.instruction, numbers)
    }

    fn prepare(&self, run: &mut Run) {
        let Some(length) = run.length() else { return };
        let ring = run.ring().min(63);
        let put = |run: &mut Run, stack: u32, offset: u32, value: u32| {
            if offset < length {
                run.put(stack, offset, value);
            }
        };
        put(run, ring, self.place, self.count);
        for (index, group) in self.groups.iter().enumerate() {
            for (word, value) in group.iter().enumerate() {
                put(run, ring, self.place.saturating_add((1 + 4 * index + word) as u32), *value);
            }
        }
        put(run, ring, self.frame.saturating_add(20), self.return_place[0]);
        put(run, ring, self.frame.saturating_add(21), self.return_place[1]);
        put(run, ring, 3, self.level);
        if let Some(base) = &self.base {
            put(run, base.stack, 0, base.last_used[0]);
            put(run, base.stack, 1, base.last_used[1]);
            put(run, base.stack, base.last_used[1].saturating_add(18), base.next[0]);
            put(run, base.stack, base.last_used[1].saturating_add(19), base.next[1]);
        }
    }
}
