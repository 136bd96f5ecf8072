//! Changes to a plan, each of which breaks a rule or goes to its edge. Two and three at once show the order.

use crate::arguments;
use crate::listing::{self, Listed};
use crate::plan::{Base, Plan};
use crate::run::Run;

pub fn spoil(run: &mut Run, plan: &mut Plan, length: u32) {
    let listed = listing::read(&run.state.file);
    match run.dice.below(18) {
        0 => spoil_instruction(run, plan),
        1 => spoil_frame(run, plan, length),
        2 => spoil_running(run, plan, &listed),
        3 => spoil_return_place(run, plan),
        4 => plan.level = run.dice.pick(&[63, 64, 64, 65, 65536, u32::MAX]),
        5 | 6 | 15 => spoil_target(run, plan, &listed),
        7 => plan.fault = 3 - plan.fault.min(2),
        8 => spoil_place(run, plan, length),
        9 => plan.count = run.dice.pick(&[4, 5, 5, 6, 255, 65536, 65537, u32::MAX, u32::MAX / 4]),
        10..=12 => spoil_group(run, plan, &listed, length),
        13 | 14 => spoil_base(run, plan, length),
        _ => spoil_room(run, plan, length),
    }
}

fn spoil_instruction(run: &mut Run, plan: &mut Plan) {
    if run.dice.chance(60) {
        plan.fault = run.dice.pick(&[0, 3, 4, 255]);
    } else {
        plan.instruction = run.dice.pick(&[2, 3, 255]);
    }
}

fn spoil_frame(run: &mut Run, plan: &mut Plan, length: u32) {
    let far = u32::MAX - run.dice.below(34);
    plan.frame = run.dice.pick(&[0, 7, 8, length - 32, length - 31, length - 31, length, far]);
}

fn spoil_running(run: &mut Run, plan: &mut Plan, listed: &[Listed]) {
    plan.running = match run.dice.below(4) {
        0 => run.dice.between(63, 1024),
        1 => plan.running.wrapping_add(65536),
        2 if !listed.is_empty() => run.dice.pick(listed).number,
        _ => run.ring(),
    };
    plan.return_place[0] = plan.running;
}

fn spoil_return_place(run: &mut Run, plan: &mut Plan) {
    match run.dice.below(4) {
        0 => plan.return_place[0] = plan.running.wrapping_add(65536),
        1 => plan.return_place[0] = plan.running ^ 1,
        2 => plan.return_place[1] = run.dice.pick(&[262_144, 262_145, u32::MAX]),
        _ => plan.return_place[1] = 262_143,
    }
}

/// Any listed segment, any fault: the brackets decide. Or an offset that is no gate.
fn spoil_target(run: &mut Run, plan: &mut Plan, listed: &[Listed]) {
    match run.dice.below(8) {
        0 => plan.target = run.dice.between(63, 1024),
        1 => plan.target = plan.target.wrapping_add(65536),
        2 => plan.offset = run.dice.pick(&[262_144, 262_145, u32::MAX]),
        3 => plan.offset = run.dice.pick(&[0, 0, 262_143, plan.offset.wrapping_add(1)]),
        _ if listed.is_empty() => plan.target = 64,
        kind => {
            let target = run.dice.pick(listed);
            plan.target = target.number;
            plan.fault = if kind == 4 { plan.fault } else { run.dice.between(1, 2) };
            if !target.gates.is_empty() && run.dice.chance(60) {
                plan.offset = run.dice.pick(&target.gates);
            }
        }
    }
}

fn spoil_place(run: &mut Run, plan: &mut Plan, length: u32) {
    let passing = length - 4 * plan.count.min(4);
    let far = u32::MAX - run.dice.below(20);
    plan.place = run.dice.pick(&[0, 7, passing, passing, passing - 1, length - 1, length, far]);
}

fn spoil_group(run: &mut Run, plan: &mut Plan, listed: &[Listed], length: u32) {
    if plan.groups.is_empty() {
        plan.count = 1;
        plan.groups.push([run.ring(), 8, 1, 1]);
    }
    let inward = plan.inward;
    let index = run.dice.below(plan.groups.len() as u32) as usize;
    arguments::spoil(run, &mut plan.groups[index], listed, inward, length);
}

/// The base of the target stack as it stands, or as the plan has it.
fn base_of(run: &Run, plan: &Plan, length: u32) -> Base {
    if let Some(base) = plan.base {
        return base;
    }
    let stack = plan.new_ring;
    let last_used = [run.word(stack, 0), run.word(stack, 1)];
    let next = if last_used[1] <= length - 20 {
        [run.word(stack, last_used[1] + 18), run.word(stack, last_used[1] + 19)]
    } else {
        [stack, 40]
    };
    Base { stack, last_used, next }
}

/// Number 11 and its edges; for an unmade stack the same words must not matter.
fn spoil_base(run: &mut Run, plan: &mut Plan, length: u32) {
    let mut base = base_of(run, plan, length);
    let used = base.last_used[1];
    let far = u32::MAX - run.dice.below(40);
    match run.dice.below(5) {
        0 => base.last_used[0] = run.dice.pick(&[65536 + base.stack, base.stack ^ 1, 0, 63]),
        1 => base.last_used[1] = run.dice.pick(&[0, 7, 8, length - 32, length - 31, length, far]),
        2 => base.next[0] = run.dice.pick(&[65536 + base.stack, base.stack ^ 1, 0, 63]),
        3 => base.next[1] = run.dice.pick(&[used.wrapping_add(31), used.wrapping_add(32), 0, 8]),
        _ => base = low_next(run, base, length),
    }
    plan.base = Some(base);
}

/// A last-used frame anywhere, and the next one exactly, or not quite, 32 words on.
fn low_next(run: &mut Run, base: Base, length: u32) -> Base {
    let used = run.dice.pick(&[7, 8, 8, 9, length - 32, length - 31]);
    let next = used + run.dice.pick(&[31, 32]);
    Base { last_used: [base.stack, used], next: [base.stack, next], ..base }
}

/// Number 12 and its edges: the end of all copied at L, at L + 1, or past 2^32.
fn spoil_room(run: &mut Run, plan: &mut Plan, length: u32) {
    if plan.base.is_none() && !plan.inward {
        return fill_unmade(run, plan, length);
    }
    let mut base = base_of(run, plan, length);
    let exact = length.wrapping_sub(plan.words());
    let far = u32::MAX - run.dice.below(80);
    base.next[1] = run.dice.pick(&[exact, exact.wrapping_add(1), exact.wrapping_add(1), length - 32, length, far]);
    plan.base = Some(base);
}

/// A stack not made has its new frame at 40: only the copies can make 12 come, and only in a short stack.
fn fill_unmade(run: &mut Run, plan: &mut Plan, length: u32) {
    let mut left = (length - 40 - 33 - 16 + run.dice.below(2)).min(64);
    plan.place = length - 17;
    plan.count = 4;
    plan.groups.clear();
    for later in [3, 2, 1, 0] {
        let words = (left - later).min(16);
        left -= words;
        plan.groups.push([run.ring(), run.dice.between(8, 40), words, run.dice.between(1, 3)]);
    }
}
