//! Groups of an argument list: permitted ones, and ones that a rule forbids.

use crate::listing::Listed;
use crate::run::Run;

/// Segment, offset, length, direction.
pub type Group = [u32; 4];

/// `count` permitted arguments; outward their lengths together stay within `budget` words.
pub fn groups(run: &mut Run, listed: &[Listed], inward: bool, count: u32, budget: u32, length: u32) -> Vec<Group> {
    let mut left = budget;
    let mut groups = Vec::new();
    for index in 0..count {
        let later = count - index - 1;
        let most = if inward { 16 } else { (left - later).min(16) };
        let group = if inward { inward_group(run, listed, length) } else { outward_group(run, most, length) };
        left = left.saturating_sub(group[2]);
        groups.push(group);
    }
    groups
}

fn words(run: &mut Run, most: u32) -> u32 {
    match run.dice.below(4) {
        0 => most,
        1 => 1,
        _ => run.dice.between(1, most),
    }
}

/// From 8, ending at L, or anywhere; a few of its words get contents.
fn in_stack(run: &mut Run, stack: u32, words: u32, length: u32) -> Group {
    let last = length - words;
    let offset = match run.dice.below(6) {
        0 => 8,
        1 => last,
        _ => run.dice.between(8, last),
    };
    for _ in 0..run.dice.below(3) {
        let at = offset + run.dice.below(words);
        let value = run.dice.word();
        run.put(stack, at, value);
    }
    [stack, offset, words, run.dice.between(1, 3)]
}

fn outward_group(run: &mut Run, most: u32, length: u32) -> Group {
    let words = words(run, most);
    in_stack(run, run.ring(), words, length)
}

fn inward_group(run: &mut Run, listed: &[Listed], length: u32) -> Group {
    let words = words(run, 16);
    let ring = run.ring();
    let data: Vec<&Listed> = listed.iter().filter(|s| s.mode & 3 != 0 && ring <= s.brackets[1]).collect();
    if !data.is_empty() && run.dice.chance(50) {
        let segment = run.dice.pick(&data).clone();
        let any = run.dice.below(262_145 - words);
        let offset = run.dice.pick(&[0, 262_144 - words, any, any]);
        // The modes read 1, write 2, both 3 are the directions they permit, and 3 permits all.
        let direction = if segment.mode & 3 == 3 { run.dice.between(1, 3) } else { segment.mode & 3 };
        return [segment.number, offset, words, direction];
    }
    let made: Vec<u32> = (ring..64).filter(|k| run.is_made(*k)).collect();
    let stack = run.dice.pick(&made);
    in_stack(run, stack, words, length)
}

/// One word of the group becomes an edge, so that a rule may be broken, or only just kept.
pub fn spoil(run: &mut Run, group: &mut Group, listed: &[Listed], inward: bool, length: u32) {
    match run.dice.below(9) {
        0 => group[2] = run.dice.pick(&[0, 17, 18, 65537, u32::MAX]),
        1 => group[3] = run.dice.pick(&[0, 4, 5, 65537, u32::MAX]),
        2 => group[1] = stack_edge(run, group[2], length),
        3 => *group = overflowing(run, *group),
        4 => group[0] = group[0].wrapping_add(65536),
        5 => group[0] = near_ring(run),
        6 if !listed.is_empty() => *group = in_listed(run, listed, *group),
        8 => *group = in_wrong_mode(run, listed, *group),
        7 => *group = in_any_stack(run, *group, inward, length),
        _ => group[0] = run.dice.between(64, 1024),
    }
}

/// An unmade stack, one below the ring, the first number that is no stack.
fn near_ring(run: &mut Run) -> u32 {
    let (ring, any) = (run.ring(), run.dice.below(64));
    run.dice.pick(&[ring.wrapping_sub(1), ring + 1, 63, 64, any, any])
}

fn stack_edge(run: &mut Run, words: u32, length: u32) -> u32 {
    let end = length.wrapping_sub(words);
    run.dice.pick(&[0, 7, 8, end, end.wrapping_add(1), length - 1, length])
}

/// Offset and length together pass 2^32.
fn overflowing(run: &mut Run, group: Group) -> Group {
    let back = run.dice.between(0, 17);
    [group[0], u32::MAX - back, group[2], group[3]]
}

/// Any listed segment, at the edge of 262144, in any direction.
fn in_listed(run: &mut Run, listed: &[Listed], group: Group) -> Group {
    let segment = run.dice.pick(listed);
    let end = 262_144u32.wrapping_sub(group[2]);
    let offset = run.dice.pick(&[0, 7, end, end, end.wrapping_add(1), u32::MAX]);
    [segment.number, offset, group[2], run.dice.between(1, 3)]
}

/// A segment that permits something, but perhaps not this: its mode or its r2 decides.
fn in_wrong_mode(run: &mut Run, listed: &[Listed], group: Group) -> Group {
    let ring = run.ring();
    let near = |s: &&Listed| s.mode & 3 != 0 && s.brackets[1] + 1 >= ring;
    let data: Vec<&Listed> = listed.iter().filter(near).collect();
    if data.is_empty() {
        return group;
    }
    let segment = run.dice.pick(&data).number;
    [segment, run.dice.below(1000), group[2], run.dice.pick(&[1, 2, 3, 3])]
}

/// A place that is in order but for the stack it is in.
fn in_any_stack(run: &mut Run, group: Group, inward: bool, length: u32) -> Group {
    let made: Vec<u32> = (0..64).filter(|k| run.is_made(*k)).collect();
    let any = run.dice.below(64);
    let stack = if inward && run.dice.chance(50) { any } else { run.dice.pick(&made) };
    let words = group[2].clamp(1, 16);
    [stack, length - words - run.dice.below(30), words, group[3]]
}
