//! Segment files: made by chance, and read back when a plan needs to know what is listed.

use crate::dice::Dice;

#[derive(Clone, Debug)]
pub struct Listed {
    pub number: u32,
    pub brackets: [u32; 3],
    pub mode: u32,
    pub gates: Vec<u32>,
}

impl Listed {
    pub fn executes(&self) -> bool {
        self.mode & 4 != 0
    }

    pub fn runs_in(&self, ring: u32) -> bool {
        self.executes() && self.brackets[0] <= ring && ring <= self.brackets[1]
    }

    pub fn outward_from(&self, ring: u32) -> bool {
        self.executes() && ring > 0 && ring < self.brackets[0]
    }

    pub fn inward_from(&self, ring: u32) -> bool {
        self.executes() && self.brackets[1] < ring && ring <= self.brackets[2] && !self.gates.is_empty()
    }

    fn to_bytes(&self) -> [u8; 40] {
        let mut bytes = [0; 40];
        bytes[..2].copy_from_slice(&(self.number as u16).to_be_bytes());
        for (byte, ring) in bytes[2..5].iter_mut().zip(self.brackets) {
            *byte = ring as u8;
        }
        bytes[5] = self.mode as u8;
        bytes[6] = self.gates.len() as u8;
        for (four, gate) in bytes[8..].chunks_exact_mut(4).zip(&self.gates) {
            four.copy_from_slice(&gate.to_be_bytes());
        }
        bytes
    }

    fn from_bytes(bytes: &[u8]) -> Self {
        let count = usize::from(bytes[6]).min(8);
        let gates = bytes[8..8 + 4 * count].chunks_exact(4);
        Listed {
            number: u32::from(bytes[0]) << 8 | u32::from(bytes[1]),
            brackets: [u32::from(bytes[2]), u32::from(bytes[3]), u32::from(bytes[4])],
            mode: u32::from(bytes[5]),
            gates: gates.map(|four| u32::from_be_bytes([four[0], four[1], four[2], four[3]])).collect(),
        }
    }
}

/// The records of a file as it stands.
pub fn read(file: &[u8]) -> Vec<Listed> {
    file.chunks_exact(40).map(Listed::from_bytes).collect()
}

/// A file for a run among these rings: runners, gates inward, targets outward, data of every mode.
pub fn rich(dice: &mut Dice, rings: &[u32]) -> Vec<u8> {
    let mut shapes = vec![([0, 63, 63], dice.between(4, 7))];
    for ring in rings {
        let below = dice.between(0, *ring);
        let above = dice.between(*ring, 63);
        shapes.push(([*ring, *ring, 63], dice.between(4, 7)));
        shapes.push(([below, *ring, dice.pick(&[63, 63, above])], dice.between(4, 7)));
        shapes.push(([*ring, above, dice.between(above, 63)], dice.between(4, 7)));
        shapes.push(([below, *ring, above], dice.below(8)));
    }
    while shapes.len() < 12 {
        shapes.push((brackets(dice), dice.below(8)));
    }
    let numbers = numbers(dice, shapes.len());
    bytes_of(dice, &numbers, shapes)
}

/// A file of `count` records, up to 192, with a universal runner among them.
pub fn long(dice: &mut Dice, count: usize) -> Vec<u8> {
    let mut shapes: Vec<_> = (0..count).map(|_| (brackets(dice), dice.below(8))).collect();
    shapes[dice.below(count as u32) as usize] = ([0, 63, 63], 7);
    let numbers = numbers(dice, count);
    bytes_of(dice, &numbers, shapes)
}

fn bytes_of(dice: &mut Dice, numbers: &[u32], shapes: Vec<([u32; 3], u32)>) -> Vec<u8> {
    let mut bytes = Vec::new();
    for (number, (brackets, mode)) in numbers.iter().zip(shapes) {
        let gates = gates(dice);
        bytes.extend(Listed { number: *number, brackets, mode, gates }.to_bytes());
    }
    bytes
}

fn brackets(dice: &mut Dice) -> [u32; 3] {
    let mut rings = [dice.below(64), dice.below(64), dice.below(64)];
    if dice.chance(20) {
        rings[dice.below(3) as usize] = dice.pick(&[0, 63]);
    }
    rings.sort_unstable();
    rings
}

/// Ascending numbers from 64 to 1023, the first and last of them often among these.
fn numbers(dice: &mut Dice, count: usize) -> Vec<u32> {
    let mut numbers = Vec::new();
    if dice.chance(50) {
        numbers.extend([64, 1023]);
    }
    while numbers.len() < count {
        let number = dice.between(64, 1023);
        if !numbers.contains(&number) {
            numbers.push(number);
        }
    }
    numbers.sort_unstable();
    numbers
}

/// 0 to 8 gates; 0 and 262143 are frequent.
fn gates(dice: &mut Dice) -> Vec<u32> {
    let count = dice.pick(&[0, 1, 1, 1, 2, 3, 7, 8]);
    let mut gates = Vec::new();
    while gates.len() < count {
        let gate = match dice.below(6) {
            0 => 0,
            1 => 262_143,
            2 => dice.between(1, 40),
            _ => dice.below(262_144),
        };
        if !gates.contains(&gate) {
            gates.push(gate);
        }
    }
    gates.sort_unstable();
    gates
}
