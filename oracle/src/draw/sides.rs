//! Draws sides: around 1, around a scale's top, flat shapes, cubes, and parts that fit exactly or nearly.

use crate::domain::LONGEST_SIDE;
use crate::random::Random;

/// The longest side of one job or chamber: tiny ones and 65,535 come often.
pub fn scale(random: &mut Random) -> u32 {
    const TINY: [u32; 6] = [1, 2, 3, 3, 4, 4];
    const MIDDLE: [u32; 8] = [6, 10, 10, 12, 30, 100, 256, 1000];
    match random.below(5) {
        0 => random.pick(&TINY),
        1 | 2 => random.pick(&MIDDLE),
        3 => LONGEST_SIDE - random.range(0, 2),
        _ => LONGEST_SIDE,
    }
}

/// A side from 1 to `most`.
pub fn side(random: &mut Random, most: u32) -> u32 {
    match random.below(8) {
        0 => 1,
        1 => most,
        2 => most - random.range(0, 2).min(most - 1),
        3 => random.range(1, 4).min(most),
        _ => random.range(1, most),
    }
}

/// Three sides from 1 to `most`: any, a cube, flat on one axis or on two, the whole scale, thick.
pub fn sides(random: &mut Random, most: u32) -> [u32; 3] {
    let mut sides = [side(random, most), side(random, most), side(random, most)];
    match random.below(14) {
        0 => sides = [sides[0]; 3],
        1 | 2 => sides[random.below(3)] = 1,
        3 => {
            let kept = random.below(3);
            for axis in (0..3).filter(|axis| *axis != kept) {
                sides[axis] = 1;
            }
        }
        4 => sides = [most; 3],
        5 => {
            sides = [most; 3];
            sides[random.below(3)] = 1;
        }
        6..=8 => sides = sides.map(|_| random.range(most.min(2).max(most / 4), most)),
        _ => {}
    }
    sides
}

/// A side that fits in `side`: exactly, nearly, by half, or anyhow.
pub fn part(random: &mut Random, side: u32) -> u32 {
    match random.below(8) {
        0 | 1 => side,
        2 => 1,
        3 => (side - 1).max(1),
        4 => (side / 2).max(1),
        5 => side - side / 2,
        _ => random.range(1, side),
    }
}

/// A side above `side`, where there is one.
pub fn above(random: &mut Random, side: u32) -> u32 {
    if side >= LONGEST_SIDE {
        return LONGEST_SIDE;
    }
    match random.below(4) {
        0 | 1 => side + 1,
        2 => LONGEST_SIDE,
        _ => random.range(side + 1, LONGEST_SIDE),
    }
}

/// Parts of the three sides: each its own, all in the same proportion, or all truly smaller.
pub fn parts(random: &mut Random, sides: [u32; 3]) -> [u32; 3] {
    match random.below(8) {
        0 => {
            let divisor = random.range(1, 4);
            sides.map(|side| (side / divisor).max(1))
        }
        1 => {
            let least = sides[0].min(sides[1]).min(sides[2]);
            [part(random, least); 3]
        }
        2 => {
            let mut parts = sides;
            let axis = random.below(3);
            parts[axis] = part(random, sides[axis]);
            parts
        }
        3..=5 => sides.map(|side| random.range(1, (side - 1).max(1))),
        _ => sides.map(|side| part(random, side)),
    }
}
