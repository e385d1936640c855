//! Draws try jobs.

use super::sides::{above, parts, scale, sides};
use crate::domain::LONGEST_SIDE;
use crate::random::Random;
use crate::wire::{Job, Section};

pub fn job(random: &mut Random) -> Job {
    let most = scale(random);
    let section = sides(random, most);
    let mut rectangle = parts(random, section);
    if random.chance(35) {
        // a bit for each axis that is too long
        let too_long = random.pick(&[1, 2, 2, 3, 4, 4, 4, 5, 6, 7]);
        for axis in (0..3).filter(|axis| too_long >> axis & 1 == 1) {
            rectangle[axis] = above(random, section[axis]);
        }
    }
    let at = section.map(|side| origin(random, LONGEST_SIDE - side));
    Job::Try {
        section: Section { at, sides: section },
        sides: rectangle,
    }
}

fn origin(random: &mut Random, last: u32) -> u32 {
    match random.below(5) {
        0 | 1 => 0,
        2 => last,
        3 => random.range(0, 10).min(last),
        _ => random.range(0, last),
    }
}
