//! Draws pack jobs: rectangles that fit exactly, nearly or not at all, many ties, groups of every size.

use super::sides::{above, part, parts, scale, sides};
use super::tables::{chambers, ids, turned};
use crate::crate_side;
use crate::domain::{LONGEST_SIDE, MOST_CHAMBERS, MOST_RECTANGLES, MOST_SECTIONS};
use crate::random::Random;
use crate::wire::{Chamber, Job, Rectangle};

/// Of some draws the first whose outcome is the wanted one, else the last: all served, or refused
/// after a wanted share of the rectangles was placed, so that refusals come early and late.
pub fn job(random: &mut Random) -> Job {
    let wanted = random.below(10);
    let share = random.pick(&[1, 1, 30, 60]);
    for _ in 0..12 {
        let job = any_job(random);
        let (reply, placed, rectangles) = outcome(&job);
        if match wanted {
            0..=3 => true,
            4..=6 => reply == 0 && rectangles > 0,
            _ => reply == 7 && placed > 0 && 100 * placed >= share * rectangles,
        } {
            return job;
        }
    }
    any_job(random)
}

/// The crate's reply to a pack, how many rectangles it places, and how many there are.
fn outcome(job: &Job) -> (u32, usize, usize) {
    let Job::Pack { rectangles, .. } = job else {
        panic!("a pack is drawn")
    };
    let answer = crate_side::answer(job).expect("a drawn job is in the domain");
    let placements = answer[2..].chunks(5).take(rectangles.len());
    (
        answer[0],
        placements.filter(|placement| placement[0] == 1).count(),
        rectangles.len(),
    )
}

fn any_job(random: &mut Random) -> Job {
    let most = random.pick(&[1, 3, 3, 6, 6, MOST_CHAMBERS]);
    let number = number_up_to(random, most);
    let most = random.pick(&[2, 4, 4, 8, 8, 16, 16, 30, MOST_RECTANGLES]);
    let rectangles = number_up_to(random, most);
    let all_fresh = random.chance(35);
    let tables = chambers(random, number, MOST_SECTIONS - 2 * rectangles, all_fresh);
    let chambers: Vec<Chamber> = tables.into_iter().map(|filled| filled.chamber).collect();

    let habit = random.below(10);
    let sides = match habit {
        0 => slabs_of_last(random, &chambers, rectangles),
        1 | 2 => cut_pieces(random, &chambers, rectangles),
        3 | 4 => few_shapes(random, &chambers, rectangles),
        _ => mixed_shapes(random, &chambers, rectangles),
    };
    let ids = ids(random, rectangles);
    let groups = match habit {
        0 if random.chance(60) => vec![random.pick(&[1, 7, u32::MAX]); rectangles],
        _ => groups(random, &ids),
    };
    let rectangles = (0..rectangles)
        .map(|index| Rectangle {
            id: ids[index],
            group: groups[index],
            sides: sides[index],
        })
        .collect();
    Job::Pack {
        chambers,
        rectangles,
    }
}

/// A number from 0 to `most`: 0 seldom, `most` more often than another.
fn number_up_to(random: &mut Random, most: usize) -> usize {
    match random.below(20) {
        0 => 0,
        1 | 2 => most,
        _ => 1 + random.below(most),
    }
}

/// The sides of a chamber, of a free section, or of nothing at all.
fn model(random: &mut Random, chambers: &[Chamber]) -> [u32; 3] {
    if chambers.is_empty() {
        let most = scale(random);
        return sides(random, most);
    }
    let chamber = &chambers[random.below(chambers.len())];
    match chamber.free.is_empty() || random.chance(25) {
        true => chamber.sides,
        false => random.pick(&chamber.free).sides,
    }
}

/// Slabs that fill the chamber of the greatest volume, so that a group of them fits in no other one
/// but in that, or exactly fills chambers that tie.
fn slabs_of_last(random: &mut Random, chambers: &[Chamber], number: usize) -> Vec<[u32; 3]> {
    let volume = |chamber: &&Chamber| chamber.sides.iter().map(|s| *s as u64).product::<u64>();
    let whole = match chambers.iter().max_by_key(volume) {
        Some(chamber) => chamber.sides,
        None => model(random, chambers),
    };
    let axis = random.below(3);
    let mut left = whole[axis];
    let mut slabs = Vec::new();
    for index in 0..number {
        let mut slab = whole;
        slab[axis] = match index + 1 == number {
            true => left.max(1),
            false => random.range(1, (left / 2).max(1)),
        };
        left = left.saturating_sub(slab[axis]);
        slabs.push(slab);
    }
    if random.chance(20) && number > 0 {
        // one cell too many
        slabs[0][axis] = (slabs[0][axis] + 1).min(LONGEST_SIDE);
    }
    random.shuffle(&mut slabs);
    slabs
}

/// Pieces that are cut from whole boxes, as many boxes as are needed; together they fill them.
fn cut_pieces(random: &mut Random, chambers: &[Chamber], number: usize) -> Vec<[u32; 3]> {
    let mut pieces: Vec<[u32; 3]> = Vec::new();
    while pieces.len() < number {
        let mut cut = vec![model(random, chambers)];
        for _ in 1..random.range(1, 12) {
            let index = random.below(cut.len());
            let axis = random.below(3);
            let side = cut[index][axis];
            if side > 1 {
                let first = part(random, side - 1);
                let mut second = cut[index];
                cut[index][axis] = first;
                second[axis] = side - first;
                cut.push(second);
            }
        }
        pieces.extend(cut);
    }
    if random.chance(40) {
        random.shuffle(&mut pieces);
    }
    pieces.truncate(number);
    pieces
}

/// One, two or three shapes over and over, turned now and then: volumes tie.
fn few_shapes(random: &mut Random, chambers: &[Chamber], number: usize) -> Vec<[u32; 3]> {
    let shapes: Vec<[u32; 3]> = (0..random.range(1, 3))
        .map(|_| {
            let of = model(random, chambers);
            let divisor = random.range(1, 4);
            parts(random, of.map(|side| (side / divisor).max(1)))
        })
        .collect();
    let turning = random.pick(&[0, 0, 30]);
    (0..number)
        .map(|_| {
            let shape = random.pick(&shapes);
            match random.chance(turning) {
                true => turned(random, shape),
                false => shape,
            }
        })
        .collect()
}

/// Each rectangle by itself, after a chamber or section; the smaller the more there are. Sometimes
/// one of them fits nowhere: a large one is refused early, a thin one late.
fn mixed_shapes(random: &mut Random, chambers: &[Chamber], number: usize) -> Vec<[u32; 3]> {
    let crowd = match number {
        0..=3 => 1,
        4..=12 => 2,
        _ => 4,
    };
    let divisor = random.range(1, 2 * crowd);
    let mut shapes: Vec<[u32; 3]> = Vec::new();
    for _ in 0..number {
        let of = model(random, chambers).map(|side| (side / divisor).max(1));
        let shape = match random.below(8) {
            0 if !shapes.is_empty() => random.pick(&shapes),
            1 if !shapes.is_empty() => {
                let earlier = random.pick(&shapes);
                turned(random, earlier)
            }
            2 => [1; 3],
            _ => parts(random, of),
        };
        shapes.push(shape);
    }
    if number > 0 && random.chance(25) {
        let index = random.below(number);
        shapes[index] = fits_nowhere(random, chambers);
    }
    shapes
}

/// Longer on one axis than every chamber, where the sides allow it.
fn fits_nowhere(random: &mut Random, chambers: &[Chamber]) -> [u32; 3] {
    let longest = |axis: usize| chambers.iter().map(|chamber| chamber.sides[axis]).max();
    let long = random.below(3);
    let habit = random.below(3);
    let mut sides = [1; 3];
    for axis in 0..3 {
        let side = longest(axis).unwrap_or(LONGEST_SIDE);
        sides[axis] = match habit {
            _ if axis == long => above(random, side),
            0 => 1,
            1 => side,
            _ => random.range(1, side),
        };
    }
    sides
}

/// The group of each rectangle: none, all one, pairs, runs, a few at random, or each its own.
fn groups(random: &mut Random, ids: &[u32]) -> Vec<u32> {
    let number = ids.len();
    let names = group_names(random, ids);
    let few = random.range(1, 5) as usize;
    let ungrouped = random.pick(&[0, 0, 20, 50, 80]);
    let habit = random.below(8);
    let mut run = 0;
    (0..number)
        .map(|index| match habit {
            0..=2 => 0,
            3 => names[0],
            4 => names[index / 2],
            5 => {
                if index > 0 && random.chance(30) {
                    run += 1;
                }
                names[run]
            }
            6 if random.chance(ungrouped) => 0,
            6 => names[random.below(few.min(number))],
            _ if random.chance(ungrouped) => 0,
            _ => names[index],
        })
        .collect()
}

/// As many different group ids as there are rectangles, none 0: often ids of rectangles too.
fn group_names(random: &mut Random, ids_of_rectangles: &[u32]) -> Vec<u32> {
    let number = ids_of_rectangles.len();
    let mut names = match random.chance(50) {
        true => ids_of_rectangles.to_vec(),
        false => ids(random, number),
    };
    if random.chance(50) {
        random.shuffle(&mut names);
    }
    for index in 0..number {
        while names[index] == 0 || names[..index].contains(&names[index]) {
            names[index] = names[index].wrapping_sub(1);
        }
    }
    names
}
