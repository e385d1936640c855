//! Draws ids, chambers and their free sections: fresh, full, left by packs, lent with overlaps, cut into cells.

use super::sides::{part, scale, sides};
use crate::crate_side;
use crate::domain::LONGEST_SIDE;
use crate::random::Random;
use crate::wire::{Chamber, Section};
use rectangle_pack::TargetBin;

/// A chamber, and boxes of it that are known to be taken.
pub struct Filled {
    pub chamber: Chamber,
    pub placed: Vec<Section>,
}

/// `number` chambers with at most `most_free` free sections each, all of them fresh or each in a state
/// of its own.
pub fn chambers(
    random: &mut Random,
    number: usize,
    most_free: usize,
    all_fresh: bool,
) -> Vec<Filled> {
    let mut ids = ids(random, number);
    ids.sort_unstable();
    let shapes = shapes(random, number);
    ids.into_iter()
        .zip(shapes)
        .map(|(id, sides)| {
            let (mut free, mut placed) = match all_fresh {
                true => (vec![whole(sides)], Vec::new()),
                false => free_list(random, sides, most_free),
            };
            placed.extend(free.drain(most_free.min(free.len())..));
            Filled {
                chamber: Chamber { id, sides, free },
                placed,
            }
        })
        .collect()
}

/// `number` different ids, at the ends of u32 or anywhere, rising, falling or mixed.
pub fn ids(random: &mut Random, number: usize) -> Vec<u32> {
    let habit = random.below(7);
    let mut ids: Vec<u32> = Vec::new();
    while ids.len() < number {
        let next = ids.len() as u32;
        let id = match habit {
            0 => next,
            1 => next + 1,
            2 => u32::MAX - next,
            3 if random.chance(50) => next,
            3 => u32::MAX - next,
            4 => random.range(0, 99),
            5 => random.pick(&[0, 1, 0x7FFF_FFFF, 0x8000_0000, u32::MAX - 1]) ^ random.range(0, 31),
            _ => random.range(0, u32::MAX),
        };
        if !ids.contains(&id) {
            ids.push(id);
        }
    }
    match random.below(3) {
        0 => ids.reverse(),
        1 => random.shuffle(&mut ids),
        _ => {}
    }
    ids
}

/// The sides of `number` chambers: all the same, turned (equal volumes), a little larger, or any.
fn shapes(random: &mut Random, number: usize) -> Vec<[u32; 3]> {
    let most = scale(random);
    let first = sides(random, most);
    let habit = random.below(6);
    (0..number)
        .map(|_| match habit {
            0 => first,
            1 => turned(random, first),
            2 => first.map(|side| (side + random.range(0, 2)).min(LONGEST_SIDE)),
            3 | 4 => sides(random, most),
            _ => {
                let most = scale(random);
                sides(random, most)
            }
        })
        .collect()
}

/// The same three sides in another order.
pub fn turned(random: &mut Random, sides: [u32; 3]) -> [u32; 3] {
    let mut turned = sides;
    random.shuffle(&mut turned);
    turned
}

fn whole(sides: [u32; 3]) -> Section {
    Section { at: [0; 3], sides }
}

/// A list of free sections, and boxes that are taken.
fn free_list(random: &mut Random, sides: [u32; 3], most: usize) -> (Vec<Section>, Vec<Section>) {
    match random.below(12) {
        0..=2 => (vec![whole(sides)], Vec::new()),
        3 => (Vec::new(), vec![whole(sides)]),
        4..=7 => left_by_packs(random, sides),
        8 | 9 => cells(random, sides),
        _ => (lent(random, sides, most), Vec::new()),
    }
}

/// What packs of one rectangle leave; now and then a placed box goes back.
fn left_by_packs(random: &mut Random, sides: [u32; 3]) -> (Vec<Section>, Vec<Section>) {
    let mut bin = TargetBin::new(sides[0], sides[1], sides[2]);
    let mut placed = Vec::new();
    let divisor = random.range(1, 5);
    for _ in 0..random.pick(&[1, 2, 3, 5, 8, 12, 40]) {
        let rectangle = sides.map(|side| part(random, (side / divisor).max(1)));
        placed.extend(crate_side::place_one(&mut bin, rectangle));
    }
    let mut free = crate_side::free(&bin);
    while !placed.is_empty() && random.chance(20) {
        free.push(placed.swap_remove(random.below(placed.len())));
    }
    (free, placed)
}

/// The chamber cut by planes into cells, some free in any order, the others taken.
fn cells(random: &mut Random, sides: [u32; 3]) -> (Vec<Section>, Vec<Section>) {
    let cuts = sides.map(|side| cuts(random, side));
    let mut free = Vec::new();
    for x in cuts[0].windows(2) {
        for y in cuts[1].windows(2) {
            for z in cuts[2].windows(2) {
                free.push(Section {
                    at: [x[0], y[0], z[0]],
                    sides: [x[1] - x[0], y[1] - y[0], z[1] - z[0]],
                });
            }
        }
    }
    random.shuffle(&mut free);
    let kept = match random.chance(40) {
        true => free.len(),
        false => random.below(free.len() + 1),
    };
    let placed = free.split_off(kept);
    (free, placed)
}

/// Where to cut a side: 0, the side, and up to nine places between.
fn cuts(random: &mut Random, side: u32) -> Vec<u32> {
    let mut cuts = vec![0, side];
    for _ in 0..random.pick(&[0, 1, 2, 3, 5, 9]) {
        cuts.push(random.range(0, side));
    }
    cuts.sort_unstable();
    cuts.dedup();
    cuts
}

/// Any sections inside the chamber; they overlap, nest and stand twice.
fn lent(random: &mut Random, sides: [u32; 3], most: usize) -> Vec<Section> {
    let number = random.pick(&[1, 2, 3, 5, 8, 20, most]).min(most);
    let mut free: Vec<Section> = Vec::new();
    while free.len() < number {
        let section = match free.is_empty() || random.chance(80) {
            true => any_box(random, sides),
            false => random.pick(&free),
        };
        free.push(section);
    }
    free
}

/// A box anywhere inside the chamber.
pub fn any_box(random: &mut Random, sides: [u32; 3]) -> Section {
    let parts = sides.map(|side| part(random, side));
    let mut at = [0; 3];
    for axis in 0..3 {
        let last = sides[axis] - parts[axis];
        at[axis] = match random.below(4) {
            0 => 0,
            1 => last,
            _ => random.range(0, last),
        };
    }
    Section { at, sides: parts }
}
