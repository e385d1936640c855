//! Draws return jobs: boxes that were taken, that touch, nest or equal a free section, or start outside.

use super::sides::part;
use super::tables::{any_box, chambers, Filled};
use crate::domain::{self, MOST_CHAMBERS, MOST_SECTIONS};
use crate::random::Random;
use crate::wire::{Job, Section};

pub fn job(random: &mut Random) -> Job {
    let number = random.pick(&[1, 1, 1, 2, 2, 3, 4, 6, MOST_CHAMBERS]);
    let most_free = random.pick(&[20, MOST_SECTIONS - 1, MOST_SECTIONS]);
    let tables = chambers(random, number, most_free, false);
    let wanted = random.pick(&[0, 0, 0, 0, 9, 10, 10]);
    let with_room: Vec<&Filled> = tables
        .iter()
        .filter(|filled| !filled.placed.is_empty())
        .collect();
    let filled = match wanted == 0 && !with_room.is_empty() {
        true => random.pick(&with_room),
        false => &tables[random.below(number)],
    };
    let part = wanted_box(random, filled, wanted);
    let id = filled.chamber.id;
    Job::Return {
        id,
        part,
        chambers: tables.into_iter().map(|filled| filled.chamber).collect(),
    }
}

/// A box of the compared domain: of many tries the first with the wanted reply, else the last
/// with any reply.
fn wanted_box(random: &mut Random, filled: &Filled, wanted: u32) -> Section {
    let mut last = outside(random, filled);
    for _ in 0..60 {
        let part = match wanted {
            9 => outside(random, filled),
            _ => candidate(random, filled),
        };
        match domain::reply_to_return(&filled.chamber, &part) {
            Ok(reply) if reply == wanted => return part,
            Ok(_) => last = part,
            Err(_) => {}
        }
    }
    last
}

fn candidate(random: &mut Random, filled: &Filled) -> Section {
    let sides = filled.chamber.sides;
    let free = &filled.chamber.free;
    let placed = &filled.placed;
    match random.below(12) {
        0 | 1 if !placed.is_empty() => random.pick(placed),
        2 if !placed.is_empty() => {
            let of = random.pick(placed);
            within(random, of)
        }
        3 if !placed.is_empty() => {
            let of = random.pick(placed);
            around(random, of, sides)
        }
        4 if !free.is_empty() => random.pick(free),
        5 if !free.is_empty() => {
            let of = random.pick(free);
            from_the_same_corner(random, of, sides)
        }
        6 if !free.is_empty() => {
            let of = random.pick(free);
            around(random, of, sides)
        }
        7 => Section { at: [0; 3], sides },
        8 | 9 => between_edges(random, filled),
        _ => any_box(random, sides),
    }
}

/// A box that lies in `of`.
fn within(random: &mut Random, of: Section) -> Section {
    let mut part = any_box(random, of.sides);
    for axis in 0..3 {
        part.at[axis] += of.at[axis];
    }
    part
}

/// A box with the origin of `of` and other sides.
fn from_the_same_corner(random: &mut Random, of: Section, chamber: [u32; 3]) -> Section {
    let mut sides = of.sides;
    for axis in 0..3 {
        sides[axis] = part(random, chamber[axis] - of.at[axis]);
    }
    Section { at: of.at, sides }
}

/// `of`, stretched by a little or much on some of its six faces.
fn around(random: &mut Random, of: Section, chamber: [u32; 3]) -> Section {
    let mut section = of;
    for axis in 0..3 {
        let before = stretch(random, of.at[axis]);
        let after = stretch(random, chamber[axis] - of.at[axis] - of.sides[axis]);
        section.at[axis] -= before;
        section.sides[axis] += before + after;
    }
    section
}

fn stretch(random: &mut Random, most: u32) -> u32 {
    match random.below(6) {
        0 => most.min(1),
        1 => random.range(0, most),
        _ => 0,
    }
}

/// A box whose faces lie in planes where other boxes begin or end, so that it touches them.
fn between_edges(random: &mut Random, filled: &Filled) -> Section {
    let mut section = Section {
        at: [0; 3],
        sides: [1; 3],
    };
    for axis in 0..3 {
        let mut edges = vec![0, filled.chamber.sides[axis]];
        for other in filled.chamber.free.iter().chain(&filled.placed) {
            edges.extend([other.at[axis], other.at[axis] + other.sides[axis]]);
        }
        edges.sort_unstable();
        edges.dedup();
        let first = random.below(edges.len() - 1);
        let last = match random.chance(70) {
            true => first + 1,
            false => first + 1 + random.below(edges.len() - 1 - first),
        };
        section.at[axis] = edges[first];
        section.sides[axis] = edges[last] - edges[first];
    }
    section
}

/// A box whose origin lies outside of the chamber, by one cell or by much, with any sides.
fn outside(random: &mut Random, filled: &Filled) -> Section {
    let sides = filled.chamber.sides;
    let mut section = any_box(random, sides);
    let axes = random.range(1, 7);
    for axis in (0..3).filter(|axis| axes >> axis & 1 == 1) {
        section.at[axis] = match random.below(5) {
            0 | 1 => sides[axis],
            2 => sides[axis] + 1,
            3 => u32::MAX - random.range(0, 1),
            _ => random.range(sides[axis], u32::MAX),
        };
    }
    if random.chance(20) {
        section.sides[random.below(3)] = random.pick(&[1, 65_535, 65_536, u32::MAX]);
    }
    section
}
