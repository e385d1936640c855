//! The audit of 1,024 boxes on both sides: the proved one, and a plain double loop over structs.

use crate::jobs::Random;
use crate::proved::{self, Reply};
use crate::timing::{time, Times};

const BOXES: usize = 1024;
const PLACED: usize = 600;

#[derive(Clone, Copy)]
pub struct Section {
    x: u32,
    y: u32,
    z: u32,
    width: u32,
    height: u32,
    depth: u32,
}

pub struct Chamber {
    sides: [u32; 3],
    boxes: Vec<Section>,
}

pub fn all() -> Vec<(&'static str, Chamber)> {
    let [row, grid] = [[BOXES as u32, 1, 1], [16, 8, 8]];
    vec![
        ("audit: a row of 1,024", whole(row)),
        ("audit: a row, shuffled", shuffled(whole(row))),
        ("audit: 16 x 8 x 8", whole(grid)),
        ("audit: 16 x 8 x 8, shuffled", shuffled(whole(grid))),
    ]
}

/// A chamber cut into boxes of 3 x 3 x 3.
fn whole([nx, ny, nz]: [u32; 3]) -> Chamber {
    let mut boxes = Vec::new();
    for x in 0..nx {
        for y in 0..ny {
            for z in 0..nz {
                boxes.push(Section {
                    x: x * 3,
                    y: y * 3,
                    z: z * 3,
                    width: 3,
                    height: 3,
                    depth: 3,
                });
            }
        }
    }
    Chamber {
        sides: [nx * 3, ny * 3, nz * 3],
        boxes,
    }
}

fn shuffled(mut chamber: Chamber) -> Chamber {
    Random(7).shuffle(&mut chamber.boxes);
    chamber
}

pub fn measure(name: &str, chamber: &Chamber) -> Times {
    let word_list = |boxes: &[Section]| -> Vec<u32> {
        boxes
            .iter()
            .flat_map(|b| vec![b.x, b.y, b.z, b.width, b.height, b.depth])
            .collect()
    };
    let (placed, free) = chamber.boxes.split_at(PLACED);
    let (placed, free) = (word_list(placed), word_list(free));
    let answers = (
        plain_audit(&chamber.sides, &chamber.boxes),
        proved::audit(&chamber.sides, &placed, &free),
    );
    if answers.0 != answers.1 {
        eprintln!(
            "{}: the plain loop answers {:?}, the proved audit {:?}",
            name, answers.0, answers.1
        );
        std::process::exit(1);
    }
    Times::least(
        || {
            time(1, || {
                keep(plain_audit(&chamber.sides, &chamber.boxes));
            })
        },
        || {
            time(1, || {
                keep(proved::audit(&chamber.sides, &placed, &free));
            })
        },
    )
}

/// Uses an answer, so that the call that gave it is not left out.
fn keep(answer: (Reply, [u32; 6])) {
    unsafe { std::ptr::read_volatile(&answer) };
}

/// The common box of two boxes that share a cell.
fn common_box(a: &Section, b: &Section) -> [u32; 6] {
    let (x, y, z) = (a.x.max(b.x), a.y.max(b.y), a.z.max(b.z));
    [
        x,
        y,
        z,
        (a.x + a.width).min(b.x + b.width) - x,
        (a.y + a.height).min(b.y + b.height) - y,
        (a.z + a.depth).min(b.z + b.depth) - z,
    ]
}

/// The same checks in the same order, and the same common box. Boxes that lie inside end at 65,535 at most, so the later sums fit 32 bits.
#[inline(never)]
fn plain_audit(sides: &[u32; 3], boxes: &[Section]) -> (Reply, [u32; 6]) {
    let number = |number, detail: usize| Reply {
        number,
        detail: detail as u32,
    };
    let reply = |n, detail: usize| (number(n, detail), [0; 6]);
    if BOXES < boxes.len() {
        return reply(1, 0);
    }
    let [width, height, depth] = *sides;
    if sides.iter().any(|&side| side == 0 || 65535 < side) {
        return reply(2, 0);
    }
    let inside = |at: u32, side: u32, room: u32| 0 < side && at as u64 + side as u64 <= room as u64;
    for (i, b) in boxes.iter().enumerate() {
        if !(inside(b.x, b.width, width)
            && inside(b.y, b.height, height)
            && inside(b.z, b.depth, depth))
        {
            return reply(16, i);
        }
    }
    for (j, b) in boxes.iter().enumerate() {
        for a in &boxes[..j] {
            if a.x < b.x + b.width
                && b.x < a.x + a.width
                && a.y < b.y + b.height
                && b.y < a.y + a.height
                && a.z < b.z + b.depth
                && b.z < a.z + a.depth
            {
                return (number(17, j), common_box(a, b));
            }
        }
    }
    let volume = |w: u32, h: u32, d: u32| w as u64 * h as u64 * d as u64;
    let sum: u64 = boxes
        .iter()
        .map(|b| volume(b.width, b.height, b.depth))
        .sum();
    reply(
        if sum == volume(width, height, depth) {
            0
        } else {
            18
        },
        0,
    )
}
