//! The join of 128 free sections on both sides: the proved one, and join.c.

use crate::jobs::{Job, Random, Section, Sides, RECORD, STORE};
use crate::proved::{self, Reply};
use crate::timing::{time, Times};

mod plain {
    use super::Reply;

    extern "C" {
        pub fn plain_join(chamber: *mut u32, sections: *mut u32, common: *mut u32) -> Reply;
    }
}

/// The calls of a round.
const BATCH: usize = 32;
const SIDE: u32 = 3;
const ROW: Sides = [128, 1, 1];
const GRID: Sides = [8, 4, 4];

/// A chamber and its free sections.
type Chamber = (Sides, Vec<Section>);
type Answer = (Reply, Section);

/// The tables of the calls of a round, each with one chamber, and the reply that all must give. The detail is left open where it differs.
pub struct Joins {
    number: u32,
    detail: Option<u32>,
    calls: Vec<Job>,
}

pub fn all() -> Vec<(&'static str, Joins)> {
    let (row, cubes) = (grid(ROW, SIDE), grid(GRID, SIDE));
    let (apart, board) = (grid(GRID, SIDE + 1), checkerboard());
    let into_one = |calls| joins(0, Some(127), calls);
    let none = |calls| joins(0, Some(0), calls);
    let refused =
        |calls: Vec<Chamber>| joins(10, Some(127), calls.into_iter().map(astray).collect());
    vec![
        ("join: a row of 128", into_one(same(&row))),
        ("join: a row, shuffled", into_one(same(&shuffled(7, &row)))),
        ("join: a row, in 32 orders", into_one(orders(&row))),
        ("join: 8 x 4 x 4", into_one(same(&cubes))),
        (
            "join: 8 x 4 x 4, shuffled, into one",
            into_one(same(&shuffled(177, &cubes))),
        ),
        (
            "join: 8 x 4 x 4, shuffled, 35 are left",
            joins(0, Some(93), same(&shuffled(7, &cubes))),
        ),
        (
            "join: 8 x 4 x 4, in 32 orders",
            joins(0, None, orders(&cubes)),
        ),
        ("no join: 8 x 4 x 4 with gaps", none(same(&apart))),
        (
            "no join: 8 x 4 x 4 with gaps, shuffled",
            none(same(&shuffled(7, &apart))),
        ),
        (
            "no join: 8 x 4 x 4 with gaps, in 32 orders",
            none(orders(&apart)),
        ),
        ("no join: a checkerboard", none(same(&board))),
        (
            "no join: a checkerboard, shuffled",
            none(same(&shuffled(7, &board))),
        ),
        (
            "no join: a checkerboard, in 32 orders",
            none(orders(&board)),
        ),
        ("join refused with 10: a row", refused(same(&row))),
        (
            "join refused with 10: a row, in 32 orders",
            refused(orders(&row)),
        ),
        ("join refused with 10: 8 x 4 x 4", refused(same(&cubes))),
        (
            "join refused with 10: 8 x 4 x 4, in 32 orders",
            refused(orders(&cubes)),
        ),
    ]
}

fn joins(number: u32, detail: Option<u32>, calls: Vec<Chamber>) -> Joins {
    Joins {
        number,
        detail,
        calls: calls.into_iter().map(|c| Job::new(&[c], &[])).collect(),
    }
}

/// The same sections at each call.
fn same(chamber: &Chamber) -> Vec<Chamber> {
    vec![chamber.clone(); BATCH]
}

/// In another order at each call.
fn orders(chamber: &Chamber) -> Vec<Chamber> {
    (1..=BATCH as u32)
        .map(|seed| shuffled(seed, chamber))
        .collect()
}

fn shuffled(seed: u32, chamber: &Chamber) -> Chamber {
    let (sides, mut free) = chamber.clone();
    Random(seed).shuffle(&mut free);
    (sides, free)
}

/// Sections of 3 x 3 x 3, from start to start as far as `step` says.
fn grid([nx, ny, nz]: Sides, step: u32) -> Chamber {
    let mut free = Vec::new();
    for x in 0..nx {
        for y in 0..ny {
            for z in 0..nz {
                free.push([x * step, y * step, z * step, SIDE, SIDE, SIDE]);
            }
        }
    }
    ([nx * step, ny * step, nz * step], free)
}

/// 16 x 8, by turns 3 x 3 x 3 and 2 x 2 x 3. All pairs agree on one axis, and those of one size in a row or a column on two.
fn checkerboard() -> Chamber {
    let (sides, mut free) = grid([16, 8, 1], SIDE);
    for section in &mut free {
        let odd = (section[0] + section[1]) / SIDE % 2;
        section[3] -= odd;
        section[4] -= odd;
    }
    (sides, free)
}

/// The last section reaches into its neighbour, so check 10 fires once it has looked at every pair.
fn astray((sides, mut free): Chamber) -> Chamber {
    let x = &mut free[127][0];
    *x = if *x == 0 { 1 } else { *x - 1 };
    (sides, free)
}

pub fn measure(name: &str, joins: &Joins) -> Times {
    for call in &joins.calls {
        if let Err(difference) = compare(joins, call) {
            eprintln!("{}: {}", name, difference);
            std::process::exit(1);
        }
    }
    Times::least(
        || time_calls(plain_join, &joins.calls),
        || time_calls(proved_join, &joins.calls),
    )
}

/// Both answers: reply, common box, and all words of the tables.
fn compare(joins: &Joins, call: &Job) -> Result<(), String> {
    let [plain, proved] = [plain_join, proved_join].map(|join| {
        let mut after = call.clone();
        let answer = join(&mut after);
        (answer, after.chambers, after.store)
    });
    let (reply, _) = proved.0;
    if reply.number != joins.number || joins.detail.map_or(false, |d| d != reply.detail) {
        return Err(format!("the proved join answers {:?}", reply));
    }
    if plain != proved {
        return Err(format!(
            "plain C answers {:?}, the proved join {:?}",
            plain, proved
        ));
    }
    Ok(())
}

/// A join changes its tables, so each call has a copy of its own, made before the clock starts.
fn time_calls(join: fn(&mut Job) -> Answer, calls: &[Job]) -> f64 {
    let mut copies = calls.to_vec();
    let mut answers = Vec::with_capacity(copies.len());
    time(calls.len(), || {
        for copy in &mut copies {
            answers.push(join(copy));
        }
    })
}

fn proved_join(job: &mut Job) -> Answer {
    proved::join(&mut job.chambers, &mut job.store, 1)
}

fn plain_join(job: &mut Job) -> Answer {
    assert_eq!((job.chambers.len(), job.store.len()), (RECORD, STORE));
    let mut common = [u32::MAX; 6];
    let reply = unsafe {
        plain::plain_join(
            job.chambers.as_mut_ptr(),
            job.store.as_mut_ptr(),
            common.as_mut_ptr(),
        )
    };
    (reply, common)
}
