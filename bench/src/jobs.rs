//! The jobs of the measurement, as the tables that are lent to a pack.

use crate::proved;

pub const SECTION: usize = 6;
pub const RECORD: usize = 5;
pub const STORE: usize = 768;

pub type Sides = [u32; 3];
pub type Section = [u32; SECTION];

/// What is lent to one pack, or without the rectangles to one join.
#[derive(Clone)]
pub struct Job {
    pub chambers: Vec<u32>,
    pub store: Vec<u32>,
    pub rectangles: Vec<u32>,
}

impl Job {
    /// Chambers with the given free sections, and rectangles with their groups. Ids run from 1.
    pub fn new(chambers: &[(Sides, Vec<Section>)], rectangles: &[(u32, Sides)]) -> Job {
        let mut job = Job {
            chambers: Vec::new(),
            store: vec![0; chambers.len() * STORE],
            rectangles: Vec::new(),
        };
        for (i, (sides, free)) in chambers.iter().enumerate() {
            job.chambers.push(i as u32 + 1);
            job.chambers.extend_from_slice(sides);
            job.chambers.push(free.len() as u32);
            for (j, section) in free.iter().enumerate() {
                let at = i * STORE + j * SECTION;
                job.store[at..at + SECTION].copy_from_slice(section);
            }
        }
        for (i, (group, sides)) in rectangles.iter().enumerate() {
            job.rectangles.extend_from_slice(&[i as u32 + 1, *group]);
            job.rectangles.extend_from_slice(sides);
        }
        job
    }

    /// The same with fresh chambers.
    fn fresh(chambers: &[Sides], rectangles: &[(u32, Sides)]) -> Job {
        let empty: Vec<_> = chambers.iter().map(|sides| (*sides, vec![])).collect();
        let mut job = Job::new(&empty, rectangles);
        let reply = proved::fresh(&mut job.chambers, &mut job.store);
        assert_eq!(reply.number, 0, "the chambers of a job are refused");
        job
    }
}

pub fn all() -> Vec<(&'static str, Job)> {
    vec![
        ("one coil, one fresh chamber", one_coil()),
        (
            "63 coils, 16 fresh chambers",
            Job::fresh(&chambers(), &coils(63)),
        ),
        (
            "9 groups of 7 that only the last of 16 chambers takes",
            late_groups(),
        ),
        ("63 coils, 16 chambers with 2 free sections", halves()),
        (
            "8 coils, 16 chambers with 112 free, the last fits",
            cells(&[12; 8]),
        ),
        (
            "8 coils, 16 chambers with 112 free, all fit",
            cells(&[5; 8]),
        ),
        (
            "1 coil, 16 chambers with 126 free, the last fits",
            nearly_full(12),
        ),
        ("1 coil, 16 chambers with 126 free, all fit", nearly_full(5)),
    ]
}

fn one_coil() -> Job {
    Job::fresh(&[[100, 100, 100]], &[(0, [40, 50, 60])])
}

/// 16 chambers of different volumes. The table's order is not the trial order.
fn chambers() -> Vec<Sides> {
    (0..16)
        .map(|i| [60 + 7 * (i * 5 % 16), 80, 70 + i % 3 * 10])
        .collect()
}

/// Coils with sides from 12 to 41, ungrouped.
fn coils(number: usize) -> Vec<(u32, Sides)> {
    let mut random = Random(7);
    (0..number)
        .map(|_| (0, [(); 3].map(|_| 12 + random.below(30))))
        .collect()
}

/// The chambers of `chambers`, each cut into two halves.
fn halves() -> Job {
    let cut: Vec<_> = chambers()
        .iter()
        .map(|&[w, h, d]| {
            let near = w / 2;
            (
                [w, h, d],
                vec![[0, 0, 0, near, h, d], [near, 0, 0, w - near, h, d]],
            )
        })
        .collect();
    Job::new(&cut, &coils(63))
}

/// Six members of each group fit into every chamber, the seventh is too wide for all but the last one in trial order.
fn late_groups() -> Job {
    let mut sides = vec![[200, 200, 200]];
    sides.extend((0..15).map(|i| [40 + i, 50, 60]));
    let mut random = Random(11);
    let mut members = Vec::new();
    for group in 1..=9 {
        for _ in 0..6 {
            members.push((group, [(); 3].map(|_| 8 + random.below(8))));
        }
        members.push((group, [60 + random.below(8), 10, 10]));
    }
    Job::fresh(&sides, &members)
}

/// 16 chambers of 112 cells of 10 x 10 x 10; those of the last in trial order are 20 x 20 x 20. A coil for each side, a cube or nearly.
fn cells(coils: &[u32]) -> Job {
    grids(4, 4, 7, coils)
}

/// The same with 126 cells and one coil.
fn nearly_full(coil: u32) -> Job {
    grids(7, 6, 3, &[coil])
}

fn grids(nx: u32, ny: u32, nz: u32, coils: &[u32]) -> Job {
    let grid = |side: u32| {
        let mut free = Vec::new();
        for x in 0..nx {
            for y in 0..ny {
                for z in 0..nz {
                    free.push([x * side, y * side, z * side, side, side, side]);
                }
            }
        }
        ([nx * side, ny * side, nz * side], free)
    };
    let mut chambers = vec![grid(20)];
    chambers.extend((0..15).map(|_| grid(10)));
    let coils: Vec<_> = coils
        .iter()
        .enumerate()
        .map(|(i, &side)| (0, [side - i as u32 % 3, side, side - i as u32 % 2]))
        .collect();
    Job::new(&chambers, &coils)
}

/// Numbers that look random and are the same on every machine.
pub struct Random(pub u32);

impl Random {
    pub fn below(&mut self, n: u32) -> u32 {
        self.0 = self.0.wrapping_mul(1664525).wrapping_add(1013904223);
        (self.0 >> 8) % n
    }

    pub fn shuffle<T>(&mut self, list: &mut [T]) {
        for i in (1..list.len()).rev() {
            list.swap(i, self.below(i as u32 + 1) as usize);
        }
    }
}
