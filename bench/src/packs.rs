//! Packs on both sides: the answers compared, then timed.

use crate::jobs::{Job, RECORD, SECTION, STORE};
use crate::proved;
use crate::timing::{time, Times};
use rectangle_pack::{
    contains_smallest_box, pack_rects, volume_heuristic, BinSection, GroupedRectsToPlace,
    RectToInsert, RectanglePackError, RectanglePackOk, TargetBin,
};
use std::collections::BTreeMap;

type Bins = BTreeMap<u32, TargetBin>;
type Rects = GroupedRectsToPlace<u32, u32>;
type Packed = Result<RectanglePackOk<u32, u32>, RectanglePackError>;

/// A round is a batch of calls, whose tables together stay in a cache.
const BATCH: usize = 32;
const BATCH_WORDS: usize = 50_000;

pub fn measure(name: &str, job: &Job) -> Times {
    if let Err(difference) = compare(job) {
        eprintln!("{}: {}", name, difference);
        std::process::exit(1);
    }
    let batch = BATCH.min(BATCH_WORDS / job.store.len());
    let (bins, rects) = (bins(job), rects(job));
    Times::least(
        || time_rust(batch, &bins, &rects),
        || time_proved(batch, job),
    )
}

/// Both answers: reply, placements, and the free sections that are left.
fn compare(job: &Job) -> Result<(), String> {
    let mut bins = bins(job);
    let packed =
        run_rust(&rects(job), &mut bins).map_err(|e| format!("the Rust refuses: {}", e))?;
    let mut after = job.clone();
    let mut placements = vec![9; job.rectangles.len()];
    let reply = proved::pack(
        &mut after.chambers,
        &mut after.store,
        &job.rectangles,
        &mut placements,
    );
    if (reply.number, reply.detail) != (0, 0) {
        return Err(format!("the proved side refuses: {:?}", reply));
    }
    for (rect, placement) in job.rectangles.chunks(RECORD).zip(placements.chunks(RECORD)) {
        let (chamber, at) = packed.packed_locations()[&rect[0]];
        if [1, chamber, at.x(), at.y(), at.z()] != placement {
            return Err(format!("rectangle {} stands in different places", rect[0]));
        }
    }
    for (i, bin) in bins.values().enumerate() {
        if *bin.available_bin_sections() != sections(&after, i) {
            return Err(format!("chamber index {} has different sections", i));
        }
    }
    Ok(())
}

/// The calls change their bins, so each has a copy of its own. What is made and dropped around the calls is not timed.
fn time_rust(batch: usize, bins: &Bins, rects: &Rects) -> f64 {
    let mut copies = vec![bins.clone(); batch];
    let mut results = Vec::with_capacity(batch);
    time(batch, || {
        for copy in &mut copies {
            results.push(run_rust(rects, copy));
        }
    })
}

/// Likewise with the tables.
fn time_proved(batch: usize, job: &Job) -> f64 {
    let mut copies = vec![(job.chambers.clone(), job.store.clone()); batch];
    let mut placements = vec![vec![0; job.rectangles.len()]; batch];
    let mut results = Vec::with_capacity(batch);
    time(batch, || {
        for ((chambers, store), placements) in copies.iter_mut().zip(&mut placements) {
            results.push(proved::pack(chambers, store, &job.rectangles, placements));
        }
    })
}

fn run_rust(rects: &Rects, bins: &mut Bins) -> Packed {
    pack_rects(rects, bins, &volume_heuristic, &contains_smallest_box)
}

fn bins(job: &Job) -> Bins {
    let bin = |(i, record): (usize, &[u32])| {
        let mut bin = TargetBin::new(record[1], record[2], record[3]);
        bin.remove_filled_section(0);
        for section in sections(job, i) {
            bin.push_available_bin_section_unchecked(section);
        }
        (record[0], bin)
    };
    job.chambers.chunks(RECORD).enumerate().map(bin).collect()
}

fn sections(job: &Job, chamber: usize) -> Vec<BinSection> {
    let count = job.chambers[chamber * RECORD + 4] as usize;
    let words = &job.store[chamber * STORE..][..count * SECTION];
    let section =
        |s: &[u32]| BinSection::new(s[0], s[1], s[2], RectToInsert::new(s[3], s[4], s[5]).into());
    words.chunks(SECTION).map(section).collect()
}

fn rects(job: &Job) -> Rects {
    let mut rects = Rects::new();
    for record in job.rectangles.chunks(RECORD) {
        let groups = if record[1] == 0 {
            None
        } else {
            Some(vec![record[1]])
        };
        rects.push_rect(
            record[0],
            groups,
            RectToInsert::new(record[2], record[3], record[4]),
        );
    }
    rects
}
