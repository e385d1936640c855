//! Which jobs are compared: those that the rules and the crate both answer, less the listed differences of return.

use crate::wire::{Chamber, Job, Rectangle, Section};

pub const MOST_CHAMBERS: usize = 16;
pub const MOST_SECTIONS: usize = 128;
pub const MOST_RECTANGLES: usize = 63;
pub const LONGEST_SIDE: u32 = 65_535;

/// Why no join is compared with the crate.
pub const NO_JOIN: &str = "the crate only announces joins; tools/join-cases answers them";

/// Says why a job is outside of the compared domain, if it is.
pub fn check(job: &Job) -> Result<(), String> {
    match job {
        Job::Try { section, sides } => check_try(section, sides),
        Job::Return { chambers, id, part } => {
            check_chambers(chambers)?;
            let chamber = chambers.iter().find(|chamber| chamber.id == *id);
            reply_to_return(chamber.ok_or("no chamber has the id")?, part)?;
            Ok(())
        }
        Job::Pack {
            chambers,
            rectangles,
        } => {
            check_chambers(chambers)?;
            check_rectangles(chambers, rectangles)
        }
        Job::Join { .. } => Err(NO_JOIN.to_string()),
    }
}

fn check_try(section: &Section, sides: &[u32; 3]) -> Result<(), String> {
    if !inside(section, &[LONGEST_SIDE; 3]) {
        return Err("the section has a zero side or ends past 65,535".to_string());
    }
    if !sides.iter().all(good_side) {
        return Err("a side of the rectangle is 0 or above 65,535".to_string());
    }
    Ok(())
}

fn check_chambers(chambers: &[Chamber]) -> Result<(), String> {
    if chambers.len() > MOST_CHAMBERS {
        return Err("more than 16 chambers".to_string());
    }
    if !chambers.windows(2).all(|two| two[0].id < two[1].id) {
        return Err("the chamber ids do not rise".to_string());
    }
    for chamber in chambers {
        if !chamber.sides.iter().all(good_side) || chamber.free.len() > MOST_SECTIONS {
            return Err(format!("a bad side or count in chamber {}", chamber.id));
        }
        if !chamber
            .free
            .iter()
            .all(|section| inside(section, &chamber.sides))
        {
            return Err(format!("a bad section in chamber {}", chamber.id));
        }
    }
    Ok(())
}

fn check_rectangles(chambers: &[Chamber], rectangles: &[Rectangle]) -> Result<(), String> {
    if rectangles.len() > MOST_RECTANGLES {
        return Err("more than 63 rectangles".to_string());
    }
    if !rectangles
        .iter()
        .all(|rectangle| rectangle.sides.iter().all(good_side))
    {
        return Err("a side of a rectangle is 0 or above 65,535".to_string());
    }
    let mut ids: Vec<u32> = rectangles.iter().map(|rectangle| rectangle.id).collect();
    ids.sort_unstable();
    if !ids.windows(2).all(|two| two[0] < two[1]) {
        return Err("a rectangle id stands twice".to_string());
    }
    if chambers
        .iter()
        .any(|chamber| chamber.free.len() + 2 * rectangles.len() > MOST_SECTIONS)
    {
        return Err("a chamber has no room for the sections to come".to_string());
    }
    Ok(())
}

/// The reply that the rules give to a return, 0, 9 or 10, or why the return is not compared: the
/// crate has no counterpart, or it is known to answer otherwise.
pub fn reply_to_return(chamber: &Chamber, part: &Section) -> Result<u32, String> {
    if part.sides.contains(&0) {
        return Err("the box has a zero side".to_string());
    }
    if (0..3).any(|axis| part.at[axis] >= chamber.sides[axis]) {
        return Ok(9);
    }
    if !inside(part, &chamber.sides) {
        return Err("the box starts inside the chamber and reaches past it".to_string());
    }
    let shared = chamber
        .free
        .iter()
        .position(|section| share_a_cell(section, part));
    let origin = chamber
        .free
        .iter()
        .position(|section| holds(part, &section.at));
    if shared != origin {
        return Err("the crate's test of overlap is one-sided here".to_string());
    }
    match shared {
        Some(_) => Ok(10),
        None if chamber.free.len() == MOST_SECTIONS => Err("128 sections are there".to_string()),
        None => Ok(0),
    }
}

fn good_side(side: &u32) -> bool {
    (1..=LONGEST_SIDE).contains(side)
}

fn end(section: &Section, axis: usize) -> u64 {
    section.at[axis] as u64 + section.sides[axis] as u64
}

fn inside(section: &Section, sides: &[u32; 3]) -> bool {
    (0..3).all(|axis| section.sides[axis] != 0 && end(section, axis) <= sides[axis] as u64)
}

fn share_a_cell(a: &Section, b: &Section) -> bool {
    (0..3).all(|axis| (a.at[axis] as u64) < end(b, axis) && (b.at[axis] as u64) < end(a, axis))
}

fn holds(section: &Section, cell: &[u32; 3]) -> bool {
    (0..3).all(|axis| section.at[axis] <= cell[axis] && (cell[axis] as u64) < end(section, axis))
}
