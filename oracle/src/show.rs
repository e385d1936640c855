//! Jobs and answers as lines of decimal text for a person; a box is written x,y,z;width,height,depth.

use crate::wire::{Chamber, Job, Section, Words};

/// The lines of a job.
pub fn job(job: &Job) -> Vec<String> {
    let mut lines = vec![job.kind().to_string()];
    match job {
        Job::Try { section, sides } => {
            lines.push(format!("  section {}", of_box(section)));
            lines.push(format!("  rectangle {}", three(sides)));
        }
        Job::Return { chambers, id, part } => {
            put_chambers(chambers, &mut lines);
            lines.push(format!("  to chamber {id} box {}", of_box(part)));
        }
        Job::Join { chambers, id } => {
            put_chambers(chambers, &mut lines);
            lines.push(format!("  in chamber {id}"));
        }
        Job::Pack {
            chambers,
            rectangles,
        } => {
            put_chambers(chambers, &mut lines);
            for (index, rectangle) in rectangles.iter().enumerate() {
                let group = match rectangle.group {
                    0 => String::new(),
                    group => format!(" group {group}"),
                };
                let sides = three(&rectangle.sides);
                lines.push(format!(
                    "  rectangle {index}: id {}{group} sides {sides}",
                    rectangle.id
                ));
            }
        }
    }
    lines
}

/// The lines of an answer to this job. An answer of another form is shown word by word.
pub fn answer(job: &Job, words: &[u32]) -> Vec<String> {
    formed_answer(job, words).unwrap_or_else(|why| {
        let mut lines = vec![format!("not an answer to this job: {why}")];
        lines.extend(plain(words));
        lines
    })
}

/// The lines of an answer to a job that is not known.
pub fn plain(words: &[u32]) -> Vec<String> {
    let mut lines = vec![format!("{} words", words.len())];
    let (head, rest) = words.split_at(words.len().min(2));
    for line in std::iter::once(head).chain(rest.chunks(12)) {
        let line: Vec<String> = line.iter().map(u32::to_string).collect();
        lines.push(format!("  {}", line.join(" ")));
    }
    lines
}

fn formed_answer(job: &Job, words: &[u32]) -> Result<Vec<String>, String> {
    let rest = &mut Words { words, next: 0 };
    let mut lines = vec![format!("reply {} detail {}", rest.word()?, rest.word()?)];
    match job {
        Job::Try { .. } => {
            lines.push(format!("  location {}", three(&rest.three()?)));
            for name in ["right", "above", "behind"] {
                lines.push(format!("  {name} {}", of_box(&rest.section()?)));
            }
        }
        Job::Return { chambers, .. } | Job::Join { chambers, .. } => {
            lines.push(format!("  common {}", of_box(&rest.section()?)));
            put_tables(chambers, rest, &mut lines)?;
        }
        Job::Pack {
            chambers,
            rectangles,
        } => {
            for index in 0..rectangles.len() {
                let (placed, chamber) = (rest.word()?, rest.word()?);
                let at = three(&rest.three()?);
                lines.push(format!(
                    "  placement {index}: {placed} chamber {chamber} at {at}"
                ));
            }
            put_tables(chambers, rest, &mut lines)?;
        }
    }
    match rest.next == words.len() {
        true => Ok(lines),
        false => Err("words are left over at its end".to_string()),
    }
}

fn put_tables(before: &[Chamber], rest: &mut Words, lines: &mut Vec<String>) -> Result<(), String> {
    put_chambers(&rest.chamber_records(before.len() as u32)?, lines);
    lines.push(format!("  stray {}", rest.word()?));
    Ok(())
}

fn put_chambers(chambers: &[Chamber], lines: &mut Vec<String>) {
    for (index, chamber) in chambers.iter().enumerate() {
        let (id, sides, count) = (chamber.id, three(&chamber.sides), chamber.free.len());
        lines.push(format!(
            "  chamber {index}: id {id} sides {sides} free {count}"
        ));
        for section in &chamber.free {
            lines.push(format!("    {}", of_box(section)));
        }
    }
}

fn of_box(section: &Section) -> String {
    format!("{};{}", three(&section.at), three(&section.sides))
}

fn three(numbers: &[u32; 3]) -> String {
    format!("{},{},{}", numbers[0], numbers[1], numbers[2])
}
