//! Runs random jobs through the crate and through a command, and compares the answers word by word.

use crate::draw::{self, Kind};
use crate::wire::{put_stream, read, Job};
use crate::{crate_side, show};
use std::collections::BTreeMap;
use std::io::{Read, Write};
use std::process::{Command, Stdio};
use std::sync::mpsc::sync_channel;
use std::thread;

/// So many jobs go to one run of the command.
const BATCH: u64 = 500;
/// So many jobs that differ are shown.
const SHOWN: u64 = 3;

/// A job, the words of `oracle draw` that draw it alone, and the crate's answer.
struct Asked {
    index: u64,
    drawn_by: String,
    job: Job,
    answer: Vec<u32>,
}

/// What was counted.
#[derive(Default)]
struct Tally {
    run: u64,
    differ: u64,
    kinds: BTreeMap<&'static str, u64>,
    replies: BTreeMap<(&'static str, u32), u64>,
}

/// Compares `count` jobs; true if all answers came and none differs.
pub fn compare(kind: Kind, count: u64, seed: u64, command: &[String]) -> Result<bool, String> {
    let mut tally = Tally::default();
    let mut trouble = None;
    thread::scope(|scope| {
        let (send, batches) = sync_channel(1);
        scope.spawn(move || {
            for first in (0..count).step_by(BATCH as usize) {
                let batch: Vec<Asked> = (first..count.min(first + BATCH))
                    .map(|index| ask(kind, seed, index))
                    .collect();
                if send.send(batch).is_err() {
                    return; // the run has ended early
                }
            }
        });
        for batch in batches {
            trouble = tally.run_batch(&batch, command)?;
            if trouble.is_some() {
                break;
            }
        }
        Ok::<(), String>(())
    })?;
    tally.print();
    if let Some(trouble) = &trouble {
        println!("{trouble}");
    }
    Ok(tally.differ == 0 && trouble.is_none())
}

/// A random job and the crate's answer to it.
fn ask(kind: Kind, seed: u64, index: u64) -> Asked {
    let job = draw::job(kind, seed, index);
    let answer = crate_side::answer(&job).expect("a drawn job is in the domain");
    Asked {
        index,
        drawn_by: format!("{} 1 {seed} {index}", kind.name()),
        job,
        answer,
    }
}

impl Tally {
    /// One run of the command over a batch; gives what went wrong beside answers that differ.
    fn run_batch(&mut self, batch: &[Asked], command: &[String]) -> Result<Option<String>, String> {
        let mut jobs = Vec::new();
        for asked in batch {
            put_stream(&asked.job.words(), &mut jobs);
        }
        let (wrote, ended) = run(command, jobs)?;
        let mut answers = &wrote[..];
        for asked in batch {
            match read(&mut answers) {
                Ok(Some(answer)) => self.hold(asked, &answer),
                Ok(None) => {
                    return Ok(Some(format!(
                        "the answers end before job {}; {ended}",
                        asked.index
                    )))
                }
                Err(why) => {
                    return Ok(Some(format!(
                        "no answer to job {}: {why}; {ended}",
                        asked.index
                    )))
                }
            }
        }
        if !answers.is_empty() {
            return Ok(Some(format!(
                "{} bytes follow the last answer; {ended}",
                answers.len()
            )));
        }
        Ok((!ended.success()).then(|| format!("all answers came, yet {ended}")))
    }

    /// Compares one answer and counts it.
    fn hold(&mut self, asked: &Asked, answer: &[u32]) {
        let kind = asked.job.kind();
        self.run += 1;
        *self.kinds.entry(kind).or_default() += 1;
        *self.replies.entry((kind, asked.answer[0])).or_default() += 1;
        if asked.answer == answer {
            return;
        }
        self.differ += 1;
        if self.differ <= SHOWN {
            print_difference(asked, answer);
        }
    }

    fn print(&self) {
        let kinds: Vec<String> = self
            .kinds
            .iter()
            .map(|(kind, n)| format!("{kind} {n}"))
            .collect();
        println!("jobs run: {} ({})", self.run, kinds.join(", "));
        for ((kind, reply), number) in &self.replies {
            println!("reply {reply:>2} of {kind}: {number}");
        }
        println!("differ: {}", self.differ);
    }
}

/// The job, and both answers side by side: a line that both have stands once.
fn print_difference(asked: &Asked, answer: &[u32]) {
    println!(
        "job {} differs (oracle draw {} writes it alone)",
        asked.index, asked.drawn_by
    );
    println!("{}", show::job(&asked.job).join("\n"));
    let crate_lines = show::answer(&asked.job, &asked.answer);
    let command_lines = show::answer(&asked.job, answer);
    let (mut ours, mut theirs) = (crate_lines.iter(), command_lines.iter());
    loop {
        match (ours.next(), theirs.next()) {
            (None, None) => break,
            (Some(one), Some(other)) if one == other => println!("  both    {one}"),
            (one, other) => {
                if let Some(one) = one {
                    println!("  crate   {one}");
                }
                if let Some(other) = other {
                    println!("  command {other}");
                }
            }
        }
    }
}

/// Runs the command on these bytes: all that it writes, and how it ended.
fn run(command: &[String], jobs: Vec<u8>) -> Result<(Vec<u8>, std::process::ExitStatus), String> {
    let mut child = Command::new(&command[0])
        .args(&command[1..])
        .stdin(Stdio::piped())
        .stdout(Stdio::piped())
        .spawn()
        .map_err(|error| format!("cannot run {}: {error}", command[0]))?;
    let mut stdin = child.stdin.take().expect("the pipe is there");
    let mut stdout = child.stdout.take().expect("the pipe is there");
    // a thread feeds the jobs, since the command may write before it has read them all; a command
    // that ends early closes the pipe, and its missing answers tell
    let feeder = thread::spawn(move || {
        let _ = stdin.write_all(&jobs);
    });
    let mut wrote = Vec::new();
    let got = stdout.read_to_end(&mut wrote);
    let ended = child
        .wait()
        .map_err(|error| format!("cannot wait for the command: {error}"))?;
    feeder.join().expect("the feeder does not panic");
    got.map_err(|error| format!("cannot read from the command: {error}"))?;
    Ok((wrote, ended))
}
