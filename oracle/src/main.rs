//! The oracle: the commands answer, draw, compare and show.

mod compare;
mod crate_side;
mod debug_text;
mod domain;
mod draw;
mod random;
mod show;
mod wire;

use draw::Kind;
use std::fs::File;
use std::io::{stdin, stdout, BufReader, BufWriter, Read, Write};
use std::process::ExitCode;
use wire::Job;

const USAGE: &str = "\
oracle: answers try, return and pack jobs with the crate rectangle-pack

  oracle answer                              jobs on standard input, the crate's answers on standard output
  oracle draw KIND COUNT SEED [FIRST]        COUNT random jobs on standard output, from job FIRST on (default 0)
  oracle compare KIND COUNT SEED -- COMMAND  random jobs to the crate and to COMMAND; says how many differ
  oracle show                                jobs on standard input as text
  oracle show answers [JOBS]                 answers on standard input as text, read by the file of their jobs

KIND is try, return, pack or all. Exit status: 0 done, none differs; 1 some differ or answers are
missing; 2 bad usage or input.
";

fn main() -> ExitCode {
    let words: Vec<String> = std::env::args().skip(1).collect();
    let words: Vec<&str> = words.iter().map(String::as_str).collect();
    let done = match words[..] {
        ["answer"] => answer().map(|()| true),
        ["draw", kind, count, seed] => draw(kind, count, seed, "0").map(|()| true),
        ["draw", kind, count, seed, first] => draw(kind, count, seed, first).map(|()| true),
        ["compare", kind, count, seed, "--", ref command @ ..] if !command.is_empty() => {
            compare(kind, count, seed, command)
        }
        ["show"] => show_jobs().map(|()| true),
        ["show", "answers"] => show_answers(None).map(|()| true),
        ["show", "answers", jobs] => show_answers(Some(jobs)).map(|()| true),
        _ => {
            eprint!("{USAGE}");
            return ExitCode::from(2);
        }
    };
    match done {
        Ok(true) => ExitCode::SUCCESS,
        Ok(false) => ExitCode::from(1),
        Err(why) => {
            eprintln!("oracle: {why}");
            ExitCode::from(2)
        }
    }
}

fn answer() -> Result<(), String> {
    let out = &mut BufWriter::new(stdout().lock());
    each_job(&mut BufReader::new(stdin().lock()), |index, job| {
        let words = crate_side::answer(&job)
            .map_err(|why| format!("job {index} is outside of the compared domain: {why}"))?;
        wire::write(&words, out)
    })?;
    flush(out)
}

fn draw(kind: &str, count: &str, seed: &str, first: &str) -> Result<(), String> {
    let (kind, count, seed) = (Kind::of_name(kind)?, number(count)?, number(seed)?);
    let first = number(first)?;
    let out = &mut BufWriter::new(stdout().lock());
    for index in first..first.saturating_add(count) {
        wire::write(&draw::job(kind, seed, index).words(), out)?;
    }
    flush(out)
}

fn compare(kind: &str, count: &str, seed: &str, command: &[&str]) -> Result<bool, String> {
    let command: Vec<String> = command.iter().map(|word| word.to_string()).collect();
    compare::compare(
        Kind::of_name(kind)?,
        number(count)?,
        number(seed)?,
        &command,
    )
}

fn show_jobs() -> Result<(), String> {
    let out = &mut BufWriter::new(stdout().lock());
    each_job(&mut BufReader::new(stdin().lock()), |index, job| {
        put_lines(&format!("job {index}: "), &show::job(&job), out)
    })?;
    flush(out)
}

fn show_answers(jobs: Option<&str>) -> Result<(), String> {
    let out = &mut BufWriter::new(stdout().lock());
    let answers = &mut BufReader::new(stdin().lock());
    let mut index = 0;
    if let Some(path) = jobs {
        let file = File::open(path).map_err(|error| format!("cannot open {path}: {error}"))?;
        each_job(&mut BufReader::new(file), |job_index, job| {
            index = job_index + 1;
            match wire::read(answers)? {
                None => Err(format!("the answers end before job {job_index}")),
                Some(words) => put_lines(
                    &format!("answer {job_index}: "),
                    &show::answer(&job, &words),
                    out,
                ),
            }
        })?;
    }
    while let Some(words) = wire::read(answers)? {
        put_lines(&format!("answer {index}: "), &show::plain(&words), out)?;
        index += 1;
    }
    flush(out)
}

/// Reads a stream of jobs and does something with each.
fn each_job(
    from: &mut impl Read,
    mut act: impl FnMut(u64, Job) -> Result<(), String>,
) -> Result<(), String> {
    let mut index = 0;
    while let Some(words) = wire::read(from)? {
        act(
            index,
            Job::of_words(&words).map_err(|why| format!("job {index} is no job: {why}"))?,
        )?;
        index += 1;
    }
    Ok(())
}

fn put_lines(head: &str, lines: &[String], out: &mut impl Write) -> Result<(), String> {
    writeln!(out, "{head}{}", lines.join("\n")).map_err(|error| format!("cannot write: {error}"))
}

fn flush(out: &mut impl Write) -> Result<(), String> {
    out.flush()
        .map_err(|error| format!("cannot write: {error}"))
}

fn number(word: &str) -> Result<u64, String> {
    word.parse()
        .map_err(|_| format!("{word} is not a whole number"))
}
