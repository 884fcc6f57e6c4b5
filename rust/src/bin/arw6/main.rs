//! The command line tool `arw6`: tiles, planes, digests and records of camera files, and frames from planes.

mod args;
mod batch;
mod check;
mod console;
mod digest;
mod failure;
mod folder;
mod help;
mod input;
mod json;
mod line;
mod names;
mod npy;
mod picture;
mod planes;
mod png;
mod records;
mod results;
mod tiles;
mod walk;
mod write;

use args::{Command, Job, Request};
use arw6::Buffers;
use batch::Outcome;
use console::{say, Console};
use input::Frame;
use std::io::{ErrorKind, Result};
use std::process::ExitCode;
use walk::{Input, Walk};

const SOME_REFUSED: u8 = 1;
const USAGE: u8 = 2;

fn main() -> ExitCode {
    match args::parse(std::env::args_os().skip(1)) {
        Ok(Request::Show(text)) => status(Console::new(1).out(&text).map(|()| true)),
        Ok(Request::Run(job)) => run(&job),
        Err(what) => usage(&what),
    }
}

fn usage(what: &str) -> ExitCode {
    say(&format!("arw6: {what}; arw6 --help shows the commands\n"));
    ExitCode::from(USAGE)
}

/// The exit status: whether all was good, or why standard output could not be written.
fn status(good: Result<bool>) -> ExitCode {
    match good {
        Ok(true) => ExitCode::SUCCESS,
        Ok(false) => ExitCode::from(SOME_REFUSED),
        Err(error) => {
            // Whoever closed the pipe knows.
            if error.kind() != ErrorKind::BrokenPipe {
                say(&format!("arw6: standard output: {error}\n"));
            }
            ExitCode::from(SOME_REFUSED)
        }
    }
}

fn run(job: &Job) -> ExitCode {
    if let Command::Check { quiet } = job.command {
        return status(check_lists(job, quiet));
    }
    if let Command::Write { file, height, bare, force } = &job.command {
        let options = write::Options { height: *height, bare: *bare, force: *force, json: job.json };
        return status(tell(job, write::run(&job.inputs, file, options)));
    }
    let endings: &[&str] = if job.frame.is_some() { &[".strip"] } else { &[".ARW", ".frame"] };
    let walk = Walk::new(&job.inputs, job.recurse, endings);
    if let (Command::Planes { .. }, Some((one, other))) = (&job.command, walk.clash()) {
        let (one, other) = (names::shown(one), names::shown(other));
        return usage(&format!("the planes of {one} and {other} would have the same name"));
    }
    let alone = walk.inputs.len() == 1 && walk.notes.is_empty();
    let work = |input: &Input, buffers: &mut Buffers| one_file(job, input, alone, buffers);
    status(all(job, &walk.inputs, walk.notes, &work).map(|(good, _)| good))
}

/// Tells the outcome of a command that is one piece of work.
fn tell(job: &Job, outcome: Outcome) -> Result<bool> {
    let mut console = Console::new(1);
    outcome.notes.iter().for_each(|line| console.note(line));
    console.out(&outcome.out).map(|()| !(outcome.bad || job.strict && outcome.damaged))
}

/// Runs the command on one file.
fn one_file(job: &Job, input: &Input, alone: bool, buffers: &mut Buffers) -> Outcome {
    let path = &input.path;
    let outcome = Frame::read(path, job.frame).and_then(|frame| match &job.command {
        Command::Planes { folder, force, picture } => {
            let options = planes::Options { force: *force, picture: *picture, json: job.json };
            let target = folder.join(names::with_ending(input.place.as_os_str(), ".planes"));
            planes::run(path, &frame, target, options, buffers)
        }
        Command::Digest => digest::run(path, &frame, job.json, buffers),
        Command::Records => Ok(records::run(path, &frame, job.json)),
        _ => Ok(tiles::run(path, &frame, job.json, buffers)),
    });
    let mut outcome = outcome.unwrap_or_else(|failure| Outcome::failed(path, failure, job.json));
    let listing = matches!(job.command, Command::Tiles | Command::Records);
    if listing && !alone && !job.json && !outcome.out.is_empty() {
        outcome.out.insert_str(0, &format!("{}:\n", names::shown(path)));
    }
    outcome
}

/// Checks the lines of all lists; how many are not OK is told at the end.
fn check_lists(job: &Job, quiet: bool) -> Result<bool> {
    let (mut groups, mut notes) = (Vec::new(), Vec::new());
    for list in &job.inputs {
        match input::read(list) {
            Ok(bytes) => groups.append(&mut check::groups(list, &bytes, &mut notes)),
            Err(failure) => notes.push(format!("{}: {}", names::shown(list), failure.text)),
        }
    }
    let answers = check::Answers { quiet, json: job.json };
    let work = |group: &check::Group, buffers: &mut Buffers| check::run(group, job.frame, &answers, buffers);
    let (good, wrong) = all(job, &groups, notes, &work)?;
    if wrong > 0 {
        say(&format!("arw6: {wrong} of the tiles are not OK\n"));
    }
    Ok(good)
}

/// Does the work for all items and tells their outcomes: whether all were good, and how many lines
/// were not OK.
fn all<T: Sync>(
    job: &Job,
    items: &[T],
    notes: Vec<String>,
    work: &(impl Fn(&T, &mut Buffers) -> Outcome + Sync),
) -> Result<(bool, usize)> {
    let console = std::cell::RefCell::new(Console::new(items.len()));
    let (mut good, mut wrong) = (notes.is_empty(), 0);
    notes.iter().for_each(|line| console.borrow_mut().note(line));
    let tell = |outcome: Outcome| {
        good &= !(outcome.bad || job.strict && outcome.damaged);
        wrong += outcome.wrong;
        outcome.notes.iter().for_each(|line| console.borrow_mut().note(line));
        console.borrow_mut().out(&outcome.out)
    };
    let told = batch::run(items, job.threads, work, tell, |done| console.borrow_mut().progress(done));
    console.borrow_mut().clear();
    told.map(|()| (good, wrong))
}
