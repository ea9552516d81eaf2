//! `planner FILE..` says of each table in words whether some sheet makes its rule true, and draws
//! such a sheet. `-`, or no file at all, stands for standard input.
//!
//! Exit status: 0 where every table was solved, 1 where some was refused, 2 where some file could
//! not be read (or the arguments not understood, or the output not written).

use std::{
    env, fs,
    io::{self, Read, Write},
    process::ExitCode,
};

use host::{solve, Answer, Memory};

const USAGE: &str = "usage: planner [--nodes N] [FILE..]";

/// What the arguments ask for.
struct Request {
    files: Vec<String>,
    /// The most nodes that are drawn of one tree.
    nodes: usize,
}

impl Request {
    const NODES: usize = 200;

    /// `None` where the arguments aren't understood.
    fn new(mut arguments: impl Iterator<Item = String>) -> Option<Request> {
        let mut request = Request {
            files: Vec::new(),
            nodes: Request::NODES,
        };
        while let Some(argument) = arguments.next() {
            match argument.as_str() {
                "--nodes" => request.nodes = arguments.next()?.parse().ok()?,
                option if option.starts_with("--") => return None,
                _ => request.files.push(argument),
            }
        }
        if request.files.is_empty() {
            request.files.push("-".to_string());
        }
        Some(request)
    }
}

/// How a run went; the worst of its files counts.
#[derive(Clone, Copy, PartialEq, Eq, PartialOrd, Ord)]
enum Status {
    Solved = 0,
    Refused = 1,
    Unreadable = 2,
}

fn main() -> ExitCode {
    let Some(request) = Request::new(env::args().skip(1)) else {
        eprintln!("{USAGE}");
        return ExitCode::from(Status::Unreadable as u8);
    };
    match plan(&request) {
        Ok(status) => ExitCode::from(status as u8),
        Err(error) => {
            eprintln!("planner: cannot write: {error}");
            ExitCode::from(Status::Unreadable as u8)
        }
    }
}

/// Reports on each file and gives the worst status.
fn plan(request: &Request) -> io::Result<Status> {
    let mut out = io::stdout().lock();
    let mut memory = Memory::largest();
    let mut worst = Status::Solved;
    for (number, file) in request.files.iter().enumerate() {
        if number > 0 {
            writeln!(out)?;
        }
        let status = match read(file) {
            Ok(text) => {
                write!(out, "{}: ", title(file))?;
                report(&text, request.nodes, &mut memory, &mut out)?
            }
            Err(error) => {
                eprintln!("planner: cannot read {}: {error}", title(file));
                Status::Unreadable
            }
        };
        worst = worst.max(status);
    }
    out.flush()?;
    Ok(worst)
}

fn title(file: &str) -> &str {
    match file {
        "-" => "standard input",
        _ => file,
    }
}

fn read(file: &str) -> io::Result<Vec<u8>> {
    if file != "-" {
        return fs::read(file);
    }
    let mut text = Vec::new();
    io::stdin().lock().read_to_end(&mut text)?;
    Ok(text)
}

/// Writes the verdict on one table, and the picture or the faulty line.
fn report(
    text: &[u8],
    nodes: usize,
    memory: &mut Memory,
    out: &mut dyn Write,
) -> io::Result<Status> {
    let answer = solve(text, memory);
    if let Answer::Refused(refusal) = answer {
        writeln!(out, "{}", refusal.in_text(text))?;
        return Ok(Status::Refused);
    }
    writeln!(out, "{answer}")?;
    if let Some(tree) = memory.tree() {
        write!(out, "{}", tree.picture(nodes))?;
    }
    Ok(Status::Solved)
}
