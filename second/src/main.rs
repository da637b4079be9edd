//! A second program for the rules of document 01 with requests A1 to A3 of 02, written from these alone, to be compared
//! with the first.

mod answers;
mod asking;
mod asking_how_many;
mod chart;
mod edges;
mod folder;
mod how_many;
mod listing;
mod making;
mod numbers;
mod pieces;
mod random;
mod records;
mod refusals;
mod search;
mod tracks;
mod words;

use std::io::{self, BufRead, BufWriter, Write};
use std::path::Path;
use std::process::ExitCode;

use listing::Files;

const USAGE: &str = "second list [FOLDER] | answers | logs SEED COUNT ROOT | requests SEED COUNT";

fn main() -> ExitCode {
    let words: Vec<String> = std::env::args().skip(1).collect();
    let words: Vec<&str> = words.iter().map(String::as_str).collect();
    let done = match words[..] {
        ["list"] => list(Path::new(".")),
        ["list", folder] => list(Path::new(folder)),
        ["answers"] => answer_all(),
        ["logs", seed, count, root] => make_logs(seed, count, Path::new(root)),
        ["requests", seed, count] => make_requests(seed, count),
        _ => Err(USAGE.into()),
    };
    match done {
        Ok(()) => ExitCode::SUCCESS,
        Err(message) => {
            eprintln!("second: {message}");
            ExitCode::from(2)
        }
    }
}

/// The bytes of a file; a missing one counts as empty.
fn contents(path: &Path) -> Result<Vec<u8>, String> {
    match std::fs::read(path) {
        Err(error) if error.kind() == io::ErrorKind::NotFound => Ok(Vec::new()),
        read => read.map_err(|error| format!("{}: {error}", path.display())),
    }
}

fn list(folder: &Path) -> Result<(), String> {
    let job = &contents(&folder.join("job.dat"))?;
    let table = &contents(&folder.join("chain.dat"))?;
    let scale = &contents(&folder.join("scale.dat"))?;
    let log = &contents(&folder.join("lay.dat"))?;
    let mut out = BufWriter::new(io::stdout().lock());
    listing::list(&Files { job, table, scale, log }, None, &mut out).map_err(told)?;
    out.flush().map_err(told)
}

fn answer_all() -> Result<(), String> {
    let mut out = BufWriter::new(io::stdout().lock());
    for (index, line) in io::stdin().lock().lines().enumerate() {
        let answer = answers::answer(&line.map_err(told)?);
        if answer.is_err() {
            out.flush().map_err(told)?;
        }
        let answer = answer.map_err(|wrong| format!("request {}: {wrong}", index + 1))?;
        writeln!(out, "{answer}").map_err(told)?;
    }
    out.flush().map_err(told)
}

fn number(word: &str) -> Result<u64, String> {
    word.parse().map_err(|_| format!("no number: {word}"))
}

fn make_logs(seed: &str, count: &str, root: &Path) -> Result<(), String> {
    making::make(number(seed)?, number(count)?, root).map_err(told)
}

fn make_requests(seed: &str, count: &str) -> Result<(), String> {
    let (seed, count) = (number(seed)?, number(count)?);
    let mut out = BufWriter::new(io::stdout().lock());
    for index in 0..count {
        writeln!(out, "{}", asking::request(seed, index)).map_err(told)?;
    }
    out.flush().map_err(told)
}

fn told(error: io::Error) -> String {
    error.to_string()
}
