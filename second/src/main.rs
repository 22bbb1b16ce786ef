//! The command line.

use std::fs::File;
use std::io::{self, BufReader, BufWriter, Error, ErrorKind, Read, Write};
use std::process::ExitCode;

use second::answer::answer;
use second::gen::{shapes, Source};
use second::judge::{as_it_should_be, judge, try_programs};
use second::listing::listing;
use second::slip::Slip;
use second::wire::{Request, ROOM_MOST};
use second::worked;

fn main() -> ExitCode {
    let words: Vec<String> = std::env::args().skip(1).collect();
    let words: Vec<&str> = words.iter().map(String::as_str).collect();
    match run(&words) {
        Ok(true) => ExitCode::SUCCESS,
        Ok(false) => ExitCode::FAILURE,
        Err(error) => {
            eprintln!("second: {error}");
            ExitCode::from(2)
        }
    }
}

/// Whether all was found well.
fn run(words: &[&str]) -> io::Result<bool> {
    match words {
        ["solve"] => solve(),
        ["ask", "worked"] => ask_worked(),
        ["ask", "files", files @ ..] => ask_files(files),
        ["ask", seed, count] => ask(number(seed)?, number(count)?, "mix"),
        ["ask", seed, count, shape] => ask(number(seed)?, number(count)?, shape),
        ["judge", requests, answers] => judge_files(requests, answers),
        ["answer"] => answer_all(None),
        ["wrong", name] => answer_all(Some(Slip::named(name).ok_or_else(usage)?)),
        ["wrongs", seed, count] => wrongs(number(seed)?, number(count)?),
        _ => Err(usage()),
    }
}

fn usage() -> Error {
    let slips = Slip::ALL.map(Slip::name).join(" ");
    let text = format!(
        "usage:\n  second solve < FILE\n  second ask SEED COUNT [SHAPE] > REQUESTS\n  \
         second ask files FILE.. > REQUESTS\n  second ask worked > REQUESTS\n  second judge REQUESTS ANSWERS\n  \
         second answer < REQUESTS > ANSWERS\n  second wrong NAME < REQUESTS > ANSWERS\n  second wrongs SEED COUNT\n\
         shapes: {}\nnames: {slips}",
        shapes().join(" ")
    );
    Error::new(ErrorKind::InvalidInput, text)
}

fn number(word: &str) -> io::Result<u64> {
    word.parse().map_err(|_| Error::new(ErrorKind::InvalidInput, format!("{word} is not a number from 0 up")))
}

fn solve() -> io::Result<bool> {
    let mut file = Vec::new();
    io::stdin().lock().read_to_end(&mut file)?;
    io::stdout().lock().write_all(listing(&file).as_bytes())?;
    Ok(true)
}

fn ask(seed: u64, count: u64, shape: &str) -> io::Result<bool> {
    let mut source = Source::new(seed, shape).ok_or_else(usage)?;
    let mut out = BufWriter::new(io::stdout().lock());
    for _ in 0..count {
        source.request().write(&mut out)?;
    }
    out.flush()?;
    Ok(true)
}

/// Each file as a request to solve it, with room for any answer.
fn ask_files(files: &[&str]) -> io::Result<bool> {
    let mut out = BufWriter::new(io::stdout().lock());
    for name in files {
        Request::Solve { room: ROOM_MOST, file: std::fs::read(name)? }.write(&mut out)?;
    }
    out.flush()?;
    Ok(true)
}

/// What the paper works by hand, the same on every run.
fn ask_worked() -> io::Result<bool> {
    let mut out = BufWriter::new(io::stdout().lock());
    for request in worked::requests() {
        request.write(&mut out)?;
    }
    out.flush()?;
    Ok(true)
}

fn answer_all(slip: Option<Slip>) -> io::Result<bool> {
    let mut requests = BufReader::new(io::stdin().lock());
    let mut out = BufWriter::new(io::stdout().lock());
    while let Some(request) = Request::read(&mut requests)? {
        answer(&request, slip).write(&mut out)?;
    }
    out.flush()?;
    Ok(true)
}

fn judge_files(requests: &str, answers: &str) -> io::Result<bool> {
    let mut requests = BufReader::new(File::open(requests)?);
    let mut answers = BufReader::new(File::open(answers)?);
    let tally = judge(&mut requests, &mut answers)?;
    io::stdout().lock().write_all(tally.report().as_bytes())?;
    Ok(tally.is_clean())
}

fn wrongs(seed: u64, count: u64) -> io::Result<bool> {
    let source = Source::new(seed, "mix").ok_or_else(usage)?;
    let mut all_well = true;
    let mut out = io::stdout().lock();
    for (slip, caught) in try_programs(source, count as usize) {
        let well = as_it_should_be(slip, caught);
        let name = slip.map_or("right", Slip::name);
        let word = if well { "as it should be" } else { "NOT AS IT SHOULD BE" };
        writeln!(out, "{name}: caught in {} solved and {} questions, {word}", caught.solves, caught.questions)?;
        all_well &= well;
    }
    Ok(all_well)
}
