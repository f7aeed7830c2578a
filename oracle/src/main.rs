//! The commands of the oracle; README.md says what each is for.

mod compare;
mod describe;
mod fast;
mod runs;
mod self_check;

use calls::{Call, NAMES};
use make::awkward::Runs;
use ninterp::{answers, calls, header, image, lookups, make, program, refusals, rules, slices};
use ninterp::{table, table_calls, table_refusals};
use std::fs;
use std::io::{self, Read, Write};
use std::path::Path;
use std::process::ExitCode;

const USAGE: &str = "usage: oracle make | answer | count | check
       oracle records
       oracle generate SEED COUNT FOLDER
       oracle limit FOLDER
       oracle compare FOLDER
       oracle runs make | answer | count
       oracle long make | answer | count
       oracle fast lookup | judged
       oracle timed records KIND COUNTS RECORDS
       oracle timed calls | refused KIND COUNTS CALLS";

fn input() -> Result<Vec<u8>, String> {
    let mut bytes = Vec::new();
    match io::stdin().read_to_end(&mut bytes) {
        Ok(_) => Ok(bytes),
        Err(error) => Err(error.to_string()),
    }
}

fn lent_list() -> Result<Vec<Call>, String> {
    calls::read_list(&input()?)
}

fn count_by_kind(calls: &[Call]) -> String {
    let mut counts = [0; NAMES.len()];
    for call in calls {
        counts[call.op() as usize] += 1;
    }
    let mut text = String::new();
    for (name, count) in NAMES.iter().zip(counts) {
        text += &format!("{count:6} {name}\n");
    }
    let answered = calls.iter().filter(|call| call.has_answer()).count();
    text + &format!("{answered:6} calls in all, axes and tables apart\n")
}

fn number<T: std::str::FromStr>(word: &str) -> Result<T, String> {
    word.parse().map_err(|_| format!("not a number: {word}"))
}

/// Each run in a file of its own, named by its number.
fn write_runs(folder: &str, runs: impl Iterator<Item = Vec<u8>>) -> Result<(), String> {
    for (place, run) in runs.enumerate() {
        let file = Path::new(folder).join(format!("{place:06}"));
        fs::write(file, run).map_err(|error| error.to_string())?;
    }
    Ok(())
}

/// What is printed, and whether all that was compared is equal.
fn run(words: &[&str]) -> Result<(bool, Vec<u8>), String> {
    let text = match words {
        ["make"] => make::list(),
        ["answer"] => answers::answer_list(&lent_list()?).into(),
        ["count"] => count_by_kind(&lent_list()?).into(),
        ["check"] => self_check::run().map(|()| Vec::new())?,
        ["records"] => program::lines(&input()?).into(),
        ["generate", seed, count, folder] => {
            write_runs(folder, Runs::new(number(seed)?, number(count)?))?;
            Vec::new()
        }
        ["limit", folder] => {
            write_runs(folder, make::limit::runs().into_iter())?;
            Vec::new()
        }
        ["compare", folder] => {
            let verdict = compare::folder(Path::new(folder))?;
            return Ok((verdict.equal, verdict.text.into()));
        }
        ["runs", "make"] => runs::joined(&make::runs::all()),
        ["runs", "answer"] => runs::answer(&runs::split(&input()?)?).into(),
        ["runs", "count"] => format!("{}\n", runs::split(&input()?)?.len()).into(),
        ["long", "make"] => make::runs::long(),
        ["long", "answer"] => program::lines(&input()?).into(),
        ["long", "count"] => format!("{}\n", program::lines(&input()?).lines().count()).into(),
        ["fast", program] => {
            fast(program)?;
            Vec::new()
        }
        ["timed", what, kind, counts, many] => timed(what, number(kind)?, counts, number(many)?)?,
        _ => return Err(USAGE.into()),
    };
    Ok((true, text))
}

fn fast(program: &str) -> Result<(), String> {
    let (input, output) = (io::stdin().lock(), io::stdout().lock());
    let done = match program {
        "lookup" => fast::lookup(input, output),
        "judged" => fast::judged(input, output),
        _ => return Err(USAGE.into()),
    };
    done.map_err(|error| error.to_string())
}

/// Counts are written `16x16x16`.
fn timed(what: &str, kind: u8, counts: &str, many: usize) -> Result<Vec<u8>, String> {
    let counts = counts
        .split('x')
        .map(number)
        .collect::<Result<Vec<_>, _>>()?;
    match what {
        "records" => Ok(make::timed::records(kind, &counts, many)),
        "calls" => Ok(make::timed::calls(kind, &counts, many, false)),
        "refused" => Ok(make::timed::calls(kind, &counts, many, true)),
        _ => Err(USAGE.into()),
    }
}

/// 0, or 1 where something compared differs, or 2 where it could not be done.
fn main() -> ExitCode {
    let args: Vec<String> = std::env::args().skip(1).collect();
    let words: Vec<&str> = args.iter().map(String::as_str).collect();
    let done = run(&words).and_then(|(equal, text)| {
        let written = io::stdout().write_all(&text);
        written.map(|()| equal).map_err(|error| error.to_string())
    });
    match done {
        Ok(equal) => ExitCode::from(!equal as u8),
        Err(message) => {
            eprintln!("oracle: {message}");
            ExitCode::from(2)
        }
    }
}
