//! Compares what a program printed for each run with the lines of `program`, byte for
//! byte, and counts the records by kind and outcome.

use crate::describe;
use crate::image::load::load;
use crate::program::{self, image_and_records, record_size, KINDS};
use std::collections::{BTreeMap, BTreeSet};
use std::fs;
use std::path::Path;

/// By row, then by column.
#[derive(Default)]
pub struct Counts {
    rows: BTreeMap<usize, BTreeMap<&'static str, usize>>,
    runs: usize,
}

/// Rows after those of the kinds.
const UNKNOWN: usize = KINDS.len();
const CUT: usize = UNKNOWN + 1;
const IMAGE: usize = CUT + 1;

fn row_name(row: usize) -> &'static str {
    match row {
        UNKNOWN => "unknown kind",
        CUT => "short last record",
        IMAGE => "refused image",
        kind => KINDS[kind],
    }
}

/// The first word of a line, and the number of a refusal.
const OUTCOMES: [&str; 19] = [
    "ok", "no 1", "no 2", "no 3", "no 4", "no 5", "no 6", "no 7", "no 8", "no 9", "no 10", "no 11",
    "no 12", "no 13", "no 14", "no 15", "no 16", "no 17", "no 18",
];

fn outcome(line: &str) -> &'static str {
    let named = |&&one: &&&'static str| line.starts_with(&format!("{one} "));
    OUTCOMES.iter().find(named).expect("a line of the oracle's")
}

/// The rows that the lines of a run belong to.
fn rows(input: &[u8]) -> Vec<usize> {
    let (image, records) = image_and_records(input);
    let Ok(table) = load(image) else {
        return vec![IMAGE];
    };
    let size = record_size(table.axes);
    let row = |record: &[u8]| match record {
        short if short.len() < size => CUT,
        _ => UNKNOWN.min(record[0] as usize),
    };
    records.chunks(size).map(row).collect()
}

impl Counts {
    fn add(&mut self, input: &[u8], lines: &str) {
        self.runs += 1;
        for (row, line) in rows(input).into_iter().zip(lines.lines()) {
            let columns = self.rows.entry(row).or_default();
            *columns.entry(outcome(line)).or_default() += 1;
        }
    }

    /// Whole records of images that were accepted.
    fn records(&self) -> usize {
        let rows = self.rows.range(..CUT);
        rows.flat_map(|(_, columns)| columns.values()).sum()
    }

    fn table(&self) -> String {
        let met: BTreeSet<&str> = self
            .rows
            .values()
            .flat_map(BTreeMap::keys)
            .copied()
            .collect();
        let columns: Vec<&str> = OUTCOMES
            .into_iter()
            .filter(|one| met.contains(one))
            .collect();
        let mut text = format!("{:18}", "");
        for column in &columns {
            text += &format!("{column:>8}");
        }
        for (&row, counts) in &self.rows {
            text += &format!("\n{:18}", row_name(row));
            for column in &columns {
                text += &format!("{:8}", counts.get(column).unwrap_or(&0));
            }
        }
        text + "\n"
    }
}

/// Whether all is equal, and what is to be said of it.
pub struct Verdict {
    pub equal: bool,
    pub text: String,
}

/// The runs of `folder/runs` and what was printed for each in `folder/got`; a file of the
/// same name in `folder/failed` says with what status the program ended.
pub fn folder(folder: &Path) -> Result<Verdict, String> {
    let mut counts = Counts::default();
    let mut names: Vec<_> = fs::read_dir(folder.join("runs"))
        .map_err(|e| e.to_string())?
        .map(|entry| entry.map(|e| e.file_name()).map_err(|e| e.to_string()))
        .collect::<Result<_, _>>()?;
    names.sort();
    for name in names {
        let read = |part: &str| fs::read(folder.join(part).join(&name));
        let input = read("runs").map_err(|e| e.to_string())?;
        let got = read("got").map_err(|e| e.to_string())?;
        let status = read("failed").unwrap_or_default();
        let wanted = program::lines(&input);
        if wanted.as_bytes() != got || !status.is_empty() {
            let name = name.to_string_lossy();
            let text = describe::difference(&name, &input, &wanted, &got, &status);
            let before = counts.records() + describe::first_unlike(wanted.as_bytes(), &got);
            let before = format!("{before} records before it are equal\n");
            return Ok(Verdict {
                equal: false,
                text: text + &before,
            });
        }
        counts.add(&input, &wanted);
    }
    let (records, runs) = (counts.records(), counts.runs);
    let text = format!("{records} records in {runs} runs: every byte is equal\n");
    Ok(Verdict {
        equal: true,
        text: counts.table() + &text,
    })
}
