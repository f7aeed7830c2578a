//! Whole runs in one input: before each its length, four bytes, little-endian. Answered
//! with a line `run K`, counted from 0, and the run's own lines after it.

use crate::program;

pub fn joined(runs: &[Vec<u8>]) -> Vec<u8> {
    let mut bytes = Vec::new();
    for run in runs {
        bytes.extend((run.len() as u32).to_le_bytes());
        bytes.extend(run);
    }
    bytes
}

pub fn split(mut bytes: &[u8]) -> Result<Vec<&[u8]>, String> {
    let mut runs = Vec::new();
    while let Some((length, rest)) = bytes.split_first_chunk() {
        let length = u32::from_le_bytes(*length) as usize;
        if rest.len() < length {
            return Err("a run ends early".into());
        }
        let (run, rest) = rest.split_at(length);
        runs.push(run);
        bytes = rest;
    }
    match bytes {
        [] => Ok(runs),
        _ => Err("a length ends early".into()),
    }
}

pub fn answer(runs: &[&[u8]]) -> String {
    let mut lines = String::new();
    for (place, run) in runs.iter().enumerate() {
        lines += &format!("run {place}\n");
        lines += &program::lines(run);
    }
    lines
}
