//! Every call of the crate beside the unchanged Rust of `oracle/`, bit for bit; what is refused, beside the table of numbers as the oracle
//! has it.

mod counts;
mod drawn;
mod images;
mod lines;

use ninterp::calls::{read_list, Call, NAMES};
use ninterp::make;
use ninterp::make::numbers::Seed;

/// How many calls of each kind were made, and how many were refused.
#[derive(Default)]
struct Tally {
    made: [usize; NAMES.len()],
    refused: [usize; NAMES.len()],
}

impl Tally {
    /// Holds the crate's lines to the oracle's, call by call. A slice has several, the last of them `kept N`.
    fn compare(&mut self, what: &str, calls: &[Call]) {
        let (owed, given) = (ninterp::answers::answer_list(calls), lines::of(calls));
        let (mut owed, mut given) = (owed.lines(), given.lines());
        for call in calls.iter().filter(|call| call.has_answer()) {
            let op = call.op() as usize;
            loop {
                let line = owed.next().expect("a line for each call");
                assert_eq!(given.next(), Some(line), "{what}: {}", NAMES[op]);
                self.made[op] += line.starts_with("ok") as usize;
                self.refused[op] += line.starts_with("no") as usize;
                if !matches!(call, Call::Slice(_)) || line.starts_with("kept") {
                    break;
                }
            }
        }
        assert_eq!((given.next(), owed.next()), (None, None), "{what}: lines that no call gave");
    }

    /// Of every kind so many were made and refused at least; how many calls there were.
    fn finish(&self, what: &str, made: usize, refused: usize) -> usize {
        let mut all = 0;
        for (op, name) in NAMES.iter().enumerate().filter(|(_, name)| !["axis", "table"].contains(name)) {
            let (was_made, was_refused) = (self.made[op], self.refused[op]);
            println!("{what}: {was_made:6} made, {was_refused:6} refused, {name}");
            assert!(was_made >= made && was_refused >= refused, "{what}: {was_made} made, {was_refused} refused, {name}");
            all += was_made + was_refused;
        }
        all
    }
}

/// The oracle's fixed list: the bench cases, every primitive, rule and slice, and every refusal of theirs.
#[test]
fn fixed_list() {
    let mut calls = read_list(&make::list()).expect("a list");
    calls.retain(lines::can_be_asked);
    let mut tally = Tally::default();
    tally.compare("fixed list", &calls);
    assert!(tally.finish("fixed list", 100, 30) > 16_500);
}

/// Drawn tables of 1 to 4 axes, uniform and not, with readings on nodes, beside them and between.
#[test]
fn drawn_tables() {
    let mut tally = Tally::default();
    for number in 0..2000 {
        tally.compare(&format!("drawn table {number}"), &drawn::calls(&mut Seed::of(number)));
    }
    assert!(tally.finish("drawn tables", 500, 20) > 150_000);
}
