//! Which answers each op can get through a trace, which stops a run can make, and
//! how often each was met.

use twin::command::{Op, ROWS};
use twin::refusal::name;
use twin::run::Run;

/// Each pair and each stop must be met this often.
pub const ENOUGH: u64 = 100;

/// Numbers 0 to 12.
const NUMBERS: usize = 13;

/// The answers that each op can get from an empty store on.
const REACHED: [(Op, &[u8]); 11] = [
    (Op::Publish, &[0, 3, 7]),
    (Op::Adopt, &[0, 1, 4, 6, 8]),
    (Op::Acquire, &[0, 1, 2, 7]),
    (Op::Release, &[0, 1, 6]),
    (Op::Revoke, &[0, 1]),
    (Op::Replace, &[0, 1, 2, 8]),
    (Op::Reclaim, &[0, 1, 4, 5, 6]),
    (Op::Read, &[0, 1, 6]),
    (Op::Observe, &[0, 10]),
    (Op::Resolve, &[0, 10]),
    (Op::Count, &[0]),
];

/// The stops that a run of the program can make.
const STOPS: [u8; 4] = [0, 7, 11, 12];

/// Everything else, and why it is left out.
const LEFT_OUT: [(&str, &str); 5] = [
    (
        "replace 7",
        "a revision's end is 18,446,744,073,709,551,615 replaces away",
    ),
    (
        "any op 9",
        "the store starts empty and every command keeps its table sound",
    ),
    (
        "any op 11, 12",
        "these stop a run; no block is answered with them",
    ),
    ("any other pair", "document 01 gives the op no such refusal"),
    (
        "any other stop",
        "a run stops with 0, 11, 12, or 9 on an unsound table; the program with 7",
    ),
];

#[derive(Default)]
pub struct Counts {
    blocks: [[u64; NUMBERS]; ROWS.len()],
    stops: [u64; NUMBERS],
}

impl Counts {
    /// Adds one run's blocks and its stop.
    pub fn add(&mut self, run: &Run) {
        for &(op, number) in &run.blocks {
            self.blocks[op as usize][usize::from(number)] += 1;
        }
        self.stops[usize::from(run.stop)] += 1;
    }

    /// Adds what another worker counted.
    pub fn join(&mut self, other: &Counts) {
        for (row, others) in self.blocks.iter_mut().zip(&other.blocks) {
            sum(row, others);
        }
        sum(&mut self.stops, &other.stops);
    }

    /// The pairs and stops met too rarely, and those met though they were left out.
    pub fn faults(&self) -> Vec<String> {
        let mut faults = Vec::new();
        for (op, word, _) in ROWS {
            let row = &self.blocks[op as usize];
            judge(&mut faults, &format!("op={word} answer"), reached(op), row);
        }
        judge(&mut faults, "stop", &STOPS, &self.stops);
        faults
    }

    /// The table of counts, and what is left out of it.
    pub fn table(&self) -> String {
        let mut lines = String::from("op        answer              blocks\n");
        for (op, word, _) in ROWS {
            for &number in reached(op) {
                let met = self.blocks[op as usize][usize::from(number)];
                lines += &format!("{word:<8}  {number:>2} {:<12} {met:>9}\n", name(number));
            }
        }
        lines += "stop                          traces\n";
        for number in STOPS {
            let met = self.stops[usize::from(number)];
            lines += &format!("          {number:>2} {:<12} {met:>9}\n", name(number));
        }
        lines += "left out\n";
        for (what, why) in LEFT_OUT {
            lines += &format!("  {what}: {why}\n");
        }
        lines
    }
}

fn reached(op: Op) -> &'static [u8] {
    REACHED
        .iter()
        .find(|row| row.0 == op)
        .map_or(&[], |row| row.1)
}

fn sum(counts: &mut [u64; NUMBERS], others: &[u64; NUMBERS]) {
    for (count, other) in counts.iter_mut().zip(others) {
        *count += other;
    }
}

fn judge(faults: &mut Vec<String>, what: &str, reached: &[u8], met: &[u64; NUMBERS]) {
    for (number, &met) in (0u8..).zip(met) {
        if reached.contains(&number) {
            if met < ENOUGH {
                faults.push(format!("{what}={number} was met {met} times, not {ENOUGH}"));
            }
        } else if met > 0 {
            faults.push(format!(
                "{what}={number} was met {met} times and can't be reached"
            ));
        }
    }
}
