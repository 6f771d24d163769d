//! A run: blocks read, carried out and answered until something stops it.

use crate::command::{number, Op};
use crate::refusal::{name, Refusal};
use crate::table::Store;
use crate::text::{read_block, write_answer};

/// Longest trace that the program runs, in bytes.
pub const TRACE: usize = 65_536;
/// The program's room for answers, in bytes.
pub const ROOM: usize = 65_536;
/// Room that must be left before a block.
pub const BLOCK_ROOM: usize = 96;

/// How a run went.
#[derive(Clone, PartialEq, Eq, Debug, Default)]
pub struct Run {
    /// The stop number.
    pub stop: u8,
    /// Each block done, in order: its op and its answer's number.
    pub blocks: Vec<(Op, u8)>,
    /// Bytes read, up to the stopped block's start.
    pub read: usize,
    /// The answers written.
    pub answers: Vec<u8>,
}

/// Runs a trace on a store with so many bytes of room for answers.
pub fn run(store: &mut Store, trace: &[u8], room: usize) -> Run {
    let mut done = Run::default();
    let mut rest = trace;
    loop {
        if rest.is_empty() {
            done.stop = 0;
            return done;
        }
        if room.saturating_sub(done.answers.len()) < BLOCK_ROOM {
            done.stop = Refusal::NoRoom.number();
            return done;
        }
        let Some((op, command, after)) = read_block(rest) else {
            done.stop = Refusal::BadLine.number();
            return done;
        };
        let answer = command.carry_out(store);
        write_answer(&answer, &mut done.answers);
        done.blocks.push((op, number(&answer)));
        done.read += rest.len() - after.len();
        rest = after;
    }
}

/// The program: a trace of at most 65,536 bytes on an empty store. A longer one is
/// reported as 7 and nothing is run.
pub fn program(trace: &[u8]) -> Run {
    if trace.len() > TRACE {
        return Run {
            stop: Refusal::Capacity.number(),
            ..Run::default()
        };
    }
    run(&mut Store::default(), trace, ROOM)
}

impl Run {
    /// What the program writes: the answers, then the stop line.
    pub fn report(&self) -> Vec<u8> {
        let mut report = self.answers.clone();
        let stop = format!("stop={} {}\n", self.stop, name(self.stop));
        report.extend_from_slice(stop.as_bytes());
        report
    }
}
