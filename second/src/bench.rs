//! One statement put to one state again and again, for its cost to be counted or timed.

use crate::coordinator;
use crate::journal::{put_to, read_line, Statement};
use crate::lines::next_line;
use crate::state::Coordinator;
use std::hint::black_box;
use std::io::{self, BufRead};
use std::time::{Duration, Instant};

/// What is done so many times: the last statement of the journal on a copy of the
/// state before it, or the copy alone, which is to be taken off.
#[derive(Clone, Copy, PartialEq, Eq, Debug)]
pub enum Work {
    Calls,
    Copies,
}

/// What is put again and again: the last statement of a journal, to the state before it,
/// with the buffer that it is lent.
struct Bench {
    state: Coordinator,
    statement: Statement,
    lent: Vec<u8>,
}

impl Bench {
    /// Nothing, if the journal has no statement.
    fn read(input: &mut impl BufRead) -> io::Result<Option<Bench>> {
        let mut state = Coordinator::default();
        let mut last: Option<Statement> = None;
        while let Some(line) = next_line(input)? {
            if let Ok(Some(statement)) = read_line(&line) {
                if let Some(before) = last.replace(statement) {
                    put_to(&mut state, &before);
                }
            }
        }
        Ok(last.map(|statement| Bench {
            lent: vec![0; buffer_of(&statement)],
            state,
            statement,
        }))
    }

    fn turn(&mut self, work: Work) {
        let mut copy = black_box(&self.state).clone();
        if work == Work::Calls {
            call(&mut copy, &self.statement, &mut self.lent);
        }
        black_box(&copy);
    }

    /// How long it takes to put the statement to each of some copies, which are there before.
    fn batch(&mut self, copies: usize) -> Duration {
        let mut copies: Vec<_> = (0..copies).map(|_| self.state.clone()).collect();
        let from = Instant::now();
        for copy in &mut copies {
            call(copy, &self.statement, &mut self.lent);
        }
        from.elapsed()
    }
}

/// So many turns, for instructions to be counted.
pub fn bench(work: Work, times: u64, input: &mut impl BufRead) -> io::Result<()> {
    if let Some(mut bench) = Bench::read(input)? {
        for _ in 0..times {
            bench.turn(work);
        }
    }
    Ok(())
}

/// So few copies that they stay near.
const BATCH: usize = 8;

/// The nanoseconds of one call: the least of so many batches, less that of so many empty ones.
pub fn time(batches: u64, input: &mut impl BufRead) -> io::Result<u128> {
    let Some(mut bench) = Bench::read(input)? else {
        return Ok(0);
    };
    let mut least = |copies| (0..batches).map(|_| bench.batch(copies)).min();
    let calls = least(BATCH).unwrap_or_default();
    let none = least(0).unwrap_or_default();
    Ok(calls.saturating_sub(none).as_nanos() / BATCH as u128)
}

fn buffer_of(statement: &Statement) -> usize {
    match statement {
        Statement::Command { buffer, .. } | Statement::Reach { buffer } => *buffer,
        _ => 0,
    }
}

/// The call alone: the lent buffer is there, and no answer is written.
fn call(c: &mut Coordinator, statement: &Statement, lent: &mut [u8]) {
    match statement {
        Statement::Setup { initiators, units } => {
            let _ = black_box(coordinator::setup(c, initiators, units));
        }
        Statement::Command { call, .. } => {
            black_box(coordinator::command(c, call, lent));
        }
        Statement::Link { initiator } => {
            black_box(coordinator::link_event(c, *initiator));
        }
        Statement::Route { initiator, lun } => {
            black_box(coordinator::route(c, *initiator, lun));
        }
        Statement::Reach { .. } => {
            black_box(coordinator::reach(c, lent));
        }
    }
}
