//! The text of journals: statements in, answer lines out.

use crate::bytes::{hex, number, unhex};
use crate::coordinator::{self, Command, Outcome};
use crate::lines::{next_line, Line, MOST_LINE};
use crate::setup::Broken;
use crate::state::Coordinator;
use std::io::{self, BufRead, Write};

pub const MOST_LIST: usize = 65_536;
pub const MOST_BUFFER: u64 = 65_536;
const FILL: u8 = 0xa5;

#[derive(Clone, PartialEq, Eq, Debug)]
pub enum Statement {
    Setup { initiators: Vec<u8>, units: Vec<u8> },
    Command { call: Command, buffer: usize },
    Link { initiator: u64 },
    Route { initiator: u64, lun: Vec<u8> },
    Reach { buffer: usize },
}

/// What a word should have been.
#[derive(Clone, Copy, PartialEq, Eq, Debug)]
pub enum Expected {
    Statement,
    Bytes,
    List,
    Number,
    Buffer,
    Digits,
    End,
}

impl Expected {
    pub fn words(self) -> &'static str {
        match self {
            Expected::Statement => "setup, command, link, route or reach",
            Expected::Bytes => "bytes in hex or -",
            Expected::List => "at most 65536 bytes in hex or -",
            Expected::Number => "a decimal number below 18446744073709551616",
            Expected::Buffer => "a decimal number up to 65536",
            Expected::Digits => "16 hex digits",
            Expected::End => "the end of the line",
        }
    }
}

/// Why a line is no statement.
#[derive(Clone, Copy, PartialEq, Eq, Debug)]
pub enum Misread {
    TooLong,
    Word {
        place: usize,
        expected: Expected,
        missing: bool,
    },
}

impl Misread {
    pub fn message(self) -> String {
        match self {
            Misread::TooLong => format!("expected at most {MOST_LINE} bytes"),
            Misread::Word {
                place, expected, ..
            } => format!("word {place}: expected {}", expected.words()),
        }
    }
}

/// A line of a journal: skipped, a statement, or no statement.
pub fn read_line(line: &Line) -> Result<Option<Statement>, Misread> {
    if line.too_long {
        return Err(Misread::TooLong);
    }
    let text = line.text();
    if text.is_empty() || text[0] == b'#' {
        return Ok(None);
    }
    read_statement(text).map(Some)
}

fn read_statement(text: &[u8]) -> Result<Statement, Misread> {
    let mut words = Words::of(text);
    let statement = match words.next(Expected::Statement)? {
        b"setup" => Statement::Setup {
            initiators: words.bytes()?,
            units: words.bytes()?,
        },
        b"command" => Statement::Command {
            call: words.call()?,
            buffer: words.buffer()?,
        },
        b"link" => Statement::Link {
            initiator: words.number()?,
        },
        b"route" => Statement::Route {
            initiator: words.number()?,
            lun: words.digits()?,
        },
        b"reach" => Statement::Reach {
            buffer: words.buffer()?,
        },
        _ => return Err(words.wrong(Expected::Statement)),
    };
    words.end()?;
    Ok(statement)
}

/// The words of a line from left to right; the first wrong one is the fault.
struct Words<'a> {
    rest: Vec<&'a [u8]>,
    place: usize,
}

impl<'a> Words<'a> {
    fn of(text: &'a [u8]) -> Self {
        let words = text.split(|byte| *byte == b' ');
        let mut rest: Vec<&[u8]> = words.filter(|word| !word.is_empty()).collect();
        rest.reverse();
        Words { rest, place: 0 }
    }

    fn wrong(&self, expected: Expected) -> Misread {
        Misread::Word {
            place: self.place,
            expected,
            missing: false,
        }
    }

    fn next(&mut self, expected: Expected) -> Result<&'a [u8], Misread> {
        self.place += 1;
        self.rest.pop().ok_or(Misread::Word {
            place: self.place,
            expected,
            missing: true,
        })
    }

    fn bytes(&mut self) -> Result<Vec<u8>, Misread> {
        let word = self.next(Expected::Bytes)?;
        unhex(word).ok_or(self.wrong(Expected::Bytes))
    }

    fn list(&mut self) -> Result<Vec<u8>, Misread> {
        let word = self.next(Expected::List)?;
        let list = unhex(word).filter(|list| list.len() <= MOST_LIST);
        list.ok_or(self.wrong(Expected::List))
    }

    fn number(&mut self) -> Result<u64, Misread> {
        let word = self.next(Expected::Number)?;
        decimal(word).ok_or(self.wrong(Expected::Number))
    }

    fn buffer(&mut self) -> Result<usize, Misread> {
        let word = self.next(Expected::Buffer)?;
        let size = decimal(word).filter(|size| *size <= MOST_BUFFER);
        let size = size.and_then(|size| usize::try_from(size).ok());
        size.ok_or(self.wrong(Expected::Buffer))
    }

    fn digits(&mut self) -> Result<Vec<u8>, Misread> {
        let word = self.next(Expected::Digits)?;
        let bytes = unhex(word).filter(|bytes| bytes.len() == 8);
        bytes.ok_or(self.wrong(Expected::Digits))
    }

    fn call(&mut self) -> Result<Command, Misread> {
        Ok(Command {
            initiator: self.number()?,
            cdb: self.bytes()?,
            list: self.list()?,
            random: number(&self.digits()?),
        })
    }

    fn end(&mut self) -> Result<(), Misread> {
        self.place += 1;
        if self.rest.is_empty() {
            Ok(())
        } else {
            Err(self.wrong(Expected::End))
        }
    }
}

/// Digits alone, zeros in front allowed, below 2^64.
pub fn decimal(word: &[u8]) -> Option<u64> {
    if word.is_empty() {
        return None;
    }
    word.iter().try_fold(0u64, |n, byte| {
        let digit = char::from(*byte).to_digit(10)?;
        n.checked_mul(10)?.checked_add(u64::from(digit))
    })
}

/// The answer to a statement, as the coordinator gives it.
#[derive(Clone, PartialEq, Eq, Debug)]
pub enum Answer {
    Setup(Result<(), Broken>),
    Command { outcome: Outcome, lent: Vec<u8> },
    Link(Outcome),
    Route(Outcome),
    Reach { outcome: Outcome, lent: Vec<u8> },
}

pub fn put_to(c: &mut Coordinator, statement: &Statement) -> Answer {
    match statement {
        Statement::Setup { initiators, units } => {
            Answer::Setup(coordinator::setup(c, initiators, units))
        }
        Statement::Command { call, buffer } => {
            let mut lent = vec![FILL; *buffer];
            let outcome = coordinator::command(c, call, &mut lent);
            Answer::Command { outcome, lent }
        }
        Statement::Link { initiator } => Answer::Link(coordinator::link_event(c, *initiator)),
        Statement::Route { initiator, lun } => {
            Answer::Route(coordinator::route(c, *initiator, lun))
        }
        Statement::Reach { buffer } => {
            let mut lent = vec![FILL; *buffer];
            let outcome = coordinator::reach(c, &mut lent);
            Answer::Reach { outcome, lent }
        }
    }
}

impl Answer {
    pub fn text(&self) -> String {
        match self {
            Answer::Setup(Ok(())) => "setup good".to_string(),
            Answer::Setup(Err(_)) => "setup refused 1".to_string(),
            Answer::Command { outcome, lent } => format!("command {}", lent_text(outcome, lent)),
            Answer::Reach { outcome, lent } => format!("reach {}", lent_text(outcome, lent)),
            Answer::Link(Outcome::Good(_)) => "link good".to_string(),
            Answer::Link(outcome) => format!("link {}", refusal_text(outcome)),
            Answer::Route(Outcome::Good(unit)) => format!("route unit {unit}"),
            Answer::Route(outcome) => format!("route {}", refusal_text(outcome)),
        }
    }
}

fn refusal_text(outcome: &Outcome) -> String {
    match outcome {
        Outcome::Good(count) => format!("good {count}"),
        Outcome::Check(fault) => format!("check {}", hex(&fault.sense())),
        Outcome::Refused(number) => format!("refused {number}"),
    }
}

/// What came back with a lent buffer, and whether the rest of it kept its bytes.
fn lent_text(outcome: &Outcome, lent: &[u8]) -> String {
    let delivered = match outcome {
        Outcome::Good(count) => *count,
        _ => 0,
    };
    let (bytes, rest) = lent.split_at(delivered);
    let spoiled = rest.iter().position(|byte| *byte != FILL);
    let spoiled = spoiled.map(|at| format!(" spoiled {}", delivered + at));
    match outcome {
        Outcome::Good(_) => {
            let word = spoiled.unwrap_or(" kept".to_string());
            format!("good {delivered} {}{word}", hex(bytes))
        }
        _ => refusal_text(outcome) + &spoiled.unwrap_or_default(),
    }
}

/// Answers a whole journal.
pub fn answer(input: &mut impl BufRead, output: &mut impl Write) -> io::Result<()> {
    let mut c = Coordinator::default();
    let mut line_number: u64 = 0;
    while let Some(line) = next_line(input)? {
        line_number += 1;
        match read_line(&line) {
            Ok(None) => {}
            Ok(Some(statement)) => writeln!(output, "{}", put_to(&mut c, &statement).text())?,
            Err(misread) => writeln!(output, "line {line_number}: {}", misread.message())?,
        }
    }
    output.flush()
}
