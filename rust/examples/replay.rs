//! Replays a journal (docs/JOURNAL.md): standard input to standard output, the whole grammar,
//! lines that are no statements too. Each route question is put with and without the test of
//! the standing rules; where the answers differ the line says so.

use oberkosz::{Coordinator, Fault};
use std::fmt::Write as _;
use std::io::{self, BufRead, Write};

const LINE_LIMIT: usize = 262_144;
const LIST_LIMIT: usize = 65_536;
const BUFFER_LIMIT: u64 = 65_536;
const LENT: u8 = 0xA5;

/// What was expected in place of a word.
type Expected = &'static str;

const BYTES: Expected = "bytes in hex or -";
const LIST: Expected = "at most 65536 bytes in hex or -";
const NUMBER: Expected = "a decimal number below 18446744073709551616";
const BUFFER: Expected = "a decimal number up to 65536";
const DIGITS: Expected = "16 hex digits";

/// The words of a line, and how many were taken.
struct Words<'a> {
    rest: &'a [u8],
    taken: usize,
}

impl<'a> Words<'a> {
    /// The next word, empty if there is none.
    fn next(&mut self) -> &'a [u8] {
        let start = self
            .rest
            .iter()
            .position(|b| *b != b' ')
            .unwrap_or(self.rest.len());
        let rest = &self.rest[start..];
        let end = rest.iter().position(|b| *b == b' ').unwrap_or(rest.len());
        self.rest = &rest[end..];
        self.taken += 1;
        &rest[..end]
    }

    fn bytes(&mut self, limit: usize, expected: Expected) -> Result<Vec<u8>, Expected> {
        let word = self.next();
        if word == b"-" {
            return Ok(Vec::new());
        }
        if word.is_empty() || !word.len().is_multiple_of(2) || limit < word.len() / 2 {
            return Err(expected);
        }
        word.chunks(2)
            .map(|pair| Some(hex(pair)? as u8))
            .collect::<Option<_>>()
            .ok_or(expected)
    }

    fn number(&mut self, limit: u64, expected: Expected) -> Result<u64, Expected> {
        let word = self.next();
        if word.is_empty() || !word.iter().all(u8::is_ascii_digit) {
            return Err(expected);
        }
        let add = |n: u64, digit: &u8| n.checked_mul(10)?.checked_add((digit - b'0').into());
        let value = word.iter().try_fold(0, add).ok_or(expected)?;
        if limit < value {
            Err(expected)
        } else {
            Ok(value)
        }
    }

    fn digits(&mut self) -> Result<u64, Expected> {
        let word = self.next();
        if word.len() != 16 {
            return Err(DIGITS);
        }
        hex(word).ok_or(DIGITS)
    }

    fn end(&mut self) -> Result<(), Expected> {
        if self.next().is_empty() {
            Ok(())
        } else {
            Err("the end of the line")
        }
    }
}

/// The number that hex digits make, in either case.
fn hex(digits: &[u8]) -> Option<u64> {
    let value = |b: &u8| (*b as char).to_digit(16).map(u64::from);
    digits.iter().try_fold(0, |n, b| Some(n << 4 | value(b)?))
}

fn hex_text(bytes: &[u8]) -> String {
    if bytes.is_empty() {
        return "-".to_string();
    }
    bytes.iter().fold(String::new(), |mut text, b| {
        let _ = write!(text, "{b:02x}");
        text
    })
}

fn fault_text(fault: Fault) -> String {
    match fault {
        Fault::Check(sense) => format!("check {}", hex_text(&sense.0)),
        Fault::Refused(refusal) => format!("refused {}", refusal as u8),
    }
}

fn plain_text(answer: Result<(), Fault>) -> String {
    answer.map_or_else(fault_text, |()| "good".to_string())
}

/// The answer of a call that was lent a buffer, and what became of the buffer.
fn lent_text(answer: Result<usize, Fault>, reply: &[u8]) -> String {
    let delivered = answer.unwrap_or(0);
    let spoiled = reply[delivered..].iter().position(|b| *b != LENT);
    let spoiled = spoiled.map(|at| format!(" spoiled {}", delivered + at));
    match answer {
        Ok(n) => {
            let others = spoiled.unwrap_or(" kept".to_string());
            format!("good {n} {}{others}", hex_text(&reply[..n]))
        }
        Err(fault) => fault_text(fault) + &spoiled.unwrap_or_default(),
    }
}

fn setup(shelf: &mut Coordinator, words: &mut Words) -> Result<String, Expected> {
    let ids = words.bytes(LINE_LIMIT, BYTES)?;
    let luns = words.bytes(LINE_LIMIT, BYTES)?;
    words.end()?;
    let begun = Coordinator::setup(&ids, &luns);
    *shelf = begun.clone().unwrap_or_default();
    Ok(format!("setup {}", plain_text(begun.map(drop))))
}

fn command(shelf: &mut Coordinator, words: &mut Words) -> Result<String, Expected> {
    let initiator = words.number(u64::MAX, NUMBER)? as usize;
    let cdb = words.bytes(LINE_LIMIT, BYTES)?;
    let list = words.bytes(LIST_LIMIT, LIST)?;
    let random = words.digits()?;
    let mut reply = vec![LENT; words.number(BUFFER_LIMIT, BUFFER)? as usize];
    words.end()?;
    let answer = shelf.command(initiator, &cdb, &list, random, &mut reply);
    Ok(format!("command {}", lent_text(answer, &reply)))
}

fn link(shelf: &mut Coordinator, words: &mut Words) -> Result<String, Expected> {
    let initiator = words.number(u64::MAX, NUMBER)? as usize;
    words.end()?;
    Ok(format!("link {}", plain_text(shelf.link_event(initiator))))
}

fn route(shelf: &mut Coordinator, words: &mut Words) -> Result<String, Expected> {
    let initiator = words.number(u64::MAX, NUMBER)? as usize;
    let lun = words.digits()?;
    words.end()?;
    let answer = shelf.route(initiator, lun);
    let differs = answer != shelf.route_standing(initiator, lun);
    let opened = answer.map_or_else(fault_text, |unit| format!("unit {unit}"));
    Ok(format!(
        "route {opened}{}",
        if differs { " standing differs" } else { "" }
    ))
}

fn reach(shelf: &mut Coordinator, words: &mut Words) -> Result<String, Expected> {
    let mut reply = vec![LENT; words.number(BUFFER_LIMIT, BUFFER)? as usize];
    words.end()?;
    let answer = shelf.reach(&mut reply);
    Ok(format!("reach {}", lent_text(answer, &reply)))
}

fn statement(shelf: &mut Coordinator, words: &mut Words) -> Result<String, Expected> {
    match words.next() {
        b"setup" => setup(shelf, words),
        b"command" => command(shelf, words),
        b"link" => link(shelf, words),
        b"route" => route(shelf, words),
        b"reach" => reach(shelf, words),
        _ => Err("setup, command, link, route or reach"),
    }
}

/// The answer to a line; none to a line that is skipped.
fn answer(shelf: &mut Coordinator, number: u64, line: &[u8]) -> Option<String> {
    if line.len() > LINE_LIMIT {
        return Some(format!("line {number}: expected at most 262144 bytes"));
    }
    let line = line.strip_suffix(b"\r").unwrap_or(line);
    if line.is_empty() || line[0] == b'#' {
        return None;
    }
    let mut words = Words {
        rest: line,
        taken: 0,
    };
    let told = statement(shelf, &mut words);
    Some(told.unwrap_or_else(|expected| {
        format!("line {number}: word {}: expected {expected}", words.taken)
    }))
}

/// The next line without its LF, one byte over the limit if it is longer; whether there is one.
fn read_line(input: &mut impl BufRead, line: &mut Vec<u8>) -> io::Result<bool> {
    line.clear();
    let mut some = false;
    loop {
        let chunk = input.fill_buf()?;
        if chunk.is_empty() {
            return Ok(some);
        }
        some = true;
        let end = chunk.iter().position(|b| *b == b'\n');
        let taken = end.unwrap_or(chunk.len());
        let room = LINE_LIMIT + 1 - line.len();
        line.extend_from_slice(&chunk[..taken.min(room)]);
        input.consume(end.map_or(taken, |at| at + 1));
        if end.is_some() {
            return Ok(true);
        }
    }
}

fn main() -> io::Result<()> {
    let mut input = io::stdin().lock();
    let mut output = io::BufWriter::new(io::stdout().lock());
    let mut shelf = Coordinator::default();
    let mut line = Vec::new();
    let mut number = 1;
    while read_line(&mut input, &mut line)? {
        if let Some(told) = answer(&mut shelf, number, &line) {
            writeln!(output, "{told}")?;
        }
        number += 1;
    }
    output.flush()
}
