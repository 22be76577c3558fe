//! Who could open a unit, when, and on what ground.

use crate::coordinator::{action_of, Action};
use crate::ground::Ground;
use crate::journal::{decimal, Statement};
use crate::replay::{replay, End};
use crate::rows::{rows, Row};
use crate::state::{Coordinator, MOST_UNITS};
use crate::table::{lined_up, tabbed, Cells};
use std::collections::BTreeSet;
use std::io::{self, BufRead, Write};

const HEADINGS: [&str; 7] = [
    "initiator",
    "LUN",
    "ground",
    "from",
    "to",
    "begun by",
    "ended by",
];

/// What the command line asks for.
#[derive(Clone, Copy, PartialEq, Eq, Debug)]
pub struct Question {
    unit: usize,
    /// FROM and TO; the whole journal, if they are not named.
    lines: Option<(u64, u64)>,
    tsv: bool,
}

impl Question {
    /// The question, or what was expected in its place.
    pub fn read(words: &[&str]) -> Result<Question, &'static str> {
        let (words, tsv) = match words {
            [front @ .., "tsv"] => (front, true),
            all => (all, false),
        };
        let (unit, lines) = match words {
            [unit] => (read_unit(unit)?, None),
            [unit, from, to] => (read_unit(unit)?, Some(read_lines(from, to)?)),
            _ => return Err("expected UNIT [FROM TO] [tsv]"),
        };
        Ok(Question { unit, lines, tsv })
    }
}

fn read_unit(word: &str) -> Result<usize, &'static str> {
    let number = decimal(word.as_bytes()).and_then(|unit| usize::try_from(unit).ok());
    let unit = number.filter(|unit| *unit < MOST_UNITS);
    unit.ok_or("UNIT: expected a decimal number from 0 to 31")
}

fn read_lines(from: &str, to: &str) -> Result<(u64, u64), &'static str> {
    let from = decimal(from.as_bytes()).filter(|from| *from >= 1);
    let from = from.ok_or("FROM: expected a decimal number, 1 or more")?;
    let to = decimal(to.as_bytes()).filter(|to| *to >= from);
    let to = to.ok_or("TO: expected a decimal number, FROM or more")?;
    Ok((from, to))
}

pub fn audit(
    question: &Question,
    input: &mut impl BufRead,
    output: &mut impl Write,
    errors: &mut impl Write,
) -> io::Result<()> {
    let mut watch = Watch::of(question.unit);
    let end = replay(input, errors, |line, statement, c| {
        watch.look(line, statement, c);
    })?;
    let lines = question.lines.unwrap_or((1, end.lines));
    let shown = Shown {
        unit: question.unit,
        lines,
        grounds: watch.grounds_at(lines, end.lines),
        end,
    };
    let text = if question.tsv {
        tabbed(&shown.cells())
    } else {
        shown.page()
    };
    output.write_all(text.as_bytes())?;
    output.flush()
}

/// A statement at which grounds begin or end.
#[derive(Clone, Copy)]
struct Cause {
    line: u64,
    what: &'static str,
    /// Who sent it, if it is a command.
    sender: Option<u64>,
}

impl Cause {
    /// Nothing for statements that never begin or end a ground.
    fn of(line: u64, statement: &Statement) -> Option<Cause> {
        let (what, sender) = match statement {
            Statement::Setup { .. } => ("setup", None),
            Statement::Link { .. } => ("link event", None),
            Statement::Command { call, .. } => (command_name(&call.cdb)?, Some(call.initiator)),
            Statement::Route { .. } | Statement::Reach { .. } => return None,
        };
        Some(Cause { line, what, sender })
    }

    /// The sender is named where the ground is another's.
    fn text(&self, owner: usize) -> String {
        match self.sender {
            Some(sender) if sender != owner as u64 => {
                format!("{} by {sender}, line {}", self.what, self.line)
            }
            _ => format!("{}, line {}", self.what, self.line),
        }
    }
}

fn command_name(cdb: &[u8]) -> Option<&'static str> {
    if cdb.len() != 16 {
        return None;
    }
    match action_of(cdb).ok()? {
        Action::ManageAcl => Some("MANAGE ACL"),
        Action::Disable => Some("DISABLE ACCESS CONTROLS"),
        Action::Enroll => Some("ACCESS ID ENROLL"),
        Action::Cancel => Some("CANCEL ENROLLMENT"),
        Action::RevokeProxyToken => Some("REVOKE PROXY TOKEN"),
        Action::RevokeAllProxyTokens => Some("REVOKE ALL PROXY TOKENS"),
        Action::AssignProxyLun => Some("ASSIGN PROXY LUN"),
        Action::ReleaseProxyLun => Some("RELEASE PROXY LUN"),
        Action::ReportAcl | Action::RequestProxyToken => None,
    }
}

/// A ground of the unit, from its beginning to its end.
#[derive(Clone, Copy)]
struct Standing {
    row: Row,
    begun: Cause,
    ended: Option<Cause>,
}

impl Standing {
    /// By initiator, then by end, those that stand last, then as in the reach list.
    fn place(&self) -> (usize, bool, Option<u64>, Row) {
        let ended = self.ended.map(|cause| cause.line);
        (self.row.initiator, ended.is_none(), ended, self.row)
    }

    fn last_line(&self, journal_end: u64) -> u64 {
        self.ended.map_or(journal_end, |cause| cause.line)
    }
}

/// The grounds of one unit, while a journal goes by.
struct Watch {
    unit: usize,
    past: Vec<Standing>,
    now: Vec<Standing>,
}

impl Watch {
    fn of(unit: usize) -> Self {
        Watch {
            unit,
            past: Vec::new(),
            now: Vec::new(),
        }
    }

    fn look(&mut self, line: u64, statement: &Statement, c: &Coordinator) {
        let Some(cause) = Cause::of(line, statement) else {
            return;
        };
        let rows = rows_of_unit(c, self.unit);
        // A setup forgets all before it, so even a ground that it leaves as it
        // was has ended and begun again.
        let forgets = matches!(statement, Statement::Setup { .. });
        for standing in std::mem::take(&mut self.now) {
            if forgets || !rows.contains(&standing.row) {
                let ended = Some(cause);
                self.past.push(Standing { ended, ..standing });
            } else {
                self.now.push(standing);
            }
        }
        for row in rows {
            if !self.now.iter().any(|standing| standing.row == row) {
                self.now.push(Standing {
                    row,
                    begun: cause,
                    ended: None,
                });
            }
        }
    }

    /// Those that stood at one of the lines, each in its place.
    fn grounds_at(self, (from, to): (u64, u64), journal_end: u64) -> Vec<Standing> {
        let all = self.past.into_iter().chain(self.now);
        let mut grounds: Vec<Standing> = all
            .filter(|ground| ground.begun.line <= to && ground.last_line(journal_end) >= from)
            .collect();
        grounds.sort_by_key(Standing::place);
        grounds
    }
}

fn rows_of_unit(c: &Coordinator, unit: usize) -> Vec<Row> {
    let all = (0..c.transport_ids.len()).flat_map(|initiator| rows(c, initiator));
    all.filter(|row| row.unit == unit).collect()
}

/// All that an audit shows.
struct Shown {
    unit: usize,
    lines: (u64, u64),
    grounds: Vec<Standing>,
    end: End,
}

impl Shown {
    fn page(&self) -> String {
        let table = lined_up(&self.cells());
        format!("{}\n\n{table}\n{}\n", self.title(), self.answer())
    }

    fn title(&self) -> String {
        let (from, to) = self.lines;
        let shelf = match self.end.coordinator.default_luns.get(self.unit) {
            Some(nn) => format!("default LUN {nn:02x}"),
            None => "not on the shelf at the end".to_string(),
        };
        let title = format!("unit {} ({shelf}), journal lines {from} to {to}", self.unit);
        if to > self.end.lines {
            return format!("{title} (the journal ends at line {})", self.end.lines);
        }
        title
    }

    /// The headings, and a line for each ground.
    fn cells(&self) -> Vec<Cells<7>> {
        let mut lines = vec![HEADINGS.map(str::to_string)];
        lines.extend(self.grounds.iter().map(|ground| self.line(ground)));
        lines
    }

    fn line(&self, ground: &Standing) -> Cells<7> {
        let (from, to) = self.lines;
        let Standing { row, begun, ended } = ground;
        [
            row.initiator.to_string(),
            format!("{:02x}", row.lun),
            ground_name(row.ground).to_string(),
            begun.line.max(from).to_string(),
            ground.last_line(self.end.lines).min(to).to_string(),
            begun.text(row.initiator),
            ended.map_or("still stands".to_string(), |cause| {
                cause.text(row.initiator)
            }),
        ]
    }

    fn answer(&self) -> String {
        let initiators = |pending: bool| -> BTreeSet<usize> {
            let rows = self.grounds.iter().map(|ground| ground.row);
            rows.filter(|row| (row.ground == Ground::W) == pending)
                .map(|row| row.initiator)
                .collect()
        };
        let open = initiators(false);
        let pending: BTreeSet<usize> = initiators(true).difference(&open).copied().collect();
        let who = if open.is_empty() {
            "No initiator".to_string()
        } else {
            named(&open)
        };
        let opened = format!("{who} could open unit {} in these lines.", self.unit);
        match pending.len() {
            0 => opened,
            1 => format!("{opened} {} was pending: it could not.", named(&pending)),
            _ => format!("{opened} {} were pending: they could not.", named(&pending)),
        }
    }
}

fn ground_name(ground: Ground) -> &'static str {
    match ground {
        Ground::T => "TransportID",
        Ground::A => "enrolment",
        Ground::W => "pending enrolment",
        Ground::X => "proxy token",
        Ground::O => "access controls off",
    }
}

/// `Initiator 3`, `Initiators 0 and 3`, `Initiators 0, 1 and 3`.
fn named(initiators: &BTreeSet<usize>) -> String {
    let numbers: Vec<String> = initiators.iter().map(usize::to_string).collect();
    match numbers.as_slice() {
        [front @ .., last] if !front.is_empty() => {
            format!("Initiators {} and {last}", front.join(", "))
        }
        one => format!("Initiator {}", one.concat()),
    }
}
