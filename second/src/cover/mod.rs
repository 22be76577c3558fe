//! What a journal covers: a fixed list of items, each with its count. A suite
//! that misses an item would not notice a program that goes wrong there.

mod calls;
mod items;
mod lists;
mod names;
mod phases;
mod proxies;
mod questions;

use crate::coordinator::{action_of, initiator, Action, Command, Outcome};
use crate::journal::{put_to, read_line, Answer, Misread, Statement};
use crate::lines::{next_line, Line};
use crate::state::Coordinator;
use std::collections::{BTreeMap, BTreeSet};
use std::io::{self, BufRead, Write};

/// Counts by item. A name that is not in the fixed list is kept apart, so that
/// a slip in a name shows.
pub struct Tally {
    counts: BTreeMap<String, u64>,
    /// How many journals have an item.
    journals: BTreeMap<String, u64>,
    unlisted: BTreeSet<String>,
    memory: Memory,
}

/// What some items need to know of the statements before.
#[derive(Default)]
struct Memory {
    /// Numbers of tokens that ended since the setup.
    ended: BTreeSet<u64>,
    /// Those of them that took proxy LUNs along.
    ended_with_proxies: BTreeSet<u64>,
    /// 32 tokens were live since the setup.
    tokens_were_full: bool,
    proxies_were_full: bool,
    /// Access controls were on since the setup.
    been_on: bool,
    /// Initiators whose W row stopped something while they were pending.
    w_counted: BTreeSet<usize>,
}

impl Tally {
    fn new() -> Self {
        let counts = items::all().into_iter().map(|name| (name, 0)).collect();
        Tally {
            counts,
            journals: BTreeMap::new(),
            unlisted: BTreeSet::new(),
            memory: Memory::default(),
        }
    }

    pub fn count(&mut self, name: impl Into<String>) {
        let name = name.into();
        match self.counts.get_mut(&name) {
            Some(count) => *count += 1,
            None => {
                self.unlisted.insert(name);
            }
        }
    }

    pub fn count_if(&mut self, holds: bool, name: impl Into<String>) {
        if holds {
            self.count(name);
        }
    }

    fn missing(&self) -> u64 {
        self.counts.values().filter(|count| **count == 0).count() as u64
    }

    /// Items that one journal alone has: a change to it could lose them unseen.
    /// Only the last of several journals put together can lack its last LF.
    fn alone(&self) -> Vec<&String> {
        let once = self.journals.iter().filter(|(_, journals)| **journals == 1);
        let names = once.map(|(name, _)| name);
        names.filter(|name| *name != "line.no-lf").collect()
    }
}

/// A command that got past refusals 3 to 5 and has a supported service action.
pub struct Call<'a> {
    before: &'a Coordinator,
    after: &'a Coordinator,
    command: &'a Command,
    initiator: usize,
    action: Action,
    outcome: Outcome,
    lent: &'a [u8],
}

/// Counts the items of journals and prints them; whether each item is there,
/// and in two journals at least where there are several. Each journal begins with
/// a coordinator of its own.
pub fn cover(journals: Vec<Box<dyn BufRead + '_>>, output: &mut impl Write) -> io::Result<bool> {
    let mut tally = Tally::new();
    let several = journals.len() > 1;
    for mut journal in journals {
        let before = tally.counts.clone();
        count_journal(&mut journal, &mut tally)?;
        for (name, count) in &tally.counts {
            if before.get(name) != Some(count) {
                *tally.journals.entry(name.clone()).or_default() += 1;
            }
        }
    }
    for name in items::all() {
        let count = tally.counts.get(&name).copied().unwrap_or(0);
        writeln!(output, "{name} {count}")?;
    }
    for name in &tally.unlisted {
        writeln!(output, "unlisted {name}")?;
    }
    let alone = if several { tally.alone() } else { Vec::new() };
    for name in &alone {
        writeln!(output, "alone {name}")?;
    }
    writeln!(output, "missing {}", tally.missing())?;
    output.flush()?;
    Ok(tally.missing() == 0 && alone.is_empty())
}

/// The names counted that no item has: always none.
pub fn unlisted(input: &mut impl BufRead) -> io::Result<Vec<String>> {
    let mut tally = Tally::new();
    count_journal(input, &mut tally)?;
    Ok(tally.unlisted.into_iter().collect())
}

fn count_journal(input: &mut impl BufRead, tally: &mut Tally) -> io::Result<()> {
    let mut c = Coordinator::default();
    tally.memory = Memory::default();
    while let Some(line) = next_line(input)? {
        count_line(&line, tally);
        if let Ok(Some(statement)) = read_line(&line) {
            let before = c.clone();
            let answer = put_to(&mut c, &statement);
            count_statement(&before, &statement, &answer, &c, tally);
        }
    }
    Ok(())
}

fn count_line(line: &Line, tally: &mut Tally) {
    tally.count_if(line.bytes.ends_with(b"\r"), "line.cr");
    tally.count_if(!line.ended, "line.no-lf");
    tally.count_if(
        line.bytes.contains(&b' ') && line.bytes.starts_with(b" "),
        "line.space-first",
    );
    match read_line(line) {
        Ok(Some(_)) => tally.count("line.statement"),
        Ok(None) if line.text().is_empty() => tally.count("line.empty"),
        Ok(None) => tally.count("line.comment"),
        Err(Misread::TooLong) => tally.count("line.too-long"),
        Err(Misread::Word {
            expected, missing, ..
        }) => {
            let how = if missing { "missing" } else { "wrong" };
            tally.count(format!("line.{}.{how}", names::expected(expected)));
        }
    }
}

fn count_statement(
    before: &Coordinator,
    statement: &Statement,
    answer: &Answer,
    after: &Coordinator,
    tally: &mut Tally,
) {
    match (statement, answer) {
        (Statement::Setup { .. }, Answer::Setup(result)) => {
            // What a setup forgets has not ended in the sense of the items.
            tally.memory = Memory::default();
            return questions::setup(before, result, after, tally);
        }
        (Statement::Command { call, .. }, Answer::Command { outcome, lent }) => {
            count_command(before, call, *outcome, lent, after, tally);
        }
        (Statement::Link { initiator }, Answer::Link(outcome)) => {
            questions::link(before, *initiator, outcome, tally);
        }
        (Statement::Route { initiator, lun }, Answer::Route(outcome)) => {
            questions::route(before, *initiator, lun, outcome, tally);
        }
        (Statement::Reach { .. }, Answer::Reach { outcome, lent }) => {
            questions::reach(before, outcome, lent, tally);
        }
        _ => {}
    }
    remember(before, after, tally);
}

fn count_command(
    before: &Coordinator,
    command: &Command,
    outcome: Outcome,
    lent: &[u8],
    after: &Coordinator,
    tally: &mut Tally,
) {
    calls::early(before, command, &outcome, tally);
    let Some(initiator) = initiator(before, command.initiator) else {
        return;
    };
    if command.cdb.len() != 16 || outcome == Outcome::Refused(5) {
        return;
    }
    let Ok(action) = action_of(&command.cdb) else {
        return;
    };
    let call = Call {
        before,
        after,
        command,
        initiator,
        action,
        outcome,
        lent,
    };
    calls::any(&call, tally);
    count_action(&call, tally);
}

fn count_action(call: &Call, tally: &mut Tally) {
    match call.action {
        Action::ReportAcl => questions::report(call, tally),
        Action::ManageAcl => lists::manage(call, tally),
        Action::Enroll => calls::enroll(call, tally),
        Action::Cancel => calls::cancel(call, tally),
        Action::Disable => calls::disable(call, tally),
        Action::RequestProxyToken => proxies::request(call, tally),
        Action::RevokeProxyToken => proxies::revoke(call, tally),
        Action::RevokeAllProxyTokens => proxies::revoke_all(call, tally),
        Action::AssignProxyLun => proxies::assign(call, tally),
        Action::ReleaseProxyLun => proxies::release(call, tally),
    }
}

/// Counts what a change of the tables shows, and keeps it for later statements.
fn remember(before: &Coordinator, after: &Coordinator, tally: &mut Tally) {
    let memory = &mut tally.memory;
    for number in before.tokens.keys() {
        if !after.tokens.contains_key(number) {
            memory.ended.insert(*number);
            if before.proxy_luns.values().any(|token| token == number) {
                memory.ended_with_proxies.insert(*number);
            }
        }
    }
    memory.tokens_were_full |= after.tokens.len() == 32;
    memory.proxies_were_full |= after.proxy_luns.len() == 32;
    memory.been_on |= after.enabled;
    tally.count_if(
        before.acl.len() < 32 && after.acl.len() == 32,
        "size.32-aces",
    );
    let tokens = before.tokens.len() < 32 && after.tokens.len() == 32;
    tally.count_if(tokens, "size.32-tokens");
    let proxies = before.proxy_luns.len() < 32 && after.proxy_luns.len() == 32;
    tally.count_if(proxies, "size.32-proxy-luns");
}
