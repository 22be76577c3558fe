//! The maker of journals. It keeps a model coordinator beside the journal, so
//! that it knows the state each statement meets and can aim.

mod acts;
mod clashes;
mod lists;
mod odd;
mod phases;
mod rng;
mod scripts;
mod setups;
mod tokens;
mod wire;

use crate::bytes::hex;
use crate::ground::Ground;
use crate::journal::{put_to, read_line, Answer};
use crate::lines::{Line, MOST_LINE};
use crate::rows::rows;
use crate::state::{AccessId, Coordinator};
use rng::Rng;
use std::io::{self, Write};

pub const THEMES: [&str; 11] = [
    "mixed", "setups", "lists", "clashes", "proxies", "enrols", "reports", "sizes", "odd", "lines",
    "phases",
];

/// What each theme is aimed at, for the head of its journals.
const AIMS: [&str; 11] = [
    "all of it, each run under one of the other themes or none",
    "setups that keep the rules or break one, and what a refused one leaves",
    "MANAGE ACL lists, right ones and each malformation of the six phases",
    "clashes by each pair of grounds, undone ones, and what only looks like one",
    "the lives of tokens and proxy LUNs, up to 32 of each and back",
    "enrolments, pending ones, NOCNCL, FLUSH and removals",
    "reports cut anywhere, and their order",
    "16 and 17 LUACDs, 32 and 33 ACEs, everything of many units",
    "refusals, codes, lengths, lists of length 0, off and on again",
    "lines that are no statements, among statements",
    "lists with faults of two phases, by each pair of kinds",
];

/// What the command line asks for.
pub struct Order {
    seed: u64,
    runs: u64,
    theme: usize,
}

impl Order {
    pub fn read(words: &[&str]) -> Option<Order> {
        let (seed, runs, theme) = match words {
            [seed, runs] => (seed, runs, THEMES[0]),
            [seed, runs, theme] => (seed, runs, *theme),
            _ => return None,
        };
        Some(Order {
            seed: seed.parse().ok()?,
            runs: runs.parse().ok()?,
            theme: THEMES.iter().position(|name| *name == theme)?,
        })
    }
}

pub fn make(order: &Order, output: &mut impl Write) -> io::Result<()> {
    let theme = THEMES[order.theme];
    writeln!(
        output,
        "# second make {} {} {theme}",
        order.seed, order.runs
    )?;
    writeln!(output, "# Aimed at {}.", AIMS[order.theme])?;
    let mut maker = Maker::new(order.seed);
    for _ in 0..order.runs {
        maker.run(order.theme);
        output.write_all(maker.text.as_bytes())?;
        maker.text.clear();
    }
    output.flush()
}

pub struct Maker {
    rng: Rng,
    /// The model, always in the state after the last line.
    c: Coordinator,
    text: String,
    /// AccessIDs this run plays with.
    ids: Vec<AccessId>,
    /// Added to a unit's default LUN for the LUN it is mostly granted at.
    shift: u8,
    /// Token numbers issued in this run, live or not.
    issued: Vec<u64>,
    /// The key before the one that is right now.
    old_key: u64,
}

impl Maker {
    fn new(seed: u64) -> Self {
        Maker {
            rng: Rng::new(seed),
            c: Coordinator::default(),
            text: String::new(),
            ids: Vec::new(),
            shift: 0,
            issued: Vec::new(),
            old_key: 0,
        }
    }

    /// A setup and what follows it.
    fn run(&mut self, theme: usize) {
        let theme = match theme {
            0 => self.rng.below(THEMES.len()),
            chosen => chosen,
        };
        self.start(theme);
        // Without initiators most statements are refused: a few are enough.
        let most = if self.initiators() == 0 { 4 } else { 40 };
        let steps = most / 4 + self.rng.below(most);
        for _ in 0..steps {
            self.step(theme);
            if self.rng.once_in(16) {
                self.look();
            }
        }
        self.look();
    }

    fn step(&mut self, theme: usize) {
        match self.rng.below(24) {
            0 => self.odd(),
            1 | 2 => self.any_script(),
            3..=8 => self.themed(theme),
            _ => self.act(),
        }
    }

    fn themed(&mut self, theme: usize) {
        match THEMES[theme] {
            "setups" => self.some_setup(),
            "lists" => self.manage(),
            "clashes" => self.clash_script(),
            "proxies" => self.proxy_script(),
            "enrols" => self.enrol_script(),
            "reports" => self.report_script(),
            "sizes" => self.size_script(),
            "odd" => self.odd(),
            "lines" => self.no_statement(),
            "phases" => self.all_phases(),
            _ => self.act(),
        }
    }

    /// Writes a line and puts it to the model.
    fn say(&mut self, line: &str) -> Option<Answer> {
        let line = self.dressed(line);
        self.text.push_str(&line);
        self.text.push('\n');
        let bytes = line.into_bytes();
        let line = Line {
            too_long: bytes.len() > MOST_LINE,
            ended: true,
            bytes,
        };
        let statement = read_line(&line).ok().flatten()?;
        let key = self.c.key;
        let answer = put_to(&mut self.c, &statement);
        if self.c.key != key {
            self.old_key = key;
        }
        Some(answer)
    }

    /// Now and then the same statement in other clothes.
    fn dressed(&mut self, line: &str) -> String {
        match self.rng.below(160) {
            0 => line.replace(' ', "  "),
            1 => format!("{line}\r"),
            2 => format!(" {line} "),
            3 => match line.split_once(' ') {
                Some((first, rest)) => format!("{first} {}", rest.to_uppercase()),
                None => line.to_string(),
            },
            _ => line.to_string(),
        }
    }

    fn command(&mut self, initiator: usize, cdb: &[u8], list: &[u8], random: u64, buffer: usize) {
        let (cdb, list) = (hex(cdb), hex(list));
        self.say(&format!(
            "command {initiator} {cdb} {list} {random:016x} {buffer}"
        ));
    }

    /// An OUT command with its list, reserved bits set now and then.
    fn out(&mut self, initiator: usize, action: u8, list: &[u8]) {
        let mut cdb = wire::cdb(0x87, action, 0, list.len());
        if self.rng.once_in(6) {
            let noise = self.rng.next();
            cdb[2..10].copy_from_slice(&noise.to_be_bytes());
        }
        self.add_noise(&mut cdb);
        let random = if self.rng.once_in(8) {
            self.rng.next()
        } else {
            0
        };
        let buffer = if self.rng.once_in(10) {
            self.rng.below(40)
        } else {
            0
        };
        self.command(initiator, &cdb, list, random, buffer);
    }

    /// Reserved bits of byte 1, byte 14, and the CONTROL byte.
    fn add_noise(&mut self, cdb: &mut [u8; 16]) {
        if self.rng.once_in(6) {
            cdb[1] |= self.rng.byte() & 0xe0;
            cdb[14] = self.rng.byte();
            cdb[15] = self.rng.byte();
        }
    }

    fn initiators(&self) -> usize {
        self.c.transport_ids.len()
    }

    fn units(&self) -> usize {
        self.c.default_luns.len()
    }

    fn any_initiator(&mut self) -> usize {
        self.rng.below(self.initiators())
    }

    /// The LUN a unit is mostly granted at, so that most lists do not clash.
    fn home(&self, unit: usize) -> u8 {
        let default = self.c.default_luns.get(unit).copied().unwrap_or(0);
        default.wrapping_add(self.shift)
    }

    fn some_home(&mut self) -> u8 {
        let unit = self.rng.below(self.units());
        self.home(unit)
    }

    /// LUNs of an initiator's rows on some grounds.
    fn luns_on(&self, initiator: usize, grounds: &[Ground]) -> Vec<u8> {
        let rows = rows(&self.c, initiator).into_iter();
        rows.filter(|row| grounds.contains(&row.ground))
            .map(|row| row.lun)
            .collect()
    }

    /// A LUN at which an initiator has no row.
    fn free_lun(&mut self, initiator: usize) -> u8 {
        let taken: Vec<u8> = rows(&self.c, initiator).iter().map(|row| row.lun).collect();
        let start = self.rng.byte();
        let mut tried = (0..=255u8).map(|n| start.wrapping_add(n));
        tried.find(|nn| !taken.contains(nn)).unwrap_or(start)
    }

    /// Eight bytes that are no LUN of the house form.
    fn malformed_lun(&mut self) -> u64 {
        let nn = self.rng.byte();
        self.malformed(nn)
    }

    /// The LUN of an nn with one bit set that must not be.
    fn malformed(&mut self, nn: u8) -> u64 {
        let good = wire::lun(nn);
        let byte = [0, 0, 2, 3, 4, 5, 6, 7][self.rng.below(8)];
        good | 1 << (8 * (7 - byte) + self.rng.below(8))
    }

    /// A key that is not the right one: the last one, or one bit off.
    fn wrong_key(&mut self) -> u64 {
        if self.old_key != self.c.key && self.rng.once_in(3) {
            return self.old_key;
        }
        self.c.key ^ 1 << self.rng.below(64)
    }

    /// A number that is alike to one of these in its last 32 bits.
    fn alike_number(&mut self, numbers: &[u64]) -> Option<u64> {
        let bit = 1 << 32 << self.rng.below(32);
        self.rng.pick(numbers).map(|number| number ^ bit)
    }

    /// A number that no token has had in this run.
    fn new_number(&mut self) -> u64 {
        let number = match self.rng.below(10) {
            0..=2 => self.rng.next(),
            3..=5 => 0xffff_ffff_ffff_0000 | self.rng.next() >> 48,
            6 => 1 + self.rng.next() % 4,
            7 => self.rng.next() << 32,
            _ => 1 + self.rng.next() % 4096,
        };
        if number == 0 || self.issued.contains(&number) {
            return self.rng.next() | 1;
        }
        number
    }
}
