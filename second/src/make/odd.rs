//! What a coordinator refuses or checks before it looks at its tables, and
//! lines that are no statements.

use super::{wire, Maker};
use crate::bytes::hex;

/// Each OUT service action with the one length of its list; 0 where there is
/// no such length.
const OUT: [(u8, usize); 8] = [
    (0x00, 0),
    (0x01, 12),
    (0x02, 24),
    (0x03, 0),
    (0x07, 8),
    (0x08, 8),
    (0x09, 16),
    (0x0a, 8),
];

/// Lines that are no statements, two to skip, and two with numbers of many digits.
const LINES: [&str; 44] = [
    "",
    "# a comment between statements",
    "   ",
    "Setup - -",
    "frobnicate 1",
    "setup",
    "setup -",
    "setup - - -",
    "setup 0 -",
    "setup - 000100000000000g",
    "setup -- -",
    "command",
    "command 0",
    "command x 86",
    "command 0 zz - 0000000000000000 8",
    "command 0 86000000000000000000000000080000",
    "command 0 86000000000000000000000000080000 -",
    "command 0 86000000000000000000000000080000 - 0",
    "command 0 86000000000000000000000000080000 - 0000000000000000",
    "command 0 86000000000000000000000000080000 - 0000000000000000 65537",
    "command 0 86000000000000000000000000080000 - 0000000000000000 8 8",
    "command 0 86000000000000000000000000080000 1 0000000000000000 8",
    "command 0 86000000000000000000000000080000 - - 8",
    "command -1 - - 0000000000000000 8",
    "link",
    "link 0x1",
    "link 18446744073709551616",
    "link 0 0",
    "route",
    "route 0",
    "route 0 1",
    "route 0 000100000000000000",
    "route 0 0001000000000000 0",
    "route +0 0001000000000000",
    "reach",
    "reach 99999999999999999999999999",
    "reach -",
    "reach 8 8",
    "reach\t64",
    "reach 64\r\r",
    " # no comment",
    "reach 64\u{e9}",
    "link 00000000000000000000000000000000000000000001",
    "reach 0000000000000000000000000000000000000000064",
];

impl Maker {
    pub(super) fn odd(&mut self) {
        match self.rng.below(17) {
            0 => self.no_initiator(),
            1 => self.wrong_cdb(),
            2 => self.wrong_count(),
            3 => self.wrong_operation(),
            4 | 5 => self.wrong_service_action(),
            6..=8 => self.wrong_length(),
            9 | 10 => self.length_zero(),
            11 | 12 => self.off_and_on(),
            13 => self.some_setup(),
            _ => self.no_statement(),
        }
    }

    fn no_initiator(&mut self) {
        let over = match self.rng.below(3) {
            0 => u64::MAX,
            1 => 1 << 32,
            _ => self.initiators() as u64 + self.rng.below(3) as u64,
        };
        let cdb = hex(&wire::cdb(0x87, 3, 0, 0));
        match self.rng.below(4) {
            0 => self.say(&format!("link {over}")),
            1 => self.say(&format!("route {over} 0001000000000000")),
            2 => self.say(&format!("command {over} {cdb} - 0000000000000000 0")),
            _ => self.say(&format!("command {over} 87 0102 0000000000000000 0")),
        };
    }

    /// Refusal 4 comes before refusal 5 and before the operation code.
    fn wrong_cdb(&mut self) {
        let initiator = self.any_initiator();
        let length = [0, 1, 6, 10, 12, 15, 17, 32][self.rng.below(8)];
        let mut cdb = vec![0; length];
        if let Some(first) = cdb.first_mut() {
            *first = [0x86, 0x87, 0x12][self.rng.below(3)];
        }
        let list = vec![0; self.rng.below(3)];
        self.command(initiator, &cdb, &list, 0, 8);
    }

    /// Refusal 5, also for codes that are not supported.
    fn wrong_count(&mut self) {
        let initiator = self.any_initiator();
        let operation = [0x87, 0x87, 0x87, 0x86, 0x12][self.rng.below(5)];
        let action = match operation {
            0x86 => [0x00, 0x04][self.rng.below(2)],
            _ => [0x00, 0x01, 0x02, 0x03, 0x05, 0x09, 0x1f][self.rng.below(7)],
        };
        let said = [0, 12, 24, 16_777_228, 65_548][self.rng.below(5)];
        let mut given = [1, 8, 12, 23, 24, 25][self.rng.below(6)];
        if said > 0xffff && self.rng.once_in(2) {
            given = said & 0xffff;
        }
        if said == given {
            given += 1;
        }
        let list = vec![0; given];
        let cdb = wire::cdb(operation, action, 0, said);
        self.command(initiator, &cdb, &list, 0, 8);
    }

    fn wrong_operation(&mut self) {
        let initiator = self.any_initiator();
        let operation = [0x00, 0x12, 0x85, 0x88, 0xa0, 0xff][self.rng.below(6)];
        let cdb = wire::cdb(operation, self.rng.byte(), self.rng.next(), 24);
        self.command(initiator, &cdb, &[], 1, 24);
    }

    fn wrong_service_action(&mut self) {
        let initiator = self.any_initiator();
        if self.rng.once_in(3) {
            let action = [0x01, 0x02, 0x03, 0x05, 0x17, 0x18, 0x1f][self.rng.below(7)];
            let cdb = wire::cdb(0x86, action, self.c.key, 64);
            self.command(initiator, &cdb, &[], 1, 64);
            return;
        }
        let action = [0x04, 0x05, 0x06, 0x0b, 0x10, 0x17, 0x18, 0x1f][self.rng.below(8)];
        let list = vec![0; [0, 8, 12][self.rng.below(3)]];
        self.out(initiator, action, &list);
    }

    fn wrong_length(&mut self) {
        let initiator = self.any_initiator();
        let (action, right) = OUT[self.rng.below(8)];
        let length = match (action, self.rng.below(4)) {
            // Often the header but for its last byte.
            (0x00, _) => match self.rng.below(27) {
                n if n % 3 == 0 => 27,
                n => n,
            },
            (_, 0) => right + 1,
            (_, 1) if right > 1 => right - 1,
            _ => [1, 4, 28, 40, 8, 12, 16, 24][self.rng.below(8)],
        };
        let length = if length == right { length + 4 } else { length };
        let list = vec![0; length];
        self.out(initiator, action, &list);
    }

    pub(super) fn length_zero(&mut self) {
        let initiator = self.any_initiator();
        let (action, _) = OUT[self.rng.below(8)];
        self.out(initiator, action, &[]);
    }

    /// Every command while access controls are off, then on again.
    pub(super) fn off_and_on(&mut self) {
        let initiator = self.any_initiator();
        self.disable_with(initiator, true);
        if self.rng.once_in(2) {
            // What a manager sends that holds an old report.
            let mut sketch = self.right_header();
            sketch.generation = 1;
            self.send(&sketch);
        }
        for _ in 0..6 + self.rng.below(10) {
            self.while_off(initiator);
        }
        self.turn_on();
    }

    fn while_off(&mut self, initiator: usize) {
        match self.rng.below(22) {
            0 => self.enroll(initiator),
            1 => self.out(initiator, 3, &[]),
            2 => self.request(initiator),
            3 => self.revoke(initiator),
            4 => self.revoke_all(initiator),
            5 => self.assign(initiator),
            6 => self.release(initiator),
            7 => self.disable_with(initiator, false),
            8 => self.report(initiator),
            9 => self.link(initiator),
            10 => self.route(initiator),
            11 => self.reach(),
            12..=14 => self.wrong_length(),
            15 => self.wrong_service_action(),
            16 => self.manage(),
            17 => self.first_list_too_long(),
            18 => {
                let mut sketch = self.right_header();
                self.spoil_luacd(&mut sketch);
                self.send(&sketch);
            }
            _ => self.length_zero(),
        }
    }

    /// No room is answered while access controls are off, too.
    fn first_list_too_long(&mut self) {
        if self.c.enabled || self.units() == 0 {
            return self.length_zero();
        }
        let luacd = self.at_home(0);
        let mut sketch = self.right_header();
        for n in 0..33 {
            let id = self.transport_id(n);
            sketch
                .pages
                .push(wire::grant_page((1, id), false, &[luacd]));
        }
        self.send(&sketch);
    }

    /// A line that is no statement, or one to skip.
    pub(super) fn no_statement(&mut self) {
        let at = self.rng.below(LINES.len());
        self.say(LINES[at]);
    }
}
