//! Single statements, aimed at the state they meet.

use super::{wire, Maker};
use crate::ground::Ground;
use crate::report::{reach_list, report_acl};
use crate::state::Identifier;

/// Allocation lengths of which a narrow reader would see too little.
const WIDE: [usize; 3] = [0x1_0000, 0x0100_0000, u32::MAX as usize];

impl Maker {
    pub(super) fn act(&mut self) {
        let initiator = self.any_initiator();
        match self.rng.below(28) {
            0..=3 => self.manage(),
            4..=6 => self.enroll(initiator),
            7 => self.out(initiator, 3, &[]),
            8..=11 => self.request(initiator),
            12 => self.revoke(initiator),
            13 => self.revoke_all(initiator),
            14..=16 => self.assign(initiator),
            17 => self.release(initiator),
            18 => self.disable(initiator),
            19 => self.report(initiator),
            20 | 21 => self.link(initiator),
            22 => self.reach(),
            _ => self.route(initiator),
        }
        if self.rng.once_in(8) {
            self.reach();
        }
    }

    pub(super) fn link(&mut self, initiator: usize) {
        self.say(&format!("link {initiator}"));
    }

    /// Mostly an AccessID with an ACE, or the one held.
    pub(super) fn enroll(&mut self, initiator: usize) {
        let held = self.c.enrolments.get(initiator).and_then(|e| e.access_id());
        let with_ace: Vec<_> = self.c.acl.keys().filter_map(access_id_of).collect();
        let id = match self.rng.below(8) {
            0 => self.rng.pick(&self.ids),
            1..=3 if held.is_some() => held,
            _ => self.rng.pick(&with_ace),
        };
        self.enroll_under(initiator, id.unwrap_or([0x55; 16]));
    }

    pub(super) fn enroll_under(&mut self, initiator: usize, id: [u8; 16]) {
        let mut list = [0; 24];
        list[..16].copy_from_slice(&id);
        if self.rng.once_in(4) {
            list[16..].fill(self.rng.byte());
        }
        self.out(initiator, 2, &list);
    }

    pub(super) fn request(&mut self, initiator: usize) {
        let own = self.luns_on(initiator, &[Ground::T, Ground::A]);
        let other = self.luns_on(initiator, &[Ground::W, Ground::X, Ground::O]);
        let lun = match self.rng.below(10) {
            0 => self.malformed_of(&own),
            1 => wire::lun(self.rng.byte()),
            2..=4 if !other.is_empty() => wire::lun(self.rng.pick(&other).unwrap_or(0)),
            _ => wire::lun(self.rng.pick(&own).unwrap_or(0)),
        };
        let live: Vec<u64> = self.c.tokens.keys().copied().collect();
        let number = match self.rng.below(16) {
            0 => Some(0),
            1 => self.rng.pick(&live),
            2..=4 => self.rng.pick(&self.issued),
            5 => self.alike_number(&live),
            _ => None,
        };
        let number = number.unwrap_or(self.new_number());
        self.request_with(initiator, lun, number);
    }

    pub(super) fn request_with(&mut self, initiator: usize, lun: u64, number: u64) {
        let allocation = match self.rng.below(12) {
            0 => self.rng.below(8),
            1 => 9 + self.rng.below(1000),
            2 => WIDE[self.rng.below(3)],
            _ => 8,
        };
        let buffer = match self.rng.below(12) {
            0 => self.rng.below(8),
            1 => 9 + self.rng.below(24),
            _ => 8,
        };
        let mut cdb = wire::cdb(0x86, 4, lun, allocation);
        self.add_noise(&mut cdb);
        self.command(initiator, &cdb, &[], number, buffer);
        if self.c.tokens.contains_key(&number) {
            self.issued.push(number);
        }
    }

    pub(super) fn revoke(&mut self, initiator: usize) {
        let own = self.tokens_of(initiator);
        let live: Vec<u64> = self.c.tokens.keys().copied().collect();
        let token = match self.rng.below(8) {
            0 => Some(0),
            1 => self.rng.pick(&self.issued),
            2 | 3 => self.rng.pick(&live),
            4 => self.alike_number(&own),
            _ => self.rng.pick(&own),
        };
        let token = token.unwrap_or(self.rng.next());
        self.out(initiator, 7, &token.to_be_bytes());
    }

    pub(super) fn tokens_of(&self, initiator: usize) -> Vec<u64> {
        let tokens = self.c.tokens.iter();
        tokens
            .filter(|(_, token)| token.requester == initiator)
            .map(|(number, _)| *number)
            .collect()
    }

    pub(super) fn revoke_all(&mut self, initiator: usize) {
        let tokens = self.c.tokens.values();
        let named: Vec<u8> = tokens
            .filter(|token| token.requester == initiator)
            .map(|token| token.named)
            .collect();
        let lun = match self.rng.below(8) {
            0 | 1 => self.malformed_of(&named),
            2 => wire::lun(self.rng.byte()),
            _ => wire::lun(self.rng.pick(&named).unwrap_or(1)),
        };
        self.out(initiator, 8, &lun.to_be_bytes());
    }

    pub(super) fn assign(&mut self, initiator: usize) {
        let live: Vec<u64> = self.c.tokens.keys().copied().collect();
        let token = match self.rng.below(10) {
            0 => self.alike_number(&live),
            1 => self.rng.pick(&self.issued),
            _ => self.rng.pick(&live),
        };
        let taken = self.luns_on(initiator, &[Ground::T, Ground::A, Ground::W, Ground::X]);
        let free = wire::lun(self.free_lun(initiator));
        let lun = match self.rng.below(10) {
            0 => self.malformed_lun(),
            1..=3 => self.rng.pick(&taken).map_or(free, wire::lun),
            4 => wire::lun(self.some_home()),
            5 => wire::lun(self.proxy_lun_of_any()),
            _ => free,
        };
        self.assign_at(initiator, token.unwrap_or(1), lun);
    }

    pub(super) fn assign_at(&mut self, initiator: usize, token: u64, lun: u64) {
        let list = [token.to_be_bytes(), lun.to_be_bytes()].concat();
        self.out(initiator, 9, &list);
    }

    pub(super) fn release(&mut self, initiator: usize) {
        let own = self.luns_on(initiator, &[Ground::X]);
        let other = self.luns_on(initiator, &[Ground::T, Ground::A, Ground::W]);
        let lun = match self.rng.below(8) {
            0 => self.malformed_of(&own),
            1 => wire::lun(self.rng.byte()),
            2 => wire::lun(self.proxy_lun_of_any()),
            3 => wire::lun(self.rng.pick(&other).unwrap_or(0)),
            _ => wire::lun(self.rng.pick(&own).unwrap_or(0)),
        };
        self.out(initiator, 0x0a, &lun.to_be_bytes());
    }

    /// A LUN of another form whose nn is mostly that of one of these.
    fn malformed_of(&mut self, luns: &[u8]) -> u64 {
        match self.rng.pick(luns) {
            Some(nn) if self.rng.below(4) > 0 => self.malformed(nn),
            _ => self.malformed_lun(),
        }
    }

    /// A LUN that somebody holds as proxy LUN.
    fn proxy_lun_of_any(&mut self) -> u8 {
        let luns: Vec<u8> = self.c.proxy_luns.keys().map(|(_, nn)| *nn).collect();
        self.rng.pick(&luns).unwrap_or(9)
    }

    /// Mostly with a wrong key, since the right one ends the play.
    pub(super) fn disable(&mut self, initiator: usize) {
        let right = self.rng.once_in(3);
        self.disable_with(initiator, right);
        if right && self.rng.below(4) > 0 {
            self.turn_on();
        }
    }

    pub(super) fn disable_with(&mut self, initiator: usize, right: bool) {
        let mut list = [0; 12];
        let wrong = self.wrong_key();
        let key = if right { self.c.key } else { wrong };
        list[..4].fill(self.rng.byte());
        list[4..].copy_from_slice(&key.to_be_bytes());
        self.out(initiator, 1, &list);
    }

    /// A report, cut anywhere; long ones mostly cut early to keep journals small.
    pub(super) fn report(&mut self, initiator: usize) {
        let whole = report_acl(&self.c).len();
        let shown = whole.min(160);
        let allocation = match self.rng.below(8) {
            0 => [0, 1, 3, 4, 7, 8][self.rng.below(6)],
            1..=3 => self.rng.below(shown + 1),
            4 if whole > shown => whole,
            _ if whole > 600 => shown,
            5 => WIDE[self.rng.below(3)],
            6 => whole + self.rng.below(300),
            _ => whole,
        };
        self.report_cut(initiator, allocation);
    }

    pub(super) fn report_cut(&mut self, initiator: usize, allocation: usize) {
        let delivered = report_acl(&self.c).len().min(allocation);
        let buffer = match self.rng.below(8) {
            0 => self.rng.below(delivered + 1),
            1 => delivered.saturating_sub(1),
            2 => delivered + self.rng.below(40),
            _ => delivered,
        };
        let key = if self.rng.once_in(9) {
            self.wrong_key()
        } else {
            self.c.key
        };
        let mut cdb = wire::cdb(0x86, 0, key, allocation);
        self.add_noise(&mut cdb);
        self.command(initiator, &cdb, &[], 0, buffer);
    }

    pub(super) fn reach(&mut self) {
        let whole = reach_list(&self.c).len();
        let buffer = match self.rng.below(10) {
            0 => self.rng.below(whole + 1),
            1 => whole - 1,
            2 => whole + self.rng.below(50),
            _ if whole > 300 && self.rng.below(6) > 0 => 64,
            _ => whole,
        };
        self.say(&format!("reach {buffer}"));
    }

    /// All that can be seen of the tables, or a fault in them may go unseen.
    pub(super) fn look(&mut self) {
        self.say("reach 8192");
        let whole = report_acl(&self.c).len();
        if whole <= 1000 && self.initiators() > 0 {
            let cdb = wire::cdb(0x86, 0, self.c.key, whole);
            self.command(0, &cdb, &[], 0, whole);
        }
    }

    pub(super) fn route(&mut self, initiator: usize) {
        let grounds = [Ground::T, Ground::A, Ground::W, Ground::X, Ground::O];
        let known = self.luns_on(initiator, &grounds);
        let lun = match self.rng.below(10) {
            0 => self.malformed_of(&known),
            1 => wire::lun(self.rng.byte()),
            2 => wire::lun(self.some_home()),
            _ => wire::lun(self.rng.pick(&known).unwrap_or(0)),
        };
        self.say(&format!("route {initiator} {lun:016x}"));
    }
}

fn access_id_of(id: &Identifier) -> Option<[u8; 16]> {
    match id {
        Identifier::AccessId(id) => Some(*id),
        Identifier::TransportId(_) => None,
    }
}
