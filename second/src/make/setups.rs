//! Setups: mostly good ones, and each way to break the rules.

use super::{wire, Maker, THEMES};
use crate::bytes::{hex, lun_bytes};
use crate::state::TransportId;

impl Maker {
    /// The setup of a run, with the pools that the run plays with.
    pub(super) fn start(&mut self, theme: usize) {
        self.issued.clear();
        self.shift = [0, 0x20][self.rng.below(2)];
        self.ids = (0..2 + self.rng.below(4))
            .map(|n| self.access_id(n))
            .collect();
        let (initiators, units) = self.fleet(theme);
        self.good_setup(initiators, units);
        if initiators * units > 255 {
            // More rows than one byte counts.
            self.say("reach 2048");
        }
        if self.rng.below(8) > 0 {
            self.turn_on();
        }
    }

    fn fleet(&mut self, theme: usize) -> (usize, usize) {
        if THEMES[theme] == "sizes" && self.rng.once_in(5) {
            return (16, 17 + self.rng.below(3));
        }
        if matches!(THEMES[theme], "sizes" | "phases") {
            return (1 + self.rng.below(3), 17 + self.rng.below(6));
        }
        match self.rng.below(16) {
            0 => (0, self.rng.below(4)),
            1 => (1 + self.rng.below(3), 0),
            2 => (16, 1 + self.rng.below(4)),
            3 => (1 + self.rng.below(2), 32),
            _ => (1 + self.rng.below(4), 1 + self.rng.below(6)),
        }
    }

    /// All zeros now and then, and bytes on both sides of 80h.
    fn access_id(&mut self, n: usize) -> [u8; 16] {
        let mut id = [0; 16];
        if n == 0 && self.rng.once_in(2) {
            return id;
        }
        let fill = [0x11, 0x7f, 0x80, 0xfe][self.rng.below(4)];
        id.fill(fill);
        id[self.rng.below(16)] = self.rng.byte();
        id
    }

    pub(super) fn transport_id(&mut self, n: usize) -> TransportId {
        let mut id = [0; 24];
        id[0] = self.rng.below(2) as u8;
        id[8..16].copy_from_slice(&(self.rng.next() & 0xf0f0).to_be_bytes());
        if self.rng.once_in(5) {
            // As long as an AccessID, the rest zero.
            id[1] = n as u8 + 1;
            return id;
        }
        id[22] = self.rng.byte();
        id[23] = n as u8;
        id
    }

    fn transport_ids(&mut self, count: usize) -> Vec<TransportId> {
        let mut ids: Vec<TransportId> = (0..count).map(|n| self.transport_id(n)).collect();
        if count > 1 && self.rng.once_in(3) {
            // Two that are alike but for one byte.
            let at = self.rng.below(24);
            let mut twin = ids[0];
            twin[at] ^= if at == 0 { 1 } else { 0x40 };
            ids[1] = twin;
        }
        ids
    }

    fn default_luns(&mut self, count: usize) -> Vec<[u8; 8]> {
        let mask = [0x0f, 0x0f, 0xff][self.rng.below(3)];
        let start = self.rng.byte() & mask;
        let mut luns: Vec<[u8; 8]> = (0..count as u8)
            .map(|n| lun_bytes(start.wrapping_add(n)))
            .collect();
        // Unit numbers and default LUNs shall not be mistaken for each other.
        let turn = self.rng.below(count);
        luns.rotate_left(turn);
        luns
    }

    pub(super) fn good_setup(&mut self, initiators: usize, units: usize) {
        let ids = self.transport_ids(initiators).concat();
        let luns = self.default_luns(units).concat();
        self.say(&format!("setup {} {}", hex(&ids), hex(&luns)));
    }

    /// A good or a broken setup in the middle of a run.
    pub(super) fn some_setup(&mut self) {
        let (initiators, units) = self.fleet(0);
        if self.rng.once_in(3) {
            self.good_setup(initiators, units);
            self.turn_on();
            return;
        }
        self.broken_setup(initiators, units);
        if self.rng.once_in(2) {
            self.after_refusal();
        }
    }

    fn broken_setup(&mut self, initiators: usize, units: usize) {
        let mut ids = self.transport_ids(initiators.clamp(1, 6));
        let mut luns = self.default_luns(units.clamp(2, 6));
        let kind = self.rng.below(8);
        match kind {
            0 => ids[0][0] = [2, 3, 0x80, 0xff][self.rng.below(4)],
            1 => ids.push(ids[0]),
            2 => ids = self.transport_ids(17),
            3 => luns[0][0] = 1 + self.rng.byte() % 255,
            4 => luns[1][2 + self.rng.below(6)] = 1,
            5 => luns.push(luns[0]),
            6 => luns = self.default_luns(33),
            _ => {}
        }
        let (mut ids, mut luns) = (ids.concat(), luns.concat());
        if kind == 7 {
            let cut = 1 + self.rng.below(7);
            let end = if self.rng.once_in(2) {
                &mut ids
            } else {
                &mut luns
            };
            end.truncate(end.len() - cut);
        }
        self.say(&format!("setup {} {}", hex(&ids), hex(&luns)));
    }

    /// After a refused setup there are no initiators and no rows.
    fn after_refusal(&mut self) {
        self.say("reach 16");
        self.say("link 0");
        self.say("route 0 0001000000000000");
        let cdb = wire::cdb(0x86, 0, 0, 8);
        self.command(0, &cdb, &[], 0, 8);
        self.good_setup(2, 3);
        self.turn_on();
    }

    /// Access controls on, with an empty or a short list.
    pub(super) fn turn_on(&mut self) {
        let mut sketch = self.right_header();
        if self.rng.below(3) > 0 {
            sketch.pages = self.grants_for_all();
        }
        let initiator = self.any_initiator();
        self.out(initiator, 0, &sketch.bytes());
    }
}
