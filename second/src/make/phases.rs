//! Lists with faults of two phases, so that the order of the phases shows.

use super::wire::{descriptor, grant_page, lun, Named, Sketch};
use super::Maker;

#[derive(Clone, Copy, PartialEq)]
enum Wrong {
    Cut,
    Key,
    Generation,
    Page,
    Twins,
    Form,
    Default,
    Aces,
    Luacds,
    Clash,
}

/// Each kind of fault with its phase.
const KINDS: [(u8, Wrong); 10] = [
    (1, Wrong::Cut),
    (2, Wrong::Key),
    (3, Wrong::Generation),
    (3, Wrong::Page),
    (3, Wrong::Twins),
    (4, Wrong::Form),
    (4, Wrong::Default),
    (5, Wrong::Aces),
    (5, Wrong::Luacds),
    (6, Wrong::Clash),
];

impl Maker {
    /// Every pair of kinds, once each.
    pub(super) fn all_phases(&mut self) {
        if !self.ready_for_phases() {
            return self.act();
        }
        for (at, one) in KINDS.iter().enumerate() {
            for other in &KINDS[at + 1..] {
                if other.0 > one.0 {
                    self.wrong_twice(one.1, other.1);
                }
            }
        }
        self.after_phases();
    }

    /// A few pairs, where a run is about something else.
    pub(super) fn some_phases(&mut self) {
        if !self.ready_for_phases() {
            return self.act();
        }
        for _ in 0..4 {
            let (one, other) = (self.rng.below(10), self.rng.below(10));
            let (one, other) = (KINDS[one.min(other)], KINDS[one.max(other)]);
            if one.0 < other.0 {
                self.wrong_twice(one.1, other.1);
            }
        }
        self.after_phases();
    }

    /// 32 ACEs, and an enrolled initiator that a T page can make clash.
    fn ready_for_phases(&mut self) -> bool {
        if self.units() < 17 || self.initiators() == 0 || !self.c.enabled {
            return false;
        }
        self.enrolled_beside_t(0);
        let luacd = self.at_home(0);
        let room = 32usize.saturating_sub(self.c.acl.len());
        let new: Vec<_> = (0..room).map(|n| self.transport_id(100 + n)).collect();
        let pages = new.iter().map(|id| grant_page((1, *id), false, &[luacd]));
        self.send_pages(pages.collect());
        self.c.acl.len() == 32
    }

    /// Nothing was changed; then room again for what follows.
    fn after_phases(&mut self) {
        self.reach();
        self.report_cut(0, 48);
        let foreign = self.foreign();
        let pages = foreign.iter().map(|id| grant_page(*id, false, &[]));
        self.send_pages(pages.collect());
    }

    /// TransportIDs with an ACE that no initiator has.
    fn foreign(&self) -> Vec<Named> {
        let mut named = Vec::new();
        for id in self.c.acl.keys() {
            if let crate::state::Identifier::TransportId(bytes) = id {
                if !self.c.transport_ids.contains(bytes) {
                    named.push((1, *bytes));
                }
            }
        }
        named
    }

    fn wrong_twice(&mut self, one: Wrong, other: Wrong) {
        let mut foreign = self.foreign();
        let mut sketch = self.right_header();
        let luns = matches!(one, Wrong::Form | Wrong::Default);
        if luns && other == Wrong::Luacds && self.rng.once_in(2) {
            let bad = self.bad_luacd(one);
            self.many_luacds(&mut sketch, &mut foreign, Some(bad));
        } else {
            // What cuts the end off comes last, or it would cut another page.
            self.make_wrong(&mut sketch, other, &mut foreign);
            self.make_wrong(&mut sketch, one, &mut foreign);
        }
        self.send(&sketch);
    }

    fn make_wrong(&mut self, sketch: &mut Sketch, wrong: Wrong, foreign: &mut Vec<Named>) {
        match wrong {
            Wrong::Cut => self.spoil_end(sketch),
            Wrong::Key => sketch.key = self.wrong_key(),
            Wrong::Generation => self.spoil_generation(sketch),
            Wrong::Page => match self.rng.below(3) {
                0 => self.spoil_head(sketch),
                1 => self.spoil_length(sketch),
                _ => self.spoil_code(sketch),
            },
            Wrong::Twins => {
                let named = foreign.pop().unwrap_or((1, [1; 24]));
                let luacd = self.at_home(1);
                self.with_page(sketch, grant_page(named, true, &[luacd]));
                self.with_page(sketch, grant_page(named, false, &[luacd]));
            }
            Wrong::Form | Wrong::Default => {
                let named = foreign.pop().unwrap_or((1, [1; 24]));
                let bad = self.bad_luacd(wrong);
                self.with_page(sketch, grant_page(named, false, &[bad]));
            }
            Wrong::Aces => {
                let named = (1, self.transport_id(200));
                let luacd = self.at_home(0);
                self.with_page(sketch, grant_page(named, false, &[luacd]));
            }
            Wrong::Luacds => self.many_luacds(sketch, foreign, None),
            Wrong::Clash => {
                let clashing = self.luacd(self.home(1), 2);
                let page = grant_page(self.transport(0), false, &[clashing]);
                self.with_page(sketch, page);
            }
        }
    }

    fn bad_luacd(&mut self, wrong: Wrong) -> [u8; 20] {
        let home = self.home(3);
        if wrong == Wrong::Form {
            let mut bad = self.luacd(home, 3);
            let malformed = self.malformed(home);
            bad[4..12].copy_from_slice(&malformed.to_be_bytes());
            return bad;
        }
        let default = self.c.default_luns.get(3).copied().unwrap_or(0);
        descriptor(lun(home), lun(default.wrapping_add(0x80)))
    }

    /// A page of 17 LUACDs that stand, with a wrong one among them if there is one.
    fn many_luacds(
        &mut self,
        sketch: &mut Sketch,
        foreign: &mut Vec<Named>,
        bad: Option<[u8; 20]>,
    ) {
        let named = foreign.pop().unwrap_or((1, [1; 24]));
        let mut luacds: Vec<[u8; 20]> = (0..17).map(|unit| self.at_home(unit)).collect();
        if let Some(bad) = bad {
            let at = self.rng.below(17);
            luacds.insert(at, bad);
            if self.units() > 17 {
                luacds.push(self.at_home(17));
            }
        }
        self.with_page(sketch, grant_page(named, true, &luacds));
    }
}
