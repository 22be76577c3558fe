//! Sequences aimed at clashes, and at what looks like one and is none.

use super::wire::{all_tokens_page, grant_page, lun, tokens_page};
use super::Maker;

impl Maker {
    pub(super) fn clash_script(&mut self) {
        if self.units() < 3 || self.initiators() == 0 {
            return self.act();
        }
        let initiator = self.any_initiator();
        match self.rng.below(6) {
            0 => self.clash_of_t_and_a(initiator),
            1 => self.clash_in_enrol(initiator),
            2 => self.clash_undone(initiator),
            3 => self.clash_with_proxy(initiator),
            4 => self.pending_counts(initiator),
            _ => self.one_lun_thrice(initiator),
        }
        self.reach();
    }

    fn clash_of_t_and_a(&mut self, initiator: usize) {
        self.enrolled_beside_t(initiator);
        let token = self.token_for(initiator, 1);
        let free = lun(self.free_lun(initiator));
        self.assign_at(initiator, token, free);
        let (one, two) = (self.home(0), self.home(1));
        let named = self.transport(initiator);
        let other_unit = self.luacd(two, 2);
        let other_lun = self.luacd(one.wrapping_add(100), 1);
        // A list that fails neither flushes nor revokes.
        let mut flushing = self.right_header();
        flushing.flush = true;
        flushing.pages = vec![grant_page(named, true, &[other_unit]), all_tokens_page()];
        self.send(&flushing);
        self.send_pages(vec![grant_page(named, true, &[other_lun])]);
        let access = self.access(0);
        self.route_home(initiator, 1);
        self.say(&format!("route {initiator} {free:016x}"));
        let other_unit = self.luacd(one, 2);
        self.send_pages(vec![grant_page(access, true, &[other_unit])]);
        // Without NOCNCL the enrolment ends, so that nothing clashes.
        self.send_pages(vec![grant_page(access, false, &[other_unit])]);
        self.send_pages(vec![grant_page(access, true, &[])]);
        self.say(&format!("route {initiator} {free:016x}"));
    }

    /// T has unit 0, and A (or W) unit 1, each at its home LUN.
    pub(super) fn enrolled_beside_t(&mut self, initiator: usize) {
        self.out(initiator, 3, &[]);
        let mine = grant_page(self.transport(initiator), false, &[self.at_home(0)]);
        let access = self.access(0);
        let shared = grant_page(access, false, &[self.at_home(1)]);
        self.send_pages(vec![mine, shared]);
        let id = self.ids[0];
        self.enroll_under(initiator, id);
    }

    fn clash_in_enrol(&mut self, initiator: usize) {
        self.out(initiator, 3, &[]);
        let (access, id) = (self.access(1), self.ids[1 % self.ids.len()]);
        let mine = grant_page(self.transport(initiator), false, &[self.at_home(0)]);
        let luacd = match self.rng.below(4) {
            0 => self.luacd(self.home(0), 1),
            1 => self.luacd(self.home(0).wrapping_add(77), 0),
            2 => self.at_home(0),
            _ => self.at_home(1),
        };
        self.send_pages(vec![mine, grant_page(access, false, &[luacd])]);
        self.enroll_under(initiator, id);
    }

    /// A clash on the way, and a later page that ends it.
    fn clash_undone(&mut self, initiator: usize) {
        let other = (initiator + 1) % self.initiators();
        self.lone_t_row(other, 2);
        let token = self.token_for(other, 2);
        self.assign_at(initiator, token, lun(self.home(0)));
        let grant = grant_page(self.transport(initiator), false, &[self.at_home(0)]);
        let end = match self.rng.below(3) {
            0 => tokens_page(&[token]),
            1 => all_tokens_page(),
            _ => tokens_page(&[1, token]),
        };
        if self.rng.once_in(2) {
            self.send_pages(vec![grant.clone()]);
        }
        let pages = if self.rng.once_in(3) {
            vec![end, grant]
        } else {
            vec![grant, end]
        };
        self.send_pages(pages);
        self.enrolled_beside_t(initiator);
        let clashing = self.luacd(self.home(1), 2);
        let grant = grant_page(self.transport(initiator), false, &[clashing]);
        let access = self.access(0);
        self.send_pages(vec![grant, grant_page(access, true, &[])]);
    }

    fn clash_with_proxy(&mut self, initiator: usize) {
        let other = (initiator + 1) % self.initiators();
        self.enrolled_beside_t(initiator);
        self.lone_t_row(other, 2);
        let token = self.token_for(other, 2);
        let free = self.free_lun(initiator);
        self.assign_at(initiator, token, lun(free));
        if self.rng.once_in(2) {
            self.link(initiator);
        }
        let clashing = self.luacd(free, 1);
        let access = self.access(0);
        let named = self.transport(initiator);
        self.send_pages(vec![grant_page(named, false, &[clashing])]);
        self.send_pages(vec![grant_page(access, true, &[clashing])]);
        self.out(initiator, 3, &[]);
        self.send_pages(vec![grant_page(access, true, &[clashing])]);
        let id = self.ids[0];
        self.enroll_under(initiator, id);
        // One unit at two LUNs is no clash where one row is X.
        let twice = self.luacd(free.wrapping_add(1), 2);
        self.send_pages(vec![grant_page(named, false, &[twice])]);
    }

    /// W counts as a row, so that a re-enrolment always passes.
    fn pending_counts(&mut self, initiator: usize) {
        self.enrolled_beside_t(initiator);
        if self.rng.once_in(2) {
            self.link(initiator);
        } else {
            let mut sketch = self.right_header();
            sketch.flush = true;
            self.send(&sketch);
        }
        let named = self.transport(initiator);
        let other_unit = self.luacd(self.home(1), 2);
        let other_lun = self.luacd(self.home(1).wrapping_add(50), 1);
        self.send_pages(vec![grant_page(named, false, &[other_unit])]);
        self.send_pages(vec![grant_page(named, false, &[other_lun])]);
        let token = self.token_for(initiator, 0);
        self.assign_at(initiator, token, lun(self.home(1)));
        self.request_with(initiator, lun(self.home(1)), token ^ 2);
        self.say(&format!("route {initiator} {:016x}", lun(self.home(1))));
        let id = self.ids[0];
        self.enroll_under(initiator, id);
    }

    /// X, then T and A at the same LUN with the same unit.
    fn one_lun_thrice(&mut self, initiator: usize) {
        let other = (initiator + 1) % self.initiators();
        let named = self.transport(initiator);
        self.out(initiator, 3, &[]);
        self.send_pages(vec![grant_page(named, false, &[])]);
        self.lone_t_row(other, 1);
        let token = self.token_for(other, 1);
        self.assign_at(initiator, token, lun(self.home(1)));
        self.request_with(initiator, lun(self.home(1)), token ^ 4);
        let access = self.access(0);
        let shared = grant_page(access, false, &[self.at_home(1)]);
        let mine = grant_page(named, false, &[self.at_home(1)]);
        self.send_pages(vec![shared]);
        let id = self.ids[0];
        self.enroll_under(initiator, id);
        self.reach();
        self.route_home(initiator, 1);
        if self.rng.once_in(2) {
            self.link(initiator);
            self.route_home(initiator, 1);
        }
        self.request_with(initiator, lun(self.home(1)), token ^ 6);
        self.send_pages(vec![mine]);
        self.route_home(initiator, 1);
        self.request_with(initiator, lun(self.home(1)), token ^ 8);
        self.reach();
        self.out(initiator, 3, &[]);
        self.route_home(initiator, 1);
        self.out(initiator, 0x0a, &lun(self.home(1)).to_be_bytes());
        self.say(&format!("route {initiator} {:016x}", lun(self.home(1))));
    }
}
