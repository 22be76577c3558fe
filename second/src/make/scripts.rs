//! Sequences aimed at deep states that single statements reach rarely.

use super::wire::{grant_all_page, grant_page, lun, Named};
use super::Maker;
use crate::state::TransportId;

impl Maker {
    pub(super) fn any_script(&mut self) {
        match self.rng.below(7) {
            0 => self.clash_script(),
            1 => self.proxy_script(),
            2 => self.enrol_script(),
            3 => self.report_script(),
            4 => self.some_phases(),
            5 => self.alike(),
            _ => self.size_script(),
        }
    }

    /// An initiator with one T row: unit `unit` at its home LUN, nothing else.
    pub(super) fn lone_t_row(&mut self, initiator: usize, unit: usize) {
        let page = grant_page(self.transport(initiator), false, &[self.at_home(unit)]);
        self.send_pages(vec![page]);
    }

    /// A token of an initiator for the unit at that home LUN.
    pub(super) fn token_for(&mut self, initiator: usize, unit: usize) -> u64 {
        let number = self.new_number();
        self.request_with(initiator, lun(self.home(unit)), number);
        number
    }

    // Enrolments.

    pub(super) fn enrol_script(&mut self) {
        if self.units() == 0 || self.initiators() == 0 {
            return self.act();
        }
        let initiator = self.any_initiator();
        match self.rng.below(5) {
            0 => self.kept_or_ended(initiator),
            1 => self.everything_by_enrolment(initiator),
            2 => self.alike(),
            _ => self.enrol_and_back(initiator),
        }
    }

    /// NOCNCL 0 and 1, removal, with enrolled and pending initiators.
    fn kept_or_ended(&mut self, initiator: usize) {
        let (access, id) = (self.access(0), self.ids[0]);
        self.out(initiator, 3, &[]);
        let unit = self.rng.below(self.units());
        let luacd = self.at_home(unit);
        self.send_pages(vec![grant_page(access, false, &[luacd])]);
        self.enroll_under(initiator, id);
        if self.rng.once_in(2) {
            self.link(initiator);
        }
        let mut page = match self.rng.below(6) {
            0 => grant_page(access, true, &[luacd]),
            1 => grant_page(access, false, &[luacd]),
            2 => grant_page(access, true, &[]),
            3 => grant_page(access, false, &[]),
            4 => grant_all_page(access, true),
            _ => grant_all_page(access, false),
        };
        if self.rng.once_in(2) {
            page[4] |= self.rng.byte() & 0x7f;
        }
        let mut sketch = self.right_header();
        sketch.flush = self.rng.once_in(3);
        sketch.pages = vec![page];
        self.send(&sketch);
        self.route_home(initiator, unit);
        self.enroll_under(initiator, id);
        self.reach();
    }

    pub(super) fn route_home(&mut self, initiator: usize, unit: usize) {
        let at = lun(self.home(unit));
        self.say(&format!("route {initiator} {at:016x}"));
    }

    fn everything_by_enrolment(&mut self, initiator: usize) {
        let (access, id) = (self.access(1), self.ids[1 % self.ids.len()]);
        let named = self.transport(initiator);
        self.out(initiator, 3, &[]);
        self.send_pages(vec![
            grant_page(named, false, &[]),
            grant_all_page(access, false),
        ]);
        self.enroll_under(initiator, id);
        self.route(initiator);
        self.link(initiator);
        self.route(initiator);
        self.request(initiator);
        self.reach();
    }

    fn enrol_and_back(&mut self, initiator: usize) {
        self.enroll(initiator);
        self.link(initiator);
        self.route(initiator);
        let other = self.ids[self.rng.below(self.ids.len())];
        self.enroll_under(initiator, other);
        self.enroll_under(initiator, [0x33; 16]);
        if let Some(mut near) = self.c.enrolments[initiator].access_id() {
            near[[0, 7, 8, 15][self.rng.below(4)]] ^= 1 << self.rng.below(8);
            self.enroll_under(initiator, near);
        }
        self.enroll(initiator);
        if self.rng.once_in(2) {
            let mut sketch = self.right_header();
            sketch.flush = true;
            self.send(&sketch);
            self.route(initiator);
        }
        if self.rng.once_in(2) {
            self.out(initiator, 3, &[]);
            self.link(initiator);
        }
    }

    /// Pages of a TransportID that begins as the AccessID of an enrolment does.
    fn alike(&mut self) {
        if self.units() == 0 || self.initiators() == 0 {
            return self.act();
        }
        let initiator = self.any_initiator();
        let (_, own) = self.transport(initiator);
        let mut id = [0; 16];
        id.copy_from_slice(&own[..16]);
        let mut foreign = own;
        foreign[23] ^= 0x80;
        let luacd = self.at_home(0);
        self.out(initiator, 3, &[]);
        self.send_pages(vec![
            grant_page((1, own), false, &[luacd]),
            grant_page((0, own), false, &[]),
        ]);
        self.enroll_under(initiator, id);
        self.send_pages(vec![
            grant_page((1, own), false, &[]),
            grant_page((0, own), false, &[luacd]),
        ]);
        self.route_home(initiator, 0);
        self.enroll_under(initiator, id);
        if self.rng.once_in(2) {
            self.link(initiator);
        }
        for page in [
            grant_page((1, own), false, &[luacd]),
            grant_page((1, own), false, &[luacd]),
            grant_page((1, foreign), false, &[luacd]),
            grant_all_page((1, foreign), false),
            grant_page((1, own), false, &[]),
            grant_page((1, foreign), false, &[]),
        ] {
            self.send_pages(vec![page]);
            self.route_home(initiator, 0);
        }
        self.reach();
    }

    // Reports.

    pub(super) fn report_script(&mut self) {
        let initiator = self.any_initiator();
        match self.rng.below(8) {
            0 => self.zeros_of_both_types(),
            1 | 2 => {
                for allocation in [0, 1, 3, 4, 7, 8] {
                    self.report_cut(initiator, allocation);
                }
            }
            3..=5 => {
                // Inside the head, the identifier and a descriptor of a page.
                let allocation = 8 + self.rng.below(72);
                self.report_cut(initiator, allocation);
            }
            _ => self.report(initiator),
        }
        if self.rng.once_in(4) {
            self.reach();
        }
    }

    /// An AccessID and a TransportID of the same bytes differ.
    fn zeros_of_both_types(&mut self) {
        let luacds = self.some_luacds();
        let access = grant_page((0, [0; 24]), true, &luacds);
        let transport = grant_page((1, [0; 24]), true, &luacds);
        self.send_pages(vec![transport, access]);
        self.report(0);
    }

    // Sizes.

    pub(super) fn size_script(&mut self) {
        if self.units() == 0 || self.initiators() == 0 {
            return self.act();
        }
        match self.rng.below(6) {
            0 if self.units() >= 17 => self.luacds_full(),
            1 if self.units() >= 17 => self.everything_of_many(),
            2 if self.units() >= 17 => self.long_report(),
            3 => self.aces_full(),
            _ => self.act(),
        }
    }

    /// 16 and 17 standing, and 17 sent with one overruled.
    fn luacds_full(&mut self) {
        let named = self.transport(0);
        let mut luacds: Vec<[u8; 20]> = (0..17).map(|unit| self.at_home(unit)).collect();
        self.send_pages(vec![grant_page(named, false, &luacds)]);
        self.send_pages(vec![grant_page(named, false, &luacds[..16])]);
        luacds[16] = self.luacd(self.home(15), 16);
        self.send_pages(vec![grant_page(named, false, &luacds)]);
        self.route_home(0, 15);
        // Over 16 LUACDs and a LUN of another form: the form comes first.
        luacds[16] = self.at_home(16);
        let mut malformed = self.at_home(0);
        malformed[11] = 1;
        let access = self.access(1);
        let wrong = grant_page(access, false, &[malformed]);
        let too_many = grant_page(named, false, &luacds);
        self.send_pages(vec![too_many.clone(), wrong]);
        self.send_pages(vec![too_many, grant_page(access, true, &[])]);
        self.report_cut(0, 100);
        self.send_pages(vec![grant_page(named, false, &[])]);
    }

    fn everything_of_many(&mut self) {
        let initiator = self.any_initiator();
        let page = grant_all_page(self.transport(initiator), false);
        self.send_pages(vec![page]);
        let last = self.units() - 1;
        self.route_home(initiator, last);
        self.request(initiator);
        self.report_cut(initiator, 40);
    }

    /// A report of over 4096 bytes, of which the head is shown.
    fn long_report(&mut self) {
        let luacds: Vec<[u8; 20]> = (0..16).map(|unit| self.at_home(unit)).collect();
        let ids: Vec<_> = (0..12).map(|n| self.transport_id(150 + n)).collect();
        let grants = ids.iter().map(|id| grant_page((1, *id), false, &luacds));
        self.send_pages(grants.collect());
        self.report_cut(0, 40);
        let removals = ids.iter().map(|id| grant_page((1, *id), false, &[]));
        self.send_pages(removals.collect());
    }

    /// 32 ACEs, a 33rd, and lists that pass 32 on the way alone.
    fn aces_full(&mut self) {
        let luacd = self.at_home(0);
        let mut fill = self.right_header();
        let room = 32usize.saturating_sub(self.c.acl.len());
        let new: Vec<_> = (0..room + 1).map(|n| self.transport_id(100 + n)).collect();
        for id in &new[..room] {
            fill.pages.push(grant_page((1, *id), false, &[luacd]));
        }
        self.send(&fill);
        self.one_ace_more((1, new[room]), new.first().copied());
        let removals = new.iter().map(|id| grant_page((1, *id), false, &[]));
        let removals = removals.collect();
        let shown = if self.rng.once_in(4) { 2000 } else { 48 };
        self.report_cut(0, shown);
        self.send_pages(removals);
    }

    /// With 32 ACEs: one more in several ways, and lists that need no more room.
    fn one_ace_more(&mut self, named: Named, old: Option<TransportId>) {
        let luacd = self.at_home(0);
        let one_more = grant_page(named, false, &[luacd]);
        let nothing = grant_page((1, self.transport_id(250)), false, &[]);
        self.send_pages(vec![one_more.clone()]);
        self.send_pages(vec![one_more.clone(), nothing]);
        self.send_pages(vec![grant_all_page(named, false)]);
        if let Some(old) = old {
            let replaced = grant_page((1, old), false, &[luacd, luacd]);
            self.send_pages(vec![replaced]);
            let removed = grant_page((1, old), false, &[]);
            self.send_pages(vec![one_more, removed]);
        }
    }
}
