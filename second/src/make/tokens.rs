//! Sequences aimed at the lives of tokens and proxy LUNs.

use super::wire::{all_tokens_page, grant_page, lun, tokens_page};
use super::Maker;

impl Maker {
    pub(super) fn proxy_script(&mut self) {
        if self.units() < 2 || self.initiators() == 0 {
            return self.act();
        }
        let initiator = self.any_initiator();
        match self.rng.below(10) {
            0 => self.tokens_full(initiator),
            1 => self.proxies_full(initiator),
            2..=4 => self.revoked_with_proxies(initiator),
            5 => self.token_outlives(initiator),
            6 => self.one_lun_of_two(initiator),
            _ => {
                self.lone_t_row(initiator, 0);
                let token = self.token_for(initiator, 0);
                let user = self.any_initiator();
                let free = lun(self.free_lun(user));
                self.assign_at(user, token, free);
                self.route(user);
            }
        }
    }

    fn tokens_full(&mut self, initiator: usize) {
        self.lone_t_row(initiator, 0);
        let at = lun(self.home(0));
        let mut tries = 0;
        while self.c.enabled && self.c.tokens.len() < 32 && tries < 40 {
            self.token_for(initiator, 0);
            tries += 1;
        }
        let number = self.new_number();
        self.request_with(initiator, at, number);
        let malformed = self.malformed_lun();
        self.request_with(initiator, malformed, number);
        self.revoke(initiator);
        let ended = self.rng.pick(&self.tokens_of(initiator));
        let ended = ended.unwrap_or(number);
        self.out(initiator, 7, &ended.to_be_bytes());
        let again = if self.rng.once_in(2) { ended } else { number };
        self.request_with(initiator, at, again);
        self.request_with(initiator, at, number ^ 1);
        if self.rng.once_in(3) {
            self.report_cut(initiator, 700);
        }
        if self.rng.below(4) > 0 {
            self.send_pages(vec![all_tokens_page()]);
        }
    }

    fn proxies_full(&mut self, initiator: usize) {
        self.lone_t_row(initiator, 1);
        let token = self.token_for(initiator, 1);
        let mut tries = 0;
        while self.c.enabled && self.c.proxy_luns.len() < 32 && tries < 40 {
            let user = self.any_initiator();
            let free = lun(self.free_lun(user));
            self.assign_at(user, token, free);
            tries += 1;
        }
        let user = self.any_initiator();
        let free = lun(self.free_lun(user));
        self.assign_at(user, token, free);
        let malformed = self.malformed_lun();
        self.assign_at(user, token, malformed);
        self.assign_at(user, token ^ 1, malformed);
        self.release(user);
        self.assign_at(user, token, free);
        if self.rng.below(4) > 0 {
            self.out(initiator, 7, &token.to_be_bytes());
        }
    }

    /// Each way to end a token while proxy LUNs stand on it.
    fn revoked_with_proxies(&mut self, initiator: usize) {
        self.lone_t_row(initiator, 0);
        let (token, twin) = (self.token_for(initiator, 0), self.token_for(initiator, 0));
        for user in 0..self.initiators().min(3) {
            let free = lun(self.free_lun(user));
            self.assign_at(user, token, free);
            let free = lun(self.free_lun(user));
            let either = [token, twin][self.rng.below(2)];
            self.assign_at(user, either, free);
        }
        let at = lun(self.home(0));
        if self.rng.once_in(2) {
            let malformed = self.malformed(self.home(0));
            self.out(initiator, 8, &malformed.to_be_bytes());
            self.say("reach 4096");
        }
        match self.rng.below(5) {
            0 => self.out(initiator, 8, &at.to_be_bytes()),
            1 => self.send_pages(vec![tokens_page(&[token, 0, token])]),
            2 => self.send_pages(vec![all_tokens_page(), all_tokens_page()]),
            3 => self.out((initiator + 1) % self.initiators(), 7, &token.to_be_bytes()),
            _ => self.out(initiator, 7, &token.to_be_bytes()),
        }
        self.reach();
        let user = self.any_initiator();
        let free = lun(self.free_lun(user));
        self.assign_at(user, token, free);
        if self.rng.once_in(3) {
            self.out(initiator, 7, &token.to_be_bytes());
        }
        self.request_with(initiator, at, token);
        self.reach();
    }

    /// One LUN as proxy LUN of two initiators: each has its own.
    fn one_lun_of_two(&mut self, initiator: usize) {
        let other = (initiator + 1) % self.initiators();
        self.lone_t_row(initiator, 0);
        let token = self.token_for(initiator, 0);
        let free = lun(self.free_lun(initiator));
        self.assign_at(initiator, token, free);
        self.assign_at(other, token, free);
        let second = lun(self.free_lun(other));
        self.assign_at(other, token, second);
        self.out(other, 0x0a, &free.to_be_bytes());
        self.say("reach 4096");
        self.say(&format!("route {initiator} {free:016x}"));
        self.say(&format!("route {other} {free:016x}"));
        self.out(other, 0x0a, &free.to_be_bytes());
    }

    /// A token outlives its requester's own access, by whatever LUN it was got.
    fn token_outlives(&mut self, initiator: usize) {
        self.lone_t_row(initiator, 0);
        let at = self.home(0);
        let first = self.token_for(initiator, 0);
        let user = self.any_initiator();
        let free = lun(self.free_lun(user));
        self.assign_at(user, first, free);
        let named = self.transport(initiator);
        // The LUN named opens another unit now; the token's unit stays.
        let moved = [self.luacd(at, 1), self.luacd(at.wrapping_add(9), 0)];
        self.send_pages(vec![grant_page(named, false, &moved)]);
        self.say(&format!("route {user} {free:016x}"));
        self.say("reach 4096");
        let second = self.new_number();
        self.request_with(initiator, lun(at.wrapping_add(9)), second);
        self.send_pages(vec![grant_page(named, false, &[])]);
        self.say(&format!("route {user} {free:016x}"));
        self.out(initiator, 8, &lun(at).to_be_bytes());
        self.report(initiator);
        self.say(&format!("route {user} {free:016x}"));
    }
}
