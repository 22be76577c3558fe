//! MANAGE ACL lists: right ones, and each malformation of the six phases.

use super::wire::{
    all_tokens_page, descriptor, grant_all_page, grant_page, lun, page, tokens_page, Named, Sketch,
};
use super::Maker;

impl Maker {
    /// A header that passes, with no pages yet.
    pub(super) fn right_header(&mut self) -> Sketch {
        let new_key = match self.rng.below(12) {
            0..=2 => self.rng.next(),
            3 => 0,
            _ => self.c.key,
        };
        Sketch {
            key: self.c.key,
            new_key,
            flush: false,
            generation: u32::from(self.c.enabled),
            pages: Vec::new(),
            cut: 0,
        }
    }

    pub(super) fn send(&mut self, sketch: &Sketch) {
        let mut list = sketch.bytes();
        if self.rng.once_in(5) && list.len() >= 28 {
            self.reserved_header_bytes(&mut list);
        }
        let initiator = self.any_initiator();
        self.out(initiator, 0, &list);
    }

    fn reserved_header_bytes(&mut self, list: &mut [u8]) {
        for at in [0, 1, 2, 3, 20, 22, 23] {
            list[at] = self.rng.byte();
        }
        list[21] |= self.rng.byte() & 0x7f;
    }

    /// The pages with a right header: the usual way to send some.
    pub(super) fn send_pages(&mut self, pages: Vec<Vec<u8>>) {
        let mut sketch = self.right_header();
        sketch.pages = pages;
        self.send(&sketch);
    }

    pub(super) fn access(&mut self, n: usize) -> Named {
        let id = self.ids.get(n % self.ids.len().max(1)).copied();
        let mut bytes = [0; 24];
        bytes[..16].copy_from_slice(&id.unwrap_or_default());
        if self.rng.once_in(4) {
            let tail = self.rng.next();
            bytes[16..].copy_from_slice(&tail.to_be_bytes());
        }
        (0, bytes)
    }

    pub(super) fn transport(&self, initiator: usize) -> Named {
        let id = self.c.transport_ids.get(initiator).copied();
        (1, id.unwrap_or_default())
    }

    fn any_named(&mut self) -> Named {
        match self.rng.below(8) {
            0..=2 => {
                let n = self.rng.below(self.ids.len());
                self.access(n)
            }
            3 => {
                let n = self.rng.below(200);
                (1, self.transport_id(n))
            }
            _ => {
                let initiator = self.any_initiator();
                self.transport(initiator)
            }
        }
    }

    /// A right LUACD for a unit at its home LUN.
    pub(super) fn at_home(&self, unit: usize) -> [u8; 20] {
        self.luacd(self.home(unit), unit)
    }

    pub(super) fn luacd(&self, nn: u8, unit: usize) -> [u8; 20] {
        let default = self.c.default_luns.get(unit).copied().unwrap_or(0);
        descriptor(lun(nn), lun(default))
    }

    /// A few LUACDs; some overrule each other, some reserved bytes are set.
    pub(super) fn some_luacds(&mut self) -> Vec<[u8; 20]> {
        if self.units() > 2 && self.rng.once_in(12) {
            return self.chained_luacds();
        }
        let count = 1 + self.rng.below(3);
        let mut luacds = Vec::new();
        for _ in 0..count.min(self.units()) {
            let unit = self.rng.below(self.units());
            let nn = match self.rng.below(12) {
                0 => self.some_home(),
                1 => self.rng.byte(),
                _ => self.home(unit),
            };
            let mut luacd = self.luacd(nn, unit);
            if self.rng.once_in(6) {
                luacd[1..4].fill(self.rng.byte());
            }
            luacds.push(luacd);
        }
        luacds
    }

    /// The second overrules the first and is overruled by the third.
    fn chained_luacds(&self) -> Vec<[u8; 20]> {
        let (one, two) = (self.home(0), self.home(2));
        let chain = [self.luacd(one, 1), self.luacd(one, 2), self.luacd(two, 2)];
        chain.to_vec()
    }

    /// A page that passes phases 1 to 4.
    pub(super) fn some_page(&mut self) -> Vec<u8> {
        let named = self.any_named();
        let keeps = self.rng.once_in(2);
        let mut page = match self.rng.below(12) {
            0 => grant_all_page(named, keeps),
            1 | 2 => grant_page(named, keeps, &[]),
            3 => {
                let tokens = self.some_tokens();
                tokens_page(&tokens)
            }
            4 if self.rng.once_in(3) => all_tokens_page(),
            _ => grant_page(named, keeps, &self.some_luacds()),
        };
        if self.rng.once_in(6) {
            page[1] = self.rng.byte();
            if page[0] < 2 {
                page[4] |= self.rng.byte() & 0x7f;
            }
        }
        page
    }

    /// Live tokens, ended ones, twice the same, zero, or none.
    fn some_tokens(&mut self) -> Vec<u64> {
        let live: Vec<u64> = self.c.tokens.keys().copied().collect();
        let count = self.rng.below(4);
        (0..count)
            .filter_map(|_| match self.rng.below(6) {
                0 => Some(0),
                1 => self.alike_number(&live),
                2 => self.rng.pick(&self.issued),
                _ => self.rng.pick(&live),
            })
            .collect()
    }

    /// A TransportID grant for each of the first initiators.
    pub(super) fn grants_for_all(&mut self) -> Vec<Vec<u8>> {
        let mut pages = Vec::new();
        for initiator in 0..self.initiators().min(4) {
            let luacds = self.some_luacds();
            pages.push(grant_page(self.transport(initiator), false, &luacds));
        }
        if self.units() == 0 {
            pages.push(grant_all_page(self.access(0), false));
        } else if self.rng.once_in(2) {
            let unit = self.rng.below(self.units());
            let (named, luacd) = (self.access(0), self.at_home(unit));
            pages.push(grant_page(named, false, &[luacd]));
        }
        pages
    }

    /// A list that passes phases 1 to 4, and mostly the rest.
    pub(super) fn good_list(&mut self) -> Sketch {
        let mut sketch = self.right_header();
        sketch.flush = self.rng.once_in(8);
        let count = self.rng.below(5);
        let mut named: Vec<Vec<u8>> = Vec::new();
        for _ in 0..count {
            let page = self.some_page();
            if page[0] < 2 {
                let compared = if page[5] == 0 { 24 } else { 32 };
                let id = page[5..compared].to_vec();
                if named.contains(&id) {
                    continue;
                }
                named.push(id);
            }
            sketch.pages.push(page);
        }
        sketch
    }

    pub(super) fn manage(&mut self) {
        let mut sketch = self.good_list();
        match self.rng.below(10) {
            0..=3 => self.spoil(&mut sketch),
            4 => self.spoil_twice(&mut sketch),
            _ => {}
        }
        self.send(&sketch);
    }

    /// Faults of two phases, so that their order shows.
    fn spoil_twice(&mut self, sketch: &mut Sketch) {
        match self.rng.below(4) {
            0 => {
                sketch.key ^= 2;
                self.spoil_end(sketch);
            }
            1 => {
                sketch.key ^= 1 << 40;
                self.spoil_head(sketch);
            }
            2 => {
                sketch.generation = 3;
                self.spoil_luacd(sketch);
            }
            _ => {
                self.spoil(sketch);
                self.spoil(sketch);
            }
        }
    }

    /// A grant page of some initiator or AccessID to spoil, put anywhere.
    pub(super) fn with_page(&mut self, sketch: &mut Sketch, page: Vec<u8>) {
        let at = self.rng.below(sketch.pages.len() + 1);
        sketch.pages.insert(at, page);
    }

    /// One fault of one of the phases 1 to 5.
    fn spoil(&mut self, sketch: &mut Sketch) {
        match self.rng.below(12) {
            0 | 1 => self.spoil_end(sketch),
            2 => sketch.key = self.wrong_key(),
            3 => self.spoil_generation(sketch),
            4 => self.spoil_head(sketch),
            5 => self.spoil_code(sketch),
            6 | 7 => self.spoil_length(sketch),
            8 => self.spoil_by_twins(sketch),
            _ => self.spoil_luacd(sketch),
        }
    }

    /// Phase 1: the end of the list is cut, or a page says more than there is.
    pub(super) fn spoil_end(&mut self, sketch: &mut Sketch) {
        if self.rng.once_in(2) {
            let head = [self.rng.byte() & 3, 0, 0];
            let left = 1 + self.rng.below(3);
            sketch.pages.push(head[..left].to_vec());
            return;
        }
        let page = match self.rng.below(4) {
            0 => tokens_page(&[self.rng.next()]),
            1 => page(self.rng.byte(), &[0; 9]),
            _ => grant_page(self.any_named(), false, &self.some_luacds()),
        };
        sketch.cut = 1 + self.rng.below(page.len() - 4);
        sketch.pages.push(page);
    }

    /// Phase 3: another generation, alike in some of its bytes.
    pub(super) fn spoil_generation(&mut self, sketch: &mut Sketch) {
        let right = sketch.generation;
        let near = right | 0x100 << [0, 8, 16][self.rng.below(3)];
        sketch.generation = match self.rng.below(4) {
            0 => 1 - right.min(1),
            1 => [2, u32::MAX][self.rng.below(2)],
            _ => near,
        };
    }

    /// Phase 3: a right page but for its code, or one without bytes.
    pub(super) fn spoil_code(&mut self, sketch: &mut Sketch) {
        if self.rng.once_in(4) {
            let code = [4, 5, 0x10, 0x7f, 0x84, 0xff][self.rng.below(6)];
            return self.with_page(sketch, page(code, &[]));
        }
        let named = self.any_named();
        let mut bad = match self.rng.below(4) {
            0 => grant_all_page(named, true),
            1 => tokens_page(&self.some_tokens()),
            2 => all_tokens_page(),
            _ => grant_page(named, true, &self.some_luacds()),
        };
        bad[0] |= [0x80, 0x80, 0x80, 0x40, 0x10, 0x04][self.rng.below(6)];
        self.with_page(sketch, bad);
    }

    /// Phase 3: what stands in a page's head.
    pub(super) fn spoil_head(&mut self, sketch: &mut Sketch) {
        let named = self.any_named();
        let mut bad = if self.rng.once_in(3) {
            grant_all_page(named, false)
        } else {
            grant_page(named, false, &self.some_luacds())
        };
        match self.rng.below(5) {
            0 => bad[0] = [4, 5, 0xef, 0xf0, 0xff][self.rng.below(5)],
            1 => bad[5] = [2, 0x7f, 0x80 | bad[5], 0x10 | bad[5], 0xff][self.rng.below(5)],
            2 => bad[6] = 1 + self.rng.byte() % 255,
            3 => bad[7] = [0, 16, 23, 25, 44][self.rng.below(5)],
            _ => {
                bad[5] = 1;
                bad[8] = [2, 3, 0x80, 0xff][self.rng.below(4)];
            }
        }
        self.with_page(sketch, bad);
    }

    /// Phase 3: a page length that its code does not allow.
    pub(super) fn spoil_length(&mut self, sketch: &mut Sketch) {
        let code = self.rng.below(4) as u8;
        let length = match code {
            0 => [0, 4, 27, 29, 38, 47, 49][self.rng.below(7)],
            1 => [0, 27, 29, 48][self.rng.below(4)],
            2 => [1, 7, 9, 12][self.rng.below(4)],
            _ => [1, 4, 8][self.rng.below(3)],
        };
        let mut body = vec![0; length];
        if code < 2 && length >= 4 {
            body[3] = 24;
            body[1] = self.rng.below(2) as u8;
        }
        self.with_page(sketch, page(code, &body));
    }

    /// Phase 3: two grant pages with one type and identifier.
    fn spoil_by_twins(&mut self, sketch: &mut Sketch) {
        let n = self.rng.below(self.ids.len());
        let initiator = self.any_initiator();
        let twins = if self.rng.once_in(2) {
            [self.access(n), self.access(n)]
        } else {
            [self.transport(initiator), self.transport(initiator)]
        };
        for named in twins {
            let page = match self.rng.below(3) {
                0 => grant_all_page(named, true),
                1 => grant_page(named, true, &[]),
                _ => grant_page(named, true, &self.some_luacds()),
            };
            self.with_page(sketch, page);
        }
    }

    /// Phases 3 to 5: one descriptor of a page, overruled or not.
    pub(super) fn spoil_luacd(&mut self, sketch: &mut Sketch) {
        let mut luacds = self.some_luacds();
        let unit = self.rng.below(self.units());
        let good = self.at_home(unit);
        let mut bad = good;
        match self.rng.below(5) {
            0 => bad[0] = [1, 0xef, 0xf0, 0xff][self.rng.below(4)],
            1 | 2 => {
                let lun = self.malformed_lun();
                bad[4..12].copy_from_slice(&lun.to_be_bytes());
            }
            3 => bad[13] = bad[13].wrapping_add(0x80),
            // A unit's default LUN but for a byte that must be zero.
            _ => bad[[12, 14, 15, 16, 17, 18, 19][self.rng.below(7)]] = 1,
        }
        luacds.push(bad);
        if self.rng.once_in(2) {
            luacds.push(good);
        }
        let named = self.any_named();
        self.with_page(sketch, grant_page(named, false, &luacds));
    }
}
