//! The tables of a coordinator. They are kept in the order of the reports, so
//! that a report is a walk over them.

use std::collections::BTreeMap;

pub const MOST_INITIATORS: usize = 16;
pub const MOST_UNITS: usize = 32;
pub const MOST_ACES: usize = 32;
pub const MOST_LUACDS: usize = 16;
pub const MOST_TOKENS: usize = 32;
pub const MOST_PROXY_LUNS: usize = 32;

pub type AccessId = [u8; 16];
pub type TransportId = [u8; 24];

/// The identifier of an ACE, holding the compared bytes alone. The derived
/// order is the order of REPORT ACL: type first, then the bytes, unsigned.
#[derive(Clone, Copy, PartialEq, Eq, PartialOrd, Ord, Debug)]
pub enum Identifier {
    AccessId(AccessId),
    TransportId(TransportId),
}

#[derive(Clone, Copy, PartialEq, Eq, PartialOrd, Ord, Debug)]
pub struct Luacd {
    pub lun: u8,
    pub unit: usize,
}

/// An ACE holds either a list or everything.
#[derive(Clone, PartialEq, Eq, Debug)]
pub enum Ace {
    List(Vec<Luacd>),
    Everything,
}

#[derive(Clone, Copy, PartialEq, Eq, Debug)]
pub enum Enrolment {
    NotEnrolled,
    Enrolled(AccessId),
    Pending(AccessId),
}

impl Enrolment {
    pub fn access_id(self) -> Option<AccessId> {
        match self {
            Enrolment::NotEnrolled => None,
            Enrolment::Enrolled(id) | Enrolment::Pending(id) => Some(id),
        }
    }
}

/// A live token: what it opens, who asked for it, and by which LUN.
#[derive(Clone, Copy, PartialEq, Eq, Debug)]
pub struct Token {
    pub unit: usize,
    pub requester: usize,
    pub named: u8,
}

#[derive(Clone, PartialEq, Eq, Debug, Default)]
pub struct Coordinator {
    pub transport_ids: Vec<TransportId>,
    /// nn of each unit's default LUN.
    pub default_luns: Vec<u8>,
    pub enabled: bool,
    pub key: u64,
    pub acl: BTreeMap<Identifier, Ace>,
    /// One entry for each initiator.
    pub enrolments: Vec<Enrolment>,
    pub tokens: BTreeMap<u64, Token>,
    /// Token number of each proxy LUN, by initiator and nn.
    pub proxy_luns: BTreeMap<(usize, u8), u64>,
}

impl Coordinator {
    /// Disabled, with every table empty.
    pub fn fresh(transport_ids: Vec<TransportId>, default_luns: Vec<u8>) -> Self {
        let enrolments = vec![Enrolment::NotEnrolled; transport_ids.len()];
        Coordinator {
            transport_ids,
            default_luns,
            enrolments,
            ..Coordinator::default()
        }
    }

    /// What DISABLE leaves: the setup alone.
    pub fn emptied(&self) -> Self {
        Coordinator::fresh(self.transport_ids.clone(), self.default_luns.clone())
    }

    pub fn generation(&self) -> u64 {
        u64::from(self.enabled)
    }

    pub fn unit_at_default(&self, nn: u8) -> Option<usize> {
        self.default_luns.iter().position(|lun| *lun == nn)
    }

    /// A token's end ends its proxy LUNs for everybody.
    pub fn end_token(&mut self, number: u64) {
        self.tokens.remove(&number);
        self.proxy_luns.retain(|_, token| *token != number);
    }

    pub fn end_enrolments_under(&mut self, id: &AccessId) {
        for enrolment in &mut self.enrolments {
            if enrolment.access_id().as_ref() == Some(id) {
                *enrolment = Enrolment::NotEnrolled;
            }
        }
    }

    pub fn turn_pending(&mut self, initiator: usize) {
        if let Some(enrolment) = self.enrolments.get_mut(initiator) {
            if let Enrolment::Enrolled(id) = *enrolment {
                *enrolment = Enrolment::Pending(id);
            }
        }
    }

    /// FLUSH turns every enrolled initiator pending.
    pub fn flush(&mut self) {
        for initiator in 0..self.enrolments.len() {
            self.turn_pending(initiator);
        }
    }
}
