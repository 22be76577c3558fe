//! The rows of an initiator, clashes between them, and what a LUN opens.

use crate::bytes::lun_number;
use crate::fault::Fault;
use crate::ground::{Clash, Ground};
use crate::state::{Ace, Coordinator, Enrolment, Identifier};

/// The derived order is the order of the reach list.
#[derive(Clone, Copy, PartialEq, Eq, PartialOrd, Ord, Debug)]
pub struct Row {
    pub initiator: usize,
    pub lun: u8,
    pub unit: usize,
    pub ground: Ground,
}

/// All rows of one initiator, in no promised order.
pub fn rows(c: &Coordinator, initiator: usize) -> Vec<Row> {
    let mut found = Vec::new();
    let mut add = |pairs: Vec<(u8, usize)>, ground| {
        found.extend(pairs.into_iter().map(|(lun, unit)| Row {
            initiator,
            lun,
            unit,
            ground,
        }));
    };
    if !c.enabled {
        add(all_units(c), Ground::O);
        return found;
    }
    if let Some(id) = c.transport_ids.get(initiator) {
        add(granted(c, &Identifier::TransportId(*id)), Ground::T);
    }
    match c.enrolments.get(initiator) {
        Some(Enrolment::Enrolled(id)) => add(granted(c, &Identifier::AccessId(*id)), Ground::A),
        Some(Enrolment::Pending(id)) => add(granted(c, &Identifier::AccessId(*id)), Ground::W),
        _ => {}
    }
    add(proxied(c, initiator), Ground::X);
    found
}

fn all_units(c: &Coordinator) -> Vec<(u8, usize)> {
    let luns = c.default_luns.iter().copied();
    luns.zip(0..).collect()
}

fn granted(c: &Coordinator, id: &Identifier) -> Vec<(u8, usize)> {
    match c.acl.get(id) {
        None => Vec::new(),
        Some(Ace::List(luacds)) => luacds.iter().map(|l| (l.lun, l.unit)).collect(),
        Some(Ace::Everything) => all_units(c),
    }
}

fn proxied(c: &Coordinator, initiator: usize) -> Vec<(u8, usize)> {
    let own = c.proxy_luns.range((initiator, 0)..=(initiator, u8::MAX));
    own.filter_map(|((_, lun), number)| Some((*lun, c.tokens.get(number)?.unit)))
        .collect()
}

pub fn clash_between(one: &Row, other: &Row) -> Option<Clash> {
    if one.lun == other.lun && one.unit != other.unit {
        return Some(Clash::OneLunTwoUnits);
    }
    let proxy = one.ground == Ground::X || other.ground == Ground::X;
    if !proxy && one.unit == other.unit && one.lun != other.lun {
        return Some(Clash::OneUnitTwoLuns);
    }
    None
}

/// The first clash of one initiator, as the fault it is answered with.
pub fn clash_of(c: &Coordinator, initiator: usize) -> Option<Fault> {
    let rows = rows(c, initiator);
    for (at, one) in rows.iter().enumerate() {
        for other in &rows[at + 1..] {
            if let Some(clash) = clash_between(one, other) {
                return Some(Fault::Clash(one.ground, other.ground, clash));
            }
        }
    }
    None
}

pub fn clash_of_any(c: &Coordinator) -> Option<Fault> {
    (0..c.transport_ids.len()).find_map(|initiator| clash_of(c, initiator))
}

/// The rows of an initiator at one LUN.
pub fn rows_at(c: &Coordinator, initiator: usize, lun: u8) -> Vec<Row> {
    let all = rows(c, initiator);
    all.into_iter().filter(|row| row.lun == lun).collect()
}

/// The route question: the unit that eight bytes of LUN open.
pub fn route(c: &Coordinator, initiator: usize, lun: &[u8]) -> Result<usize, Fault> {
    let nn = lun_number(lun).ok_or(Fault::NotRouted)?;
    let rows = rows_at(c, initiator, nn);
    if let Some(row) = rows.iter().find(|row| row.ground != Ground::W) {
        return Ok(row.unit);
    }
    if rows.is_empty() {
        Err(Fault::NotRouted)
    } else {
        Err(Fault::Pending)
    }
}
