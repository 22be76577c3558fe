//! The coordinator's calls, and the order in which a command is judged:
//! refusals, operation code, service action, lengths, then as each command says.

use crate::bytes::number;
use crate::commands;
use crate::fault::Fault;
use crate::manage::{manage, HEADER};
use crate::report::{reach_list, report_acl};
use crate::rows;
use crate::setup::{self, Broken};
use crate::state::Coordinator;

#[derive(Clone, PartialEq, Eq, Debug)]
pub struct Command {
    pub initiator: u64,
    pub cdb: Vec<u8>,
    pub list: Vec<u8>,
    pub random: u64,
}

/// The supported service actions.
#[derive(Clone, Copy, PartialEq, Eq, Debug)]
pub enum Action {
    ReportAcl,
    RequestProxyToken,
    ManageAcl,
    Disable,
    Enroll,
    Cancel,
    RevokeProxyToken,
    RevokeAllProxyTokens,
    AssignProxyLun,
    ReleaseProxyLun,
}

/// What a call comes back with. `Good` counts the bytes delivered.
#[derive(Clone, Copy, PartialEq, Eq, Debug)]
pub enum Outcome {
    Good(usize),
    Check(Fault),
    Refused(u8),
}

/// The operation code's service action, or the fault.
pub fn action_of(cdb: &[u8]) -> Result<Action, Fault> {
    let service_action = cdb[1] & 0x1f;
    match (cdb[0], service_action) {
        (0x86, 0x00) => Ok(Action::ReportAcl),
        (0x86, 0x04) => Ok(Action::RequestProxyToken),
        (0x87, 0x00) => Ok(Action::ManageAcl),
        (0x87, 0x01) => Ok(Action::Disable),
        (0x87, 0x02) => Ok(Action::Enroll),
        (0x87, 0x03) => Ok(Action::Cancel),
        (0x87, 0x07) => Ok(Action::RevokeProxyToken),
        (0x87, 0x08) => Ok(Action::RevokeAllProxyTokens),
        (0x87, 0x09) => Ok(Action::AssignProxyLun),
        (0x87, 0x0a) => Ok(Action::ReleaseProxyLun),
        (0x86 | 0x87, _) => Err(Fault::ServiceAction),
        _ => Err(Fault::OperationCode),
    }
}

/// A refused setup leaves a coordinator without initiators and units.
pub fn setup(c: &mut Coordinator, initiators: &[u8], units: &[u8]) -> Result<(), Broken> {
    let made = setup::setup(initiators, units);
    let broken = made.as_ref().err().copied();
    *c = made.unwrap_or_default();
    broken.map_or(Ok(()), Err)
}

pub fn command(c: &mut Coordinator, call: &Command, lent: &mut [u8]) -> Outcome {
    let Some(initiator) = initiator(c, call.initiator) else {
        return Outcome::Refused(3);
    };
    if call.cdb.len() != 16 {
        return Outcome::Refused(4);
    }
    if call.list.len() as u64 != list_length(&call.cdb) {
        return Outcome::Refused(5);
    }
    let (next, bytes) = match decide(c, initiator, call) {
        Ok(decided) => decided,
        Err(fault) => return Outcome::Check(fault),
    };
    if lent.len() < bytes.len() {
        return Outcome::Refused(6);
    }
    *c = next;
    deliver(&bytes, lent)
}

pub fn link_event(c: &mut Coordinator, initiator_number: u64) -> Outcome {
    let Some(initiator) = initiator(c, initiator_number) else {
        return Outcome::Refused(3);
    };
    c.turn_pending(initiator);
    Outcome::Good(0)
}

/// The unit that a LUN opens, in place of a count.
pub fn route(c: &Coordinator, initiator_number: u64, lun: &[u8]) -> Outcome {
    let Some(initiator) = initiator(c, initiator_number) else {
        return Outcome::Refused(3);
    };
    match rows::route(c, initiator, lun) {
        Ok(unit) => Outcome::Good(unit),
        Err(fault) => Outcome::Check(fault),
    }
}

pub fn reach(c: &Coordinator, lent: &mut [u8]) -> Outcome {
    let bytes = reach_list(c);
    if lent.len() < bytes.len() {
        return Outcome::Refused(6);
    }
    deliver(&bytes, lent)
}

fn deliver(bytes: &[u8], lent: &mut [u8]) -> Outcome {
    lent[..bytes.len()].copy_from_slice(bytes);
    Outcome::Good(bytes.len())
}

pub fn initiator(c: &Coordinator, number: u64) -> Option<usize> {
    let index = usize::try_from(number).ok()?;
    (index < c.transport_ids.len()).then_some(index)
}

/// Bytes 10-13 of OUT; no list may come with any other operation code.
pub fn list_length(cdb: &[u8]) -> u64 {
    if cdb[0] == 0x87 {
        number(&cdb[10..14])
    } else {
        0
    }
}

/// The next state and the bytes to deliver.
fn decide(c: &Coordinator, initiator: usize, call: &Command) -> Decision {
    let action = action_of(&call.cdb)?;
    match action {
        Action::ReportAcl => decide_report(c, &call.cdb),
        Action::RequestProxyToken => decide_request(c, initiator, call),
        _ => Ok((decide_out(c, initiator, action, &call.list)?, Vec::new())),
    }
}

type Decision = Result<(Coordinator, Vec<u8>), Fault>;

fn decide_report(c: &Coordinator, cdb: &[u8]) -> Decision {
    if c.enabled && number(&cdb[2..10]) != c.key {
        return Err(Fault::WrongKey);
    }
    let mut bytes = report_acl(c);
    let allocation = usize::try_from(number(&cdb[10..14])).unwrap_or(usize::MAX);
    bytes.truncate(allocation);
    Ok((c.clone(), bytes))
}

fn decide_request(c: &Coordinator, initiator: usize, call: &Command) -> Decision {
    if number(&call.cdb[10..14]) < 8 {
        return Err(Fault::ShortAllocation);
    }
    if !c.enabled {
        return Ok((c.clone(), Vec::new()));
    }
    let next = commands::request(c, initiator, &call.cdb[2..10], call.random)?;
    Ok((next, call.random.to_be_bytes().to_vec()))
}

fn decide_out(
    c: &Coordinator,
    initiator: usize,
    action: Action,
    list: &[u8],
) -> Result<Coordinator, Fault> {
    check_length(action, list.len())?;
    let no_action = list.is_empty() && action != Action::Cancel;
    if no_action {
        return Ok(c.clone());
    }
    match action {
        Action::ManageAcl => manage(c, list),
        Action::AssignProxyLun => commands::assign(c, initiator, list),
        _ if !c.enabled => Ok(c.clone()),
        Action::Disable => commands::disable(c, list),
        Action::Enroll => commands::enroll(c, initiator, list),
        Action::Cancel => commands::cancel(c, initiator),
        Action::RevokeProxyToken => commands::revoke(c, initiator, list),
        Action::RevokeAllProxyTokens => commands::revoke_all(c, initiator, list),
        Action::ReleaseProxyLun => commands::release(c, initiator, list),
        // IN commands are decided elsewhere and never come here.
        Action::ReportAcl | Action::RequestProxyToken => Err(Fault::ServiceAction),
    }
}

/// H: length 0 is always right, and the only right one for CANCEL.
fn check_length(action: Action, length: usize) -> Result<(), Fault> {
    let right = match action {
        Action::Cancel if length > 0 => return Err(Fault::CancelWithList),
        _ if length == 0 => true,
        Action::ManageAcl => length >= HEADER,
        Action::Disable => length == 12,
        Action::Enroll => length == 24,
        Action::AssignProxyLun => length == 16,
        _ => length == 8,
    };
    if right {
        Ok(())
    } else {
        Err(Fault::ListLength)
    }
}
