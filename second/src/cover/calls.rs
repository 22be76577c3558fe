//! Commands in general; enrolments and DISABLE.

use super::{names, Call, Tally};
use crate::coordinator::{action_of, initiator, list_length, Action, Command, Outcome};
use crate::fault::Fault;
use crate::ground::Ground;
use crate::pages::leading;
use crate::rows::rows;
use crate::state::{AccessId, Ace, Coordinator, Enrolment, Identifier};

/// Refusals 3 to 5, operation code and service action.
pub fn early(c: &Coordinator, command: &Command, outcome: &Outcome, tally: &mut Tally) {
    let short = command.cdb.len() != 16;
    match outcome {
        Outcome::Refused(3) => {
            tally.count("refused.3.command");
            tally.count_if(short, "refused.3.before-4");
            let miscounted = !short && command.list.len() as u64 != list_length(&command.cdb);
            tally.count_if(miscounted, "refused.3.before-5");
        }
        Outcome::Refused(4) => {
            tally.count("refused.4");
            tally.count_if(!command.list.is_empty(), "refused.4.before-5");
        }
        Outcome::Refused(5) => refused_5(command, tally),
        Outcome::Check(Fault::OperationCode) => tally.count("code.operation-code.20h/00h"),
        Outcome::Check(Fault::ServiceAction) => {
            let out = command.cdb[0] == 0x87;
            let way = if out { "out" } else { "in" };
            tally.count(format!("code.service-action.{way}.24h/00h"));
            tally.count_if(!c.enabled, "code.service-action.off.24h/00h");
        }
        _ => {}
    }
    let pending = initiator(c, command.initiator)
        .and_then(|initiator| c.enrolments.get(initiator))
        .is_some_and(|e| matches!(e, Enrolment::Pending(_)));
    let good = matches!(outcome, Outcome::Good(_));
    tally.count_if(pending && good, "pending.good-command");
}

fn refused_5(command: &Command, tally: &mut Tally) {
    match action_of(&command.cdb) {
        Err(Fault::OperationCode) => tally.count("refused.5.operation-code"),
        Err(_) => tally.count("refused.5.service-action"),
        Ok(_) if command.cdb[0] == 0x87 => tally.count("refused.5.out"),
        Ok(_) => tally.count("refused.5.in"),
    }
}

/// Codes, faults, GOOD and reserved bits of every supported command.
pub fn any(call: &Call, tally: &mut Tally) {
    let name = names::action(call.action);
    let on = names::on(call.before.enabled);
    let is_out = call.command.cdb[0] == 0x87;
    let empty = is_out && call.command.list.is_empty() && call.action != Action::Cancel;
    match call.outcome {
        Outcome::Good(_) if empty => {
            tally.count(format!("zero.{name}.{on}"));
            tally.count("mistake.no-action-as-grant");
        }
        Outcome::Good(_) => {
            tally.count(format!("good.{name}.{on}"));
            count_reserved(&call.command.cdb, is_out, tally);
        }
        Outcome::Check(fault) => {
            tally.count(format!("code.{name}.{on}.{}", names::code(fault)));
            tally.count(format!("fault.{}", names::fault(fault)));
            let another = matches!(call.command.list.len(), 8 | 12 | 16 | 24);
            let wrong = fault == Fault::ListLength;
            tally.count_if(another && wrong, "fault.list-length.of-another");
            let header_cut = call.command.list.len() == 27;
            tally.count_if(header_cut && wrong, "fault.list-length.27");
        }
        Outcome::Refused(number) => tally.count(format!("refused.{number}.{name}")),
    }
}

fn count_reserved(cdb: &[u8], is_out: bool, tally: &mut Tally) {
    tally.count_if(cdb[1] & 0xe0 != 0, "reserved.cdb-byte-1");
    tally.count_if(cdb[14] != 0, "reserved.cdb-byte-14");
    tally.count_if(cdb[15] != 0, "reserved.control");
    let middle = cdb[2..10].iter().any(|byte| *byte != 0);
    tally.count_if(is_out && middle, "reserved.out-bytes-2-9");
}

pub fn enroll(call: &Call, tally: &mut Tally) {
    let list = &call.command.list;
    if !call.before.enabled || list.len() != 24 {
        return;
    }
    let id: AccessId = leading(list);
    let held = call.before.enrolments[call.initiator];
    match call.outcome {
        Outcome::Good(_) => enrolled(call, id, held, tally),
        Outcome::Check(Fault::OtherAccessId) => {
            let pending = matches!(held, Enrolment::Pending(_));
            tally.count(if pending {
                "enroll.other.pending"
            } else {
                "enroll.other.enrolled"
            });
            let has_ace = call.before.acl.contains_key(&Identifier::AccessId(id));
            tally.count_if(!has_ace, "enroll.other.without-ace");
        }
        Outcome::Check(Fault::Clash(one, other, clash)) => {
            tally.count(format!("clash.enroll.{}", names::clash(one, other, clash)));
        }
        _ => {}
    }
}

fn enrolled(call: &Call, id: AccessId, held: Enrolment, tally: &mut Tally) {
    let tail = call.command.list[16..].iter().any(|byte| *byte != 0);
    tally.count_if(tail, "enroll.tail-differs");
    let ace = call.before.acl.get(&Identifier::AccessId(id));
    tally.count_if(ace == Some(&Ace::Everything), "enroll.everything");
    match held {
        Enrolment::NotEnrolled => tally.count("enroll.new"),
        Enrolment::Enrolled(_) => tally.count("enroll.again"),
        Enrolment::Pending(_) => {
            tally.count("enroll.from-pending");
            let rows = rows(call.before, call.initiator);
            let beside = rows.iter().any(|row| row.ground == Ground::T);
            tally.count_if(beside, "enroll.from-pending.beside-T");
            if tally.memory.w_counted.remove(&call.initiator) {
                tally.count("enroll.from-pending.w-counted");
                tally.count("mistake.w-as-no-row");
            }
        }
    }
    tally.memory.w_counted.remove(&call.initiator);
}

pub fn cancel(call: &Call, tally: &mut Tally) {
    if !call.before.enabled || !matches!(call.outcome, Outcome::Good(_)) {
        return;
    }
    match call.before.enrolments[call.initiator] {
        Enrolment::NotEnrolled => tally.count("cancel.nothing"),
        Enrolment::Enrolled(_) => tally.count("cancel.enrolled"),
        Enrolment::Pending(_) => tally.count("cancel.pending"),
    }
    let mut tokens = call.before.tokens.values();
    let own = tokens.any(|token| token.requester == call.initiator);
    tally.count_if(own, "cancel.with-tokens");
    tally.memory.w_counted.remove(&call.initiator);
}

pub fn disable(call: &Call, tally: &mut Tally) {
    let c = call.before;
    if c.enabled && !call.after.enabled {
        let enrolled = c.enrolments.iter().any(|e| e.access_id().is_some());
        let all = enrolled && !c.acl.is_empty() && !c.proxy_luns.is_empty();
        tally.count_if(all, "disable.with-everything");
        tally.memory.w_counted.clear();
    }
}
