//! Setups, link events, routes, reach lists and reports.

use super::{names, Call, Tally};
use crate::bytes::{lun_number, number};
use crate::coordinator::{initiator, Outcome};
use crate::fault::Fault;
use crate::ground::Ground;
use crate::report::report_acl;
use crate::rows::{rows, rows_at, Row};
use crate::setup::Broken;
use crate::state::{Ace, Coordinator, Enrolment, Identifier};

pub fn setup(
    before: &Coordinator,
    result: &Result<(), Broken>,
    after: &Coordinator,
    tally: &mut Tally,
) {
    let used = before.enabled;
    if let Err(broken) = result {
        tally.count(format!("setup.refused.{}", names::broken(*broken)));
        tally.count_if(used, "setup.refused.over-a-used-one");
        return;
    }
    let (initiators, units) = (after.transport_ids.len(), after.default_luns.len());
    tally.count("setup.good");
    tally.count_if(initiators == 0, "setup.no-initiators");
    tally.count_if(units == 0, "setup.no-units");
    tally.count_if(initiators == 16, "setup.16-initiators");
    tally.count_if(units == 32, "setup.32-units");
    tally.count_if(used, "setup.over-a-used-one");
}

pub fn link(c: &Coordinator, number: u64, outcome: &Outcome, tally: &mut Tally) {
    tally.count_if(*outcome == Outcome::Refused(3), "refused.3.link");
    let Some(initiator) = initiator(c, number) else {
        return;
    };
    if !c.enabled {
        return tally.count("link.off");
    }
    match c.enrolments[initiator] {
        Enrolment::NotEnrolled => tally.count("link.not-enrolled"),
        Enrolment::Enrolled(_) => tally.count("link.enrolled"),
        Enrolment::Pending(_) => tally.count("link.pending"),
    }
    let proxies = c.proxy_luns.keys().any(|(user, _)| *user == initiator);
    tally.count_if(proxies, "link.with-proxies");
}

pub fn route(c: &Coordinator, number: u64, lun: &[u8], outcome: &Outcome, tally: &mut Tally) {
    match outcome {
        Outcome::Refused(_) => return tally.count("refused.3.route"),
        Outcome::Check(fault) => {
            tally.count(format!("code.route.{}", names::code(*fault)));
            tally.count_if(*fault == Fault::Pending, "route.pending");
            tally.count_if(*fault == Fault::NotRouted, "route.nothing");
            tally.count_if(lun_number(lun).is_none(), "route.malformed");
            let same = initiator(c, number).is_some_and(|i| opens(c, i, lun[1]));
            let same = same && lun_number(lun).is_none();
            tally.count_if(same, "route.malformed.same-nn");
        }
        Outcome::Good(_) => {}
    }
    let (Some(initiator), Some(nn)) = (initiator(c, number), lun_number(lun)) else {
        return;
    };
    if matches!(outcome, Outcome::Good(_)) {
        opened_by(&rows_at(c, initiator, nn), tally);
    }
}

fn opens(c: &Coordinator, initiator: usize, nn: u8) -> bool {
    let rows = rows_at(c, initiator, nn);
    rows.iter().any(|row| row.ground != Ground::W)
}

/// The grounds that open a LUN, and those that stand there beside each other.
fn opened_by(rows: &[Row], tally: &mut Tally) {
    let mut letters: Vec<char> = rows.iter().map(|row| names::letter(row.ground)).collect();
    for letter in letters.iter().filter(|letter| **letter != 'W') {
        tally.count(format!("route.{letter}"));
    }
    letters.sort();
    let beside = match letters[..] {
        ['A', 'T'] => "A-beside-T",
        ['A', 'X'] => "X-beside-A",
        ['T', 'X'] => "X-beside-T",
        ['W', 'X'] => "X-beside-W",
        ['T', 'W'] => "T-beside-W",
        ['A', 'T', 'X'] => "X-beside-A-and-T",
        ['T', 'W', 'X'] => "X-beside-T-and-W",
        _ => return,
    };
    tally.count(format!("route.{beside}"));
}

pub fn reach(c: &Coordinator, outcome: &Outcome, lent: &[u8], tally: &mut Tally) {
    let Outcome::Good(delivered) = *outcome else {
        return tally.count("refused.6.reach");
    };
    let initiators = 0..c.transport_ids.len();
    let all: Vec<_> = initiators.flat_map(|i| rows(c, i)).collect();
    for ground in [Ground::A, Ground::O, Ground::T, Ground::W, Ground::X] {
        let any = all.iter().any(|row| row.ground == ground);
        tally.count_if(any, format!("reach.{}", names::letter(ground)));
    }
    tally.count_if(all.is_empty() && c.enabled, "reach.empty-on");
    tally.count_if(all.is_empty() && !c.enabled, "reach.empty-off");
    tally.count_if(lent.len() > delivered, "reach.buffer-longer");
    let moved = |number: &u64| {
        let Some(token) = c.tokens.get(number) else {
            return false;
        };
        let mut now = rows_at(c, token.requester, token.named).into_iter();
        now.any(|row| row.ground != Ground::X && row.unit != token.unit)
    };
    let any_moved = c.proxy_luns.values().any(moved);
    tally.count_if(any_moved, "reach.token-lun-moved");
    let same = |one: usize, other: usize| {
        let (one, other) = (&all[one], &all[other]);
        (one.initiator, one.lun, one.unit) == (other.initiator, other.lun, other.unit)
    };
    let many = (0..all.len()).any(|at| (0..at).any(|before| same(at, before)));
    tally.count_if(many, "reach.grounds-at-one-row");
}

pub fn report(call: &Call, tally: &mut Tally) {
    let allocation = number(&call.command.cdb[10..14]);
    let key = number(&call.command.cdb[2..10]);
    let Outcome::Good(delivered) = call.outcome else {
        let wrong = call.outcome == Outcome::Check(Fault::WrongKey);
        tally.count_if(wrong && allocation == 0, "report.wrong-key.allocation-0");
        return;
    };
    if !call.before.enabled {
        tally.count("report.off");
        tally.count_if(key != 0, "report.off.any-key");
    }
    let whole = report_acl(call.before);
    tally.count_if(allocation > whole.len() as u64, "report.allocation-over");
    let over = allocation > call.lent.len() as u64;
    tally.count_if(over, "report.allocation-over-buffer");
    tally.count_if(call.lent.len() == delivered, "report.buffer-exact");
    tally.count_if(call.lent.len() > delivered, "report.buffer-longer");
    if delivered < whole.len() {
        cut(delivered, &whole, tally);
    } else if call.before.enabled {
        uncut(call.before, tally);
    }
}

/// Where an allocation length cuts a report.
fn cut(delivered: usize, whole: &[u8], tally: &mut Tally) {
    let place = match delivered {
        0 => "0",
        1..=3 => "1-3",
        4 => "4",
        5..=7 => "5-7",
        8 => "8",
        _ => inner_place(delivered, whole),
    };
    tally.count_if(!place.is_empty(), format!("report.cut.{place}"));
    tally.count_if(delivered > 12, "mistake.inner-length-shrunk");
}

/// The part of a page that the cut falls into; none where it ends a page.
fn inner_place(delivered: usize, whole: &[u8]) -> &'static str {
    let mut start = 8;
    while start + 4 <= whole.len() {
        let end = start + 4 + usize::from(whole[start + 2]) * 256 + usize::from(whole[start + 3]);
        if delivered < end {
            return match delivered - start {
                0 => "",
                1..=7 => "page-head",
                _ if whole[start] == 2 => "tokens",
                8..=31 => "identifier",
                _ => "luacd",
            };
        }
        start = end;
    }
    ""
}

/// What a whole report shows.
fn uncut(c: &Coordinator, tally: &mut Tally) {
    tally.count("report.on-whole");
    tally.count_if(c.acl.is_empty() && c.tokens.is_empty(), "report.on-empty");
    tally.count_if(!c.tokens.is_empty(), "report.tokens");
    let access = |id: &&Identifier| matches!(id, Identifier::AccessId(_));
    let ids: Vec<&Identifier> = c.acl.keys().collect();
    let count = ids.iter().filter(|id| access(id)).count();
    tally.count_if(count > 0 && count < ids.len(), "report.both-types");
    // Signed bytes would put the second before the first.
    let mut firsts = ids.iter().filter_map(|id| match id {
        Identifier::AccessId(bytes) => Some(bytes[0]),
        Identifier::TransportId(_) => None,
    });
    let low = firsts.clone().any(|byte| byte < 0x80);
    tally.count_if(
        low && firsts.any(|byte| byte >= 0x80),
        "report.unsigned-order",
    );
    let everything = c.acl.values().any(|ace| *ace == Ace::Everything);
    tally.count_if(everything, "report.everything");
    let all_listed = |ace: &Ace| match ace {
        Ace::List(luacds) => {
            let at_default = |l: &crate::state::Luacd| c.default_luns[l.unit] == l.lun;
            luacds.len() == c.default_luns.len() && luacds.iter().all(at_default)
        }
        Ace::Everything => false,
    };
    tally.count_if(c.acl.values().any(all_listed), "report.all-units-as-list");
}
