//! Tokens and proxy LUNs.

use super::{Call, Tally};
use crate::bytes::{lun_number, number};
use crate::coordinator::Outcome;
use crate::fault::Fault;
use crate::ground::Ground;
use crate::rows::{rows, rows_at, Row};
use crate::state::Coordinator;

pub fn request(call: &Call, tally: &mut Tally) {
    let c = call.before;
    let cdb = &call.command.cdb;
    let named = lun_number(&cdb[2..10]);
    let grounds: Vec<Ground> = match named {
        Some(nn) => rows_at(c, call.initiator, nn)
            .iter()
            .map(|row| row.ground)
            .collect(),
        None => Vec::new(),
    };
    match call.outcome {
        Outcome::Good(8) => requested(call, &grounds, tally),
        Outcome::Check(Fault::Pending) => {
            let beside = grounds.contains(&Ground::X);
            tally.count(if beside {
                "request.W-beside-X"
            } else {
                "request.W-alone"
            });
        }
        Outcome::Check(Fault::LunForm) => {
            tally.count("request.malformed");
            let own = |row: &Row| matches!(row.ground, Ground::T | Ground::A);
            let same = rows_at(c, call.initiator, cdb[3]).iter().any(own);
            tally.count_if(same, "request.malformed.same-nn");
        }
        Outcome::Check(Fault::LunOpensNothing) if grounds.is_empty() => {
            tally.count("request.no-row");
        }
        Outcome::Check(Fault::LunOpensNothing) => tally.count("request.X-alone"),
        _ => {}
    }
    let bad_lun = matches!(
        call.outcome,
        Outcome::Check(Fault::LunForm | Fault::LunOpensNothing | Fault::Pending)
    );
    tally.count_if(bad_lun && c.tokens.len() == 32, "request.full-and-bad-lun");
}

fn requested(call: &Call, grounds: &[Ground], tally: &mut Tally) {
    tally.count_if(grounds.contains(&Ground::T), "request.by-T");
    tally.count_if(grounds.contains(&Ground::A), "request.by-A");
    tally.count_if(grounds.contains(&Ground::W), "request.by-T-beside-W");
    let over = number(&call.command.cdb[10..14]) > 8;
    tally.count_if(over, "request.allocation-over-8");
    let memory = &tally.memory;
    let again = memory.ended.contains(&call.command.random);
    let gone = memory.ended_with_proxies.contains(&call.command.random);
    let after_full = memory.tokens_were_full && call.before.tokens.len() == 31;
    tally.count_if(again, "request.number-again");
    tally.count_if(gone, "request.number-again.proxies-gone");
    tally.count_if(after_full, "request.after-full");
}

fn users(c: &Coordinator, token: u64) -> Vec<usize> {
    let proxies = c.proxy_luns.iter();
    proxies
        .filter(|(_, number)| **number == token)
        .map(|((initiator, _), _)| *initiator)
        .collect()
}

pub fn revoke(call: &Call, tally: &mut Tally) {
    let c = call.before;
    if !c.enabled || call.command.list.len() != 8 {
        return;
    }
    let token = number(&call.command.list);
    match c.tokens.get(&token) {
        Some(live) if live.requester == call.initiator => {
            tally.count("revoke.own");
            let users = users(c, token);
            tally.count_if(!users.is_empty(), "revoke.own.with-proxies");
            tally.count_if(!users.is_empty(), "mistake.proxies-left");
            let others = users.iter().any(|user| *user != call.initiator);
            tally.count_if(others, "revoke.own.with-proxies-of-others");
        }
        Some(_) => tally.count("revoke.others"),
        None if token == 0 => tally.count("revoke.zero"),
        None => {
            let ended = tally.memory.ended.contains(&token);
            tally.count_if(ended, "revoke.ended");
        }
    }
}

pub fn revoke_all(call: &Call, tally: &mut Tally) {
    let c = call.before;
    if !c.enabled || call.command.list.len() != 8 {
        return;
    }
    let Some(named) = lun_number(&call.command.list) else {
        return revoke_all_malformed(call, tally);
    };
    let ended: Vec<u64> = c
        .tokens
        .keys()
        .filter(|number| !call.after.tokens.contains_key(number))
        .copied()
        .collect();
    match ended.len() {
        0 => tally.count("revoke-all.nothing"),
        1 => tally.count("revoke-all.one"),
        _ => tally.count("revoke-all.several"),
    }
    let closed = !ended.is_empty() && rows_at(c, call.initiator, named).is_empty();
    tally.count_if(closed, "revoke-all.lun-closed");
    let proxies = ended.iter().any(|number| !users(c, *number).is_empty());
    tally.count_if(proxies, "revoke-all.with-proxies");
    tally.count_if(proxies, "mistake.proxies-left");
    let units: Vec<usize> = ended.iter().map(|n| c.tokens[n].unit).collect();
    let mut kept = call.after.tokens.values();
    let leaves =
        kept.any(|t| units.contains(&t.unit) && t.requester == call.initiator && t.named != named);
    tally.count_if(leaves, "revoke-all.leaves-other-lun");
}

/// A LUN of another form ends nothing, also where its nn is that of a token.
fn revoke_all_malformed(call: &Call, tally: &mut Tally) {
    tally.count("revoke-all.malformed");
    let list = &call.command.list;
    let mut tokens = call.before.tokens.values();
    if tokens.any(|t| t.requester == call.initiator && t.named == list[1]) {
        tally.count_if(list[0] != 0, "revoke-all.malformed.same-nn.byte-0");
        let rest = list[2..].iter().any(|byte| *byte != 0);
        tally.count_if(rest, "revoke-all.malformed.same-nn.bytes-2-7");
    }
}

pub fn assign(call: &Call, tally: &mut Tally) {
    let (c, list) = (call.before, &call.command.list);
    if !c.enabled || list.len() != 16 {
        return;
    }
    let token = number(&list[..8]);
    let lun = lun_number(&list[8..]);
    let taken = lun.is_none_or(|nn| !rows_at(c, call.initiator, nn).is_empty());
    match call.outcome {
        Outcome::Good(_) => {
            assigned(call, token, tally);
            let mut others = c.proxy_luns.keys();
            let another = others.any(|(_, nn)| Some(*nn) == lun);
            tally.count_if(another, "assign.lun-of-another");
        }
        Outcome::Check(Fault::TokenNotLive) => {
            tally.count_if(tally.memory.ended.contains(&token), "assign.ended-token");
            tally.count_if(taken, "assign.dead-token-and-bad-lun");
        }
        Outcome::Check(Fault::LunTaken(Ground::W)) => {
            tally.memory.w_counted.insert(call.initiator);
        }
        _ => {}
    }
    let full = taken && c.tokens.contains_key(&token) && c.proxy_luns.len() == 32;
    tally.count_if(full, "assign.bad-lun-and-full");
}

fn assigned(call: &Call, token: u64, tally: &mut Tally) {
    let c = call.before;
    let Some(live) = c.tokens.get(&token) else {
        return;
    };
    let own = live.requester == call.initiator;
    tally.count(if own {
        "assign.own-token"
    } else {
        "assign.others-token"
    });
    let twice = rows(c, call.initiator)
        .iter()
        .any(|row| row.ground == Ground::X && row.unit == live.unit);
    tally.count_if(twice, "assign.unit-twice");
    let mut theirs = rows(c, live.requester).into_iter();
    let access = theirs.any(|row| row.unit == live.unit && row.ground != Ground::X);
    tally.count_if(!access, "assign.requester-without-access");
    let after_full = tally.memory.proxies_were_full && c.proxy_luns.len() == 31;
    tally.count_if(after_full, "assign.after-full");
}

pub fn release(call: &Call, tally: &mut Tally) {
    let (c, list) = (call.before, &call.command.list);
    if !c.enabled || list.len() != 8 {
        return;
    }
    let Some(nn) = lun_number(list) else {
        tally.count("release.malformed");
        let own = c.proxy_luns.contains_key(&(call.initiator, list[1]));
        return tally.count_if(own, "release.malformed.same-nn");
    };
    let rows = rows_at(c, call.initiator, nn);
    let other = rows.iter().any(|row| row.ground != Ground::X);
    let mut holders = c.proxy_luns.keys();
    let another = holders.any(|(user, lun)| *user != call.initiator && *lun == nn);
    match call.outcome {
        Outcome::Good(_) => {
            tally.count_if(another, "release.another-has-it-too");
            tally.count("release.good");
            tally.count_if(other, "release.beside-T-or-A");
            tally.count_if(!other, "release.then-closed");
        }
        _ => {
            tally.count_if(other, "release.T-or-A-alone");
            tally.count_if(another, "release.only-another-has-it");
        }
    }
}
