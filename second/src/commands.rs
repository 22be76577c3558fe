//! The commands that concern one initiator: enrolments, tokens, proxy LUNs; and
//! DISABLE. Each gets a list of the right length, while enabled.

use crate::bytes::{lun_number, number};
use crate::fault::Fault;
use crate::ground::Ground;
use crate::pages::leading;
use crate::rows::{clash_of, rows_at};
use crate::state::{
    AccessId, Coordinator, Enrolment, Identifier, Token, MOST_PROXY_LUNS, MOST_TOKENS,
};

type Next = Result<Coordinator, Fault>;

pub fn disable(c: &Coordinator, list: &[u8]) -> Next {
    if number(&list[4..12]) != c.key {
        return Err(Fault::WrongKey);
    }
    Ok(c.emptied())
}

pub fn enroll(c: &Coordinator, initiator: usize, list: &[u8]) -> Next {
    let id: AccessId = leading(list);
    let mut next = c.clone();
    next.enrolments[initiator] = Enrolment::Enrolled(id);
    match c.enrolments[initiator].access_id() {
        Some(held) if held != id => return Err(Fault::OtherAccessId),
        // W counts in every clash test, so nothing can stand against it now.
        Some(_) => return Ok(next),
        None => {}
    }
    if !c.acl.contains_key(&Identifier::AccessId(id)) {
        return Err(Fault::NoAce);
    }
    match clash_of(&next, initiator) {
        Some(clash) => Err(clash),
        None => Ok(next),
    }
}

pub fn cancel(c: &Coordinator, initiator: usize) -> Next {
    let mut next = c.clone();
    next.enrolments[initiator] = Enrolment::NotEnrolled;
    Ok(next)
}

/// REQUEST PROXY TOKEN; the token is the lent number.
pub fn request(c: &Coordinator, initiator: usize, lun: &[u8], lent: u64) -> Next {
    let named = lun_number(lun).ok_or(Fault::LunForm)?;
    let rows = rows_at(c, initiator, named);
    let own = |ground| matches!(ground, Ground::T | Ground::A);
    let Some(row) = rows.iter().find(|row| own(row.ground)) else {
        let pending = rows.iter().any(|row| row.ground == Ground::W);
        return Err(if pending {
            Fault::Pending
        } else {
            Fault::LunOpensNothing
        });
    };
    if c.tokens.len() >= MOST_TOKENS {
        return Err(Fault::TokensFull);
    }
    if lent == 0 {
        return Err(Fault::NumberZero);
    }
    if c.tokens.contains_key(&lent) {
        return Err(Fault::NumberLive);
    }
    let mut next = c.clone();
    let token = Token {
        unit: row.unit,
        requester: initiator,
        named,
    };
    next.tokens.insert(lent, token);
    Ok(next)
}

/// REVOKE ends the caller's own token; there may be nothing to end.
pub fn revoke(c: &Coordinator, initiator: usize, list: &[u8]) -> Next {
    let token = number(&list[..8]);
    let mut next = c.clone();
    if c.tokens
        .get(&token)
        .is_some_and(|t| t.requester == initiator)
    {
        next.end_token(token);
    }
    Ok(next)
}

/// 08h ends all tokens the caller got by naming that LUN.
pub fn revoke_all(c: &Coordinator, initiator: usize, list: &[u8]) -> Next {
    let mut next = c.clone();
    let Some(named) = lun_number(&list[..8]) else {
        return Ok(next);
    };
    for (number, token) in &c.tokens {
        if token.requester == initiator && token.named == named {
            next.end_token(*number);
        }
    }
    Ok(next)
}

pub fn assign(c: &Coordinator, initiator: usize, list: &[u8]) -> Next {
    let token = number(&list[..8]);
    if !c.tokens.contains_key(&token) {
        return Err(Fault::TokenNotLive);
    }
    let lun = lun_number(&list[8..16]).ok_or(Fault::LunForm)?;
    if let Some(row) = rows_at(c, initiator, lun).first() {
        return Err(Fault::LunTaken(row.ground));
    }
    if c.proxy_luns.len() >= MOST_PROXY_LUNS {
        return Err(Fault::ProxyLunsFull);
    }
    let mut next = c.clone();
    next.proxy_luns.insert((initiator, lun), token);
    Ok(next)
}

pub fn release(c: &Coordinator, initiator: usize, list: &[u8]) -> Next {
    let lun = lun_number(&list[..8]).ok_or(Fault::LunForm)?;
    let mut next = c.clone();
    match next.proxy_luns.remove(&(initiator, lun)) {
        Some(_) => Ok(next),
        None => Err(Fault::NoProxyLun),
    }
}
