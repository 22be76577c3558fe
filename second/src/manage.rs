//! MANAGE ACL: the six phases over the whole list, and the end state.

use crate::bytes::number;
use crate::fault::Fault;
use crate::pages::{cut, luacds, read, standing, Page};
use crate::rows::clash_of_any;
use crate::state::{Ace, Coordinator, Identifier, MOST_ACES, MOST_LUACDS};

pub const HEADER: usize = 28;

/// The next state, or the fault of the first phase that fails. The list has at
/// least the header.
pub fn manage(c: &Coordinator, list: &[u8]) -> Result<Coordinator, Fault> {
    let parts = cut(&list[HEADER..])?;
    check_key(c, list)?;
    let pages = read_all(c, list, &parts)?;
    check_luns(c, &pages)?;
    let end = end_state(c, list, &pages);
    check_room(c, &pages, &end)?;
    match clash_of_any(&end) {
        Some(clash) => Err(clash),
        None => Ok(end),
    }
}

/// Phase 2.
pub fn check_key(c: &Coordinator, list: &[u8]) -> Result<(), Fault> {
    if c.enabled && number(&list[4..12]) != c.key {
        return Err(Fault::WrongKey);
    }
    Ok(())
}

/// Phase 3.
pub fn read_all<'a>(
    c: &Coordinator,
    list: &[u8],
    parts: &[&'a [u8]],
) -> Result<Vec<Page<'a>>, Fault> {
    if number(&list[24..28]) != c.generation() {
        return Err(Fault::Generation);
    }
    let pages: Vec<Page> = parts
        .iter()
        .map(|part| read(part))
        .collect::<Result<_, _>>()?;
    let granted: Vec<&Identifier> = pages.iter().filter_map(Page::granted).collect();
    let twice = |at: usize| granted[at + 1..].contains(&granted[at]);
    if (0..granted.len()).any(twice) {
        return Err(Fault::TwoGrants);
    }
    Ok(pages)
}

/// Phase 4.
pub fn check_luns(c: &Coordinator, pages: &[Page]) -> Result<(), Fault> {
    for page in pages {
        if let Page::Grant { descriptors, .. } = page {
            luacds(c, descriptors)?;
        }
    }
    Ok(())
}

/// Phase 5. An identifier has one grant page in a list, so the LUACDs of an ACE
/// of the end state are those of one page, or were there before.
pub fn check_room(c: &Coordinator, pages: &[Page], end: &Coordinator) -> Result<(), Fault> {
    if end.acl.len() > MOST_ACES {
        return Err(Fault::TooManyAces);
    }
    if pages.iter().any(|page| stands_in(c, page) > MOST_LUACDS) {
        return Err(Fault::TooManyLuacds);
    }
    Ok(())
}

/// How many LUACDs of a page stand; none where a LUN is wrong.
pub fn stands_in(c: &Coordinator, page: &Page) -> usize {
    match page {
        Page::Grant { descriptors, .. } => granted(c, descriptors).len(),
        _ => 0,
    }
}

fn granted(c: &Coordinator, descriptors: &[u8]) -> Vec<crate::state::Luacd> {
    standing(&luacds(c, descriptors).unwrap_or_default())
}

/// The state after the header and all pages, in order, whatever their size.
pub fn end_state(c: &Coordinator, list: &[u8], pages: &[Page]) -> Coordinator {
    let mut end = c.clone();
    end.key = number(&list[12..20]);
    end.enabled = true;
    if list[21] & 0x80 != 0 {
        end.flush();
    }
    for page in pages {
        apply(&mut end, page);
    }
    end
}

fn apply(c: &mut Coordinator, page: &Page) {
    match page {
        Page::Grant {
            id,
            descriptors: [],
            ..
        } => {
            c.acl.remove(id);
            end_enrolments(c, id);
        }
        Page::Grant {
            id,
            keeps,
            descriptors,
        } => {
            let ace = Ace::List(granted(c, descriptors));
            replace(c, id, *keeps, ace);
        }
        Page::GrantAll { id, keeps } => replace(c, id, *keeps, Ace::Everything),
        Page::Revoke { tokens } => tokens.iter().for_each(|token| c.end_token(*token)),
        Page::RevokeAll => {
            let live: Vec<u64> = c.tokens.keys().copied().collect();
            live.iter().for_each(|token| c.end_token(*token));
        }
    }
}

fn replace(c: &mut Coordinator, id: &Identifier, keeps: bool, ace: Ace) {
    c.acl.insert(*id, ace);
    if !keeps {
        end_enrolments(c, id);
    }
}

fn end_enrolments(c: &mut Coordinator, id: &Identifier) {
    if let Identifier::AccessId(access_id) = id {
        c.end_enrolments_under(access_id);
    }
}
