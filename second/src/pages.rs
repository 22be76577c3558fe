//! ACE pages: cutting a parameter list into them and reading each one.

use crate::bytes::{lun_number, number};
use crate::fault::Fault;
use crate::setup::valid_transport_id;
use crate::state::{Coordinator, Identifier, Luacd};

const HEAD: usize = 4;
const IDENTIFIER_END: usize = 32;
const DESCRIPTOR: usize = 20;

/// A page that passed phase 3. Descriptors are still raw: their LUNs are
/// looked at in phase 4 only, after every page of the list passed phase 3.
#[derive(Clone, PartialEq, Eq, Debug)]
pub enum Page<'a> {
    Grant {
        id: Identifier,
        keeps: bool,
        descriptors: &'a [u8],
    },
    GrantAll {
        id: Identifier,
        keeps: bool,
    },
    Revoke {
        tokens: Vec<u64>,
    },
    RevokeAll,
}

impl Page<'_> {
    /// The identifier of a grant page (00h or 01h).
    pub fn granted(&self) -> Option<&Identifier> {
        match self {
            Page::Grant { id, .. } | Page::GrantAll { id, .. } => Some(id),
            Page::Revoke { .. } | Page::RevokeAll => None,
        }
    }
}

/// Phase 1: the pages of a list, each with its head. Pages of every code, known
/// or not, must end where the list ends or before.
pub fn cut(mut rest: &[u8]) -> Result<Vec<&[u8]>, Fault> {
    let mut pages = Vec::new();
    while !rest.is_empty() {
        if rest.len() < HEAD {
            return Err(Fault::PageHeadCut);
        }
        let size = HEAD + usize::from(rest[2]) * 256 + usize::from(rest[3]);
        if rest.len() < size {
            return Err(Fault::PageBodyCut);
        }
        let (page, after) = rest.split_at(size);
        pages.push(page);
        rest = after;
    }
    Ok(pages)
}

/// Phase 3 for one page, which `cut` has found whole.
pub fn read(page: &[u8]) -> Result<Page<'_>, Fault> {
    match page[0] {
        0 => read_grant(page),
        1 => read_grant_all(page),
        2 => read_revoke(page),
        3 if page.len() == HEAD => Ok(Page::RevokeAll),
        3 => Err(Fault::PageLength(3)),
        _ => Err(Fault::PageCode),
    }
}

fn read_grant(page: &[u8]) -> Result<Page<'_>, Fault> {
    // A short page has no whole identifier, so its length is judged first.
    if page.len() < IDENTIFIER_END || !(page.len() - IDENTIFIER_END).is_multiple_of(DESCRIPTOR) {
        return Err(Fault::PageLength(0));
    }
    let id = read_identifier(page)?;
    let descriptors = &page[IDENTIFIER_END..];
    if descriptors.chunks(DESCRIPTOR).any(|d| d[0] != 0) {
        return Err(Fault::AccessMode);
    }
    let keeps = keeps(page);
    Ok(Page::Grant {
        id,
        keeps,
        descriptors,
    })
}

fn read_grant_all(page: &[u8]) -> Result<Page<'_>, Fault> {
    if page.len() != IDENTIFIER_END {
        return Err(Fault::PageLength(1));
    }
    let id = read_identifier(page)?;
    let keeps = keeps(page);
    Ok(Page::GrantAll { id, keeps })
}

fn read_revoke(page: &[u8]) -> Result<Page<'_>, Fault> {
    let body = &page[HEAD..];
    if !body.len().is_multiple_of(8) {
        return Err(Fault::PageLength(2));
    }
    let tokens = body.chunks(8).map(number).collect();
    Ok(Page::Revoke { tokens })
}

/// NOCNCL: replacing the ACE keeps the enrolments under it.
fn keeps(page: &[u8]) -> bool {
    page[4] & 0x80 != 0
}

fn read_identifier(page: &[u8]) -> Result<Identifier, Fault> {
    if number(&page[6..8]) != 24 {
        return Err(Fault::IdentifierLength);
    }
    let bytes = &page[8..IDENTIFIER_END];
    match page[5] {
        0 => Ok(Identifier::AccessId(leading(bytes))),
        1 if valid_transport_id(bytes) => Ok(Identifier::TransportId(leading(bytes))),
        1 => Err(Fault::TransportId),
        _ => Err(Fault::IdentifierType),
    }
}

/// The first N bytes; there are always as many.
pub fn leading<const N: usize>(bytes: &[u8]) -> [u8; N] {
    let mut first = [0; N];
    first
        .iter_mut()
        .zip(bytes)
        .for_each(|(to, from)| *to = *from);
    first
}

/// Phase 4 for the descriptors of one page, overruled ones too.
pub fn luacds(c: &Coordinator, descriptors: &[u8]) -> Result<Vec<Luacd>, Fault> {
    descriptors
        .chunks(DESCRIPTOR)
        .map(|d| {
            let lun = lun_number(&d[4..12]).ok_or(Fault::LunForm)?;
            let default = lun_number(&d[12..20]);
            let unit = default.and_then(|nn| c.unit_at_default(nn));
            let unit = unit.ok_or(Fault::NoSuchDefaultLun)?;
            Ok(Luacd { lun, unit })
        })
        .collect()
}

/// A LUACD stands if no later one of its page has its LUN or its default LUN,
/// whether that later one stands itself or not.
pub fn standing(sent: &[Luacd]) -> Vec<Luacd> {
    let overruled = |at: usize, luacd: &Luacd| {
        let mut later = sent[at + 1..].iter();
        later.any(|l| l.lun == luacd.lun || l.unit == luacd.unit)
    };
    let places = sent.iter().enumerate();
    places
        .filter(|(at, luacd)| !overruled(*at, luacd))
        .map(|(_, luacd)| *luacd)
        .collect()
}
