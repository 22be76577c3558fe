//! The bytes of REPORT ACL and of the reach list.

use crate::bytes::lun_bytes;
use crate::rows::rows;
use crate::state::{Ace, Coordinator, Identifier, Luacd};

/// REPORT ACL in full. While disabled every table is empty, so what comes out
/// is the header alone.
pub fn report_acl(c: &Coordinator) -> Vec<u8> {
    let mut after = Vec::new();
    put(&mut after, c.generation(), 4);
    for (id, ace) in &c.acl {
        put_ace(&mut after, c, id, ace);
    }
    if !c.tokens.is_empty() {
        put_tokens(&mut after, c);
    }
    with_length(&after)
}

fn put_ace(out: &mut Vec<u8>, c: &Coordinator, id: &Identifier, ace: &Ace) {
    let (code, luacds) = match ace {
        Ace::List(luacds) => (0, luacds.as_slice()),
        Ace::Everything => (1, &[][..]),
    };
    put(out, code, 1);
    put(out, 0, 1);
    put(out, 28 + 20 * luacds.len() as u64, 2);
    put(out, 0, 1);
    put_identifier(out, id);
    let mut by_lun: Vec<&Luacd> = luacds.iter().collect();
    by_lun.sort();
    for luacd in by_lun {
        put(out, 0, 4);
        out.extend(lun_bytes(luacd.lun));
        put_default_lun(out, c, luacd.unit);
    }
}

/// Type, length and the 24 bytes; an AccessID's last eight are zero.
fn put_identifier(out: &mut Vec<u8>, id: &Identifier) {
    let (kind, bytes) = match id {
        Identifier::AccessId(bytes) => (0, bytes.as_slice()),
        Identifier::TransportId(bytes) => (1, bytes.as_slice()),
    };
    put(out, kind, 1);
    put(out, 24, 2);
    out.extend(bytes);
    put(out, 0, 24 - bytes.len());
}

fn put_tokens(out: &mut Vec<u8>, c: &Coordinator) {
    put(out, 2, 1);
    put(out, 0, 1);
    put(out, 20 * c.tokens.len() as u64, 2);
    for (number, token) in &c.tokens {
        put(out, 0, 4);
        put(out, *number, 8);
        put_default_lun(out, c, token.unit);
    }
}

fn put_default_lun(out: &mut Vec<u8>, c: &Coordinator, unit: usize) {
    let nn = c.default_luns.get(unit).copied().unwrap_or(0);
    out.extend(lun_bytes(nn));
}

/// The reach list in full.
pub fn reach_list(c: &Coordinator) -> Vec<u8> {
    let mut all: Vec<_> = (0..c.transport_ids.len())
        .flat_map(|initiator| rows(c, initiator))
        .collect();
    all.sort();
    let mut after = vec![1, u8::from(c.enabled)];
    put(&mut after, all.len() as u64, 2);
    for row in all {
        put(&mut after, row.initiator as u64, 1);
        put(&mut after, u64::from(row.lun), 1);
        put(&mut after, row.unit as u64, 1);
        after.push(row.ground.letter());
    }
    with_length(&after)
}

fn with_length(after: &[u8]) -> Vec<u8> {
    let mut all = Vec::with_capacity(after.len() + 4);
    put(&mut all, after.len() as u64, 4);
    all.extend(after);
    all
}

/// The last `size` bytes of a number, big-endian; zeros before them if the size
/// is over eight.
fn put(out: &mut Vec<u8>, value: u64, size: usize) {
    let bytes = value.to_be_bytes();
    out.extend(std::iter::repeat_n(0, size.saturating_sub(8)));
    out.extend(&bytes[8 - size.min(8)..]);
}
