//! MANAGE ACL lists: phases, pages, and what happens on the way.

use super::{names, phases, Call, Tally};
use crate::bytes::{lun_number, number};
use crate::coordinator::Outcome;
use crate::fault::Fault;
use crate::ground::Ground;
use crate::manage::{end_state, read_all, stands_in, HEADER};
use crate::pages::{cut, luacds, read, Page};
use crate::rows::{clash_of_any, rows};
use crate::state::{Ace, Coordinator, Enrolment, Identifier, Luacd, MOST_LUACDS};

pub fn manage(call: &Call, tally: &mut Tally) {
    let list = &call.command.list;
    if list.len() < HEADER {
        return;
    }
    match call.outcome {
        Outcome::Check(fault) => failed(call, list, fault, tally),
        Outcome::Good(_) => accepted(call, list, tally),
        Outcome::Refused(_) => {}
    }
}

fn failed(call: &Call, list: &[u8], fault: Fault, tally: &mut Tally) {
    tally.count(format!("phase.{}", phases::kind_of(fault).0));
    let c = call.before;
    if fault == Fault::Generation {
        tally.count_if(list.len() == HEADER, "fault.generation.page-less");
        let old = !c.enabled && tally.memory.been_on && number(&list[24..28]) == 1;
        tally.count_if(old, "disable.old-generation-after");
    }
    if let Fault::Clash(one, other, clash) = fault {
        tally.count_if(list[21] & 0x80 != 0, "list.flush.not-by-a-clash");
        tally.count(format!("clash.manage.{}", names::clash(one, other, clash)));
        if other == Ground::W {
            remember_w(call, tally);
        }
    }
    phases::count(c, list, fault, tally);
    if fault == Fault::PageBodyCut {
        tally.count_if(
            unknown_code_cut(&list[HEADER..]),
            "fault.page-cut.unknown-code",
        );
    }
    if let Ok(parts) = cut(&list[HEADER..]) {
        finer(&parts, fault, tally);
        if fault == Fault::TooManyAces {
            one_ace_more(c, &parts, tally);
        }
        if fault == Fault::TooManyLuacds {
            let last = parts.last().and_then(|part| read(part).ok());
            let there = last.is_some_and(|page| stands_in(c, &page) > MOST_LUACDS);
            tally.count_if(!there, "fault.17-luacds.not-last-page");
        }
    }
}

/// How a list comes to more ACEs than there is room for.
fn one_ace_more(c: &Coordinator, parts: &[&[u8]], tally: &mut Tally) {
    let pages: Vec<Page> = parts.iter().filter_map(|part| read(part).ok()).collect();
    let new = |page: &&Page| page.granted().is_some_and(|id| !c.acl.contains_key(id));
    for page in pages.iter().filter(new) {
        match page {
            Page::Grant {
                descriptors: [], ..
            } => tally.count("fault.33-aces.beside-removal-of-nothing"),
            Page::GrantAll { .. } => tally.count("fault.33-aces.by-everything"),
            _ => {}
        }
    }
}

/// The pending initiators with T rows: one of them was saved from a clash.
fn remember_w(call: &Call, tally: &mut Tally) {
    for initiator in 0..call.before.transport_ids.len() {
        let pending = matches!(call.before.enrolments[initiator], Enrolment::Pending(_));
        if pending {
            tally.memory.w_counted.insert(initiator);
        }
    }
}

fn unknown_code_cut(mut rest: &[u8]) -> bool {
    while rest.len() >= 4 {
        let size = 4 + usize::from(rest[2]) * 256 + usize::from(rest[3]);
        if rest.len() < size {
            return rest[0] > 3;
        }
        rest = &rest[size..];
    }
    false
}

/// Kinds of phase 3 and 4 faults that share a name.
fn finer(parts: &[&[u8]], fault: Fault, tally: &mut Tally) {
    match fault {
        Fault::PageCode => parts.iter().for_each(|part| page_code(part, tally)),
        Fault::IdentifierType => {
            let top = |part: &&&[u8]| part[0] < 2 && matches!(part.get(5), Some(0x80 | 0x81));
            let any = parts.iter().any(|part| top(&part));
            tally.count_if(any, "fault.identifier-type.top-bit");
        }
        Fault::PageLength(0 | 1) => {
            let short = parts.iter().any(|part| part[0] < 2 && part.len() < 32);
            tally.count_if(short, "fault.page-length-short");
        }
        Fault::TwoGrants => count_twins(parts, tally),
        Fault::AccessMode => {
            let over = parts
                .iter()
                .any(|part| overruled_fault(part, |d| d[0] != 0));
            tally.count_if(over, "fault.access-mode.overruled");
        }
        Fault::NoSuchDefaultLun => {
            let form = |d: &[u8]| lun_number(&d[12..20]).is_none();
            let any = parts.iter().any(|part| any_descriptor(part, form));
            tally.count_if(any, "fault.no-such-default-lun.form");
        }
        Fault::TransportId => {
            let two = |part: &&&[u8]| part.len() >= 32 && part[5] == 1 && part[8] == 2;
            let any = parts.iter().any(|part| two(&part));
            tally.count_if(any, "fault.transportid.02h");
        }
        Fault::LunForm => {
            let wrong = |d: &[u8]| lun_number(&d[4..12]).is_none();
            let over = parts.iter().any(|part| overruled_fault(part, wrong));
            tally.count_if(over, "fault.lun-form.overruled");
        }
        _ => {}
    }
}

/// A page of a code over 03h that a reader of fewer bits would take, or that
/// gives a reader of lengths nothing to dislike.
fn page_code(part: &[u8], tally: &mut Tally) {
    if part[0] < 4 {
        return;
    }
    tally.count_if(part.len() == 4, "fault.page-code.empty");
    let mut masked = part.to_vec();
    masked[0] &= 0x7f;
    if part[0] >= 0x80 && read(&masked).is_ok() {
        tally.count(format!("fault.page-code.{:02X}h", part[0]));
    }
}

fn any_descriptor(part: &[u8], wrong: impl Fn(&[u8]) -> bool) -> bool {
    part[0] == 0 && part.len() >= 32 && part[32..].chunks_exact(20).any(wrong)
}

/// A page 00h with a wrong descriptor whose default LUN comes again later.
fn overruled_fault(part: &[u8], wrong: impl Fn(&[u8]) -> bool) -> bool {
    if part[0] != 0 || part.len() < 32 {
        return false;
    }
    let descriptors: Vec<&[u8]> = part[32..].chunks_exact(20).collect();
    let later_same = |at: usize| {
        let later = &descriptors[at + 1..];
        later.iter().any(|d| d[12..20] == descriptors[at][12..20])
    };
    (0..descriptors.len()).any(|at| wrong(descriptors[at]) && later_same(at))
}

fn count_twins(parts: &[&[u8]], tally: &mut Tally) {
    let grants: Vec<&&[u8]> = parts.iter().filter(|p| p[0] < 2 && p.len() >= 32).collect();
    for (at, one) in grants.iter().enumerate() {
        for other in &grants[at + 1..] {
            let compared = if one[5] == 0 { 24 } else { 32 };
            if one[5] != other[5] || one[8..compared] != other[8..compared] {
                continue;
            }
            let tails = one[5] == 0 && one[24..32] != other[24..32];
            tally.count_if(tails, "fault.two-grants.accessid-tails");
            tally.count_if(one[0] != other[0], "fault.two-grants.00h-and-01h");
            let removal = |page: &[u8]| page[0] == 0 && page.len() == 32;
            let either = removal(one) || removal(other);
            tally.count_if(either, "fault.two-grants.with-removal");
        }
    }
}

fn accepted(call: &Call, list: &[u8], tally: &mut Tally) {
    let c = call.before;
    let Ok(parts) = cut(&list[HEADER..]) else {
        return;
    };
    let Ok(pages) = read_all(c, list, &parts) else {
        return;
    };
    header(call, list, &pages, tally);
    reserved(list, &parts, tally);
    on_the_way(c, list, &pages, tally);
    let mut now = end_state(c, list, &[]);
    for (page, part) in pages.iter().zip(&parts) {
        let next = end_state_after(&now, page);
        one_page(&now, page, part, &next, tally);
        enrolments(&now, page, &next, tally);
        now = next;
    }
    let both = pages
        .iter()
        .filter_map(Page::granted)
        .any(|id| twin_type(&now, id));
    tally.count_if(both, "list.same-bytes-both-types");
    rows_without_clash(&now, tally);
}

/// The state after one more page.
fn end_state_after(c: &Coordinator, page: &Page) -> Coordinator {
    let mut header = vec![0; HEADER];
    header[12..20].copy_from_slice(&c.key.to_be_bytes());
    end_state(c, &header, std::slice::from_ref(page))
}

fn header(call: &Call, list: &[u8], pages: &[Page], tally: &mut Tally) {
    let c = call.before;
    let on = names::on(c.enabled);
    tally.count_if(pages.is_empty(), format!("list.no-pages.{on}"));
    let again = !c.enabled && tally.memory.been_on;
    tally.count_if(again, "disable.on-again");
    let new_key = c.enabled && call.after.key != c.key;
    tally.count_if(new_key, "list.new-key");
    tally.count_if(new_key && call.after.key == 0, "list.new-key.zero");
    let full = c.acl.len() == 32 && call.after.acl.len() == 32;
    let replaces = |page: &Page| page.granted().is_some_and(|id| c.acl.contains_key(id));
    let replaces = full && pages.iter().any(replaces);
    tally.count_if(replaces, "list.32-aces-replaced");
    if list[21] & 0x80 != 0 {
        let enrolled = |e: &Enrolment| matches!(e, Enrolment::Enrolled(_));
        let any = c.enrolments.iter().any(enrolled);
        tally.count(if any {
            "list.flush.enrolled"
        } else {
            "list.flush.nobody"
        });
    }
    let sender = c.enrolments[call.initiator];
    let pending = matches!(sender, Enrolment::Pending(_));
    tally.count_if(pending, "list.from-pending");
}

fn reserved(list: &[u8], parts: &[&[u8]], tally: &mut Tally) {
    let header = [0, 1, 2, 3, 20, 22, 23].iter().any(|at| list[*at] != 0);
    tally.count_if(header || list[21] & 0x7f != 0, "reserved.header");
    for part in parts {
        let head = part[1] != 0 || (part[0] < 2 && part[4] & 0x7f != 0);
        tally.count_if(head, "reserved.page");
        if part[0] == 0 {
            let mut descriptors = part[32..].chunks_exact(20);
            let set = descriptors.any(|d| d[1..4].iter().any(|byte| *byte != 0));
            tally.count_if(set, "reserved.luacd");
        }
        let tail = part[0] < 2 && part[5] == 0 && part[24..32].iter().any(|byte| *byte != 0);
        tally.count_if(tail, "list.accessid-tail");
    }
}

/// What fails after some of the pages, but not in the end.
fn on_the_way(c: &Coordinator, list: &[u8], pages: &[Page], tally: &mut Tally) {
    let states = (1..pages.len()).map(|count| end_state(c, list, &pages[..count]));
    let states: Vec<Coordinator> = states.collect();
    let clash = states.iter().any(|state| clash_of_any(state).is_some());
    tally.count_if(clash, "list.clash-on-the-way");
    tally.count_if(clash, "mistake.clashes-page-by-page");
    let over = states.iter().any(|state| state.acl.len() > 32);
    tally.count_if(over, "list.over-32-on-the-way");
}

fn one_page(c: &Coordinator, page: &Page, part: &[u8], next: &Coordinator, tally: &mut Tally) {
    match page {
        Page::Grant {
            id, descriptors, ..
        } => {
            grant(c, id, descriptors, tally);
            sent(c, page, descriptors, tally);
        }
        Page::GrantAll { id, .. } => grant_all(c, id, tally),
        Page::Revoke { tokens } => {
            tally.count_if(part.len() == 4, "page.02h.empty");
            let live = |token: &u64| c.tokens.contains_key(token);
            tally.count_if(tokens.iter().any(live), "page.02h.revokes");
            tally.count_if(!tokens.iter().all(live), "page.02h.skips");
            let twice = |at: usize| tokens[at + 1..].contains(&tokens[at]);
            tally.count_if((0..tokens.len()).any(twice), "page.02h.twice");
            count_lost_proxies(c, next, "page.02h.with-proxies", tally);
        }
        Page::RevokeAll => {
            let none = c.tokens.is_empty();
            tally.count(if none {
                "page.03h.none-live"
            } else {
                "page.03h.revokes"
            });
            count_lost_proxies(c, next, "page.03h.with-proxies", tally);
        }
    }
}

fn count_lost_proxies(c: &Coordinator, next: &Coordinator, name: &str, tally: &mut Tally) {
    let lost = c.proxy_luns.len() > next.proxy_luns.len();
    tally.count_if(lost, name);
    tally.count_if(lost, "mistake.proxies-left");
}

fn grant(c: &Coordinator, id: &Identifier, descriptors: &[u8], tally: &mut Tally) {
    let what = match (c.acl.get(id), descriptors.is_empty()) {
        (None, true) => "removes-nothing",
        (Some(_), true) => "removes",
        (None, false) => "adds",
        (Some(Ace::List(_)), false) => "replaces-list",
        (Some(Ace::Everything), false) => "replaces-everything",
    };
    tally.count(format!("page.00h.{what}"));
    match id {
        Identifier::AccessId(bytes) => {
            tally.count("page.00h.accessid");
            tally.count_if(*bytes == [0; 16], "page.00h.zero-accessid");
        }
        Identifier::TransportId(bytes) => {
            tally.count("page.00h.transportid");
            let foreign = !c.transport_ids.contains(bytes);
            tally.count_if(foreign, "page.00h.foreign-transportid");
        }
    }
}

fn grant_all(c: &Coordinator, id: &Identifier, tally: &mut Tally) {
    let what = match c.acl.get(id) {
        None => "adds",
        Some(Ace::List(_)) => "replaces-list",
        Some(Ace::Everything) => "replaces-everything",
    };
    tally.count(format!("page.01h.{what}"));
    let access = matches!(id, Identifier::AccessId(_));
    tally.count(if access {
        "page.01h.accessid"
    } else {
        "page.01h.transportid"
    });
    tally.count_if(c.default_luns.is_empty(), "page.01h.no-units");
    tally.count_if(c.default_luns.len() > 16, "page.01h.over-16-units");
}

/// The descriptors sent against those that stand.
fn sent(c: &Coordinator, page: &Page, descriptors: &[u8], tally: &mut Tally) {
    let all = luacds(c, descriptors).unwrap_or_default();
    let stand = stands_in(c, page);
    tally.count_if(stand < all.len(), "list.overruled");
    let chained = standing_if_only_standing_overrule(&all) > stand;
    tally.count_if(chained, "list.overruled-by-overruled");
    let twice = |at: usize| all[at + 1..].contains(&all[at]);
    tally.count_if((0..all.len()).any(twice), "list.equal-twice");
    tally.count_if(stand == 16, "list.16-stand");
    let over = stand == 16 && all.len() == 17;
    tally.count_if(over, "list.17-sent-16-stand");
}

/// How many would stand if overruled LUACDs did not overrule.
fn standing_if_only_standing_overrule(sent: &[Luacd]) -> usize {
    let mut kept: Vec<&Luacd> = Vec::new();
    for luacd in sent.iter().rev() {
        let same = |k: &&Luacd| k.lun == luacd.lun || k.unit == luacd.unit;
        if !kept.iter().any(same) {
            kept.push(luacd);
        }
    }
    kept.len()
}

/// What a grant page does to the enrolments under its AccessID.
fn enrolments(c: &Coordinator, page: &Page, next: &Coordinator, tally: &mut Tally) {
    let (id, keeps, removal) = match page {
        Page::Grant {
            id,
            keeps,
            descriptors,
        } => (id, *keeps, descriptors.is_empty()),
        Page::GrantAll { id, keeps } => (id, *keeps, false),
        _ => return,
    };
    let Identifier::AccessId(access_id) = id else {
        return transportid_alike(c, page, id, tally);
    };
    let equal = c.acl.get(id) == next.acl.get(id);
    for held in &c.enrolments {
        if held.access_id() != Some(*access_id) {
            continue;
        }
        let state = match held {
            Enrolment::Pending(_) => "pending",
            _ => "enrolled",
        };
        match (keeps, removal) {
            (true, true) => tally.count("list.nocncl-1.removal-ends"),
            (true, false) => tally.count(format!("list.nocncl-1.keeps-{state}")),
            (false, _) => tally.count(format!("list.nocncl-0.ends-{state}")),
        }
        let ends_equal = !keeps && !removal && equal;
        tally.count_if(ends_equal, "list.nocncl-0.equal-ace-ends");
    }
}

/// A TransportID's page, while an enrolment stands under the AccessID that
/// begins as the TransportID does.
fn transportid_alike(c: &Coordinator, page: &Page, id: &Identifier, tally: &mut Tally) {
    let Identifier::TransportId(bytes) = id else {
        return;
    };
    let (what, keeps) = match page {
        Page::GrantAll { keeps, .. } => ("everything", keeps),
        Page::Grant {
            keeps,
            descriptors: [],
            ..
        } => ("removes", keeps),
        Page::Grant { keeps, .. } if c.acl.contains_key(id) => ("replaces", keeps),
        Page::Grant { keeps, .. } => ("adds", keeps),
        _ => return,
    };
    let mut held = c.enrolments.iter().filter_map(|e| e.access_id());
    let alike = held.any(|access_id| access_id[..] == bytes[..access_id.len()]);
    tally.count_if(alike && !keeps, format!("list.transportid-alike.{what}"));
}

/// An ACE of the other type whose identifier has the same bytes.
fn twin_type(c: &Coordinator, id: &Identifier) -> bool {
    let bytes = |id: &Identifier| match id {
        Identifier::AccessId(bytes) => [&bytes[..], &[0; 8]].concat(),
        Identifier::TransportId(bytes) => bytes.to_vec(),
    };
    let same = |other: &&Identifier| *other != id && bytes(other) == bytes(id);
    c.acl.keys().any(|other| same(&other))
}

/// Pairs of rows that look like clashes and are none.
fn rows_without_clash(c: &Coordinator, tally: &mut Tally) {
    for initiator in 0..c.transport_ids.len() {
        let rows = rows(c, initiator);
        for row in rows.iter().filter(|row| row.ground == Ground::T) {
            let here = |ground| {
                let mut same = rows.iter().filter(|r| r.lun == row.lun);
                same.any(|r| r.ground == ground)
            };
            let (a, x) = (here(Ground::A), here(Ground::X));
            tally.count_if(a, "clash.none.T-A-one-row");
            tally.count_if(x, "clash.none.T-X-one-row");
            tally.count_if(a && x, "clash.none.A-T-X-one-row");
        }
        let proxies = rows.iter().filter(|row| row.ground == Ground::X);
        let elsewhere = |x: &crate::rows::Row| {
            let mut others = rows.iter();
            others.any(|r| r.ground != Ground::X && r.unit == x.unit && r.lun != x.lun)
        };
        let two_luns = proxies.into_iter().any(elsewhere);
        tally.count_if(two_luns, "clash.none.X-one-unit-two-luns");
    }
}
