//! Lists with faults of two phases: only there it shows which phase comes first.

use super::Tally;
use crate::bytes::{lun_number, number};
use crate::fault::Fault;
use crate::manage::{check_key, end_state, stands_in, HEADER};
use crate::pages::{read, Page};
use crate::rows::clash_of_any;
use crate::state::{Coordinator, MOST_ACES, MOST_LUACDS};

/// A phase, and the kind of its fault where a phase has several.
type Kind = (u8, &'static str);

pub fn kind_of(fault: Fault) -> Kind {
    match fault {
        Fault::PageHeadCut | Fault::PageBodyCut => (1, ""),
        Fault::WrongKey => (2, ""),
        Fault::Generation => (3, ".generation"),
        Fault::TwoGrants => (3, ".two-grants"),
        Fault::LunForm => (4, ".form"),
        Fault::NoSuchDefaultLun => (4, ".default"),
        Fault::TooManyAces => (5, ".aces"),
        Fault::TooManyLuacds => (5, ".luacds"),
        Fault::Clash(..) => (6, ""),
        _ => (3, ".page"),
    }
}

/// Counts the faults of later phases that a list has beside the one answered.
pub fn count(c: &Coordinator, list: &[u8], fault: Fault, tally: &mut Tally) {
    let (phase, kind) = kind_of(fault);
    for (later, other) in kinds_of(c, list) {
        if later > phase {
            tally.count(format!("phases.{phase}-and-{later}{kind}{other}"));
        }
    }
    let one_page = phase == 4
        && whole_parts(list)
            .iter()
            .any(|part| bad_and_too_many(c, part));
    tally.count_if(one_page, "phases.4-and-5.one-page");
}

/// The kinds of faults of the phases 2 to 6 in the pages that are whole.
fn kinds_of(c: &Coordinator, list: &[u8]) -> Vec<Kind> {
    let parts = whole_parts(list);
    let read: Vec<_> = parts.iter().map(|part| read(part)).collect();
    let page = read.iter().any(Result::is_err);
    let pages: Vec<Page> = read.into_iter().flatten().collect();
    let end = end_state(c, list, &pages);
    let tests = [
        ((2, ""), check_key(c, list).is_err()),
        ((3, ".generation"), number(&list[24..28]) != c.generation()),
        ((3, ".page"), page),
        ((3, ".two-grants"), twins(&pages)),
        ((4, ".form"), any_descriptor(&parts, wrong_form)),
        ((4, ".default"), any_descriptor(&parts, |d| no_unit(c, d))),
        ((5, ".aces"), end.acl.len() > MOST_ACES),
        (
            (5, ".luacds"),
            pages.iter().any(|p| stands_in(c, p) > MOST_LUACDS),
        ),
        ((6, ""), clash_of_any(&end).is_some()),
    ];
    let failing = tests.into_iter().filter(|(_, fails)| *fails);
    failing.map(|(kind, _)| kind).collect()
}

/// The pages before the one that is cut, or all.
fn whole_parts(list: &[u8]) -> Vec<&[u8]> {
    let mut rest = &list[HEADER..];
    let mut parts = Vec::new();
    while rest.len() >= 4 {
        let size = 4 + usize::from(rest[2]) * 256 + usize::from(rest[3]);
        if rest.len() < size {
            break;
        }
        let (part, after) = rest.split_at(size);
        parts.push(part);
        rest = after;
    }
    parts
}

fn twins(pages: &[Page]) -> bool {
    let granted: Vec<_> = pages.iter().filter_map(Page::granted).collect();
    (0..granted.len()).any(|at| granted[at + 1..].contains(&granted[at]))
}

fn descriptors<'a>(part: &'a [u8]) -> std::slice::ChunksExact<'a, u8> {
    let grant = part[0] == 0 && part.len() >= 32;
    let bytes = if grant { &part[32..] } else { &[] };
    bytes.chunks_exact(20)
}

fn any_descriptor(parts: &[&[u8]], wrong: impl Fn(&[u8]) -> bool) -> bool {
    parts.iter().any(|part| descriptors(part).any(&wrong))
}

fn wrong_form(descriptor: &[u8]) -> bool {
    lun_number(&descriptor[4..12]).is_none()
}

fn no_unit(c: &Coordinator, descriptor: &[u8]) -> bool {
    let default = lun_number(&descriptor[12..20]);
    default.and_then(|nn| c.unit_at_default(nn)).is_none()
}

/// A page with a wrong LUN of which over 16 LUACDs would stand all the same.
fn bad_and_too_many(c: &Coordinator, part: &[u8]) -> bool {
    let sent: Vec<&[u8]> = descriptors(part).collect();
    let overruled = |at: usize| {
        let mut later = sent[at + 1..].iter();
        later.any(|l| l[4..12] == sent[at][4..12] || l[12..20] == sent[at][12..20])
    };
    let bad = sent.iter().any(|d| wrong_form(d) || no_unit(c, d));
    let stand = (0..sent.len()).filter(|at| !overruled(*at)).count();
    bad && stand > MOST_LUACDS
}
