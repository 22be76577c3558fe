//! The state after the last line of a journal, in words. Never the key.

use crate::bytes::hex;
use crate::replay::replay;
use crate::state::{AccessId, Ace, Coordinator, Enrolment, Identifier, Luacd};
use std::io::{self, BufRead, Write};

pub fn acl(
    input: &mut impl BufRead,
    output: &mut impl Write,
    errors: &mut impl Write,
) -> io::Result<()> {
    let end = replay(input, errors, |_, _, _| {})?;
    output.write_all(in_words(&end.coordinator).as_bytes())?;
    output.flush()
}

fn in_words(c: &Coordinator) -> String {
    let on = if c.enabled { "on" } else { "off" };
    let mut text = format!("access controls {on}, generation {}\n", c.generation());
    let parts = [
        ("Initiators", initiators(c)),
        ("Units", units(c)),
        ("ACEs", aces(c)),
        ("Tokens", tokens(c)),
        ("Proxy LUNs", proxy_luns(c)),
    ];
    for (name, lines) in parts {
        text.push_str(&format!("\n{name}: {}\n", lines.len()));
        for line in lines {
            text.push_str(&line);
            text.push('\n');
        }
    }
    text
}

fn initiators(c: &Coordinator) -> Vec<String> {
    let both = c.transport_ids.iter().zip(&c.enrolments).enumerate();
    both.map(|(number, (id, enrolment))| {
        let place = match enrolment {
            Enrolment::NotEnrolled => "not enrolled".to_string(),
            Enrolment::Enrolled(id) => format!("enrolled under AccessID {}", access_id(id)),
            Enrolment::Pending(id) => format!("pending under AccessID {}", access_id(id)),
        };
        format!("{number}, TransportID {}: {place}", hex(id))
    })
    .collect()
}

/// The 24 bytes of the identifier; those not compared are zero.
fn access_id(id: &AccessId) -> String {
    format!("{}{}", hex(id), hex(&[0; 8]))
}

fn units(c: &Coordinator) -> Vec<String> {
    let numbered = c.default_luns.iter().enumerate();
    numbered
        .map(|(unit, nn)| format!("{unit}, default LUN {nn:02x}"))
        .collect()
}

/// The ACL is kept in the order of REPORT ACL, which is asked for here too.
fn aces(c: &Coordinator) -> Vec<String> {
    let all = c.acl.iter();
    all.map(|(id, ace)| match id {
        Identifier::AccessId(id) => format!("AccessID {}: {}", access_id(id), granted(ace)),
        Identifier::TransportId(id) => format!("TransportID {}: {}", hex(id), granted(ace)),
    })
    .collect()
}

fn granted(ace: &Ace) -> String {
    let Ace::List(luacds) = ace else {
        return "everything".to_string();
    };
    let mut by_lun: Vec<&Luacd> = luacds.iter().collect();
    by_lun.sort();
    let each = by_lun
        .iter()
        .map(|luacd| format!("LUN {:02x} unit {}", luacd.lun, luacd.unit));
    each.collect::<Vec<String>>().join(", ")
}

fn tokens(c: &Coordinator) -> Vec<String> {
    let all = c.tokens.iter();
    all.map(|(number, token)| {
        format!(
            "{number:016x}: unit {}, requested by initiator {} at LUN {:02x}",
            token.unit, token.requester, token.named
        )
    })
    .collect()
}

fn proxy_luns(c: &Coordinator) -> Vec<String> {
    let all = c.proxy_luns.iter();
    all.filter_map(|((initiator, nn), number)| {
        let unit = c.tokens.get(number)?.unit;
        Some(format!(
            "initiator {initiator}, LUN {nn:02x}: unit {unit}, token {number:016x}"
        ))
    })
    .collect()
}
