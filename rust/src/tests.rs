use crate::{raw, Coordinator, Fault, Refusal, REACH_BYTES, REPORT_BYTES};

const HEADER: &str = include_str!("../../include/oberkosz.h");
const LUN_1: u64 = 0x0001_0000_0000_0000;

/// The names and numbers that the header defines with this prefix.
fn defined(prefix: &str) -> Vec<(String, usize)> {
    let words = HEADER
        .lines()
        .map(|line| line.split(' ').collect::<Vec<_>>());
    words
        .filter_map(|words| match words[..] {
            ["#define", name, number] => {
                Some((name.strip_prefix(prefix)?.to_string(), number.parse().ok()?))
            }
            _ => None,
        })
        .collect()
}

#[test]
fn the_layout_is_the_headers() {
    let here = raw::LAYOUT.map(|(name, number)| (name.to_uppercase(), number));
    assert_eq!(here.to_vec(), defined("OBERKOSZ_LAYOUT_"));
}

#[test]
fn a_library_with_another_layout_does_not_fit() {
    assert!(raw::fits(&raw::LAYOUT));
    assert!(!raw::fits(&raw::LAYOUT[1..]));
    assert!(!raw::fits(&raw::LAYOUT[..53]));
    for entry in 0..raw::LAYOUT.len() {
        let mut other = raw::LAYOUT;
        other[entry].1 += 1;
        assert!(!raw::fits(&other), "{}", other[entry].0);
    }
}

#[test]
fn the_sizes_of_replies_are_the_headers() {
    assert!(HEADER.contains(&format!("OBERKOSZ_REPORT_BYTES = {REPORT_BYTES},")));
    assert!(HEADER.contains(&format!("OBERKOSZ_REACH_BYTES = {REACH_BYTES},")));
}

/// One initiator and two units, at default LUNs 5 and 6.
fn shelf() -> Coordinator {
    let mut id = [0; 24];
    id[23] = 1;
    Coordinator::setup(&id, &[0, 5, 0, 0, 0, 0, 0, 0, 0, 6, 0, 0, 0, 0, 0, 0]).unwrap()
}

/// ACCESS CONTROL OUT with a list.
fn out(shelf: &mut Coordinator, action: u8, list: &[u8]) -> Result<usize, Fault> {
    let mut cdb = [0; 16];
    cdb[..2].copy_from_slice(&[0x87, action]);
    cdb[13] = list.len() as u8;
    shelf.command(0, &cdb, list, 0, &mut [])
}

/// MANAGE ACL: unit 0 at LUN 1 for the initiator's TransportID; the new key is 7.
fn granted() -> Coordinator {
    let mut list = [0; 80];
    for (at, byte) in [
        (19, 7),
        (31, 48),
        (33, 1),
        (35, 24),
        (59, 1),
        (65, 1),
        (73, 5),
    ] {
        list[at] = byte;
    }
    let mut shelf = shelf();
    assert_eq!(out(&mut shelf, 0x00, &list), Ok(0));
    shelf
}

fn code(answer: Result<u8, Fault>) -> (u8, u8) {
    match answer {
        Err(Fault::Check(sense)) => sense.code(),
        other => panic!("no CHECK CONDITION: {other:?}"),
    }
}

#[test]
fn a_grant_opens_its_unit_and_no_other() {
    let shelf = granted();
    assert_eq!(shelf.route(0, LUN_1), Ok(0));
    assert_eq!(shelf.route_standing(0, LUN_1), Ok(0));
    assert_eq!(code(shelf.route(0, 5 << 48)), (0x25, 0x00));
    assert_eq!(
        shelf.route(1, LUN_1),
        Err(Fault::Refused(Refusal::NoInitiator))
    );
}

#[test]
fn the_reach_list_goes_into_the_lent_buffer() {
    let mut reply = [0xA5; 13];
    assert_eq!(granted().reach(&mut reply), Ok(12));
    assert_eq!(reply, [0, 0, 0, 8, 1, 1, 0, 1, 0, 1, 0, b'T', 0xA5]);
}

#[test]
fn a_refusal_changes_no_state_and_writes_no_byte() {
    let before = granted();
    let mut after = before.clone();
    let mut reply = [0xA5; 7];
    let request = [0x86, 0x04, 0, 1, 0, 0, 0, 0, 0, 0, 0, 0, 0, 8, 0, 0];
    let short = after.command(0, &request, &[], 9, &mut reply);
    assert_eq!(short, Err(Fault::Refused(Refusal::ShortBuffer)));
    let cut = after.command(0, &request[..15], &[], 9, &mut reply);
    assert_eq!(cut, Err(Fault::Refused(Refusal::BadCdb)));
    let more = after.command(0, &request, &[0], 9, &mut reply);
    assert_eq!(more, Err(Fault::Refused(Refusal::BadParameters)));
    assert_eq!(
        after.link_event(1),
        Err(Fault::Refused(Refusal::NoInitiator))
    );
    assert_eq!(reply, [0xA5; 7]);
    assert_eq!(after, before);
    assert_eq!(after.command(0, &request, &[], 9, &mut [0; 8]), Ok(8));
    assert_ne!(after, before);
}

#[test]
fn a_setup_that_breaks_a_rule_is_refused() {
    let refused = Coordinator::setup(&[0; 23], &[]);
    assert_eq!(refused, Err(Fault::Refused(Refusal::BadSetup)));
    let mut reply = [0; 8];
    assert_eq!(Coordinator::default().reach(&mut reply), Ok(8));
    assert_eq!(reply, [0, 0, 0, 4, 1, 0, 0, 0]);
}

#[test]
fn the_key_is_not_shown() {
    let shown = format!("{:?}", granted());
    assert!(
        shown.contains("aces: 1") && !shown.contains("key"),
        "{shown}"
    );
}
