//! Audits and the state in words. Every expected text is written by hand from
//! docs/AUDIT.md.

mod common;
use common::*;

use second::acl::acl;
use second::audit::{audit, Question};
use std::io::Cursor;
use std::process::{Command, Stdio};

/// The audit's text, and what it says of lines that are no statements.
fn told(journal: &str, words: &str) -> (String, String) {
    let words: Vec<&str> = words.split(' ').collect();
    let question = Question::read(&words).expect("a right question");
    let (mut output, mut errors) = (Vec::new(), Vec::new());
    let mut input = Cursor::new(journal);
    audit(&question, &mut input, &mut output, &mut errors).expect("memory can be written");
    let text = |bytes| String::from_utf8(bytes).expect("audits are ASCII");
    (text(output), text(errors))
}

fn page(journal: &str, words: &str) -> String {
    let (text, errors) = told(journal, words);
    assert_eq!(errors, "");
    text
}

/// The first line of a page.
fn title(journal: &str, words: &str) -> String {
    let page = page(journal, words);
    page.lines().next().unwrap_or_default().to_string()
}

/// The last line of a page.
fn sentence(journal: &str, words: &str) -> String {
    let page = page(journal, words);
    page.lines().last().unwrap_or_default().to_string()
}

/// The grounds shown, their cells with bars between.
fn grounds(journal: &str, words: &str) -> Vec<String> {
    let text = page(journal, &format!("{words} tsv"));
    let lines = text.lines().skip(1);
    lines.map(|line| line.replace('\t', "|")).collect()
}

fn state(journal: &str) -> (String, String) {
    let (mut output, mut errors) = (Vec::new(), Vec::new());
    let mut input = Cursor::new(journal);
    acl(&mut input, &mut output, &mut errors).expect("memory can be written");
    let text = |bytes| String::from_utf8(bytes).expect("the state in words is ASCII");
    (text(output), text(errors))
}

/// The blocks between fences of the page on audits.
fn block(number: usize) -> String {
    let document = include_str!("../../docs/AUDIT.md");
    let block = document.split("```\n").nth(2 * number + 1);
    block.unwrap_or_default().to_string()
}

#[test]
fn the_example_of_an_audit() {
    let mut shelf = Shelf::new(6, &[5, 6, 7]);
    shelf.go_to(9);
    shelf.on(&[by_transport(0, &[(7, 7)]), by_access(0xaa, &[(7, 7)])]);
    shelf.go_to(11);
    assert_eq!(shelf.enroll(5, 0xaa), GOOD);
    assert_eq!(shelf.tell("link 5"), "link good");
    shelf.go_to(21);
    shelf.request(0, 7, 0xab);
    assert_eq!(shelf.assign(3, 0xab, 0x21), GOOD);
    shelf.go_to(31);
    assert_eq!(shelf.out(0, 0x07, "00000000000000ab"), GOOD);
    shelf.go_to(50);
    assert_eq!(page(shelf.journal(), "2 14 40"), block(0));
}

#[test]
fn the_example_of_the_state_in_words() {
    let id = |last: u8| format!("{}{last:02x}", "00".repeat(23));
    let access = format!("{}aa{}", "00".repeat(15), "00".repeat(8));
    let setup = format!("setup {}{} {}{}\n", id(1), id(2), lun(5), lun(6));
    let pages = [
        grant(1, &id(1), false, &[(2, 6), (1, 5)]),
        grant_all(0, &access, false),
    ];
    let list = header(0, 7, 0) + &pages.concat();
    let cdb = format!("8700{:016x}{:08x}0000", 0, list.len() / 2);
    let journal = format!(
        "{setup}command 0 {cdb} {list} {zero} 0\n\
         command 1 8702{zero}000000180000 {access} {zero} 0\n\
         command 0 8604{}000000080000 - 00000000000000ab 8\n\
         command 1 8709{zero}000000100000 00000000000000ab{} {zero} 0\n",
        lun(1),
        lun(9),
        zero = "0000000000000000",
    );
    assert_eq!(state(&journal), (block(1), String::new()));
}

/// At line 6 initiator 0 has unit 0 by its TransportID, 1 by its enrolment, and
/// 2 by a token of 0.
fn three_grounds() -> Shelf {
    let mut shelf = Shelf::new(3, &[0x10, 0x11]);
    shelf.on(&[by_transport(0, &[(1, 0x10)]), by_access(0xaa, &[(2, 0x10)])]);
    assert_eq!(shelf.enroll(1, 0xaa), GOOD);
    shelf.request(0, 1, 9);
    assert_eq!(shelf.assign(2, 9, 3), GOOD);
    shelf
}

const STANDS: &str = "still stands";

/// What is shown for line 6 alone, when the three grounds end so and these begin.
/// One that begins comes after its initiator's other one, which in all tests here
/// has ended or has the lower LUN.
fn at_line_6(t: &str, a: &str, x: &str, begun: &[&str]) -> Vec<String> {
    let before = [
        format!("0|01|TransportID|6|6|MANAGE ACL, line 2|{t}"),
        format!("1|02|enrolment|6|6|ACCESS ID ENROLL, line 3|{a}"),
        format!("2|03|proxy token|6|6|ASSIGN PROXY LUN, line 5|{x}"),
    ];
    let mut lines = Vec::new();
    for line in before {
        let initiator = line[..2].to_string();
        lines.push(line);
        let own = begun.iter().filter(|line| line.starts_with(&initiator));
        lines.extend(own.map(|line| line.to_string()));
    }
    lines
}

#[test]
fn pages_of_manage_acl_end_grounds() {
    let by_0 = "MANAGE ACL by 0, line 6";
    let own = "MANAGE ACL, line 6";
    let cases = [
        (revoke(&[9]), at_line_6(STANDS, STANDS, by_0, &[])),
        ("03000000".into(), at_line_6(STANDS, STANDS, by_0, &[])),
        (by_transport(0, &[]), at_line_6(own, STANDS, STANDS, &[])),
        (by_access(0xaa, &[]), at_line_6(STANDS, by_0, STANDS, &[])),
        // Replaced by an equal one, but with NOCNCL 0:
        (
            by_access(0xaa, &[(2, 0x10)]),
            at_line_6(STANDS, by_0, STANDS, &[]),
        ),
        // Replaced by an equal one, the row stands on:
        (
            by_transport(0, &[(1, 0x10)]),
            at_line_6(STANDS, STANDS, STANDS, &[]),
        ),
    ];
    for (page, expected) in cases {
        let mut shelf = three_grounds();
        assert_eq!(shelf.manage(1, &[page]), GOOD);
        assert_eq!(grounds(shelf.journal(), "0 6 6"), expected);
    }
}

#[test]
fn pages_of_manage_acl_begin_grounds() {
    // The same unit at another LUN is another ground.
    let moved = "0|04|TransportID|6|6|MANAGE ACL, line 6|still stands";
    // All units, so this one at its default LUN.
    let all = "2|10|TransportID|6|6|MANAGE ACL by 0, line 6|still stands";
    let cases = [
        (
            by_transport(0, &[(4, 0x10)]),
            at_line_6("MANAGE ACL, line 6", STANDS, STANDS, &[moved]),
        ),
        (
            grant_all(1, &tid(2), false),
            at_line_6(STANDS, STANDS, STANDS, &[all]),
        ),
    ];
    for (page, expected) in cases {
        let mut shelf = three_grounds();
        assert_eq!(shelf.manage(1, &[page]), GOOD);
        assert_eq!(grounds(shelf.journal(), "0 6 6"), expected);
    }
}

#[test]
fn flush_makes_an_enrolment_pending() {
    let mut shelf = three_grounds();
    let list = "00000000000000000000000700000000000000070080000000000001";
    assert_eq!(shelf.out(0, 0x00, list), GOOD);
    let pending = "1|02|pending enrolment|6|6|MANAGE ACL by 0, line 6|still stands";
    let expected = at_line_6(STANDS, "MANAGE ACL by 0, line 6", STANDS, &[pending]);
    assert_eq!(grounds(shelf.journal(), "0 6 6"), expected);
}

#[test]
fn who_sent_it_is_named_where_the_ground_is_anothers() {
    let mut shelf = three_grounds();
    let list = header(7, 7, 1) + &by_access(0xaa, &[]) + &by_transport(0, &[]);
    assert_eq!(shelf.out(1, 0x00, &list), GOOD);
    let expected = at_line_6("MANAGE ACL by 1, line 6", "MANAGE ACL, line 6", STANDS, &[]);
    assert_eq!(grounds(shelf.journal(), "0 6 6"), expected);
}

#[test]
fn disable_ends_everything_and_opens_everything() {
    let mut shelf = three_grounds();
    assert_eq!(shelf.out(0, 0x01, "000000000000000000000007"), GOOD);
    let own = "DISABLE ACCESS CONTROLS, line 6";
    let by_0 = "DISABLE ACCESS CONTROLS by 0, line 6";
    let off = [
        "0|10|access controls off|6|6|DISABLE ACCESS CONTROLS, line 6|still stands",
        "1|10|access controls off|6|6|DISABLE ACCESS CONTROLS by 0, line 6|still stands",
        "2|10|access controls off|6|6|DISABLE ACCESS CONTROLS by 0, line 6|still stands",
    ];
    let expected = at_line_6(own, by_0, by_0, &off);
    assert_eq!(grounds(shelf.journal(), "0 6 6"), expected);
}

#[test]
fn cancelled_revoked_and_released() {
    let cases = [
        (
            (1, 0x03, String::new()),
            at_line_6(STANDS, "CANCEL ENROLLMENT, line 6", STANDS, &[]),
        ),
        (
            (0, 0x07, format!("{:016x}", 9)),
            at_line_6(STANDS, STANDS, "REVOKE PROXY TOKEN by 0, line 6", &[]),
        ),
        (
            (0, 0x08, lun(1)),
            at_line_6(STANDS, STANDS, "REVOKE ALL PROXY TOKENS by 0, line 6", &[]),
        ),
        (
            (2, 0x0a, lun(3)),
            at_line_6(STANDS, STANDS, "RELEASE PROXY LUN, line 6", &[]),
        ),
        // GOOD, but 1 has no token to revoke:
        (
            (1, 0x07, format!("{:016x}", 9)),
            at_line_6(STANDS, STANDS, STANDS, &[]),
        ),
    ];
    for ((initiator, action, list), expected) in cases {
        let mut shelf = three_grounds();
        assert_eq!(shelf.out(initiator, action, &list), GOOD);
        assert_eq!(grounds(shelf.journal(), "0 6 6"), expected);
    }
}

#[test]
fn reserved_bits_do_not_change_a_name() {
    let mut shelf = three_grounds();
    let cancel = "command 1 87e3ffffffffffffffff00000000ffff - 0000000000000000 0";
    assert_eq!(shelf.tell(cancel), GOOD);
    let expected = at_line_6(STANDS, "CANCEL ENROLLMENT, line 6", STANDS, &[]);
    assert_eq!(grounds(shelf.journal(), "0 6 6"), expected);
}

#[test]
fn the_requester_with_its_own_proxy_lun() {
    let mut shelf = three_grounds();
    assert_eq!(shelf.assign(0, 9, 4), GOOD);
    assert_eq!(shelf.out(0, 0x07, "0000000000000009"), GOOD);
    let shown = grounds(shelf.journal(), "0 7 7");
    let expected = [
        "0|04|proxy token|7|7|ASSIGN PROXY LUN, line 6|REVOKE PROXY TOKEN, line 7",
        "0|01|TransportID|7|7|MANAGE ACL, line 2|still stands",
        "1|02|enrolment|7|7|ACCESS ID ENROLL, line 3|still stands",
        "2|03|proxy token|7|7|ASSIGN PROXY LUN, line 5|REVOKE PROXY TOKEN by 0, line 7",
    ];
    assert_eq!(shown, expected);
}

#[test]
fn what_is_not_good_changes_no_ground() {
    for line in [
        "command 0 87010000000000000000000000 - 0000000000000000 0",
        "command 0 8701 - 0000000000000000 0",
        "command 0 - - 0000000000000000 0",
        "command 9 87030000000000000000000000000000 - 0000000000000000 0",
        "command 0 870100000000000000000000000c0000 000000000000000000000008 0000000000000000 0",
        "command 0 87010000000000000000000000000000 - 0000000000000000 0",
        "link 2",
        "link 3",
        "route 0 0001000000000000",
        "reach 0",
        "# a comment",
        "",
    ] {
        let mut shelf = three_grounds();
        shelf.tell(line);
        let expected = at_line_6(STANDS, STANDS, STANDS, &[]);
        assert_eq!(grounds(shelf.journal(), "0 6 6"), expected, "{line}");
    }
}

#[test]
fn a_link_event_and_the_enrolment_again() {
    let mut shelf = three_grounds();
    assert_eq!(shelf.tell("link 1"), "link good");
    assert_eq!(shelf.enroll(1, 0xaa), GOOD);
    let shown = grounds(shelf.journal(), "0 6 7");
    let expected = [
        "0|01|TransportID|6|7|MANAGE ACL, line 2|still stands",
        "1|02|enrolment|6|6|ACCESS ID ENROLL, line 3|link event, line 6",
        "1|02|pending enrolment|6|7|link event, line 6|ACCESS ID ENROLL, line 7",
        "1|02|enrolment|7|7|ACCESS ID ENROLL, line 7|still stands",
        "2|03|proxy token|6|7|ASSIGN PROXY LUN, line 5|still stands",
    ];
    assert_eq!(shown, expected);
}

#[test]
fn a_setup_in_the_middle() {
    let mut shelf = three_grounds();
    let again = format!("setup {} {}{}", tid(0), lun(0x20), lun(0x21));
    assert_eq!(shelf.tell(&again), "setup good");
    let ended = "setup, line 6";
    let off = "0|20|access controls off|6|6|setup, line 6|still stands";
    let expected = at_line_6(ended, ended, ended, &[off]);
    assert_eq!(grounds(shelf.journal(), "0 6 6"), expected);
    let title = title(shelf.journal(), "0");
    assert_eq!(title, "unit 0 (default LUN 20), journal lines 1 to 6");
}

#[test]
fn a_refused_setup_in_the_middle() {
    let mut shelf = three_grounds();
    assert_eq!(shelf.tell("setup 00 -"), "setup refused 1");
    shelf.tell("reach 8");
    let ended = "setup, line 6";
    let expected = at_line_6(ended, ended, ended, &[]);
    assert_eq!(grounds(shelf.journal(), "0 6 6"), expected);
    let title = title(shelf.journal(), "0");
    let absent = "unit 0 (not on the shelf at the end), journal lines 1 to 7";
    assert_eq!(title, absent);
}

#[test]
fn the_same_setup_twice_is_two_grounds() {
    let mut shelf = Shelf::new(1, &[5]);
    let setup = shelf.journal().trim_end().to_string();
    shelf.tell(&setup);
    let expected = [
        "0|05|access controls off|1|2|setup, line 1|setup, line 2",
        "0|05|access controls off|2|2|setup, line 2|still stands",
    ];
    assert_eq!(grounds(shelf.journal(), "0"), expected);
}

/// Initiator 1 has unit 0 by a proxy LUN from line 5 to 8 and from line 11 on,
/// and nothing else from line 2 on but what 0 has; the journal has 14 lines.
fn on_and_off() -> Shelf {
    let mut shelf = Shelf::new(2, &[0x10]);
    shelf.on(&[by_transport(0, &[(1, 0x10)])]);
    shelf.request(0, 1, 9);
    shelf.go_to(5);
    assert_eq!(shelf.assign(1, 9, 3), GOOD);
    shelf.go_to(8);
    assert_eq!(shelf.out(1, 0x0a, &lun(3)), GOOD);
    shelf.go_to(11);
    assert_eq!(shelf.assign(1, 9, 3), GOOD);
    shelf.go_to(15);
    shelf
}

/// The lines of initiator 1's proxy LUN alone, as `from|to|..`.
fn proxy_grounds(words: &str) -> Vec<String> {
    let shown = grounds(on_and_off().journal(), words);
    let own = shown
        .iter()
        .filter_map(|line| line.strip_prefix("1|03|proxy token|"));
    own.map(str::to_string).collect()
}

#[test]
fn lines_asked_for_cut_from_and_to() {
    let first = |lines| format!("{lines}|ASSIGN PROXY LUN, line 5|RELEASE PROXY LUN, line 8");
    let second = |lines| format!("{lines}|ASSIGN PROXY LUN, line 11|still stands");
    let cases = [
        ("0", vec![first("5|8"), second("11|14")]),
        ("0 1 14", vec![first("5|8"), second("11|14")]),
        ("0 1 4", vec![]),
        ("0 1 5", vec![first("5|5")]),
        ("0 6 7", vec![first("6|7")]),
        ("0 7 10", vec![first("7|8")]),
        ("0 8 8", vec![first("8|8")]),
        ("0 9 10", vec![]),
        ("0 9 11", vec![second("11|11")]),
        ("0 12 13", vec![second("12|13")]),
        ("0 13 99", vec![second("13|14")]),
        ("0 15 99", vec![]),
    ];
    for (words, expected) in cases {
        assert_eq!(proxy_grounds(words), expected, "{words}");
    }
}

#[test]
fn a_page_past_the_last_line() {
    let expected = "\
unit 0 (default LUN 10), journal lines 14 to 15 (the journal ends at line 14)

initiator  LUN  ground       from  to  begun by                   ended by
0          01   TransportID  14    14  MANAGE ACL, line 2         still stands
1          03   proxy token  14    14  ASSIGN PROXY LUN, line 11  still stands

Initiators 0 and 1 could open unit 0 in these lines.
";
    assert_eq!(page(on_and_off().journal(), "0 14 15"), expected);
}

#[test]
fn lines_after_the_journal() {
    let expected = "\
unit 0 (default LUN 10), journal lines 15 to 18446744073709551615 (the journal ends at line 14)

initiator  LUN  ground  from  to  begun by  ended by

No initiator could open unit 0 in these lines.
";
    let shown = page(on_and_off().journal(), "0 15 18446744073709551615");
    assert_eq!(shown, expected);
}

#[test]
fn an_empty_journal() {
    let table = "
initiator  LUN  ground  from  to  begun by  ended by

No initiator could open unit 31 in these lines.
";
    let absent = "unit 31 (not on the shelf at the end), journal lines 1 to";
    assert_eq!(page("", "31"), format!("{absent} 0\n{table}"));
    let asked = format!("{absent} 5 (the journal ends at line 0)\n{table}");
    assert_eq!(page("", "31 1 5"), asked);
    let headings = "initiator\tLUN\tground\tfrom\tto\tbegun by\tended by\n";
    assert_eq!(page("", "31 tsv"), headings);
}

#[test]
fn a_unit_that_is_not_there() {
    let shelf = three_grounds();
    let expected = "\
unit 2 (not on the shelf at the end), journal lines 1 to 5

initiator  LUN  ground  from  to  begun by  ended by

No initiator could open unit 2 in these lines.
";
    assert_eq!(page(shelf.journal(), "2"), expected);
}

#[test]
fn a_whole_page_and_its_tsv() {
    let journal = three_grounds().journal().to_string();
    let expected = "\
unit 0 (default LUN 10), journal lines 2 to 5

initiator  LUN  ground               from  to  begun by                  ended by
0          10   access controls off  2     2   setup, line 1             MANAGE ACL, line 2
0          01   TransportID          2     5   MANAGE ACL, line 2        still stands
1          10   access controls off  2     2   setup, line 1             MANAGE ACL by 0, line 2
1          02   enrolment            3     5   ACCESS ID ENROLL, line 3  still stands
2          10   access controls off  2     2   setup, line 1             MANAGE ACL by 0, line 2
2          03   proxy token          5     5   ASSIGN PROXY LUN, line 5  still stands

Initiators 0, 1 and 2 could open unit 0 in these lines.
";
    assert_eq!(page(&journal, "0 2 5"), expected);
    let tabs = "\
initiator\tLUN\tground\tfrom\tto\tbegun by\tended by
0\t01\tTransportID\t3\t5\tMANAGE ACL, line 2\tstill stands
1\t02\tenrolment\t3\t5\tACCESS ID ENROLL, line 3\tstill stands
2\t03\tproxy token\t5\t5\tASSIGN PROXY LUN, line 5\tstill stands
";
    assert_eq!(page(&journal, "0 3 5 tsv"), tabs);
}

#[test]
fn wide_line_numbers_make_wide_columns() {
    let mut journal = "#\n".repeat(9_999);
    journal.push_str(&format!("setup {} {}", tid(0), lun(5)));
    let expected = "\
unit 0 (default LUN 05), journal lines 1 to 10000

initiator  LUN  ground               from   to     begun by           ended by
0          05   access controls off  10000  10000  setup, line 10000  still stands

Initiator 0 could open unit 0 in these lines.
";
    assert_eq!(page(&journal, "0"), expected);
}

/// By number, whatever order made them.
#[test]
fn initiators_in_their_order() {
    let mut shelf = Shelf::new(11, &[5]);
    let pages = [10, 2, 0].map(|initiator| by_transport(initiator, &[(4, 5)]));
    shelf.on(&pages);
    let expected = [
        "0|04|TransportID|3|3|MANAGE ACL, line 2|still stands",
        "2|04|TransportID|3|3|MANAGE ACL by 0, line 2|still stands",
        "10|04|TransportID|3|3|MANAGE ACL by 0, line 2|still stands",
    ];
    shelf.tell("# later");
    assert_eq!(grounds(shelf.journal(), "0 3 3"), expected);
}

/// Begun at lines 5, 6 and 7; that of line 6 ends first, that of line 7 not at all.
/// An end after TO counts for the order like any other.
#[test]
fn grounds_of_one_initiator_by_their_ends() {
    let mut shelf = three_grounds();
    assert_eq!(shelf.assign(2, 9, 4), GOOD);
    assert_eq!(shelf.assign(2, 9, 2), GOOD);
    assert_eq!(shelf.out(2, 0x0a, &lun(4)), GOOD);
    assert_eq!(shelf.out(2, 0x0a, &lun(3)), GOOD);
    let expected = [
        "0|01|TransportID|7|7|MANAGE ACL, line 2|still stands",
        "1|02|enrolment|7|7|ACCESS ID ENROLL, line 3|still stands",
        "2|04|proxy token|7|7|ASSIGN PROXY LUN, line 6|RELEASE PROXY LUN, line 8",
        "2|03|proxy token|7|7|ASSIGN PROXY LUN, line 5|RELEASE PROXY LUN, line 9",
        "2|02|proxy token|7|7|ASSIGN PROXY LUN, line 7|still stands",
    ];
    assert_eq!(grounds(shelf.journal(), "0 7 7"), expected);
}

/// A and T of one initiator stand at one LUN, and then end at one line.
#[test]
fn grounds_with_one_end_as_in_the_reach_list() {
    let mut shelf = Shelf::new(1, &[5, 6]);
    shelf.on(&[by_access(0xaa, &[(6, 6)])]);
    assert_eq!(shelf.enroll(0, 0xaa), GOOD);
    let pages = [
        by_transport(0, &[(4, 5)]),
        grant(0, &aid(0xaa), true, &[(4, 5)]),
    ];
    assert_eq!(shelf.manage(1, &pages), GOOD);
    let standing = [
        "0|04|enrolment|4|4|MANAGE ACL, line 4|still stands",
        "0|04|TransportID|4|4|MANAGE ACL, line 4|still stands",
    ];
    assert_eq!(grounds(shelf.journal(), "0 4 4"), standing);
    let removals = [by_transport(0, &[]), by_access(0xaa, &[])];
    assert_eq!(shelf.manage(1, &removals), GOOD);
    let ended = [
        "0|04|enrolment|4|4|MANAGE ACL, line 4|MANAGE ACL, line 5",
        "0|04|TransportID|4|4|MANAGE ACL, line 4|MANAGE ACL, line 5",
    ];
    assert_eq!(grounds(shelf.journal(), "0 4 4"), ended);
}

#[test]
fn one_lun_on_three_grounds() {
    let mut shelf = Shelf::new(2, &[5]);
    shelf.on(&[
        by_transport(1, &[(5, 5)]),
        by_access(0xaa, &[(4, 5)]),
        by_transport(0, &[(5, 5)]),
    ]);
    shelf.request(0, 5, 9);
    assert_eq!(shelf.assign(1, 9, 4), GOOD);
    let list = header(7, 7, 1) + &by_transport(1, &[(4, 5)]);
    assert_eq!(shelf.out(1, 0x00, &list), GOOD);
    assert_eq!(shelf.enroll(1, 0xaa), GOOD);
    let expected = [
        "0|05|TransportID|6|6|MANAGE ACL, line 2|still stands",
        "1|04|enrolment|6|6|ACCESS ID ENROLL, line 6|still stands",
        "1|04|TransportID|6|6|MANAGE ACL, line 5|still stands",
        "1|04|proxy token|6|6|ASSIGN PROXY LUN, line 4|still stands",
    ];
    assert_eq!(grounds(shelf.journal(), "0 6 6"), expected);
}

/// Five initiators; 1 to 4 enrol at lines 3 to 6 under an AccessID with unit 0.
fn enrolled() -> Shelf {
    let mut shelf = Shelf::new(5, &[5]);
    shelf.on(&[by_access(0xaa, &[(1, 5)])]);
    for initiator in 1..5 {
        assert_eq!(shelf.enroll(initiator, 0xaa), GOOD);
    }
    shelf
}

#[test]
fn the_sentence_names_who_could_open() {
    let shelf = enrolled();
    let could = "could open unit 0 in these lines.";
    let expected = [
        ("0 3 3", format!("Initiator 1 {could}")),
        ("0 3 4", format!("Initiators 1 and 2 {could}")),
        ("0 3 5", format!("Initiators 1, 2 and 3 {could}")),
        ("0 3 6", format!("Initiators 1, 2, 3 and 4 {could}")),
    ];
    for (words, text) in expected {
        assert_eq!(sentence(shelf.journal(), words), text);
    }
}

#[test]
fn the_sentence_names_who_was_pending() {
    let mut shelf = enrolled();
    for initiator in [4, 3, 2, 1] {
        shelf.tell(&format!("link {initiator}"));
    }
    shelf.go_to(12);
    let could = "could open unit 0 in these lines.";
    let none = format!("No initiator {could}");
    let expected = [
        // 4 is pending from line 7 on, and was enrolled up to there:
        ("0 7 7", format!("Initiators 1, 2, 3 and 4 {could}")),
        (
            "0 8 8",
            format!("Initiators 1, 2 and 3 {could} Initiator 4 was pending: it could not."),
        ),
        (
            "0 9 9",
            format!("Initiators 1 and 2 {could} Initiators 3 and 4 were pending: they could not."),
        ),
        (
            "0 10 10",
            format!("Initiator 1 {could} Initiators 2, 3 and 4 were pending: they could not."),
        ),
        (
            "0 11 11",
            format!("{none} Initiators 1, 2, 3 and 4 were pending: they could not."),
        ),
    ];
    for (words, text) in expected {
        assert_eq!(sentence(shelf.journal(), words), text, "{words}");
    }
}

#[test]
fn lines_that_are_no_statements_are_told_apart() {
    let journal = format!("link one\n\nsetup {} {}\r\nreach", tid(0), lun(5));
    let errors = "line 1: word 2: expected a decimal number below 18446744073709551616\n\
                  line 4: word 2: expected a decimal number up to 65536\n";
    let (text, told_errors) = told(&journal, "0 tsv");
    assert_eq!(told_errors, errors);
    let line = "0\t05\taccess controls off\t3\t4\tsetup, line 3\tstill stands";
    assert_eq!(text.lines().nth(1), Some(line));
    assert_eq!(state(&journal).1, errors);
}

#[test]
fn a_number_is_read_as_in_journals() {
    let journal = three_grounds().journal().to_string();
    assert_eq!(page(&journal, "00 002 0005"), page(&journal, "0 2 5"));
}

#[test]
fn wrong_questions_are_refused() {
    let unit = "UNIT: expected a decimal number from 0 to 31";
    let from = "FROM: expected a decimal number, 1 or more";
    let to = "TO: expected a decimal number, FROM or more";
    let shape = "expected UNIT [FROM TO] [tsv]";
    let cases: [(&[&str], &str); 14] = [
        (&[], shape),
        (&["tsv"], shape),
        (&["0", "1"], shape),
        (&["0", "1", "tsv"], shape),
        (&["0", "1", "2", "3"], shape),
        (&["0", "tsv", "tsv"], shape),
        (&["32"], unit),
        (&["-1"], unit),
        (&["+1"], unit),
        (&[""], unit),
        (&["18446744073709551616"], unit),
        (&["0", "0", "1"], from),
        (&["0", "2", "1"], to),
        (&["0", "1", "18446744073709551616"], to),
    ];
    for (words, expected) in cases {
        assert_eq!(Question::read(words), Err(expected), "{words:?}");
    }
}

/// Exit status, standard output and standard error of the program.
fn program(words: &[&str]) -> (Option<i32>, String, String) {
    let output = Command::new(env!("CARGO_BIN_EXE_second"))
        .args(words)
        .stdin(Stdio::null())
        .output()
        .expect("the program runs");
    let text = |bytes: &[u8]| String::from_utf8_lossy(bytes).into_owned();
    (
        output.status.code(),
        text(&output.stdout),
        text(&output.stderr),
    )
}

#[test]
fn wrong_words_end_with_status_2() {
    let fault = "second: audit: UNIT: expected a decimal number from 0 to 31";
    for (words, first) in [
        (&["audit", "32"][..], fault),
        (&["acl", "2"], "second: expected one of the following"),
        (&[], "second: expected one of the following"),
    ] {
        let (status, output, errors) = program(words);
        assert_eq!((status, output.as_str()), (Some(2), ""), "{words:?}");
        assert_eq!(errors.lines().next(), Some(first));
        assert!(errors.contains("second audit UNIT [FROM TO] [tsv] < JOURNAL"));
    }
}

#[test]
fn right_words_end_with_status_0() {
    let (status, output, errors) = program(&["audit", "31", "1", "1", "tsv"]);
    assert_eq!((status, errors.as_str()), (Some(0), ""));
    assert_eq!(
        output,
        "initiator\tLUN\tground\tfrom\tto\tbegun by\tended by\n"
    );
    let (status, output, errors) = program(&["acl"]);
    assert_eq!((status, errors.as_str()), (Some(0), ""));
    assert_eq!(output, NOTHING);
}

const NOTHING: &str = "\
access controls off, generation 0

Initiators: 0

Units: 0

ACEs: 0

Tokens: 0

Proxy LUNs: 0
";

#[test]
fn the_state_of_nothing() {
    assert_eq!(state(""), (NOTHING.to_string(), String::new()));
    let refused = format!("setup {} {}\nsetup 02 -\n", tid(0), lun(5));
    assert_eq!(state(&refused).0, NOTHING);
}

const ALL_TABLES: &str = "\
access controls on, generation 1

Initiators: 4
0, TransportID 010000000000000000000000000000000000000000000000: not enrolled
1, TransportID 010000000000000000000000000000000000000000000001: enrolled under AccessID bbbbbbbbbbbbbbbbbbbbbbbbbbbbbbbb0000000000000000
2, TransportID 010000000000000000000000000000000000000000000002: pending under AccessID 0a0a0a0a0a0a0a0a0a0a0a0a0a0a0a0a0000000000000000
3, TransportID 010000000000000000000000000000000000000000000003: not enrolled

Units: 2
0, default LUN fe
1, default LUN 10

ACEs: 4
AccessID 0a0a0a0a0a0a0a0a0a0a0a0a0a0a0a0a0000000000000000: LUN 08 unit 1
AccessID bbbbbbbbbbbbbbbbbbbbbbbbbbbbbbbb0000000000000000: LUN 09 unit 1
TransportID 010000000000000000000000000000000000000000000000: everything
TransportID 010000000000000000000000000000000000000000000003: LUN 02 unit 0, LUN ff unit 1

Tokens: 2
0000000000000002: unit 0, requested by initiator 0 at LUN fe
fedcba9876543210: unit 1, requested by initiator 3 at LUN ff

Proxy LUNs: 3
initiator 1, LUN 30: unit 0, token 0000000000000002
initiator 2, LUN 1f: unit 1, token fedcba9876543210
initiator 2, LUN 20: unit 0, token 0000000000000002
";

#[test]
fn the_state_of_all_tables() {
    let mut shelf = Shelf::new(4, &[0xfe, 0x10]);
    shelf.on(&[
        by_transport(3, &[(0xff, 0x10), (2, 0xfe)]),
        grant_all(1, &tid(0), false),
        by_access(0xbb, &[(9, 0x10)]),
        by_access(0x0a, &[(8, 0x10)]),
    ]);
    let spoiled = format!("{}{}", "bb".repeat(16), "ee".repeat(8));
    assert_eq!(shelf.out(1, 0x02, &spoiled), GOOD);
    assert_eq!(shelf.enroll(2, 0x0a), GOOD);
    shelf.tell("link 2");
    shelf.request(3, 0xff, 0xfedc_ba98_7654_3210);
    shelf.request(0, 0xfe, 2);
    assert_eq!(shelf.assign(2, 2, 0x20), GOOD);
    assert_eq!(shelf.assign(2, 0xfedc_ba98_7654_3210, 0x1f), GOOD);
    assert_eq!(shelf.assign(1, 2, 0x30), GOOD);
    assert_eq!(
        state(shelf.journal()),
        (ALL_TABLES.to_string(), String::new())
    );
}
