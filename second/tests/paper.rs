//! Every example of the paper, and every mistake it lists.

mod common;
use common::*;

/// Units u0, u1, u2 at default LUNs 10h, 11h, 12h.
const UNITS: [u8; 3] = [0x10, 0x11, 0x12];

#[test]
fn of_three_luacds_only_the_last_stands() {
    let mut shelf = Shelf::new(1, &UNITS);
    shelf.on(&[by_transport(0, &[(1, 0x11), (2, 0x12), (1, 0x12)])]);
    assert_eq!(shelf.rows(), "00010254");
}

#[test]
fn an_overruled_luacd_overrules_too() {
    let mut shelf = Shelf::new(1, &UNITS);
    shelf.on(&[by_transport(0, &[(1, 0x11), (1, 0x12), (2, 0x12)])]);
    assert_eq!(shelf.rows(), "00020254");
}

#[test]
fn enroll_clashes_with_one_lun_and_two_units() {
    let mut shelf = Shelf::new(1, &UNITS);
    shelf.on(&[by_transport(0, &[(1, 0x10)]), by_access(0xaa, &[(1, 0x11)])]);
    let sense = "700005000000000a00000000200b00000000";
    assert_eq!(shelf.enroll(0, 0xaa), format!("command check {sense}"));
    assert_eq!(shelf.rows(), "00010054");
}

#[test]
fn enroll_with_the_same_row_is_good() {
    let mut shelf = Shelf::new(1, &UNITS);
    shelf.on(&[by_transport(0, &[(1, 0x10)]), by_access(0xaa, &[(1, 0x10)])]);
    assert_eq!(shelf.enroll(0, 0xaa), GOOD);
    assert_eq!(shelf.rows(), "00010041 00010054");
}

#[test]
fn enroll_clashes_with_one_unit_and_two_luns() {
    let mut shelf = Shelf::new(1, &UNITS);
    shelf.on(&[by_transport(0, &[(1, 0x10)]), by_access(0xaa, &[(2, 0x10)])]);
    assert_eq!(shelf.enroll(0, 0xaa), check("200b"));
}

#[test]
fn reach_lists_of_the_paper() {
    let mut shelf = Shelf::new(1, &[5]);
    let off = "reach good 12 00000008010000010005004f kept";
    assert_eq!(shelf.tell("reach 12"), off);
    shelf.on(&[]);
    assert_eq!(shelf.tell("reach 8"), "reach good 8 0000000401010000 kept");
    assert_eq!(shelf.manage(1, &[by_transport(0, &[(1, 5)])]), GOOD);
    let on = "reach good 12 000000080101000100010054 kept";
    assert_eq!(shelf.tell("reach 12"), on);
}

#[test]
fn report_acl_on_and_empty() {
    let mut shelf = Shelf::new(1, &[5]);
    shelf.on(&[]);
    assert_eq!(
        shelf.report(7, 8, 8),
        "command good 8 0000000400000001 kept"
    );
}

#[test]
fn sixteen_and_seventeen_luacds() {
    let units: Vec<u8> = (0..18).collect();
    let at_default = |count: u8| -> Vec<(u8, u8)> { (0..count).map(|nn| (nn, nn)).collect() };
    let mut shelf = Shelf::new(1, &units);
    shelf.on(&[by_transport(0, &at_default(16))]);
    assert_eq!(
        shelf.manage(1, &[by_transport(0, &at_default(17))]),
        check("5505")
    );
    let mut overruled = at_default(16);
    overruled.push((15, 16));
    assert_eq!(shelf.manage(1, &[by_transport(0, &overruled)]), GOOD);
    assert_eq!(shelf.route(0, 15), "route unit 16");
}

#[test]
fn thirty_two_tokens_one_revoked_one_requested() {
    let mut shelf = Shelf::new(1, &[5]);
    shelf.on(&[by_transport(0, &[(1, 5)])]);
    for number in 1..=32 {
        let token = format!("command good 8 {number:016x} kept");
        assert_eq!(shelf.request(0, 1, number), token);
    }
    assert_eq!(shelf.request(0, 1, 33), check("5505"));
    assert_eq!(shelf.out(0, 0x07, "0000000000000011"), GOOD);
    assert_eq!(
        shelf.request(0, 1, 33),
        "command good 8 0000000000000021 kept"
    );
}

#[test]
fn a_list_of_length_0_while_disabled_leaves_it_disabled() {
    let mut shelf = Shelf::new(1, &[5]);
    assert_eq!(shelf.out(0, 0x00, ""), GOOD);
    assert_eq!(shelf.rows(), "0005004f");
}

#[test]
fn mistake_clashes_page_by_page() {
    let mut shelf = Shelf::new(2, &UNITS);
    shelf.on(&[by_transport(0, &[(1, 0x11)])]);
    shelf.request(0, 1, 0xbeef);
    assert_eq!(shelf.assign(1, 0xbeef, 1), GOOD);
    let clashing = by_transport(1, &[(1, 0x10)]);
    assert_eq!(
        shelf.manage(1, std::slice::from_ref(&clashing)),
        check("200b")
    );
    assert_eq!(shelf.manage(1, &[clashing, revoke(&[0xbeef])]), GOOD);
    assert_eq!(shelf.rows(), "00010154 01010054");
}

#[test]
fn mistake_w_as_no_row() {
    let mut shelf = Shelf::new(1, &UNITS);
    shelf.on(&[by_transport(0, &[(1, 0x11)]), by_access(0xaa, &[(2, 0x12)])]);
    shelf.enroll(0, 0xaa);
    shelf.request(0, 1, 5);
    assert_eq!(shelf.tell("link 0"), "link good");
    assert_eq!(
        shelf.manage(1, &[by_transport(0, &[(2, 0x11)])]),
        check("200b")
    );
    assert_eq!(
        shelf.manage(1, &[by_transport(0, &[(1, 0x12)])]),
        check("200b")
    );
    assert_eq!(shelf.assign(0, 5, 2), check("2009"));
    assert_eq!(shelf.enroll(0, 0xaa), GOOD);
    assert_eq!(shelf.rows(), "00010154 00020241");
}

#[test]
fn mistake_proxy_luns_left_behind() {
    let mut shelf = Shelf::new(2, &UNITS);
    shelf.on(&[by_transport(0, &[(1, 0x11)])]);
    shelf.request(0, 1, 6);
    shelf.assign(0, 6, 8);
    shelf.assign(1, 6, 9);
    assert_eq!(shelf.rows(), "00010154 00080158 01090158");
    assert_eq!(shelf.out(0, 0x07, "0000000000000006"), GOOD);
    assert_eq!(shelf.rows(), "00010154");
    shelf.request(0, 1, 6);
    assert_eq!(shelf.rows(), "00010154");
}

#[test]
fn mistake_good_with_no_action_as_a_grant() {
    let mut shelf = Shelf::new(1, &[5]);
    assert_eq!(shelf.enroll(0, 0xaa), GOOD);
    assert_eq!(shelf.request(0, 5, 9), GOOD);
    assert_eq!(shelf.assign(0, 9, 6), check("200a"));
    shelf.on(&[]);
    assert_eq!(shelf.out(0, 0x02, ""), GOOD);
    assert_eq!(shelf.out(0, 0x09, ""), GOOD);
    assert_eq!(shelf.rows(), "");
}

#[test]
fn mistake_inner_length_shrunk() {
    let mut shelf = Shelf::new(1, &UNITS);
    shelf.on(&[by_transport(0, &[(2, 0x12), (1, 0x11)])]);
    let short = "command good 12 0000004c0000000100000044 kept";
    assert_eq!(shelf.report(7, 12, 64), short);
    assert_eq!(shelf.report(7, 80, 79), "command refused 6");
}
