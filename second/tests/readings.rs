//! Settled readings of the paper, and the order of its tests.

mod common;
use common::*;

/// One initiator with LUN 1 to the unit at 10h, enabled, key 7.
fn small() -> Shelf {
    let mut shelf = Shelf::new(2, &[0x10, 0x11]);
    shelf.on(&[by_transport(0, &[(1, 0x10)])]);
    shelf
}

#[test]
fn lengths_come_before_disabled() {
    let mut shelf = Shelf::new(1, &[5]);
    assert_eq!(shelf.out(0, 0x02, "00"), check("1a00"));
    assert_eq!(shelf.out(0, 0x00, &"00".repeat(27)), check("1a00"));
    assert_eq!(shelf.out(0, 0x03, "00"), check("2400"));
    assert_eq!(shelf.out(0, 0x04, ""), check("2400"));
    assert_eq!(shelf.out(0, 0x0a, &lun(1)), GOOD);
    assert_eq!(shelf.out(0, 0x0a, "00"), check("1a00"));
    let short = format!("command 0 8604{}000000070000 - {:016x} 8", lun(5), 1);
    assert_eq!(shelf.tell(&short), check("2400"));
    assert_eq!(shelf.out(0, 0x09, ""), GOOD);
    assert_eq!(shelf.out(0, 0x09, &"ff".repeat(16)), check("200a"));
}

#[test]
fn refusals_come_before_everything() {
    let mut shelf = small();
    let cdb = "8700000000000000000000000c000000";
    let three = format!("command 2 {cdb}00 00 0000000000000000 0");
    assert_eq!(shelf.tell(&three), "command refused 3");
    let huge = "command 18446744073709551615 - - 0000000000000000 0";
    assert_eq!(shelf.tell(huge), "command refused 3");
    let four = format!("command 0 {cdb}00 00 0000000000000000 0");
    assert_eq!(shelf.tell(&four), "command refused 4");
    let five = "command 0 12000000000000000000000000000000 00 0000000000000000 0";
    assert_eq!(shelf.tell(five), "command refused 5");
    let unknown = "command 0 12000000000000000000000000ff0000 - 0000000000000000 0";
    assert_eq!(shelf.tell(unknown), check("2000"));
    let out = "command 0 870b0000000000000000010000000000 00 0000000000000000 0";
    assert_eq!(shelf.tell(out), "command refused 5");
}

#[test]
fn refusal_6_issues_no_token() {
    let mut shelf = small();
    let request = format!("command 0 8604{}ffffffff0000 - {:016x}", lun(1), 9);
    assert_eq!(shelf.tell(&format!("{request} 7")), "command refused 6");
    let token = "command good 8 0000000000000009 kept";
    assert_eq!(shelf.tell(&format!("{request} 9")), token);
    assert_eq!(shelf.tell(&format!("{request} 7")), check("5505"));
}

#[test]
fn reserved_bits_are_ignored() {
    let mut shelf = small();
    let cancel = "command 0 87e3ffffffffffffffff00000000ffff - 0000000000000000 3";
    assert_eq!(shelf.tell(cancel), "command good 0 - kept");
    let noisy = "ff0000000000000007";
    let list = format!("ffffff{noisy}{:016x}ff7fffff00000001", 7);
    assert_eq!(shelf.out(0, 0x00, &list), GOOD);
    let wrong_form = format!("{}{:02x}", &lun(1)[..14], 1);
    assert_eq!(shelf.out(0, 0x08, &wrong_form), GOOD);
}

#[test]
fn phases_of_manage_acl() {
    let mut shelf = small();
    let wrong_key = header(8, 7, 9);
    let cut_head = format!("{wrong_key}000000");
    assert_eq!(shelf.out(0, 0, &cut_head), check("1a00"));
    let cut_body = format!("{wrong_key}ff000001");
    assert_eq!(shelf.out(0, 0, &cut_body), check("1a00"));
    assert_eq!(shelf.out(0, 0, &wrong_key), check("2003"));
    assert_eq!(shelf.manage(0, &[]), check("2600"));
    let unknown = "04000000".to_string();
    assert_eq!(shelf.manage(1, &[unknown]), check("2600"));
    assert_eq!(
        shelf.manage(1, &[by_transport(0, &[(1, 0x99)])]),
        check("2009")
    );
}

#[test]
fn malformed_pages() {
    let mut shelf = small();
    let page = by_transport(0, &[(1, 0x10)]);
    let put = |at: usize, byte: &str| {
        let mut bad = page.clone();
        bad.replace_range(2 * at..2 * at + 2, byte);
        bad
    };
    for (at, byte) in [(5, "02"), (6, "01"), (7, "17"), (8, "02"), (32, "01")] {
        assert_eq!(
            shelf.manage(1, &[put(at, byte)]),
            check("2600"),
            "byte {at}"
        );
    }
    for (at, byte) in [(36, "01"), (43, "01"), (44, "01"), (45, "12")] {
        assert_eq!(
            shelf.manage(1, &[put(at, byte)]),
            check("2009"),
            "byte {at}"
        );
    }
    for short in ["0000001b", "01000000", "02000007", "03000001"] {
        let length = usize::from_str_radix(&short[4..], 16).unwrap_or(0);
        let bad = format!("{short}{}", "00".repeat(length));
        assert_eq!(shelf.manage(1, &[bad]), check("2600"), "page {short}");
    }
}

#[test]
fn two_grant_pages_with_one_identifier() {
    let mut shelf = small();
    let tail = format!("{}ffffffffffffffff", &aid(0xaa)[..32]);
    let one = by_access(0xaa, &[(1, 0x10)]);
    let twins = [one.clone(), grant(0, &tail, false, &[])];
    assert_eq!(shelf.manage(1, &twins), check("2600"));
    let zeros = "00".repeat(24);
    let both_types = [grant_all(0, &zeros, true), grant_all(1, &zeros, true)];
    assert_eq!(shelf.manage(1, &both_types), GOOD);
    let same_transport = [grant_all(1, &tid(0), false), by_transport(0, &[])];
    assert_eq!(shelf.manage(1, &same_transport), check("2600"));
}

#[test]
fn overruled_descriptors_are_tested_too() {
    let mut shelf = small();
    let mut page = by_transport(0, &[(1, 0x10), (1, 0x10)]);
    page.replace_range(2 * 43..2 * 44, "01");
    assert_eq!(shelf.manage(1, &[page]), check("2009"));
}

#[test]
fn over_32_on_the_way_is_no_matter() {
    let mut shelf = Shelf::new(1, &[5]);
    let grants: Vec<String> = (0..32).map(|n| by_access(n, &[(1, 5)])).collect();
    shelf.on(&grants);
    let one_more = by_access(0x40, &[(1, 5)]);
    assert_eq!(
        shelf.manage(1, std::slice::from_ref(&one_more)),
        check("5505")
    );
    assert_eq!(shelf.manage(1, &[one_more, by_access(0, &[])]), GOOD);
}

#[test]
fn nocncl_and_removal() {
    let mut shelf = Shelf::new(1, &[5, 6]);
    shelf.on(&[by_access(0xaa, &[(1, 5)])]);
    shelf.enroll(0, 0xaa);
    assert_eq!(
        shelf.manage(1, &[grant(0, &aid(0xaa), true, &[(2, 6)])]),
        GOOD
    );
    assert_eq!(shelf.rows(), "00020141");
    assert_eq!(
        shelf.manage(1, &[grant(0, &aid(0xaa), false, &[(2, 6)])]),
        GOOD
    );
    assert_eq!(shelf.rows(), "");
    shelf.enroll(0, 0xaa);
    shelf.tell("link 0");
    assert_eq!(shelf.manage(1, &[grant_all(0, &aid(0xaa), true)]), GOOD);
    assert_eq!(shelf.rows(), "00050057 00060157");
    assert_eq!(shelf.manage(1, &[grant(0, &aid(0xaa), true, &[])]), GOOD);
    assert_eq!(shelf.enroll(0, 0xaa), check("2002"));
}

#[test]
fn another_accessid_changes_nothing() {
    let mut shelf = Shelf::new(1, &[5]);
    shelf.on(&[by_access(0xaa, &[(1, 5)])]);
    shelf.enroll(0, 0xaa);
    assert_eq!(shelf.enroll(0, 0xbb), check("2008"));
    assert_eq!(shelf.rows(), "00010041");
    let tail = format!("{}0123456789abcdef", &aid(0xaa)[..32]);
    shelf.tell("link 0");
    assert_eq!(shelf.out(0, 0x02, &tail), GOOD);
    assert_eq!(shelf.rows(), "00010041");
}

#[test]
fn proxy_luns_clash_only_with_two_units_at_one_lun() {
    let mut shelf = Shelf::new(2, &[5, 6]);
    shelf.on(&[by_transport(1, &[(1, 5)]), by_access(0xaa, &[(9, 5)])]);
    shelf.request(1, 1, 3);
    assert_eq!(shelf.assign(0, 3, 9), GOOD);
    assert_eq!(shelf.assign(0, 3, 10), GOOD);
    assert_eq!(shelf.enroll(0, 0xaa), GOOD);
    assert_eq!(shelf.rows(), "00090041 00090058 000a0058 01010054");
    assert_eq!(
        shelf.manage(1, &[by_transport(0, &[(10, 6)])]),
        check("200b")
    );
    assert_eq!(shelf.manage(1, &[by_transport(0, &[(9, 5)])]), GOOD);
    assert_eq!(shelf.out(0, 0x0a, &lun(9)), GOOD);
    assert_eq!(shelf.out(0, 0x0a, &lun(9)), check("2009"));
}

#[test]
fn request_by_w_and_x() {
    let mut shelf = Shelf::new(2, &[5, 6]);
    shelf.on(&[
        by_transport(1, &[(1, 5)]),
        by_access(0xaa, &[(9, 5), (8, 6)]),
    ]);
    shelf.request(1, 1, 3);
    shelf.assign(0, 3, 9);
    assert_eq!(shelf.request(0, 9, 4), check("2009"));
    shelf.enroll(0, 0xaa);
    shelf.tell("link 0");
    assert_eq!(shelf.request(0, 9, 4), check("2001"));
    assert_eq!(shelf.request(0, 8, 4), check("2001"));
    let unit = "route unit 0";
    assert_eq!(shelf.route(0, 9), unit);
    let pending = "route check 700005000000000a00000000200100000000";
    assert_eq!(shelf.route(0, 8), pending);
    shelf.manage(1, &[by_transport(0, &[(8, 6)])]);
    assert_eq!(
        shelf.request(0, 8, 4),
        "command good 8 0000000000000004 kept"
    );
}

#[test]
fn tokens_are_revoked_by_their_requester_and_by_the_lun_named() {
    let mut shelf = small();
    shelf.request(0, 1, 3);
    shelf.assign(1, 3, 4);
    assert_eq!(shelf.out(1, 0x07, "0000000000000003"), GOOD);
    assert_eq!(shelf.route(1, 4), "route unit 0");
    shelf.manage(1, &[by_transport(0, &[(2, 0x10)])]);
    shelf.request(0, 2, 5);
    shelf.assign(1, 5, 6);
    assert_eq!(shelf.out(0, 0x08, &lun(1)), GOOD);
    assert_eq!(shelf.rows(), "00020054 01060058");
}

#[test]
fn reports_in_order() {
    let mut shelf = Shelf::new(1, &[5, 6]);
    let high = grant(0, &aid(0x80), false, &[(4, 6), (3, 5)]);
    let low = format!("{}ffffffffffffffff", &aid(0x7f)[..32]);
    shelf.on(&[by_transport(0, &[(1, 5)]), high, grant_all(0, &low, true)]);
    shelf.request(0, 1, 0x8000000000000000);
    shelf.request(0, 1, 2);
    // Pages of 32, 32 + 40, 32 + 20 and 4 + 40 bytes: 200, and 4 of the header.
    let expected = [
        "000000cc00000001",
        "0100001c00000018",
        &aid(0x7f),
        "0000004400000018",
        &aid(0x80),
        &format!("00000000{}{}", lun(3), lun(5)),
        &format!("00000000{}{}", lun(4), lun(6)),
        "0000003000010018",
        &tid(0),
        &format!("00000000{}{}", lun(1), lun(5)),
        "02000028",
        &format!("00000000{:016x}{}", 2, lun(5)),
        &format!("00000000{:016x}{}", 0x8000000000000000u64, lun(5)),
    ];
    let whole = format!("command good 208 {} kept", expected.concat());
    assert_eq!(shelf.report(7, 1000, 208), whole);
    assert_eq!(shelf.report(8, 0, 0), check("2003"));
}

#[test]
fn disable_empties_all_but_the_setup() {
    let mut shelf = small();
    shelf.request(0, 1, 3);
    assert_eq!(
        shelf.out(0, 0x01, &format!("ffffffff{:016x}", 8)),
        check("2003")
    );
    assert_eq!(shelf.out(1, 0x01, &format!("ffffffff{:016x}", 7)), GOOD);
    assert_eq!(shelf.rows(), "0010004f 0011014f 0110004f 0111014f");
    assert_eq!(
        shelf.report(9, 8, 8),
        "command good 8 0000000400000000 kept"
    );
    assert_eq!(shelf.manage(1, &[]), check("2600"));
    shelf.on(&[]);
    assert_eq!(shelf.rows(), "");
    assert_eq!(shelf.assign(0, 3, 1), check("200a"));
}

#[test]
fn setups() {
    let cases = [
        ("- -".to_string(), true),
        (format!("{} -", tid(1)), true),
        (format!("{}{} -", tid(1), tid(1)), false),
        (format!("02{} -", &tid(1)[2..]), false),
        (format!("{} -", &tid(1)[2..]), false),
        (format!("- {}{}", lun(0), lun(255)), true),
        (format!("- {}{}", lun(3), lun(3)), false),
        ("- 0100000000000000".to_string(), false),
        ("- 00000000000000".to_string(), false),
        (format!("{} -", (0..16).map(tid).collect::<String>()), true),
        (format!("{} -", (0..17).map(tid).collect::<String>()), false),
        (format!("- {}", (0..32).map(lun).collect::<String>()), true),
        (format!("- {}", (0..33).map(lun).collect::<String>()), false),
    ];
    for (words, good) in cases {
        let expected = if good {
            "setup good"
        } else {
            "setup refused 1"
        };
        let line = format!("setup {words}\n");
        assert_eq!(answers(line.as_bytes()), [expected], "{words}");
    }
}

#[test]
fn a_wrong_lun_comes_before_room() {
    let mut shelf = Shelf::new(1, &[5]);
    let grants: Vec<String> = (0..32).map(|n| by_access(n, &[(1, 5)])).collect();
    shelf.on(&grants);
    let one_more = by_access(0x40, &[(1, 5)]);
    let no_unit = by_access(0, &[(1, 6)]);
    let mut form = by_access(0, &[(1, 5)]);
    form.replace_range(2 * 43..2 * 44, "01");
    for wrong in [no_unit, form] {
        for pages in [[one_more.clone(), wrong.clone()], [wrong, one_more.clone()]] {
            assert_eq!(shelf.manage(1, &pages), check("2009"));
        }
    }
}

#[test]
fn a_proxy_lun_opens_beside_other_rows() {
    let mut shelf = Shelf::new(2, &[5, 6]);
    shelf.on(&[by_transport(1, &[(1, 6)]), by_access(0xaa, &[(9, 6)])]);
    shelf.request(1, 1, 3);
    shelf.assign(0, 3, 9);
    let unit = "route unit 1";
    shelf.enroll(0, 0xaa);
    assert_eq!(shelf.route(0, 9), unit);
    shelf.tell("link 0");
    assert_eq!(shelf.route(0, 9), unit);
    shelf.manage(1, &[by_transport(0, &[(9, 6)]), by_access(0xaa, &[])]);
    assert_eq!(shelf.rows(), "00090154 00090158 01010154");
    assert_eq!(shelf.route(0, 9), unit);
}

#[test]
fn page_codes_over_03h() {
    let mut shelf = small();
    shelf.request(0, 1, 3);
    for empty in ["04000000", "7f000000", "82000000", "83000000", "ff000000"] {
        let page = empty.to_string();
        assert_eq!(shelf.manage(1, &[page]), check("2600"), "page {empty}");
    }
    let right = [
        by_transport(0, &[(2, 0x10)]),
        grant_all(1, &tid(0), false),
        revoke(&[3]),
    ];
    for page in right {
        let marked = format!("8{}", &page[1..]);
        assert_eq!(shelf.manage(1, &[marked]), check("2600"), "page {page}");
    }
}

#[test]
fn a_transportid_page_ends_no_enrolment() {
    let mut shelf = Shelf::new(2, &[5]);
    shelf.on(&[grant(0, &tid(1), false, &[(1, 5)])]);
    assert_eq!(shelf.out(0, 0x02, &tid(0)), GOOD);
    for page in [
        by_transport(1, &[(1, 5)]),
        by_transport(1, &[(2, 5)]),
        grant_all(1, &tid(1), false),
        by_transport(1, &[]),
    ] {
        assert_eq!(shelf.manage(1, &[page]), GOOD);
        assert_eq!(shelf.route(0, 1), "route unit 0");
    }
}

#[test]
fn revoke_all_compares_eight_bytes() {
    let mut shelf = small();
    shelf.request(0, 1, 3);
    shelf.assign(1, 3, 4);
    for wrong in ["0101000000000000", "0001000000000001", "0001800000000000"] {
        assert_eq!(shelf.out(0, 0x08, wrong), GOOD);
        assert_eq!(shelf.route(1, 4), "route unit 0", "LUN {wrong}");
    }
    assert_eq!(shelf.out(0, 0x08, &lun(1)), GOOD);
    assert_eq!(shelf.assign(1, 3, 4), check("200a"));
}
