//! The text of journals: lines, words, messages, limits.

mod common;
use common::answers;

const EMPTY: &str = "reach good 8 0000000401000000 kept";

#[test]
fn before_the_first_setup_there_is_nothing() {
    assert_eq!(answers(b"reach 8\nlink 0\n"), [EMPTY, "link refused 3"]);
}

#[test]
fn lines_and_their_ends() {
    assert_eq!(answers(b""), Vec::<String>::new());
    assert_eq!(answers(b"\n\r\n# x\n#\r\n"), Vec::<String>::new());
    assert_eq!(answers(b"reach 8"), [EMPTY]);
    assert_eq!(answers(b"reach 8\r\n  reach   8  \nreach 8\r"), [EMPTY; 3]);
}

/// Lines that are no statements, each with its message.
fn wrong_lines() -> Vec<(&'static str, String)> {
    let first = "word 1: expected setup, command, link, route or reach";
    let bytes = |at| format!("word {at}: expected bytes in hex or -");
    let list = "word 4: expected at most 65536 bytes in hex or -";
    let number = "word 2: expected a decimal number below 18446744073709551616";
    let buffer = |at| format!("word {at}: expected a decimal number up to 65536");
    let digits = |at| format!("word {at}: expected 16 hex digits");
    let end = |at| format!("word {at}: expected the end of the line");
    vec![
        (" ", first.into()),
        ("Reach 8", first.into()),
        (" # no comment", first.into()),
        ("reach\t8", first.into()),
        ("setup", bytes(2)),
        ("setup 0 zz", bytes(2)),
        ("setup - 0", bytes(3)),
        ("setup - - -", end(4)),
        ("command", number.into()),
        ("command -1", number.into()),
        ("command 0 8", bytes(3)),
        ("command 0 86", list.into()),
        ("command 0 86 x", list.into()),
        ("command 0 86 -", digits(5)),
        ("command 0 86 - 0", digits(5)),
        ("command 0 86 - 0000000000000000", buffer(6)),
        ("command 0 86 - 0000000000000000 65537", buffer(6)),
        ("command 0 86 - 0000000000000000 8 8", end(7)),
        ("link", number.into()),
        ("link 18446744073709551616", number.into()),
        ("link 0 0", end(3)),
        ("route 0", digits(3)),
        ("route 0 -", digits(3)),
        ("route 0 0001000000000000 0", end(4)),
        ("reach", buffer(2)),
        ("reach 8 8", end(3)),
    ]
}

#[test]
fn the_first_wrong_word_is_named() {
    for (line, message) in wrong_lines() {
        let journal = format!("\n{line}\n");
        assert_eq!(answers(journal.as_bytes()), [format!("line 2: {message}")]);
    }
}

#[test]
fn numbers_count_by_value() {
    assert_eq!(answers(b"reach 00000000000000000000000000008\n"), [EMPTY]);
    assert_eq!(answers(b"link 18446744073709551615\n"), ["link refused 3"]);
}

#[test]
fn the_longest_line() {
    let mut line = b"reach 8".to_vec();
    line.resize(262_144, b' ');
    assert_eq!(answers(&line), [EMPTY]);
    line.push(b'\n');
    assert_eq!(answers(&line), [EMPTY]);
    line.insert(0, b' ');
    let message = "line 1: expected at most 262144 bytes";
    assert_eq!(answers(&line), [message]);
    let mut comment = vec![b'#'; 262_145];
    comment.extend(b"\nreach 8\n");
    assert_eq!(answers(&comment), [message, EMPTY]);
}

#[test]
fn the_longest_list() {
    let command = |bytes: usize| {
        let list = "00".repeat(bytes);
        let cdb = format!("8700{:016x}{bytes:08x}0000", 0);
        format!("command 0 {cdb} {list} {:016x} 65536\n", 0)
    };
    let most = command(65_536);
    assert_eq!(answers(most.as_bytes()), ["command refused 3"]);
    let over = command(65_537);
    let message = "line 1: word 4: expected at most 65536 bytes in hex or -";
    assert_eq!(answers(over.as_bytes()), [message]);
}

#[test]
fn a_journal_cut_anywhere_answers_as_far_as_it_goes() {
    let journal = b"setup - 0005000000000000\r\nreach 8\r\n# end\nlink 0\n";
    let whole = answers(journal);
    for end in 0..journal.len() {
        let cut = answers(&journal[..end]);
        let sure = cut.len().saturating_sub(1);
        assert_eq!(cut[..sure], whole[..sure], "cut at {end}");
    }
}
