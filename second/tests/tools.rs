//! The maker and the cover.

mod common;

use second::cover::{cover, unlisted};
use second::make::{make, Order, THEMES};
use std::io::{BufRead, Cursor};

fn made(words: &[&str]) -> Vec<u8> {
    let order = Order::read(words).expect("a right order");
    let mut journal = Vec::new();
    make(&order, &mut journal).expect("memory can be written");
    journal
}

#[test]
fn a_seed_makes_one_journal() {
    assert_eq!(made(&["5", "3"]), made(&["5", "3", "mixed"]));
    assert_ne!(made(&["5", "3"]), made(&["6", "3"]));
}

#[test]
fn wrong_orders_are_refused() {
    for words in [
        &["1"][..],
        &["x", "1"],
        &["1", "-1"],
        &["1", "1", "none"],
        &[],
    ] {
        assert!(Order::read(words).is_none(), "{words:?}");
    }
}

#[test]
fn every_counted_name_is_listed() {
    for theme in THEMES {
        let journal = made(&["11", "25", theme]);
        let names = unlisted(&mut Cursor::new(journal)).expect("memory can be read");
        assert_eq!(names, Vec::<String>::new(), "{theme}");
    }
}

fn covered(journals: &[&str]) -> (Vec<String>, bool) {
    let inputs = journals.iter().map(|text| {
        let input: Box<dyn BufRead> = Box::new(Cursor::new(text.as_bytes().to_vec()));
        input
    });
    let mut output = Vec::new();
    let whole = cover(inputs.collect(), &mut output).expect("memory can be written");
    let text = String::from_utf8(output).expect("names are ASCII");
    (text.lines().map(str::to_string).collect(), whole)
}

#[test]
fn each_journal_begins_with_its_own_coordinator() {
    let setup = format!("setup {} -\n", "00".repeat(24));
    let (lines, whole) = covered(&[&setup, "link 0\nreach 8\n", "reach 8\n"]);
    assert!(lines.contains(&"refused.3.link 1".to_string()));
    assert!(lines.contains(&"alone refused.3.link".to_string()));
    assert!(lines.contains(&"reach.empty-off 2".to_string()));
    assert!(!lines.contains(&"alone reach.empty-off".to_string()));
    assert!(!whole);
}

/// Bytes of all kinds, and good journals with bytes changed: no panic, and one
/// answer for each line that is not skipped.
#[test]
fn spoiled_journals_are_answered() {
    let mut journal = made(&["3", "4", "mixed"]);
    let mut at = 7;
    for step in 0..4000usize {
        at = (at * 31 + step * 17 + 11) % journal.len();
        journal[at] = (step % 256) as u8;
    }
    let lines = journal.split(|byte| *byte == b'\n').map(|line| {
        let line = line.strip_suffix(b"\r").unwrap_or(line);
        usize::from(!line.is_empty() && line[0] != b'#')
    });
    let counted: usize = lines.sum();
    assert_eq!(answer_count(&journal), counted);
}

fn answer_count(journal: &[u8]) -> usize {
    let mut output = Vec::new();
    second::journal::answer(&mut Cursor::new(journal), &mut output).expect("memory can be written");
    output.iter().filter(|byte| **byte == b'\n').count()
}
