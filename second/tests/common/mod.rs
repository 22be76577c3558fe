//! A shelf to tell statements to, written apart from the journal maker so that
//! a slip in one is not a slip in the other. Expected answers stand in the
//! tests, by hand, from the paper.
#![allow(dead_code)]

use second::journal::answer;
use std::io::Cursor;

pub const GOOD: &str = "command good 0 - kept";

/// The answers to a journal, line by line.
pub fn answers(journal: &[u8]) -> Vec<String> {
    let mut output = Vec::new();
    answer(&mut Cursor::new(journal), &mut output).expect("memory can be written");
    let text = String::from_utf8(output).expect("answers are ASCII");
    text.lines().map(str::to_string).collect()
}

/// A journal that grows, with the answer to its last line.
pub struct Shelf {
    journal: String,
}

impl Shelf {
    /// Initiators `n` with TransportID `tid(n)`, and units at these default LUNs.
    pub fn new(initiators: u8, default_luns: &[u8]) -> Self {
        let ids: String = (0..initiators).map(tid).collect();
        let luns: String = default_luns.iter().map(|nn| lun(*nn)).collect();
        let word = |text: String| if text.is_empty() { "-".into() } else { text };
        let mut shelf = Shelf {
            journal: String::new(),
        };
        let setup = format!("setup {} {}", word(ids), word(luns));
        assert_eq!(shelf.tell(&setup), "setup good");
        shelf
    }

    pub fn journal(&self) -> &str {
        &self.journal
    }

    /// Comments until the next line told is the one with this number.
    pub fn go_to(&mut self, line: usize) {
        while self.journal.matches('\n').count() + 1 < line {
            self.journal.push_str("#\n");
        }
    }

    pub fn tell(&mut self, line: &str) -> String {
        self.journal.push_str(line);
        self.journal.push('\n');
        answers(self.journal.as_bytes()).pop().unwrap_or_default()
    }

    pub fn out(&mut self, initiator: u8, action: u8, list: &str) -> String {
        let cdb = format!("87{action:02x}{:016x}{:08x}0000", 0, list.len() / 2);
        let list = if list.is_empty() { "-" } else { list };
        self.tell(&format!("command {initiator} {cdb} {list} {:016x} 0", 0))
    }

    /// MANAGE ACL with key 7 kept, at a generation.
    pub fn manage(&mut self, generation: u32, pages: &[String]) -> String {
        let list = format!("{}{}", header(7, 7, generation), pages.concat());
        self.out(0, 0x00, &list)
    }

    /// Turns access controls on with these pages and expects it to work.
    pub fn on(&mut self, pages: &[String]) {
        assert_eq!(self.manage(0, pages), GOOD);
    }

    pub fn enroll(&mut self, initiator: u8, id: u8) -> String {
        self.out(initiator, 0x02, &aid(id))
    }

    pub fn request(&mut self, initiator: u8, nn: u8, number: u64) -> String {
        let cdb = format!("8604{}000000080000", lun(nn));
        self.tell(&format!("command {initiator} {cdb} - {number:016x} 8"))
    }

    pub fn assign(&mut self, initiator: u8, token: u64, nn: u8) -> String {
        self.out(initiator, 0x09, &format!("{token:016x}{}", lun(nn)))
    }

    pub fn report(&mut self, key: u64, allocation: u32, buffer: usize) -> String {
        let cdb = format!("8600{key:016x}{allocation:08x}0000");
        self.tell(&format!("command 0 {cdb} - {:016x} {buffer}", 0))
    }

    pub fn route(&mut self, initiator: u8, nn: u8) -> String {
        self.tell(&format!("route {initiator} {}", lun(nn)))
    }

    /// The rows of the reach list as hex, four bytes a row, with blanks between.
    pub fn rows(&mut self) -> String {
        let answer = self.tell("reach 8192");
        let bytes = answer.split(' ').nth(3).unwrap_or_default().to_string();
        let rows: Vec<&str> = (16..bytes.len())
            .step_by(8)
            .map(|at| &bytes[at..at + 8])
            .collect();
        rows.join(" ")
    }
}

pub fn lun(nn: u8) -> String {
    format!("00{nn:02x}000000000000")
}

pub fn tid(initiator: u8) -> String {
    format!("01{}{initiator:02x}", "00".repeat(22))
}

pub fn aid(byte: u8) -> String {
    format!("{}{}", format!("{byte:02x}").repeat(16), "00".repeat(8))
}

pub fn header(key: u64, new_key: u64, generation: u32) -> String {
    format!("00000000{key:016x}{new_key:016x}00000000{generation:08x}")
}

/// Page 00h; LUACDs as pairs of LUN and default LUN.
pub fn grant(kind: u8, id: &str, nocncl: bool, luacds: &[(u8, u8)]) -> String {
    let length = 28 + 20 * luacds.len();
    let bit = if nocncl { "80" } else { "00" };
    let luacd = |(nn, default): &(u8, u8)| format!("00000000{}{}", lun(*nn), lun(*default));
    let luacds: String = luacds.iter().map(luacd).collect();
    format!("0000{length:04x}{bit}{kind:02x}0018{id}{luacds}")
}

pub fn by_transport(initiator: u8, luacds: &[(u8, u8)]) -> String {
    grant(1, &tid(initiator), false, luacds)
}

pub fn by_access(id: u8, luacds: &[(u8, u8)]) -> String {
    grant(0, &aid(id), false, luacds)
}

pub fn grant_all(kind: u8, id: &str, nocncl: bool) -> String {
    let bit = if nocncl { "80" } else { "00" };
    format!("0100001c{bit}{kind:02x}0018{id}")
}

pub fn revoke(tokens: &[u64]) -> String {
    let list: String = tokens.iter().map(|token| format!("{token:016x}")).collect();
    format!("0200{:04x}{list}", 8 * tokens.len())
}

pub fn check(code: &str) -> String {
    format!("command check 700005000000000a00000000{code}00000000")
}
