//! Lines of an input of any length, in bounded memory.

use std::io::{self, BufRead};

/// The bytes of a line before its LF, a CR among them.
pub const MOST_LINE: usize = 262_144;

/// A line as it stands in the input.
#[derive(Clone, PartialEq, Eq, Debug)]
pub struct Line {
    /// The bytes without the LF; those of a line too long are cut off.
    pub bytes: Vec<u8>,
    pub too_long: bool,
    /// Only the last line of an input may lack its LF.
    pub ended: bool,
}

impl Line {
    /// The bytes without one CR at their end.
    pub fn text(&self) -> &[u8] {
        self.bytes.strip_suffix(b"\r").unwrap_or(&self.bytes)
    }
}

/// The next line, or nothing at the end of the input.
pub fn next_line(input: &mut impl BufRead) -> io::Result<Option<Line>> {
    let mut line = Line {
        bytes: Vec::new(),
        too_long: false,
        ended: false,
    };
    let mut any = false;
    while !line.ended {
        let chunk = match input.fill_buf() {
            Err(error) if error.kind() == io::ErrorKind::Interrupted => continue,
            other => other?,
        };
        if chunk.is_empty() {
            break;
        }
        any = true;
        let used = take(&mut line, chunk);
        input.consume(used);
    }
    Ok(any.then_some(line))
}

/// Takes what belongs to the line from the front of a chunk; how much it was.
fn take(line: &mut Line, chunk: &[u8]) -> usize {
    let end = chunk.iter().position(|byte| *byte == b'\n');
    let part = &chunk[..end.unwrap_or(chunk.len())];
    let room = MOST_LINE - line.bytes.len();
    line.too_long |= part.len() > room;
    line.bytes.extend(&part[..part.len().min(room)]);
    line.ended = end.is_some();
    part.len() + usize::from(line.ended)
}
