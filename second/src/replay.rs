//! A journal told to a coordinator without answering it: what audits and the
//! state in words are made from.

use crate::journal::{put_to, read_line, Statement};
use crate::lines::next_line;
use crate::state::Coordinator;
use std::io::{self, BufRead, Write};

/// What is there after the last line.
pub struct End {
    pub coordinator: Coordinator,
    /// How many lines the journal has, skipped ones too.
    pub lines: u64,
}

/// Tells a whole journal. `look` sees each statement with its line number and the
/// coordinator after it; lines that are no statements are told to `errors`.
pub fn replay(
    input: &mut impl BufRead,
    errors: &mut impl Write,
    mut look: impl FnMut(u64, &Statement, &Coordinator),
) -> io::Result<End> {
    let mut end = End {
        coordinator: Coordinator::default(),
        lines: 0,
    };
    while let Some(line) = next_line(input)? {
        end.lines += 1;
        match read_line(&line) {
            Ok(None) => {}
            Ok(Some(statement)) => {
                put_to(&mut end.coordinator, &statement);
                look(end.lines, &statement, &end.coordinator);
            }
            Err(misread) => writeln!(errors, "line {}: {}", end.lines, misread.message())?,
        }
    }
    errors.flush()?;
    Ok(end)
}
