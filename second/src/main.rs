//! `second answer`, `audit`, `acl`, `make`, `cover` and `bench`.

use second::{acl, audit, bench, cover, journal, make};
use std::fs::File;
use std::io::{self, BufRead, BufReader, BufWriter, Write};
use std::process::ExitCode;

const USAGE: &str = "\
second answer < JOURNAL              the answer lines
second audit UNIT [FROM TO] [tsv] < JOURNAL
                                     who could open that unit, when, and on what ground
second acl < JOURNAL                 the state after the last line, in words
second make SEED RUNS [THEME]        a journal of RUNS setups, each with its run
second cover [--strict] [JOURNAL ..] what journals cover (standard input, if none is named);
                                     --strict fails if an item is missing, or if of several
                                     journals one alone has it
second bench calls|copies N < JOURNAL
                                     the last statement N times on a copy of the state before
                                     it, or N copies alone, for instructions to be counted
second bench time N < JOURNAL        the nanoseconds of the last statement, the least of N
                                     batches of eight
";

fn main() -> ExitCode {
    let words: Vec<_> = std::env::args_os().skip(1).collect();
    let words: Vec<_> = words.iter().map(|word| word.to_string_lossy()).collect();
    let words: Vec<&str> = words.iter().map(AsRef::as_ref).collect();
    match run(&words) {
        Ok(code) => code,
        Err(error) => {
            eprintln!("second: {error}");
            ExitCode::FAILURE
        }
    }
}

fn run(words: &[&str]) -> io::Result<ExitCode> {
    let mut output = BufWriter::new(io::stdout().lock());
    match words {
        ["answer"] => journal::answer(&mut input(), &mut output)?,
        ["audit", rest @ ..] => match audit::Question::read(rest) {
            Ok(question) => audit::audit(&question, &mut input(), &mut output, &mut io::stderr())?,
            Err(expected) => return Ok(usage(&format!("audit: {expected}"))),
        },
        ["acl"] => acl::acl(&mut input(), &mut output, &mut io::stderr())?,
        ["make", rest @ ..] => match make::Order::read(rest) {
            Some(order) => make::make(&order, &mut output)?,
            None => return Ok(usage("make: expected SEED RUNS [THEME]")),
        },
        ["bench", work @ ("calls" | "copies" | "time"), times] => {
            let Ok(times) = times.parse() else {
                return Ok(usage("bench: expected a number of times"));
            };
            match *work {
                "calls" => bench::bench(bench::Work::Calls, times, &mut input())?,
                "copies" => bench::bench(bench::Work::Copies, times, &mut input())?,
                _ => writeln!(output, "{}", bench::time(times, &mut input())?)?,
            }
        }
        ["cover", "--strict", files @ ..] => {
            let whole = cover::cover(journals(files)?, &mut output)?;
            return Ok(ExitCode::from(u8::from(!whole)));
        }
        ["cover", files @ ..] => {
            cover::cover(journals(files)?, &mut output)?;
        }
        _ => return Ok(usage("expected one of the following")),
    }
    Ok(ExitCode::SUCCESS)
}

fn input() -> impl BufRead {
    BufReader::new(io::stdin().lock())
}

/// The named journals, or the one on standard input.
fn journals(files: &[&str]) -> io::Result<Vec<Box<dyn BufRead>>> {
    if files.is_empty() {
        return Ok(vec![Box::new(BufReader::new(io::stdin()))]);
    }
    let mut journals: Vec<Box<dyn BufRead>> = Vec::new();
    for file in files {
        journals.push(Box::new(BufReader::new(File::open(file)?)));
    }
    Ok(journals)
}

fn usage(fault: &str) -> ExitCode {
    eprintln!(
        "second: {fault}\n{USAGE}themes: {}",
        make::THEMES.join(", ")
    );
    ExitCode::from(2)
}
