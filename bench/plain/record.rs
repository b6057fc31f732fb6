//! The program `record` in plain Rust: works a record out again, and prints `as written` or the first line that differs.
use std::env;
use std::fs::File;
use std::io::{self, BufRead, BufReader, Write};
use std::process::ExitCode;

use clockbox::replay::{read_rules, Differs, Replay};
use clockbox::station::Rules;

fn open(path: &str) -> io::Result<BufReader<File>> {
    Ok(BufReader::with_capacity(64 * 1024, File::open(path)?))
}

/// Reads a line without its line feed; false at the end of the file.
fn next_line(file: &mut impl BufRead, line: &mut Vec<u8>) -> io::Result<bool> {
    line.clear();
    if file.read_until(b'\n', line)? == 0 {
        return Ok(false);
    }
    if line.last() == Some(&b'\n') {
        line.pop();
    }
    Ok(true)
}

fn settings(path: &str) -> io::Result<Rules> {
    let mut line = Vec::new();
    next_line(&mut open(path)?, &mut line)?;
    read_rules(&line).ok_or_else(|| io::Error::other("no settings"))
}

/// The number and the text of the first line that differs, and what was worked out.
fn first_difference(rules: Rules, path: &str) -> io::Result<Option<(u64, Vec<u8>, Differs)>> {
    let mut file = open(path)?;
    let mut replay = Replay::new(rules);
    let mut line = Vec::new();
    let mut number = 1;
    while next_line(&mut file, &mut line)? {
        if let Err(differs) = replay.line(&line) {
            return Ok(Some((number, line, differs)));
        }
        number += 1;
    }
    Ok(replay.end().err().map(|differs| (number, line, differs)))
}

fn print(difference: Option<(u64, Vec<u8>, Differs)>) -> io::Result<ExitCode> {
    let mut out = io::stdout().lock();
    let Some((number, line, Differs(expected))) = difference else {
        writeln!(out, "as written")?;
        return Ok(ExitCode::SUCCESS);
    };
    write!(out, "{number}: ")?;
    out.write_all(&line)?;
    writeln!(out)?;
    out.write_all(&expected.unwrap_or(b"nothing".to_vec()))?;
    writeln!(out)?;
    Ok(ExitCode::FAILURE)
}

fn main() -> ExitCode {
    let arguments: Vec<String> = env::args().skip(1).collect();
    let [settings_path, record_path] = arguments.as_slice() else {
        eprintln!("usage: record SETTINGS RECORD");
        return ExitCode::from(2);
    };
    let rules = match settings(settings_path) {
        Ok(rules) => rules,
        Err(error) => {
            eprintln!("record: {settings_path}: {error}");
            return ExitCode::from(2);
        }
    };
    match first_difference(rules, record_path).and_then(print) {
        Ok(code) => code,
        Err(error) => {
            eprintln!("record: {record_path}: {error}");
            ExitCode::from(2)
        }
    }
}
