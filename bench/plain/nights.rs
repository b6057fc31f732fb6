//! Makes nights by a seed.
//!
//!     nights DIRECTORY FIRST COUNT
//!
//! writes SEED.in, SEED.random and SEED.settings for so many seeds from the first on, and prints what happened in them.
//!
//!     nights --census FIRST COUNT
//!
//! only prints what happens in them.
//!
//!     nights --speed FILE SERVERS FAULTY MESSAGES
//!
//! writes the same three files for one long night with one reply in ten messages.
use std::env;
use std::fs;
use std::io;
use std::path::Path;
use std::process::ExitCode;

use clockbox::night::{night, speed_night, Census};

fn nights(directory: &str, first: u64, how_many: u64) -> io::Result<()> {
    fs::create_dir_all(directory)?;
    let mut census = Census::default();
    for seed in first..first + how_many {
        let night = night(seed);
        night.write(&Path::new(directory).join(seed.to_string()))?;
        census.join(&night.census);
    }
    census.print(how_many);
    Ok(())
}

fn census(first: u64, how_many: u64) {
    let mut census = Census::default();
    (first..first + how_many).for_each(|seed| census.join(&night(seed).census));
    census.print(how_many);
}

fn main() -> ExitCode {
    let arguments: Vec<String> = env::args().skip(1).collect();
    let arguments: Vec<&str> = arguments.iter().map(String::as_str).collect();
    let result = match arguments.as_slice() {
        ["--speed", file, servers, faulty, messages] => match (servers.parse(), faulty.parse(), messages.parse()) {
            (Ok(servers), Ok(faulty), Ok(messages)) => speed(file, servers, faulty, messages),
            _ => Err(io::Error::other("numbers are wanted")),
        },
        ["--census", first, how_many] => match (first.parse(), how_many.parse()) {
            (Ok(first), Ok(how_many)) => {
                census(first, how_many);
                Ok(())
            }
            _ => Err(io::Error::other("numbers are wanted")),
        },
        [directory, first, how_many] => match (first.parse(), how_many.parse()) {
            (Ok(first), Ok(how_many)) => nights(directory, first, how_many),
            _ => Err(io::Error::other("numbers are wanted")),
        },
        _ => Err(io::Error::other("usage: nights DIRECTORY FIRST COUNT, nights --census FIRST COUNT, or nights --speed FILE SERVERS FAULTY MESSAGES")),
    };
    match result {
        Ok(()) => ExitCode::SUCCESS,
        Err(error) => {
            eprintln!("nights: {error}");
            ExitCode::FAILURE
        }
    }
}

fn speed(file: &str, servers: u8, faulty: u8, messages: u64) -> io::Result<()> {
    let night = speed_night(servers, faulty, messages);
    night.write(Path::new(file))?;
    night.census.print(1);
    Ok(())
}
