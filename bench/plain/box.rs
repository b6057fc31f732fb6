//! The program `box` in plain Rust: messages from standard input, lines to standard output.
use std::env;
use std::fs::File;
use std::io::{self, BufReader, Read, Write};
use std::os::fd::AsFd;
use std::process::ExitCode;

use clockbox::machine::{Machine, Nonces};
use clockbox::station::Nonce;
use clockbox::text::Lines;

const INPUT_SIZE: usize = 64 * 1024;
/// Output is written when it is this long, and before more input is waited for.
const OUTPUT_SIZE: usize = 64 * 1024;
const RANDOM_DEVICE: &str = "/dev/urandom";

struct RandomFile(BufReader<File>);

impl Nonces for RandomFile {
    fn next(&mut self) -> io::Result<Nonce> {
        let mut nonce = [0; 32];
        self.0.read_exact(&mut nonce)?;
        Ok(nonce)
    }
}

/// The box between its input and its output.
struct Program {
    machine: Machine,
    nonces: RandomFile,
    lines: Lines,
    output: File,
}

/// What ends the program early.
enum End {
    NoNonce(io::Error),
    NoInput(io::Error),
    NoOutput,
}

impl Program {
    fn line(&mut self, text: &[u8]) -> Result<(), End> {
        if let Err(error) = self.machine.line(text, &mut self.nonces, &mut self.lines) {
            self.write()?;
            return Err(End::NoNonce(error));
        }
        if self.lines.len() >= OUTPUT_SIZE { self.write() } else { Ok(()) }
    }

    fn too_long(&mut self) {
        self.machine.too_long(&mut self.lines);
    }

    fn write(&mut self) -> Result<(), End> {
        let written = self.output.write_all(self.lines.text());
        self.lines.clear();
        written.map_err(|_| End::NoOutput)
    }

    /// Takes all lines of the input. A line that doesn't fit in the buffer is passed over to its end, and refused.
    fn run(&mut self, mut input: impl Read) -> Result<(), End> {
        let mut buffer = vec![0; INPUT_SIZE];
        let mut filled = 0;
        let mut passing_over = false;
        loop {
            self.write()?;
            let more = read(&mut input, &mut buffer[filled..]).map_err(End::NoInput)?;
            if more == 0 {
                break;
            }
            let mut start = 0;
            let mut search = filled;
            filled += more;
            while let Some(length) = buffer[search..filled].iter().position(|&byte| byte == b'\n') {
                let end = search + length;
                if passing_over {
                    self.too_long();
                    passing_over = false;
                } else {
                    self.line(&buffer[start..end])?;
                }
                start = end + 1;
                search = start;
            }
            buffer.copy_within(start..filled, 0);
            filled -= start;
            if passing_over || filled == buffer.len() {
                passing_over = true;
                filled = 0;
            }
        }
        if passing_over {
            self.too_long();
        } else if filled > 0 {
            self.line(&buffer[..filled])?;
        }
        self.write()
    }
}

fn read(input: &mut impl Read, buffer: &mut [u8]) -> io::Result<usize> {
    loop {
        match input.read(buffer) {
            Err(error) if error.kind() == io::ErrorKind::Interrupted => continue,
            result => return result,
        }
    }
}

/// The streams as files, without the buffers of the standard library.
fn streams() -> io::Result<(File, File)> {
    let input = io::stdin().as_fd().try_clone_to_owned()?;
    let output = io::stdout().as_fd().try_clone_to_owned()?;
    Ok((File::from(input), File::from(output)))
}

fn run(random: &str) -> Result<(), String> {
    let file = File::open(random).map_err(|error| format!("no random bytes from {random}: {error}"))?;
    let (input, output) = streams().map_err(|error| format!("no standard streams: {error}"))?;
    let mut program = Program { machine: Machine::new(), nonces: RandomFile(BufReader::new(file)), lines: Lines::new(), output };
    program.run(input).map_err(|end| match end {
        End::NoNonce(error) => format!("no random bytes from {random}: {error}"),
        End::NoInput(error) => format!("standard input can't be read: {error}"),
        End::NoOutput => "standard output can't be written".to_string(),
    })
}

fn main() -> ExitCode {
    let arguments: Vec<String> = env::args().skip(1).collect();
    let result = match arguments.as_slice() {
        [] => run(RANDOM_DEVICE),
        [random] => run(random),
        _ => Err("usage: box [FILE OF RANDOM BYTES]".to_string()),
    };
    match result {
        Ok(()) => ExitCode::SUCCESS,
        Err(message) => {
            eprintln!("box: {message}");
            ExitCode::FAILURE
        }
    }
}
