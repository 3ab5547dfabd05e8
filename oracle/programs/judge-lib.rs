//! The library's judge: for functions that no mark reaches, answers from the published Rust.
//!
//! Reads standard input, writes standard output. A record is one byte, the function's number in
//! the table, and its inputs, little endian: numbers of 8 bytes, or of 4 in the program that is
//! built for `f32`, and whole numbers of 64 bits. An answer is the byte 0 and the outputs, or a
//! refusal's number alone. A byte that is no function and a record that is cut end the program with
//! a message.
//! `judge-lib --table` prints the table of README.md.

use oracle::library::{answer, table};
use std::io::{self, Read, Write};
use std::process::ExitCode;

const BUFFER: usize = 1 << 20;

/// Answers the whole records at the front of `bytes` and says how many bytes they were.
fn feed(bytes: &[u8], out: &mut Vec<u8>) -> Result<usize, String> {
    let mut at = 0;
    while at < bytes.len() {
        match answer(&bytes[at..], out)? {
            Some(taken) => at += taken,
            None => break,
        }
    }
    Ok(at)
}

fn run(input: &mut impl Read, output: &mut impl Write) -> Result<(), String> {
    let failed = |e: io::Error| e.to_string();
    let (mut buffer, mut out, mut held) = (vec![0; BUFFER], Vec::new(), 0);
    loop {
        let used = feed(&buffer[..held], &mut out)?;
        output.write_all(&out).map_err(failed)?;
        out.clear();
        buffer.copy_within(used..held, 0);
        held -= used;
        let more = match input.read(&mut buffer[held..]) {
            Err(e) if e.kind() == io::ErrorKind::Interrupted => continue,
            more => more.map_err(failed)?,
        };
        if more == 0 {
            break;
        }
        held += more;
    }
    output.flush().map_err(failed)?;
    if held == 0 {
        Ok(())
    } else {
        Err("the last record is cut".into())
    }
}

fn main() -> ExitCode {
    if std::env::args().nth(1).as_deref() == Some("--table") {
        print!("{}", table());
        return ExitCode::SUCCESS;
    }
    match run(&mut io::stdin().lock(), &mut io::stdout().lock()) {
        Ok(()) => ExitCode::SUCCESS,
        Err(message) => {
            eprintln!("judge-lib: {message}");
            ExitCode::from(2)
        }
    }
}
