//! The job program's judge: the paper's framing, numbers from the published Rust.
//!
//! Reads standard input, writes standard output. Whole records are answered as they arrive; what
//! is kept is one buffer of input, with at most one cut record at its front, and one of output.
//! A number as its argument stands in the place of the limit of records.

use helicoid::judge::counts::Counts;
use helicoid::judge::marks as double;
use helicoid::judge::state::State;
use helicoid_f32::judge::marks as single;
use std::io::{self, Read, Write};

/// After so many records nothing more is read, unless the argument says another number.
const MOST_RECORDS: u32 = 1_000_000;

const BUFFER: usize = 1 << 16;

/// The bit that small letters have and capital ones have not.
const SMALL: u8 = 0x20;

/// What a job leaves from record to record: its counts, and its running join with its kept sheets.
#[derive(Default)]
struct Job {
    counts: Counts,
    state: State,
}

/// Answers the whole records at the front of `bytes`. Says how many bytes they were, and whether
/// the program stops here, as it does after `most` records.
fn feed(bytes: &[u8], out: &mut Vec<u8>, job: &mut Job, most: u32) -> (usize, bool) {
    let Job { counts, state } = job;
    let mut at = 0;
    while counts.begun < most {
        let Some((letters, rest)) = bytes[at..].split_first_chunk::<2>() else {
            return (at, false);
        };
        // The Rust at `f32` where the letters are small, else at `f64`, which alone has a state.
        let taken = match letters[0] & SMALL {
            0 => double::take(*letters, rest, state, out),
            _ => single::take(*letters, rest, &mut Default::default(), out),
        };
        match taken {
            Ok((bytes, told)) => {
                at += 2 + bytes;
                counts.mark(letters);
                match told {
                    Ok(finite) => counts.answer(finite),
                    Err(number) => counts.refuse(number, out),
                }
            }
            Err(6) => {
                counts.mark(letters);
                counts.refuse(6, out);
                return (at, true);
            }
            Err(_) => return (at, false),
        }
    }
    (at, true)
}

fn run(input: &mut impl Read, output: &mut impl Write, most: u32) -> io::Result<()> {
    let mut buffer = vec![0; BUFFER];
    let mut out = Vec::with_capacity(8 * BUFFER);
    let mut job = Job::default();
    let mut held = 0;
    loop {
        let (used, stop) = feed(&buffer[..held], &mut out, &mut job, most);
        if stop {
            break;
        }
        buffer.copy_within(used..held, 0);
        held -= used;
        output.write_all(&out)?;
        out.clear();
        let more = match input.read(&mut buffer[held..]) {
            Err(e) if e.kind() == io::ErrorKind::Interrupted => continue,
            more => more?,
        };
        if more == 0 {
            if held > 0 {
                job.counts.mark(&buffer[..held.min(2)]);
                job.counts.refuse(7, &mut out);
            }
            break;
        }
        held += more;
    }
    job.counts.write(&mut out);
    output.write_all(&out)?;
    output.flush()
}

fn main() -> io::Result<()> {
    let most = std::env::args().nth(1).and_then(|word| word.parse().ok());
    // The handle below the standard buffers: `run` has its own.
    let input = std::os::fd::AsFd::as_fd(&io::stdin()).try_clone_to_owned()?;
    let output = std::os::fd::AsFd::as_fd(&io::stdout()).try_clone_to_owned()?;
    run(&mut std::fs::File::from(input), &mut std::fs::File::from(output), most.unwrap_or(MOST_RECORDS))
}
