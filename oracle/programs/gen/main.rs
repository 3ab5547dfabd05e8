//! The generator of inputs for the judges and for the port, by seed and count. See README.md.

mod ends;
mod sources;

use ends::{end, ends};
use sources::{ids, is_join, is_sheet, is_state, marks, Letters, Sources};
use std::io::{self, BufWriter, Write};
use std::process::ExitCode;

const USAGE: &str = "\
gen --seed S --count N [--mark XX | --marks M] [--end E]
                                                adversarial job records, of one mark or of the
                                                first M of the table in turn (--marks small: of
                                                those in small letters; --marks chain: of CH and RN,
                                                a history; --marks sheets: of SH and SQ, a history;
                                                --marks state: of both), then end number E
                                                (without --end: number S modulo their count)
gen --mode lone --seed S --count N [--mark XX | --marks M]
                                                records whose answer has one number alone that is
                                                a NaN or an infinity; none of CH, RN, SH, SQ
gen --mode good --seed S --count N --mark XX [--arm A]
                                                well-formed ordinary records of one mark,
                                                the coefficients in arm A (1 to 5)
gen --mode lib --seed S --count N [--id I] [--width f32]
                                                records of judge-lib, or of judge-lib-f32, of one
                                                function or of all
gen --mode ends                                 how many ends there are
gen --mode ids                                  the functions' numbers";

/// The command line's settings.
#[derive(Default)]
struct Settings {
    mode: String,
    seed: u64,
    count: u64,
    mark: Option<Letters>,
    /// The marks that come in turn.
    marks: Vec<Letters>,
    arm: usize,
    id: Option<u8>,
    end: Option<usize>,
    single: bool,
}

fn settings() -> Result<Settings, String> {
    let mut s = Settings { mode: "job".into(), marks: marks(), ..Settings::default() };
    let mut args = std::env::args().skip(1);
    while let Some(name) = args.next() {
        let value = args.next().ok_or(format!("{name} lacks its value"))?;
        let number = || value.parse::<u64>().map_err(|_| format!("{name} {value}: not a number"));
        match name.as_str() {
            "--mode" => s.mode = value,
            "--seed" => s.seed = number()?,
            "--count" => s.count = number()?,
            "--arm" => s.arm = number()?.min(5) as usize,
            "--marks" if value == "chain" => s.marks.retain(is_join),
            "--marks" if value == "sheets" => s.marks.retain(is_sheet),
            "--marks" if value == "state" => s.marks.retain(is_state),
            "--marks" if value == "small" => s.marks.retain(|m| m[0].is_ascii_lowercase()),
            "--marks" => s.marks.truncate((number()? as usize).max(1)),
            "--id" => s.id = Some(number()? as u8),
            "--end" => s.end = Some(number()? as usize),
            "--width" => {
                s.single = match value.as_str() {
                    "f32" => true,
                    "f64" => false,
                    _ => return Err(format!("{value}: no such width")),
                }
            }
            "--mark" => {
                let found = marks().into_iter().find(|m| m.as_slice() == value.as_bytes());
                s.mark = Some(found.ok_or(format!("{value}: no such mark"))?);
            }
            _ => return Err(format!("{name}: no such setting")),
        }
    }
    let only_state = s.mark.as_ref().map_or(s.marks.iter().all(is_state), is_state);
    if s.mode == "lone" && only_state {
        return Err("--mode lone has no records of CH, RN, SH and SQ".into());
    }
    Ok(s)
}

/// Adversarial records of each mark in turn, and an end. In the places of CH and RN stands a history
/// of both, and in those of SH and SQ another.
fn job(s: &Settings, source: &mut Sources, out: &mut impl Write) -> io::Result<()> {
    let mut record = Vec::new();
    for i in 0..s.count as usize {
        record.clear();
        match (s.mark, s.marks[i % s.marks.len()]) {
            (Some(mark), _) => source.job_record(mark, &mut record),
            (None, mark) if is_join(&mark) => source.history_record(&mut record),
            (None, mark) if is_sheet(&mark) => source.sheet_record(&mut record),
            (None, mark) => source.job_record(mark, &mut record),
        }
        out.write_all(&record)?;
    }
    let all = ends();
    let number = s.end.unwrap_or(s.seed as usize) % all.len();
    record.clear();
    end(all[number], source, &mut record);
    out.write_all(&record)
}

/// Records with one number alone that is not finite, of each mark in turn but CH, RN, SH and SQ: what
/// CH and SQ answer lies with the records before them.
fn lone(s: &Settings, source: &mut Sources, out: &mut impl Write) -> io::Result<()> {
    let mut record = Vec::new();
    let marks: Vec<_> = s.marks.iter().copied().filter(|mark| !is_state(mark)).collect();
    for i in 0..s.count as usize {
        record.clear();
        source.lone_record(s.mark.unwrap_or(marks[i % marks.len()]), &mut record);
        out.write_all(&record)?;
    }
    Ok(())
}

fn good(s: &Settings, source: &mut Sources, out: &mut impl Write) -> io::Result<()> {
    let mut record = Vec::new();
    for _ in 0..s.count {
        record.clear();
        source.good_record(s.mark.unwrap_or(*b"EX"), s.arm, &mut record);
        out.write_all(&record)?;
    }
    Ok(())
}

/// Records of one library function, or of each in turn.
fn lib(s: &Settings, source: &mut Sources, out: &mut impl Write) -> io::Result<()> {
    let ids: Vec<_> = ids().into_iter().filter(|id| s.id.is_none_or(|only| only == *id)).collect();
    let mut record = Vec::new();
    for i in 0..s.count as usize {
        record.clear();
        source.library_record(ids[i % ids.len()], s.single, &mut record);
        out.write_all(&record)?;
    }
    Ok(())
}

fn run(s: &Settings) -> io::Result<bool> {
    let mut out = BufWriter::with_capacity(1 << 16, io::stdout().lock());
    let mut source = Sources::new(s.seed);
    match s.mode.as_str() {
        "job" => job(s, &mut source, &mut out)?,
        "lone" => lone(s, &mut source, &mut out)?,
        "good" => good(s, &mut source, &mut out)?,
        "lib" => lib(s, &mut source, &mut out)?,
        "ends" => writeln!(out, "{}", ends().len())?,
        "ids" => ids().iter().try_for_each(|id| writeln!(out, "{id}"))?,
        _ => return Ok(false),
    }
    out.flush()?;
    Ok(true)
}

fn main() -> ExitCode {
    match settings().map(|s| run(&s)) {
        Ok(Ok(true)) => ExitCode::SUCCESS,
        Ok(Ok(false)) => {
            eprintln!("{USAGE}");
            ExitCode::from(2)
        }
        Ok(Err(e)) if e.kind() == io::ErrorKind::BrokenPipe => ExitCode::SUCCESS,
        Ok(Err(e)) => {
            eprintln!("gen: {e}");
            ExitCode::FAILURE
        }
        Err(message) => {
            eprintln!("gen: {message}\n{USAGE}");
            ExitCode::from(2)
        }
    }
}
