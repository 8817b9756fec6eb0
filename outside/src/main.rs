//! The command line; the README says what each call takes and answers.

use std::hint::black_box;
use std::io::{self, BufRead, Read, Write};
use std::process::ExitCode;
use std::time::Instant;

use outside::agree::agree;
use outside::by_hand::text_of;
use outside::case::Case;
use outside::model::{Blend, Kind, Packet, Region, FIELDS};
use outside::packed::{pack, pack_into, MAX_BYTES};
use outside::samples::{sample, SAMPLES};
use outside::stream::{stream, Named, CALLS};
use outside::text::{read, read_book, read_range, read_value};

const USAGE: &str = "\
outside CALL [--marks] ...    one call; texts and packed bytes are files, - or nothing is standard input
    read | rows | findings | pack | open | repack   [FILE]
    over | meet | join | compare | disputes   FIRST SECOND
    part                                      FILE and five range words
    decide | opened | rig                     FILE and a packet's five values
    winner                                    FIRST SECOND and a packet's five values
outside stream SEED COUNT [CALL]              case lines (of read, if no call is named)
outside expect SEED COUNT [CALL]              the expected answers to them
outside cases SEED COUNT [CALL]               cases with names and answers (of all calls, if none is named)
outside answer                                the expected answers to case lines from standard input
outside agree SEED TABLES PROGRAM RIG         whether a program and the rig call answer the same about so many tables
outside list KIND SEED                        a list for measuring: realistic, boxes, refused or verdicts
outside time TURNS                            how long reading the text on standard input takes
outside time-pack TURNS                       how long making and packing its table takes
";

fn main() -> ExitCode {
    let args: Vec<String> = std::env::args().skip(1).collect();
    match run(&args) {
        Ok(status) => status,
        Err(Trouble::Usage(message)) => {
            eprint!("outside: {message}\n\n{USAGE}");
            ExitCode::from(2)
        }
        // Nobody reads on: nothing is wrong.
        Err(Trouble::Io(error)) if error.kind() == io::ErrorKind::BrokenPipe => ExitCode::SUCCESS,
        Err(Trouble::Io(error)) => {
            eprintln!("outside: {error}");
            ExitCode::from(2)
        }
    }
}

enum Trouble {
    Usage(String),
    Io(io::Error),
}

impl From<io::Error> for Trouble {
    fn from(error: io::Error) -> Trouble {
        Trouble::Io(error)
    }
}

fn usage<T>(message: impl Into<String>) -> Result<T, Trouble> {
    Err(Trouble::Usage(message.into()))
}

fn run(args: &[String]) -> Result<ExitCode, Trouble> {
    let Some((command, args)) = args.split_first() else {
        return usage("a call is wanting");
    };
    if command == "agree" {
        return compare_programs(args);
    }
    let mut out = io::BufWriter::new(io::stdout().lock());
    match command.as_str() {
        "stream" => {
            for named in cases_of(args, Some("read"))? {
                writeln!(out, "{}", named.case)?;
            }
        }
        "expect" => {
            for named in cases_of(args, Some("read"))? {
                write!(out, "{}", named.case.answer())?;
            }
        }
        "cases" => {
            for Named { name, case } in cases_of(args, None)? {
                writeln!(out, "# {name}\n{case}")?;
                for line in case.answer().lines() {
                    writeln!(out, "  {line}")?;
                }
            }
        }
        "answer" => {
            for line in io::stdin().lock().lines() {
                match Case::parse(&line?) {
                    Ok(case) => write!(out, "{}", case.answer())?,
                    Err(message) => return usage(message),
                }
            }
        }
        "list" => print_list(args, &mut out)?,
        "time" => time_reading(args, &mut out)?,
        "time-pack" => time_packing(args, &mut out)?,
        call => return direct(call, args, out),
    }
    out.flush()?;
    Ok(ExitCode::SUCCESS)
}

/// Compares two programs with this one; the last line printed tells what came of it.
fn compare_programs(args: &[String]) -> Result<ExitCode, Trouble> {
    let [seed, tables, program, rig] = args else {
        return usage("a seed, a number of tables, a program and a rig are wanted");
    };
    let (Ok(seed), Ok(tables)) = (seed.parse(), tables.parse()) else {
        return usage("the seed and the number of tables are numbers");
    };
    let summary = agree(seed, tables, program, rig)?;
    println!("{}\n{summary}", summary.met());
    Ok(ExitCode::from(u8::from(summary.differences > 0)))
}

/// Prints a list that is made from a seed.
fn print_list(args: &[String], out: &mut impl Write) -> Result<(), Trouble> {
    let [name, seed] = args else { return usage("a kind of list and a seed are wanted") };
    let Ok(seed) = seed.parse() else { return usage("the seed is a number") };
    match sample(name, seed) {
        Some(book) => Ok(out.write_all(&text_of(&book))?),
        None => usage(format!("the kinds of lists are {}", SAMPLES.join(", "))),
    }
}

/// The number of turns from the command line, and the text on standard input.
fn turns_and_text(args: &[String]) -> Result<(u32, Vec<u8>), Trouble> {
    match args.first().and_then(|turns| turns.parse::<u32>().ok()) {
        Some(turns) => Ok((turns.max(1), load("-")?)),
        None => usage("a number of turns is wanted"),
    }
}

/// How long reading the verdict text on standard input takes, as the mean of so many turns.
fn time_reading(args: &[String], out: &mut impl Write) -> Result<(), Trouble> {
    let (turns, text) = turns_and_text(args)?;
    let mut rules = 0;
    let start = Instant::now();
    for _ in 0..turns {
        rules = read(Kind::Verdicts, black_box(&text)).placed.len();
    }
    let each = start.elapsed().as_nanos() / u128::from(turns);
    let pico = each * 1_000 / text.len().max(1) as u128;
    writeln!(out, "outside: {} bytes, {rules} rules, {each} ns a text, {pico} ps a byte", text.len())?;
    Ok(())
}

/// How long making and packing the table of the verdict text on standard input takes, as the mean of so many turns. The
/// text is read once, before.
fn time_packing(args: &[String], out: &mut impl Write) -> Result<(), Trouble> {
    let (turns, text) = turns_and_text(args)?;
    let source = match read_book(Kind::Verdicts, &text) {
        Ok(book) => book.into(),
        Err(fault) => return usage(format!("the text is {fault}")),
    };
    let mut bytes = vec![0; MAX_BYTES];
    let mut outcome = Ok(0);
    let start = Instant::now();
    for _ in 0..turns {
        outcome = pack_into(black_box(&source), &mut bytes);
    }
    let each = start.elapsed().as_nanos() / u128::from(turns);
    match outcome {
        Ok(rows) => writeln!(out, "outside: {rows} rows, pack {each} ns")?,
        Err(refusal) => writeln!(out, "outside: {refusal}, {each} ns")?,
    }
    Ok(())
}

fn cases_of(args: &[String], default: Option<&str>) -> Result<Vec<Named>, Trouble> {
    let (seed, count, call) = match args {
        [seed, count] => (seed, count, default),
        [seed, count, call] => (seed, count, Some(call.as_str())),
        _ => return usage("a seed and a count are wanted"),
    };
    let (Ok(seed), Ok(count)) = (seed.parse(), count.parse()) else {
        return usage("the seed and the count are numbers");
    };
    match stream(call, seed, count) {
        Some(cases) => Ok(cases),
        None => usage(format!("the calls are {}", CALLS.join(", "))),
    }
}

/// One call with its arguments from the command line. Its answer is printed without the line `end`.
fn direct(call: &str, args: &[String], mut out: impl Write) -> Result<ExitCode, Trouble> {
    let kind = if args.iter().any(|arg| arg == "--marks") { Kind::Marks } else { Kind::Verdicts };
    let args: Vec<&str> = args.iter().map(String::as_str).filter(|&arg| arg != "--marks").collect();
    let case = match (call, &args[..]) {
        ("read", file) => Case::Read(kind, only(file)?),
        ("rows", file) => Case::Rows(kind, only(file)?),
        ("findings", file) => Case::Findings(kind, only(file)?, usize::MAX),
        ("open", file) => Case::Open(kind, only(file)?),
        ("repack", file) => Case::Repack(kind, only(file)?),
        ("pack", file) => {
            let text = only(file)?;
            if let Some(bytes) = read_book(kind, &text).ok().and_then(|book| pack(&book.into()).ok()) {
                out.write_all(&bytes)?;
                out.flush()?;
                return Ok(ExitCode::SUCCESS);
            }
            Case::Pack(kind, text, 0)
        }
        ("over", [first, second]) => Case::Layer(Blend::Over, kind, load(first)?, load(second)?),
        ("meet", [first, second]) => Case::Layer(Blend::Meet, kind, load(first)?, load(second)?),
        ("join", [first, second]) => Case::Layer(Blend::Join, kind, load(first)?, load(second)?),
        ("compare", [first, second]) => Case::Compare(kind, load(first)?, load(second)?),
        ("disputes", [first, second]) => Case::Disputes(load(first)?, load(second)?),
        ("part", [file, ranges @ ..]) => Case::Part(kind, load(file)?, region(ranges)?),
        ("decide", [file, values @ ..]) => Case::Decide(kind, load(file)?, packet(values)?),
        ("opened", [file, values @ ..]) => Case::Opened(kind, load(file)?, packet(values)?),
        ("rig", [file, values @ ..]) => Case::Rig(load(file)?, packet(values)?),
        ("winner", [first, second, values @ ..]) => Case::Winner(kind, load(first)?, load(second)?, packet(values)?),
        _ => return usage(format!("no such call, or not with these arguments: {call}")),
    };
    let answer = case.answer();
    out.write_all(answer.strip_suffix("end\n").unwrap_or(&answer).as_bytes())?;
    out.flush()?;
    let refused = answer.split_whitespace().take(3).any(|word| word == "refused");
    Ok(ExitCode::from(u8::from(refused)))
}

/// The bytes of a file, or of standard input if its name is `-`.
fn load(name: &str) -> Result<Vec<u8>, Trouble> {
    if name == "-" {
        let mut bytes = Vec::new();
        io::stdin().lock().read_to_end(&mut bytes)?;
        return Ok(bytes);
    }
    std::fs::read(name).or_else(|error| usage(format!("{name}: {error}")))
}

fn only(args: &[&str]) -> Result<Vec<u8>, Trouble> {
    match args {
        [] => load("-"),
        [name] => load(name),
        _ => usage("one file is enough"),
    }
}

fn packet(words: &[&str]) -> Result<Packet, Trouble> {
    let values: Vec<u32> =
        words.iter().take(FIELDS).enumerate().filter_map(|(field, word)| read_value(field, word.as_bytes())).collect();
    match values.try_into() {
        Ok(packet) if words.len() == FIELDS => Ok(packet),
        _ => usage("a packet is five values as in rule text"),
    }
}

fn region(words: &[&str]) -> Result<Region, Trouble> {
    let ranges: Vec<_> =
        words.iter().take(FIELDS).enumerate().filter_map(|(field, word)| read_range(field, word.as_bytes())).collect();
    match ranges.try_into() {
        Ok(ranges) if words.len() == FIELDS => Ok(Region(ranges)),
        _ => usage("a region is five range words as in rule text"),
    }
}
