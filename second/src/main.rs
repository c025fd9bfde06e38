//! The independent second program: the rules of document 01 in the plainest way, to be held
//! against the proved program.

mod answers;
mod batch;
mod bench;
mod branch;
mod brute;
mod cases;
mod chance;
mod check;
mod compare;
mod damage;
mod instance;
mod known;
mod limits;
mod long;
mod orders;
mod questions;
mod record;
mod refusal;
mod text;
mod texts;
mod tryout;
mod undo;
mod value;
mod write;

use std::fs;
use std::io::{self, BufWriter, Read, Write};
use std::process::ExitCode;

use questions::{read_questions, Question};

const USAGE: &str = "\
second answer                     answers the questions of standard input, a line for each
second batch SEED COUNT           writes COUNT random questions
second cases                      writes the fixed batch
second try SEED COUNT             tries Write and Check against brute force
second compare QUESTIONS LINES    holds the lines of another program against its own
second bench QUESTIONS REPEATS    times the undo checker on the C questions of a file
second long RECORDS [--wide]      writes one C question with at least RECORDS records

`long` is n 10, K 22, or with --wide n 500, K 1,000 and 4,000 literals. A record takes about
two bytes: up to 124,000 records, with --wide 110,000, fit the 262,144 bytes of derivation that
`answer` takes; beyond that it writes nothing and says how many fitted.
";

fn main() -> ExitCode {
    let arguments: Vec<String> = std::env::args().skip(1).collect();
    let words: Vec<&str> = arguments.iter().map(String::as_str).collect();
    match run(&words) {
        Ok(code) => code,
        // Whoever reads the output may stop early; that is no fault of ours.
        Err(fault) if fault.kind() == io::ErrorKind::BrokenPipe => ExitCode::FAILURE,
        Err(fault) => {
            eprintln!("second: {fault}");
            ExitCode::FAILURE
        }
    }
}

fn run(words: &[&str]) -> io::Result<ExitCode> {
    match words {
        ["answer"] => answer(),
        ["batch", seed, count] => put_questions(&batch::questions(number(seed)?, number(count)?)),
        ["cases"] => put_questions(&cases::cases()),
        ["try", seed, count] => try_out(number(seed)?, number(count)?),
        ["compare", questions, lines] => compare(questions, lines),
        ["bench", questions, repeats] => bench(questions, number(repeats)?),
        ["long", records] => long(number(records)?, false),
        ["long", records, "--wide"] | ["long", "--wide", records] => long(number(records)?, true),
        _ => {
            eprint!("{USAGE}");
            Ok(ExitCode::from(2))
        }
    }
}

fn number<N: std::str::FromStr>(word: &str) -> io::Result<N> {
    word.parse()
        .map_err(|_| io::Error::other(format!("{word} is no number for this")))
}

fn read_file(name: &str) -> io::Result<Vec<u8>> {
    fs::read(name).map_err(|fault| io::Error::new(fault.kind(), format!("{name}: {fault}")))
}

fn answer() -> io::Result<ExitCode> {
    let mut bytes = Vec::new();
    io::stdin().lock().read_to_end(&mut bytes)?;
    let input = read_questions(&bytes);
    let mut out = BufWriter::new(io::stdout().lock());
    for question in &input.questions {
        writeln!(out, "{}", answers::answer(question))?;
    }
    if input.bad {
        writeln!(out, "bad input")?;
    }
    out.flush()?;
    Ok(match input.bad {
        true => ExitCode::FAILURE,
        false => ExitCode::SUCCESS,
    })
}

fn put_questions(questions: &[Question]) -> io::Result<ExitCode> {
    let mut out = BufWriter::new(io::stdout().lock());
    for question in questions {
        out.write_all(&question.bytes())?;
    }
    out.flush()?;
    Ok(ExitCode::SUCCESS)
}

fn try_out(seed: u64, count: usize) -> io::Result<ExitCode> {
    match tryout::tryout(seed, count) {
        Ok(accepted) => {
            writeln!(
                io::stdout(),
                "tried {count} instances, {accepted} derivations accepted, 0 wrong"
            )?;
            Ok(ExitCode::SUCCESS)
        }
        Err(wrong) => {
            writeln!(io::stdout(), "{}", wrong.report())?;
            Ok(ExitCode::FAILURE)
        }
    }
}

fn compare(questions: &str, lines: &str) -> io::Result<ExitCode> {
    let comparison = compare::compare(&read_file(questions)?, &read_file(lines)?);
    io::stdout().write_all(comparison.report.as_bytes())?;
    Ok(match comparison.differences {
        0 => ExitCode::SUCCESS,
        _ => ExitCode::FAILURE,
    })
}

fn bench(questions: &str, repeats: u32) -> io::Result<ExitCode> {
    if repeats == 0 {
        return Err(io::Error::other("REPEATS is at least 1"));
    }
    let input = read_questions(&read_file(questions)?);
    let report = bench::bench(&input.questions, repeats);
    io::stdout().write_all(report.as_bytes())?;
    Ok(ExitCode::SUCCESS)
}

fn long(records: usize, wide: bool) -> io::Result<ExitCode> {
    let question = long::question(records, wide).map_err(io::Error::other)?;
    put_questions(&[question])
}
