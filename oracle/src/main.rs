//! The oracle's commands; see README.md.

use oracle::format::Rules;
use oracle::record::{self, Record};
use oracle::show;
use oracle::vectors::{self, Drawn, Tally};
use std::env;
use std::io::{self, BufWriter, Read, Write};
use std::process::ExitCode;

const USAGE: &str = "\
oracle job                          answer the job on standard input
oracle hex <hexadecimal>            answer the job given in hexadecimal
oracle answer [base|spans|names]    answer the records on standard input, by document 01,
                                    with request 2.1, with 2.1 and 2.2
oracle vectors <set> <seed> <count> [<longest>]
                                    write answered records; sets: short random damaged rows rows-damaged
                                    spans spans-damaged spans-chain spans-edges names-short names-jobs
                                    names names-damaged names-chain names-edges; none whose inputs and sheet have more than that many bytes
                                    but edges made by hand, which go up to 16,384, and then
                                    no store longer than 65,536
oracle checks [spans|names] <seed> <count> [<longest>]
                                    write inputs with their refusal 0 to 4, none longer than that
                                    many bytes but edges made by hand, which go up to 8,192
oracle segments                     print the table of border segments";

/// More than any job's sheet needs.
const JOB_STORE: usize = 2 << 20;

fn main() -> ExitCode {
    let arguments: Vec<String> = env::args().skip(1).collect();
    let arguments: Vec<&str> = arguments.iter().map(String::as_str).collect();
    let outcome = match arguments[..] {
        ["job"] => standard_input().and_then(show_job),
        ["hex", text] => show::unhex(text).ok_or_else(usage).and_then(show_job),
        ["answer"] => standard_input().and_then(|bytes| answer(&bytes, Rules::STORED)),
        ["answer", "base"] => standard_input().and_then(|bytes| answer(&bytes, Rules::Base)),
        ["answer", "spans"] => standard_input().and_then(|bytes| answer(&bytes, Rules::Spans)),
        ["answer", "names"] => standard_input().and_then(|bytes| answer(&bytes, Rules::Names)),
        ["vectors", set, seed, count] => write_vectors(set, seed, count, None),
        ["vectors", set, seed, count, longest] => {
            number(longest).and_then(|longest| write_vectors(set, seed, count, Some(longest)))
        }
        ["checks", "spans", ref rest @ ..] => write_checks(Drawn::Spans, rest),
        ["checks", "names", ref rest @ ..] => write_checks(Drawn::Names, rest),
        ["checks", ref rest @ ..] => write_checks(Drawn::Base, rest),
        ["segments"] => show_segments(),
        _ => Err(usage()),
    };
    match outcome {
        Ok(code) => code,
        Err(error) => {
            eprintln!("{error}");
            ExitCode::from(2)
        }
    }
}

fn usage() -> io::Error {
    io::Error::other(USAGE)
}

fn standard_input() -> io::Result<Vec<u8>> {
    let mut bytes = Vec::new();
    io::stdin().lock().read_to_end(&mut bytes)?;
    Ok(bytes)
}

/// Prints number and length, the sheet in hexadecimal, and the sheet in words.
fn show_job(bytes: Vec<u8>) -> io::Result<ExitCode> {
    let mut question = Record::job(bytes);
    question.store = JOB_STORE;
    if let Err(finding) = vectors::answer(&mut question, Rules::STORED) {
        println!("FINDING: {}", finding.0);
        return Ok(ExitCode::FAILURE);
    }
    let reply = question.reply.expect("an answered record");
    println!("{} {}", reply.answer.number, reply.answer.length);
    if reply.answer.number == 0 {
        println!("{}", show::hex(&reply.sheet));
        for line in show::sheet(&reply.sheet) {
            println!("{line}");
        }
    }
    Ok(ExitCode::SUCCESS)
}

fn show_segments() -> io::Result<ExitCode> {
    for row in show::segments() {
        println!("{row}");
    }
    Ok(ExitCode::SUCCESS)
}

/// Answers a file of records; a record with a finding stays unanswered.
fn answer(bytes: &[u8], rules: Rules) -> io::Result<ExitCode> {
    let records = record::read_all(bytes).ok_or_else(|| io::Error::other("not records"))?;
    let mut tally = Tally::default();
    let mut out = BufWriter::new(io::stdout().lock());
    for mut question in records {
        question.reply = None;
        match vectors::answer(&mut question, rules) {
            Ok(number) => *tally.numbers.entry(number).or_default() += 1,
            Err(finding) => {
                eprintln!("FINDING: {}", finding.0);
                tally.findings += 1;
            }
        }
        question.write(&mut out)?;
    }
    out.flush()?;
    Ok(tell(&tally))
}

fn write_vectors(set: &str, seed: &str, count: &str, longest: Option<u64>) -> io::Result<ExitCode> {
    let (seed, count) = (number(seed)?, number(count)? as usize);
    let longest = longest.map(|longest| longest as usize);
    let mut out = BufWriter::new(io::stdout().lock());
    let tally = vectors::write(set, seed, count, longest, &mut out).ok_or_else(usage)??;
    out.flush()?;
    Ok(tell(&tally))
}

fn write_checks(drawn: Drawn, arguments: &[&str]) -> io::Result<ExitCode> {
    let (seed, count, longest) = match *arguments {
        [seed, count] => (number(seed)?, number(count)?, usize::MAX),
        [seed, count, longest] => (number(seed)?, number(count)?, number(longest)? as usize),
        _ => return Err(usage()),
    };
    let mut out = BufWriter::new(io::stdout().lock());
    let tally = vectors::write_checks(drawn, seed, count as usize, longest, &mut out)?;
    out.flush()?;
    Ok(tell(&tally))
}

fn number(text: &str) -> io::Result<u64> {
    text.parse().map_err(|_| usage())
}

/// Says on standard error how many records got each number.
fn tell(tally: &Tally) -> ExitCode {
    let total: usize = tally.numbers.values().sum();
    let numbers = tally.numbers.iter();
    let shares: Vec<String> = numbers.map(|(n, count)| format!("{n}: {count}")).collect();
    eprintln!("{total} answered ({})", shares.join(", "));
    if tally.findings == 0 {
        return ExitCode::SUCCESS;
    }
    eprintln!("{} findings", tally.findings);
    ExitCode::FAILURE
}
