//! Answers as `crnt` does, with nothing proved: the yardstick of `benches/report.sh`, `benches/certificates.sh` and
//! `benches/search.sh`.
//!
//!     yardstick report|certify|work [--budget N] [QUESTIONS]
//!     yardstick check [QUESTIONS]
//!     yardstick prove PART [--budget N]
//!
//! `work` writes what the searches did: visits of prefixes, decisions, finds of what was known, and exchanges.
//! It is written for speed. QUESTIONS are numbers joined by commas, with those that they need, or else all fifteen.
//! Where an answer leaves a choice, as for a base, it may choose other than `crnt`.

mod answers;
mod canonical;
mod certificate;
mod check;
mod check_signs;
mod concordance;
mod document;
mod endo;
mod frame;
mod graph;
mod linear;
mod lines;
mod net;
mod parts;
mod persist;
mod regular;
mod report;
mod robust;
mod search;
mod signals;
mod signs;
mod space;
mod text;
mod theorems;
mod trees;

use crate::answers::{Asked, Settings};
use crate::search::Work;
use std::io::{self, Read, Write};
use std::process::ExitCode;

const USAGE: &str = "usage: crnt report | certify | check | sample K | prove PART | verify PART, with --budget N except for check and verify\n";

/// Of a search, where none is said.
const BUDGET: u32 = 20_000;

/// What is written, and the status.
type Ended = (Vec<u8>, u8);

fn fault_line(words: &str, code: u32, name: &str, line: u32, status: u8) -> Ended {
    (format!("{words} {code} {name} at line {line}\n").into_bytes(), status)
}

/// What is written of a network.
#[derive(Clone, Copy, PartialEq, Eq)]
enum Form {
    Report,
    Certificate,
    Work,
}

/// The network that standard input spells, or how the call ends that refuses it.
fn read_network() -> io::Result<Result<net::Net, Ended>> {
    let mut text = Vec::new();
    io::stdin().lock().take(text::MAX_TEXT as u64 + 1).read_to_end(&mut text)?;
    Ok(text::read(&text).map_err(|(code, line)| {
        let (number, name) = code.number_and_name();
        fault_line("refused", number, name, line, 2)
    }))
}

fn read_and_solve(form: Form, asked: Asked, budget: u32) -> io::Result<Ended> {
    let net = match read_network()? {
        Ok(net) => net,
        Err(refused) => return Ok(refused),
    };
    let shows = form == Form::Certificate;
    let (verdicts, shown) = answers::solve(&net, Settings { asked, budget, shows });
    let mut out = Vec::with_capacity(4096);
    match form {
        Form::Report => report::report(&net, &verdicts, &mut out),
        Form::Certificate => certificate::certificate(&net, &verdicts, &shown, &mut out),
        Form::Work => {
            let Work { visits, decisions, hits, exchanges } = shown.work;
            writeln!(out, "{visits} {decisions} {hits} {exchanges}")?;
        }
    }
    Ok((out, u8::from(verdicts.open() > 0)))
}

fn prove(part: &str, lines: impl Fn(&net::Net) -> persist::Answer) -> io::Result<Ended> {
    let net = match read_network()? {
        Ok(net) => net,
        Err(refused) => return Ok(refused),
    };
    let answer = lines(&net);
    let mut out = Vec::with_capacity(answer.lines.len() + 4096);
    writeln!(out, "crn part {part} 1\nnetwork {}", net.reactions.len())?;
    (0..net.reactions.len()).for_each(|r| net.put_reaction(r, &mut out));
    out.extend_from_slice(&answer.lines);
    out.extend_from_slice(b"end\n");
    Ok((out, u8::from(answer.is_open)))
}

fn check(asked: Asked) -> io::Result<Ended> {
    match check::check(io::stdin().lock(), asked) {
        Err(document::Stop::Failed(error)) => Err(error),
        Err(document::Stop::Rejected(code, line)) => {
            let name = document::CODES.iter().find(|(number, _)| *number == code).unwrap().1;
            Ok(fault_line("rejected", code, name, line, 3))
        }
        Ok((net, verdicts)) => {
            let mut out = Vec::with_capacity(4096);
            report::report(&net, &verdicts, &mut out);
            Ok((out, 0))
        }
    }
}

/// What the words ask for, or nothing where they are no call.
fn answer(words: &[String]) -> Option<io::Result<Ended>> {
    let said: Vec<&str> = words.iter().map(String::as_str).collect();
    if let ["prove", part, rest @ ..] = &said[..] {
        let budget = match rest {
            [] => BUDGET,
            ["--budget", number] => number.parse().ok().filter(|budget| (1..=100_000).contains(budget))?,
            _ => return None,
        };
        return match *part {
            "persist" => Some(prove(part, |net| persist::persist(net, budget))),
            "parts" => Some(prove(part, parts::parts)),
            "robust" => Some(prove(part, robust::robust)),
            "endo" => Some(prove(part, |net| endo::endo(net, budget))),
            _ => None,
        };
    }
    let (command, rest) = words.split_first()?;
    let (budget, rest) = match rest {
        [option, number, rest @ ..] if option == "--budget" => (Some(number.parse().ok()?), rest),
        _ => (None, rest),
    };
    let asked = match rest {
        [] => Asked::ALL,
        [questions] => Asked::parse(questions)?,
        _ => return None,
    };
    let form = match command.as_str() {
        "report" => Form::Report,
        "certify" => Form::Certificate,
        "work" => Form::Work,
        "check" if budget.is_none() => return Some(check(asked)),
        _ => return None,
    };
    let budget = budget.unwrap_or(BUDGET);
    (1..=100_000).contains(&budget).then(|| read_and_solve(form, asked, budget))
}

fn main() -> ExitCode {
    let words: Vec<String> = std::env::args().skip(1).collect();
    let answer = answer(&words).unwrap_or_else(|| Ok((USAGE.into(), 4)));
    let Ok((out, status)) = answer else { return ExitCode::from(5) };
    match io::stdout().lock().write_all(&out) {
        Ok(()) => ExitCode::from(status),
        Err(_) => ExitCode::from(6),
    }
}
