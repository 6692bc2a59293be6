//! Reference of `replay`: run text in, answers out. Written from docs/ alone.

#[allow(dead_code)] // one of the four numbers is read here
mod analysis;
mod bench;
mod caches;
#[allow(dead_code)] // and no reload time
mod task;

use bench::{Bench, Call};
use caches::Policy;
use std::io::{self, BufWriter, Read, Write};
use std::process::ExitCode;

fn decimal(text: &str) -> Option<u64> {
    let digits = !text.is_empty() && text.bytes().all(|b| b.is_ascii_digit());
    if digits { text.parse().ok() } else { None }
}

fn small(text: &str) -> Option<u32> {
    decimal(text)?.try_into().ok()
}

/// Pairs of hexadecimal digits; spaces are passed over.
fn hexadecimal(text: &str) -> Option<Vec<u8>> {
    let digits: Option<Vec<u32>> =
        text.chars().filter(|c| *c != ' ').map(|c| c.to_digit(16)).collect();
    let digits = digits?;
    let even = digits.len() % 2 == 0;
    even.then(|| digits.chunks(2).map(|pair| (pair[0] << 4 | pair[1]) as u8).collect())
}

fn cache(line: &str) -> Option<(Policy, u32, u32)> {
    let words: Vec<&str> = line.split(' ').collect();
    let ["cache", policy, sets, ways] = words[..] else { return None };
    let policy = match policy {
        "lru" => Policy::Lru,
        "fifo" => Policy::Fifo,
        "tree" => Policy::Tree,
        _ => return None,
    };
    Some((policy, small(sets)?, small(ways)?))
}

enum Line {
    Call(Call),
    Read,
}

fn line(text: &str) -> Option<Line> {
    let call = match text {
        "finish" => Call::Finish,
        "interrupt" => Call::Interrupt,
        "resume" => Call::Resume,
        "read" => return Some(Line::Read),
        _ => match text.split_once(' ')? {
            ("step", n) => Call::Step(decimal(n)?),
            ("touch", b) => Call::Touch(small(b)?),
            _ => return None,
        },
    };
    Some(Line::Call(call))
}

fn print_counts(out: &mut impl Write, bench: &Bench) -> io::Result<()> {
    let c = &bench.counts;
    writeln!(
        out,
        "steps {} interruptions {} loads {} plain {} charge {}",
        c.steps, c.interruptions, c.loads, c.plain, c.charge
    )
}

fn print_call(out: &mut impl Write, bench: &mut Bench, call: Call) -> io::Result<()> {
    match call {
        Call::Step(q) => write!(out, "step {q}: ")?,
        Call::Finish => write!(out, "finish: ")?,
        Call::Interrupt => write!(out, "interrupt: ")?,
        Call::Touch(b) => write!(out, "touch {b}: ")?,
        Call::Resume => write!(out, "resume: ")?,
    }
    match bench.call(&call) {
        Ok(said) => writeln!(out, "{said}"),
        Err(number) => writeln!(out, "refused {number}"),
    }
}

fn not_understood(n: usize) -> String {
    format!("line {n} not understood")
}

/// The lines of a run that are neither blank nor comments, with their numbers.
struct Lines<'a> {
    rest: &'a [u8],
    number: usize,
}

impl<'a> Lines<'a> {
    /// The next such line; at the end of the text, None with the number of the line that is missing. What is not UTF-8 is
    /// given as words that nobody understands.
    fn next(&mut self) -> (usize, Option<&'a str>) {
        loop {
            self.number += 1;
            let Some(line) = self.rest.split_inclusive(|b| *b == b'\n').next() else {
                return (self.number, None);
            };
            self.rest = &self.rest[line.len()..];
            let Ok(line) = str::from_utf8(line) else {
                return (self.number, Some("not text"));
            };
            let line = line.strip_suffix("\r\n").or(line.strip_suffix('\n')).unwrap_or(line);
            if !line.starts_with('#') && line.bytes().any(|b| b != b' ') {
                return (self.number, Some(line));
            }
        }
    }
}

struct Run {
    bench: Bench,
    calls: Vec<Line>,
    /// The line that is not understood, if there is one.
    bad: Option<usize>,
}

/// All lines are read before the cache is made, and before the first call. Where nothing is replayed, the one line that is
/// printed.
fn read(input: &[u8]) -> Result<Run, String> {
    let mut lines = Lines { rest: input, number: 0 };
    let (n, first) = lines.next();
    let file = first.and_then(|l| l.strip_prefix("task ")).and_then(hexadecimal);
    let file = file.ok_or_else(|| not_understood(n))?;
    let task = task::Task::read(&file).map_err(|refusal| refusal.to_string())?;

    let (n, second) = lines.next();
    let (policy, sets, ways) = second.and_then(cache).ok_or_else(|| not_understood(n))?;

    let (mut calls, mut bad) = (vec![], None);
    while let (n, Some(text)) = lines.next() {
        match line(text) {
            Some(call) => calls.push(call),
            None => {
                bad = Some(n);
                break;
            }
        }
    }
    let cache = caches::make(policy, sets, ways);
    let cache = cache.map_err(|number| format!("refused {number}"))?;
    Ok(Run { bench: Bench::new(task, cache), calls, bad })
}

fn main() -> io::Result<ExitCode> {
    let mut input = vec![];
    io::stdin().read_to_end(&mut input)?;
    let mut out = BufWriter::new(io::stdout());
    let understood = match read(&input) {
        Ok(mut run) => {
            for call in run.calls {
                match call {
                    Line::Call(call) => print_call(&mut out, &mut run.bench, call)?,
                    Line::Read => print_counts(&mut out, &run.bench)?,
                }
            }
            match run.bad {
                Some(n) => writeln!(out, "line {n} not understood")?,
                None => print_counts(&mut out, &run.bench)?,
            }
            run.bad.is_none()
        }
        Err(line) => {
            writeln!(out, "{line}")?;
            false
        }
    };
    out.flush()?;
    Ok(ExitCode::from(!understood as u8))
}
