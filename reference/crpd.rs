//! Reference of `crpd`: task file in, sheet or refusal out. Written from docs/ alone.

mod analysis;
mod task;

use std::io::{self, BufWriter, Read, Write};
use std::process::ExitCode;

fn main() -> io::Result<ExitCode> {
    let mut file = vec![];
    io::stdin().take(4096).read_to_end(&mut file)?;
    let mut out = BufWriter::new(io::stdout());
    let task = match task::Task::read(&file) {
        Ok(task) => task,
        Err(refusal) => {
            writeln!(out, "{refusal}")?;
            out.flush()?;
            return Ok(ExitCode::from(1));
        }
    };
    let sheet = analysis::sheet(&task);
    writeln!(out, "point useful evicting combined resilient")?;
    for (p, n) in sheet.iter().enumerate() {
        writeln!(out, "{p} {} {} {} {}", n.useful, n.evicting, n.combined, n.resilient)?;
    }
    let largest = sheet.iter().map(|n| n.resilient).max().unwrap_or(0);
    writeln!(out, "largest {largest} cost {}", largest as u64 * task.reload as u64)?;
    out.flush()?;
    Ok(ExitCode::SUCCESS)
}
