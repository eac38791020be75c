//! A second, plain program for the posting floor, and a maker of random scripts.

mod coverage;
mod flaws;
mod floor;
mod generate;
mod ledger;
mod network;
mod random;
mod refusal;
mod reports;
mod script;
#[cfg(test)]
mod tests;

use std::fs;
use std::io::{self, Read, Write};
use std::path::Path;
use std::process::ExitCode;

const USAGE: &str = "usage: baseline rehearse | worklist            (script on standard input)
       baseline generate SEED                (one random script)
       baseline write DIR FROM TO            (seed-N.script for N from FROM to TO)
       baseline answer DIR                   (.rehearsal and .worklist for every .script)
       baseline coverage FROM TO             (what these seeds reach)";

fn main() -> ExitCode {
    let arguments: Vec<String> = std::env::args().skip(1).collect();
    let words: Vec<&str> = arguments.iter().map(String::as_str).collect();
    match run(&words) {
        Some(Ok(())) => ExitCode::SUCCESS,
        Some(Err(fault)) => {
            eprintln!("baseline: {fault}");
            ExitCode::FAILURE
        }
        None => {
            eprintln!("{USAGE}");
            ExitCode::from(2)
        }
    }
}

/// Nothing where the words name no mode.
fn run(words: &[&str]) -> Option<io::Result<()>> {
    match *words {
        ["rehearse"] => Some(from_standard_input(reports::rehearsal)),
        ["worklist"] => Some(from_standard_input(reports::worklist)),
        ["generate", seed] => {
            let script = generate::script(seed.parse().ok()?);
            Some(io::stdout().write_all(&script.bytes))
        }
        ["write", folder, from, to] => Some(write_scripts(
            Path::new(folder),
            from.parse().ok()?,
            to.parse().ok()?,
        )),
        ["answer", folder] => Some(write_answers(Path::new(folder))),
        ["coverage", from, to] => {
            let text = coverage::report(from.parse().ok()?, to.parse().ok()?);
            Some(io::stdout().write_all(text.as_bytes()))
        }
        _ => None,
    }
}

/// One byte past the longest script is enough to see that it is too long.
fn from_standard_input(report: fn(&[u8]) -> String) -> io::Result<()> {
    let mut bytes = Vec::new();
    io::stdin()
        .take(script::LONGEST as u64 + 1)
        .read_to_end(&mut bytes)?;
    io::stdout().write_all(report(&bytes).as_bytes())
}

fn write_scripts(folder: &Path, from: u64, to: u64) -> io::Result<()> {
    for seed in from..=to {
        let name = format!("seed-{seed}.script");
        fs::write(folder.join(name), generate::script(seed).bytes)?;
    }
    Ok(())
}

fn write_answers(folder: &Path) -> io::Result<()> {
    for file in fs::read_dir(folder)? {
        let path = file?.path();
        if path
            .extension()
            .is_some_and(|extension| extension == "script")
        {
            let bytes = fs::read(&path)?;
            fs::write(path.with_extension("rehearsal"), reports::rehearsal(&bytes))?;
            fs::write(path.with_extension("worklist"), reports::worklist(&bytes))?;
        }
    }
    Ok(())
}
