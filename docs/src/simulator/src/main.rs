//! The commands of the simulator; see README.md.

use std::io::{self, Read, Write};
use std::path::PathBuf;
use std::process::ExitCode;

use simulator::{bench, compare, damage, generator, script};

const USAGE: &str = "usage: simulator simulate
       simulator generate SEED [--long] [--damaged] [--no-audit]
       simulator compare N [--from SEED] [--console PATH] [--no-audit]
       simulator bench [--rounds N] [--console PATH] [--no-audit]";

/// How much output is gathered before it is written.
const BUFFER: usize = 65_536;

#[derive(Default)]
struct Options {
    number: Option<u64>,
    console: Option<PathBuf>,
    from: u64,
    rounds: Option<usize>,
    long: bool,
    damaged: bool,
    no_audit: bool,
}

fn main() -> ExitCode {
    let mut words = std::env::args().skip(1);
    let name = words.next().unwrap_or_default();
    let Some(options) = read_options(words) else {
        eprintln!("{USAGE}");
        return ExitCode::from(2);
    };
    match carry_out(&name, options) {
        Ok(true) => ExitCode::SUCCESS,
        Ok(false) => ExitCode::FAILURE,
        Err(error) => {
            eprintln!("simulator: {error}");
            ExitCode::FAILURE
        }
    }
}

fn carry_out(name: &str, options: Options) -> io::Result<bool> {
    let audits = !options.no_audit;
    let console = options.console.unwrap_or_else(compare::default_console);
    match (name, options.number) {
        ("simulate", None) => simulate(),
        ("generate", Some(seed)) => {
            let good = if options.long { generator::longest(seed, audits) } else { generator::generate(seed, audits) };
            let script = if options.damaged { damage::damage(seed, &good) } else { good };
            io::stdout().write_all(&script).map(|()| true)
        }
        ("compare", Some(seeds)) => compare::compare(options.from, seeds, &console, audits),
        ("bench", None) => bench::bench(&console, audits, options.rounds.unwrap_or(100)).map(|()| true),
        _ => {
            eprintln!("{USAGE}");
            Ok(false)
        }
    }
}

/// Answers the script on standard input.
fn simulate() -> io::Result<bool> {
    let mut input = Vec::with_capacity(script::LONGEST_SCRIPT + 1);
    io::stdin().lock().take(script::LONGEST_SCRIPT as u64 + 1).read_to_end(&mut input)?;
    let mut output = io::stdout().lock();
    let mut answers = Vec::with_capacity(2 * BUFFER);
    let mut written = Ok(());
    script::run(&input, &mut answers, |_, answers| {
        if answers.len() >= BUFFER && written.is_ok() {
            written = output.write_all(answers);
            answers.clear();
        }
    });
    written?;
    output.write_all(&answers)?;
    output.flush()?;
    Ok(true)
}

fn read_options(mut words: impl Iterator<Item = String>) -> Option<Options> {
    let mut options = Options::default();
    while let Some(word) = words.next() {
        match word.as_str() {
            "--console" => options.console = Some(words.next()?.into()),
            "--from" => options.from = words.next()?.parse().ok()?,
            "--rounds" => options.rounds = Some(words.next()?.parse().ok()?),
            "--long" => options.long = true,
            "--damaged" => options.damaged = true,
            "--no-audit" => options.no_audit = true,
            _ if options.number.is_none() => options.number = Some(word.parse().ok()?),
            _ => return None,
        }
    }
    Some(options)
}
