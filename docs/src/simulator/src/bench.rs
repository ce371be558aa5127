//! Compares the speed of the console with that of the simulator. Both run as
//! processes on the same script, by turns, and the shortest of several runs counts.

use std::fs::File;
use std::io::{self, Write};
use std::path::Path;
use std::process::{Command, Stdio};
use std::time::{Duration, Instant};

use crate::generator::longest;
use crate::script::{run, Outcome};

const AUDITS: usize = 1_000;

/// A script to run, and the shortest times that it took.
struct Case {
    what: String,
    script: Vec<u8>,
    console: Duration,
    simulator: Duration,
}

impl Case {
    fn new(what: &str, script: Vec<u8>) -> Case {
        Case { what: describe(what, &script), script, console: Duration::MAX, simulator: Duration::MAX }
    }
}

pub fn bench(console: &Path, audits: bool, rounds: usize) -> io::Result<()> {
    let mut cases = vec![
        Case::new("start-up", Vec::new()),
        Case::new("a long script without audits", longest(1, false)),
        Case::new("payments on chain 0, an account bank", payments(0)),
        Case::new("payments on chain 1, a note bank", payments(1)),
    ];
    if audits {
        let set_up = full_world();
        let audited = [&set_up[..], &b"audit\n".repeat(AUDITS)].concat();
        cases.push(Case::new("a long script with audits here and there", longest(1, true)));
        cases.push(Case::new("a full world", set_up));
        cases.push(Case::new(&format!("the full world and {AUDITS} audits"), audited));
    }
    let file = std::env::temp_dir().join(format!("simulator-bench-{}.txt", std::process::id()));
    let measured = (0..rounds).try_for_each(|_| cases.iter_mut().try_for_each(|case| measure(case, console, &file)));
    let _ = std::fs::remove_file(&file);
    measured?;

    println!("Shortest of {rounds} runs of each process, in microseconds.\n");
    println!("| what was run | console | simulator | ratio |");
    println!("|---|---|---|---|");
    for case in &cases {
        row(&case.what, case.console, case.simulator);
    }
    less("the long script without start-up", &cases[1], &cases[0]);
    less("the payments on chain 0 without start-up", &cases[2], &cases[0]);
    less("the payments on chain 1 without start-up", &cases[3], &cases[0]);
    if audits {
        less("the long script with audits without start-up", &cases[4], &cases[0]);
        less(&format!("the {AUDITS} audits alone: the last script less the full world"), &cases[6], &cases[5]);
    }
    Ok(())
}

fn row(what: &str, console: Duration, simulator: Duration) {
    let micros = |time: Duration| time.as_secs_f64() * 1e6;
    let (console, simulator) = (micros(console), micros(simulator));
    println!("| {what} | {console:.0} | {simulator:.0} | {:.2} |", console / simulator);
}

/// What a case took more than another.
fn less(what: &str, case: &Case, base: &Case) {
    row(what, case.console.saturating_sub(base.console), case.simulator.saturating_sub(base.simulator));
}

/// Says how long a script is, and what comes of it.
fn describe(what: &str, script: &[u8]) -> String {
    let (mut accepted, mut refused) = (0, 0);
    let mut answers = Vec::new();
    run(script, &mut answers, |outcome, _| match outcome {
        Outcome::Accepted(..) => accepted += 1,
        Outcome::Refused(..) => refused += 1,
        Outcome::PassedOver => {}
    });
    let (length, answered) = (script.len(), answers.len());
    format!("{what}: {length} bytes, {accepted} calls accepted, {refused} refused, {answered} bytes of answers")
}

/// 2,400 payments from user to user, each of a bit less than the one before.
fn payments(chain: usize) -> Vec<u8> {
    let mut script = format!("issue {chain} 0 gold 1000000\n");
    for step in 0..2_400 {
        let (from, to) = (step % 16, (step + 1) % 16);
        script += &format!("pay {chain} {from} {to} gold {}\n", 10_000 - step * 4);
    }
    script.into_bytes()
}

/// A script for 32 tokens, 16 from each chain, whose vouchers fill both
/// registers, and 512 packets over 8 links: 8 of each token outward and
/// received, 4 outward and 4 homeward that are still open.
fn full_world() -> Vec<u8> {
    let mut lines = Vec::new();
    let mut sequences = [[0; 2]; 8];
    for link in 0..8 {
        lines.push(format!("open 0 1 {}", if link % 2 == 0 { "free" } else { "strict" }));
    }
    for chain in 0..2 {
        for token in 0..16 {
            lines.push(format!("issue {chain} {token} token{token} 1000000"));
        }
    }
    let mut send =
        |lines: &mut Vec<String>, chain: usize, link: usize, user: usize, denomination: &str, amount: usize| {
            lines.push(format!("send {chain} {link} {user} {user} {denomination} {amount} 0"));
            sequences[link][chain] += 1;
            sequences[link][chain]
        };
    for round in 0..16 {
        for chain in 0..2 {
            for token in 0..16 {
                let link = token % 8;
                let gold = format!("token{token}");
                let amount = 100 + round * 7 + token;
                if round < 12 {
                    let sequence = send(&mut lines, chain, link, token, &gold, amount);
                    if round < 8 {
                        lines.push(format!("receive {link} {chain} {sequence}"));
                    }
                } else {
                    let voucher = format!("transfer/channel-{link}/{gold}");
                    send(&mut lines, 1 - chain, link, token, &voucher, amount / 10);
                }
            }
        }
    }
    let mut script = lines.join("\n").into_bytes();
    script.push(b'\n');
    script
}

fn measure(case: &mut Case, console: &Path, file: &Path) -> io::Result<()> {
    File::create(file)?.write_all(&case.script)?;
    case.console = case.console.min(run_once(Command::new(console), file)?);
    let mut simulator = Command::new(std::env::current_exe()?);
    simulator.arg("simulate");
    case.simulator = case.simulator.min(run_once(simulator, file)?);
    Ok(())
}

fn run_once(mut command: Command, file: &Path) -> io::Result<Duration> {
    command.stdin(File::open(file)?).stdout(Stdio::null());
    let start = Instant::now();
    let status = command.status()?;
    let time = start.elapsed();
    if !status.success() {
        return Err(io::Error::other(format!("{command:?} did not end well: {status}")));
    }
    Ok(time)
}

#[cfg(test)]
mod tests {
    use super::*;

    #[test]
    fn the_full_world_is_full() {
        let mut script = full_world();
        script.extend_from_slice(&b"audit\n".repeat(AUDITS));
        assert!(script.len() <= crate::script::LONGEST_SCRIPT);
        let mut answers = Vec::new();
        run(&script, &mut answers, |outcome, _| assert!(!matches!(outcome, Outcome::Refused(..))));
        let text = String::from_utf8(answers).unwrap();
        assert_eq!(text.matches("audit 32 8 512\n").count(), AUDITS);
        let audit = text.rsplit("audit 32").next().unwrap();
        assert_eq!(audit.matches("token 0 ").count(), 16);
        assert_eq!(audit.matches("token 1 ").count(), 16);
        assert_eq!(audit.matches("escrow ").count(), 32);
    }
}
