//! Runs the console and the simulator on the same scripts and compares every
//! byte of their answers.

use std::io::{self, Write};
use std::path::{Path, PathBuf};
use std::process::{Command, Stdio};
use std::thread;

use crate::damage::damage;
use crate::generator::{flavour, generate};
use crate::script::{run, Answer, Name, Outcome, NAMES};

/// The refusals that the checks of each call can give on the two chains of the
/// console. 8 needs four chains, 30 a chain without bars, and 34 a refund
/// that the ledger refuses.
const CHECKS: [&[usize]; 13] = [
    &[6, 7, 9],
    &[6, 12, 13, 23, 33],
    &[6, 12, 13, 14, 15, 31, 32],
    &[6, 12, 13, 14, 31, 32],
    &[6, 10, 12, 13, 14, 16, 17, 22, 31, 32],
    &[11, 16, 18, 19, 20, 25, 26],
    &[11, 18, 19, 27, 29],
    &[11, 18, 19, 21, 28],
    &[6, 13, 24],
    &[6, 12],
    &[6, 12],
    &[6, 14],
    &[],
];

/// One more than the highest refusal.
const REFUSALS: usize = 37;

/// How often each thing came up.
struct Counts {
    scripts: usize,
    bytes: usize,
    calls: usize,
    accepted: [usize; 13],
    refused: [[usize; REFUSALS]; 13],
    unread: [usize; REFUSALS],
    marks: [usize; 5],
}

impl Counts {
    fn new() -> Counts {
        Counts {
            scripts: 0,
            bytes: 0,
            calls: 0,
            accepted: [0; 13],
            refused: [[0; REFUSALS]; 13],
            unread: [0; REFUSALS],
            marks: [0; 5],
        }
    }

    fn add(&mut self, outcome: &Outcome) {
        match outcome {
            Outcome::PassedOver => return,
            Outcome::Accepted(name, answer) => {
                self.accepted[*name as usize] += 1;
                if let (Name::Receive, Answer::Number(mark)) = (name, answer) {
                    self.marks[*mark as usize] += 1;
                }
            }
            Outcome::Refused(Some(name), refusal) => {
                self.refused[*name as usize][usize::from(refusal.number())] += 1;
            }
            Outcome::Refused(None, refusal) => self.unread[usize::from(refusal.number())] += 1,
        }
        self.calls += 1;
    }

    fn print(&self) {
        println!("{} scripts, {} bytes, {} lines answered, no difference", self.scripts, self.bytes, self.calls);
        println!("\ncall      accepted  refused by (number: how often)");
        for (call, name) in NAMES.iter().enumerate() {
            let refusals: Vec<String> = (0..REFUSALS)
                .filter(|&n| self.refused[call][n] > 0)
                .map(|n| format!("{n}: {}", self.refused[call][n]))
                .collect();
            println!("{name:<10}{:<10}{}", self.accepted[call], refusals.join(", "));
        }
        let totals: Vec<usize> =
            (0..REFUSALS).map(|n| self.unread[n] + self.refused.iter().map(|r| r[n]).sum::<usize>()).collect();
        let list = |counts: &[usize]| {
            let shown: Vec<String> =
                counts.iter().enumerate().skip(1).map(|(n, count)| format!("{n}: {count}")).collect();
            shown.join(", ")
        };
        println!("\nrefusals: {}", list(&totals[..35]));
        println!("marks: {}", list(&self.marks));
        let missing: Vec<String> = CHECKS
            .iter()
            .enumerate()
            .flat_map(|(call, checks)| checks.iter().map(move |&n| (call, n)))
            .filter(|&(call, n)| self.refused[call][n] == 0)
            .map(|(call, n)| format!("{} {n}", NAMES[call]))
            .collect();
        if missing.is_empty() {
            println!("every check of every call was met that two chains can meet");
        } else {
            println!("checks that were not met: {}", missing.join(", "));
        }
    }
}

/// The console of this repository.
pub fn default_console() -> PathBuf {
    Path::new(env!("CARGO_MANIFEST_DIR")).join("../../../crates/console/out/console")
}

/// Compares good and damaged scripts of the seeds from `first`. Says whether all agreed.
pub fn compare(first: u64, seeds: u64, console: &Path, audits: bool) -> io::Result<bool> {
    let mut counts = Counts::new();
    for seed in first..first.saturating_add(seeds) {
        let good = generate(seed, audits);
        let damaged = damage(seed, &good);
        for (kind, script) in [("good", good), ("damaged", damaged)] {
            // Damage may leave an audit where none was written.
            if !audits && script.split(|&b| b == b'\n').any(|line| line == b"audit") {
                continue;
            }
            let mut expected = Vec::new();
            run(&script, &mut expected, |outcome, _| counts.add(outcome));
            counts.scripts += 1;
            counts.bytes += script.len();
            let (found, well) = answers_of(console, &script)?;
            if found != expected || !well {
                let file = format!("difference-{seed}-{kind}.txt");
                std::fs::write(&file, &script)?;
                println!("seed {seed} ({}), {kind} script, saved as {file}", flavour(seed));
                if !well {
                    println!("the console did not end with status 0");
                }
                print_difference(&script, &expected, &found);
                return Ok(false);
            }
        }
    }
    counts.print();
    Ok(true)
}

/// What a console answers to a script, and whether it ended well.
fn answers_of(console: &Path, script: &[u8]) -> io::Result<(Vec<u8>, bool)> {
    let mut child = Command::new(console).stdin(Stdio::piped()).stdout(Stdio::piped()).spawn()?;
    let mut input = child.stdin.take().expect("the input is a pipe");
    let output = thread::scope(|scope| {
        // A console that has read enough closes its input; that is no fault of this side.
        scope.spawn(move || {
            let _ = input.write_all(script);
        });
        child.wait_with_output()
    })?;
    Ok((output.stdout, output.status.success()))
}

fn print_difference(script: &[u8], expected: &[u8], found: &[u8]) {
    let mut expected = expected.split(|&b| b == b'\n');
    let mut found = found.split(|&b| b == b'\n');
    let show = |line: Option<&[u8]>| line.map_or("(nothing)".into(), |l| String::from_utf8_lossy(l).into_owned());
    let mut answered = 0;
    loop {
        let (simulator, console) = (expected.next(), found.next());
        if let Some(line) = simulator.and_then(line_number) {
            answered = line;
        }
        if simulator != console || simulator.is_none() {
            let line = answered.checked_sub(1).and_then(|index| script.split(|&b| b == b'\n').nth(index));
            println!("script:    {}", show(line));
            println!("simulator: {}", show(simulator));
            println!("console:   {}", show(console));
            return;
        }
    }
}

fn line_number(answer: &[u8]) -> Option<usize> {
    let word = answer.split(|&b| b == b' ').next()?;
    crate::text::read_number(word).and_then(|n| usize::try_from(n).ok())
}
