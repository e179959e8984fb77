//! Compares the proved library with gix-date 0.18.1. See `--help`.

use std::process::ExitCode;

use differential::fence;
use differential::ledger::{Ledger, grouped};
use differential::planted::MISTAKES;
use differential::side::Ours;
use differential::suites::{SUITES, Size};

const HELP: &str = "\
Usage: compare [--times N] [--seed N] [SUITE...]
Compare the proved library with gix-date 0.18.1: number, seconds, offset, bytes written, bytes not written. The mark,
which gix-date does not have, is compared with what the rules say.

  --times N   the random suites N times as long (default 1); from 2 on, sets of short texts go a byte further
  --seed N    other random texts (default 1)
  --list      the suites, with what they hold
  --planted   compare gix-date with itself and one mistake planted, for each of a list of mistakes: all must be found
  SUITE       compare these alone

Exit status: 0 no difference; 1 some, the smallest is printed last; 2 bad usage.";

fn main() -> ExitCode {
    let mut size = Size { seed: 1, times: 1 };
    let mut chosen = Vec::new();
    let mut words = std::env::args().skip(1);
    while let Some(word) = words.next() {
        let mut number = || words.next().and_then(|word| word.parse::<u64>().ok());
        match word.as_str() {
            "--times" | "--seed" => match number() {
                Some(number) if word == "--seed" => size.seed = number,
                Some(number) if number > 0 => size.times = number as usize,
                _ => return usage(&format!("{word} needs a number")),
            },
            "--list" => {
                for suite in SUITES {
                    println!("{:<14} {}", suite.name, suite.about);
                }
                return ExitCode::SUCCESS;
            }
            "--planted" => return planted(size),
            "--help" => {
                println!("{HELP}");
                return ExitCode::SUCCESS;
            }
            name if SUITES.iter().any(|suite| suite.name == name) => chosen.push(word),
            _ => return usage(&format!("there is no suite {word}")),
        }
    }

    fence::watch();
    let mut ledger = Ledger::new(&Ours);
    let suites: Vec<_> =
        SUITES.iter().filter(|suite| chosen.is_empty() || chosen.iter().any(|name| name == suite.name)).collect();
    let all = suites.len();
    for (place, suite) in suites.into_iter().enumerate() {
        let before = ledger.compared();
        ledger.begin(format!("{:>2} of {all}  {}", place + 1, suite.name));
        (suite.run)(&mut ledger, size);
        ledger.end(ledger.compared() - before);
    }
    ledger.summary();
    match ledger.smallest() {
        None => {
            println!("\nno difference in {} answers", grouped(ledger.compared()));
            ExitCode::SUCCESS
        }
        Some(difference) => {
            println!("\n{} answers differ; the smallest input: {difference}", grouped(ledger.differ()));
            ExitCode::FAILURE
        }
    }
}

/// Prints, for each planted mistake, the suite that finds it and the smallest input that shows it.
fn planted(size: Size) -> ExitCode {
    let mut missed = 0;
    for mistake in MISTAKES {
        let mut ledger = Ledger::until_first(mistake);
        let finder =
            SUITES.iter().filter(|suite| suite.name.starts_with("write-") == mistake.of_writers).find(|suite| {
                (suite.run)(&mut ledger, size);
                ledger.is_over()
            });
        match (finder, ledger.smallest()) {
            (Some(suite), Some(difference)) => {
                println!("{}\n  found by {} after {} answers", mistake.name, suite.name, grouped(ledger.compared()));
                println!("  {}", difference.to_string().replace('\n', "\n  "));
            }
            _ => {
                println!("{}\n  not found in {} answers", mistake.name, grouped(ledger.compared()));
                missed += 1;
            }
        }
    }
    println!("\n{} mistakes planted, {missed} not found", MISTAKES.len());
    if missed == 0 { ExitCode::SUCCESS } else { ExitCode::FAILURE }
}

fn usage(what: &str) -> ExitCode {
    eprintln!("compare: {what}\n{HELP}");
    ExitCode::from(2)
}
