//! Compares the static library of `include/futsamboly.h` with the other author's plain Rust and fast C, and times all three.
//! `compare/run` builds and runs it; docs/COMPARE.md says what it does.

mod bench;
mod ffi;
mod header;
mod inputs;
mod lent;
mod messages;
mod receivers;
mod report;
mod tapes;

/// The other author's program, as it is: the oracle.
#[path = "../reference/reference.rs"]
#[allow(dead_code)]
mod reference;

use report::Report;
use std::process::ExitCode;

const USAGE: &str = "usage: compare [SEED] [MESSAGES] [TAPES] | short | bench, or nothing for all";

/// How much is compared.
struct Plan {
    seed: u64,
    messages: u64,
    tapes: u64,
}

impl Plan {
    fn scripts(&self) -> u64 {
        self.tapes.div_ceil(4)
    }
}

const WHOLE: Plan = Plan { seed: 1, messages: 100_000, tapes: 10_000 };
const SHORT: Plan = Plan { seed: 1, messages: 3_000, tapes: 300 };

fn main() -> ExitCode {
    let faults = header::faults();
    if !faults.is_empty() {
        faults.iter().for_each(|fault| eprintln!("{fault}"));
        return ExitCode::FAILURE;
    }
    let arguments: Vec<String> = std::env::args().skip(1).collect();
    let words: Vec<&str> = arguments.iter().map(String::as_str).collect();
    let good = match words[..] {
        [] => compare(&WHOLE) && bench::run(),
        ["compare", ref numbers @ ..] => match plan(numbers) {
            Some(plan) => compare(&plan),
            None => usage(),
        },
        ["short"] => compare(&SHORT),
        ["bench"] => bench::run(),
        _ => usage(),
    };
    if good { ExitCode::SUCCESS } else { ExitCode::FAILURE }
}

fn usage() -> bool {
    eprintln!("{USAGE}");
    false
}

fn plan(numbers: &[&str]) -> Option<Plan> {
    let numbers: Vec<u64> = numbers.iter().map(|number| number.parse().ok()).collect::<Option<_>>()?;
    let at = |place: usize, default: u64| numbers.get(place).copied().unwrap_or(default);
    let plan = Plan { seed: at(0, WHOLE.seed), messages: at(1, WHOLE.messages), tapes: at(2, WHOLE.tapes) };
    (numbers.len() <= 3).then_some(plan)
}

/// Whether nothing differs and each answer was seen.
fn compare(plan: &Plan) -> bool {
    println!("seed {}", plan.seed);
    let mut report = Report::new();
    messages::expect(&mut report);
    messages::compare(&mut report, plan.seed, plan.messages);
    tapes::expect(&mut report);
    tapes::compare(&mut report, plan.seed, plan.tapes);
    receivers::expect(&mut report);
    receivers::compare(&mut report, plan.seed, plan.scripts());
    let missing = report.print();
    messages::print_counts(&report, plan.messages);
    tapes::print_counts(&report, plan.tapes);
    receivers::print_counts(&report, plan.scripts());
    match missing {
        0 => println!("differ {}", report.differences),
        _ => println!("differ {}, never seen {missing}", report.differences),
    }
    missing == 0 && report.differences == 0
}
