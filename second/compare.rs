//! Compares the proved library with the second program: the same random inputs go
//! to both, and everything they give is compared.
//!
//!     compare NAME                 one comparison with all its inputs, for the gate
//!     compare SEED SECONDS [ROUND] all of them in small rounds, for as long as told
//!
//! Prints one line for each property, then `N passed, M failed`.

use std::process::ExitCode;
use std::time::{Duration, Instant};

mod compare_chip;
mod compare_host;
mod compare_link;
mod compare_reader;
mod compare_recorded;
mod compare_reply;
mod compare_writer;
mod host;
mod inputs;
mod interface;
mod link;
mod random;
mod report;
mod tube;

use random::Random;
use report::{Report, last_line};

struct Comparison {
    name: &'static str,
    report: fn() -> Report,
    whole: fn(&mut Random, &mut Report),
    /// One in so many of the inputs that are drawn at random.
    share: fn(&mut Random, u64, &mut Report),
}

const COMPARISONS: [Comparison; 7] = [
    Comparison {
        name: "chip",
        report: compare_chip::report,
        whole: compare_chip::whole,
        share: compare_chip::share,
    },
    Comparison {
        name: "reader",
        report: compare_reader::report,
        whole: compare_reader::whole,
        share: compare_reader::share,
    },
    Comparison {
        name: "writer",
        report: compare_writer::report,
        whole: compare_writer::whole,
        share: compare_writer::share,
    },
    Comparison {
        name: "link",
        report: compare_link::report,
        whole: compare_link::whole,
        share: compare_link::share,
    },
    Comparison {
        name: "reply",
        report: compare_reply::report,
        whole: compare_reply::whole,
        share: compare_reply::share,
    },
    Comparison {
        name: "recorded",
        report: compare_recorded::report,
        whole: compare_recorded::whole,
        share: compare_recorded::share,
    },
    Comparison {
        name: "host",
        report: compare_host::report,
        whole: compare_host::whole,
        share: compare_host::share,
    },
];

/// What part of its random inputs a comparison has in a round.
const SHARE: u64 = 400;

/// Rounds with inputs of their own until the time is over or something differs, at
/// least one.
fn soak(seed: u64, time: Duration, first: u64) -> ExitCode {
    println!("seed {seed}, from round {first}, for {} s", time.as_secs());
    let mut reports: Vec<Report> = COMPARISONS.iter().map(|one| (one.report)()).collect();
    let start = Instant::now();
    let mut round = first;
    loop {
        for (part, (one, report)) in COMPARISONS.iter().zip(&mut reports).enumerate() {
            let mut random = Random::of(seed, round, part as u64);
            (one.share)(&mut random, SHARE, report);
        }
        round += 1;
        if reports.iter().any(Report::differs) || start.elapsed() >= time {
            break;
        }
    }
    let (mut passed, mut failed) = (0, 0);
    for (one, report) in COMPARISONS.iter().zip(&reports) {
        println!("{}:", one.name);
        let (p, f) = report.print();
        (passed, failed) = (passed + p, failed + f);
    }
    println!("seed {seed}, {} rounds done", round - first);
    if failed > 0 {
        let last = round - 1;
        println!(
            "the first difference is in round {last}; to repeat it: tests/soak {seed} 0 {last}"
        );
    }
    last_line(passed, failed)
}

fn usage() -> ExitCode {
    let names: Vec<&str> = COMPARISONS.iter().map(|one| one.name).collect();
    eprintln!("compare {} | SEED SECONDS [ROUND]", names.join(" | "));
    ExitCode::FAILURE
}

fn main() -> ExitCode {
    let arguments: Vec<String> = std::env::args().skip(1).collect();
    if let [name] = &arguments[..]
        && let Some(one) = COMPARISONS.iter().find(|one| one.name == name)
    {
        let mut report = (one.report)();
        (one.whole)(&mut Random::gate(), &mut report);
        return report.print_whole();
    }
    let numbers: Result<Vec<u64>, _> = arguments.iter().map(|one| one.parse()).collect();
    match numbers.as_deref() {
        Ok(&[seed, seconds]) => soak(seed, Duration::from_secs(seconds), 0),
        Ok(&[seed, seconds, round]) => soak(seed, Duration::from_secs(seconds), round),
        _ => usage(),
    }
}
