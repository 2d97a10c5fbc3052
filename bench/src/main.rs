//! Measures the compiled proved walk and audit against straightforward ones in Rust.
//!
//!     bench [--quick] [--rounds N] [--earlier FOLDER]
//!
//! All four ways (the proved batch and one in Rust, the proved question and one in Rust called for each address) must first give
//! the same answers. Then they are timed in one run, and ratios of median times are printed. The same is done for the largest audits,
//! the proved one and one in Rust, and for core files of the hot workloads' captures. With a folder that tools/earlier filled, this
//! build is measured against an earlier one in the place of all that. Status 1 if answers differ, 2 for wrong arguments.
mod attributes;
mod audit;
mod audits;
mod batch;
mod check;
mod cores;
mod decode;
mod earlier;
mod library;
mod memory;
mod one_by_one;
mod proved;
mod question;
mod random;
mod refusals;
mod refused;
mod straight;
mod tables;
mod timing;
mod workloads;

use audit::{MOST_GRANTS, MOST_TABLES};
use std::path::{Path, PathBuf};
use std::process::exit;
use workloads::BATCH;

const SEED: u64 = 0x5eed;
/// Enough that each way takes every batch thirty times, and what other programs do meanwhile evens out.
const ROUNDS: usize = 600;
const QUICK_ROUNDS: usize = 15;
/// An audit has 128 times as many entries as a batch has addresses, so it takes one round in so many, and no fewer than the least.
const AUDIT_EVERY: usize = 20;
const LEAST_AUDITS: usize = 3;

struct Arguments {
    quick: bool,
    rounds: usize,
    /// Where an earlier build is.
    earlier: Option<PathBuf>,
}

fn usage() -> ! {
    eprintln!("usage: bench [--quick] [--rounds N] [--earlier FOLDER], N at least 1");
    exit(2);
}

fn arguments() -> Arguments {
    let (mut quick, mut rounds, mut earlier) = (false, None, None);
    let mut given = std::env::args().skip(1);
    while let Some(one) = given.next() {
        match one.as_str() {
            "--quick" => quick = true,
            "--rounds" => rounds = Some(given.next().and_then(|n| n.parse().ok()).filter(|n| *n > 0).unwrap_or_else(|| usage())),
            "--earlier" => earlier = Some(given.next().map(PathBuf::from).unwrap_or_else(|| usage())),
            _ => usage(),
        }
    }
    Arguments { quick, rounds: rounds.unwrap_or(if quick { QUICK_ROUNDS } else { ROUNDS }), earlier }
}

fn differ(name: &str, difference: String) -> ! {
    eprintln!("{name}: answers differ. {difference}");
    exit(1);
}

fn walks(quick: bool, rounds: usize) {
    refused::agree().unwrap_or_else(|difference| differ("refused questions", difference));
    println!("Ratios of median times of {rounds} interleaved rounds, batches of {BATCH} addresses. Above 1 the proved one is slower.");
    println!("Logs are not cleared between addresses. The last two columns are Rust here and now, and promise nothing.");
    println!();
    println!(
        "| workload | reads | translated | proved batch / Rust batch | proved question / Rust question \
         | Rust batch, ns an address | Rust question, ns an address |"
    );
    println!("|---|---|---|---|---|---|---|");
    for plan in workloads::plans(quick) {
        let workload = workloads::build(&plan, SEED);
        let agreed = check::agree(&workload).unwrap_or_else(|difference| differ(plan.name, difference));
        let medians = timing::measure(&workload, rounds);
        println!(
            "| {} | {:.1} | {:.0} % | {:.2} | {:.2} | {:.0} | {:.0} |",
            plan.name,
            agreed.reads,
            100.0 * agreed.translated,
            medians.proved_batch / medians.rust_batch,
            medians.proved_question / medians.rust_question,
            medians.rust_batch / BATCH as f64,
            medians.rust_question / BATCH as f64
        );
    }
}

/// The hot workloads with both stages, over core files.
fn cores(rounds: usize) {
    println!("Core files of the same captures, {rounds} rounds, {} questions a round. Above 1 the first one is slower.", cores::QUESTIONS);
    println!("Core is the proved call over the file, raw the proved call over the capture, Rust is over the file too.");
    println!();
    println!(
        "| workload | banks | batch: core / raw | core / Rust scan | core / Rust halving | core, ns an address \
         | question: core / raw | core / Rust scan | core / Rust halving | core, ns an address |"
    );
    println!("|---|---|---|---|---|---|---|---|---|---|");
    for plan in workloads::plans(true).into_iter().take(2) {
        let workload = workloads::build(&plan, SEED);
        for cut in cores::CUTS {
            let file = cores::build(&workload, cut, SEED);
            cores::agree(&workload, &file, cut).unwrap_or_else(|difference| differ(plan.name, difference));
            let (batch, question) = cores::measure(&workload, &file, cut, rounds);
            let ratios =
                |m: &cores::Medians| format!("{:.2} | {:.2} | {:.2} | {:.0}", m.core / m.raw, m.core / m.scan, m.core / m.halving, m.core);
            println!("| {} | {} | {} | {} |", plan.name, cut.name, ratios(&batch), ratios(&question));
        }
    }
}

fn audits(rounds: usize) {
    println!("The largest audits, clean: {MOST_TABLES} tables, {MOST_GRANTS} grants, {} entries, {rounds} rounds.", audits::ALL_ENTRIES);
    println!();
    println!("| audit | proved audit / Rust audit | proved audit, ms | Rust audit, ms |");
    println!("|---|---|---|---|");
    for plan in audits::PLANS {
        let audit = audits::build(&plan, SEED);
        audits::agree(&audit).unwrap_or_else(|difference| differ(plan.name, difference));
        let medians = audits::measure(&audit, rounds);
        println!("| {} | {:.2} | {:.1} | {:.1} |", plan.name, medians.proved / medians.rust, medians.proved / 1e6, medians.rust / 1e6);
    }
}

/// This build against an earlier one.
fn against(folder: &Path, quick: bool, rounds: usize) {
    let pairs = earlier::load(folder).unwrap_or_else(|why| {
        eprintln!("{why}\nRun tools/bench --before COMMIT, which puts both builds there.");
        exit(2);
    });
    println!(
        "This build to the earlier one, over the same bytes: median times of {rounds} interleaved rounds at each of {} places in a cache line.",
        pairs.len()
    );
    println!("The mean of the places, in brackets the lowest and the highest. Above 1 this build is slower. A core file has one bank.");
    if !earlier::knows_core_files(&pairs) {
        println!(
            "The earlier build knows no core files: what this build takes over one is held against what it took over the raw capture."
        );
    }
    println!();
    println!("| workload | raw batch | core batch | raw question | core question |");
    println!("|---|---|---|---|---|");
    for plan in workloads::plans(quick) {
        let workload = workloads::build(&plan, SEED);
        let captures = earlier::Captures::of(&workload, SEED);
        earlier::agree(&pairs, &captures).unwrap_or_else(|difference| differ(plan.name, difference));
        let times = earlier::measure(&pairs, &captures, rounds);
        let [raw_batch, core_batch, raw_question, core_question] = earlier::ratios(&times);
        println!("| {} | {raw_batch} | {core_batch} | {raw_question} | {core_question} |", plan.name);
    }
}

fn main() {
    let Arguments { quick, rounds, earlier } = arguments();
    if let Some(folder) = earlier {
        return against(&folder, quick, rounds);
    }
    walks(quick, rounds);
    println!();
    cores(rounds);
    println!();
    audits((rounds / AUDIT_EVERY).max(LEAST_AUDITS));
}
