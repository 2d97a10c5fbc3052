//! Compares the proved functions with an independent walk and audit, and both with answers from outside.
mod audit;
mod audit_build;
mod audit_classes;
mod audit_damage;
mod audits;
mod batches;
mod classes;
mod core_classes;
mod core_draft;
mod core_file;
mod core_make;
mod cores;
mod counts;
mod generate;
mod geometry;
mod proved;
mod random;
mod real;
mod tables;
mod vectors;
mod walk;

use classes::{Classes, Told};
use generate::Questions;
use proved::Words;
use std::process::ExitCode;
use std::time::{Duration, Instant};
use vectors::{answer_text, log_text, question_text, Line};
use walk::{Bank, Capture, OutputSize, Question};

const USAGE: &str = "\
compare vectors FILE..      hold the walk, the audit and the proved functions to the answers of files
compare dumps LIST FOLDER   hold reader and proved bank list to what LIST says of the core files of FOLDER
compare guest FOLDER        hold walk, audit and proved functions to a processor's answers, over a guest's core file
compare random COUNT SEED   compare the proved function with the walk on COUNT random questions, which SEED determines
compare batches COUNT SEED  compare the proved batch with the walk on COUNT random batches
compare audits COUNT SEED   compare the proved audit with the independent one on COUNT random audits
compare cores COUNT SEED    compare the proved calls over core files with the independent ones on COUNT made files
The last line is 'N compared, M differ'. Exit status 0 exactly when M is 0, N is not, and no class was missed by
200,000 random questions, 2,000 random batches, 40,000 random audits or 20,000 made files or more; 2 for bad arguments.";

/// From this many random questions on, a class that is missed is an error.
const ALL_CLASSES: u64 = 200_000;

/// From this many random batches on, a sort that is missed is an error.
const ALL_BATCHES: u64 = 2_000;

/// From this many random audits on, a class that is missed is an error.
const ALL_AUDITS: u64 = 40_000;

/// From this many made files on, a class that is missed is an error.
const ALL_CORES: u64 = 20_000;

/// Disagreements printed in full: after a gross error there would be many thousands.
const PRINTED: u64 = 20;

/// Words before and after the log, to see a write outside of it.
const GUARD: usize = 8;

/// The answer of one of the two, and the log that it left, with the guards around it.
struct Reply {
    words: Words,
    log: Vec<u64>,
}

impl Reply {
    /// Asks with the same words in and around the log each time.
    fn new(log_words: usize, ask: impl FnOnce(&mut [u64]) -> Words) -> Reply {
        let mut log = pattern(GUARD + log_words + GUARD);
        let words = ask(&mut log[GUARD..GUARD + log_words]);
        Reply { words, log }
    }

    /// The part of the log that the count covers.
    fn reads(&self) -> &[u64] {
        let within = (self.log.len() - 2 * GUARD) as u64;
        &self.log[GUARD..GUARD + self.words.reads.min(within) as usize]
    }

    /// Whether all words but those that the count covers are as they were.
    fn kept(&self) -> bool {
        let before = pattern(self.log.len());
        let after = GUARD + self.reads().len();
        self.log[..GUARD] == before[..GUARD] && self.log[after..] == before[after..]
    }

    fn print(&self, name: &str) {
        println!("  {name}: {} | {}", answer_text(&self.words), log_text(self.reads()));
    }
}

/// Words that are no address of a descriptor, all different.
fn pattern(length: usize) -> Vec<u64> {
    (0..length as u64).map(|at| 0xfeed_face_0000_0000 + at).collect()
}

/// Both replies to one question.
struct Compared {
    walk: Reply,
    proved: Reply,
}

impl Compared {
    fn new(q: &Question, capture: Capture, log_words: usize) -> Compared {
        let walk = Reply::new(log_words, |log| walk::ask(q, capture, log).into());
        let proved = Reply::new(log_words, |log| proved::ask(q, capture, log));
        Compared { walk, proved }
    }

    /// Why the two do not agree in all that can be seen, if they do not.
    fn difference(&self, capture_kept: bool) -> Option<&'static str> {
        if self.walk.words != self.proved.words {
            Some("the answers differ")
        } else if self.walk.log != self.proved.log {
            Some("the logs differ")
        } else if !self.proved.kept() {
            Some("a word outside of the reads was written")
        } else if !capture_kept {
            Some("the capture was written")
        } else {
            None
        }
    }

    fn print(&self) {
        self.walk.print("walk  ");
        self.proved.print("proved");
        if answer_text(&self.walk.words) == answer_text(&self.proved.words) {
            println!("  walk  : {:x?}\n  proved: {:x?}", self.walk.words, self.proved.words);
        }
    }
}

/// Which of two answers is not what a line says, if either is not.
fn blamed(ours_agrees: bool, proved_agrees: bool) -> Option<&'static str> {
    match (ours_agrees, proved_agrees) {
        (true, true) => None,
        (false, true) => Some("the independent answer differs"),
        (true, false) => Some("the proved answer differs"),
        (false, false) => Some("both answers differ"),
    }
}

/// Holds both to one line. Says why it does not hold, if it does not.
fn hold(text: &str) -> bool {
    let line = match Line::read(text) {
        Some(line) => line,
        None => return unread(text),
    };
    let before = line.bytes.clone();
    let both = Compared::new(&line.question, Capture::Raw(Bank::whole(line.base, &line.bytes)), line.log_words);
    let agrees = |reply: &Reply| line.agrees(&reply.words, reply.reads());
    let why = blamed(agrees(&both.walk), agrees(&both.proved)).or_else(|| both.difference(line.bytes == before));
    if let Some(why) = why {
        println!("{why}: {text}");
        both.print();
    }
    why.is_none()
}

fn unread(text: &str) -> bool {
    println!("the line cannot be read: {text}");
    false
}

/// How many answers from outside were compared, and how many of them differ.
#[derive(Default)]
struct Tally {
    compared: u64,
    differ: u64,
}

impl Tally {
    fn count(&mut self, holds: bool) {
        self.compared += 1;
        self.differ += !holds as u64;
    }
}

fn hold_vectors(files: &[String]) -> Result<Tally, String> {
    let mut tally = Tally::default();
    for file in files {
        let text = std::fs::read_to_string(file).map_err(|error| format!("{file}: {error}"))?;
        for line in text.lines().filter(|line| !line.trim().is_empty() && !line.starts_with('#')) {
            tally.count(if line.starts_with("audit ") { audits::hold(line) } else { hold(line) });
        }
    }
    Ok(tally)
}

/// Reports a run over answers from outside, or why they could not be read.
fn held(tally: Result<Tally, String>) -> ExitCode {
    match tally {
        Ok(Tally { compared, differ }) => {
            println!("{compared} compared, {differ} differ");
            status(differ == 0 && compared > 0)
        }
        Err(unread) => {
            eprintln!("compare: {unread}");
            ExitCode::from(2)
        }
    }
}

fn status(success: bool) -> ExitCode {
    if success {
        ExitCode::SUCCESS
    } else {
        ExitCode::FAILURE
    }
}

/// Reports a run over random input. What was missed counts if there was enough input to meet it.
fn report(count: u64, differ: u64, missed: Vec<String>, enough: u64) -> ExitCode {
    let missed = if count >= enough { missed } else { Vec::new() };
    for class in &missed {
        println!("missed: {class}");
    }
    println!("{count} compared, {differ} differ");
    status(differ == 0 && missed.is_empty())
}

/// Whether the walk's reply would be another, were the output sizes not lowered to PAMax.
fn lowering_decides(q: &Question, capture: Capture, log_words: usize, reply: &Reply) -> bool {
    let coded = Reply::new(log_words, |log| walk::ask_by(OutputSize::Coded, q, capture, log).into());
    coded.words != reply.words || coded.log != reply.log
}

/// Prints a question on which the two differ as a line of the vectors, with the walk's answer, and then both replies.
/// Of the capture it has the words that either read: no others can matter to a walk.
fn print_difference(q: &Question, capture: Bank, log_words: usize, both: &Compared, why: &str) {
    let mut read = [both.walk.reads(), both.proved.reads()].concat();
    read.sort_unstable();
    read.dedup();
    let question = question_text(q, capture, log_words, &read);
    println!("{why}: {question} | {} | {}", answer_text(&both.walk.words), log_text(both.walk.reads()));
    both.print();
}

fn compare_random(count: u64, seed: u64) -> ExitCode {
    let mut questions = Questions::new(seed);
    let mut classes = Classes::new();
    let mut differ = 0;
    let mut reported = Instant::now();
    for compared in 0..count {
        let (image, asked) = questions.next();
        let q = &asked.question;
        let bank = asked.part.bank(image);
        let capture = Capture::Raw(bank);
        let both = Compared::new(q, capture, asked.log_words);
        classes.meet(&Told { q, capture: bank, words: &both.walk.words, reads: both.walk.reads() });
        if lowering_decides(q, capture, asked.log_words, &both.walk) {
            classes.meet_lowered(&both.walk.words);
        }
        if let Some(why) = both.difference(image.kept()) {
            differ += 1;
            if differ <= PRINTED {
                print_difference(q, asked.part.bank(image), asked.log_words, &both, why);
            }
        }
        if reported.elapsed() > Duration::from_secs(10) {
            eprintln!("compare: {compared} of {count} compared, {differ} differ");
            reported = Instant::now();
        }
    }
    classes.0.print();
    report(count, differ, classes.0.missed(), ALL_CLASSES)
}

fn compare_batches(count: u64, seed: u64) -> ExitCode {
    let (differ, missed) = batches::compare(count, seed);
    report(count, differ, missed, ALL_BATCHES)
}

fn compare_audits(count: u64, seed: u64) -> ExitCode {
    let (differ, missed) = audits::compare(count, seed);
    report(count, differ, missed, ALL_AUDITS)
}

fn compare_cores(count: u64, seed: u64) -> ExitCode {
    let (differ, missed) = cores::compare(count, seed);
    report(count, differ, missed, ALL_CORES)
}

fn main() -> ExitCode {
    let args: Vec<String> = std::env::args().skip(1).collect();
    match args.iter().map(String::as_str).collect::<Vec<_>>().as_slice() {
        ["vectors", _, ..] => return held(hold_vectors(&args[1..])),
        ["dumps", list, folder] => return held(real::hold_dumps(list, folder)),
        ["guest", folder] => return held(real::hold_guest(folder)),
        [what @ ("random" | "batches" | "audits" | "cores"), count, seed] => {
            if let (Ok(count @ 1..), Ok(seed)) = (count.parse(), seed.parse()) {
                return match *what {
                    "random" => compare_random(count, seed),
                    "batches" => compare_batches(count, seed),
                    "audits" => compare_audits(count, seed),
                    _ => compare_cores(count, seed),
                };
            }
        }
        _ => {}
    }
    eprintln!("{USAGE}");
    ExitCode::from(2)
}
