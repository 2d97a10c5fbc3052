//! The hot workloads once more, over core files of the same bytes: with one bank, and with a bank for each page.
use crate::batch::Batch;
use crate::check::SAMPLE;
use crate::memory::{Banks, Core, ELF_HEADER, MOST_BANKS, PROGRAM_HEADER};
use crate::one_by_one::one_by_one;
use crate::proved::{self, BatchWords, Capture, Question, Words};
use crate::question::ask_core;
use crate::random::Random;
use crate::straight::LOG;
use crate::timing::{interleaved, nanoseconds};
use crate::workloads::{Workload, BATCH, BATCHES};

/// Questions of a round. Each reads the headers anew, so that a whole batch of them would take long.
pub const QUESTIONS: usize = BATCH / 8;

/// How a capture is cut into the banks of a core file.
#[derive(Clone, Copy)]
pub struct Cut {
    pub name: &'static str,
    /// Banks of one size that have all of the capture.
    banks: usize,
    /// Small banks at lower addresses, with nothing in them: a board's other memory.
    small: usize,
    /// The banks of the capture stand in the file in another order than in memory.
    shuffled: bool,
}

/// All of a capture in one bank.
pub const WHOLE: Cut = Cut { name: "1", banks: 1, small: 0, shuffled: false };

/// The cuts that are measured. With the most banks each page of a hot workload is one.
pub const CUTS: [Cut; 4] = [
    WHOLE,
    Cut { name: "4, 3 of them small", small: 3, ..WHOLE },
    Cut { name: "64", banks: MOST_BANKS, ..WHOLE },
    Cut { name: "64, shuffled", banks: MOST_BANKS, shuffled: true, ..WHOLE },
];

const SMALL: usize = 64;

impl Cut {
    fn count(&self) -> usize {
        self.small + self.banks
    }

    /// Where the capture's bytes begin in the file: behind the headers. The small banks' are behind them.
    fn first(&self) -> usize {
        ELF_HEADER + self.count() * PROGRAM_HEADER
    }

    /// In which order the banks of the capture stand in the file.
    fn places(&self, seed: u64) -> Vec<usize> {
        let mut random = Random::new(seed);
        let mut places: Vec<usize> = (0..self.banks).collect();
        if self.shuffled {
            for i in (1..self.banks).rev() {
                places.swap(i, random.below(i as u64 + 1) as usize);
            }
        }
        places
    }
}

/// A bank's header.
fn write_header(file: &mut [u8], n: usize, offset: usize, address: u64, size: usize) {
    let header = &mut file[ELF_HEADER + n * PROGRAM_HEADER..][..PROGRAM_HEADER];
    header[0] = 1;
    for (at, number) in [(8, offset as u64), (24, address), (32, size as u64)] {
        header[at..at + 8].copy_from_slice(&number.to_le_bytes());
    }
}

/// A core file of a workload's capture.
pub fn build(workload: &Workload, cut: Cut, seed: u64) -> Vec<u8> {
    let capture = workload.capture();
    let (size, first) = (capture.bytes.len() / cut.banks, cut.first());
    let end = first + capture.bytes.len();
    let mut file = vec![0; end + cut.small * SMALL];
    file[..6].copy_from_slice(b"\x7fELF\x02\x01");
    for (at, number) in [(16, 4), (18, 183), (32, ELF_HEADER), (54, PROGRAM_HEADER), (56, cut.count())] {
        file[at..at + 2].copy_from_slice(&(number as u16).to_le_bytes());
    }
    for n in 0..cut.small {
        write_header(&mut file, n, end + n * SMALL, (n * SMALL) as u64, SMALL);
    }
    for (n, place) in cut.places(seed).into_iter().enumerate() {
        let offset = first + place * size;
        write_header(&mut file, cut.small + n, offset, capture.base + (n * size) as u64, size);
        file[offset..offset + size].copy_from_slice(&capture.bytes[n * size..(n + 1) * size]);
    }
    file
}

/// The raw capture that a core file is held against: the file's own bytes, since the same bytes elsewhere in memory may take longer or
/// shorter, or the workload's where the file has them in several banks.
pub fn raw<'a>(workload: &'a Workload, file: &'a [u8], cut: Cut) -> Capture<'a> {
    let capture = workload.capture();
    if cut.banks == 1 {
        Capture { bytes: &file[cut.first()..][..capture.bytes.len()], ..capture }
    } else {
        capture
    }
}

/// The Rust batch over a core file. Reading the headers is part of it.
fn rust_batch<const HALVING: bool>(q: &Question, file: &[u8], addresses: &[u64], outputs: &mut [u64], numbers: &mut [u64]) {
    let core = Core::read(file).expect("the file is accepted");
    Batch::new(q, Banks::<HALVING>(&core.banks)).run(addresses, outputs, numbers, &mut [0; LOG]);
}

pub fn done(words: BatchWords) {
    assert_eq!(words.number, 0, "the batch is accepted");
}

/// Both lists as a batch fills them.
pub fn filled(run: impl FnOnce(&mut [u64], &mut [u64])) -> (Vec<u64>, Vec<u64>) {
    // Filled with what no answer holds, so that an entry that is not written is seen.
    let (mut outputs, mut numbers) = (vec![u64::MAX; BATCH], vec![u64::MAX; BATCH]);
    run(&mut outputs, &mut numbers);
    (outputs, numbers)
}

/// An answer with its log.
pub fn asked(ask: impl FnOnce(&mut [u64]) -> Words) -> (Words, Vec<u64>) {
    let mut log = vec![u64::MAX; LOG];
    (ask(&mut log), log)
}

/// All must say of the core file what the proved ones say of the raw capture.
pub fn agree(workload: &Workload, file: &[u8], cut: Cut) -> Result<(), String> {
    let (q, capture) = (&workload.question, raw(workload, file, cut));
    for addresses in &workload.batches {
        let raw = filled(|outputs, numbers| done(proved::batch(q, capture, addresses, outputs, numbers)));
        let core = filled(|outputs, numbers| done(proved::batch_core(q, file, addresses, outputs, numbers)));
        let scan = filled(|outputs, numbers| rust_batch::<false>(q, file, addresses, outputs, numbers));
        let halving = filled(|outputs, numbers| rust_batch::<true>(q, file, addresses, outputs, numbers));
        if [core, scan, halving].iter().any(|told| *told != raw) {
            return Err("batches over the core file and over the raw capture differ".to_string());
        }
        for &address in addresses.iter().step_by(SAMPLE) {
            let raw = asked(|log| proved::ask(q, capture, address, log));
            let core = asked(|log| proved::ask_core(q, file, address, log));
            let scan = asked(|log| ask_core::<false>(q, file, address, log));
            let halving = asked(|log| ask_core::<true>(q, file, address, log));
            if [&core, &scan, &halving].iter().any(|told| **told != raw) {
                return Err(format!("{address:#x}: raw {raw:x?}, core {core:x?}, Rust {scan:x?} and {halving:x?}"));
            }
        }
    }
    refusals_agree(q, file)
}

/// The file with one thing wrong, or nearly: both must refuse the same.
fn refusals_agree(q: &Question, file: &[u8]) -> Result<(), String> {
    let changed = |at: usize, bytes: &[u8]| {
        let mut file = file.to_vec();
        file[at..at + bytes.len()].copy_from_slice(bytes);
        file
    };
    let last = file.len() as u64 - 1;
    let cases = [
        file[..ELF_HEADER - 1].to_vec(),
        file[..ELF_HEADER + PROGRAM_HEADER - 1].to_vec(),
        file[..file.len() - 1].to_vec(),
        changed(0, &[0]),
        changed(16, &[3]),
        changed(18, &[62]),
        changed(54, &[57]),
        changed(56, &[0, 0]),
        changed(56, &[255, 255]),
        changed(32, &[255; 8]),
        changed(ELF_HEADER, &[4]),
        changed(ELF_HEADER + 8, &63u64.to_le_bytes()),
        changed(ELF_HEADER + 8, &last.to_le_bytes()),
        changed(ELF_HEADER + 8, &[255; 8]),
        changed(ELF_HEADER + 24, &(1u64 << 48).to_le_bytes()),
        changed(ELF_HEADER + 24, &[255; 8]),
        changed(ELF_HEADER + 32, &[255; 8]),
    ];
    for (n, file) in cases.iter().enumerate() {
        let proved = asked(|log| proved::ask_core(q, file, 0, log));
        let (scan, halving) = (asked(|log| ask_core::<false>(q, file, 0, log)), asked(|log| ask_core::<true>(q, file, 0, log)));
        if proved != scan || proved != halving {
            return Err(format!("changed file {n}: proved {proved:x?}, Rust {scan:x?} and {halving:x?}"));
        }
    }
    Ok(())
}

/// The median times, in nanoseconds an address: each of the raw capture by the proved call, and of the core file by the proved call, by
/// Rust that scans the banks and by Rust that halves them.
pub struct Medians {
    pub raw: f64,
    pub core: f64,
    pub scan: f64,
    pub halving: f64,
}

impl Medians {
    fn of(times: &[f64], addresses: usize) -> Medians {
        let each = |n: usize| times[n] / addresses as f64;
        Medians { raw: each(0), core: each(1), scan: each(2), halving: each(3) }
    }
}

const WAYS: usize = 8;

/// Of batches, and of questions. In each round all eight take a batch, each another one, in turning order.
pub fn measure(workload: &Workload, file: &[u8], cut: Cut, rounds: usize) -> (Medians, Medians) {
    let (q, capture) = (&workload.question, raw(workload, file, cut));
    let (mut outputs, mut numbers, mut log) = (vec![0; BATCH], vec![0; BATCH], [0; LOG]);
    let times = interleaved::<WAYS>(BATCHES, rounds, |way, round| {
        let addresses = &workload.batches[(round + way * BATCHES / WAYS) % BATCHES];
        let few = &addresses[..QUESTIONS];
        nanoseconds(|| match way {
            0 => done(proved::batch(q, capture, addresses, &mut outputs, &mut numbers)),
            1 => done(proved::batch_core(q, file, addresses, &mut outputs, &mut numbers)),
            2 => rust_batch::<false>(q, file, addresses, &mut outputs, &mut numbers),
            3 => rust_batch::<true>(q, file, addresses, &mut outputs, &mut numbers),
            4 => one_by_one(|at, log| proved::ask(q, capture, at, log), few, &mut outputs, &mut numbers, &mut log),
            5 => one_by_one(|at, log| proved::ask_core(q, file, at, log), few, &mut outputs, &mut numbers, &mut log),
            6 => one_by_one(|at, log| ask_core::<false>(q, file, at, log), few, &mut outputs, &mut numbers, &mut log),
            _ => one_by_one(|at, log| ask_core::<true>(q, file, at, log), few, &mut outputs, &mut numbers, &mut log),
        })
    });
    (Medians::of(&times[..4], BATCH), Medians::of(&times[4..], QUESTIONS))
}
