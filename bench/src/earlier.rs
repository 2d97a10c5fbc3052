//! This build of the library against that of an earlier commit, over raw captures and over core files of one bank.
//!
//! Each build stands at several places: how long code takes depends on where it stands in a cache line, which every edit changes. A
//! build's time is the mean over its places.
use crate::check::SAMPLE;
use crate::cores::{self, WHOLE};
use crate::library::{Library, Memory};
use crate::one_by_one::one_by_one;
use crate::straight::LOG;
use crate::timing::{interleaved_times, median, nanoseconds};
use crate::workloads::{Workload, BATCH, BATCHES};
use std::array::from_fn;
use std::fmt;
use std::path::Path;

/// How far the code of a build is moved, in bytes. Functions begin at multiples of 16, and a cache line has 64.
const PLACES: [usize; 4] = [0, 16, 32, 48];

/// Both builds at one place.
pub struct Pair {
    earlier: Library,
    now: Library,
}

/// Both builds at all places, from the folder that tools/earlier fills.
pub fn load(folder: &Path) -> Result<Vec<Pair>, String> {
    let build = |name: &str, place: &usize| Library::load(&folder.join(format!("{name}-{place}.so")));
    PLACES.iter().map(|place| Ok(Pair { earlier: build("earlier", place)?, now: build("now", place)? })).collect()
}

pub fn knows_core_files(pairs: &[Pair]) -> bool {
    pairs.iter().all(|pair| pair.earlier.knows_core_files())
}

/// A workload's capture as a core file of one bank, and the bank's own bytes as a raw capture, so that both are read in one memory.
pub struct Captures<'a> {
    workload: &'a Workload,
    file: Vec<u8>,
}

impl<'a> Captures<'a> {
    pub fn of(workload: &'a Workload, seed: u64) -> Captures<'a> {
        Captures { workload, file: cores::build(workload, WHOLE, seed) }
    }

    fn raw(&self) -> Memory<'_> {
        Memory::Raw(cores::raw(self.workload, &self.file, WHOLE))
    }

    fn core(&self) -> Memory<'_> {
        Memory::Core(&self.file)
    }
}

/// A build with the capture that it is given: the earlier one and this one over the raw capture, then both over the core file. An earlier
/// build that knows no core files is given the raw capture for one.
fn builds<'a>(pair: &'a Pair, captures: &'a Captures<'a>) -> [(&'a Library, Memory<'a>); BUILDS] {
    let (raw, core) = (captures.raw(), captures.core());
    let known = if pair.earlier.knows_core_files() { core } else { raw };
    [(&pair.earlier, raw), (&pair.now, raw), (&pair.earlier, known), (&pair.now, core)]
}

const BUILDS: usize = 4;

/// Both builds must say the same at all places.
pub fn agree(pairs: &[Pair], captures: &Captures) -> Result<(), String> {
    pairs.iter().try_for_each(|pair| pair_agrees(pair, captures))
}

fn pair_agrees(pair: &Pair, captures: &Captures) -> Result<(), String> {
    let workload = captures.workload;
    let q = &workload.question;
    for addresses in &workload.batches {
        let all = builds(pair, captures)
            .map(|(library, memory)| cores::filled(|outputs, numbers| cores::done(library.batch(q, memory, addresses, outputs, numbers))));
        if all.iter().any(|told| *told != all[0]) {
            return Err("the batches of both builds differ".to_string());
        }
        for &address in addresses.iter().step_by(SAMPLE) {
            let all = builds(pair, captures).map(|(library, memory)| cores::asked(|log| library.ask(q, memory, address, log)));
            if all.iter().any(|told| *told != all[0]) {
                return Err(format!("{address:#x}: {all:x?}"));
            }
        }
    }
    Ok(())
}

/// The batches of all builds, then their questions.
const CALLS: usize = 2 * BUILDS;

/// The place of a round. It changes from round to round, so that what disturbs the machine for a while disturbs all of them, and so
/// that each place meets every batch.
fn place(round: usize) -> usize {
    (round + round / BATCHES) % PLACES.len()
}

/// The median times of the calls at each place, of so many rounds at each. In each round all calls take a batch, each another one, in
/// turning order.
pub fn measure(pairs: &[Pair], captures: &Captures, rounds: usize) -> Vec<[f64; CALLS]> {
    let workload = captures.workload;
    let q = &workload.question;
    let (mut outputs, mut numbers, mut log) = (vec![0; BATCH], vec![0; BATCH], [0; LOG]);
    let warm_up = BATCHES * PLACES.len();
    let times = interleaved_times::<CALLS>(warm_up, rounds * PLACES.len(), |call, round| {
        let addresses = &workload.batches[(round + call * BATCHES / CALLS) % BATCHES];
        let (library, memory) = builds(&pairs[place(round)], captures)[call % BUILDS];
        nanoseconds(|| {
            if call < BUILDS {
                cores::done(library.batch(q, memory, addresses, &mut outputs, &mut numbers));
            } else {
                one_by_one(|at, log| library.ask(q, memory, at, log), addresses, &mut outputs, &mut numbers, &mut log);
            }
        })
    });
    let at = |here: usize, times: &[f64]| {
        median(times.iter().enumerate().filter(|(n, _)| place(warm_up + n) == here).map(|(_, time)| *time).collect())
    };
    (0..PLACES.len()).map(|here| from_fn(|call| at(here, &times[call]))).collect()
}

/// What this build takes of the earlier one's mean time: the mean, and the lowest and the highest of its places.
pub struct Ratio {
    mean: f64,
    lowest: f64,
    highest: f64,
}

impl fmt::Display for Ratio {
    fn fmt(&self, f: &mut fmt::Formatter) -> fmt::Result {
        write!(f, "{:.2} ({:.2} to {:.2})", self.mean, self.lowest, self.highest)
    }
}

fn mean(times: impl ExactSizeIterator<Item = f64>) -> f64 {
    let many = times.len() as f64;
    times.sum::<f64>() / many
}

/// The ratios of raw and core batches, then of raw and core questions, by the times at each place.
pub fn ratios(times: &[[f64; CALLS]]) -> [Ratio; CALLS / 2] {
    [0, 2, 4, 6].map(|call| {
        let earlier = mean(times.iter().map(|t| t[call]));
        let ours = times.iter().map(|t| t[call + 1] / earlier);
        Ratio { mean: mean(ours.clone()), lowest: ours.clone().fold(f64::INFINITY, f64::min), highest: ours.fold(0.0, f64::max) }
    })
}
