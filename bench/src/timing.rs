//! Times in interleaved rounds: of a workload's batches through all four ways, and of whatever else has several ways.
use crate::batch::Batch;
use crate::one_by_one::one_by_one;
use crate::proved;
use crate::question;
use crate::straight::LOG;
use crate::workloads::{Workload, BATCH, BATCHES};
use std::time::Instant;

const WAYS: usize = 4;

/// Rounds that are not counted. In them each way meets every batch.
const WARM_UP: usize = BATCHES;

/// The median time of a batch, in nanoseconds.
pub struct Medians {
    pub rust_batch: f64,
    pub proved_batch: f64,
    pub rust_question: f64,
    pub proved_question: f64,
}

pub fn median(mut times: Vec<f64>) -> f64 {
    times.sort_by(f64::total_cmp);
    times[times.len() / 2]
}

pub fn nanoseconds(run: impl FnOnce()) -> f64 {
    let start = Instant::now();
    run();
    start.elapsed().as_nanos() as f64
}

/// What `timed` says for each way and round. The ways take turns in being first, and the rounds of the warm-up do not count.
pub fn interleaved_times<const WAYS: usize>(warm_up: usize, rounds: usize, mut timed: impl FnMut(usize, usize) -> f64) -> [Vec<f64>; WAYS] {
    let mut times = [(); WAYS].map(|()| Vec::new());
    for round in 0..warm_up + rounds {
        for turn in 0..WAYS {
            let way = (round + turn) % WAYS;
            let time = timed(way, round);
            if round >= warm_up {
                times[way].push(time);
            }
        }
    }
    times
}

/// Each way's median of that.
pub fn interleaved<const WAYS: usize>(warm_up: usize, rounds: usize, timed: impl FnMut(usize, usize) -> f64) -> [f64; WAYS] {
    interleaved_times(warm_up, rounds, timed).map(median)
}

/// Lists and log that all ways are lent.
struct Lent {
    outputs: Vec<u64>,
    numbers: Vec<u64>,
    log: [u64; LOG],
}

/// Runs one batch through one way, and gives the time it took. Decoding the registers is part of it.
fn timed(way: usize, workload: &Workload, addresses: &[u64], lent: &mut Lent) -> f64 {
    let (q, capture) = (&workload.question, workload.capture());
    let Lent { outputs, numbers, log } = lent;
    nanoseconds(|| match way {
        0 => Batch::new(q, capture).run(addresses, outputs, numbers, log),
        1 => {
            proved::batch(q, capture, addresses, outputs, numbers);
        }
        2 => one_by_one(|at, log| question::ask(q, capture, at, log), addresses, outputs, numbers, log),
        _ => one_by_one(|at, log| proved::ask(q, capture, at, log), addresses, outputs, numbers, log),
    })
}

/// In each round every way takes a batch. Each takes another batch, and takes all in turn, so that none finds in the caches what the
/// one before it has just read.
pub fn measure(workload: &Workload, rounds: usize) -> Medians {
    let mut lent = Lent { outputs: vec![0; BATCH], numbers: vec![0; BATCH], log: [0; LOG] };
    let [rust_batch, proved_batch, rust_question, proved_question] = interleaved::<WAYS>(WARM_UP, rounds, |way, round| {
        let addresses = &workload.batches[(round + way * BATCHES / WAYS) % BATCHES];
        timed(way, workload, addresses, &mut lent)
    });
    Medians { rust_batch, proved_batch, rust_question, proved_question }
}
