//! Before anything is timed: all four must say the same.
use crate::batch::Batch;
use crate::proved;
use crate::proved::{Capture, Question, Words};
use crate::question;
use crate::straight::LOG;
use crate::workloads::{Workload, BATCH};

/// One address in so many is put to questions too, before anything is timed. Odd, or all of the sample could be of the eighth that
/// lies beyond the input size in the workload of faults.
pub const SAMPLE: usize = 15;

/// What was found to agree: the mean of reads, and the share of translated addresses.
pub struct Agreed {
    pub reads: f64,
    pub translated: f64,
}

/// Both batches and the Rust question for all addresses, and both questions on a sample.
pub fn agree(workload: &Workload) -> Result<Agreed, String> {
    let batch = Batch::new(&workload.question, workload.capture());
    let (mut reads, mut translated, mut asked) = (0, 0, 0);
    for addresses in &workload.batches {
        let answers = batches_agree(workload, &batch, addresses)?;
        for (n, (address, answer)) in addresses.iter().zip(answers).enumerate() {
            let words = question::ask(&workload.question, workload.capture(), *address, &mut [0; LOG]);
            let said = (words.number, if words.number == 0 { words.address } else { 0 });
            if said != answer {
                return Err(format!("{address:#x}: the Rust question says {said:x?}, the Rust batch {answer:x?}"));
            }
            if n % SAMPLE == 0 {
                questions_agree(&workload.question, workload.capture(), *address, LOG)?;
            }
            reads += words.reads;
            translated += (words.number == 0) as u64;
            asked += 1;
        }
    }
    Ok(Agreed { reads: reads as f64 / asked as f64, translated: translated as f64 / asked as f64 })
}

/// Number and output of each address, if both batches say the same.
fn batches_agree(workload: &Workload, batch: &Batch<Capture>, addresses: &[u64]) -> Result<Vec<(u64, u64)>, String> {
    // Filled with what no answer holds, so that an entry that is not written is seen.
    let mut ours = (vec![u64::MAX; BATCH], vec![u64::MAX; BATCH]);
    let mut theirs = ours.clone();
    batch.run(addresses, &mut ours.1, &mut ours.0, &mut [0; LOG]);
    let words = proved::batch(&workload.question, workload.capture(), addresses, &mut theirs.1, &mut theirs.0);
    if words.number != 0 || words.ledger.asked != addresses.len() as u64 {
        return Err(format!("the proved batch answers {} and asked {}", words.number, words.ledger.asked));
    }
    let ours: Vec<(u64, u64)> = ours.0.into_iter().zip(ours.1).collect();
    for ((address, ours), theirs) in addresses.iter().zip(&ours).zip(theirs.0.into_iter().zip(theirs.1)) {
        if *ours != theirs {
            return Err(format!("{address:#x}: the Rust batch says {ours:x?}, the proved batch {theirs:x?}"));
        }
    }
    Ok(ours)
}

/// The answer, if both questions give the same with all that it carries, and leave the same in a log of so many words.
pub fn questions_agree(q: &Question, capture: Capture, address: u64, words: usize) -> Result<Words, String> {
    // Filled with what no descriptor lies at, so that a word that is to be kept is seen to be.
    let (mut ours, mut theirs) = (vec![u64::MAX; words], vec![u64::MAX; words]);
    let (said, proved) = (question::ask(q, capture, address, &mut ours), proved::ask(q, capture, address, &mut theirs));
    if said != proved || ours != theirs {
        return Err(format!(
            "{address:#x}: the Rust question says {said:x?}, log {ours:x?}, the proved question {proved:x?}, log {theirs:x?}"
        ));
    }
    Ok(said)
}
