//! Core files that others made: an emulator's dumps, held to their banks, and a Linux guest's tables, held to the processor's answers.
use crate::audit::{audit, entry, table_size, tables, Entry, Lists};
use crate::audit_build::merged;
use crate::core_file::{self, Found};
use crate::cores::BankList;
use crate::proved::{self, AuditWords, Words};
use crate::walk::{Capture, Question};
use crate::{audits, blamed, Compared, Tally};
use std::path::Path;

/// What cannot be read, and why.
type Unread = String;

fn text(path: &Path) -> Result<String, Unread> {
    std::fs::read_to_string(path).map_err(|error| format!("{}: {error}", path.display()))
}

fn bytes(path: &Path) -> Result<Vec<u8>, Unread> {
    std::fs::read(path).map_err(|error| format!("{}: {error}", path.display()))
}

fn hex(word: &str) -> Option<u64> {
    u64::from_str_radix(word.trim_start_matches("0x"), 16).ok()
}

fn hexes(line: &str) -> Option<Vec<u64>> {
    line.split_whitespace().map(hex).collect()
}

/// A file of the list, its length, and its banks or what it is refused by.
#[derive(PartialEq, Eq)]
struct Dump {
    name: String,
    length: usize,
    banks: Vec<[u64; 4]>,
    number: u64,
}

/// The list of dumps, as its head describes it.
fn dumps(list: &str) -> Option<Vec<Dump>> {
    let mut all: Vec<Dump> = Vec::new();
    for line in list.lines().filter(|line| !line.is_empty() && !line.starts_with('#')) {
        match line.split_whitespace().collect::<Vec<_>>().as_slice() {
            ["file", name, length] => all.push(Dump { name: name.to_string(), length: length.parse().ok()?, banks: Vec::new(), number: 0 }),
            ["bank", words @ ..] => {
                let bank = words.iter().map(|word| hex(word)).collect::<Option<Vec<_>>>()?;
                all.last_mut()?.banks.push(bank.try_into().ok()?);
            }
            ["refused", number] => all.last_mut()?.number = number.parse().ok()?,
            _ => return None,
        }
    }
    Some(all)
}

/// Holds the reader and the proved bank list to what a list says of the files of a folder.
pub fn hold_dumps(list: &str, folder: &str) -> Result<Tally, Unread> {
    let mut tally = Tally::default();
    for dump in dumps(&text(Path::new(list))?).ok_or_else(|| format!("{list} is malformed"))? {
        let file = bytes(&Path::new(folder).join(&dump.name))?;
        let empty = BankList::new([core_file::MOST_BANKS; 4]);
        let (ours, proved) = (empty.expected(&core_file::read(&file)), empty.proved(&file));
        let agrees = |told: &BankList| file.len() == dump.length && told.words.number == dump.number && told.banks() == dump.banks;
        let why = blamed(agrees(&ours), agrees(&proved)).or_else(|| (ours != proved).then_some("the bank lists differ"));
        tally.count(why.is_none());
        if let Some(why) = why {
            println!("{why}: {}\n  reader: {:?} {:x?}", dump.name, ours.words, ours.banks());
            println!("  proved: {:?} {:x?}", proved.words, proved.banks());
        }
    }
    Ok(tally)
}

/// A guest's registers, and the lists for an audit of its stage 2.
struct Guest {
    question: Question,
    lists: Lists,
}

fn registers(text: &str) -> Option<Question> {
    let mut q = Question { size: 1, ..Question::default() };
    for line in text.lines() {
        let (name, value) = line.split_once(" = ")?;
        let register = match name {
            "SCTLR_EL1" => &mut q.sctlr_el1,
            "TCR_EL1" => &mut q.tcr_el1,
            "TTBR0_EL1" => &mut q.ttbr0_el1,
            "TTBR1_EL1" => &mut q.ttbr1_el1,
            "MAIR_EL1" => &mut q.mair_el1,
            "HCR_EL2" => &mut q.hcr_el2,
            "VTCR_EL2" => &mut q.vtcr_el2,
            "VTTBR_EL2" => &mut q.vttbr_el2,
            "SCTLR_EL2" => &mut q.sctlr_el2,
            "PAMAX" => {
                q.pamax = value.parse().ok()?;
                continue;
            }
            _ => return None,
        };
        *register = hex(value)?;
    }
    Some(q)
}

/// Two lists from lines of two numbers each.
fn pairs(text: &str) -> Option<(Vec<u64>, Vec<u64>)> {
    text.lines().map(|line| hexes(line).filter(|pair| pair.len() == 2).map(|pair| (pair[0], pair[1]))).collect()
}

impl Guest {
    fn read(folder: &Path) -> Result<Guest, Unread> {
        let malformed = |name: &str| format!("{name} of {} is malformed", folder.display());
        let question = registers(&text(&folder.join("registers"))?).ok_or_else(|| malformed("registers"))?;
        let (grants, counts) = pairs(&text(&folder.join("grants"))?).ok_or_else(|| malformed("grants"))?;
        let (tables, levels) = pairs(&text(&folder.join("tables"))?).ok_or_else(|| malformed("tables"))?;
        Ok(Guest { question, lists: Lists { grants, counts, tables, levels } })
    }
}

/// The memory type of a byte of MAIR, which PAR_EL1 has, in the words of the exported call. Hints do not count.
fn memory(attr: u64) -> u64 {
    let cacheability = |nibble: u64| match nibble {
        4 => 0,
        1..=3 | 8..=11 => 1,
        _ => 2,
    };
    match attr {
        0..=0xf => attr / 4,
        _ => 16 + 4 * cacheability(attr >> 4) + cacheability(attr & 0xf),
    }
}

/// What the processor said of an address: where it lands, with memory type and shareability, or what it faults by.
#[derive(Debug, PartialEq, Eq)]
enum Said {
    Lands { address: u64, memory: u64, shareability: u64 },
    Faults { number: u64, level: u64, stage: u64, onwalk: u64 },
}

impl Said {
    /// A line's fields behind the address.
    fn read(fields: &[&str]) -> Option<Said> {
        let field = |n: usize, name: &str| fields.get(n)?.strip_prefix(name).and_then(hex);
        if let Some(address) = field(0, "pa=") {
            return Some(Said::Lands { address, memory: memory(field(1, "attr=")?), shareability: field(2, "sh=")? });
        }
        let status = field(0, "fst=")?;
        let number = match status >> 2 {
            0 => 2,
            1 => 1,
            2 => 3,
            3 => 4,
            _ => return None,
        };
        Some(Said::Faults { number, level: status & 3, stage: field(1, "s2=")? + 1, onwalk: field(2, "ptw=")? })
    }

    /// As much of an answer as the processor tells.
    fn of(w: &Words) -> Said {
        match w.number {
            0 => Said::Lands { address: w.address, memory: w.memory, shareability: w.shareability },
            _ => Said::Faults { number: w.number, level: w.level, stage: w.stage, onwalk: w.onwalk },
        }
    }

    /// What a batch tells of it: the number, and the output.
    fn entry(&self) -> (u64, u64) {
        match self {
            Said::Lands { address, .. } => (0, *address),
            Said::Faults { number, .. } => (*number, 0),
        }
    }
}

/// The addresses of one kind of access, each with what the processor said of it.
fn answers(folder: &Path, kind: &str) -> Result<Vec<(u64, Said)>, Unread> {
    let addresses = text(&folder.join(format!("addresses-{kind}")))?;
    let answers = text(&folder.join(format!("answers-{kind}")))?;
    let read = |(address, answer): (&str, &str)| {
        let fields: Vec<&str> = answer.split_whitespace().collect();
        // Both files have the address.
        let asked = hex(address).filter(|asked| fields.first().and_then(|field| hex(field)) == Some(*asked))?;
        Some((asked, Said::read(&fields[1..])?))
    };
    let all: Option<Vec<_>> = addresses.lines().zip(answers.lines()).map(read).collect();
    all.filter(|all| !all.is_empty() && addresses.lines().count() == answers.lines().count())
        .ok_or_else(|| format!("the addresses and answers of {kind} do not go together"))
}

/// Holds walk, proved question and proved batch to all answers of one kind of access.
fn hold_answers(q: &Question, capture: Capture, answers: &[(u64, Said)], tally: &mut Tally) {
    for (address, said) in answers {
        let both = Compared::new(&Question { address: *address, ..*q }, capture, 24);
        let agrees = |words: &Words| Said::of(words) == *said;
        let why = blamed(agrees(&both.walk.words), agrees(&both.proved.words)).or_else(|| both.difference(true));
        tally.count(why.is_none());
        if let Some(why) = why {
            println!("{why}: address {address:x}, the processor says {said:x?}");
            both.print();
        }
    }
    let addresses: Vec<u64> = answers.iter().map(|answer| answer.0).collect();
    let (mut outputs, mut numbers) = (vec![u64::MAX; addresses.len()], vec![u64::MAX; addresses.len()]);
    let words = proved::batch(q, capture, &addresses, &mut outputs, &mut numbers);
    let agrees = words.number == 0 && answers.iter().map(|answer| answer.1.entry()).eq(numbers.into_iter().zip(outputs));
    tally.count(agrees);
    if !agrees {
        println!("the proved batch differs: {words:x?}");
    }
}

/// Holds both audits to a finding, of which the address is tested.
fn hold_audit(what: &str, q: &Question, capture: Capture, lists: &Lists, number: u64, at: impl Fn(u64) -> bool, tally: &mut Tally) {
    let (ours, proved) = (AuditWords::from(&audit(q, capture, lists)), proved::audit(q, capture, lists));
    let agrees = |words: &AuditWords| words.number == number && at(words.address);
    let why = blamed(agrees(&ours), agrees(&proved)).or_else(|| (ours != proved).then_some("the answers differ"));
    tally.count(why.is_none());
    if let Some(why) = why {
        println!("{why}: {what}");
        audits::print(&ours, &proved);
    }
}

/// The audit of the guest, and audits with a table left out, with the root granted, and with a mapped page withheld.
fn hold_audits(guest: &Guest, capture: Capture, pages: &[u64], tally: &mut Tally) {
    let (q, lists) = (&guest.question, &guest.lists);
    let all = tables(q, lists);
    let word = |at: u64| capture.descriptor(at).unwrap_or(0);
    let table_of = |at: u64| all.iter().find(|table| table.bytes().contains(&at));
    hold_audit("the guest", q, capture, lists, 0, |address| address == 0, tally);
    for (left_out, _) in lists.tables() {
        let others: Vec<(u64, u64)> = lists.tables().into_iter().filter(|table| table.0 != left_out).collect();
        let leads = |at: u64| word(at) & 0xffff_ffff_f003 == left_out | 3;
        hold_audit("a table left out", q, capture, &Lists::of(&lists.granted(), &others), 3, leads, tally);
    }
    let root = all[0].bytes();
    let with_root = merged([lists.granted(), vec![root.clone()]].concat());
    hold_audit("the root granted", q, capture, &Lists::of(&with_root, &lists.tables()), 2, |at| at == root.start, tally);
    for &page in pages {
        let end = page + table_size(q);
        let withheld = lists.granted().into_iter().flat_map(|grant| [grant.start..grant.end.min(page), grant.start.max(end)..grant.end]);
        let granted = merged(withheld.filter(|part| part.start < part.end).collect());
        let maps = |at: u64| match table_of(at).map(|table| entry(word(at), table)) {
            Some(Entry::Leaf(leaf)) => leaf.contains(&page),
            _ => false,
        };
        hold_audit("a page withheld", q, capture, &Lists::of(&granted, &lists.tables()), 4, maps, tally);
    }
}

/// How many pages that an access lands in are withheld, one after the other.
const WITHHELD: usize = 200;

/// Holds all to the answers of a folder, over its core file.
pub fn hold_guest(folder: &str) -> Result<Tally, Unread> {
    let folder = Path::new(folder);
    let guest = Guest::read(folder)?;
    let file = bytes(&folder.join("guest-tables.core"))?;
    let found: Found = core_file::read(&file);
    let banks = found.banks(&file);
    let capture = Capture::Core { file: &file, banks: banks.as_deref() };
    let (mut tally, mut pages) = (Tally::default(), Vec::new());
    for (kind, el, name) in [(0, 0, "el0-read"), (1, 0, "el0-write"), (0, 1, "el1-read"), (1, 1, "el1-write")] {
        let answers = answers(folder, name)?;
        hold_answers(&Question { kind, el, ..guest.question }, capture, &answers, &mut tally);
        pages.extend(answers.iter().filter(|answer| answer.1.entry().0 == 0).map(|answer| answer.1.entry().1 / 4096 * 4096));
    }
    pages.sort_unstable();
    pages.dedup();
    // Spread over all of them.
    let every = pages.len() / WITHHELD + 1;
    let pages: Vec<u64> = pages.into_iter().step_by(every).collect();
    hold_audits(&guest, capture, &pages, &mut tally);
    Ok(tally)
}
