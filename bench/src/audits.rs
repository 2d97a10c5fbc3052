//! The largest audits: clean ones with as many tables and grants as may be listed.
use crate::audit::{audit, Lists, MOST_GRANTS, MOST_TABLES};
use crate::proved::{AuditWords, Capture, Question};
use crate::random::Random;
use crate::refused::ACCEPTED;
use crate::tables::{BASE, LEAF2, TABLE};
use crate::timing::{interleaved, nanoseconds};

/// The bytes of a page, and of a table.
const PAGE: u64 = 4096;
/// Entries of each table, the root's too.
const ENTRIES: usize = 512;
/// All entries of an audit.
pub const ALL_ENTRIES: usize = ENTRIES * (1 + MOST_TABLES);
/// Grants lie behind the capture, with a page between neighbours.
const GRANTS: u64 = 1 << 32;
const GRANT: u64 = 8 << 20;

/// What an audit is built from: how many tables are of level 2, the others being of level 3, and whether all entries lead to the last
/// table of the next level or the last grant, so that every search is long.
pub struct Plan {
    pub name: &'static str,
    level2: usize,
    last: bool,
}

pub const PLANS: [Plan; 3] = [
    Plan { name: "leaves in all grants", level2: 2, last: false },
    Plan { name: "leaves in the last grant", level2: 2, last: true },
    Plan { name: "entries lead to the last table", level2: MOST_TABLES - 1, last: true },
];

/// An audit, built.
pub struct Audit {
    bytes: Vec<u8>,
    lists: Lists,
}

/// The median time of an audit, in nanoseconds.
pub struct Medians {
    pub rust: f64,
    pub proved: f64,
}

fn grant(n: u64) -> u64 {
    GRANTS + n * (GRANT + PAGE)
}

/// The tables' entries: the root's come first, then those of all tables of level 2, then those of level 3.
fn entry(plan: &Plan, tables: &[u64], n: usize, random: &mut Random) -> u64 {
    // Where the entries of this level begin, and the tables of the next.
    let (first, next) = match n / ENTRIES {
        0 => (0, 0..plan.level2),
        table if table <= plan.level2 => (ENTRIES, plan.level2..MOST_TABLES),
        _ => {
            let last = MOST_GRANTS as u64 - 1;
            let of = if plan.last { last } else { random.below(last + 1) };
            return (grant(of) + random.below(GRANT / PAGE) * PAGE) | LEAF2;
        }
    };
    let to = if plan.last { next.end - 1 } else { next.start + n - first };
    // More entries than tables: the others are not valid.
    if next.contains(&to) {
        tables[to] | TABLE
    } else {
        0
    }
}

pub fn build(plan: &Plan, seed: u64) -> Audit {
    let mut random = Random::new(seed);
    // The root comes first in the capture.
    let tables: Vec<u64> = (1..).map(|n| BASE + n * PAGE).take(MOST_TABLES).collect();
    let bytes = (0..ALL_ENTRIES).flat_map(|n| entry(plan, &tables, n, &mut random).to_le_bytes()).collect();
    let levels = (0..MOST_TABLES).map(|n| if n < plan.level2 { 2 } else { 3 }).collect();
    let grants = (0..).map(grant).take(MOST_GRANTS).collect();
    Audit { bytes, lists: Lists { grants, counts: vec![GRANT; MOST_GRANTS], tables, levels } }
}

/// The registers, whose root is the capture's first page.
const REGISTERS: Question = Question { vttbr_el2: BASE, ..ACCEPTED };

fn rust(bytes: &[u8], lists: &Lists) -> AuditWords {
    audit(&REGISTERS, Capture { base: BASE, bytes }, lists)
}

fn proved(bytes: &[u8], lists: &Lists) -> AuditWords {
    let lent = humpelkaas::calls::Lists { grants: &lists.grants, counts: &lists.counts, tables: &lists.tables, levels: &lists.levels };
    crate::proved::audit(&REGISTERS, Capture { base: BASE, bytes }, lent)
}

/// Both audits must say that all is clean, and must find the same in a capture cut short, with a table granted, and with the last
/// table or the last grant not listed.
pub fn agree(built: &Audit) -> Result<(), String> {
    let Audit { bytes, lists } = built;
    let (mut table_granted, mut fewer_tables, mut fewer_grants) = (lists.clone(), lists.clone(), lists.clone());
    (table_granted.grants[0], table_granted.counts[0]) = (lists.tables[0], PAGE);
    fewer_tables.tables.pop();
    fewer_tables.levels.pop();
    fewer_grants.grants.pop();
    fewer_grants.counts.pop();
    let cases = [
        (0, &bytes[..], lists),
        (1, &bytes[..bytes.len() - 1], lists),
        (2, bytes, &table_granted),
        (3, bytes, &fewer_tables),
        (4, bytes, &fewer_grants),
    ];
    for (number, bytes, lists) in cases {
        let (ours, theirs) = (rust(bytes, lists), proved(bytes, lists));
        if ours != theirs || ours.number != number {
            return Err(format!("{number} is due, the Rust audit says {ours:x?}, the proved audit {theirs:x?}"));
        }
    }
    Ok(())
}

/// In each round both audit, in turning order.
pub fn measure(built: &Audit, rounds: usize) -> Medians {
    let Audit { bytes, lists } = built;
    let [rust, proved] = interleaved(1, rounds, |way, _| {
        nanoseconds(|| {
            let words = if way == 0 { rust(bytes, lists) } else { proved(bytes, lists) };
            assert_eq!(words.number, 0, "the audit is clean");
        })
    });
    Medians { rust, proved }
}
