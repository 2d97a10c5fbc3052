//! The classes of audits.
use crate::audit::{
    entry, failing_setting, inside, root, table_size, tables, touch, Entry, Finding, Lists, Refusal, Table, Verdict, FRAME, MOST_GRANTS,
    MOST_TABLES,
};
use crate::classes::{HIGH, RESERVED, SETTINGS};
use crate::counts::Counts;
use crate::geometry::{by_granule, granule_name, is_leaf_level, no_start, no_starts};
use crate::proved::AuditWords;
use crate::walk::{bit, bits, is_listed, stage2_on, Bank, Granule, OutputSize, Question, GRANULES};
use std::cmp::Ordering;
use std::collections::BTreeSet;
use std::ops::Range;

const MISSING: &str = " 1 bytes of the table missing, by granule";
const SHARED: &str = " 2 frames of the grant in the table, by granule";
const NEXT: &str = " 3 next table, by granule";
const ACCEPTED: &str = "15 not given, with";
const GROUND: &str = "15 audit lists, by granule and their only ground";
const ACROSS: &str = "15 table across 2^48, by granule";
const NO_ROOT: &str = "16 no root, by granule and ground";
const TESTED: &str = "12 settings with stage 2 off, by item";
const ORDER: &str = "refused, and by which more";
const UNTESTED: &str = "16 stage 2 off, by item that is not tested";
const FRAMES: &str = "16 stage 2 off, a table off the granule";

/// Rows of clean audits for each granule.
fn clean_root(granule: Granule) -> String {
    format!(" 0 clean with {}, by start level and root (- less, + more than a granule)", granule_name(Some(granule)))
}

fn clean_index(granule: Granule) -> String {
    format!(" 0 clean with {}, by bits of the root's index", granule_name(Some(granule)))
}

fn clean_with(granule: Granule) -> String {
    format!(" 0 clean with {}, with", granule_name(Some(granule)))
}

fn leaf_row(granule: Granule) -> String {
    format!(" 4 leaf with {}, by level and place", granule_name(Some(granule)))
}

fn by_table(number: u64) -> String {
    let meaning = ["not whole in the capture", "touches a grant", "next table not listed", "leaf not granted"][number as usize - 1];
    format!("{number:2} {meaning}, by granule and table")
}

fn by_entry(number: u64) -> String {
    format!("{number:2} by granule and entry")
}

/// Which table a finding is in: the root by its start level, or a listed one by its level.
fn table_name(table: &Table) -> String {
    format!("{}{}", if table.listed { "" } else { "root " }, table.level)
}

/// What lists may have that is just not malformed with tables of so many bytes, and whether they have it.
fn limits(lists: &Lists, table_size: u64) -> [(&'static str, bool); 8] {
    let (granted, tables) = (lists.granted(), lists.tables());
    [
        ("no grants", granted.is_empty()),
        ("256 grants", granted.len() == MOST_GRANTS),
        ("a grant up to 2^48", granted.iter().any(|grant| grant.end == 1 << 48)),
        ("a gap of a frame", granted.windows(2).any(|pair| pair[1].start - pair[0].end == FRAME)),
        ("no tables", tables.is_empty()),
        ("1024 tables", tables.len() == MOST_TABLES),
        ("a table up to 2^48", tables.iter().any(|table| table.0 == (1 << 48) - table_size)),
        ("a table at two levels", tables.windows(2).any(|pair| pair[0].0 == pair[1].0)),
    ]
}

/// What a clean audit's tables have.
fn contents(capture: Bank, tables: &[Table]) -> BTreeSet<String> {
    let mut all = BTreeSet::new();
    for table in tables {
        for at in table.bytes().step_by(8) {
            let descriptor = capture.descriptor(at).unwrap_or(0);
            let below_granule = bits(descriptor, table.granule.log() - 1, 12) != 0;
            match entry(descriptor, table) {
                Entry::Leaf(leaf) => {
                    let access_flag = if bit(descriptor, 10) { "" } else { ", access flag clear" };
                    let end = if leaf.end == 1 << 48 { ", up to 2^48" } else { "" };
                    all.insert(format!("leaf at {}{access_flag}{end}", table.level));
                }
                Entry::Table(_) if below_granule => {
                    all.insert("next table with bits below the granule".to_string());
                }
                Entry::PassedOver if bit(descriptor, 0) => {
                    all.insert(format!("type 01 at {}", table.level));
                }
                _ => {}
            }
        }
    }
    all
}

/// Why stage 2 is off, or has no root.
fn no_root(q: &Question) -> String {
    let granule = match Granule::of_stage2(q) {
        Some(granule) if stage2_on(q) => granule,
        _ => return "stage 2 off".to_string(),
    };
    let beyond_coded = bits(q.vttbr_el2, 47, OutputSize::Coded.of_ps(q)) != 0;
    let base = if beyond_coded { "base beyond output size" } else { "base beyond PAMax alone" };
    by_granule(Some(granule), no_start(q, granule).unwrap_or_else(|| base.to_string()))
}

/// How a leaf lies to the grants, in none of which it is.
fn leaf_place(lists: &Lists, leaf: &Range<u64>) -> &'static str {
    let touched: Vec<_> = lists.granted().into_iter().filter(|grant| touch(grant, leaf)).collect();
    match touched.as_slice() {
        [] => "outside",
        [grant] if leaf.start >= grant.start => "over an end",
        [grant] if leaf.end <= grant.end => "over a start",
        [_] => "around",
        _ => "across a gap",
    }
}

/// Start levels, with marks for roots of less or more than a granule.
fn root_names(granule: Granule) -> &'static [&'static str] {
    match granule {
        Granule::Of4KB => &["0-", "0", "1-", "1", "1+", "2-", "2", "2+"],
        Granule::Of16KB => &["1-", "1", "1+", "2-", "2", "2+", "3", "3+"],
        Granule::Of64KB => &["1-", "2-", "2", "2+", "3-", "3", "3+"],
    }
}

pub struct Classes(pub Counts);

impl Classes {
    /// All classes that can exist, none of them met.
    pub fn new() -> Classes {
        let mut classes = Classes(Counts::default());
        for granule in GRANULES {
            classes.add_clean(granule);
            classes.add_findings(granule);
            classes.add_refusals(granule);
        }
        let all = &mut classes.0;
        // Only of small tables is there room for so many.
        all.add(&clean_with(Granule::Of4KB), ["256 grants", "1024 tables"]);
        all.add(ACCEPTED, limits(&Lists::default(), FRAME).map(|limit| limit.0));
        all.add(HIGH, ["past 2^48", "past 2^64"]);
        all.add(SETTINGS, [1, 2, 3, 4, 8, 9]);
        all.add(RESERVED, [9]);
        all.add(NO_ROOT, ["stage 2 off"]);
        all.add(UNTESTED, ["4", "8", "9", "9 reserved granule code"]);
        all.add(FRAMES, ["16K", "64K"]);
        all.add(TESTED, [1, 2, 3]);
        all.add(ORDER, ["11 and 12", "11 and 15", "11 and 16", "12 and 15", "15 and 16"]);
        classes
    }

    fn add_clean(&mut self, granule: Granule) {
        let all = &mut self.0;
        all.add(&clean_root(granule), root_names(granule));
        all.add(&clean_index(granule), (1..=granule.stride() + 4).map(|bits| format!("{bits:02}")));
        let with = clean_with(granule);
        for level in (1..=3).filter(|&level| is_leaf_level(granule, level)) {
            all.add(&with, ["", ", access flag clear", ", up to 2^48"].map(|more| format!("leaf at {level}{more}")));
        }
        // Levels at which type 01 is passed over: 64KB tables have no level 0, and neither have 16KB tables of stage 2.
        all.add(&with, [if granule == Granule::Of4KB { "type 01 at 0" } else { "type 01 at 1" }, "type 01 at 3"]);
        if granule != Granule::Of4KB {
            all.add(&with, ["next table with bits below the granule"]);
        }
        all.add(&with, ["capture up to 2^48", "capture no more than its tables"]);
        all.add(&with, ["no grants", "a grant up to 2^48", "a gap of a frame"]);
        all.add(&with, ["no tables", "a table up to 2^48", "a table at two levels"]);
    }

    fn add_findings(&mut self, granule: Granule) {
        let all = &mut self.0;
        let first = if granule == Granule::Of4KB { 0 } else { 1 };
        let roots = (first..first + 3).map(|level| (false, level));
        for (listed, level) in roots.chain((1..=3).map(|level| (true, level))) {
            let exists = [true, true, level < 3, is_leaf_level(granule, level)];
            for (number, _) in (1..=4).zip(exists).filter(|finding| finding.1) {
                let table = format!("{}{level}", if listed { "" } else { "root " });
                all.add(&by_table(number), [by_granule(Some(granule), table)]);
            }
        }
        let name = |told: &str| by_granule(Some(granule), told);
        for number in [3, 4] {
            for table in ["root", "listed"] {
                all.add(&by_entry(number), ["first", "last", "other"].map(|place| name(&format!("{table} {place}"))));
            }
        }
        all.add(MISSING, ["all, empty capture", "first", "last", "others"].map(name));
        all.add(SHARED, ["first", "last", "all", "others"].map(name));
        all.add(NEXT, ["root", "listed at another level", "not listed"].map(name));
        for level in (1..=3).filter(|&level| is_leaf_level(granule, level)) {
            all.add(&leaf_row(granule), [format!("{level} outside")]);
            // A page of 4KB is a frame: it is in a grant or outside.
            if granule.shift(level) > 12 {
                let places = ["over a start", "over an end", "around", "across a gap"];
                all.add(&leaf_row(granule), places.map(|place| format!("{level} {place}")));
            }
        }
    }

    fn add_refusals(&mut self, granule: Granule) {
        let all = &mut self.0;
        let name = |told: &str| by_granule(Some(granule), told);
        all.add(GROUND, Lists::default().grounds(FRAME).map(|ground| name(ground.0)));
        if granule != Granule::Of4KB {
            all.add(GROUND, [name("table address, of a frame")]);
            all.add(ACROSS, [granule_name(Some(granule))]);
        }
        all.add(NO_ROOT, no_starts(granule).into_iter().map(name));
        all.add(NO_ROOT, ["base beyond output size", "base beyond PAMax alone"].map(name));
    }

    fn meet_clean(&mut self, q: &Question, capture: Bank, lists: &Lists) {
        let tables = tables(q, lists);
        let root = tables[0];
        let size = match root.entries.cmp(&(1 << root.granule.stride())) {
            Ordering::Less => "-",
            Ordering::Equal => "",
            Ordering::Greater => "+",
        };
        self.0.count(&clean_root(root.granule), format!("{}{size}", root.level));
        self.0.count(&clean_index(root.granule), format!("{:02}", root.entries.trailing_zeros()));
        let with = clean_with(root.granule);
        for content in contents(capture, &tables) {
            self.0.count(&with, content);
        }
        self.meet_limits(&with, q, lists);
        let end = capture.base + capture.bytes.len() as u64;
        if end == 1 << 48 {
            self.0.count(&with, "capture up to 2^48");
        }
        let (first, last) = (tables.iter().map(|table| table.address).min(), tables.iter().map(|table| table.bytes().end).max());
        if first == Some(capture.base) && last == Some(end) {
            self.0.count(&with, "capture no more than its tables");
        }
    }

    fn meet_limits(&mut self, row: &str, q: &Question, lists: &Lists) {
        for (limit, _) in limits(lists, table_size(q)).into_iter().filter(|limit| limit.1) {
            self.0.count(row, limit);
        }
    }

    fn meet_finding(&mut self, capture: Bank, lists: &Lists, finding: &Finding) {
        let (table, bytes) = (finding.table, finding.table.bytes());
        let name = |told: &str| by_granule(Some(table.granule), told);
        self.0.count(&by_table(finding.number), name(&table_name(&table)));
        let here = capture.base..capture.base + capture.bytes.len() as u64;
        match finding.number {
            1 => {
                let missing = match here {
                    _ if here.is_empty() => "all, empty capture",
                    _ if here.start == bytes.start + 1 && bytes.end <= here.end => "first",
                    _ if here.end == bytes.end - 1 && here.start <= bytes.start => "last",
                    _ => "others",
                };
                self.0.count(MISSING, name(missing));
            }
            2 => {
                let grant = lists.granted().into_iter().find(|grant| touch(grant, &bytes)).expect("finding 2 has a grant");
                let shared = if inside(&grant, &bytes) {
                    "all"
                } else if touch(&(grant.start..grant.start + FRAME), &bytes) && bytes.end <= grant.start + FRAME {
                    "first"
                } else if touch(&(grant.end - FRAME..grant.end), &bytes) && grant.end - FRAME <= bytes.start {
                    "last"
                } else {
                    "others"
                };
                self.0.count(SHARED, name(shared));
            }
            number => {
                let place = match (finding.address - table.address) / 8 {
                    0 => "first",
                    last if last == table.entries - 1 => "last",
                    _ => "other",
                };
                self.0.count(&by_entry(number), name(&format!("{} {place}", if table.listed { "listed" } else { "root" })));
            }
        }
    }

    /// What a finding's entry leads to.
    fn meet_entry(&mut self, q: &Question, capture: Bank, lists: &Lists, finding: &Finding) {
        let (descriptor, table) = (capture.descriptor(finding.address).unwrap_or(0), finding.table);
        match entry(descriptor, &table) {
            Entry::Table(next) if finding.number == 3 => {
                let is_root = root(q).map_or(false, |root| root.address == next);
                let what = match lists.tables.contains(&next) {
                    true => "listed at another level",
                    false if is_root => "root",
                    false => "not listed",
                };
                self.0.count(NEXT, by_granule(Some(table.granule), what));
            }
            Entry::Leaf(leaf) if finding.number == 4 => {
                self.0.count(&leaf_row(table.granule), format!("{} {}", table.level, leaf_place(lists, &leaf)));
            }
            _ => {}
        }
    }

    /// What else an audit would be refused for, that is refused by this number.
    fn meet_order(&mut self, q: &Question, lists: &Lists, number: u64) {
        let passes = failing_setting(q).is_none();
        let grounds = [(12, !passes), (15, lists.are_malformed(q)), (16, passes && root(q).is_none())];
        for (later, _) in grounds.into_iter().filter(|&(later, given)| given && later > number) {
            self.0.count(ORDER, format!("{number} and {later}"));
        }
    }

    fn meet_settings(&mut self, q: &Question, item: u64) {
        if !stage2_on(q) {
            return self.0.count(TESTED, item);
        }
        self.0.count(SETTINGS, item);
        let size_field = bits(q.vtcr_el2, 5, 0);
        if item == 9 && is_listed(size_field) && 64 - size_field <= q.pamax {
            self.0.count(RESERVED, item);
        }
    }

    /// A table off its granule is named apart if it is on a frame.
    fn meet_lists(&mut self, q: &Question, lists: &Lists) {
        let granule = Granule::of_stage2(q).filter(|_| stage2_on(q));
        let grounds: Vec<_> = lists.grounds(table_size(q)).into_iter().filter(|ground| ground.1).map(|ground| ground.0).collect();
        match grounds.as_slice() {
            ["table address"] if lists.tables.iter().all(|address| address % FRAME == 0) => {
                self.0.count(GROUND, by_granule(granule, "table address, of a frame"));
            }
            [ground] => self.0.count(GROUND, by_granule(granule, ground)),
            _ => {}
        }
        let across = |&address: &u64| address < 1 << 48 && address + table_size(q) > 1 << 48 && address % FRAME == 0;
        if lists.tables.iter().any(across) {
            self.0.count(ACROSS, granule_name(granule));
        }
    }

    fn meet_no_root(&mut self, q: &Question, lists: &Lists) {
        self.0.count(NO_ROOT, no_root(q));
        let (size_field, granule) = (bits(q.vtcr_el2, 5, 0), Granule::of_stage2(q));
        let fits = is_listed(size_field) && 64 - size_field <= q.pamax;
        let fails = [
            ("4", bit(q.sctlr_el2, 25)),
            ("8", bits(q.vtcr_el2, 18, 16) > 5),
            ("9", !fits),
            ("9 reserved granule code", fits && granule.is_none()),
        ];
        for (item, _) in fails.into_iter().filter(|(_, fails)| *fails) {
            self.0.count(UNTESTED, item);
        }
        let off_granule = |granule: &Granule| lists.tables.iter().any(|address| address % granule.size() != 0);
        if let Some(granule) = granule.filter(off_granule) {
            self.0.count(FRAMES, granule_name(Some(granule)));
        }
    }

    /// Counts an audit under every class that it is in, by its answer.
    pub fn meet(&mut self, q: &Question, capture: Bank, lists: &Lists, verdict: &Verdict) {
        match verdict {
            Verdict::Clean => self.meet_clean(q, capture, lists),
            Verdict::Found(finding) => {
                self.meet_finding(capture, lists, finding);
                self.meet_entry(q, capture, lists, finding);
            }
            Verdict::Refused(Refusal::CoreFile) => unreachable!("a raw capture is no file"),
            Verdict::Refused(Refusal::HighCapture) => {
                let wraps = capture.base.checked_add(capture.bytes.len() as u64).is_none();
                self.0.count(HIGH, if wraps { "past 2^64" } else { "past 2^48" });
            }
            Verdict::Refused(Refusal::Settings(item)) => self.meet_settings(q, *item),
            Verdict::Refused(Refusal::Lists) => self.meet_lists(q, lists),
            Verdict::Refused(Refusal::NoRoot) => self.meet_no_root(q, lists),
        }
        let number = AuditWords::from(verdict).number;
        if number < 11 || number == 16 {
            self.meet_limits(ACCEPTED, q, lists);
        } else {
            self.meet_order(q, lists, number);
        }
    }
}
