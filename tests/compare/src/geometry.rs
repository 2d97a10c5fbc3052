//! The granules of both stages, and what levels and starts there are with them: by these, questions and audits are counted.
use crate::walk::{bits, picks_upper, stage1_on, stage2_on, Granule, Half, Question, GRANULES};
use std::fmt::{Display, Formatter};
use std::ops::RangeInclusive;

/// The name of a granule, or of none for a stage that is off.
pub fn granule_name(granule: Option<Granule>) -> &'static str {
    match granule {
        Some(Granule::Of4KB) => "4K",
        Some(Granule::Of16KB) => "16K",
        Some(Granule::Of64KB) => "64K",
        None => "-",
    }
}

/// A column for a granule and what is told of it.
pub fn by_granule(granule: Option<Granule>, told: impl Display) -> String {
    format!("{}:{told}", granule_name(granule))
}

/// The granules of stage 1, in the half that the address picks, and of stage 2; none of a stage that is off.
#[derive(Clone, Copy)]
pub struct Granules {
    pub one: Option<Granule>,
    pub two: Option<Granule>,
}

impl Granules {
    /// For settings that pass. Nothing for a disabled half, which need have no granule.
    pub fn new(q: &Question) -> Option<Granules> {
        let half = Half::new(q.tcr_el1, picks_upper(q));
        if stage1_on(q) && half.disabled {
            return None;
        }
        Some(Granules { one: half.granule.filter(|_| stage1_on(q)), two: Granule::of_stage2(q).filter(|_| stage2_on(q)) })
    }

    /// The nine of two stages, those of one, and that of none.
    pub fn all() -> Vec<Granules> {
        let stage = || GRANULES.into_iter().map(Some).chain([None]);
        stage().flat_map(|one| stage().map(move |two| Granules { one, two })).collect()
    }

    pub fn of(self, stage: u64) -> Option<Granule> {
        if stage == 1 {
            self.one
        } else {
            self.two
        }
    }

    /// Where a table walk may stop: the stage and the on-walk word.
    pub fn places(self) -> Vec<(u64, u64)> {
        let (one, two) = (self.one.is_some(), self.two.is_some());
        let all = [((1, 0), one), ((2, 0), two), ((2, 1), one && two)];
        all.into_iter().filter(|place| place.1).map(|place| place.0).collect()
    }
}

impl Display for Granules {
    fn fmt(&self, f: &mut Formatter) -> std::fmt::Result {
        write!(f, "{}/{}", granule_name(self.one), granule_name(self.two))
    }
}

/// A stage that is on, by registers that give it a start.
pub struct Stage {
    pub granule: Granule,
    pub input_size: u64,
    pub start: u64,
}

impl Stage {
    pub fn new(q: &Question, stage: u64) -> Stage {
        let half = Half::new(q.tcr_el1, picks_upper(q));
        let (granule, input_size) =
            if stage == 1 { (half.granule, half.input_size()) } else { (Granule::of_stage2(q), 64 - bits(q.vtcr_el2, 5, 0)) };
        let granule = granule.expect("the settings refuse a reserved code");
        let start = if stage == 1 { granule.stage1_start(input_size) } else { granule.stage2_start(bits(q.vtcr_el2, 7, 6)) as u64 };
        Stage { granule, input_size, start }
    }

    pub fn index_bits(&self) -> u64 {
        self.input_size - self.granule.shift(self.start)
    }

    /// The start level, with a mark if the root is of concatenated tables.
    pub fn start_name(&self) -> String {
        format!("{}{}", self.start, if self.index_bits() > self.granule.stride() { "+" } else { "" })
    }
}

/// The start levels of a granule, with marks where there are concatenated roots.
pub fn start_names(granule: Granule, stage: u64) -> &'static [&'static str] {
    match (granule, stage) {
        (Granule::Of4KB, 1) => &["0", "1", "2"],
        (Granule::Of16KB, 1) => &["0", "1", "2", "3"],
        (Granule::Of64KB, 1) => &["1", "2", "3"],
        (Granule::Of4KB, _) => &["0", "1", "1+", "2", "2+"],
        (Granule::Of16KB, _) => &["1", "1+", "2", "2+", "3", "3+"],
        (Granule::Of64KB, _) => &["1", "2", "2+", "3", "3+"],
    }
}

/// The levels at which a stage has descriptors.
pub fn levels(granule: Granule, stage: u64) -> RangeInclusive<u64> {
    match (granule, stage) {
        (Granule::Of4KB, _) | (Granule::Of16KB, 1) => 0..=3,
        _ => 1..=3,
    }
}

pub fn is_leaf_level(granule: Granule, level: u64) -> bool {
    level == 3 || granule.allows_block(level)
}

/// Why stage 2 has no start for any IPA, if it has none.
pub fn no_start(q: &Question, granule: Granule) -> Option<String> {
    let (size, level) = (64 - bits(q.vtcr_el2, 5, 0) as i64, granule.stage2_start(bits(q.vtcr_el2, 7, 6)));
    let (log, stride) = (granule.log() as i64, granule.stride() as i64);
    let (check, most) = (size - ((3 - level) * stride + log), stride + 4);
    let (first, forbidden) = granule.first_stage2_start();
    let fits = (1..=most).contains(&check);
    if level < first {
        return Some(format!("level {level}"));
    }
    if level == first && q.pamax <= forbidden {
        let pamax = if q.pamax == forbidden { forbidden.to_string() } else { "less".to_string() };
        return Some(format!("level {level}, PAMax {pamax}{}", if fits { "" } else { ", size check" }));
    }
    match check {
        _ if fits => None,
        i64::MIN..=-1 => Some("size check under 0".to_string()),
        _ if check > most + 1 => Some(format!("size check over {}", most + 1)),
        _ => Some(format!("size check {check}")),
    }
}

/// All grounds for a granule. No size that 64KB at level 1 takes is within a PAMax that forbids it.
pub fn no_starts(granule: Granule) -> Vec<&'static str> {
    let own: [&[&str]; 2] = match granule {
        Granule::Of4KB => [&["level -1", "level 0, PAMax 42", "level 0, PAMax less"], &["size check 14", "size check over 14"]],
        Granule::Of16KB => [&["level 0", "level 1, PAMax 40"], &["size check 16", "size check over 16"]],
        Granule::Of64KB => [&["level 0", "level 1, PAMax 42, size check"], &["size check 18", "size check over 18"]],
    };
    [own.concat(), vec!["size check under 0", "size check 0"]].concat()
}
