//! The classes of questions.
use crate::counts::Counts;
use crate::geometry::{by_granule, is_leaf_level, levels, no_start, no_starts, start_names, Granules, Stage};
use crate::proved::Words;
use crate::walk::{bit, bits, is_listed, picks_upper, stage1_on, stage2_on, Bank, Granule, Half, Question, GRANULES, SIZES};

pub struct Classes(pub Counts);

const MEANINGS: [&str; 8] =
    ["translated", "translation", "address size", "access flag", "permission", "alignment", "not in the capture", "unsettled"];

/// A stage by its word and the on-walk word of an answer.
fn place(stage: u64, onwalk: u64) -> String {
    format!("stage {stage}{}", if onwalk == 1 { " on-walk" } else { "" })
}

/// A row of answers 1 to 7.
fn stopped(number: u64, stage: u64, onwalk: u64) -> String {
    format!("{number:2} {}, {}, by granule and level", MEANINGS[number as usize], place(stage, onwalk))
}

/// A row of translation faults for a type 01.
fn type_01(stage: u64, onwalk: u64) -> String {
    format!(" 1 type 01, {}, by granule and level", place(stage, onwalk))
}

/// Rows for each pair of granules.
fn leaf_levels(granules: Granules) -> String {
    format!(" 0 translated by {granules}, by leaf levels")
}

fn start_levels(granules: Granules) -> String {
    format!(" 0 translated by {granules}, by start levels")
}

fn answers(granules: Granules) -> String {
    format!(" 1 to 7 by {granules}, by number and stage")
}

/// A column of the last.
fn answer(number: u64, stage: u64, onwalk: u64) -> String {
    format!("{number} {}", if onwalk == 1 { "on-walk".to_string() } else { format!("at {stage}") })
}

/// Answers that the lowering of the output size to PAMax decides.
const LOWERED: &str = " 2 by the lowering to PAMax";

/// A row of them.
fn lowered(stage: u64, onwalk: u64) -> String {
    format!("{LOWERED}, {}, at the base or by level", place(stage, onwalk))
}

/// A row of blocks on a side of the contiguous rule's limit.
fn contiguous(number: u64) -> String {
    format!(" {number} contiguous block, by granule, stage and input size")
}

/// A column of it.
fn contiguous_block(granule: Granule, stage: u64, input_size: u64) -> String {
    by_granule(Some(granule), format!("{stage}:{input_size}"))
}

/// A row of roots.
fn index_bits(stage: u64) -> String {
    format!(" 0 translated, by granule and bits of stage {stage}'s root index")
}

/// A ground of a fault before stage 2's base, for one IPA alone.
const PAST_INPUT: &str = "IPA past its size";

const HALVES: &str = " 0 translated, by granule and base register of stage 1";
const LEAST_PAMAX: &str = " 0 translated, by stage 2's start at the least PAMax for it";
const NO_START: &str = " 1 stage 2 before its base, by granule and ground";
const DISABLED: &str = " 1 disabled half, by granule code";
const FIRST_BYTES: &str = " 6 first bytes of the descriptor there, by number";
const LAST_BYTES: &str = " 6 last bytes of the descriptor there, by number";
pub const HIGH: &str = "11 high capture";
pub const SETTINGS: &str = "12 settings, by item";
pub const RESERVED: &str = "12 reserved granule code alone, by item";
const NOT_TESTED: &str = "12 not given for a reserved granule code";

/// One question with its answer, and the addresses of the descriptors read for it.
pub struct Told<'a> {
    pub q: &'a Question,
    pub capture: Bank<'a>,
    pub words: &'a Words,
    pub reads: &'a [u64],
}

impl Told<'_> {
    /// The descriptor that was read last but so many, or 0.
    fn last_but(&self, more: u64) -> u64 {
        let at = self.reads.len().checked_sub(1 + more as usize);
        at.and_then(|at| self.capture.descriptor(self.reads[at])).unwrap_or(0)
    }

    /// The end of the capture, if that is no more than 64 bits.
    fn end(&self) -> Option<u64> {
        self.capture.base.checked_add(self.capture.bytes.len() as u64)
    }
}

impl Classes {
    /// All classes that can exist, none of them met.
    pub fn new() -> Classes {
        let mut classes = Classes(Counts::default());
        for granules in Granules::all() {
            classes.add_granules(granules);
        }
        for granule in GRANULES {
            classes.add_granule(granule);
        }
        let all = &mut classes.0;
        // A stage 1 that is off has an address size fault and an alignment fault.
        all.add(&stopped(2, 1, 0), [by_granule(None, 0)]);
        all.add(&stopped(5, 1, 0), [by_granule(None, 0)]);
        all.add(LOWERED, [""]);
        for (stage, onwalk) in [(1, 0), (2, 0), (2, 1)] {
            all.add(&lowered(stage, onwalk), ["base", "0", "1", "2", "3"]);
        }
        for tg in ["TG0", "TG1"] {
            all.add(DISABLED, (0..4).map(|code| format!("{tg} {code}")));
            all.add(NOT_TESTED, ["disabled", "stage 1 off"].map(|why| format!("{tg} {why}")));
        }
        all.add(NOT_TESTED, ["TG0 stage 2 off"]);
        all.add(FIRST_BYTES, ["1", "2", "3", "4", "5", "6", "7"]);
        all.add(LAST_BYTES, ["1", "2", "3", "4", "5", "6", "7"]);
        all.add("10 short log", [""]);
        all.add(HIGH, ["past 2^48", "past 2^64"]);
        all.add(SETTINGS, ["1", "2", "3", "4", "5", "6", "7", "8", "9"]);
        all.add(RESERVED, ["6", "7", "9"]);
        all.add("13 kind, EL or size", [""]);
        classes
    }

    /// The classes of each pair of granules.
    fn add_granules(&mut self, granules: Granules) {
        let leaves = |granule: Option<Granule>| match granule {
            Some(granule) => (1..=3).filter(|&level| is_leaf_level(granule, level)).collect(),
            None => vec![0],
        };
        for one in leaves(granules.one) {
            self.0.add(&leaf_levels(granules), leaves(granules.two).iter().map(|two| format!("{one}/{two}")));
        }
        for stage in [1, 2] {
            let starts = granules.of(stage).map_or(&[][..], |granule| start_names(granule, stage));
            self.0.add(&start_levels(granules), starts.iter().map(|start| format!("{stage}:{start}")));
        }
        for (stage, onwalk) in granules.places() {
            self.0.add(&answers(granules), [1, 2, 3, 4, 6, 7].map(|number| answer(number, stage, onwalk)));
        }
        self.0.add(&answers(granules), [answer(2, 1, 0), answer(5, 1, 0)]);
        if granules.two.is_some() {
            self.0.add(&answers(granules), [answer(5, 2, 0)]);
        }
    }

    /// The classes of each granule of either stage.
    fn add_granule(&mut self, granule: Granule) {
        let all = &mut self.0;
        let name = |told: u64| by_granule(Some(granule), told);
        for (stage, onwalk) in [(1, 0), (2, 0), (2, 1)] {
            // Level 0 is also that of a fault before any read.
            for number in [1, 2] {
                all.add(&stopped(number, stage, onwalk), (0..=3).map(name));
            }
            all.add(&stopped(6, stage, onwalk), levels(granule, stage).map(name));
            for number in [3, 4, 7] {
                all.add(&stopped(number, stage, onwalk), levels(granule, stage).filter(|&level| is_leaf_level(granule, level)).map(name));
            }
            let no_block = |level: &u64| !granule.allows_block(*level);
            all.add(&type_01(stage, onwalk), levels(granule, stage).filter(no_block).map(name));
        }
        let (settled_from, most) = (granule.contiguous_rule().1, granule.stride());
        for (stage, most) in [(1, most), (2, most + 4)] {
            all.add(&stopped(5, stage, 0), [name(0)]);
            all.add(&contiguous(7), [contiguous_block(granule, stage, settled_from - 1)]);
            all.add(&contiguous(0), [contiguous_block(granule, stage, settled_from)]);
            all.add(&index_bits(stage), (1..=most).map(|bits| by_granule(Some(granule), format!("{bits:02}"))));
        }
        all.add(NO_START, no_starts(granule).into_iter().chain([PAST_INPUT]).map(|ground| by_granule(Some(granule), ground)));
        all.add(HALVES, ["TTBR0", "TTBR1"].map(|register| by_granule(Some(granule), register)));
        all.add(LEAST_PAMAX, [by_granule(Some(granule), granule.first_stage2_start().0)]);
    }

    /// Counts a question that the lowering decides, by its answer. A base register is tested before the first read, an entry after it.
    pub fn meet_lowered(&mut self, words: &Words) {
        self.0.count(LOWERED, "");
        let found_at = if words.reads == 0 { "base".to_string() } else { words.level.to_string() };
        self.0.count(&lowered(words.stage, words.onwalk), found_at);
    }

    /// Counts a leaf if it is a contiguous block that the contiguous rule just decides, or just not.
    fn meet_contiguous(&mut self, told: &Told, stage: u64, level: u64, descriptor: u64) {
        let Stage { granule, input_size, .. } = Stage::new(told.q, stage);
        let (ruled_level, settled_from) = granule.contiguous_rule();
        let beside = if told.words.number == 7 { settled_from - 1 } else { settled_from };
        if bit(descriptor, 52) && level == ruled_level && input_size == beside {
            self.0.count(&contiguous(told.words.number), contiguous_block(granule, stage, input_size));
        }
    }

    fn meet_translated(&mut self, told: &Told, granules: Granules) {
        let words = told.words;
        self.0.count(&leaf_levels(granules), format!("{}/{}", words.level1, words.level2));
        // Stage 2's last walk was read after stage 1's leaf.
        let mut after = 0;
        for (stage, level) in [(2, words.level2), (1, words.level1)].into_iter().filter(|&(stage, _)| granules.of(stage).is_some()) {
            let root = Stage::new(told.q, stage);
            self.0.count(&start_levels(granules), format!("{stage}:{}", root.start_name()));
            self.0.count(&index_bits(stage), by_granule(granules.of(stage), format!("{:02}", root.index_bits())));
            self.meet_contiguous(told, stage, level, told.last_but(after));
            after = level + 1 - root.start;
        }
        if granules.one.is_some() {
            self.0.count(HALVES, by_granule(granules.one, if picks_upper(told.q) { "TTBR1" } else { "TTBR0" }));
        }
        if let Some(granule) = granules.two {
            self.meet_least_pamax(told.q, granule);
        }
    }

    /// Counts a start of stage 2 that PAMax just allows.
    fn meet_least_pamax(&mut self, q: &Question, granule: Granule) {
        let (first, forbidden) = granule.first_stage2_start();
        let least = SIZES.into_iter().find(|&size| size > forbidden);
        if Stage::new(q, 2).start as i64 == first && Some(q.pamax) == least {
            self.0.count(LEAST_PAMAX, by_granule(Some(granule), first));
        }
    }

    fn meet_stopped(&mut self, told: &Told, granules: Granules) {
        let Words { number, stage, onwalk, level, .. } = *told.words;
        self.0.count(&answers(granules), answer(number, stage, onwalk));
        let granule = granules.of(stage);
        self.0.count(&stopped(number, stage, onwalk), by_granule(granule, level));
        match number {
            1 => self.meet_translation(told, granule),
            6 => self.meet_absent(told),
            7 => self.meet_contiguous(told, stage, level, told.last_but(0)),
            _ => {}
        }
    }

    /// Counts a translation fault for the start of stage 2, or for a type 01.
    fn meet_translation(&mut self, told: &Told, granule: Option<Granule>) {
        let Words { stage, onwalk, level, ipa, .. } = *told.words;
        let past_input = || (ipa >> (64 - bits(told.q.vtcr_el2, 5, 0)) != 0).then(|| PAST_INPUT.to_string());
        let ground = granule.filter(|_| stage == 2).and_then(|granule| no_start(told.q, granule).or_else(past_input));
        if let Some(ground) = ground {
            self.0.count(NO_START, by_granule(granule, ground));
        } else if bits(told.last_but(0), 1, 0) == 1 {
            self.0.count(&type_01(stage, onwalk), by_granule(granule, level));
        }
    }

    /// Counts an absent descriptor of which some bytes are there.
    fn meet_absent(&mut self, told: &Told) {
        let (base, end) = (told.capture.base, told.end());
        let (first, after) = (told.words.address, told.words.address + 8);
        if let Some(end) = end.filter(|&end| base <= first && first < end) {
            self.0.count(FIRST_BYTES, (end - first).to_string());
        } else if first < base && base < after && end >= Some(after) {
            self.0.count(LAST_BYTES, (after - base).to_string());
        }
    }

    /// Counts an item that fails by a reserved granule code alone.
    fn meet_settings(&mut self, q: &Question, item: u64) {
        self.0.count(SETTINGS, item);
        let (low, granule) = match item {
            6 => (0, Half::new(q.tcr_el1, false).granule),
            7 => (16, Half::new(q.tcr_el1, true).granule),
            9 => (0, Granule::of_stage2(q)),
            _ => return,
        };
        let size_field = bits(if item == 9 { q.vtcr_el2 } else { q.tcr_el1 }, low + 5, low);
        if granule.is_none() && is_listed(size_field) && (item != 9 || 64 - size_field <= q.pamax) {
            self.0.count(RESERVED, item);
        }
    }

    /// Counts reserved granule codes in an accepted question.
    fn meet_not_tested(&mut self, q: &Question) {
        let (one, two) = (stage1_on(q), stage2_on(q));
        for (tg, upper) in [("TG0", false), ("TG1", true)] {
            if Half::new(q.tcr_el1, upper).granule.is_none() {
                self.0.count(NOT_TESTED, format!("{tg} {}", if one { "disabled" } else { "stage 1 off" }));
            }
        }
        if !two && Granule::of_stage2(q).is_none() {
            self.0.count(NOT_TESTED, "TG0 stage 2 off");
        }
    }

    /// Counts an accepted question by its granules, or by the code of a half that is disabled.
    fn meet_accepted(&mut self, told: &Told) {
        let q = told.q;
        self.meet_not_tested(q);
        match Granules::new(q) {
            Some(granules) if told.words.number == 0 => self.meet_translated(told, granules),
            Some(granules) => self.meet_stopped(told, granules),
            None if picks_upper(q) => self.0.count(DISABLED, format!("TG1 {}", bits(q.tcr_el1, 31, 30))),
            None => self.0.count(DISABLED, format!("TG0 {}", bits(q.tcr_el1, 15, 14))),
        }
    }

    /// Counts a question under every class that it is in, by its answer.
    pub fn meet(&mut self, told: &Told) {
        match told.words.number {
            10 => self.0.count("10 short log", ""),
            11 => self.0.count(HIGH, if told.end().is_some() { "past 2^48" } else { "past 2^64" }),
            12 => self.meet_settings(told.q, told.words.item),
            13 => self.0.count("13 kind, EL or size", ""),
            _ => self.meet_accepted(told),
        }
    }
}
