//! Random questions that reach every class of answer: registers that pass the settings, tables to walk, then some damage.
//! Purely random registers and memory would nearly always be refused or fault before the first read.
use crate::random::Random;
use crate::tables::{passing_leaf_bits, stage1_leaf_bits, stage2_leaf_bits, table_bits, Builder, Image, Part, LARGEST_ROOT, LENGTH};
use crate::walk::{self, bits, Answer, Bank, Capture, Granule, Half, OutputSize, Question, SIZES};

/// The length of an image that is filled.
const FILLED: u64 = 0x40000;

/// A question with its capture, which is a part of an image, and the length of its log.
pub struct Asked {
    pub question: Question,
    pub part: Part,
    pub log_words: usize,
}

/// Random bits, at times, where no rule of document 01 names any.
fn unnamed(random: &mut Random, named: u64) -> u64 {
    if random.percent(40) {
        random.word() & random.word() & !named
    } else {
        0
    }
}

/// Any access that is listed.
fn set_access(random: &mut Random, q: &mut Question) {
    q.kind = random.below(3);
    q.el = random.below(2);
    q.size = 1 << random.below(5);
}

/// Memory types of all kinds, most of them settled and Normal.
fn mair_el1(random: &mut Random) -> u64 {
    (0..8).fold(0, |word, _| {
        let byte = match random.below(20) {
            0..=2 => random.pick(&[0x00, 0x04, 0x08, 0x0c]),
            3 => random.below(16),
            4 => random.below(256),
            5 => random.between(1, 15) << 4,
            _ => random.between(1, 15) << 4 | random.between(1, 15),
        };
        word << 8 | byte
    })
}

/// An IPS or PS that says PAMax, or the largest, or any.
fn output_code(random: &mut Random, pamax: u64) -> u64 {
    let any = random.below(6);
    match random.below(10) {
        0 | 1 => SIZES.iter().position(|&size| size == pamax).map_or(any, |code| code as u64),
        2..=7 => 5,
        _ => any,
    }
}

/// What output size tables are built for: at times one that the walk lowers, so that the lowering decides.
pub fn built_for(random: &mut Random) -> OutputSize {
    if random.percent(70) {
        OutputSize::Lowered
    } else {
        OutputSize::Coded
    }
}

/// The code of any granule in a TG0, now and then the reserved one.
fn tg0(random: &mut Random) -> u64 {
    if random.percent(1) {
        3
    } else {
        random.below(3)
    }
}

/// The same in TG1.
fn tg1(random: &mut Random) -> u64 {
    if random.percent(1) {
        0
    } else {
        random.between(1, 3)
    }
}

/// The listed input sizes, up to the largest, with which a walk may start at a level if the root's index may have so many bits.
fn input_sizes(granule: Granule, start: u64, most_bits: u64, largest: u64) -> Option<(u64, u64)> {
    let low = (granule.shift(start) + 1).max(25);
    let high = (granule.shift(start) + most_bits).min(largest);
    (low <= high).then_some((low, high))
}

/// An input size on either side of the contiguous rule's limit.
fn contiguous_size(random: &mut Random, granule: Granule) -> u64 {
    granule.contiguous_rule().1 - random.pick(&[0, 0, 0, 0, 0, 1, 1, 1, 2, 3])
}

/// Any listed input size of stage 1, with each start level as often.
fn stage1_size(random: &mut Random, granule: Granule, deep: bool) -> u64 {
    if !deep && random.percent(15) {
        return contiguous_size(random, granule);
    }
    let starts: Vec<_> = (0..=3).filter_map(|start| input_sizes(granule, start, granule.stride(), 48)).collect();
    let (low, high) = if deep && random.percent(70) { starts[0] } else { random.pick(&starts) };
    random.between(low, high)
}

/// Both halves with a listed size; a half that is off may have any size and granule.
fn tcr_el1(random: &mut Random, pamax: u64, deep: bool) -> u64 {
    let mut tcr = tg0(random) << 14 | tg1(random) << 30 | output_code(random, pamax) << 32 | random.bits(2) << 37;
    tcr |= unnamed(random, 0x3f | 1 << 7 | 3 << 14 | 0x3f << 16 | 1 << 23 | 3 << 30 | 7 << 32 | 3 << 37);
    for upper in [false, true] {
        let low = if upper { 16 } else { 0 };
        if random.percent(6) {
            tcr |= 1 << (low + 7);
            tcr ^= random.word() & 0xc03f << low;
        } else {
            let granule = Half::new(tcr, upper).granule.unwrap_or(Granule::Of4KB);
            tcr |= (64 - stage1_size(random, granule, deep)) << low;
        }
    }
    tcr
}

/// An SL0 and an input size of stage 2 that pass the size check, concatenated roots included; most are a start that PAMax allows.
fn stage2_start(random: &mut Random, granule: Granule, pamax: u64, deep: bool) -> (u64, u64) {
    let forbidden_too = random.percent(15);
    let sizes = |sl0: u64| {
        let level = granule.stage2_start(sl0);
        let start = u64::try_from(level).ok().filter(|_| forbidden_too || granule.allows_stage2_start(level, pamax))?;
        Some((sl0, input_sizes(granule, start, granule.stride() + 4, pamax)?))
    };
    let starts: Vec<_> = (0..4).filter_map(sizes).collect();
    let (sl0, (low, high)) = if deep && random.percent(70) { starts[starts.len() - 1] } else { random.pick(&starts) };
    let level = granule.stage2_start(sl0) as u64;
    let single = granule.shift(level) + granule.stride();
    let size = match random.below(100) {
        0..=4 => low,
        5..=14 => high,
        15..=34 if level == granule.contiguous_rule().0 => contiguous_size(random, granule).min(high),
        35..=49 if single < high => random.between(low.max(single + 1), high),
        _ => random.between(low, high),
    };
    (sl0, size)
}

/// Any SL0, and a size of any kind or one just outside of the size check.
fn any_start(random: &mut Random, granule: Granule) -> (u64, u64) {
    let sl0 = random.below(4);
    let shift = granule.shift(granule.stage2_start(sl0).max(0) as u64);
    let size = match random.below(4) {
        0 => shift.clamp(25, 48),
        1 => (shift + granule.stride() + 5).clamp(25, 48),
        _ => random.between(25, 48),
    };
    (sl0, size)
}

/// Most have a start.
fn vtcr_el2(random: &mut Random, pamax: u64, deep: bool) -> u64 {
    let tg0 = tg0(random);
    let rest = tg0 << 14 | output_code(random, pamax) << 16 | unnamed(random, 0x7c0ff);
    let granule = Granule::of_tg0(tg0).unwrap_or(Granule::Of4KB);
    let (sl0, size) = if random.percent(6) { any_start(random, granule) } else { stage2_start(random, granule, pamax, deep) };
    (64 - size) | sl0 << 6 | rest
}

/// An address in a half of stage 1 that passes the tests before the walk.
struct Stage1Input {
    address: u64,
    upper: bool,
    granule: Granule,
    size: u64,
}

/// Registers that pass the settings, with either stage on or off.
pub struct Plan {
    pub question: Question,
    stage1: bool,
    pub stage2: bool,
    /// Most starts at the first level there is and all leaves at level 3, for the longest walks.
    pub deep: bool,
}

impl Plan {
    pub fn new(random: &mut Random) -> Plan {
        let deep = random.percent(12);
        // Some starts are for these alone.
        let pamax = if deep || random.percent(15) { random.pick(&[44, 48]) } else { random.pick(&SIZES) };
        let (m, vm, dc) = match random.below(100) {
            0..=67 => (1, 1, 0),
            68..=79 => (1, 0, 0),
            80..=89 => (0, 1, 0),
            90..=96 => (random.one(60), random.one(50), 1),
            _ => (0, 0, 0),
        };
        let (stage1, stage2) = (m == 1 && dc == 0, vm == 1 || dc == 1);
        let mut q = Question { pamax, ..Question::default() };
        set_access(random, &mut q);
        q.sctlr_el1 = m | random.one(80) << 2 | random.one(80) << 12 | random.one(20) << 19;
        q.sctlr_el1 |= unnamed(random, 1 | 1 << 2 | 1 << 12 | 1 << 19 | 1 << 25);
        q.sctlr_el2 = unnamed(random, 1 << 25);
        q.hcr_el2 = 1 << 31 | vm | dc << 12 | random.one(25) << 2 | random.one(15) << 32 | random.one(15) << 33;
        q.hcr_el2 |= unnamed(random, 1 | 1 << 2 | 1 << 12 | 1 << 27 | 1 << 31 | 1 << 32 | 1 << 33);
        q.mair_el1 = mair_el1(random);
        // The registers of a stage that is off may hold anything.
        q.tcr_el1 = if stage1 || random.percent(50) { tcr_el1(random, pamax, deep) } else { random.word() };
        q.vtcr_el2 = if stage2 || random.percent(50) { vtcr_el2(random, pamax, deep) } else { random.word() };
        q.sctlr_el1 |= if stage1 { 0 } else { random.one(10) << 25 };
        q.sctlr_el2 |= if stage2 { 0 } else { random.one(10) << 25 };
        Plan { question: q, stage1, stage2, deep }
    }

    fn stage1_input(&self, random: &mut Random) -> Stage1Input {
        let upper = random.percent(45);
        let half = Half::new(self.question.tcr_el1, upper);
        // A half that is off may have a size that is not listed, or no granule; any other does then.
        let size = Some(half.input_size()).filter(|size| (25..=48).contains(size)).unwrap_or(39);
        let granule = half.granule.unwrap_or(Granule::Of4KB);
        let mut address = if random.percent(5) { random.pick(&[0, u64::MAX]) >> (64 - size) } else { random.bits(size) };
        if upper {
            address |= u64::MAX << size;
        }
        let ignores_top = bits(self.question.tcr_el1, 38, 37) >> upper as u64 & 1 == 1;
        if ignores_top && random.percent(70) {
            address = bits(address, 55, 0) | random.bits(8) << 56;
        }
        Stage1Input { address, upper, granule, size }
    }
}

/// A base for tables of a given output size: few lie where an output size faults, and no end passes 2^48. The largest root is aligned
/// there.
pub fn table_base(random: &mut Random, output_size: u64, length: u64) -> u64 {
    let length = (length + LARGEST_ROOT - 1) / LARGEST_ROOT * LARGEST_ROOT;
    let width = random.between(22, output_size);
    let base = match random.below(10) {
        0..=3 => 0x4000_0000,
        4 => 0,
        5 => (1 << output_size) - length,
        6 => (1 << 48) - length,
        _ => random.bits(width) / LARGEST_ROOT * LARGEST_ROOT,
    };
    if base + length > 1 << output_size && random.percent(90) {
        return 0x4000_0000;
    }
    base.min((1 << 48) - length)
}

/// An address for when stage 1 is off, of a width that the rest lets through. Its top byte may be ignored.
fn untranslated(random: &mut Random, width: u64) -> u64 {
    if random.percent(3) {
        return random.word();
    }
    let top_byte = if random.percent(30) { random.bits(8) << 56 } else { 0 };
    random.bits(width) | top_byte
}

/// Builds the tables of a plan for an address, and sets the base registers and the address.
fn build(random: &mut Random, image: &mut Image, plan: &mut Plan) {
    let input = plan.stage1_input(random);
    let q = &mut plan.question;
    let output = built_for(random);
    let output_size = if plan.stage2 { output.of_ps(q) } else { output.of_ips(q) };
    image.clear(table_base(random, output_size, LENGTH));
    for register in [&mut q.ttbr0_el1, &mut q.ttbr1_el1, &mut q.vttbr_el2] {
        *register = random.word();
    }
    let aligned = if random.percent(70) { !(q.size - 1) } else { u64::MAX };
    let mut builder = Builder::new(random, image, q, plan.deep);
    if plan.stage2 {
        q.vttbr_el2 = builder.stage2_root(q);
    }
    let output = if plan.stage1 {
        q.address = input.address & aligned;
        let (base_register, output) = builder.stage1(q.address, input.granule, input.size);
        *(if input.upper { &mut q.ttbr1_el1 } else { &mut q.ttbr0_el1 }) = base_register;
        output
    } else {
        let width = builder.input_width(q);
        q.address = untranslated(builder.random, width) & aligned;
        bits(q.address, 47, 0)
    };
    builder.map_output(output);
}

/// Fills an image so that every word of it is a descriptor of some kind, and a walk from any root reads several.
fn fill(random: &mut Random, image: &mut Image) {
    let base = match random.below(4) {
        0 => 0,
        1 => 0x4000_0000,
        2 => random.bits(6) << 30,
        _ => random.bits(2) << 30,
    };
    image.clear(base);
    let tables = random.between(45, 80);
    let harm = random.below(5);
    for address in (base..base + FILLED).step_by(8) {
        let page = base + random.below(FILLED / 4096) * 4096;
        let mut word = if random.percent(tables) {
            page | 3 | table_bits(random) | bits(passing_leaf_bits(random), 11, 0)
        } else {
            let leaf = if random.percent(50) { stage1_leaf_bits(random) } else { stage2_leaf_bits(random, true) };
            page | leaf | 1 << 6 | random.pick(&[1, 1, 3, 3, 3])
        };
        if random.percent(harm) {
            flip(random, &mut word);
        }
        image.set(address, word);
    }
}

/// Sets the base registers to roots in a filled image, and any address that gets past the first tests.
fn root_anywhere(random: &mut Random, image: &Image, plan: &mut Plan) {
    let stage1_address = plan.stage1_input(random).address;
    let q = &mut plan.question;
    for register in [&mut q.ttbr0_el1, &mut q.ttbr1_el1, &mut q.vttbr_el2] {
        *register = (image.base + random.below(FILLED)) | random.bits(16) << 48;
    }
    q.address = if plan.stage1 { stage1_address } else { random.bits(q.pamax) };
    if random.percent(80) {
        q.address &= !(q.size - 1);
    }
}

fn flip(random: &mut Random, word: &mut u64) {
    *word ^= 1 << random.below(64);
}

/// The address of a descriptor that the walk reads, if it reads any: damage elsewhere would seldom be met. The last
/// is taken more often, for it would else seldom be met in a long walk.
fn read_address(random: &mut Random, image: &Image, q: &Question) -> Option<u64> {
    let mut log = [0; 24];
    match walk::ask(q, Capture::Raw(Bank::whole(image.base, &image.bytes)), &mut log) {
        Answer::Translated { reads, .. } | Answer::Stopped { reads, .. } if reads > 0 => {
            Some(if random.percent(30) { log[reads - 1] } else { random.pick(&log[..reads]) })
        }
        _ => None,
    }
}

/// Changes one of the fields of a descriptor that a rule names, or any bit.
fn damage_descriptor(random: &mut Random, image: &mut Image, q: &Question) {
    let at =
        if random.percent(75) { read_address(random, image, q) } else { (!image.written.is_empty()).then(|| random.pick(&image.written)) };
    if let Some(at) = at {
        let mut word = image.get(at);
        match random.below(13) {
            0 => word = random.word(),
            1 => word = word & !3 | random.bits(2),
            2 => word ^= 1 << 10,
            3 => word ^= 1 << random.between(30, 47),
            4 => word ^= random.bits(3) << 6,
            5 => word ^= random.bits(8) << 2,
            6 => word ^= 1 << random.between(52, 62),
            7..=9 => word |= 1 << random.between(q.pamax.min(47), 47),
            _ => flip(random, &mut word),
        }
        image.set(at, word);
    }
}

/// Changes a field of a register that a rule names, or any bit.
fn damage_register(random: &mut Random, q: &mut Question) {
    match random.below(14) {
        0 => flip(random, &mut q.sctlr_el1),
        1 => flip(random, &mut q.tcr_el1),
        2 => flip(random, &mut q.ttbr0_el1),
        3 => flip(random, &mut q.ttbr1_el1),
        4 => flip(random, &mut q.mair_el1),
        5 => q.sctlr_el1 ^= 1 << random.pick(&[0u64, 2, 12, 19, 25]),
        6 => q.tcr_el1 ^= random.pick(&[7 << 32, 0x3f, 0x3f << 16, 3 << 14, 3 << 30, 1 << 7, 1 << 23, 3 << 37]) & random.word(),
        _ => damage_el2_register(random, q),
    }
}

/// The same for a register of EL2.
pub fn damage_el2_register(random: &mut Random, q: &mut Question) {
    match random.below(7) {
        0 => flip(random, &mut q.hcr_el2),
        1 => flip(random, &mut q.vtcr_el2),
        2 => flip(random, &mut q.vttbr_el2),
        3 => flip(random, &mut q.sctlr_el2),
        4 => q.vtcr_el2 ^= random.pick(&[7 << 16, 0x3f, 3 << 14, 3 << 6]) & random.word(),
        5 => q.hcr_el2 ^= 1 << random.pick(&[0u64, 2, 12, 27, 31, 32, 33]),
        _ => q.sctlr_el2 ^= 1 << 25,
    }
}

/// A PAMax that is not listed. Some would be listed if their high bits were dropped.
pub fn unlisted_pamax(random: &mut Random) -> u64 {
    random.pick(&[0, 31, 33, 35, 39, 41, 43, 45, 47, 49, 52, 64, 48 << 8, 1 << 32 | 48, u64::MAX])
}

/// Another PAMax, or a number that is not listed.
fn damage_number(random: &mut Random, q: &mut Question) {
    let unlisted = random.pick(&[2, 3, 4, 5, 16, 256, 1 << 32, 1 << 63, u64::MAX]);
    match random.below(6) {
        0 => q.pamax = unlisted_pamax(random),
        1 => q.pamax = random.pick(&SIZES),
        2 => q.kind = unlisted,
        3 => q.el = unlisted,
        _ => q.size = random.pick(&[0, 3, 5, 6, 7, 9, 12, 15, 17, 24, 32, 64, 1 << 32 | 8, u64::MAX]),
    }
}

/// Cuts the capture, from either end, at any byte of a descriptor that is read, or anywhere.
fn cut(random: &mut Random, image: &Image, asked: &mut Asked) {
    let read = read_address(random, image, &asked.question).filter(|_| random.percent(90));
    let at = read.map_or_else(|| random.below(image.length() + 1), |address| address - image.base);
    let at = at + random.below(9);
    asked.part.cut(random, image, at);
}

/// Asks the question with up to three things changed in it, in its tables, its capture or its log.
fn damage(random: &mut Random, image: &mut Image, question: Question) -> Asked {
    let mut asked = Asked { question, part: Part::whole(image), log_words: 24 };
    for _ in 0..random.pick(&[0, 0, 0, 1, 1, 1, 1, 2, 3]) {
        match random.below(100) {
            0..=44 => damage_descriptor(random, image, &asked.question),
            45..=66 => damage_register(random, &mut asked.question),
            67..=74 => damage_number(random, &mut asked.question),
            75..=79 => flip(random, &mut asked.question.address),
            80..=82 => asked.question.address = random.word(),
            83 | 84 => asked.log_words = random.below(40) as usize,
            85..=96 => cut(random, image, &mut asked),
            _ => asked.part.move_away(random),
        }
    }
    asked
}

/// Questions without end, determined by the seed.
pub struct Questions {
    random: Random,
    built: Image,
    filled: Image,
    plan: Plan,
    /// How many more questions are asked of the image that was built, and of the one that was filled.
    of_built: u64,
    of_filled: u64,
}

impl Questions {
    pub fn new(seed: u64) -> Questions {
        let mut random = Random::new(seed);
        let plan = Plan::new(&mut random);
        Questions { random, built: Image::new(LENGTH), filled: Image::new(FILLED), plan, of_built: 0, of_filled: 0 }
    }

    /// The next question, and the image that its capture is a part of.
    pub fn next(&mut self) -> (&mut Image, Asked) {
        if self.random.percent(40) {
            self.next_of_filled()
        } else {
            self.next_of_built()
        }
    }

    fn next_of_filled(&mut self) -> (&mut Image, Asked) {
        if self.of_filled == 0 {
            fill(&mut self.random, &mut self.filled);
            self.of_filled = 4096;
        }
        self.of_filled -= 1;
        let mut plan = Plan::new(&mut self.random);
        root_anywhere(&mut self.random, &self.filled, &mut plan);
        let asked = damage(&mut self.random, &mut self.filled, plan.question);
        (&mut self.filled, asked)
    }

    /// Tables once built are asked of by several accesses, of which each adds to the damage.
    fn next_of_built(&mut self) -> (&mut Image, Asked) {
        if self.of_built == 0 {
            self.plan = Plan::new(&mut self.random);
            build(&mut self.random, &mut self.built, &mut self.plan);
            self.of_built = 2;
        } else {
            set_access(&mut self.random, &mut self.plan.question);
        }
        self.of_built -= 1;
        let asked = damage(&mut self.random, &mut self.built, self.plan.question);
        (&mut self.built, asked)
    }
}
