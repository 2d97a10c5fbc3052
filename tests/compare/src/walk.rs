//! An independent walk: one question answered by document 01, with the banks, the output size and the granules of document 02, §1 to §3,
//! in plain Rust, written without regard to the proved code.
//! Comments in quotation marks name the heading of document 01 that a rule is from.

pub const READ: u64 = 0;
pub const WRITE: u64 = 1;
pub const FETCH: u64 = 2;

/// "What one question holds", but for the capture and the log.
#[derive(Clone, Copy, Debug, Default)]
pub struct Question {
    pub pamax: u64,
    pub hcr_el2: u64,
    pub vtcr_el2: u64,
    pub vttbr_el2: u64,
    pub sctlr_el2: u64,
    pub sctlr_el1: u64,
    pub tcr_el1: u64,
    pub ttbr0_el1: u64,
    pub ttbr1_el1: u64,
    pub mair_el1: u64,
    pub address: u64,
    pub kind: u64,
    pub el: u64,
    pub size: u64,
}

/// A run of captured memory.
#[derive(Clone, Copy)]
pub struct Bank<'a> {
    /// The physical address of the first byte.
    pub base: u64,
    /// The bytes that are there.
    pub bytes: &'a [u8],
    /// How many there should be: more than are there, if a core file was cut.
    pub size: u64,
}

impl<'a> Bank<'a> {
    /// All of it is there.
    pub fn whole(base: u64, bytes: &'a [u8]) -> Bank<'a> {
        Bank { base, bytes, size: bytes.len() as u64 }
    }

    /// The descriptor at an address, if all its eight bytes are here.
    pub fn descriptor(&self, address: u64) -> Option<u64> {
        let offset = address.checked_sub(self.base)? as usize;
        let eight = self.bytes.get(offset..)?.get(..8)?;
        Some(u64::from_le_bytes(eight.try_into().ok()?))
    }

    /// Whether it is refused by answer 11. The sum is of unbounded numbers.
    pub fn is_high(&self) -> bool {
        u128::from(self.base) + u128::from(self.size) > 1 << 48
    }
}

/// Captured memory.
#[derive(Clone, Copy)]
pub enum Capture<'a> {
    /// A run of bytes is one bank.
    Raw(Bank<'a>),
    /// A core file has banks, unless it is refused by answer 17 (document 02, §1).
    Core { file: &'a [u8], banks: Option<&'a [Bank<'a>]> },
}

impl<'a> Capture<'a> {
    pub fn banks(&self) -> Option<&[Bank<'a>]> {
        match self {
            Capture::Raw(bank) => Some(std::slice::from_ref(bank)),
            Capture::Core { banks, .. } => *banks,
        }
    }

    /// The descriptor at an address, if all its eight bytes are in one bank.
    pub fn descriptor(&self, address: u64) -> Option<u64> {
        self.banks()?.iter().find_map(|bank| bank.descriptor(address))
    }

    /// Whether it is refused by answer 17.
    pub fn is_no_core(&self) -> bool {
        self.banks().is_none()
    }

    /// Whether it is refused by answer 11: one bank that is high is enough.
    pub fn is_high(&self) -> bool {
        self.banks().map_or(false, |banks| banks.iter().any(Bank::is_high))
    }
}

/// In the order in which one beats the next when stages combine.
#[derive(Clone, Copy, PartialEq, Eq, PartialOrd, Ord)]
pub enum Cacheability {
    NonCacheable,
    WriteThrough,
    WriteBack,
}

/// Device types are numbered as "Attributes" lists them, nGnRnE first.
#[derive(Clone, Copy, PartialEq, Eq)]
pub enum Memory {
    Device(u64),
    Normal { outer: Cacheability, inner: Cacheability },
}

impl Memory {
    fn normal(both: Cacheability) -> Memory {
        Memory::Normal { outer: both, inner: both }
    }

    fn is_device(self) -> bool {
        matches!(self, Memory::Device(_))
    }
}

const NOT_SHAREABLE: u64 = 0;
const RESERVED: u64 = 1;
const OUTER_SHAREABLE: u64 = 2;
const INNER_SHAREABLE: u64 = 3;

#[derive(Clone, Copy)]
pub struct Attributes {
    pub memory: Memory,
    pub shareability: u64,
}

/// The stage that an answer is about. The IPA is 0 for stage 1.
#[derive(Clone, Copy)]
pub struct Place {
    pub stage: u64,
    pub on_walk: bool,
    pub ipa: u64,
}

const STAGE_1: Place = Place { stage: 1, on_walk: false, ipa: 0 };

/// Why there is no output address: answers 1 to 7.
#[derive(Clone, Copy, PartialEq, Eq)]
pub enum Cause {
    Translation,
    AddressSize,
    AccessFlag,
    Permission,
    Alignment,
    NotCaptured(u64),
    Unsettled,
}

pub struct Stop {
    pub cause: Cause,
    pub place: Place,
    pub level: u64,
}

/// Answers 17 and 10 to 13.
pub enum Refusal {
    CoreFile,
    ShortLog,
    HighCapture,
    Settings(u64),
    Access,
}

pub enum Answer {
    Translated { address: u64, attributes: Attributes, level1: u64, level2: u64, reads: usize },
    Stopped { stop: Stop, reads: usize },
    Refused(Refusal),
}

pub fn bit(word: u64, at: u64) -> bool {
    word >> at & 1 == 1
}

/// Bits high down to low; none, so 0, if high is below low.
pub fn bits(word: u64, high: u64, low: u64) -> u64 {
    if high < low {
        return 0;
    }
    word >> low & (u64::MAX >> (63 - (high - low)))
}

/// What IPS or PS says of the output size, by its code. These are also what PAMax may be.
pub const SIZES: [u64; 6] = [32, 36, 40, 42, 44, 48];

/// How a stage's output size is found.
#[derive(Clone, Copy)]
pub enum OutputSize {
    /// By IPS or PS, lowered to PAMax.
    Lowered,
    /// By IPS or PS alone. No walk is bounded so any more: it tells which answers the lowering decides.
    Coded,
}

impl OutputSize {
    /// In bits. A code that the settings refuse counts as the largest.
    pub fn bits(self, code: u64, pamax: u64) -> u64 {
        let coded = SIZES[code.min(5) as usize];
        match self {
            OutputSize::Lowered => coded.min(pamax),
            OutputSize::Coded => coded,
        }
    }

    /// Stage 1's.
    pub fn of_ips(self, q: &Question) -> u64 {
        self.bits(bits(q.tcr_el1, 34, 32), q.pamax)
    }

    /// Stage 2's.
    pub fn of_ps(self, q: &Question) -> u64 {
        self.bits(bits(q.vtcr_el2, 18, 16), q.pamax)
    }
}

/// A translation granule, and what document 02, §3, makes of document 01's 12 and 9.
#[derive(Clone, Copy, PartialEq, Eq)]
pub enum Granule {
    Of4KB,
    Of16KB,
    Of64KB,
}

pub const GRANULES: [Granule; 3] = [Granule::Of4KB, Granule::Of16KB, Granule::Of64KB];

impl Granule {
    /// By the code of a TG0; none for the reserved one.
    pub fn of_tg0(code: u64) -> Option<Granule> {
        match code {
            0 => Some(Granule::Of4KB),
            1 => Some(Granule::Of64KB),
            2 => Some(Granule::Of16KB),
            _ => None,
        }
    }

    /// By the code of TG1; none for the reserved one.
    pub fn of_tg1(code: u64) -> Option<Granule> {
        match code {
            1 => Some(Granule::Of16KB),
            2 => Some(Granule::Of4KB),
            3 => Some(Granule::Of64KB),
            _ => None,
        }
    }

    /// Stage 2's.
    pub fn of_stage2(q: &Question) -> Option<Granule> {
        Granule::of_tg0(bits(q.vtcr_el2, 15, 14))
    }

    /// The log of its size in bytes.
    pub fn log(self) -> u64 {
        match self {
            Granule::Of4KB => 12,
            Granule::Of16KB => 14,
            Granule::Of64KB => 16,
        }
    }

    /// In bytes.
    pub fn size(self) -> u64 {
        1 << self.log()
    }

    /// The bits of an index, so that a table of 8 bytes an entry fills the granule.
    pub fn stride(self) -> u64 {
        self.log() - 3
    }

    /// The lowest input bit that a level's index has.
    pub fn shift(self, level: u64) -> u64 {
        self.log() + self.stride() * (3 - level)
    }

    pub fn allows_block(self, level: u64) -> bool {
        level == 2 || level == 1 && self == Granule::Of4KB
    }

    /// The level whose blocks the contiguous rule is for, and the input size from which on it says nothing.
    pub fn contiguous_rule(self) -> (u64, u64) {
        match self {
            Granule::Of4KB => (1, 34),
            Granule::Of16KB => (2, 30),
            Granule::Of64KB => (2, 34),
        }
    }

    pub fn stage1_start(self, input_size: u64) -> u64 {
        let index_bits = input_size - self.log();
        4 - (index_bits + self.stride() - 1) / self.stride()
    }

    /// By SL0. Not each is a level that stage 2 may start at.
    pub fn stage2_start(self, sl0: u64) -> i64 {
        match self {
            Granule::Of4KB => 2 - sl0 as i64,
            _ => 3 - sl0 as i64,
        }
    }

    /// The first level that stage 2 may start at, and the largest PAMax with which it may not.
    pub fn first_stage2_start(self) -> (i64, u64) {
        match self {
            Granule::Of4KB => (0, 42),
            Granule::Of16KB => (1, 40),
            Granule::Of64KB => (1, 42),
        }
    }

    pub fn allows_stage2_start(self, level: i64, pamax: u64) -> bool {
        let (first, forbidden) = self.first_stage2_start();
        level > first || level == first && pamax > forbidden
    }
}

/// What TCR_EL1 says of a half of stage 1's addresses.
pub struct Half {
    size_field: u64,
    pub granule: Option<Granule>,
    pub disabled: bool,
}

impl Half {
    pub fn new(tcr: u64, upper: bool) -> Half {
        if upper {
            Half { size_field: bits(tcr, 21, 16), granule: Granule::of_tg1(bits(tcr, 31, 30)), disabled: bit(tcr, 23) }
        } else {
            Half { size_field: bits(tcr, 5, 0), granule: Granule::of_tg0(bits(tcr, 15, 14)), disabled: bit(tcr, 7) }
        }
    }

    pub fn input_size(&self) -> u64 {
        64 - self.size_field
    }

    /// Items 6 and 7.
    fn passes(&self) -> bool {
        self.disabled || is_listed(self.size_field) && self.granule.is_some()
    }
}

/// Whether the settings allow a size field.
pub fn is_listed(size_field: u64) -> bool {
    (16..=39).contains(&size_field)
}

/// The highest address bit that counts: "Walk", its first rule.
fn top(q: &Question) -> u64 {
    let ignored = bit(q.tcr_el1, if bit(q.address, 55) { 38 } else { 37 });
    if ignored {
        55
    } else {
        63
    }
}

/// Whether the address picks the upper half of stage 1.
pub fn picks_upper(q: &Question) -> bool {
    bit(q.address, top(q))
}

pub fn stage1_on(q: &Question) -> bool {
    bit(q.sctlr_el1, 0) && !bit(q.hcr_el2, 12)
}

pub fn stage2_on(q: &Question) -> bool {
    bit(q.hcr_el2, 0) || bit(q.hcr_el2, 12)
}

/// "Settings, first failing item reported".
pub fn failing_item(q: &Question) -> Option<u64> {
    let (one, two) = (stage1_on(q), stage2_on(q));
    let (tcr, vtcr) = (q.tcr_el1, q.vtcr_el2);
    let stage2_size = bits(vtcr, 5, 0);
    let holds = [
        SIZES.contains(&q.pamax),
        !bit(q.hcr_el2, 27),
        bit(q.hcr_el2, 31),
        !(one && bit(q.sctlr_el1, 25) || two && bit(q.sctlr_el2, 25)),
        !one || bits(tcr, 34, 32) <= 5,
        !one || Half::new(tcr, false).passes(),
        !one || Half::new(tcr, true).passes(),
        !two || bits(vtcr, 18, 16) <= 5,
        !two || is_listed(stage2_size) && Granule::of_stage2(q).is_some() && 64 - stage2_size <= q.pamax,
    ];
    holds.iter().position(|held| !held).map(|at| at as u64 + 1)
}

/// "Answer numbers": 10 to 13, in that order, and 17 before them.
fn refusal(q: &Question, capture: Capture, log_words: usize) -> Option<Refusal> {
    if capture.is_no_core() {
        return Some(Refusal::CoreFile);
    }
    if log_words < 24 {
        return Some(Refusal::ShortLog);
    }
    if capture.is_high() {
        return Some(Refusal::HighCapture);
    }
    if let Some(item) = failing_item(q) {
        return Some(Refusal::Settings(item));
    }
    if q.kind > FETCH || q.el > 1 || ![1, 2, 4, 8, 16].contains(&q.size) {
        return Some(Refusal::Access);
    }
    None
}

enum Step {
    Table(u64),
    Leaf(u64),
}

/// What a descriptor says to a table walk: the tests of "Walk", in their order.
fn step(descriptor: u64, level: u64, start: &Start, input: u64) -> Result<Step, Cause> {
    let granule = start.granule;
    if !bit(descriptor, 0) || level == 3 && !bit(descriptor, 1) {
        return Err(Cause::Translation);
    }
    let beyond_output = bits(descriptor, 47, start.output_size) != 0;
    if bit(descriptor, 1) && level < 3 {
        let low = granule.log();
        return if beyond_output { Err(Cause::AddressSize) } else { Ok(Step::Table(bits(descriptor, 47, low) << low)) };
    }
    if level < 3 && !granule.allows_block(level) {
        return Err(Cause::Translation);
    }
    let (contiguous_level, settled_from) = granule.contiguous_rule();
    if level == contiguous_level && start.input_size < settled_from && bit(descriptor, 52) {
        return Err(Cause::Unsettled);
    }
    if beyond_output {
        return Err(Cause::AddressSize);
    }
    if !bit(descriptor, 10) {
        return Err(Cause::AccessFlag);
    }
    let low = granule.shift(level);
    Ok(Step::Leaf(bits(descriptor, 47, low) << low | bits(input, low - 1, 0)))
}

/// Device memory, and Normal memory Non-cacheable both ways, are outer shareable.
fn reported(memory: Memory, shareability: u64) -> Attributes {
    let forced = memory.is_device() || memory == Memory::normal(Cacheability::NonCacheable);
    Attributes { memory, shareability: if forced { OUTER_SHAREABLE } else { shareability } }
}

/// A leaf's attributes from its memory type and SH; nothing if Arm leaves them open.
fn leaf_attributes(memory: Memory, descriptor: u64, uncached: bool) -> Option<Attributes> {
    let shareability = bits(descriptor, 9, 8);
    if memory.is_device() {
        return Some(reported(memory, shareability));
    }
    if shareability == RESERVED {
        return None;
    }
    Some(reported(if uncached { Memory::normal(Cacheability::NonCacheable) } else { memory }, shareability))
}

fn mair_cacheability(nibble: u64) -> Option<Cacheability> {
    match nibble {
        1..=3 | 8..=11 => Some(Cacheability::WriteThrough),
        4 => Some(Cacheability::NonCacheable),
        5..=7 | 12..=15 => Some(Cacheability::WriteBack),
        _ => None,
    }
}

/// The memory type of a byte of MAIR_EL1.
fn mair_memory(byte: u64) -> Option<Memory> {
    match byte {
        0x00 => Some(Memory::Device(0)),
        0x04 => Some(Memory::Device(1)),
        0x08 => Some(Memory::Device(2)),
        0x0c => Some(Memory::Device(3)),
        _ => Some(Memory::Normal { outer: mair_cacheability(bits(byte, 7, 4))?, inner: mair_cacheability(bits(byte, 3, 0))? }),
    }
}

fn stage2_cacheability(code: u64) -> Option<Cacheability> {
    match code {
        1 => Some(Cacheability::NonCacheable),
        2 => Some(Cacheability::WriteThrough),
        3 => Some(Cacheability::WriteBack),
        _ => None,
    }
}

/// The memory type of a stage 2 leaf.
fn stage2_memory(descriptor: u64) -> Option<Memory> {
    let (outer, inner) = (bits(descriptor, 5, 4), bits(descriptor, 3, 2));
    if outer == 0 {
        return Some(Memory::Device(inner));
    }
    Some(Memory::Normal { outer: stage2_cacheability(outer)?, inner: stage2_cacheability(inner)? })
}

/// "Attributes": the combining of both stages.
fn combined(one: Attributes, two: Attributes) -> Attributes {
    let memory = match (one.memory, two.memory) {
        (Memory::Device(a), Memory::Device(b)) => Memory::Device(a.min(b)),
        (Memory::Device(a), _) | (_, Memory::Device(a)) => Memory::Device(a),
        (Memory::Normal { outer: a, inner: b }, Memory::Normal { outer: c, inner: d }) => {
            Memory::Normal { outer: a.min(c), inner: b.min(d) }
        }
    };
    let either = |wanted| one.shareability == wanted || two.shareability == wanted;
    let shareability = if either(OUTER_SHAREABLE) {
        OUTER_SHAREABLE
    } else if either(INNER_SHAREABLE) {
        INNER_SHAREABLE
    } else {
        NOT_SHAREABLE
    };
    reported(memory, shareability)
}

/// Where a stage's table walk starts, and the sizes that bound it.
pub struct Start {
    pub granule: Granule,
    input_size: u64,
    output_size: u64,
    pub level: u64,
    pub table: u64,
}

impl Start {
    /// The root's address is the base register's bits 47 down to the size of the root; lower ones are ignored.
    fn new(granule: Granule, base_register: u64, input_size: u64, output_size: u64, level: u64) -> Result<Start, Cause> {
        if bits(base_register, 47, output_size) != 0 {
            return Err(Cause::AddressSize);
        }
        let low = 3 + input_size - granule.shift(level);
        Ok(Start { granule, input_size, output_size, level, table: bits(base_register, 47, low) << low })
    }

    /// How many the root has.
    pub fn entries(&self) -> u64 {
        1 << (self.input_size - self.granule.shift(self.level))
    }

    /// Stage 2's, for an IPA.
    pub fn stage2(q: &Question, ipa: u64, output: OutputSize) -> Result<Start, Cause> {
        let vtcr = q.vtcr_el2;
        let granule = Granule::of_stage2(q).expect("the settings refuse a reserved code");
        let size = 64 - bits(vtcr, 5, 0);
        let level = granule.stage2_start(bits(vtcr, 7, 6));
        if bits(ipa, 47, size) != 0 || !granule.allows_stage2_start(level, q.pamax) {
            return Err(Cause::Translation);
        }
        let (log, stride) = (granule.log() as i64, granule.stride() as i64);
        let size_check = size as i64 - ((3 - level) * stride + log);
        if !(1..=stride + 4).contains(&size_check) {
            return Err(Cause::Translation);
        }
        Start::new(granule, q.vttbr_el2, size, output.of_ps(q), level as u64)
    }
}

/// The leaf at which a table walk ended. The table descriptors above it are or-ed together, for what stage 1 inherits.
struct Leaf {
    descriptor: u64,
    tables: u64,
    level: u64,
    address: u64,
}

/// What a stage makes of its input address.
struct Output {
    address: u64,
    attributes: Attributes,
    level: u64,
}

struct Walk<'a> {
    q: &'a Question,
    output: OutputSize,
    capture: Capture<'a>,
    log: &'a mut [u64],
    reads: usize,
}

impl Walk<'_> {
    fn read(&mut self, address: u64) -> Option<u64> {
        let descriptor = self.capture.descriptor(address)?;
        self.log[self.reads] = address;
        self.reads += 1;
        Some(descriptor)
    }

    /// The table walk of either stage. Stage 1's descriptor addresses go through stage 2 if it is on.
    fn table_walk(&mut self, start: &Start, input: u64, place: Place) -> Result<Leaf, Stop> {
        let (mut table, mut level, mut high, mut tables) = (start.table, start.level, start.input_size - 1, 0);
        loop {
            let stop = |cause| Stop { cause, place, level };
            let mut at = table + 8 * bits(input, high, start.granule.shift(level));
            if place.stage == 1 && stage2_on(self.q) {
                at = self.stage2(at, true)?.address;
            }
            let descriptor = self.read(at).ok_or_else(|| stop(Cause::NotCaptured(at)))?;
            match step(descriptor, level, start, input).map_err(stop)? {
                Step::Leaf(address) => return Ok(Leaf { descriptor, tables, level, address }),
                Step::Table(next) => table = next,
            }
            tables |= descriptor;
            level += 1;
            high = start.granule.shift(level) + start.granule.stride() - 1;
        }
    }

    fn fetches(&self) -> bool {
        self.q.kind == FETCH
    }

    /// Whether the access itself faults on Device memory for its alignment.
    fn misaligned(&self) -> bool {
        !self.fetches() && self.q.address % self.q.size != 0
    }

    fn stage1_start(&self) -> Result<Start, Cause> {
        let (top, upper) = (top(self.q), picks_upper(self.q));
        let (half, ttbr) = (Half::new(self.q.tcr_el1, upper), if upper { self.q.ttbr1_el1 } else { self.q.ttbr0_el1 });
        // A disabled half's size and granule were not tested by the settings, so nothing may be computed from them.
        if half.disabled {
            return Err(Cause::Translation);
        }
        let (size, granule) = (half.input_size(), half.granule.expect("the settings refuse a reserved code"));
        if bits(self.q.address, top, size) != if upper { bits(u64::MAX, top, size) } else { 0 } {
            return Err(Cause::Translation);
        }
        Start::new(granule, ttbr, size, self.output.of_ips(self.q), granule.stage1_start(size))
    }

    fn stage1_permits(&self, leaf: &Leaf) -> bool {
        let (descriptor, tables) = (leaf.descriptor, leaf.tables);
        let read_only = bit(descriptor, 7) || bit(tables, 62);
        let el0_may = bit(descriptor, 6) && !bit(tables, 61);
        let xn = bit(descriptor, 54) || bit(tables, 60);
        let pxn = bit(descriptor, 53) || bit(tables, 59);
        let wxn = bit(self.q.sctlr_el1, 19);
        let (el1_writes, el0_writes) = (!read_only, !read_only && el0_may);
        match (self.q.el, self.q.kind) {
            (0, READ) => el0_may,
            (0, WRITE) => el0_writes,
            (0, _) => !(xn || wxn && el0_writes),
            (_, READ) => true,
            (_, WRITE) => el1_writes,
            _ => !(pxn || wxn && el1_writes || el0_writes),
        }
    }

    /// "Checks after each walk", for stage 1.
    fn stage1_output(&self, leaf: &Leaf) -> Result<Output, Cause> {
        let uncached = !bit(self.q.sctlr_el1, if self.fetches() { 12 } else { 2 });
        let byte = self.q.mair_el1 >> (8 * bits(leaf.descriptor, 4, 2)) & 0xff;
        let attributes = mair_memory(byte).and_then(|m| leaf_attributes(m, leaf.descriptor, uncached)).ok_or(Cause::Unsettled)?;
        let device = attributes.memory.is_device();
        if device && self.misaligned() {
            return Err(Cause::Alignment);
        }
        if !self.stage1_permits(leaf) || device && self.fetches() {
            return Err(Cause::Permission);
        }
        Ok(Output { address: leaf.address, attributes, level: leaf.level })
    }

    fn stage1(&mut self) -> Result<Output, Stop> {
        let start = self.stage1_start().map_err(|cause| Stop { cause, place: STAGE_1, level: 0 })?;
        let leaf = self.table_walk(&start, self.q.address, STAGE_1)?;
        self.stage1_output(&leaf).map_err(|cause| Stop { cause, place: STAGE_1, level: leaf.level })
    }

    /// "Attributes", its last paragraph: an address that stage 1 does not translate.
    fn stage1_off(&self) -> Result<Output, Stop> {
        let stop = |cause| Err(Stop { cause, place: STAGE_1, level: 0 });
        if bits(self.q.address, top(self.q), self.q.pamax) != 0 {
            return stop(Cause::AddressSize);
        }
        let (memory, shareability) = if bit(self.q.hcr_el2, 12) {
            (Memory::normal(Cacheability::WriteBack), NOT_SHAREABLE)
        } else if !self.fetches() {
            (Memory::Device(0), OUTER_SHAREABLE)
        } else if bit(self.q.sctlr_el1, 12) {
            (Memory::normal(Cacheability::WriteThrough), OUTER_SHAREABLE)
        } else {
            (Memory::normal(Cacheability::NonCacheable), OUTER_SHAREABLE)
        };
        if memory.is_device() && self.misaligned() {
            return stop(Cause::Alignment);
        }
        Ok(Output { address: bits(self.q.address, 47, 0), attributes: Attributes { memory, shareability }, level: 0 })
    }

    /// "Checks after each walk", for stage 2. An on-walk access is a read, whatever the access that it is made for.
    fn stage2_output(&self, leaf: &Leaf, on_walk: bool) -> Result<Output, Cause> {
        let (hcr, descriptor) = (self.q.hcr_el2, leaf.descriptor);
        let kind = if on_walk { READ } else { self.q.kind };
        let uncached = bit(hcr, if kind == FETCH { 33 } else { 32 });
        let attributes = stage2_memory(descriptor).and_then(|m| leaf_attributes(m, descriptor, uncached)).ok_or(Cause::Unsettled)?;
        let device = attributes.memory.is_device();
        if device && !on_walk && self.misaligned() {
            return Err(Cause::Alignment);
        }
        let permitted = match kind {
            READ => bit(descriptor, 6),
            WRITE => bit(descriptor, 7),
            _ => bit(descriptor, 6) && !bit(descriptor, 54),
        };
        // Document 01's choice: the walk of a fetch may not read Device memory either.
        if !permitted || device && self.fetches() || device && on_walk && bit(hcr, 2) {
            return Err(Cause::Permission);
        }
        Ok(Output { address: leaf.address, attributes, level: leaf.level })
    }

    fn stage2(&mut self, ipa: u64, on_walk: bool) -> Result<Output, Stop> {
        let place = Place { stage: 2, on_walk, ipa };
        let start = Start::stage2(self.q, ipa, self.output).map_err(|cause| Stop { cause, place, level: 0 })?;
        let leaf = self.table_walk(&start, ipa, place)?;
        self.stage2_output(&leaf, on_walk).map_err(|cause| Stop { cause, place, level: leaf.level })
    }

    fn both_stages(&mut self) -> Result<Answer, Stop> {
        let one = if stage1_on(self.q) { self.stage1()? } else { self.stage1_off()? };
        let (address, attributes, level2) = if stage2_on(self.q) {
            let two = self.stage2(one.address, false)?;
            (two.address, combined(one.attributes, two.attributes), two.level)
        } else {
            (one.address, one.attributes, 0)
        };
        Ok(Answer::Translated { address, attributes, level1: one.level, level2, reads: self.reads })
    }
}

/// The answer to one question. The addresses of the descriptors read are left in the log.
pub fn ask(q: &Question, capture: Capture, log: &mut [u64]) -> Answer {
    ask_by(OutputSize::Lowered, q, capture, log)
}

/// The same with output sizes found in this way.
pub fn ask_by(output: OutputSize, q: &Question, capture: Capture, log: &mut [u64]) -> Answer {
    if let Some(refusal) = refusal(q, capture, log.len()) {
        return Answer::Refused(refusal);
    }
    let mut walk = Walk { q, output, capture, log, reads: 0 };
    let end = walk.both_stages();
    end.unwrap_or_else(|stop| Answer::Stopped { stop, reads: walk.reads })
}
