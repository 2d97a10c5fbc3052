//! A straightforward table walk in Rust, by the rules of document 01, over any granule: what the proved walk is measured against.
//! Slices are safe, each stage is one loop over its levels. The batch and the question share it.
use crate::attributes::{reserved_shareability, MAIR, NORMAL, UNSETTLED};
use crate::decode::{bit, second, First, Flat, Root, Stage1, Stage2};
use crate::memory::Memory;
use crate::proved::Question;

/// Words of a log, as many as one address may need.
pub const LOG: usize = 24;

/// Why there is no output address, by its answer's number.
// As wide as the addresses in whose place it stands, so that such a place is stored and loaded whole.
#[derive(Clone, Copy, PartialEq, Eq)]
#[repr(u64)]
pub enum Cause {
    Translation = 1,
    AddressSize = 2,
    AccessFlag = 3,
    Permission = 4,
    Alignment = 5,
    NotCaptured = 6,
    Unsettled = 7,
}

/// What a walk is of.
#[derive(Clone, Copy, PartialEq, Eq)]
pub enum Place {
    Stage1,
    Stage2,
    /// Stage 2, for a descriptor of stage 1.
    OnWalk,
}

/// What is noted of a walk beside its output and its log. What happens before any read is at level 0.
pub trait Notes {
    /// A walk came to this leaf.
    fn leaf(&mut self, place: Place, descriptor: u64, level: u64);
    /// A walk stopped. It is told where the descriptor should lie that is not in the capture, else stage 2's IPA, else 0.
    fn stop(&mut self, place: Place, level: u64, at: u64);
}

/// No notes, and no cost: the walk is compiled without them.
impl Notes for () {
    fn leaf(&mut self, _: Place, _: u64, _: u64) {}
    fn stop(&mut self, _: Place, _: u64, _: u64) {}
}

#[derive(Clone, Copy, PartialEq, Eq)]
enum Kind {
    Read,
    Write,
    Fetch,
}

/// What a descriptor says to the walk that read it.
enum Step {
    Table(u64),
    Leaf,
}

/// The log, how much of it is filled, and the notes.
pub struct Trail<'a, N> {
    pub log: &'a mut [u64; LOG],
    pub count: usize,
    pub notes: N,
}

/// Memory with decoded registers, but for stage 1's: of those an address needs one half alone.
pub struct Walker<M> {
    memory: M,
    second: Option<Stage2>,
    kind: Kind,
    el0: bool,
    size: u64,
}

/// Bits 47 to 0.
const ADDRESS: u64 = (1 << 48) - 1;

/// The tests of a descriptor, in their order.
fn step(descriptor: u64, shift: u32, root: &Root) -> Result<Step, Cause> {
    let address = descriptor & ADDRESS;
    match descriptor & 3 {
        3 if shift > root.page => {
            return if address >= root.limit { Err(Cause::AddressSize) } else { Ok(Step::Table(address & root.tables)) };
        }
        3 => {}
        1 if shift == root.block => {
            if root.contiguous_open && bit(descriptor, 52) {
                return Err(Cause::Unsettled);
            }
        }
        1 if shift == root.page + root.stride => {}
        _ => return Err(Cause::Translation),
    }
    if address >= root.limit {
        return Err(Cause::AddressSize);
    }
    if !bit(descriptor, 10) {
        return Err(Cause::AccessFlag);
    }
    Ok(Step::Leaf)
}

/// A leaf's address above its size, the input's below.
pub fn output(descriptor: u64, shift: u32, input: u64) -> u64 {
    let low = (1 << shift) - 1;
    descriptor & ADDRESS & !low | input & low
}

impl<N: Notes> Trail<'_, N> {
    /// The cause, of which a note is made.
    fn stop(&mut self, cause: Cause, place: Place, level: u64, at: u64) -> Cause {
        self.notes.stop(place, level, at);
        cause
    }
}

impl<M: Memory> Walker<M> {
    /// For accepted settings, kinds, ELs and sizes.
    pub fn new(q: &Question, memory: M) -> Walker<M> {
        let kind = match q.kind {
            0 => Kind::Read,
            1 => Kind::Write,
            _ => Kind::Fetch,
        };
        Walker { memory, second: second(q), kind, el0: q.el == 0, size: q.size }
    }

    /// Where an address leads, by stage 1 of its half and stage 2.
    pub fn access(&self, first: &First, address: u64, trail: &mut Trail<impl Notes>) -> Result<u64, Cause> {
        let ipa = match first {
            First::On(stage1) => self.stage1(stage1, address, trail)?,
            First::Off(flat) => self.stage1_off(flat, address, trail)?,
        };
        match &self.second {
            Some(stage2) => self.stage2(stage2, address, ipa, Place::Stage2, trail),
            None => Ok(ipa),
        }
    }

    /// A descriptor, if all its bytes are in the capture.
    fn read(&self, at: u64, trail: &mut Trail<impl Notes>) -> Option<u64> {
        let eight = self.memory.eight(at)?;
        trail.log[trail.count] = at;
        trail.count += 1;
        // Cannot fail, and costs nothing: there are eight bytes.
        Some(u64::from_le_bytes(eight.try_into().ok()?))
    }

    fn misaligned(&self, address: u64) -> bool {
        self.kind != Kind::Fetch && address & (self.size - 1) != 0
    }

    fn stage1(&self, stage1: &Stage1, address: u64, trail: &mut Trail<impl Notes>) -> Result<u64, Cause> {
        let place = Place::Stage1;
        if address & stage1.tested != stage1.wanted {
            return Err(trail.stop(Cause::Translation, place, 0, 0));
        }
        let root = stage1.root.as_ref().map_err(|cause| trail.stop(*cause, place, 0, 0))?;
        let mut shift = root.shift;
        let mut at = root.table + 8 * (address >> shift & root.index);
        let mut tables = 0;
        loop {
            if let Some(stage2) = &self.second {
                at = self.stage2(stage2, address, at, Place::OnWalk, trail)?;
            }
            let descriptor = self.read(at, trail).ok_or_else(|| trail.stop(Cause::NotCaptured, place, root.level(shift), at))?;
            match step(descriptor, shift, root).map_err(|cause| trail.stop(cause, place, root.level(shift), 0))? {
                Step::Table(table) => {
                    tables |= descriptor;
                    shift -= root.stride;
                    at = table + 8 * (address >> shift & root.lower_index);
                }
                Step::Leaf => {
                    self.check1(stage1, address, descriptor, tables).map_err(|cause| trail.stop(cause, place, root.level(shift), 0))?;
                    trail.notes.leaf(place, descriptor, root.level(shift));
                    return Ok(output(descriptor, shift, address));
                }
            }
        }
    }

    /// Stage 1's attributes, alignment, permission, in that order.
    // Inlined, as it was while the batch alone called it.
    #[inline]
    fn check1(&self, stage1: &Stage1, address: u64, descriptor: u64, tables: u64) -> Result<(), Cause> {
        let memory = MAIR[stage1.mair[(descriptor >> 2 & 7) as usize] as usize];
        if memory >= NORMAL {
            if memory == UNSETTLED || reserved_shareability(descriptor) {
                return Err(Cause::Unsettled);
            }
        } else {
            if self.misaligned(address) {
                return Err(Cause::Alignment);
            }
            if self.kind == Kind::Fetch {
                return Err(Cause::Permission);
            }
        }
        if self.permits1(stage1, descriptor, tables) {
            Ok(())
        } else {
            Err(Cause::Permission)
        }
    }

    /// Table descriptors, or-ed together, take away what they deny.
    fn permits1(&self, stage1: &Stage1, descriptor: u64, tables: u64) -> bool {
        let el0_may = bit(descriptor, 6) && !bit(tables, 61);
        let writable = !bit(descriptor, 7) && !bit(tables, 62);
        let wxn = stage1.write_implies_xn;
        match (self.kind, self.el0) {
            (Kind::Read, true) => el0_may,
            (Kind::Read, false) => true,
            (Kind::Write, true) => el0_may && writable,
            (Kind::Write, false) => writable,
            (Kind::Fetch, true) => !(bit(descriptor, 54) || bit(tables, 60) || wxn && el0_may && writable),
            (Kind::Fetch, false) => !(bit(descriptor, 53) || bit(tables, 59) || wxn && writable || el0_may && writable),
        }
    }

    fn stage1_off(&self, flat: &Flat, address: u64, trail: &mut Trail<impl Notes>) -> Result<u64, Cause> {
        if address & flat.zeros != 0 {
            return Err(trail.stop(Cause::AddressSize, Place::Stage1, 0, 0));
        }
        if flat.device && self.misaligned(address) {
            return Err(trail.stop(Cause::Alignment, Place::Stage1, 0, 0));
        }
        Ok(address & ADDRESS)
    }

    fn stage2(&self, stage2: &Stage2, address: u64, ipa: u64, place: Place, trail: &mut Trail<impl Notes>) -> Result<u64, Cause> {
        if ipa >= stage2.inputs {
            return Err(trail.stop(Cause::Translation, place, 0, ipa));
        }
        let root = stage2.root.as_ref().map_err(|cause| trail.stop(*cause, place, 0, ipa))?;
        let mut shift = root.shift;
        let mut at = root.table + 8 * (ipa >> shift);
        loop {
            let descriptor = self.read(at, trail).ok_or_else(|| trail.stop(Cause::NotCaptured, place, root.level(shift), at))?;
            match step(descriptor, shift, root).map_err(|cause| trail.stop(cause, place, root.level(shift), ipa))? {
                Step::Table(table) => {
                    shift -= root.stride;
                    at = table + 8 * (ipa >> shift & root.lower_index);
                }
                Step::Leaf => {
                    let on_walk = place == Place::OnWalk;
                    self.check2(stage2, address, descriptor, on_walk).map_err(|cause| trail.stop(cause, place, root.level(shift), ipa))?;
                    trail.notes.leaf(place, descriptor, root.level(shift));
                    return Ok(output(descriptor, shift, ipa));
                }
            }
        }
    }

    /// Stage 2's attributes, alignment, permission, in that order. On a stage 1 walk the access is a read, and never misaligned.
    fn check2(&self, stage2: &Stage2, address: u64, descriptor: u64, on_walk: bool) -> Result<(), Cause> {
        if descriptor >> 4 & 3 == 0 {
            if !on_walk && self.misaligned(address) {
                return Err(Cause::Alignment);
            }
            if self.kind == Kind::Fetch || on_walk && stage2.protected_walk {
                return Err(Cause::Permission);
            }
        } else if descriptor >> 2 & 3 == 0 || reserved_shareability(descriptor) {
            return Err(Cause::Unsettled);
        }
        let permitted = match if on_walk { Kind::Read } else { self.kind } {
            Kind::Read => bit(descriptor, 6),
            Kind::Write => bit(descriptor, 7),
            Kind::Fetch => bit(descriptor, 6) && !bit(descriptor, 54),
        };
        if permitted {
            Ok(())
        } else {
            Err(Cause::Permission)
        }
    }
}
