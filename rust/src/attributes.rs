//! Memory types and shareability.
use crate::unknown;
use std::fmt;

/// Device memory, by what it may do: Gathering, Reordering, Early write acknowledgement.
#[derive(Clone, Copy, Debug, PartialEq, Eq)]
pub enum Device {
    NGnRnE,
    NGnRE,
    NGRE,
    GRE,
}

#[derive(Clone, Copy, Debug, PartialEq, Eq)]
pub enum Cacheability {
    NonCacheable,
    WriteThrough,
    WriteBack,
}

#[derive(Clone, Copy, Debug, PartialEq, Eq)]
pub enum Memory {
    Device(Device),
    Normal { outer: Cacheability, inner: Cacheability },
}

#[derive(Clone, Copy, Debug, PartialEq, Eq)]
pub enum Shareability {
    NonShareable,
    OuterShareable,
    InnerShareable,
}

#[derive(Clone, Copy, Debug, PartialEq, Eq)]
pub struct Attributes {
    pub memory: Memory,
    pub shareability: Shareability,
}

impl Cacheability {
    fn of(code: u64) -> Cacheability {
        match code {
            0 => Cacheability::NonCacheable,
            1 => Cacheability::WriteThrough,
            2 => Cacheability::WriteBack,
            _ => unknown("cacheability", code),
        }
    }
}

impl Memory {
    fn of(code: u64) -> Memory {
        match code {
            0 => Memory::Device(Device::NGnRnE),
            1 => Memory::Device(Device::NGnRE),
            2 => Memory::Device(Device::NGRE),
            3 => Memory::Device(Device::GRE),
            16..=31 => Memory::Normal { outer: Cacheability::of((code - 16) / 4), inner: Cacheability::of(code % 4) },
            _ => unknown("memory type", code),
        }
    }
}

impl Shareability {
    fn of(code: u64) -> Shareability {
        match code {
            0 => Shareability::NonShareable,
            2 => Shareability::OuterShareable,
            3 => Shareability::InnerShareable,
            _ => unknown("shareability", code),
        }
    }
}

impl Attributes {
    pub(crate) fn of(memory: u64, shareability: u64) -> Attributes {
        Attributes { memory: Memory::of(memory), shareability: Shareability::of(shareability) }
    }
}

impl fmt::Display for Device {
    fn fmt(&self, f: &mut fmt::Formatter) -> fmt::Result {
        f.write_str(match self {
            Device::NGnRnE => "nGnRnE",
            Device::NGnRE => "nGnRE",
            Device::NGRE => "nGRE",
            Device::GRE => "GRE",
        })
    }
}

impl fmt::Display for Cacheability {
    fn fmt(&self, f: &mut fmt::Formatter) -> fmt::Result {
        f.write_str(match self {
            Cacheability::NonCacheable => "Non-cacheable",
            Cacheability::WriteThrough => "Write-Through",
            Cacheability::WriteBack => "Write-Back",
        })
    }
}

impl fmt::Display for Memory {
    fn fmt(&self, f: &mut fmt::Formatter) -> fmt::Result {
        match self {
            Memory::Device(device) => write!(f, "Device {device}"),
            Memory::Normal { outer, inner } if outer == inner => write!(f, "Normal {outer}"),
            Memory::Normal { outer, inner } => write!(f, "Normal outer {outer} inner {inner}"),
        }
    }
}

impl fmt::Display for Shareability {
    fn fmt(&self, f: &mut fmt::Formatter) -> fmt::Result {
        f.write_str(match self {
            Shareability::NonShareable => "non-shareable",
            Shareability::OuterShareable => "outer shareable",
            Shareability::InnerShareable => "inner shareable",
        })
    }
}

impl fmt::Display for Attributes {
    fn fmt(&self, f: &mut fmt::Formatter) -> fmt::Result {
        write!(f, "{}, {}", self.memory, self.shareability)
    }
}
