//! How a guest accesses memory.
use std::fmt;

#[derive(Clone, Copy, Debug, PartialEq, Eq)]
pub enum Kind {
    Read,
    Write,
    Fetch,
    /// A number that is not listed. The library refuses it.
    Other(u64),
}

impl Kind {
    pub fn number(self) -> u64 {
        match self {
            Kind::Read => 0,
            Kind::Write => 1,
            Kind::Fetch => 2,
            Kind::Other(number) => number,
        }
    }
}

impl From<u64> for Kind {
    fn from(number: u64) -> Kind {
        match number {
            0 => Kind::Read,
            1 => Kind::Write,
            2 => Kind::Fetch,
            other => Kind::Other(other),
        }
    }
}

impl fmt::Display for Kind {
    fn fmt(&self, f: &mut fmt::Formatter) -> fmt::Result {
        match self {
            Kind::Read => f.write_str("read"),
            Kind::Write => f.write_str("write"),
            Kind::Fetch => f.write_str("fetch"),
            Kind::Other(number) => write!(f, "kind {number}"),
        }
    }
}

/// What all addresses of a batch share: the kind, the exception level (0 or 1) and the size in bytes (1, 2, 4, 8 or 16). Others
/// are refused.
#[derive(Clone, Copy, Debug, PartialEq, Eq)]
pub struct Access {
    pub kind: Kind,
    pub el: u64,
    pub size: u64,
}

impl Access {
    pub(crate) fn to(self, address: u64) -> crate::calls::Access {
        crate::calls::Access { address, kind: self.kind.number(), el: self.el, size: self.size }
    }
}

impl fmt::Display for Access {
    fn fmt(&self, f: &mut fmt::Formatter) -> fmt::Result {
        let Access { kind, el, size } = self;
        let plural = if *size == 1 { "" } else { "s" };
        write!(f, "{kind} of {size} byte{plural} at EL{el}")
    }
}
