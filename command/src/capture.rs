//! The capture, raw or a core file.
use crate::arguments::Memory;
use crate::short;
use crate::trouble::Trouble;
use crate::whole::Whole;
use humpelkaas::{banks, Bank, Capture};

/// The first bytes of a core file.
const MAGIC: &[u8] = b"\x7fELF";

/// The bytes begin like a core file. Whether they are one that can be read, the library says.
pub fn is_core(bytes: &[u8]) -> bool {
    bytes.starts_with(MAGIC)
}

/// Where the file's bytes lie in physical memory.
enum Form {
    /// In a row from this address on.
    Raw { base: u64 },
    /// In these banks. A file whose headers are refused has none.
    Core { banks: Vec<Bank> },
}

impl Form {
    /// What the arguments and the first bytes make of a file.
    fn of(memory: &Memory, bytes: &[u8]) -> Result<Form, Trouble> {
        let path = memory.capture.display();
        match (is_core(bytes) && !memory.raw, memory.base) {
            (false, Some(base)) => Ok(Form::Raw { base }),
            (true, None) => Ok(Form::Core { banks: banks(bytes).unwrap_or_default() }),
            (false, None) => Err(Trouble::Usage(format!(
                "{path} does not begin like a core file: if it is raw bytes of memory, give the physical address of the first with --base"
            ))),
            (true, Some(_)) => Err(Trouble::Usage(format!(
                "{path} is a core file, whose headers say where its bytes lie: leave out --base, or give --raw too if it is raw bytes of memory"
            ))),
        }
    }
}

/// A capture in memory.
pub struct CaptureFile {
    file: Whole,
    form: Form,
}

impl CaptureFile {
    /// Reads a capture, and says on the error stream if it is a core file that was cut.
    pub fn read(memory: &Memory) -> Result<CaptureFile, Trouble> {
        let file = Whole::read(&memory.capture)?;
        let form = Form::of(memory, &file.bytes)?;
        let capture = CaptureFile { file, form };
        short::warn(capture.banks());
        Ok(capture)
    }

    /// Refuses a capture that is not what was read.
    pub fn unchanged(&self) -> Result<(), Trouble> {
        self.file.unchanged()
    }

    pub fn capture(&self) -> Capture<'_> {
        match self.form {
            Form::Raw { base } => Capture::Raw { base, bytes: &self.file.bytes },
            Form::Core { .. } => Capture::Core { file: &self.file.bytes },
        }
    }

    /// The banks of a core file. A raw capture has none.
    pub fn banks(&self) -> &[Bank] {
        match &self.form {
            Form::Raw { .. } => &[],
            Form::Core { banks } => banks,
        }
    }

    /// The descriptor at a physical address, if all of it is here, in a core file in one bank.
    pub fn descriptor(&self, address: u64) -> Option<u64> {
        let bytes = &self.file.bytes;
        match &self.form {
            Form::Raw { base } => word(bytes, *base, address),
            Form::Core { banks } => in_one_bank(bytes, banks, address),
        }
    }
}

/// What a file has of a bank.
fn kept<'a>(file: &'a [u8], bank: &Bank) -> &'a [u8] {
    let end = bank.offset.saturating_add(bank.length);
    file.get(bank.offset as usize..end as usize).unwrap_or_default()
}

/// The word at an address, if one bank has all of it.
fn in_one_bank(file: &[u8], banks: &[Bank], address: u64) -> Option<u64> {
    banks.iter().find_map(|bank| word(kept(file, bank), bank.address, address))
}

/// The word at an address, if bytes from a base on have all of it.
fn word(bytes: &[u8], base: u64, address: u64) -> Option<u64> {
    let from = usize::try_from(address.checked_sub(base)?).ok()?;
    let word = bytes.get(from..from.checked_add(8)?)?;
    Some(u64::from_le_bytes(word.try_into().ok()?))
}

#[cfg(test)]
mod tests {
    use super::{in_one_bank, is_core, Bank};

    /// Two banks that touch, an empty one, one that is short, and one of which the file has nothing.
    const BANKS: [Bank; 5] = [
        Bank { address: 0x100, offset: 8, length: 12, short: false },
        Bank { address: 0x10c, offset: 24, length: 8, short: false },
        Bank { address: 0x114, offset: 20, length: 0, short: false },
        Bank { address: 0x200, offset: 32, length: 9, short: true },
        Bank { address: 0x300, offset: u64::MAX, length: 0, short: true },
    ];

    /// The word whose first byte is this, if each byte of a file is its place.
    fn from(place: u64) -> Option<u64> {
        Some((0..8).fold(0, |word, byte| word | (place + byte) << (8 * byte)))
    }

    #[test]
    fn words_in_one_bank() {
        let file: Vec<u8> = (0..41).collect();
        for (address, place) in [(0x100, 8), (0x101, 9), (0x104, 12), (0x10c, 24), (0x200, 32), (0x201, 33)] {
            assert_eq!(in_one_bank(&file, &BANKS, address), from(place), "{address:#x}");
        }
    }

    #[test]
    fn words_in_no_bank() {
        let file: Vec<u8> = (0..41).collect();
        let across = 0x105..=0x10b;
        for address in across.chain([0, 0xff, 0x10d, 0x114, 0x1ff, 0x202, 0x208, 0x209, 0x300, u64::MAX]) {
            assert_eq!(in_one_bank(&file, &BANKS, address), None, "{address:#x}");
        }
    }

    #[test]
    fn first_bytes() {
        assert!(is_core(b"\x7fELF"));
        for bytes in [&b""[..], b"\x7fEL", b"ELF", b"\x7eELF", b"\x7feLF", b"\x7fElF", b"\x7fELf"] {
            assert!(!is_core(bytes), "{bytes:?}");
        }
    }
}
