//! A build of the library as a shared object, loaded while the program runs, so that two builds stand side by side in one program.
use crate::proved::{BatchWords, Capture, Question, Words};
use humpelkaas::calls::Access;
use humpelkaas::{El1, El2};
use std::ffi::{c_void, CStr, CString};
use std::mem::transmute;
use std::os::raw::{c_char, c_int};
use std::os::unix::ffi::OsStrExt;
use std::path::Path;

// As include/humpelkaas.h declares them. tools/earlier refuses a commit that declares them otherwise.
type Translate = unsafe extern "C" fn(*const u8, usize, u64, El2, El1, Access, *mut u64, usize) -> Words;
type CoreTranslate = unsafe extern "C" fn(*const u8, usize, El2, El1, Access, *mut u64, usize) -> Words;
#[rustfmt::skip]
type Batch = unsafe extern "C" fn(
    *const u8, usize, u64, El2, El1, u64, u64, u64, *const u64, usize, *mut u64, usize, *mut u64, usize,
) -> BatchWords;
#[rustfmt::skip]
type CoreBatch = unsafe extern "C" fn(
    *const u8, usize, El2, El1, u64, u64, u64, *const u64, usize, *mut u64, usize, *mut u64, usize,
) -> BatchWords;

#[link(name = "dl")]
extern "C" {
    fn dlopen(path: *const c_char, flags: c_int) -> *mut c_void;
    fn dlsym(object: *mut c_void, name: *const c_char) -> *mut c_void;
    fn dlerror() -> *const c_char;
}

/// All symbols are bound when the object is loaded, and seen by this object alone.
const NOW: c_int = 2;

/// A shared object that stays loaded.
struct Object(*mut c_void);

impl Object {
    fn load(path: &Path) -> Result<Object, String> {
        let name = CString::new(path.as_os_str().as_bytes()).map_err(|e| e.to_string())?;
        let object = unsafe { dlopen(name.as_ptr(), NOW) };
        if object.is_null() {
            return Err(unsafe { CStr::from_ptr(dlerror()) }.to_string_lossy().into_owned());
        }
        Ok(Object(object))
    }

    fn symbol(&self, name: &str) -> Option<*mut c_void> {
        let name = CString::new(name).expect("no name has a NUL");
        let symbol = unsafe { dlsym(self.0, name.as_ptr()) };
        Some(symbol).filter(|symbol| !symbol.is_null())
    }

    fn needed(&self, name: &str) -> Result<*mut c_void, String> {
        self.symbol(name).ok_or_else(|| format!("there is no {name}"))
    }
}

pub struct Library {
    translate: Translate,
    batch: Batch,
    /// Of a build that knows core files.
    core: Option<(CoreTranslate, CoreBatch)>,
}

/// A capture as a call takes it: raw, or by the bytes of a core file.
#[derive(Clone, Copy)]
pub enum Memory<'a> {
    Raw(Capture<'a>),
    Core(&'a [u8]),
}

impl Library {
    pub fn load(path: &Path) -> Result<Library, String> {
        let named = |why| format!("{}: {why}", path.display());
        let object = Object::load(path).map_err(named)?;
        let (translate, batch) = (object.needed("humpelkaas_translate").map_err(named)?, object.needed("humpelkaas_batch").map_err(named)?);
        let core = object.symbol("humpelkaas_core_translate").zip(object.symbol("humpelkaas_core_batch"));
        // Sound where the object has these calls as they are declared above.
        unsafe {
            Ok(Library {
                translate: transmute::<*mut c_void, Translate>(translate),
                batch: transmute::<*mut c_void, Batch>(batch),
                core: core.map(|(ask, run)| (transmute::<*mut c_void, CoreTranslate>(ask), transmute::<*mut c_void, CoreBatch>(run))),
            })
        }
    }

    pub fn knows_core_files(&self) -> bool {
        self.core.is_some()
    }

    #[inline]
    pub fn ask(&self, q: &Question, memory: Memory, address: u64, log: &mut [u64]) -> Words {
        let (el2, el1, access) = (q.el2(), q.el1(), q.access(address));
        let (at, words) = (log.as_mut_ptr(), log.len());
        match (memory, self.core) {
            (Memory::Raw(Capture { base, bytes }), _) => unsafe {
                (self.translate)(bytes.as_ptr(), bytes.len(), base, el2, el1, access, at, words)
            },
            (Memory::Core(file), Some((ask, _))) => unsafe { ask(file.as_ptr(), file.len(), el2, el1, access, at, words) },
            (Memory::Core(_), None) => panic!("this build does not know core files"),
        }
    }

    #[inline]
    pub fn batch(&self, q: &Question, memory: Memory, addresses: &[u64], outputs: &mut [u64], numbers: &mut [u64]) -> BatchWords {
        let (el2, el1, Access { kind, el, size, .. }) = (q.el2(), q.el1(), q.access(0));
        let (asked, many) = (addresses.as_ptr(), addresses.len());
        let (placed, outs, numbered, nums) = (outputs.as_mut_ptr(), outputs.len(), numbers.as_mut_ptr(), numbers.len());
        match (memory, self.core) {
            (Memory::Raw(Capture { base, bytes }), _) => unsafe {
                (self.batch)(bytes.as_ptr(), bytes.len(), base, el2, el1, kind, el, size, asked, many, placed, outs, numbered, nums)
            },
            (Memory::Core(file), Some((_, run))) => unsafe {
                run(file.as_ptr(), file.len(), el2, el1, kind, el, size, asked, many, placed, outs, numbered, nums)
            },
            (Memory::Core(_), None) => panic!("this build does not know core files"),
        }
    }
}
