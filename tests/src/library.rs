//! A build of the library for the benchmark: the one that is linked, or another one from a shared
//! object. Both are called in the same way. For watching the product has no C entry, and that of
//! tests/watch_timing is called.

use crate::comparison::{ensure, Checked};
use crate::product::{PRUNE, STATE};
use std::env;
use std::ffi::{c_char, c_int, c_void, CStr, CString};
use std::mem::transmute;
use std::os::unix::ffi::OsStrExt;
use std::path::PathBuf;

/// The variable of the environment that names a shared object.
const BESIDE: &str = "TULLWETH_BESIDE";

/// The entry `tullweth_prune`.
pub type Prune = unsafe extern "C" fn(
    file: *const u8,
    file_len: usize,
    found: *mut u64,
    found_len: usize,
    links: *mut u16,
    links_len: usize,
    verdicts: *mut u8,
    verdicts_len: usize,
) -> u32;

/// The entry `tullweth_state`.
pub type State = unsafe extern "C" fn(
    file: *const u8,
    file_len: usize,
    run: *const u8,
    run_len: usize,
    rule: u32,
    answer: *mut u64,
    answer_len: usize,
) -> u32;

/// The entry `watch_steps`.
type Watch = unsafe extern "C" fn(
    file: *const u8,
    file_len: usize,
    run: *const u8,
    run_len: usize,
    counts: *mut u32,
    counts_len: usize,
) -> u32;

extern "C" {
    fn watch_steps(
        file: *const u8,
        file_len: usize,
        run: *const u8,
        run_len: usize,
        counts: *mut u32,
        counts_len: usize,
    ) -> u32;

    fn dlopen(path: *const c_char, flags: c_int) -> *mut c_void;
    fn dlsym(object: *mut c_void, name: *const c_char) -> *mut c_void;
    fn dlerror() -> *const c_char;
}

/// How a shared object is loaded: all names are resolved at once, and none is for others to use.
const RTLD_NOW: c_int = 2;
const RTLD_LOCAL: c_int = 0;

/// The entries of one build. A shared object may lack that for watching.
pub struct Library {
    prune: Prune,
    state: State,
    watch: Option<Watch>,
}

impl Library {
    /// The product, which is linked.
    pub fn linked() -> Library {
        Library {
            prune: PRUNE,
            state: STATE,
            watch: Some(watch_steps),
        }
    }

    /// The build in the shared object that the environment names, if it names one.
    pub fn beside() -> Checked<Option<Library>> {
        let Some(named) = env::var_os(BESIDE) else {
            return Ok(None);
        };
        // With all folders before it: a bare name would be looked up elsewhere.
        let path = PathBuf::from(named).canonicalize();
        let path = path.map_err(|reason| format!("{BESIDE}: {reason}"))?;
        let path =
            CString::new(path.as_os_str().as_bytes()).map_err(|reason| reason.to_string())?;
        Library::load(&path).map(Some)
    }

    /// Loads a shared object for good.
    fn load(path: &CStr) -> Checked<Library> {
        // Sound: the path ends in a 0, and loading the library runs nothing of its own.
        let object = unsafe { dlopen(path.as_ptr(), RTLD_NOW | RTLD_LOCAL) };
        ensure(!object.is_null(), || format!("{BESIDE}: {}", last_error()))?;
        let entry = |name| address_of(object, name);
        let needed = |name| entry(name).ok_or_else(|| format!("{BESIDE}: {}", last_error()));
        let (prune, state) = (needed(c"tullweth_prune")?, needed(c"tullweth_state")?);
        let watch = entry(c"watch_steps");
        // Sound where the object was built from this repository: its entries have had these types
        // since there are three.
        unsafe {
            Ok(Library {
                prune: transmute::<*mut c_void, Prune>(prune),
                state: transmute::<*mut c_void, State>(state),
                watch: watch.map(|entry| transmute::<*mut c_void, Watch>(entry)),
            })
        }
    }

    /// Prunes a file with these areas: 0 or the refusal number.
    pub fn prune(
        &self,
        file: &[u8],
        found: &mut [u64],
        links: &mut [u16],
        verdicts: &mut [u8],
    ) -> u32 {
        // Sound: each pointer goes with the length of the slice it comes from, and the entry uses
        // them during the call alone.
        unsafe {
            (self.prune)(
                file.as_ptr(),
                file.len(),
                found.as_mut_ptr(),
                found.len(),
                links.as_mut_ptr(),
                links.len(),
                verdicts.as_mut_ptr(),
                verdicts.len(),
            )
        }
    }

    /// The state of a rule after a run, with this area for the answer: 0 or the refusal number.
    pub fn state(&self, file: &[u8], rule: u32, run: &[u8], answer: &mut [u64]) -> u32 {
        // Sound for the same reason as the call above.
        unsafe {
            (self.state)(
                file.as_ptr(),
                file.len(),
                run.as_ptr(),
                run.len(),
                rule,
                answer.as_mut_ptr(),
                answer.len(),
            )
        }
    }

    /// Begins a watch list, takes each step of a run and writes the counts of relevant steps of the
    /// entries: 0, or 1 where there is no room for all. None without the entry for it.
    pub fn watch(&self, file: &[u8], run: &[u8], counts: &mut [u32]) -> Option<u32> {
        let watch = self.watch?;
        // Sound for the same reason as the calls above.
        let number = unsafe {
            watch(
                file.as_ptr(),
                file.len(),
                run.as_ptr(),
                run.len(),
                counts.as_mut_ptr(),
                counts.len(),
            )
        };
        Some(number)
    }
}

/// Where a loaded object has a name.
fn address_of(object: *mut c_void, name: &CStr) -> Option<*mut c_void> {
    // Sound: the object stays loaded, and the name ends in a 0.
    let address = unsafe { dlsym(object, name.as_ptr()) };
    (!address.is_null()).then_some(address)
}

/// What the last failing call of these says.
fn last_error() -> String {
    // Sound: the text is copied before any other call.
    unsafe {
        let text = dlerror();
        match text.is_null() {
            true => "no reason is said".to_string(),
            false => CStr::from_ptr(text).to_string_lossy().into_owned(),
        }
    }
}
