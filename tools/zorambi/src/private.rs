//! What is removed again: a private folder for as long as a program runs in it, and files that are not yet whole, also where a
//! signal ends this program. A solver that runs is then ended too.

use crate::end::Stop;
use std::ffi::{c_char, c_int, CString};
use std::fs::{self, DirBuilder, File};
use std::hash::{BuildHasher, RandomState};
use std::io::{self, Write};
use std::os::unix::ffi::OsStrExt;
use std::os::unix::fs::DirBuilderExt;
use std::path::{Path, PathBuf};
use std::ptr;
use std::sync::atomic::{AtomicI32, AtomicPtr, Ordering};
use std::sync::Once;
use zorambi::shown_name;

extern "C" {
    fn signal(number: c_int, handler: usize) -> usize;
    fn raise(number: c_int) -> c_int;
    fn kill(process: c_int, number: c_int) -> c_int;
    fn unlink(path: *const c_char) -> c_int;
    fn rmdir(path: *const c_char) -> c_int;
}

/// Hangup, interrupt, quit, termination.
const SIGNALS: [c_int; 4] = [1, 2, 3, 15];
const KILL: c_int = 9;
const DEFAULT: usize = 0;
const IGNORED: usize = 1;

/// Files, then a folder, that go when a signal comes. At most one list is held at a time; it is never freed, so that the handler can
/// read it at any moment.
static HELD: AtomicPtr<Held> = AtomicPtr::new(ptr::null_mut());

/// The process group that is ended when a signal comes; 0 if there is none.
static RUNNING: AtomicI32 = AtomicI32::new(0);

struct Held {
    files: Vec<CString>,
    folder: Option<CString>,
}

/// Only calls that a handler may make.
extern "C" fn on_signal(number: c_int) {
    let held = HELD.load(Ordering::SeqCst);
    // SAFETY: the pointer is null or one of `hold`, which are never freed; the strings end with 0.
    unsafe {
        let group = RUNNING.load(Ordering::SeqCst);
        if group > 0 {
            kill(-group, KILL);
        }
        if let Some(held) = held.as_ref() {
            for file in &held.files {
                unlink(file.as_ptr());
            }
            if let Some(folder) = &held.folder {
                rmdir(folder.as_ptr());
            }
        }
        signal(number, DEFAULT);
        raise(number);
    }
}

/// These files and this folder are removed by a signal, until `let_go`.
pub fn hold(files: &[PathBuf], folder: Option<&Path>) {
    static HANDLED: Once = Once::new();
    HANDLED.call_once(|| {
        for number in SIGNALS {
            // SAFETY: the handler makes only calls that it may make.
            unsafe {
                if signal(number, on_signal as *const () as usize) == IGNORED {
                    signal(number, IGNORED);
                }
            }
        }
    });
    // A name with a byte 0 in it is no name of a file.
    let name = |path: &Path| CString::new(path.as_os_str().as_bytes()).unwrap_or_default();
    let held = Held { files: files.iter().map(|file| name(file)).collect(), folder: folder.map(name) };
    HELD.store(Box::into_raw(Box::new(held)), Ordering::SeqCst);
}

/// Nothing is removed by a signal any more.
pub fn let_go() {
    HELD.store(ptr::null_mut(), Ordering::SeqCst);
}

/// This process group is ended by a signal from now on, or none is.
pub fn ends(group: Option<u32>) {
    RUNNING.store(group.and_then(|group| group.try_into().ok()).unwrap_or(0), Ordering::SeqCst);
}

/// A folder of our own that nobody else can look into.
pub struct Private {
    pub folder: PathBuf,
    files: Vec<PathBuf>,
}

impl Private {
    /// Makes it, with these files in it.
    pub fn with(files: &[(&str, &[u8])]) -> Result<Private, Stop> {
        Private::make(files).map_err(|error| {
            let folder = shown_name(std::env::temp_dir());
            Stop::Wrong(format!("no private folder for the texts in {folder}: {error}; TMPDIR may name another"))
        })
    }

    fn make(files: &[(&str, &[u8])]) -> io::Result<Private> {
        let number = RandomState::new().hash_one(std::process::id());
        let folder = std::env::temp_dir().join(format!("zorambi-{number:016x}"));
        let paths: Vec<PathBuf> = files.iter().map(|(name, _)| folder.join(name)).collect();
        DirBuilder::new().mode(0o700).create(&folder)?;
        hold(&paths, Some(&folder));
        let private = Private { folder, files: paths };
        for (path, (_, bytes)) in private.files.iter().zip(files) {
            File::create_new(path)?.write_all(bytes)?;
        }
        Ok(private)
    }
}

impl Drop for Private {
    fn drop(&mut self) {
        for file in &self.files {
            let _ = fs::remove_file(file);
        }
        let _ = fs::remove_dir(&self.folder);
        let_go();
    }
}
