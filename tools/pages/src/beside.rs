//! A file that is written beside and takes its name at the end, whole. Until then nothing of it can be seen, so that an interrupt
//! at any time leaves nothing: what is written goes to a file without a name.

use std::fs::{self, File, OpenOptions};
use std::io::{self, BufWriter, Read, Seek, Write};
use std::path::{Path, PathBuf};
use std::process;
use zorambi::shown_name;

/// What a file is.
#[derive(Clone, Copy, Debug)]
pub struct Kind {
    /// What such a file starts with: one that is there may be written over.
    pub start: &'static str,
    /// What it is called.
    pub what: &'static str,
}

pub struct Beside {
    path: PathBuf,
    kind: Kind,
    written: BufWriter<File>,
}

impl Beside {
    /// A file that shall have this path. If there is one already it has to be such a file, or empty.
    pub fn new(path: &Path, kind: Kind) -> Result<Beside, String> {
        let failed = |error: io::Error| cannot(path, &error);
        let path = match fs::symlink_metadata(path) {
            Ok(file) if file.is_symlink() => fs::canonicalize(path).map_err(failed)?,
            _ => path.to_path_buf(),
        };
        may_be_replaced(&path, kind)?;
        let part = part_of(&path)?;
        let file = create(&part).map_err(failed)?;
        fs::remove_file(&part).map_err(failed)?;
        Ok(Beside { path, kind, written: BufWriter::new(file) })
    }

    pub fn write(&mut self, text: &str) -> Result<(), String> {
        self.written.write_all(text.as_bytes()).map_err(|error| cannot(&self.path, &error))
    }

    /// Gives what was written its name.
    pub fn finish(self) -> Result<(), String> {
        let path = self.path;
        let part = part_of(&path)?;
        let written = self.written.into_inner().map_err(io::IntoInnerError::into_error);
        let copied = written.and_then(|written| copy(written, &part, &path)).map_err(|error| cannot(&path, &error));
        let named = copied
            .and_then(|()| may_be_replaced(&path, self.kind))
            .and_then(|()| fs::rename(&part, &path).map_err(|error| cannot(&path, &error)));
        if named.is_err() {
            let _ = fs::remove_file(&part);
        }
        named
    }
}

fn cannot(path: &Path, error: &io::Error) -> String {
    format!("{} cannot be written: {error}", shown_name(path))
}

/// The name that the file has while it gets its bytes.
fn part_of(path: &Path) -> Result<PathBuf, String> {
    let Some(name) = path.file_name() else {
        return Err(format!("{} is no name of a file", shown_name(path)));
    };
    let mut part = std::ffi::OsString::from(".");
    part.push(name);
    part.push(format!(".{}.part", process::id()));
    Ok(path.with_file_name(part))
}

fn create(part: &Path) -> io::Result<File> {
    OpenOptions::new().read(true).write(true).create_new(true).open(part)
}

fn copy(mut written: File, part: &Path, path: &Path) -> io::Result<()> {
    written.rewind()?;
    let mut file = create(part)?;
    io::copy(&mut written, &mut file)?;
    if let Ok(old) = fs::metadata(path) {
        file.set_permissions(old.permissions())?;
    }
    file.sync_all()
}

/// Writes a file at once: it is there whole, or not at all.
pub fn write(path: &Path, kind: Kind, text: &str) -> Result<(), String> {
    may_be_replaced(path, kind)?;
    let part = part_of(path)?;
    let written = create(&part).and_then(|mut file| file.write_all(text.as_bytes()));
    let named = written.and_then(|()| fs::rename(&part, path)).map_err(|error| cannot(path, &error));
    if named.is_err() {
        let _ = fs::remove_file(&part);
    }
    named
}

/// There is no such file, or one that is empty or of this kind.
fn may_be_replaced(path: &Path, Kind { start, what }: Kind) -> Result<(), String> {
    let shown = shown_name(path);
    match fs::symlink_metadata(path) {
        Err(error) if error.kind() == io::ErrorKind::NotFound => return Ok(()),
        Err(error) => return Err(cannot(path, &error)),
        Ok(file) if !file.is_file() => return Err(format!("{shown} is no regular file: it is not written over")),
        Ok(_) => {}
    }
    let mut bytes = Vec::new();
    let read = File::open(path).and_then(|file| file.take(start.len() as u64).read_to_end(&mut bytes));
    read.map_err(|error| format!("{shown} is there and cannot be read, so that it is not written over: {error}"))?;
    if bytes.is_empty() || bytes == start.as_bytes() {
        Ok(())
    } else {
        Err(format!("{shown} is there and is no {what}: it is not written over"))
    }
}
