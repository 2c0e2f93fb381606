//! The files of a record. A text is read from a regular file alone, in its folder, and no further than it takes to see that it is too
//! long; one that cannot be read so counts as empty, as the paper has it, and why is told.

use crate::shown::shown_name;
use crate::text::MAX_TEXT;
use std::fmt;
use std::fs::{self, File, FileType, OpenOptions};
use std::io::{self, Read};
use std::os::unix::fs::{FileTypeExt, OpenOptionsExt};
use std::path::{Path, PathBuf};

/// Opening a pipe does not wait for its other end.
const O_NONBLOCK: i32 = 0o4000;

/// Why a text could not be read.
#[derive(Debug)]
pub enum Unread {
    /// There is no such file.
    Missing,
    /// It is a folder, a pipe, a device or a socket.
    Irregular(&'static str),
    /// It is a link out of its folder, to this file.
    LinkOut(PathBuf),
    Failed(io::Error),
}

impl fmt::Display for Unread {
    fn fmt(&self, f: &mut fmt::Formatter<'_>) -> fmt::Result {
        match self {
            Unread::Missing => f.write_str("is missing"),
            Unread::Irregular(kind) => write!(f, "is {kind}, not a regular file"),
            Unread::LinkOut(target) => {
                write!(
                    f,
                    "is a link out of its folder, to {}, which is followed only with --follow",
                    shown_name(target)
                )
            }
            Unread::Failed(error) => write!(f, "cannot be read: {error}"),
        }
    }
}

/// A text's bytes: at most one more than a text may have, and none if it could not be read.
#[derive(Debug, Default)]
pub struct Loaded {
    pub bytes: Vec<u8>,
    pub unread: Option<Unread>,
}

/// Reads the text of that name in a folder. A link is followed within the folder, and out of it only if `follow`.
pub fn load(folder: &Path, name: &str, follow: bool) -> Loaded {
    match read(folder, name, follow) {
        Ok(bytes) => Loaded { bytes, unread: None },
        Err(unread) => Loaded { bytes: Vec::new(), unread: Some(unread) },
    }
}

fn read(folder: &Path, name: &str, follow: bool) -> Result<Vec<u8>, Unread> {
    let path = folder.join(name);
    let mut kind = fs::symlink_metadata(&path).map_err(failed)?.file_type();
    if kind.is_symlink() {
        if !follow {
            stays(&path, folder)?;
        }
        kind = fs::metadata(&path).map_err(failed)?.file_type();
    }
    regular(kind)?;
    let file = OpenOptions::new().read(true).custom_flags(O_NONBLOCK).open(&path).map_err(failed)?;
    // It may have become another file meanwhile.
    let opened = file.metadata().map_err(failed)?;
    regular(opened.file_type())?;
    bounded(file, opened.len()).map_err(failed)
}

/// The link leads to a file in the folder.
fn stays(path: &Path, folder: &Path) -> Result<(), Unread> {
    let target = fs::canonicalize(path).map_err(failed)?;
    if target.starts_with(fs::canonicalize(folder).map_err(failed)?) {
        Ok(())
    } else {
        Err(Unread::LinkOut(target))
    }
}

/// The file's bytes, of which there are about so many.
fn bounded(file: File, about: u64) -> io::Result<Vec<u8>> {
    const MOST: u64 = MAX_TEXT as u64 + 1;
    // With a byte more the end is found in the first room that is made.
    let mut bytes = Vec::with_capacity(about.min(MOST) as usize + 1);
    file.take(MOST).read_to_end(&mut bytes)?;
    Ok(bytes)
}

fn failed(error: io::Error) -> Unread {
    match error.kind() {
        io::ErrorKind::NotFound => Unread::Missing,
        _ => Unread::Failed(error),
    }
}

fn regular(kind: FileType) -> Result<(), Unread> {
    let kinds = [
        (kind.is_dir(), "a folder"),
        (kind.is_fifo(), "a pipe"),
        (kind.is_char_device() || kind.is_block_device(), "a device"),
        (kind.is_socket(), "a socket"),
        (!kind.is_file(), "of another kind"),
    ];
    kinds.iter().find(|(is, _)| *is).map_or(Ok(()), |(_, name)| Err(Unread::Irregular(name)))
}

/// Why a folder cannot be used.
#[derive(Debug)]
pub enum NoFolder {
    Missing(PathBuf),
    Other(PathBuf),
    Failed(PathBuf, io::Error),
}

impl fmt::Display for NoFolder {
    fn fmt(&self, f: &mut fmt::Formatter<'_>) -> fmt::Result {
        match self {
            NoFolder::Missing(path) => write!(f, "no such folder: {}", shown_name(path)),
            NoFolder::Other(path) => write!(f, "{} is no folder", shown_name(path)),
            NoFolder::Failed(path, error) => write!(f, "{} cannot be entered: {error}", shown_name(path)),
        }
    }
}

impl std::error::Error for NoFolder {}

/// The folder is there and can be entered.
pub fn enter(folder: &Path) -> Result<(), NoFolder> {
    let told = |error: io::Error| match error.kind() {
        io::ErrorKind::NotFound => NoFolder::Missing(folder.to_path_buf()),
        _ => NoFolder::Failed(folder.to_path_buf(), error),
    };
    if !fs::metadata(folder).map_err(told)?.is_dir() {
        return Err(NoFolder::Other(folder.to_path_buf()));
    }
    fs::metadata(folder.join(".")).map(drop).map_err(told)
}
