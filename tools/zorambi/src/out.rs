//! A folder that texts are written into: one that is made, or that is there and empty. Nothing is written over, and nothing is left
//! behind where it does not come to all texts.

use crate::end::{Ended, Stop};
use crate::private::{hold, let_go};
use std::ffi::OsString;
use std::fs::{self, File};
use std::io::{self, Write};
use std::path::{Path, PathBuf};
use zorambi::shown_name;

pub struct Out {
    folder: PathBuf,
    is_there: bool,
}

fn told(path: &Path, why: impl std::fmt::Display) -> Stop {
    Stop::Wrong(format!("{}: {why}", shown_name(path)))
}

impl Out {
    /// The folder of that name, which is looked at before anything is read.
    pub fn named(name: &OsString) -> Result<Out, Stop> {
        let folder = PathBuf::from(name);
        match fs::symlink_metadata(&folder) {
            Err(error) if error.kind() == io::ErrorKind::NotFound => Ok(Out { folder, is_there: false }),
            Err(error) => Err(told(&folder, error)),
            Ok(_) => match fs::read_dir(&folder).map(|mut entries| entries.next().is_none()) {
                Ok(true) => Ok(Out { folder, is_there: true }),
                Ok(false) => Err(told(&folder, "the folder is not empty")),
                Err(error) => Err(told(&folder, error)),
            },
        }
    }

    /// Writes the texts into it. Where one cannot be written, what was made is taken away again, by a signal too.
    pub fn write(&self, texts: &[(&str, Vec<u8>)]) -> Result<Ended, Stop> {
        let folder = &self.folder;
        if !self.is_there {
            fs::create_dir(folder).map_err(|error| told(folder, error))?;
        }
        let mut made: Vec<PathBuf> = Vec::new();
        let made_folder = (!self.is_there).then_some(folder.as_path());
        let mut write = || {
            for (name, text) in texts {
                let path = folder.join(name);
                let mut file = File::create_new(&path).map_err(|error| told(&path, error))?;
                made.push(path.clone());
                hold(&made, made_folder);
                file.write_all(text).map_err(|error| told(&path, error))?;
            }
            Ok(Ended::default())
        };
        hold(&[], made_folder);
        let written = write();
        let_go();
        if written.is_err() {
            made.iter().for_each(|path| drop(fs::remove_file(path)));
            made_folder.into_iter().for_each(|folder| drop(fs::remove_dir(folder)));
        }
        written
    }
}

/// Writes a new file. What cannot be written whole is taken away again.
pub fn write_new(path: &Path, text: &[u8]) -> io::Result<()> {
    let mut file = File::create_new(path)?;
    hold(&[path.to_path_buf()], None);
    let written = file.write_all(text);
    let_go();
    if written.is_err() {
        fs::remove_file(path)?;
    }
    written
}

#[cfg(test)]
mod tests {
    use super::Out;
    use crate::end::Stop;
    use std::fs;

    #[test]
    fn what_was_made_is_taken_away_again() {
        let folder = std::env::temp_dir().join(format!("zorambi-out-{}", std::process::id()));
        let _ = fs::remove_dir_all(&folder);
        let out = |is_there| Out { folder: folder.clone(), is_there };
        // The second text's name is in a folder that is not there.
        let texts = ["schema.txt", "none/proof.txt"].map(|name| (name, b"x".to_vec()));
        assert!(matches!(out(false).write(&texts), Err(Stop::Wrong(_))));
        assert!(!folder.exists());
        fs::create_dir(&folder).unwrap();
        assert!(matches!(out(true).write(&texts), Err(Stop::Wrong(_))));
        assert_eq!(fs::read_dir(&folder).unwrap().count(), 0);
        // A file that came meanwhile stays as it is.
        fs::write(folder.join("schema.txt"), "another's").unwrap();
        assert!(matches!(out(true).write(&texts), Err(Stop::Wrong(_))));
        assert_eq!(fs::read(folder.join("schema.txt")).unwrap(), b"another's");
        fs::remove_dir_all(&folder).unwrap();
    }
}
