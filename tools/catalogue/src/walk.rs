//! What is below a folder: record folders, which have a schema's or a proof's text, folders that cannot be listed, and links to
//! folders.

use crate::judge::{OLDER, PROOF, SCHEMA};
use crate::names::{below, cell};
use crate::table::Sort;
use std::collections::{BTreeMap, HashMap};
use std::fs;
use std::io;
use std::os::unix::fs::MetadataExt;
use std::path::{Path, PathBuf};

/// A folder or a link below the folder that was walked.
pub struct Item {
    /// Its path below that folder, as the table writes it; `.` for the folder itself.
    pub name: String,
    pub path: PathBuf,
    pub what: What,
}

pub enum What {
    /// A record, marked as older or not.
    Record { older: bool },
    /// A folder that cannot be listed, or a link to a folder, and why it is not looked into.
    Other(Sort, String),
}

/// Everything from `folder` down, in the order of the names. A link to a folder is followed if `follow` says so and nothing else
/// leads to that folder. `found` is told how many there are so far.
pub fn walk(folder: &Path, follow: bool, found: &mut dyn FnMut(usize)) -> io::Result<Vec<Item>> {
    fs::read_dir(folder)?;
    let mut walk = Walk::default();
    walk.down(Place { name: String::new(), path: folder.to_path_buf() }, found);
    // Folders come before links, so that each keeps its own name; of links the first by name.
    while let Some((_, link)) = walk.links.pop_first() {
        if !follow {
            walk.add(
                link,
                What::Other(Sort::Link, "a link to a folder, which is followed only with --follow".to_string()),
            );
        } else if let Some(name) = walk.seen_as(&link.path) {
            walk.add(link, What::Other(Sort::Elsewhere, format!("a link to a folder that is listed as {name}")));
        } else {
            walk.down(link, found);
        }
    }
    walk.items.sort_by(|one, other| order(&one.name).cmp(order(&other.name)));
    Ok(walk.items)
}

/// Names are ordered folder by folder, the folder itself first.
pub fn order(name: &str) -> impl Iterator<Item = &str> {
    (if name == "." { "" } else { name }).split('/')
}

/// A name below the folder, empty for the folder itself.
struct Place {
    name: String,
    path: PathBuf,
}

#[derive(Default)]
struct Walk {
    items: Vec<Item>,
    links: BTreeMap<String, Place>,
    /// Device and number of each folder, and what it is listed as.
    seen: HashMap<(u64, u64), String>,
}

impl Walk {
    fn down(&mut self, start: Place, found: &mut dyn FnMut(usize)) {
        let mut waiting = vec![start];
        while let Some(place) = waiting.pop() {
            found(self.items.len());
            if let Ok(folder) = fs::metadata(&place.path) {
                self.seen.insert((folder.dev(), folder.ino()), place.name.clone());
            }
            match self.list(&place, &mut waiting) {
                Ok(Some(older)) => self.add(place, What::Record { older }),
                Ok(None) => {}
                Err(error) => {
                    self.add(place, What::Other(Sort::Unlisted, format!("a folder that cannot be listed: {error}")))
                }
            }
        }
    }

    /// Lists a folder: its folders wait, its links are noted. If it is a record: whether it is marked as older.
    fn list(&mut self, place: &Place, waiting: &mut Vec<Place>) -> io::Result<Option<bool>> {
        let (mut has_text, mut older) = (false, false);
        for entry in fs::read_dir(&place.path)? {
            let entry = entry?;
            let (file_name, path, sort) = (entry.file_name(), entry.path(), entry.file_type()?);
            has_text |= file_name == SCHEMA || file_name == PROOF;
            older |= file_name == OLDER && path.is_file();
            let inner = || Place { name: below(&place.name, &file_name), path: path.clone() };
            if sort.is_dir() {
                waiting.push(inner());
            } else if sort.is_symlink() && path.is_dir() {
                let link = inner();
                self.links.insert(link.name.clone(), link);
            }
        }
        Ok(has_text.then_some(older))
    }

    fn seen_as(&self, link: &Path) -> Option<String> {
        let folder = fs::metadata(link).ok()?;
        let name = self.seen.get(&(folder.dev(), folder.ino()))?;
        Some(if name.is_empty() { ".".to_string() } else { name.clone() })
    }

    fn add(&mut self, place: Place, what: What) {
        let name = if place.name.is_empty() { ".".to_string() } else { cell(&place.name) };
        self.items.push(Item { name, path: place.path, what });
    }
}
