//! `page DIR FILE.html FILE.svg`: a record's page and drawing, as `zorambi show DIR --html FILE --svg FILE` writes them.

use std::path::Path;
use zorambi_pages::{html, svg, Picture, Subject};

fn main() {
    let words: Vec<String> = std::env::args().skip(1).collect();
    let subject = Subject::of_folder(Path::new(&words[0]), false, false);
    let picture = Picture::new(&subject);
    std::fs::write(&words[1], html::page(&picture, None)).unwrap();
    std::fs::write(&words[2], svg::file(&picture)).unwrap();
}
