//! A record as a drawing (SVG) and as a page (HTML) that opens in a browser without a network, and a catalogue as a page.
//!
//! * [`subject`]: the texts of a folder, read, judged by the library, and what is said of a refusal
//! * [`layout`]: where nodes stand and how links run
//! * [`picture`]: all that is drawn of a record
//! * [`svg`]: the drawing
//! * [`data`]: the record as the page's script reads it
//! * [`html`]: the page
//! * [`listing`]: the page of a catalogue
//! * [`links`]: names of pages, and how they lead to each other
//! * [`beside`]: files that are whole or not there
//! * [`escape`]: text that stays text
//! * [`json`]: objects and lists for scripts

pub mod beside;
pub mod data;
pub mod escape;
pub mod explained;
pub mod html;
pub mod json;
pub mod layout;
pub mod links;
pub mod listing;
pub mod picture;
pub mod subject;
pub mod svg;

pub use picture::Picture;
pub use subject::Subject;
