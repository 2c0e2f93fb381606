//! The proved programs: run on texts, each by itself in a private folder, so that a program sees two regular files of bounded length or
//! none, whatever stands in the record's folder and whatever that is called.

use crate::end::Stop;
use crate::private::Private;
use std::path::{Path, PathBuf};
use std::process::{Command, Stdio};
use zorambi::files::Loaded;
use zorambi::{shown, shown_name, Refusal, Refused, Verdict};

/// What a program printed: its two lines, and of a refusal the line at fault with the name of its text and its number.
pub struct Printed {
    pub lines: Vec<u8>,
    pub verdict: Verdict,
    /// As the program said it, without its byte 10.
    pub said: Vec<u8>,
}

/// The line at fault, apart.
pub struct Fault<'a> {
    pub file: &'a str,
    pub line: usize,
    pub bytes: &'a [u8],
}

impl Printed {
    /// What was said is `FILE:LINE: BYTES` of one of these files.
    pub fn fault<'a>(&'a self, files: [&'a str; 2]) -> Option<Fault<'a>> {
        let file = files.into_iter().find(|file| self.said.starts_with(format!("{file}:").as_bytes()))?;
        let rest = &self.said[file.len() + 1..];
        let end = rest.iter().position(|byte| *byte == b':')?;
        let line = std::str::from_utf8(&rest[..end]).ok()?.parse().ok()?;
        Some(Fault { file, line, bytes: rest[end + 1..].strip_prefix(b" ")? })
    }
}

/// This program's own file.
pub fn own_file() -> Result<PathBuf, Stop> {
    let own = std::env::current_exe().and_then(|path| path.canonicalize());
    own.map_err(|error| Stop::Wrong(format!("where this program is cannot be told: {error}")))
}

/// Where something is that goes with this program: installed, or in this place of the project's folder.
pub fn beside(name: &str, built: &str, is_it: fn(&Path) -> bool) -> Result<PathBuf, [String; 2]> {
    let own = own_file().unwrap_or_default();
    let folder = own.parent().map(PathBuf::from).unwrap_or_default();
    let places = ["../libexec/zorambi", built].map(|place| folder.join(place).join(name));
    places.iter().find(|path| is_it(path)).cloned().ok_or_else(|| places.map(shown_name))
}

fn path_of(name: &str) -> Result<PathBuf, Stop> {
    own_file()?;
    beside(name, "../../target/bin", Path::is_file).map_err(|[installed, built]| {
        Stop::Wrong(format!(
            "the proved program {name} is missing: neither {installed} nor {built} is there; ./zorambi makes it"
        ))
    })
}

/// Runs a program on the texts; one that could not be read is not there for it.
pub fn run(name: &str, texts: [(&str, &Loaded); 2]) -> Result<Printed, Stop> {
    let program = path_of(name)?;
    let there = texts.iter().filter(|(_, text)| text.unread.is_none());
    let files: Vec<(&str, &[u8])> = there.map(|(name, text)| (*name, &text.bytes[..])).collect();
    let private = Private::with(&files)?;
    let mut command = Command::new(&program);
    command.current_dir(&private.folder).stdin(Stdio::null());
    let output = command.output().map_err(|error| Stop::Wrong(format!("{}: {error}", shown_name(&program))))?;
    drop(private);
    let said = output.stderr.strip_suffix(b"\n").unwrap_or(&output.stderr).to_vec();
    let verdict = Some(&output.stdout).filter(|_| output.status.success()).and_then(|lines| verdict_of(lines));
    match verdict {
        Some(verdict) => Ok(Printed { lines: output.stdout, verdict, said }),
        None => {
            let more = if said.is_empty() { String::new() } else { format!("\n{}", shown(&said)) };
            Err(Stop::Wrong(format!("{name} ended without a verdict, with {}{more}", output.status)))
        }
    }
}

/// The verdict that two lines are, if they are what the programs print.
fn verdict_of(lines: &[u8]) -> Option<Verdict> {
    let numbers = std::str::from_utf8(lines).ok()?.strip_prefix("answer place nodes links\n")?.strip_suffix('\n')?;
    let read: Vec<i64> = numbers.split(' ').map(|number| number.parse().ok()).collect::<Option<_>>()?;
    let again: Vec<String> = read.iter().map(i64::to_string).collect();
    match *read.as_slice() {
        _ if again.join(" ") != numbers => None,
        [0, 0, nodes, links] => {
            Some(Verdict::Accepted { nodes: nodes.try_into().ok()?, links: links.try_into().ok()? })
        }
        [answer, place, 0, 0] if place >= -1 => {
            let refusal = Refusal::of_number(answer.try_into().ok()?)?;
            Some(Refused { refusal, place: place.try_into().ok() }.into())
        }
        _ => None,
    }
}

#[cfg(test)]
mod tests {
    use super::{verdict_of, Printed};
    use zorambi::{Refusal, Verdict};

    #[test]
    fn verdicts_as_the_programs_print_them() {
        let of = |numbers: &str| verdict_of(format!("answer place nodes links\n{numbers}\n").as_bytes());
        assert_eq!(of("0 0 7 1"), Some(Verdict::Accepted { nodes: 7, links: 1 }));
        assert_eq!(of("14 5 0 0"), Some(Verdict::Refused { refusal: Refusal::Bound, place: Some(5) }));
        assert_eq!(of("10 -1 0 0"), Some(Verdict::Refused { refusal: Refusal::Parent, place: None }));
        for wrong in [
            "",
            "0",
            "0 0 7",
            "0 0 7 1 0",
            "0 0 7 1 ",
            " 0 0 7 1",
            "0 -1 7 1",
            "0 1 7 1",
            "00 0 7 1",
            "0 0 07 1",
            "+0 0 7 1",
            "32 0 0 0",
            "99 0 0 0",
            "-1 0 0 0",
            "4 3 1 0",
            "4 3 0 1",
            "4 -2 0 0",
            "0 0 -7 1",
            "4 3 0 0\n0",
        ] {
            assert_eq!(of(wrong), None, "{wrong}");
        }
        for wrong in ["", "0 0 7 1\n", "answer place nodes links\n0 0 7 1", "answer place nodes links\n0 0"] {
            assert_eq!(verdict_of(wrong.as_bytes()), None, "{wrong}");
        }
    }

    #[test]
    fn the_line_at_fault() {
        let printed = |said: &[u8]| Printed {
            lines: Vec::new(),
            verdict: Verdict::Refused { refusal: Refusal::Bound, place: Some(5) },
            said: said.to_vec(),
        };
        let files = ["schema.txt", "proof.txt"];
        let one = printed(b"proof.txt:12: 4 8: \xff");
        let fault = one.fault(files).unwrap();
        assert_eq!((fault.file, fault.line, fault.bytes), ("proof.txt", 12, &b"4 8: \xff"[..]));
        for other in [&b""[..], b"model.txt:1: x", b"proof.txt", b"proof.txt:x: 1", b"proof.txt:1:x"] {
            assert!(printed(other).fault(files).is_none());
        }
    }
}
