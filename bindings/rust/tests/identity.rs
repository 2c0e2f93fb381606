//! The hash, beside coreutils, and the library's identity.

use std::io::Write;
use std::path::Path;
use std::process::{Command, Stdio};
use zorambi::{hex, sha256, IDENTITY};

/// What coreutils' sha256sum says of files that hold these texts.
fn sums(folder: &Path, texts: &[Vec<u8>]) -> Vec<String> {
    let _ = std::fs::remove_dir_all(folder);
    std::fs::create_dir_all(folder).unwrap();
    let names: Vec<_> = (0..texts.len()).map(|number| folder.join(number.to_string())).collect();
    for (name, text) in names.iter().zip(texts) {
        std::fs::write(name, text).unwrap();
    }
    let output = Command::new("sha256sum").arg("--").args(names).output().unwrap();
    assert!(output.status.success());
    let lines = String::from_utf8(output.stdout).unwrap();
    lines.lines().map(|line| line.split(' ').next().unwrap().to_string()).collect()
}

#[test]
fn every_length_up_to_some_blocks_and_whole_texts() {
    let byte = |at: usize| (at * 167 + at / 256) as u8;
    let mut texts: Vec<Vec<u8>> = (0..=330).map(|length| (0..length).map(byte).collect()).collect();
    texts.extend([4095, 4096, 65_535, 65_536, 65_537].map(|length| (0..length).map(byte).collect::<Vec<u8>>()));
    texts.extend([vec![0; 64], vec![255; 119], vec![128; 120]]);
    let expected = sums(&Path::new(env!("CARGO_TARGET_TMPDIR")).join("sums"), &texts);
    assert_eq!(expected.len(), texts.len());
    for (text, sum) in texts.iter().zip(expected) {
        assert_eq!(hex(&sha256(text)), sum, "{} bytes", text.len());
    }
}

#[test]
fn the_library_that_is_linked() {
    let archive = Path::new(env!("CARGO_MANIFEST_DIR")).join("../../target/staticlib/libzorambi.a");
    let mut child = Command::new("sha256sum").stdin(Stdio::piped()).stdout(Stdio::piped()).spawn().unwrap();
    child.stdin.take().unwrap().write_all(&std::fs::read(archive).unwrap()).unwrap();
    let sum = String::from_utf8(child.wait_with_output().unwrap().stdout).unwrap();
    let start = format!("zorambi {}, library {}, rattle logic ", env!("CARGO_PKG_VERSION"), &sum[..16]);
    let logic = IDENTITY.strip_prefix(&start).unwrap_or_else(|| panic!("{IDENTITY}"));
    assert!(logic.len() == 16 && logic.bytes().all(|byte| byte.is_ascii_hexdigit()), "{IDENTITY}");
}
