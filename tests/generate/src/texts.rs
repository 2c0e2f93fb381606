//! Texts, and damage to them.

use super::rng::Rng;
use super::tables::other_number;

/// Words and bytes that texts are damaged with, or made of.
const PIECES: [&[u8]; 40] = [
    b"0",
    b"1",
    b"-1",
    b"12",
    b"99999",
    b"-99999",
    b"100000",
    b"-0",
    b"00",
    b"01",
    b"-01",
    b"+1",
    b"-",
    b"--1",
    b"9999999999999999999999999",
    b" ",
    b"  ",
    b"\n",
    b"\n\n",
    b"\r\n",
    b"\r",
    b"\t",
    b"\0",
    b"u",
    b"up",
    b"n",
    b"x",
    b"\xff",
    b"\xef\xbb\xbf",
    b"1e3",
    b"0x1",
    b"1.0",
    b"root least\n",
    b"kind a b c\n",
    b"up rule on with other to by set\n",
    b"n\n",
    b"symbol index\n",
    b"0 0 0 0\n",
    b"-1 5 0 -1 -1 -1 0 0\n",
    b"-1 5 0 -1 -1 -1 0\n",
];

/// Words that are numbers, or almost.
const WORDS: [&[u8]; 24] = [
    b"0",
    b"1",
    b"-1",
    b"-0",
    b"00",
    b"01",
    b"-01",
    b"+1",
    b"+0",
    b"99999",
    b"-99999",
    b"100000",
    b"-100000",
    b"10000",
    b"-10000",
    b"099999",
    b"-",
    b"",
    b"--1",
    b"1-",
    b"1.",
    b"1e1",
    b"0x1",
    b"\xd9\xa1",
];

fn ends(text: &[u8]) -> Vec<usize> {
    text.iter().enumerate().filter(|(_, byte)| **byte == b'\n').map(|(at, _)| at).collect()
}

fn lines(text: &[u8]) -> Vec<Vec<u8>> {
    text.split_inclusive(|byte| *byte == b'\n').map(<[u8]>::to_vec).collect()
}

/// Damages a text in one place.
pub fn damage_text(text: &mut Vec<u8>, rng: &mut Rng) {
    let at = rng.below(text.len() + 1);
    match rng.below(26) {
        // Bytes changed, put in, taken out.
        0 | 1 if at < text.len() => text[at] = rng.bits() as u8,
        2 if at < text.len() => text[at] = rng.pick(b"0123456789- \n\r\0u"),
        3 | 4 if at < text.len() => {
            text.remove(at);
        }
        5 => text.insert(at, rng.pick(b"0123456789- \n\r\0u")),
        6 | 7 => {
            let piece = rng.pick(&PIECES);
            text.splice(at..at, piece.iter().copied());
        }
        8 => {
            // A long run of digits, or of spaces.
            let piece = vec![rng.pick(b"0123456789 "); 1 + rng.below(300)];
            text.splice(at..at, piece);
        }
        // Cut off.
        9 => text.truncate(at),
        10 => {
            text.pop();
        }
        11 => {
            // Cut off at the end of a line.
            let ends = ends(text);
            if !ends.is_empty() {
                text.truncate(rng.pick(&ends) + rng.below(2));
            }
        }
        // Whole lines changed over, twice, out.
        12..=14 => {
            let mut lines = lines(text);
            if !lines.is_empty() {
                let (first, second) = (rng.below(lines.len()), rng.below(lines.len()));
                match rng.below(3) {
                    0 => lines.swap(first, second),
                    1 => lines.insert(second, lines[first].clone()),
                    _ => {
                        lines.remove(first);
                    }
                }
            }
            *text = lines.concat();
        }
        15 => {
            // CR LF in one line, or in all.
            let ends = ends(text);
            if rng.chance(50) {
                for end in ends.into_iter().rev() {
                    text.insert(end, b'\r');
                }
            } else if !ends.is_empty() {
                text.insert(rng.pick(&ends), b'\r');
            }
        }
        16 => {
            // A space before or after a line.
            let ends = ends(text);
            if !ends.is_empty() {
                text.insert(rng.pick(&ends) + rng.below(2), b' ');
            }
        }
        17 => {
            // One number for another.
            let mut lines = lines(text);
            if !lines.is_empty() {
                let line = rng.below(lines.len());
                let mut words: Vec<Vec<u8>> = lines[line].split(|byte| *byte == b' ').map(<[u8]>::to_vec).collect();
                let word = rng.below(words.len());
                let ending: &[u8] = if word + 1 == words.len() { b"\n" } else { b"" };
                words[word] = [other_number(rng, 1).to_string().as_bytes(), ending].concat();
                lines[line] = words.join(&b' ');
            }
            *text = lines.concat();
        }
        18 => {
            let piece = rng.pick(&PIECES);
            text.extend(piece);
        }
        19..=21 => {
            // A word for another, or a space for something else.
            let spaces: Vec<usize> = (0..text.len()).filter(|at| text[*at] == b' ' || text[*at] == b'\n').collect();
            if spaces.len() > 1 {
                let which = rng.below(spaces.len() - 1);
                let (start, end) = (spaces[which], spaces[which + 1]);
                if rng.chance(70) {
                    let word: &[u8] = rng.pick(&WORDS);
                    text.splice(start + 1..end, word.iter().copied());
                } else {
                    let gap: &[u8] = rng.pick(&[b"\t", b"  ", b"", b",", b"\n", b" \n", b"\0", b"\x0b", b"\xa0"]);
                    text.splice(start..start + 1, gap.iter().copied());
                }
            }
        }
        22 | 23 => {
            // A line that starts otherwise.
            let ends = ends(text);
            if !ends.is_empty() {
                let start = rng.pick(&ends) + 1;
                if start < text.len() {
                    text[start] = rng.pick(b"uuUkn-0");
                }
            }
        }
        24 => {
            // Cut off in or after the last heading of the text.
            let heading = text.windows(3).rposition(|bytes| bytes == b"up " || bytes == b"kin" || bytes == b"sym");
            if let Some(start) = heading {
                text.truncate(start + rng.below(34));
            }
        }
        _ => {
            let piece = rng.pick(&PIECES);
            text.splice(0..0, piece.iter().copied());
        }
    }
}

/// A text of random pieces, or of random bytes.
pub fn random_text(rng: &mut Rng) -> Vec<u8> {
    let mut text = Vec::new();
    if rng.chance(30) {
        text.extend((0..rng.below(100)).map(|_| rng.bits() as u8));
        return text;
    }
    if rng.chance(70) {
        text.extend(rng.pick(&PIECES[32..37]));
    }
    for _ in 0..rng.below(30) {
        text.extend(rng.pick(&PIECES));
        if rng.chance(50) {
            text.push(b' ');
        }
    }
    text
}

/// A number whose text has this many bytes, 1 to 6.
fn number_of_width(rng: &mut Rng, width: usize) -> i32 {
    match width {
        1 => rng.range(0, 9),
        2 if rng.chance(30) => rng.range(-9, -1),
        2 => rng.range(10, 99),
        3 => rng.range(-99, -10),
        4 => rng.range(1000, 9999),
        5 => rng.range(-9999, -1000),
        _ => rng.range(-99_999, -10_000),
    }
}

fn put_line(text: &mut Vec<u8>, rng: &mut Rng, widths: &[usize]) {
    let words: Vec<String> = widths.iter().map(|width| number_of_width(rng, *width).to_string()).collect();
    text.extend(words.join(" ").as_bytes());
    text.push(b'\n');
}

/// A proof text of right form with exactly this many bytes, from 60 on.
pub fn proof_text_of_length(rng: &mut Rng, length: usize) -> Vec<u8> {
    let mut text = b"kind a b c\n".to_vec();
    let widest = rng.pick(&[2, 4, 6]);
    let rows = if length > 1000 { rng.below(1025) } else { 0 };
    for _ in 0..rows {
        if text.len() + 200 < length {
            let widths = [0; 4].map(|_| 1 + rng.below(widest));
            put_line(&mut text, rng, &widths);
        }
    }
    text.extend(b"up rule on with other to by set\n");
    // Node rows; the last takes exactly what is left: each number takes its width and one byte more.
    let members = rng.pick(&[5, 12, 30]);
    while text.len() + 300 < length {
        let widths: Vec<usize> = (0..7 + rng.below(members)).map(|_| 1 + rng.below(6)).collect();
        put_line(&mut text, rng, &widths);
    }
    let left = length.saturating_sub(text.len()).max(14);
    let count = (7).max(left.div_ceil(7));
    let mut widths = vec![1; count];
    let mut more = left.saturating_sub(2 * count);
    for width in &mut widths {
        let added = more.min(5);
        *width += added;
        more -= added;
    }
    put_line(&mut text, rng, &widths);
    text
}
