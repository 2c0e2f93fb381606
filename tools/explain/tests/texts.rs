//! Generated texts, writings and calls of the tools: every refusal has a reason, thousands of each number.

mod common;

use common::{numbers_in, refused, Count};
use std::fs;
use std::path::{Path, PathBuf};
use zorambi::words::grouped;
use zorambi::{
    convert, entries, find_model, join, next_small, read_model, read_proof, read_schema, write_proof, write_schema,
    Growing, Proof, Record, Refused, Row, Schema,
};
use zorambi_explain::{SchemaTable, Sort, Tables, Text, Voice};
use zorambi_generate::texts::damage_text;
use zorambi_generate::Rng;
use zorambi_reference::find::occurring;
use zorambi_reference::formula::Formulas;

/// The shipped texts of a sort.
fn shipped(sort: Sort) -> Vec<Vec<u8>> {
    fn below(folder: &Path, name: &str, found: &mut Vec<PathBuf>) {
        for entry in fs::read_dir(folder).unwrap() {
            let path = entry.unwrap().path();
            if path.is_dir() {
                below(&path, name, found);
            } else if path.file_name().is_some_and(|file| file == name) {
                found.push(path);
            }
        }
    }
    let mut found = Vec::new();
    below(&Path::new(env!("CARGO_MANIFEST_DIR")).join("../../records"), sort.file(), &mut found);
    found.sort();
    found.iter().map(|path| fs::read(path).unwrap()).filter(|text| text.len() < 20_000).collect()
}

fn read(sort: Sort, text: &[u8]) -> Option<Refused> {
    match sort {
        Sort::Proof => read_proof(text).err(),
        Sort::Model => read_model(text).err(),
        Sort::Schema | Sort::Wide => read_schema(text).err(),
    }
}

/// A mistake that someone makes who writes a text by hand, or on another system.
fn slip(text: &mut Vec<u8>, rng: &mut Rng) {
    if text.is_empty() {
        return;
    }
    let at = rng.below(text.len());
    match rng.below(9) {
        0 => drop(text.pop()),
        1 => text.insert(at, b' '),
        2 => text.insert(at, b'\t'),
        3 => text.insert(at, b'\r'),
        4 => text.insert(at, b'0'),
        5 => text.insert(at, rng.pick(b"+-x\n\xef0123")),
        6 => drop(text.remove(at)),
        7 => text.truncate(at),
        _ => *text = text.split(|byte| *byte == b'\n').collect::<Vec<_>>().join(&b"\r\n"[..]),
    }
}

/// A text that passes a limit: of rows, nodes, members, pairs or bytes.
fn too_much(sort: Sort, rng: &mut Rng) -> Vec<u8> {
    let over = 1 + rng.below(3);
    let lines = |line: &str, count: usize| line.repeat(count);
    let text = match (sort, rng.below(4)) {
        (_, 0) => lines("root least\n", 6000 + over),
        (Sort::Proof, 1) => format!("kind a b c\n{}", lines("0 0 0 0\n", 1024 + over)),
        (Sort::Proof, 2) => {
            format!("kind a b c\nup rule on with other to by set\n{}", lines("0 2 0 0 0 0 0\n", 1024 + over))
        }
        (Sort::Proof, _) => {
            let set = lines(" 1", 410);
            format!(
                "kind a b c\nup rule on with other to by set\n{}",
                lines(&format!("0 2 0 0 0 0 0{set}\n"), 19 + over)
            )
        }
        (Sort::Model, _) => format!("n\n1\nsymbol index\n{}", lines("0 1\n", 4096 + over)),
        _ => format!("root least\n0 0\nkind a b c\n{}", lines("0 0 0 0\n", 1024 + over)),
    };
    text.into_bytes()
}

#[test]
fn every_refusal_in_reading_has_a_reason() {
    let (mut count, mut rng) = (Count::default(), Rng::new(41));
    for sort in [Sort::Schema, Sort::Wide, Sort::Proof, Sort::Model] {
        let texts = shipped(sort);
        assert!(!texts.is_empty());
        for at in 0..11_000 {
            let mut text = texts[rng.below(texts.len())].clone();
            match at % 10 {
                0..=4 => slip(&mut text, &mut rng),
                5..=7 => damage_text(&mut text, &mut rng),
                _ => text = too_much(sort, &mut rng),
            }
            let Some(refused) = read(sort, &text) else { continue };
            let why = zorambi_explain::text(&Text { sort, bytes: &text, length: None, unread: None }, refused);
            count.take(refused, &why);
            // A line without what stands at its column and after it has one fault less, or is refused before.
            if let Some((line, column)) = place_of(&why.line) {
                let wanted = text.split(|byte| *byte == b'\n').nth(line - 1).unwrap();
                let is_there = (1..=wanted.len().max(1)).contains(&column) && refused.place == Some(line);
                count.truth(if is_there { Ok(()) } else { Err(why.line.clone()) });
            }
        }
    }
    count.end(&[1, 3, 4, 5], 2000);
}

/// `line 4, column 7: ..`
fn place_of(line: &str) -> Option<(usize, usize)> {
    let numbers = numbers_in(line);
    line.contains(", column ").then(|| (numbers[0] as usize, numbers[1] as usize))
}

#[test]
fn every_refusal_in_writing_has_a_reason() {
    let (mut count, mut rng) = (Count::default(), Rng::new(46));
    let proofs: Vec<Proof> = shipped(Sort::Proof).iter().filter_map(|text| read_proof(text).ok()).collect();
    for _ in 0..28_000 {
        let proof = &proofs[rng.below(proofs.len())];
        let mut tables =
            [proof.rows.as_flattened().to_vec(), proof.nodes.as_flattened().to_vec(), proof.members.clone()];
        let mut counts = [proof.rows.len(), proof.nodes.len(), proof.members.len()];
        let (which, room) = (rng.below(3), if rng.chance(30) { rng.below(500) } else { 65_536 });
        match rng.below(5) {
            0 if !tables[which].is_empty() => {
                let at = rng.below(tables[which].len());
                tables[which][at] = rng.pick(&[100_000, -100_000, i32::MAX, i32::MIN, -1, 7]);
            }
            1 => counts[which] += 1 + rng.below(3),
            2 => {
                let (most, width) = [(1024, 4), (1024, 9), (8192, 1)][which];
                counts[which] = most + 1 + rng.below(3);
                tables[which].resize(counts[which] * width, 0);
            }
            3 => counts[2] = counts[2].saturating_sub(1),
            _ => {}
        }
        let mut out = vec![0; room];
        let [rows, nodes, members] = &tables;
        let [row_count, node_count, member_count] = counts;
        let packed = entries::write_proof(rows, row_count, nodes, node_count, members, member_count, &mut out);
        if let Some(refused) = refused(packed) {
            let lent = Tables {
                proof: rows,
                proof_rows: row_count,
                nodes,
                node_rows: node_count,
                members,
                member_count,
                ..Tables::default()
            };
            count.take(refused, &zorambi_explain::write_proof(&lent, room, refused));
        }
        let table = SchemaTable { rows, count: row_count, root: 0, least: rng.pick(&[0, 123_456]) };
        if let Some(refused) = refused(entries::write_schema(rows, row_count, 0, table.least, &mut out)) {
            count.take(refused, &zorambi_explain::write_schema(&table, room, refused));
        }
        if let Some(refused) = refused(entries::write_model(table.least, members, member_count, &mut out)) {
            count.take(refused, &zorambi_explain::write_model(table.least, (members, member_count), room, refused));
        }
    }
    count.end(&[2, 5, 21, 22], 2000);
}

/// A schema of so many rows over literals and iterations, wide or plain.
fn any_schema(rng: &mut Rng, wide: bool) -> Schema {
    let mut rows: Vec<Row> = vec![[2, 0, 2, rng.range(-2, 2)], [3, 1, 2, rng.range(-2, 2)], [2, 2, 1, 0], [3, 0, 0, 3]];
    rows.push([6, 0, rng.range(-3, 3), rng.range(-3, 3)]);
    rows.push([7, 1, rng.range(-3, 3), rng.range(-3, 3)]);
    for _ in 0..if wide { 6 + rng.below(14) } else { rng.below(16) } {
        let last = rows.len() as i32;
        let kind = if wide { rng.pick(&[4, 8, 9, 10, 11, 10, 11, 10]) } else { rng.range(4, 5) };
        let [a, b] = [rng.range(2, last - 1), if rng.chance(70) { last - 1 } else { rng.range(2, last - 1) }];
        rows.push([kind, a, if kind == 8 { 0 } else { b }, 0]);
    }
    if rng.chance(20) {
        let at = rng.below(rows.len());
        rows[at][rng.below(4)] = rng.range(-2, 14);
    }
    let root = if rng.chance(90) { rows.len() as i32 - 1 } else { rng.range(-1, 30) };
    Schema { root, least: rng.pick(&[0, 0, 0, 0, 0, 0, 1, 2, -1, 10_000]), rows }
}

#[test]
fn every_refusal_of_converting_and_finding_has_a_reason() {
    let (mut count, mut rng) = (Count::default(), Rng::new(42));
    for _ in 0..20_000 {
        let wide = any_schema(&mut rng, true);
        if let Err(refused) = convert(&wide) {
            count.take(refused, &zorambi_explain::convert(&(&wide).into(), refused, &Voice::default()));
        }
        let (schema, n) = (any_schema(&mut rng, false), rng.pick(&[-1, 0, 5, 15, 30, 10_000]));
        if let Err(refused) = find_model(&schema, n) {
            let why = zorambi_explain::find(&(&schema).into(), n, refused, &Voice::default());
            count.take(refused, &why);
            if refused.refusal.number() == 30 {
                let formulas = Formulas::new(schema.rows.as_flattened(), schema.rows.len(), &[], 0).unwrap();
                let occur = occurring(&formulas, schema.root, n.into(), usize::MAX).unwrap().len() as i64;
                let said = numbers_in(&why.line.replace(',', ""))[0];
                count.truth(if said == occur { Ok(()) } else { Err(why.line) });
            }
        }
    }
    count.end(&[6, 7, 19, 23, 30], 2000);
}

#[test]
fn every_table_that_is_not_small_has_a_reason() {
    let (mut count, mut rng) = (Count::default(), Rng::new(43));
    for _ in 0..20_000 {
        let mut table: Vec<Row> = vec![[0; 4]; rng.below(5)];
        for (at, row) in table.iter_mut().enumerate() {
            *row = [rng.range(0, 7), rng.range(0, at as i32), rng.range(0, 2), rng.range(-1, 1)];
            if rng.chance(30) {
                row[rng.below(4)] = rng.range(-3, 9);
            }
        }
        if let Err(refused) = next_small(&table) {
            count.take(refused, &zorambi_explain::small(&table, refused));
        }
    }
    count.end(&[31], 5000);
}

/// False at once, with these proof rows.
fn tiny(least: i32, rows: Vec<Row>) -> Record {
    let mut proof = Proof { rows, ..Proof::default() };
    proof.push_node([-1, 5, 0, -1, -1, -1, 0], &[0]);
    Record { schema: Schema { root: 0, least, rows: vec![[1, 0, 0, 0]] }, proof }
}

#[test]
fn every_refusal_of_joining_has_a_reason() {
    let (mut count, mut rng) = (Count::default(), Rng::new(44));
    for _ in 0..12_000 {
        let mut some = || {
            let from = rng.range(0, 3000);
            tiny(i32::from(rng.chance(30)), (0..rng.range(400, 800)).map(|c| [2, 0, 1, from + c]).collect())
        };
        let (first, second) = (some(), some());
        if let Err(refused) = join(&first, &second) {
            count.take(refused, &zorambi_explain::join(&first, &second, refused));
        }
    }
    count.end(&[28, 29], 2000);
}

#[test]
fn every_refusal_of_a_row_that_is_added_has_a_reason() {
    let (mut count, mut rng) = (Count::default(), Rng::new(45));
    let records: Vec<Record> =
        ["accepted/rca_zero", "accepted/ranges_of_widths", "accepted/chain_either_end", "paper/some_and_none"]
            .map(|name| {
                let folder = Path::new(env!("CARGO_MANIFEST_DIR")).join("../../records").join(name);
                let text = |name: &str| fs::read(folder.join(name)).unwrap();
                Record {
                    schema: read_schema(&text("schema.txt")).unwrap(),
                    proof: read_proof(&text("proof.txt")).unwrap(),
                }
            })
            .into();
    for at in 0..160 {
        let record = &records[at % records.len()];
        let mut growing = Growing::begin(record.schema.clone(), record.proof.rows.clone()).unwrap();
        for node in &record.proof.nodes {
            let [up, rule, on, with, other, to, by, start, length] = *node;
            let row = [up, rule, on, with, other, to, by];
            let set = record.proof.members[start as usize..(start + length) as usize].to_vec();
            for _ in 0..8 {
                let (mut row, mut set) = (row, set.clone());
                match rng.below(3) {
                    0 if !set.is_empty() => set[rng.below(length as usize)] = rng.range(-1, 140),
                    1 => row[0] = rng.range(-1, growing.standing().nodes as i32),
                    _ => row[rng.below(7)] = rng.range(-1, 140),
                }
                if let Err(refused) = growing.enquire(row, &set) {
                    let mut held = growing.record();
                    held.proof.push_node(row, &set);
                    count.take(refused, &zorambi_explain::growing(&Tables::from(&held), refused, &Voice::default()));
                }
                if let Err(refused) = growing.commit() {
                    count.take(refused, &zorambi_explain::grow(&growing.record(), 0, refused));
                } else {
                    growing.take_back().unwrap();
                }
            }
            growing.add(row, &set).unwrap();
        }
    }
    for record in records.iter().cycle().take(2000) {
        let mut growing = Growing::begin(record.schema.clone(), record.proof.rows.clone()).unwrap();
        let refused = growing.take_back().unwrap_err();
        count.take(refused, &zorambi_explain::grow(&growing.record(), 0, refused));
    }
    count.end(&[9, 10, 11, 12, 17, 25, 26], 2000);
}

/// 24 comes where 1,024 nodes stand, or the members would pass 8,192.
#[test]
fn no_room() {
    let (mut count, mut rng) = (Count::default(), Rng::new(47));
    let schema = Schema { root: 1, least: 0, rows: vec![[1, 0, 0, 0], [4, 0, 0, 0]] };
    let mut growing = Growing::begin(schema, Vec::new()).unwrap();
    for node in 0..1024 {
        growing.add([node - 1, 0, 1, -1, -1, -1, 0], &[1]).unwrap();
    }
    for held in [1024, 1023] {
        for _ in 0..1000 {
            let set: Vec<i32> = (0..rng.range(if held == 1024 { 0 } else { 7170 }, 8192)).collect();
            let refused = growing.add([rng.range(-1, 1024), 0, 1, -1, -1, -1, 0], &set).unwrap_err();
            let why = zorambi_explain::grow(&growing.record(), set.len(), refused);
            let wanted = if held == 1024 {
                "1,024 nodes are held, and 1,024 are allowed".to_string()
            } else {
                let (members, over) = (set.len(), grouped((set.len() + held - 8192) as u64));
                format!(
                    "the row's set has {members} members, and 1,023 are held: 8,192 are allowed, so {over} too many"
                )
            };
            count.truth(if why.line == wanted { Ok(()) } else { Err(why.line.clone()) });
            count.take(refused, &why);
        }
        growing.take_back().unwrap();
    }
    count.end(&[24], 2000);
}

/// A text of the join that is too long, and one that is not.
#[test]
fn a_text_that_is_too_long() {
    let rows: Vec<Row> = (0..1024).map(|c| [6, 0, -9999 + c, -9999]).collect();
    let schema = Schema { root: -99_999, least: 0, rows };
    let bytes = write_schema(&schema).unwrap().len() as u64;
    assert!(bytes < 65_536);
    let mut proof = Proof { rows: schema.rows.clone(), ..Proof::default() };
    let set: Vec<i32> = (10_000..10_008).collect();
    (0..1000).for_each(|_| proof.push_node([1000, 8, -1, -1, -1, 1000, 1000], &set));
    let refused = write_proof(&proof).unwrap_err();
    let record = Record { schema, proof };
    let why = zorambi_explain::write_proof(&Tables::from(&record), 65_536, refused);
    // 1,024 rows of 14 or 15 bytes, 1,000 of 29 bytes, and 8,000 members of 6 bytes.
    assert!(why.line.starts_with("the text would have ") && why.line.ends_with(" too many"), "{}", why.line);
    let said = numbers_in(&why.line.replace(',', ""))[0] as usize;
    let rows: usize = record.proof.rows.iter().map(|row| format!("{row:?}").len() - 4).sum();
    let nodes = 1000 * ("1000 8 -1 -1 -1 1000 1000".len() + 8 * 6 + 1);
    assert_eq!(said, "kind a b c\nup rule on with other to by set\n".len() + rows + nodes);
}
