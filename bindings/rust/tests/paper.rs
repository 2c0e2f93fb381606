//! The paper's record and its neighbours, from texts and from tables.

use zorambi::{
    check, check_model_texts, check_older, check_older_texts, check_texts, line, read_model, read_proof, read_schema,
    write_model, write_proof, write_schema, Judgement, Model, Proof, Record, Refusal, Refused, Schema, Text, Verdict,
};

const SCHEMA: &str = "root least\n4 1\nkind a b c\n2 0 2 0\n3 0 2 0\n7 0 2 0\n6 1 2 0\n4 2 3 0\n";
const PROOF: &str = "kind a b c\n7 0 2 1\n2 0 1 0\n6 1 2 1\n3 0 1 0\nup rule on with other to by set\n\
-1 0 4 -1 -1 -1 0 4\n0 2 -1 -1 -1 -1 0 2 3\n1 7 2 -1 -1 -1 0 2 3\n1 3 3 7 8 -1 0 2 3\n\
3 4 2 5 6 -1 0 2 7 8\n4 8 -1 -1 -1 1 1 5 7\n4 6 6 8 -1 -1 0 6 8\n";

fn changed(text: &str, from: &str, to: &str) -> String {
    assert_eq!(text.matches(from).count(), 1, "{from:?} does not stand once in the text");
    text.replace(from, to)
}

fn record() -> Record {
    Record { schema: read_schema(SCHEMA.as_bytes()).unwrap(), proof: read_proof(PROOF.as_bytes()).unwrap() }
}

const ACCEPTED: Verdict = Verdict::Accepted { nodes: 7, links: 1 };

fn refused(refusal: Refusal, place: impl Into<Option<usize>>) -> Verdict {
    Verdict::Refused { refusal, place: place.into() }
}

#[test]
fn the_record_and_its_neighbours() {
    let check = |schema: &str, proof: &str| check_texts(schema.as_bytes(), proof.as_bytes()).verdict;
    let with_schema = |from: &str, to: &str| check(&changed(SCHEMA, from, to), PROOF);
    let with_proof = |from: &str, to: &str| check(SCHEMA, &changed(PROOF, from, to));
    assert_eq!(check(SCHEMA, PROOF), ACCEPTED);
    assert_eq!(with_schema("4 1\n", "4 0\n"), refused(Refusal::Bound, 3));
    assert_eq!(with_schema("4 1\n", "4 2\n"), refused(Refusal::Bound, 2));
    assert_eq!(with_proof("-1 1 1 5 7\n", "-1 1 2 5 7\n"), refused(Refusal::Bound, 5));
    assert_eq!(with_proof("1 1 5 7\n", "1 1 5\n"), refused(Refusal::Lowered, 5));
    assert_eq!(with_proof("4 6 6 8 ", "4 6 8 6 "), refused(Refusal::Fields, 6));
    assert_eq!(with_proof("3 4 2 5 6 ", "3 4 2 5 8 "), refused(Refusal::Partner, 4));
    assert_eq!(with_proof("4 6 6 8 -1 -1 0 6 8\n", ""), refused(Refusal::Children, 4));
    assert_eq!(with_proof("0 6 8\n", "0 6 7 8\n"), ACCEPTED);
    assert_eq!(with_proof("0 6 8\n", "0 5 6 8\n"), refused(Refusal::Drawn, 6));
    let split_by = |by: &str| with_proof("0 2 -1 -1 -1 -1 0 ", &format!("0 2 -1 -1 -1 -1 {by} "));
    assert_eq!(split_by("1"), ACCEPTED);
    assert_eq!(split_by("2"), refused(Refusal::Bound, 2));
    assert_eq!(split_by("9999"), refused(Refusal::Bound, 1));
    assert_eq!(split_by("-1"), refused(Refusal::Fields, 1));
    let link_to = |to: &str| with_proof("-1 1 1 5 7\n", &format!("-1 {to} 1 5 7\n"));
    assert_eq!(link_to("0"), refused(Refusal::Lowered, 5));
    assert_eq!(link_to("2"), refused(Refusal::Bound, 5));
    assert_eq!(link_to("5"), refused(Refusal::Target, 5));
    assert_eq!(link_to("6"), refused(Refusal::Target, 5));
    assert_eq!(link_to("-1"), refused(Refusal::Target, 5));
}

/// What the check and the older one say, and where they point.
fn both(schema: &str, proof: &str) -> [Judgement; 2] {
    let [schema, proof] = [schema, proof].map(str::as_bytes);
    [check_texts(schema, proof), check_older_texts(schema, proof)]
}

#[test]
fn proof_rows_written_twice() {
    let whole = |verdict| Judgement { verdict, fault: None };
    let accepted = whole(ACCEPTED);
    let at =
        |refusal, place: usize, line| Judgement { verdict: refused(refusal, place), fault: Some((Text::Proof, line)) };
    let and_rows = |rows: &str| changed(PROOF, "3 0 1 0\nup", &format!("3 0 1 0\n{rows}\nup"));
    assert_eq!(both(SCHEMA, PROOF), [accepted; 2]);
    // Row 9 is row 5, 8, 0 or 4 again: proof rows and schema rows, the first and the last of each.
    for row in ["7 0 2 1", "3 0 1 0", "2 0 2 0", "4 2 3 0"] {
        assert_eq!(both(SCHEMA, &and_rows(row)), [at(Refusal::Repeated, 9, 6), accepted], "{row}");
    }
    // Another number in one column only, each of the four.
    for row in ["3 0 1 1", "3 0 0 0", "3 1 1 0", "6 0 2 1"] {
        assert_eq!(both(SCHEMA, &and_rows(row)), [accepted; 2], "{row}");
    }
    // Rows 9 and 10 are rows 7 and 8 again, and nodes 3 to 6 use these.
    let mut used = and_rows("6 1 2 1\n3 0 1 0");
    for (from, to) in [("1 3 3 7 8 ", "1 3 3 9 10 "), ("0 2 7 8\n", "0 2 9 10\n"), ("1 5 7\n", "1 5 9\n")] {
        used = changed(&used, from, to);
    }
    used = changed(&used, "4 6 6 8 -1 -1 0 6 8\n", "4 6 6 10 -1 -1 0 6 10\n");
    assert_eq!(both(SCHEMA, &used), [at(Refusal::Repeated, 9, 6), accepted]);
    // Schema rows may repeat: row 3 is row 0.
    let schema = "root least\n2 1\nkind a b c\n2 0 1 0\n3 0 1 0\n4 0 1 0\n2 0 1 0\n";
    let proof = "kind a b c\nup rule on with other to by set\n-1 0 2 -1 -1 -1 0 2\n0 6 0 1 -1 -1 0 0 1\n";
    assert_eq!(both(schema, proof), [whole(Verdict::Accepted { nodes: 2, links: 0 }); 2]);

    // Row for row: 27 at row 9 comes before 7 at row 10, and 7 at row 9 before 27 at row 10.
    let first = and_rows("3 0 1 0\n9 0 0 0");
    assert_eq!(both(SCHEMA, &first), [at(Refusal::Repeated, 9, 6), at(Refusal::IllFormed, 10, 7)]);
    assert_eq!(both(SCHEMA, &and_rows("9 0 0 0\n3 0 1 0")), [at(Refusal::IllFormed, 9, 6); 2]);
    assert_eq!(both(SCHEMA, &and_rows("9 0 0 0\n9 0 0 0")), [at(Refusal::IllFormed, 9, 6); 2]);
    // A root that is not outer comes after, one that is no row before.
    let (twice, root) = (and_rows("3 0 1 0"), whole(refused(Refusal::Root, None)));
    assert_eq!(both(&changed(SCHEMA, "4 1\n", "0 1\n"), &twice), [at(Refusal::Repeated, 9, 6), root]);
    assert_eq!(both(&changed(SCHEMA, "4 1\n", "5 1\n"), &twice), [root; 2]);

    // The same as tables.
    let mut record = record();
    record.proof.rows.push(record.proof.rows[1]);
    assert_eq!(check(&record), refused(Refusal::Repeated, 9));
    assert_eq!(check_older(&record), ACCEPTED);
}

#[test]
fn the_models() {
    let root_3 = changed(SCHEMA, "4 1\n", "3 1\n");
    let model = |schema: &str, model: &str| check_model_texts(schema.as_bytes(), model.as_bytes()).verdict;
    let accepted = Verdict::Accepted { nodes: 0, links: 0 };
    assert_eq!(model(SCHEMA, "n\n1\nsymbol index\n"), refused(Refusal::False, None));
    assert_eq!(model(&root_3, "n\n1\nsymbol index\n"), accepted);
    assert_eq!(model(&root_3, "n\n0\nsymbol index\n"), refused(Refusal::Width, None));
    assert_eq!(model(&root_3, "n\n3\nsymbol index\n0 1\n"), accepted);
    assert_eq!(model(&root_3, "n\n3\nsymbol index\n0 3\n"), refused(Refusal::False, None));
    assert_eq!(model(&root_3, "n\n3\nsymbol index\n0 1\n0 1\n"), refused(Refusal::Pair, 1));
}

#[test]
fn the_record_as_tables() {
    let record = record();
    assert_eq!((record.schema.root, record.schema.least, record.schema.rows.len()), (4, 1, 5));
    assert_eq!(record.schema.rows[3], [6, 1, 2, 0]);
    assert_eq!((record.proof.rows.len(), record.proof.nodes.len(), record.proof.members.len()), (4, 7, 14));
    assert_eq!(record.proof.nodes[4], [3, 4, 2, 5, 6, -1, 0, 7, 3]);
    assert_eq!(record.proof.members[7..10], [2, 7, 8]);
    assert_eq!(check(&record), ACCEPTED);

    let mut built = Proof { rows: record.proof.rows.clone(), ..Proof::default() };
    for node in &record.proof.nodes {
        let [start, length] = [node[7], node[8]].map(|number| number as usize);
        built.push_node(node[..7].try_into().unwrap(), &record.proof.members[start..start + length]);
    }
    assert_eq!(built, record.proof);
}

#[test]
fn tables_that_are_no_record() {
    assert_eq!(check(&Record::default()), refused(Refusal::Root, None));
    let mut long = record();
    long.proof.rows.resize(1020, [0; 4]);
    assert_eq!(check(&long), refused(Refusal::TooMany, None));
    let mut without_nodes = record();
    without_nodes.proof = Proof::default();
    assert_eq!(check(&without_nodes), refused(Refusal::Parent, None));
    let mut extreme = record();
    extreme.proof.nodes[3] = [i32::MIN; 9];
    assert_eq!(check(&extreme), refused(Refusal::Set, 3));
    extreme = record();
    extreme.schema.rows[2] = [i32::MAX; 4];
    assert_eq!(check(&extreme), refused(Refusal::IllFormed, 2));
}

#[test]
fn texts_are_written_as_they_were_read() {
    let Record { schema, proof } = record();
    assert_eq!(write_schema(&schema).unwrap(), SCHEMA.as_bytes());
    assert_eq!(write_proof(&proof).unwrap(), PROOF.as_bytes());
    let model = b"n\n12\nsymbol index\n0 -3\n0 5\n255 29997\n";
    assert_eq!(read_model(model), Ok(Model { n: 12, pairs: vec![[0, -3], [0, 5], [255, 29997]] }));
    assert_eq!(write_model(&read_model(model).unwrap()).unwrap(), model);
}

#[test]
fn texts_refused_in_reading() {
    let err = |refusal, place: usize| Err(Refused { refusal, place: Some(place) });
    assert_eq!(read_schema(&vec![b'\n'; 65_537]), err(Refusal::TextTooLong, 0));
    assert_eq!(read_schema(b""), err(Refusal::Heading, 1));
    assert_eq!(read_schema(b"root least\r\n4 1\r\n"), err(Refusal::Heading, 1));
    assert_eq!(read_schema(b"root least\n4  1\n"), err(Refusal::Line, 2));
    assert_eq!(read_schema(b"root least\n4 1\nkind a b c\n0 0 0 0"), err(Refusal::Line, 4));
    assert_eq!(
        read_proof(b"kind a b c\n0 0 0 -0\n").map(|_| ()),
        Err(Refused { refusal: Refusal::Line, place: Some(2) })
    );
    assert_eq!(
        read_model(b"n\n1\nsymbol index\n0 100000\n").map(|_| ()),
        Err(Refused { refusal: Refusal::Line, place: Some(4) })
    );
    let many = ["n\n1\nsymbol index\n", &"0 0\n".repeat(4097)].concat();
    assert_eq!(read_model(many.as_bytes()).map(|_| ()), Err(Refused { refusal: Refusal::TooMany, place: Some(4100) }));
    assert_eq!(check_texts(b"", PROOF.as_bytes()).verdict, refused(Refusal::Heading, 1));
    assert_eq!(check_texts(SCHEMA.as_bytes(), b"").verdict, refused(Refusal::Heading, 1));
}

#[test]
fn tables_refused_in_writing() {
    let err = |refusal| Err(Refused { refusal, place: None });
    let schema = |count: usize, number: i32| Schema { root: number, least: 0, rows: vec![[number; 4]; count] };
    assert_eq!(write_schema(&schema(1, 100_000)), err(Refusal::Number));
    assert_eq!(write_schema(&schema(1025, 0)), err(Refusal::TooMany));
    assert!(write_schema(&schema(1024, -99_999)).is_ok());
    let Record { mut proof, .. } = record();
    proof.nodes[6][8] = 1;
    assert_eq!(write_proof(&proof), err(Refusal::Number));
    let long = Proof {
        rows: vec![[-99_999; 4]; 1024],
        nodes: vec![[-99_999, -99_999, -99_999, -99_999, -99_999, -99_999, -99_999, 0, 0]; 1024],
        members: vec![],
    };
    assert_eq!(write_proof(&long), err(Refusal::Output));
}

/// The line that a refusal points to, and what stands there.
fn pointed(texts: [&str; 2], fault: Option<(Text, usize)>) -> Option<(Text, usize, &str)> {
    fault.map(|(text, number)| {
        let bytes = texts[usize::from(text != Text::Schema)].as_bytes();
        (text, number, std::str::from_utf8(line(bytes, number)).unwrap())
    })
}

#[test]
fn lines_at_fault() {
    let check = |schema: &str, proof: &str| {
        let fault = check_texts(schema.as_bytes(), proof.as_bytes()).fault;
        pointed([schema, proof], fault).map(|(text, number, line)| (text, number, line.to_string()))
    };
    let at = |text, number, line: &str| Some((text, number, line.to_string()));
    assert_eq!(check(SCHEMA, PROOF), None);
    // A node, a schema row, a proof row; the root, which is no line.
    let by_2 = changed(PROOF, "-1 1 1 5 7\n", "-1 1 2 5 7\n");
    assert_eq!(check(SCHEMA, &by_2), at(Text::Proof, 12, "4 8 -1 -1 -1 1 2 5 7"));
    assert_eq!(check(&changed(SCHEMA, "4 2 3 0\n", "4 2 9 0\n"), PROOF), at(Text::Schema, 8, "4 2 9 0"));
    assert_eq!(check(SCHEMA, &changed(PROOF, "3 0 1 0\n", "3 0 3 0\n")), at(Text::Proof, 5, "3 0 3 0"));
    assert_eq!(check(&changed(SCHEMA, "4 1\n", "9 1\n"), PROOF), None);
    // Lines refused in reading, the schema's first.
    assert_eq!(check(&changed(SCHEMA, "4 1\n", "4 x\n"), "x\n"), at(Text::Schema, 2, "4 x"));
    assert_eq!(check(SCHEMA, "x\n"), at(Text::Proof, 1, "x"));
    assert_eq!(check("", PROOF), at(Text::Schema, 1, ""));
    assert_eq!(check(SCHEMA, &" ".repeat(65_537)), None);

    let root_3 = changed(SCHEMA, "4 1\n", "3 1\n");
    let model = |schema: &str, model: &str| check_model_texts(schema.as_bytes(), model.as_bytes()).fault;
    assert_eq!(model(&root_3, "n\n3\nsymbol index\n0 1\n"), None);
    assert_eq!(model(&root_3, "n\n3\nsymbol index\n0 1\n0 1\n"), Some((Text::Model, 5)));
    assert_eq!(model(&root_3, "n\n3\nsymbol index\n0\n"), Some((Text::Model, 4)));
    assert_eq!(model(&changed(SCHEMA, "4 2 3 0\n", "4 2 9 0\n"), "n\n3\nsymbol index\n"), Some((Text::Schema, 8)));
    assert_eq!(model(&root_3, "n\n3\nsymbol index\n0 3\n"), None);
}

#[test]
fn lines_by_number() {
    assert_eq!(line(b"one\ntwo", 1), b"one");
    for (text, number) in [(&b"one\ntwo"[..], 0), (b"one\ntwo", 2), (b"one\n", usize::MAX), (b"", 1)] {
        let found = line(text, number);
        assert_eq!((found.as_ptr(), found.len()), (text.as_ptr(), 0));
    }
}

#[test]
fn several_threads_at_once() {
    let record = record();
    std::thread::scope(|scope| {
        let threads: Vec<_> = (0..4).map(|_| scope.spawn(|| (0..500).all(|_| check(&record) == ACCEPTED))).collect();
        assert!(threads.into_iter().all(|thread| thread.join().unwrap()));
    });
}
