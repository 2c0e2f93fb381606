//! What is told of the tools' own refusals: a limit is told exactly where the library turns away for it, and the numbers are those that
//! 01 and 02 give.

use zorambi::{
    check, check_model, convert, join, read_proof, read_schema, Model, Proof, Record, Refusal, Refused, Row, Schema,
    Verdict,
};
use zorambi_explain::{Tables, Voice, Why};

fn refused(refusal: Refusal) -> Refused {
    Refused { refusal, place: None }
}

/// The sentence, if a reason is found.
fn found(why: Why) -> Option<String> {
    why.found.then_some(why.line)
}

fn of_convert(refused: Refused, wide: &Schema) -> Option<String> {
    found(zorambi_explain::convert(&wide.into(), refused, &Voice::default()))
}

fn of_join(refused: Refused, first: &Record, second: &Record) -> Option<String> {
    found(zorambi_explain::join(first, second, refused))
}

fn of_check(refused: Refused, record: &Record) -> Option<String> {
    found(zorambi_explain::check(&Tables::from(record), refused, &Voice::default()))
}

/// The record of the paper.
fn paper() -> Record {
    let folder = std::path::Path::new(env!("CARGO_MANIFEST_DIR")).join("../../records/paper/some_and_none");
    let text = |name: &str| std::fs::read(folder.join(name)).unwrap();
    Record { schema: read_schema(&text("schema.txt")).unwrap(), proof: read_proof(&text("proof.txt")).unwrap() }
}

/// Numbers that follow from a seed.
struct Numbers(u64);

impl Numbers {
    fn below(&mut self, limit: i32) -> i32 {
        self.0 = self.0.wrapping_mul(6_364_136_223_846_793_005).wrapping_add(1_442_695_040_888_963_407);
        (self.0 >> 33) as i32 % limit
    }
}

#[test]
fn plain_limits_exactly_where_the_library_says_so() {
    let mut numbers = Numbers(2);
    let mut turned_away = 0;
    for _ in 0..3000 {
        let mut rows: Vec<Row> = vec![[2, 0, 1, 0], [3, 1, 1, 0]];
        let count = 3 + numbers.below(14);
        while (rows.len() as i32) < count {
            let last = rows.len() as i32 - 1;
            let part = last - numbers.below(2.min(last + 1));
            let kind = 4 + [0, 1, 4, 5, 6, 7, 6, 7][numbers.below(8) as usize];
            rows.push([kind, last, if kind == 8 { 0 } else { part }, 0]);
        }
        let wide = Schema { root: 0, least: 0, rows };
        match convert(&wide) {
            Err(refused) if refused.refusal == Refusal::Plain => {
                turned_away += 1;
                let told = of_convert(refused, &wide).unwrap();
                assert!(told.starts_with("wide row ") && told.ends_with(", 4,096 allowed"), "{told}");
            }
            other => {
                // The limit of wide rows is told by another number.
                let is_large = other.is_err_and(|refused| refused.refusal == Refusal::TooLarge);
                assert!(is_large || of_convert(refused(Refusal::Plain), &wide).is_none(), "{wide:?}");
            }
        }
    }
    assert!(turned_away > 100, "{turned_away}");
    let many = |count: usize| {
        let mut rows = vec![[2, 0, 1, 0]; 1];
        rows.extend(vec![[11, 0, 0, 0]; count]);
        Schema { root: 0, least: 0, rows }
    };
    assert!(convert(&many(170)).is_ok() && of_convert(refused(Refusal::Plain), &many(170)).is_none());
    let told = of_convert(convert(&many(171)).unwrap_err(), &many(171)).unwrap();
    assert_eq!(told, "its 172 wide rows come to 1,028 plain rows, 1,024 allowed");
    // A depth: each not or and is one deep in the wide, an equivalence two in the plain.
    let mut rows: Vec<Row> = vec![[2, 0, 1, 0]];
    rows.extend((0..40).map(|row| [4, row, row.min(0), 0]));
    let deep = Schema { root: 0, least: 0, rows };
    assert!(convert(&deep).is_ok() && of_convert(refused(Refusal::Plain), &deep).is_none());
}

#[test]
fn the_row_that_is_repeated() {
    let record = paper();
    for (row, earlier) in [
        ([2, 0, 2, 0], "0 (schema.txt:4)"),
        ([4, 2, 3, 0], "4 (schema.txt:8)"),
        ([7, 0, 2, 1], "5 (proof.txt:2)"),
        ([3, 0, 1, 0], "8 (proof.txt:5)"),
    ] {
        let mut record = record.clone();
        record.proof.rows.push(row);
        let Verdict::Refused { refusal, place } = check(&record) else { panic!() };
        assert_eq!((refusal, place), (Refusal::Repeated, Some(9)));
        assert_eq!(of_check(Refused { refusal, place }, &record).unwrap(), format!("row 9 is row {earlier} again"));
    }
    let none = of_check(Refused { refusal: Refusal::Repeated, place: Some(8) }, &record);
    assert_eq!(none, None);
    let model = Model { n: 10_000, pairs: vec![] };
    let Verdict::Refused { refusal, place } = check_model(&record.schema, &model) else { panic!() };
    let refused = Refused { refusal, place };
    let why = zorambi_explain::model(&(&record.schema).into(), model.n, (&[], 0), refused, &Voice::default());
    assert_eq!(found(why).unwrap(), "n is 10000, over 9999: 1 too large");
}

/// False at once, with these schema rows after it and these proof rows.
fn tiny(rows: &[Row], proof_rows: &[Row]) -> Record {
    let mut proof = Proof { rows: proof_rows.to_vec(), ..Proof::default() };
    proof.push_node([-1, 5, 0, -1, -1, -1, 0], &[0]);
    Record { schema: Schema { root: 0, least: 0, rows: [&[[1, 0, 0, 0]], rows].concat() }, proof }
}

/// What is told of a join, which is turned away with 29 exactly if something is.
fn joint(first: &Record, second: &Record) -> Option<String> {
    let turned_away = join(first, second).err();
    if let Some(refused) = turned_away {
        assert_eq!(refused.refusal, Refusal::Joint);
    }
    let told = of_join(refused(Refusal::Joint), first, second);
    assert_eq!(told.is_some(), turned_away.is_some(), "{told:?}");
    told
}

#[test]
fn joint_limits_exactly_where_the_library_says_so() {
    // Proof rows of both that are the same are written once: 1 + 1 + 1 + 600 rows; others are not.
    let rows = |from: i32, count: i32| (from..from + count).map(|c| [2, 0, 1, c]).collect::<Vec<Row>>();
    let first = tiny(&[], &rows(0, 600));
    assert_eq!(joint(&first, &tiny(&[], &rows(0, 600))), None);
    assert_eq!(joint(&first, &tiny(&[], &rows(600, 421))), None);
    assert_eq!(
        joint(&first, &tiny(&[], &rows(600, 422))).unwrap(),
        "the join would have 1,025 formula rows, 1,024 allowed"
    );
    assert_eq!(joint(&first, &tiny(&[], &rows(500, 521))), None);
    assert_eq!(
        joint(&first, &tiny(&[], &rows(500, 522))).unwrap(),
        "the join would have 1,025 formula rows, 1,024 allowed"
    );
    // Rows on other rows that are the same after renumbering, and proof rows that the other's schema has.
    let on = |from: i32| vec![[2, 0, 1, 1], [4, from, from, 0], [5, from + 1, from, 0]];
    assert_eq!(joint(&tiny(&[], &on(1)), &tiny(&[[0; 4]; 1017], &on(1018))), None);
    assert!(joint(&tiny(&[], &on(1)), &tiny(&[[0; 4]; 1019], &on(1020))).is_some());
    assert_eq!(of_join(refused(Refusal::Leasts), &first, &first), None);
    // Nodes and members: splits below one another.
    let split = |nodes: i32, members: usize| {
        let spare: Vec<Row> = (0..members as i32).map(|c| [2, 0, 1, c]).collect();
        let mut record = tiny(&spare, &[]);
        record.proof = Proof::default();
        let root = record.schema.rows.len() as i32;
        let mut formula = 0;
        // false and (row and (row and ..)): all of them in every set below.
        for row in 1..root {
            record.schema.rows.push([4, row, formula, 0]);
            formula = record.schema.rows.len() as i32 - 1;
        }
        record.schema.root = formula;
        let mut set = vec![formula];
        while set[set.len() - 1] >= root || set.len() == 1 && set[0] != 0 {
            let on = *set.iter().max().unwrap();
            let up = record.proof.nodes.len() as i32 - 1;
            record.proof.push_node([up, 0, on, -1, -1, -1, 0], &set);
            let [_, a, b, _] = record.schema.rows[on as usize];
            set.retain(|row| *row != on);
            set.extend([a, b]);
            set.sort_unstable();
            set.dedup();
        }
        let mut up = record.proof.nodes.len() as i32 - 1;
        while (record.proof.nodes.len() as i32) < nodes - 2 {
            record.proof.push_node([up, 2, -1, -1, -1, -1, 0], &set);
            up = record.proof.nodes.len() as i32 - 1;
            record.proof.push_node([up, 5, 0, -1, -1, -1, 0], &set);
        }
        record.proof.push_node([up, 5, 0, -1, -1, -1, 0], &set);
        assert!(check(&record).is_accepted(), "{:?}", check(&record));
        record
    };
    let [some, more] = [split(500, 1), split(530, 1)];
    assert_eq!(joint(&some, &some), None);
    let nodes = 1 + some.proof.nodes.len() + more.proof.nodes.len();
    assert!(nodes > 1024);
    assert_eq!(joint(&some, &more).unwrap(), format!("the join would have 1,0{} nodes, 1,024 allowed", nodes - 1000));
    let wide = split(400, 11);
    let members = 1 + 2 * wide.proof.members.len();
    assert!(members > 8192, "{members}");
    assert!(joint(&wide, &wide).unwrap().ends_with(" members, 8,192 allowed"));
    // Size and depth of the or: 4,095 rows in either root are too many, 64 deep is too deep.
    let deep = |depth: i32| {
        let mut rows: Vec<Row> = (1..depth).map(|row| [4, row - 1, 0, 0]).collect();
        rows.insert(0, [1, 0, 0, 0]);
        let mut record = tiny(&[], &[]);
        record.schema = Schema { root: depth - 1, least: 0, rows };
        record.proof = Proof::default();
        let mut set = vec![depth - 1];
        for row in (1..depth).rev() {
            let up = record.proof.nodes.len() as i32 - 1;
            record.proof.push_node([up, 0, row, -1, -1, -1, 0], &set);
            set = vec![0];
            if row > 1 {
                set.push(row - 1);
            }
        }
        let up = record.proof.nodes.len() as i32 - 1;
        record.proof.push_node([up, 5, 0, -1, -1, -1, 0], &[0]);
        assert!(check(&record).is_accepted(), "{:?}", check(&record));
        record
    };
    assert_eq!(joint(&deep(63), &deep(63)), None);
    assert_eq!(joint(&deep(2), &deep(64)).unwrap(), "the join would have a root of depth 65, 64 allowed");
}
