//! The proved library's speed beside the other implementation's, on the same inputs in one run:
//! `bench RECORDS`. Prints markdown.

use std::fs;
use std::hint::black_box;
use std::path::Path;
use zorambi::entries;
use zorambi::entries::check_older;
use zorambi_compare::calls::{self, of_library, of_reference, CheckEntry};
use zorambi_compare::convert;
use zorambi_compare::find;
use zorambi_compare::grow;
use zorambi_compare::heavy::{self, Part};
use zorambi_compare::join;
use zorambi_compare::records;
use zorambi_compare::small;
use zorambi_compare::tidy;
use zorambi_generate::models::ModelTables;
use zorambi_generate::tables::Tables;
use zorambi_generate::Input;
use zorambi_reference::grow::{Given, Memory, WAITING};
use zorambi_reference::tableau::{self, Record};
use zorambi_reference::{formula, model, text, Verdict};

/// Seconds that one call takes, the median of some rounds.
#[derive(Clone, Copy)]
struct Times {
    library: f64,
    reference: f64,
}

/// Seconds that this thread has been at work, which other programs on the machine do not add to.
fn clock() -> f64 {
    #[repr(C)]
    struct Time {
        seconds: i64,
        nanoseconds: i64,
    }
    extern "C" {
        fn clock_gettime(clock: i32, time: *mut Time) -> i32;
    }
    const THREAD_CPU_TIME: i32 = 3;
    let mut time = Time { seconds: 0, nanoseconds: 0 };
    let result = unsafe { clock_gettime(THREAD_CPU_TIME, &mut time) };
    assert_eq!(result, 0, "no clock of this thread's time");
    time.seconds as f64 + time.nanoseconds as f64 * 1e-9
}

/// Times both by turns: each round is a batch of calls of either.
fn time(mut library: impl FnMut(), mut reference: impl FnMut()) -> Times {
    let batches = [batch(&mut library), batch(&mut reference)];
    let (mut ours, mut theirs) = (Vec::new(), Vec::new());
    let begin = clock();
    while ours.len() < 3 || (ours.len() < 41 && clock() - begin < 0.5) {
        ours.push(one(&mut library, batches[0]));
        theirs.push(one(&mut reference, batches[1]));
    }
    Times { library: median(ours), reference: median(theirs) }
}

/// How many calls take about a millisecond.
fn batch(call: &mut impl FnMut()) -> usize {
    call();
    let once = one(call, 1).max(1e-8);
    (1e-3 / once).ceil() as usize
}

fn one(call: &mut impl FnMut(), batch: usize) -> f64 {
    let start = clock();
    for _ in 0..batch {
        call();
    }
    (clock() - start) / batch as f64
}

fn median(mut times: Vec<f64>) -> f64 {
    times.sort_by(f64::total_cmp);
    times[times.len() / 2]
}

/// Three digits with a unit.
fn shown(seconds: f64) -> String {
    let (value, unit) = match seconds {
        s if s < 1e-3 => (s * 1e6, "µs"),
        s if s < 1.0 => (s * 1e3, "ms"),
        s => (s, "s"),
    };
    let digits = if value < 10.0 { 2 } else { usize::from(value < 100.0) };
    format!("{value:.digits$} {unit}")
}

impl Times {
    /// The last three cells of a row.
    fn cells(self) -> String {
        let Times { library, reference } = self;
        format!("{} | {} | {:.2}", shown(library), shown(reference), library / reference)
    }
}

fn heading(cells: &str) {
    println!("\n| {cells} | library | Rust | ratio |");
    println!("|---|{}", "---:|".repeat(cells.split('|').count() + 2));
}

/// Both answer the same; otherwise there is nothing to compare.
fn same(name: &str, input: &Input) {
    let difference = of_library(input).and_then(|ours| ours.difference(&of_reference(input)));
    assert!(difference.is_none(), "{name}: {difference:?}");
}

/// A check of the other implementation.
type Check = fn(&Record) -> Verdict;

fn check(name: &str, t: &Tables) -> Times {
    same(name, &Input::Check(t.clone()));
    check_by(entries::check, tableau::check, t)
}

fn check_by_older(name: &str, t: &Tables) -> Times {
    same(name, &Input::CheckOlder(t.clone()));
    check_by(check_older, tableau::check_older, t)
}

fn check_by(library: CheckEntry, reference: Check, t: &Tables) -> Times {
    let record = t.record();
    time(
        || {
            black_box(calls::check(library, black_box(t)));
        },
        || {
            black_box(reference(black_box(&record)));
        },
    )
}

fn check_model(name: &str, m: &ModelTables) -> Times {
    same(name, &Input::Model(m.clone()));
    let ModelTables { root, least, schema, schema_count, n, pairs, pair_count } = m;
    time(
        || {
            black_box(entries::check_model(black_box(schema), *schema_count, *root, *least, *n, pairs, *pair_count));
        },
        || {
            black_box(model::check_model(*root, *least, black_box(schema), *schema_count, *n, pairs, *pair_count));
        },
    )
}

fn read_schema(name: &str, bytes: &[u8]) -> Times {
    same(name, &Input::ReadSchema { text: bytes.to_vec(), length: 4096, fill: 1 });
    let [mut ours, mut theirs] = [(); 2].map(|()| vec![1; 4096]);
    let mut results = [0; 3];
    time(
        || {
            black_box(entries::read_schema(black_box(bytes), &mut ours, &mut results));
        },
        || {
            black_box(text::read_schema(black_box(bytes), &mut theirs));
        },
    )
}

fn read_proof(name: &str, bytes: &[u8]) -> Times {
    same(name, &Input::ReadProof { text: bytes.to_vec(), lengths: [4096, 9216, 8192], fill: 1 });
    let [mut ours, mut theirs] = [(); 2].map(|()| [4096, 9216, 8192].map(|length| vec![1; length]));
    let mut results = [0; 3];
    time(
        || {
            let [rows, nodes, members] = &mut ours;
            black_box(entries::read_proof(black_box(bytes), rows, nodes, members, &mut results));
        },
        || {
            let [rows, nodes, members] = &mut theirs;
            black_box(text::read_proof(black_box(bytes), rows, nodes, members));
        },
    )
}

fn read_model(name: &str, bytes: &[u8]) -> Times {
    same(name, &Input::ReadModel { text: bytes.to_vec(), length: 8192, fill: 1 });
    let [mut ours, mut theirs] = [(); 2].map(|()| vec![1; 8192]);
    let mut results = [0; 2];
    time(
        || {
            black_box(entries::read_model(black_box(bytes), &mut ours, &mut results));
        },
        || {
            black_box(text::read_model(black_box(bytes), &mut theirs));
        },
    )
}

fn write_schema(name: &str, t: &Tables, length: usize) -> Times {
    let Tables { root, least, schema: rows, schema_count, .. } = t;
    let row_count = *schema_count;
    let input = Input::WriteSchema { root: *root, least: *least, rows: rows.clone(), row_count, length, fill: 1 };
    same(name, &input);
    let [mut ours, mut theirs] = [(); 2].map(|()| vec![1; length]);
    time(
        || {
            black_box(entries::write_schema(black_box(rows), row_count, *root, *least, &mut ours));
        },
        || {
            black_box(text::write_schema(*root, *least, black_box(rows), row_count, &mut theirs));
        },
    )
}

fn write_proof(name: &str, t: &Tables, length: usize) -> Times {
    same(name, &Input::WriteProof { proof: t.clone(), length, fill: 1 });
    let Tables { proof, proof_count, nodes, node_count, members, member_count, .. } = t;
    let [mut ours, mut theirs] = [(); 2].map(|()| vec![1; length]);
    time(
        || {
            black_box(entries::write_proof(
                black_box(proof),
                *proof_count,
                nodes,
                *node_count,
                members,
                *member_count,
                &mut ours,
            ));
        },
        || {
            black_box(text::write_proof(
                black_box(proof),
                *proof_count,
                nodes,
                *node_count,
                members,
                *member_count,
                &mut theirs,
            ));
        },
    )
}

fn write_model(name: &str, n: i32, pairs: &[i32], length: usize) -> Times {
    let pair_count = pairs.len() / 2;
    same(name, &Input::WriteModel { n, pairs: pairs.to_vec(), pair_count, length, fill: 1 });
    let [mut ours, mut theirs] = [(); 2].map(|()| vec![1; length]);
    time(
        || {
            black_box(entries::write_model(n, black_box(pairs), pair_count, &mut ours));
        },
        || {
            black_box(text::write_model(n, black_box(pairs), pair_count, &mut theirs));
        },
    )
}

/// A shipped record.
struct Shipped {
    name: String,
    /// It is marked as older.
    older: bool,
    schema: Vec<u8>,
    proof: Vec<u8>,
    model: Vec<u8>,
}

fn shipped(folder: &Path) -> Vec<Shipped> {
    let found = records::folders(folder);
    assert!(!found.is_empty(), "no records below {}", folder.display());
    let file = |folder: &Path, name: &str| fs::read(folder.join(name)).unwrap_or_default();
    let name = |folder: &Path| folder.file_name().unwrap_or_default().to_string_lossy().to_string();
    let record = |f: &Path| Shipped {
        name: name(f),
        older: f.join("older").is_file(),
        schema: file(f, "schema.txt"),
        proof: file(f, "proof.txt"),
        model: file(f, "model.txt"),
    };
    found.iter().map(|folder| record(folder)).collect()
}

fn check_row(name: &str, t: &Tables, older: bool) {
    let input = if older { Input::CheckOlder(t.clone()) } else { Input::Check(t.clone()) };
    let verdict = of_reference(&input);
    let answer = if verdict.answer() == 0 { "accepted".to_string() } else { format!("refused {}", verdict.answer()) };
    let rows = t.schema_count + t.proof_count;
    let times = if older { check_by_older(name, t) } else { check(name, t) };
    println!("| {name} | {answer} | {rows} | {} | {} | {} |", t.node_count, t.member_count, times.cells());
}

fn checks(shipped: &[Shipped]) {
    println!("\n## The check");
    heading("tableau | verdict | rows | nodes | members");
    for record in shipped {
        check_row(&record.name, &records::tables(&record.schema, &record.proof), record.older);
    }
    for (name, tables) in heavy::tableaux() {
        check_row(name, &tables, false);
    }
}

/// What it takes to find that no proof row is written twice: the check beside the older check.
fn none_twice() {
    println!("\n## Rows written twice");
    heading("tableau | check | rows");
    for (name, tables) in heavy::none_twice() {
        let rows = tables.schema_count + tables.proof_count;
        println!("| {name} | present | {rows} | {} |", check(name, &tables).cells());
        println!("| {name} | older | {rows} | {} |", check_by_older(name, &tables).cells());
    }
}

/// Older records tidied.
fn tidies(shipped: &[Shipped]) {
    println!("\n## Tidying");
    heading("record | rows | rows that stay | nodes | members");
    let adder = shipped.iter().find(|record| record.name == "rca_zero").expect("the adder's record");
    let of_records = [(adder.name.as_str(), records::tables(&adder.schema, &adder.proof))];
    for (name, t) in of_records.into_iter().chain(tidy::worst()) {
        let seen = tidy::of_both(&t).unwrap_or_else(|why| panic!("{name}: {why}"));
        let record = t.record();
        let [mut ours, mut theirs] = [(); 2].map(|()| [4096, 9216, 8192].map(|length| vec![1; length]));
        let mut results = [0; 3];
        let times = time(
            || {
                let [proof, nodes, members] = &mut ours;
                black_box(tidy::tidy(black_box(&t), proof, nodes, members, &mut results));
            },
            || {
                let [proof, nodes, members] = &mut theirs;
                black_box(zorambi_reference::tidy::tidy(black_box(&record), proof, nodes, members));
            },
        );
        let (rows, stay) = (t.schema_count + t.proof_count, t.schema_count + seen.results[0] as usize);
        println!("| {name} | {rows} | {stay} | {} | {} | {} |", t.node_count, t.member_count, times.cells());
    }
}

/// Two records joined.
fn joins(shipped: &[Shipped]) {
    println!("\n## Joining");
    heading("records | answer | rows | rows that stay | nodes | members");
    let of_record = |name: &str| {
        let record = shipped.iter().find(|record| record.name == name).expect("a shipped record");
        records::tables(&record.schema, &record.proof)
    };
    let of_records = [("the adder's and chain_either_end", [of_record("rca_zero"), of_record("chain_either_end")])];
    for (name, pair) in of_records.into_iter().chain(join::worst()) {
        let seen = join::of_both(pair.each_ref()).unwrap_or_else(|why| panic!("{name}: {why}"));
        let [mut ours, mut theirs] = [(); 2].map(|()| join::FULL.map(|length| vec![1; length]));
        let mut results = [0; 6];
        let times = time(
            || {
                let tables = ours.each_mut().map(Vec::as_mut_slice);
                black_box(join::of_entry(black_box(pair.each_ref()), tables, &mut results));
            },
            || {
                black_box(join::of_other(black_box(pair.each_ref()), &mut theirs));
            },
        );
        let rows: usize = 1 + pair.iter().map(|t| t.schema_count + t.proof_count).sum::<usize>();
        let [stay, nodes, members] = [seen.results[2] + seen.results[3], seen.results[4], seen.results[5]];
        println!("| {name} | {} | {rows} | {stay} | {nodes} | {members} | {} |", seen.answer(), times.cells());
    }
}

/// The last row added to a tableau that grows, beside one check of the same rows.
fn grows(shipped: &[Shipped]) {
    println!("\n## A tableau that grows");
    heading("the last row added | nodes | members | the check of the same rows | addition by check");
    let adder = shipped.iter().find(|record| record.name == "rca_zero").expect("the adder's record");
    let adder = (adder.name.as_str(), records::tables(&adder.schema, &adder.proof));
    for (name, t) in [adder].into_iter().chain(heavy::tableaux().into_iter().take(3)) {
        let check = check(name, &t).library;
        let add = add(name, &t);
        let of_check = format!("{} | {:.2}", shown(check), add.library / check);
        println!("| {name} | {} | {} | {of_check} | {} |", t.node_count, t.member_count, add.cells());
    }
}

fn add(name: &str, t: &Tables) -> Times {
    let Tables { root, least, schema, schema_count, proof, proof_count, .. } = t;
    let (root, least, schema_count, proof_count) = (*root, *least, *schema_count, *proof_count);
    let given = Given { root, least, schema, schema_count, proof, proof_count };
    let mut rows = grow::rows_of(t);
    let (row, set) = rows.pop().expect("a row to add");
    let before = [rows.len(), t.member_count - set.len()];
    let (nodes, members) = (t.nodes.clone(), t.members.clone());
    let mut theirs = Memory { nodes, members, held: before, shown: 0, waiting: [0; WAITING] };
    let Memory { mut nodes, mut members, mut held, mut waiting, .. } = theirs.clone();
    let mut shown = [0];
    let times = time(
        || {
            held = before;
            black_box(entries::add(
                black_box(schema),
                schema_count,
                proof,
                proof_count,
                root,
                least,
                &mut nodes,
                &mut members,
                &mut held,
                &mut shown,
                &row,
                &set,
                &mut waiting,
            ));
        },
        || {
            theirs.held = before;
            black_box(zorambi_reference::grow::add(black_box(&given), &mut theirs, &row, &set));
        },
    );
    assert_eq!((&nodes, &members, held, shown), (&theirs.nodes, &theirs.members, theirs.held, [1]), "{name}");
    times
}

fn model_tables(record: &Shipped) -> ModelTables {
    let Tables { root, least, schema, schema_count, .. } = records::tables(&record.schema, &record.proof);
    let mut pairs = vec![0; 8192];
    let read = text::read_model(&record.model, &mut pairs);
    pairs.truncate(read.pairs * 2);
    ModelTables { root, least, schema, schema_count, n: read.n, pairs, pair_count: read.pairs }
}

fn models(shipped: &[Shipped]) {
    println!("\n## The model check");
    heading("model | rows | n | pairs");
    let of_records = shipped.iter().filter(|record| !record.model.is_empty());
    let of_records = of_records.map(|record| (record.name.as_str(), model_tables(record)));
    for (name, m) in of_records.chain(heavy::models()) {
        println!("| {name} | {} | {} | {} | {} |", m.schema_count, m.n, m.pair_count, check_model(name, &m).cells());
    }
}

/// The first model at an n that is named.
fn finds() {
    println!("\n## A model at an n that is named");
    heading("schema | rows | size | n | answer");
    for (name, asked) in find::worst() {
        let seen = find::of_both(&asked).unwrap_or_else(|why| panic!("{name}: {why}"));
        let answer = if find::is_given(&seen) { format!("{} true pairs", seen.results[1]) } else { "none".to_string() };
        let find::Asked { root, least, schema, schema_count, n, length } = &asked;
        let [mut ours, mut theirs] = [(); 2].map(|()| vec![1; *length]);
        let mut results = [0; 2];
        let times = time(
            || {
                black_box(entries::find_model(
                    black_box(schema),
                    *schema_count,
                    *root,
                    *least,
                    *n,
                    &mut ours,
                    &mut results,
                ));
            },
            || {
                let schema = black_box(schema);
                black_box(zorambi_reference::find::find_model(*root, *least, schema, *schema_count, *n, &mut theirs));
            },
        );
        let size = formula::size(schema, *schema_count, *root).unwrap_or_default();
        println!("| {name} | {schema_count} | {size} | {n} | {answer} | {} |", times.cells());
    }
}

fn text_row(name: &str, bytes: usize, times: Times) {
    let speed = bytes as f64 / times.library / 1e6;
    println!("| {name} | {bytes} | {speed:.0} | {} |", times.cells());
}

/// The text that the other implementation writes.
fn proof_text(t: &Tables) -> Vec<u8> {
    let mut out = vec![0; zorambi::MAX_TEXT];
    let bytes =
        text::write_proof(&t.proof, t.proof_count, &t.nodes, t.node_count, &t.members, t.member_count, &mut out).bytes;
    out.truncate(bytes);
    out
}

fn texts(shipped: &[Shipped]) {
    println!("\n## Reading and writing");
    heading("text | bytes | MB/s");
    let adder = shipped.iter().find(|record| record.name == "rca_zero").expect("the adder's record");
    let adder_tables = records::tables(&adder.schema, &adder.proof);
    text_row("reading the adder's schema", adder.schema.len(), read_schema("adder", &adder.schema));
    text_row("reading the adder's proof", adder.proof.len(), read_proof("adder", &adder.proof));
    text_row(
        "writing the adder's schema",
        adder.schema.len(),
        write_schema("adder", &adder_tables, adder.schema.len()),
    );
    text_row("writing the adder's proof", adder.proof.len(), write_proof("adder", &adder_tables, adder.proof.len()));

    let (_, largest) = heavy::tableaux().swap_remove(0);
    let proof = proof_text(&largest);
    text_row("reading the largest record's proof", proof.len(), read_proof("largest", &proof));
    text_row("writing the largest record's proof", proof.len(), write_proof("largest", &largest, proof.len()));

    let long = heavy::wide_proof(1024, 545);
    let text = proof_text(&long);
    text_row("reading a proof of large numbers", text.len(), read_proof("long", &text));
    text_row("writing a proof of large numbers", text.len(), write_proof("long", &long, text.len()));

    let rows = vec![-9999; 4096];
    let mut schema = Tables { schema: rows.clone(), schema_count: 1024, ..adder_tables };
    (schema.root, schema.least) = (1023, 9999);
    let mut out = vec![0; zorambi::MAX_TEXT];
    let bytes = text::write_schema(1023, 9999, &rows, 1024, &mut out).bytes;
    text_row("reading a schema of 1,024 rows", bytes, read_schema("schema", &out[..bytes]));
    text_row("writing a schema of 1,024 rows", bytes, write_schema("schema", &schema, bytes));

    let pairs: Vec<i32> = (0..4096).flat_map(|at| [255, -29_997 + at]).collect();
    let mut out = vec![0; zorambi::MAX_TEXT];
    let bytes = text::write_model(9999, &pairs, 4096, &mut out).bytes;
    text_row("reading a model of 4,096 pairs", bytes, read_model("model", &out[..bytes]));
    text_row("writing a model of 4,096 pairs", bytes, write_model("model", 9999, &pairs, bytes));
}

/// All small schemata, one after another. The other implementation has its list made before.
fn smalls() {
    println!("\n## All small schemata");
    heading("rows | tables");
    for rows in 1..=3 {
        let (count, last) = small::walked(rows);
        let listed = zorambi_reference::small::all(rows);
        assert!(listed.len() == count && listed.last() == Some(&last), "tables of {rows} rows");
        let times = time(
            || {
                black_box(small::walked(black_box(rows)));
            },
            || {
                let (mut table, mut next) = (vec![0; 4 * rows], vec![0; 4 * rows]);
                while zorambi_reference::small::next_small(black_box(&table), rows, &mut next).nodes == 1 {
                    std::mem::swap(&mut table, &mut next);
                }
            },
        );
        println!("| {rows} | {count} | {} |", times.cells());
    }
}

/// Wide connectives written in plain rows.
fn converts() {
    println!("\n## Wide connectives");
    heading("wide schema | answer | rows | plain rows");
    for (name, asked) in convert::worst() {
        let seen = convert::of_both(&asked).unwrap_or_else(|why| panic!("{name}: {why}"));
        let convert::Asked { root, least, wide, wide_count, length } = &asked;
        let [mut ours, mut theirs] = [(); 2].map(|()| vec![1; *length]);
        let mut results = [0; 3];
        let times = time(
            || {
                black_box(entries::convert(black_box(wide), *wide_count, *root, *least, &mut ours, &mut results));
            },
            || {
                let wide = black_box(wide);
                black_box(zorambi_reference::convert::convert(*root, *least, wide, *wide_count, &mut theirs));
            },
        );
        println!("| {name} | {} | {wide_count} | {} | {} |", seen.answer(), seen.results[2], times.cells());
    }
}

/// A family: its cost as one number doubles, and the factor from the row before.
fn growth(what: &str, sizes: &[usize], cost: impl Fn(usize) -> Times) {
    println!("\n| {what} | library | factor | Rust | factor | ratio |");
    println!("|---:|---:|---:|---:|---:|---:|");
    let mut before: Option<Times> = None;
    for size in sizes {
        let times = cost(*size);
        let factor = |now: f64, then: Option<f64>| then.map_or(String::new(), |then| format!("{:.1}", now / then));
        println!(
            "| {size} | {} | {} | {} | {} | {:.2} |",
            shown(times.library),
            factor(times.library, before.map(|times| times.library)),
            shown(times.reference),
            factor(times.reference, before.map(|times| times.reference)),
            times.library / times.reference
        );
        before = Some(times);
    }
}

fn all_growth() {
    println!("\n## Growth");
    let doubled = [64, 128, 256, 512, 1024];
    growth("formula rows", &doubled, |size| check("rows", &heavy::rows(size)));
    growth("nodes, 8 members each", &doubled, |size| check("nodes", &heavy::splits(size, 8)));
    growth("members in 256 nodes", &[512, 1024, 2048, 4096, 8192], |size| {
        check("members", &heavy::splits(256, size / 256))
    });
    growth("links of 14 small rows", &[16, 32, 64, 128, 256], |size| {
        check("links", &heavy::links(12, size, Part::None))
    });
    growth("small rows in a set, 20 links", &[8, 16, 32, 64], |size| {
        check("rows of links", &heavy::links(size, 20, Part::None))
    });
    growth("unfoldings with instances of size 4,033", &doubled[..4], |size| {
        check("unfoldings", &heavy::unfoldings(size))
    });
    growth("size of parts in either order, 40 links of 20 rows", &[127, 255, 511, 1023, 2047], |size| {
        check("size", &heavy::links(20, 40, Part::Levels(size.ilog2() as usize)))
    });
    growth("rows of size 4,033 in either order, 20 links", &[4, 8, 16, 32], |size| {
        check("rows in either order", &heavy::links(size, 20, Part::Twins))
    });
    growth("links of 10 rows of size 4,033 in either order", &[20, 40, 80, 160, 320], |size| {
        check("links in either order", &heavy::links(10, size, Part::Twins))
    });
    growth("proof rows read, and half as many nodes", &doubled, |size| {
        read_proof("reading", &proof_text(&heavy::wide_proof(size, size / 2)))
    });
    growth("proof rows written, and half as many nodes", &doubled, |size| {
        let tables = heavy::wide_proof(size, size / 2);
        write_proof("writing", &tables, proof_text(&tables).len())
    });
}

fn processor() -> String {
    let about = fs::read_to_string("/proc/cpuinfo").unwrap_or_default();
    let model = about.lines().find_map(|line| line.strip_prefix("model name")?.split_once(": "));
    model.map_or("an unknown processor".to_string(), |(_, name)| name.to_string())
}

fn main() {
    let Some(folder) = std::env::args().nth(1) else {
        eprintln!("use: bench RECORDS");
        std::process::exit(2)
    };
    let shipped = shipped(Path::new(&folder));
    println!("# Benchmark\n");
    println!(
        "The proved library beside the other implementation (`tests/reference`, plain Rust built for release), on the same inputs\n\
         in one run, by turns. Times are medians of one call's CPU time; the ratio is the library's time by the other's. Measured\n\
         on {}. `./zorambi bench` prints this page up to its notes.",
        processor()
    );
    checks(&shipped);
    none_twice();
    tidies(&shipped);
    joins(&shipped);
    grows(&shipped);
    models(&shipped);
    finds();
    texts(&shipped);
    converts();
    smalls();
    all_growth();
}
