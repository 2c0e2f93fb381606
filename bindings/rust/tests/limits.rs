//! Numbers at the limits of what comes back in one: many nodes and links, places far on, a text as long as texts may be;
//! and the schema's refusal before the other text's.

use zorambi::{
    check, check_model_texts, check_older, check_older_texts, check_texts, join, read_proof, tidy, write_proof,
    Growing, Judgement, Proof, Record, Refusal, Refused, Schema, Text, Verdict,
};

/// The paper's record with so many splits before its link, each with a link of its own: a node of a range of one value,
/// and the rest.
fn with_splits(splits: i32) -> Record {
    let schema =
        Schema { root: 4, least: 1, rows: vec![[2, 0, 2, 0], [3, 0, 2, 0], [7, 0, 2, 0], [6, 1, 2, 0], [4, 2, 3, 0]] };
    let mut proof = Proof { rows: vec![[7, 0, 2, 1], [2, 0, 1, 0], [6, 1, 2, 1], [3, 0, 1, 0]], ..Proof::default() };
    proof.push_node([-1, 0, 4, -1, -1, -1, 0], &[4]);
    proof.push_node([0, 2, -1, -1, -1, -1, 0], &[2, 3]);
    proof.push_node([1, 7, 2, -1, -1, -1, 0], &[2, 3]);
    proof.push_node([1, 3, 3, 7, 8, -1, 0], &[2, 3]);
    proof.push_node([3, 4, 2, 5, 6, -1, 0], &[2, 7, 8]);
    let (split, link) = ([2, -1, -1, -1, -1, 0], [8, -1, -1, -1, 1, 1]);
    let node = |up: i32, [rule, on, with, other, to, by]: [i32; 6]| [up, rule, on, with, other, to, by];
    proof.push_node(node(4, if splits == 0 { link } else { split }), &[5, 7]);
    proof.push_node([4, 6, 6, 8, -1, -1, 0], &[6, 8]);
    let mut above = 5;
    for left in (0..splits).rev() {
        let number = proof.nodes.len() as i32;
        proof.push_node(node(above, link), &[5, 7]);
        proof.push_node(node(above, if left == 0 { link } else { split }), &[5, 7]);
        above = number + 1;
    }
    Record { schema, proof }
}

fn refused(refusal: Refusal, place: usize) -> Verdict {
    Verdict::Refused { refusal, place: Some(place) }
}

#[test]
fn counts_of_three_digits_and_four() {
    for splits in [0, 1, 127, 255, 299, 508] {
        let (nodes, links) = (7 + 2 * splits as usize, 1 + splits as usize);
        let record = with_splits(splits);
        assert_eq!(check(&record), Verdict::Accepted { nodes, links });
        assert_eq!(check_older(&record), Verdict::Accepted { nodes, links });
    }
    // A node more than there may be.
    assert_eq!(check(&with_splits(509)), Verdict::Refused { refusal: Refusal::TooMany, place: None });
}

#[test]
fn places_far_on() {
    let mut record = with_splits(508);
    // The last node's link lowers n by more than its target lets it.
    record.proof.nodes[1022][6] = 600;
    assert_eq!(check(&record), refused(Refusal::Bound, 1022));
    record.proof.nodes[1022][1] = 9;
    assert_eq!(check(&record), refused(Refusal::Fields, 1022));
    // The last of 1,024 rows.
    let mut record = with_splits(0);
    record.proof.rows.extend((0..1015).map(|k| [2, 1, 0, k]));
    assert_eq!(check(&record), Verdict::Accepted { nodes: 7, links: 1 });
    record.proof.rows[1018] = [9, 0, 0, 0];
    assert_eq!(check(&record), refused(Refusal::IllFormed, 1023));
    record.proof.rows[1018] = record.proof.rows[0];
    assert_eq!(check(&record), refused(Refusal::Repeated, 1023));
}

#[test]
fn counts_of_a_tableau_that_grows() {
    let record = with_splits(508);
    let mut growing = Growing::begin(record.schema.clone(), record.proof.rows.clone()).unwrap();
    let mut links = 0;
    for (at, node) in record.proof.nodes.iter().enumerate() {
        let [up, rule, on, with, other, to, by, start, length] = *node;
        let set = &record.proof.members[start as usize..(start + length) as usize];
        let standing = growing.add([up, rule, on, with, other, to, by], set).unwrap();
        links += usize::from(rule == 8);
        assert_eq!((standing.nodes, standing.links, standing.closed), (at + 1, links, at == 1022));
    }
    assert_eq!(growing.record(), record);
}

#[test]
fn joined_and_tidied() {
    let record = with_splits(200);
    let joined = join(&record, &with_splits(299)).unwrap();
    assert_eq!(check(&joined), Verdict::Accepted { nodes: 407 + 605 + 1, links: 201 + 300 });
    assert_eq!(tidy(&joined), Ok(joined.proof.clone()));
}

/// A number whose text has so many bytes more than one.
fn wide(more: usize) -> i32 {
    [0, 10, 100, 1000, 10_000, -10_000][more]
}

/// A proof, no rule of which is kept, whose text has so many bytes: 1,024 rows and 1,024 nodes, in which each number and
/// what is behind it takes two bytes and up to five more.
fn proof_of(bytes: usize) -> Proof {
    let mut left = bytes - "kind a b c\nup rule on with other to by set\n".len() - 2 * (4 + 7) * 1024;
    let mut number = || {
        let more = left.min(5);
        left -= more;
        wide(more)
    };
    let rows = (0..1024).map(|_| std::array::from_fn(|_| number())).collect();
    let mut proof = Proof { rows, ..Proof::default() };
    for _ in 0..1024 {
        proof.push_node(std::array::from_fn(|_| number()), &[]);
    }
    assert_eq!(left, 0);
    proof
}

#[test]
fn a_text_of_65_536_bytes() {
    let proof = proof_of(65_536);
    let text = write_proof(&proof).unwrap();
    assert_eq!(text.len(), 65_536);
    assert_eq!(read_proof(&text), Ok(proof));
    let shorter = proof_of(65_535);
    assert_eq!(write_proof(&shorter).map(|text| text.len()), Ok(65_535));
    assert_eq!(write_proof(&proof_of(65_537)), Err(Refused { refusal: Refusal::Output, place: None }));
    let mut longer = text;
    longer.push(b'\n');
    assert_eq!(read_proof(&longer), Err(Refused { refusal: Refusal::TextTooLong, place: Some(0) }));
}

#[test]
fn the_schema_before_the_other_text() {
    let schema = b"root least\n4 1\nkind a b c\n2 0 2 00\n";
    let proof = b"kind a b c\n7 0 2 01\n";
    let model = b"n\n03\n";
    let at = |text, line| Judgement { verdict: refused(Refusal::Line, line), fault: Some((text, line)) };
    let read = b"root least\n4 1\nkind a b c\n";
    for check in [check_texts, check_older_texts] {
        assert_eq!(check(schema, proof), at(Text::Schema, 4));
        assert_eq!(check(read, proof), at(Text::Proof, 2));
    }
    assert_eq!(check_model_texts(schema, model), at(Text::Schema, 4));
    assert_eq!(check_model_texts(read, model), at(Text::Model, 2));
}
