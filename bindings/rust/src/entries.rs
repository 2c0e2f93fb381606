//! The library's entries as `include/zorambi.h` declares them: tables with counts in, one number back.
//!
//! No entry asks for anything: tables may be shorter or longer than their counts say, and counts and
//! numbers may be whatever they are. The answer is then a refusal. [`crate::check`] and its neighbours
//! are easier to use.

/// Declares an entry of the library, and the function that calls it: a slice is handed on as its pointer
/// and its length, an array of the length that the entry has as its pointer, a number as it is. A slice's
/// pointer is never null, as the library asks.
macro_rules! entry {
    ($(#[$about:meta])* $name:ident = $entry:ident($($given:tt)*)) => {
        entry!(@ ($(#[$about])* $name $entry) ($($given)*,) () () ());
    };
    (@ $names:tt ($x:ident: &[$t:ty], $($left:tt)*) ($($c:tt)*) ($($rust:tt)*) ($($handed:tt)*)) => {
        entry!(@ $names ($($left)*) ($($c)* $x: *const $t, _: usize,) ($($rust)* $x: &[$t],)
            ($($handed)* $x.as_ptr(), $x.len(),));
    };
    (@ $names:tt ($x:ident: &mut [$t:ty], $($left:tt)*) ($($c:tt)*) ($($rust:tt)*) ($($handed:tt)*)) => {
        entry!(@ $names ($($left)*) ($($c)* $x: *mut $t, _: usize,) ($($rust)* $x: &mut [$t],)
            ($($handed)* $x.as_mut_ptr(), $x.len(),));
    };
    (@ $names:tt ($x:ident: &mut [$t:ty; $k:expr], $($left:tt)*) ($($c:tt)*) ($($rust:tt)*) ($($handed:tt)*)) => {
        entry!(@ $names ($($left)*) ($($c)* $x: *mut $t,) ($($rust)* $x: &mut [$t; $k],)
            ($($handed)* $x.as_mut_ptr(),));
    };
    (@ $names:tt ($x:ident: &[$t:ty; $k:expr], $($left:tt)*) ($($c:tt)*) ($($rust:tt)*) ($($handed:tt)*)) => {
        entry!(@ $names ($($left)*) ($($c)* $x: *const $t,) ($($rust)* $x: &[$t; $k],) ($($handed)* $x.as_ptr(),));
    };
    (@ $names:tt ($x:ident: $t:ty, $($left:tt)*) ($($c:tt)*) ($($rust:tt)*) ($($handed:tt)*)) => {
        entry!(@ $names ($($left)*) ($($c)* $x: $t,) ($($rust)* $x: $t,) ($($handed)* $x,));
    };
    (@ ($(#[$about:meta])* $name:ident $entry:ident) ($(,)?) ($($c:tt)*) ($($rust:tt)*) ($($handed:tt)*)) => {
        $(#[$about])*
        #[allow(clippy::too_many_arguments)]
        pub fn $name($($rust)*) -> u64 {
            extern "C" {
                fn $entry($($c)*) -> u64;
            }
            unsafe { $entry($($handed)*) }
        }
    };
}

entry! {
    /// The check: four tables with their counts, the root and the least value.
    check = zorambi_check(
        schema: &[i32],
        schema_rows: usize,
        proof: &[i32],
        proof_rows: usize,
        root: i32,
        least: i32,
        nodes: &[i32],
        node_rows: usize,
        members: &[i32],
        member_count: usize,
    )
}

entry! {
    /// The check of older records: the same without the refusal of a proof row that is written twice.
    check_older = zorambi_check_older(
        schema: &[i32],
        schema_rows: usize,
        proof: &[i32],
        proof_rows: usize,
        root: i32,
        least: i32,
        nodes: &[i32],
        node_rows: usize,
        members: &[i32],
        member_count: usize,
    )
}

entry! {
    /// The model check.
    check_model = zorambi_check_model(
        schema: &[i32],
        schema_rows: usize,
        root: i32,
        least: i32,
        n: i32,
        pairs: &[i32],
        pair_rows: usize,
    )
}

entry! {
    /// Reads a schema text. Results: root, least, rows.
    read_schema = zorambi_read_schema(text: &[u8], table: &mut [i32], results: &mut [i32; 3])
}

entry! {
    /// Reads a proof text. Results: rows, nodes, members.
    read_proof = zorambi_read_proof(
        text: &[u8],
        table: &mut [i32],
        nodes: &mut [i32],
        members: &mut [i32],
        results: &mut [i32; 3],
    )
}

entry! {
    /// Reads a model text. Results: n, pairs.
    read_model = zorambi_read_model(text: &[u8], pairs: &mut [i32], results: &mut [i32; 2])
}

entry! {
    /// Writes a schema text. The number that comes back has the text's bytes in its lower 26 bits.
    write_schema = zorambi_write_schema(table: &[i32], rows: usize, root: i32, least: i32, out: &mut [u8])
}

entry! {
    /// Writes a proof text. The number that comes back has the text's bytes in its lower 26 bits.
    write_proof = zorambi_write_proof(
        table: &[i32],
        rows: usize,
        nodes: &[i32],
        node_rows: usize,
        members: &[i32],
        member_count: usize,
        out: &mut [u8],
    )
}

entry! {
    /// Writes a model text. The number that comes back has the text's bytes in its lower 26 bits.
    write_model = zorambi_write_model(n: i32, pairs: &[i32], pair_rows: usize, out: &mut [u8])
}

/// Where line `k`, counted from 1, starts in the text, and its length without its byte 10; both 0 if
/// there is no such finished line.
pub fn line(text: &[u8], k: usize) -> [usize; 2] {
    extern "C" {
        fn zorambi_line(text: *const u8, text_len: usize, k: usize, span: *mut usize);
    }
    let mut span = [0; 2];
    unsafe { zorambi_line(text.as_ptr(), text.len(), k, span.as_mut_ptr()) };
    span
}

entry! {
    /// Reads a schema text, then a proof text, and checks the record. Above the verdict's number, from bit 44 on, stands where a
    /// refusal points: twice the line, from 1, and 1 more if it is the proof's; line 0 is none.
    check_texts = zorambi_check_texts(schema: &[u8], proof: &[u8])
}

entry! {
    /// The same with the older check.
    check_older_texts = zorambi_check_older_texts(schema: &[u8], proof: &[u8])
}

entry! {
    /// The same with a model text.
    check_model_texts = zorambi_check_model_texts(schema: &[u8], model: &[u8])
}

// A failing width.

entry! {
    /// Finds a model at n. The number that comes back has 1 as its count of nodes where one is given, and 0 where
    /// there is none. Results: n, pairs.
    find_model = zorambi_find_model(
        schema: &[i32],
        schema_rows: usize,
        root: i32,
        least: i32,
        n: i32,
        pairs: &mut [i32],
        results: &mut [i32; 2],
    )
}

// Connectives as designers write them.

entry! {
    /// Makes plain rows of wide ones. Results: root, least, rows.
    convert = zorambi_convert(
        wide: &[i32],
        wide_rows: usize,
        root: i32,
        least: i32,
        plain: &mut [i32],
        results: &mut [i32; 3],
    )
}

// All small schemata.

entry! {
    /// The small table after the given one. The number that comes back has 1 as its count of nodes where one is given, and
    /// 0 where the given table is the last.
    next_small = zorambi_next_small(table: &[i32], rows: usize, next: &mut [i32])
}

// Older records, tidied.

entry! {
    /// Folds the proof rows of an older record that are written twice. Results: rows, nodes, members.
    tidy = zorambi_tidy(
        schema: &[i32],
        schema_rows: usize,
        proof: &[i32],
        proof_rows: usize,
        root: i32,
        least: i32,
        nodes: &[i32],
        node_rows: usize,
        members: &[i32],
        member_count: usize,
        out_proof: &mut [i32],
        out_nodes: &mut [i32],
        out_members: &mut [i32],
        results: &mut [i32; 3],
    )
}

// One record for either fault.

entry! {
    /// Joins two records. Results: root, least, schema rows, proof rows, nodes, members.
    join = zorambi_join(
        first_schema: &[i32],
        first_schema_rows: usize,
        first_proof: &[i32],
        first_proof_rows: usize,
        first_root: i32,
        first_least: i32,
        first_nodes: &[i32],
        first_node_rows: usize,
        first_members: &[i32],
        first_member_count: usize,
        second_schema: &[i32],
        second_schema_rows: usize,
        second_proof: &[i32],
        second_proof_rows: usize,
        second_root: i32,
        second_least: i32,
        second_nodes: &[i32],
        second_node_rows: usize,
        second_members: &[i32],
        second_member_count: usize,
        out_schema: &mut [i32],
        out_proof: &mut [i32],
        out_nodes: &mut [i32],
        out_members: &mut [i32],
        results: &mut [i32; 6],
    )
}

// A tableau that grows.

entry! {
    /// Takes the formula rows of a tableau that grows; no row is held after it and none waits. Held: nodes, members.
    /// Shown, after every call: 1 where the rows that it leaves are closed; after an enquiry that says yes, where they
    /// would be with the row.
    begin = zorambi_begin(
        schema: &[i32],
        schema_rows: usize,
        proof: &[i32],
        proof_rows: usize,
        root: i32,
        least: i32,
        nodes: &mut [i32],
        members: &mut [i32],
        held: &mut [usize; 2],
        shown: &mut [i32; 1],
        waiting: &mut [i32; 1033],
    )
}

entry! {
    /// Adds a node row and its set; nothing waits after it. A refused call leaves the rows held as they are.
    add = zorambi_add(
        schema: &[i32],
        schema_rows: usize,
        proof: &[i32],
        proof_rows: usize,
        root: i32,
        least: i32,
        nodes: &mut [i32],
        members: &mut [i32],
        held: &mut [usize; 2],
        shown: &mut [i32; 1],
        row: &[i32; 7],
        set: &[i32],
        waiting: &mut [i32; 1033],
    )
}

entry! {
    /// Takes the last node row back; nothing waits after it.
    take_back = zorambi_take_back(
        schema: &[i32],
        schema_rows: usize,
        proof: &[i32],
        proof_rows: usize,
        root: i32,
        least: i32,
        nodes: &mut [i32],
        members: &mut [i32],
        held: &mut [usize; 2],
        shown: &mut [i32; 1],
        waiting: &mut [i32; 1033],
    )
}

// Enquiry and commit.

entry! {
    /// Answers as adding would, and changes no row. Waiting: 1, the set's length, the row, the set; all 0 where nothing
    /// waits.
    enquire = zorambi_enquire(
        schema: &[i32],
        schema_rows: usize,
        proof: &[i32],
        proof_rows: usize,
        root: i32,
        least: i32,
        nodes: &mut [i32],
        members: &mut [i32],
        held: &mut [usize; 2],
        shown: &mut [i32; 1],
        row: &[i32; 7],
        set: &[i32],
        waiting: &mut [i32; 1033],
    )
}

entry! {
    /// Adds the row that waits; nothing waits after it.
    commit = zorambi_commit(
        schema: &[i32],
        schema_rows: usize,
        proof: &[i32],
        proof_rows: usize,
        root: i32,
        least: i32,
        nodes: &mut [i32],
        members: &mut [i32],
        held: &mut [usize; 2],
        shown: &mut [i32; 1],
        waiting: &mut [i32; 1033],
    )
}
