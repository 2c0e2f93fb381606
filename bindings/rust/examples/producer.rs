//! `producer FOLDER`: writes the paper's record, schema.txt and proof.txt, into the folder, and checks it.

use std::path::Path;
use zorambi::{check, write_proof, write_schema, Proof, Record, Schema};

fn main() -> Result<(), Box<dyn std::error::Error>> {
    let folder = std::env::args_os().nth(1).ok_or("use: producer FOLDER")?;
    // Some p_i for i from 2 to n, and no p_i for i from 2 to n: the rows are p_i, not p_i, big or, big and, and both.
    let rows = vec![[2, 0, 2, 0], [3, 0, 2, 0], [7, 0, 2, 0], [6, 1, 2, 0], [4, 2, 3, 0]];
    let schema = Schema { root: 4, least: 1, rows };
    // What the tableau needs besides, rows 5 to 8: the big or up to n - 1, p_n, the big and up to n - 1, not p_n.
    let mut proof = Proof { rows: vec![[7, 0, 2, 1], [2, 0, 1, 0], [6, 1, 2, 1], [3, 0, 1, 0]], ..Proof::default() };
    proof.push_node([-1, 0, 4, -1, -1, -1, 0], &[4]); // 0: and; its child has both parts
    proof.push_node([0, 2, -1, -1, -1, -1, 0], &[2, 3]); // 1: split; n = 1, or n from 2 up
    proof.push_node([1, 7, 2, -1, -1, -1, 0], &[2, 3]); // 2: void; at n = 1 there is no i from 2 to n
    proof.push_node([1, 3, 3, 7, 8, -1, 0], &[2, 3]); // 3: the big and unfolded, into rows 7 and 8
    proof.push_node([3, 4, 2, 5, 6, -1, 0], &[2, 7, 8]); // 4: the big or unfolded, into row 5 or row 6
    proof.push_node([4, 8, -1, -1, -1, 1, 1], &[5, 7]); // 5: a link to node 1, with n - 1 for n
    proof.push_node([4, 6, 6, 8, -1, -1, 0], &[6, 8]); // 6: clash of p_n and not p_n
    std::fs::write(Path::new(&folder).join("schema.txt"), write_schema(&schema)?)?;
    std::fs::write(Path::new(&folder).join("proof.txt"), write_proof(&proof)?)?;
    println!("{}", check(&Record { schema, proof }));
    Ok(())
}
