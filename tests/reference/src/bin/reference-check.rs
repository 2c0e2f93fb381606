//! The check program of the paper: `reference-check [schema.txt [proof.txt]]`. A file that cannot be read
//! counts as empty. `reference-check schema.txt --model model.txt` does the model check instead.

use zorambi_reference::program::{check_model_texts, check_texts};

fn main() {
    let arguments: Vec<String> = std::env::args().skip(1).collect();
    let contents = |number: usize, default: &str| {
        let path = arguments.get(number).map_or(default, String::as_str);
        std::fs::read(path).unwrap_or_default()
    };
    let schema = contents(0, "schema.txt");
    let judgement = if arguments.get(1).is_some_and(|word| word == "--model") {
        check_model_texts(&schema, &contents(2, "model.txt"))
    } else {
        check_texts(&schema, &contents(1, "proof.txt"))
    };
    println!("answer place nodes links");
    let verdict = judgement.verdict;
    println!("{} {} {} {}", verdict.answer, verdict.place, verdict.nodes, verdict.links);
}
