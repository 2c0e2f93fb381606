//! What is said of each mistake, and where: `@` marks the place in the source and is taken out.

use zorambi_compile::{compile, Place, MAX_SOURCE};

/// The source without its mark, and the line and column of the mark.
fn marked(text: &str) -> (String, Place) {
    let (before, after) = text.split_once('@').expect("a mark");
    let line = before.matches('\n').count() + 1;
    let column = before.rsplit('\n').next().unwrap_or("").chars().count() + 1;
    (format!("{before}{after}"), Place { line, column })
}

fn check(text: &str, words: &str) {
    let (source, place) = marked(text);
    match compile(source.as_bytes()) {
        Ok(compiled) => panic!("{text}: {compiled:?}"),
        Err(fault) => {
            assert_eq!(fault.words, words, "{text}");
            assert_eq!(fault.place(source.as_bytes()), place, "{text}");
        }
    }
}

fn check_all(cases: &[(&str, &str)]) {
    for (text, words) in cases {
        check(text, words);
    }
}

const NO_FORMULA: &str =
    "expected 'formula', found the end of the source: the last item is 'formula' and the schema's formula";

#[test]
fn items() {
    check_all(&[
        ("@", NO_FORMULA),
        ("least 1@\n\n# nothing\n", NO_FORMULA),
        ("define a = x[1]@", NO_FORMULA),
        (
            "# a comment\n@x[1] and y[1]",
            "expected 'least', 'define' or 'formula', found 'x': a formula stands after 'define NAME =' or 'formula'",
        ),
        (
            "@all i from 1 to n: x[i]",
            "expected 'least', 'define' or 'formula', found 'all': a formula stands after 'define NAME =' or 'formula'",
        ),
        ("@fromula x[1]", "expected 'least', 'define' or 'formula', found 'fromula'; did you mean 'formula'?"),
        ("least 1 @x formula x[1]", "expected 'least', 'define' or 'formula', found 'x'"),
        ("least 1\n@least 2\nformula x[1]", "'least' is there twice: it stands in line 1 already"),
        ("least @formula x[1]", "expected a number from 0 to 9999 after 'least', found 'formula'"),
        ("least @-1 formula x[1]", "expected a number from 0 to 9999 after 'least', found '-'"),
        ("least @10000 formula x[1]", "10000 is over 9999, the largest number"),
        ("least @01 formula x[1]", "01 begins with a 0 too many"),
        ("formula x[1]\n@define a = x[1]", "'define' stands after the formula, which is the last item"),
        ("formula x[1] @least 1", "'least' stands after the formula, which is the last item"),
        (
            "formula x[1]\n@formula y[1]",
            "'formula' is there twice: a schema has one formula; name its parts by 'define'",
        ),
        ("formula x[1] @y[1]", "expected an operator such as 'and', or the end, found 'y'"),
        ("formula x[1] @)", "expected an operator such as 'and', or the end, found ')'"),
        ("formula x[1] @nad y[1]", "expected an operator such as 'and', or the end, found 'nad'; did you mean 'and'?"),
        (
            "define a = x[1]\n@fromula a",
            "expected an operator such as 'and', or the next item, found 'fromula'; did you mean 'formula'?",
        ),
        ("define @n = x[1]", "'n' has a meaning of its own and cannot name a part"),
        ("define @formula x[1]", "'formula' has a meaning of its own and cannot name a part"),
        ("define @3 = x[1]", "expected a part's name after 'define', found '3'"),
        ("define@", "expected a part's name after 'define', found the end of the source"),
        ("define a @x[1]", "expected '=' after the part's name, found 'x'"),
        ("define @x = y[1] formula x[1]", "'x' is a symbol, as in x[i], and cannot name a part as well"),
        ("define a = x[1]\ndefine b = a\ndefine @a = b", "'a' is defined twice: it stands in line 1 already"),
    ]);
}

#[test]
fn formulas() {
    check_all(&[
        ("formula@", "expected a formula after 'formula', found the end of the source"),
        ("define a = @formula x[1]", "expected a formula after '=', found 'formula'"),
        ("formula x[1] and @or y[1]", "expected a formula after 'and', found 'or'"),
        ("formula x[1] implies@", "expected a formula after 'implies', found the end of the source"),
        ("formula not @and", "expected a formula after 'not', found 'and'"),
        ("formula (@)", "expected a formula after '(', found ')'"),
        ("formula (x[1] and y[1]@", "expected an operator or ')', found the end of the source"),
        ("formula (x[1] @y[1])", "expected an operator or ')', found 'y'"),
        ("formula @3", "expected a formula after 'formula', found '3'"),
        ("formula @i", "'i' is no formula by itself: it is an index, as in x[i]"),
        ("formula x[1] and @n", "'n' is no formula by itself: it is an index, as in x[n]"),
        ("formula @n[1]", "'n' is no formula by itself: it is an index, as in x[n]"),
        ("formula @carry", "no part 'carry' is defined before, and a symbol has an index, as in carry[i]"),
        (
            "define carry = x[1] formula not @cary",
            "no part 'cary' is defined before, and a symbol has an index, as in cary[i]; did you mean 'carry'?",
        ),
        (
            "formula @tru",
            "no part 'tru' is defined before, and a symbol has an index, as in tru[i]; did you mean 'true'?",
        ),
        (
            "define a = @b\ndefine b = x[1]\nformula a",
            "'b' is used before it is defined, in line 2: move its definition up",
        ),
        ("define a = @a formula a", "no part 'a' is defined before, and a symbol has an index, as in a[i]"),
        ("formula x[1] and @x", "'x' is a symbol and wants an index, as in x[i] or x[n-1]"),
        ("formula @x(1)", "an index stands in brackets, as in x[i]"),
        ("formula x[@]", "expected i, n or a whole number as the index, found ']'"),
        ("formula x[@+1]", "expected i, n or a whole number as the index, found '+'"),
        ("formula x[@j]", "an index is i, n or a whole number, perhaps as in i+1 or n-2, found 'j'"),
        ("formula x[n @2]", "expected ']' after the index, found '2'"),
        ("formula x[n+@n]", "expected a number after '+', found 'n'"),
        ("formula x[n-@-1]", "expected a number after '-', found '-'"),
        ("formula x[-@]", "expected a number after '-', found ']'"),
        ("formula x[1@", "expected ']' after the index, found the end of the source"),
        ("formula x[@10000]", "10000 is over 9999, the largest number"),
        ("formula x[n+@99999999999999999999]", "99999999999999999999 is over 9999, the largest number"),
        ("formula x[i-@007]", "007 begins with a 0 too many"),
    ]);
}

#[test]
fn ranges() {
    check_all(&[
        ("formula all @j from 1 to n: x[j]", "the index of an iteration is called i, found 'j'"),
        ("formula all @from 1 to n: x[i]", "the index of an iteration is called i, found 'from'"),
        ("formula some @1 to n: x[i]", "expected i after 'some', found '1'"),
        ("formula all i @= 1 to n: x[i]", "expected 'from' after i, found '='"),
        ("formula all i from @to n: x[i]", "expected a whole number after 'from', found 'to'"),
        (
            "formula all i from @n-1 to n: x[i]",
            "a range begins at a whole number: 'n' cannot stand in its lower limit, only in its upper one",
        ),
        ("formula all i from -@x to n: x[i]", "expected a number after '-', found 'x'"),
        ("formula all i from @10000 to n: x[i]", "10000 is over 9999, the largest number"),
        ("formula all i from 1 @n: x[i]", "expected 'to' after the lower limit, found 'n'"),
        (
            "formula all i from 1 to @5: x[i]",
            "a range ends at n, n-3 or n+2, say: its upper limit cannot be a number alone",
        ),
        (
            "formula all i from 1 to @-5: x[i]",
            "a range ends at n, n-3 or n+2, say: its upper limit cannot be a number alone",
        ),
        ("formula all i from 1 to @i: x[i]", "expected n after 'to', found 'i'"),
        ("formula all i from 1 to n-@10000: x[i]", "10000 is over 9999, the largest number"),
        ("formula all i from 1 to n @and x[i]", "expected ':' after the range, found 'and'"),
        ("formula all i from 1 to n:@", "expected a formula after ':', found the end of the source"),
    ]);
}

#[test]
fn bodies_and_mixing() {
    check_all(&[
        (
            "formula all i from 1 to n:\n  x[i] and @some i from 1 to n: y[i]",
            "an iteration in the body of another, which begins in line 1: a body holds no iteration",
        ),
        (
            "formula all i from 1 to n:\n  x[i] and @y[n-2]",
            "y[n-2] in the body of the iteration that begins in line 1: a body has literals on i alone; to end the \
             iteration earlier put it in parentheses",
        ),
        (
            "formula some i from 1 to n: x[i] or not @y[ 5 ]",
            "y[5] in the body of the iteration that begins in line 1: a body has literals on i alone; to end the \
             iteration earlier put it in parentheses",
        ),
        (
            "define top = x[n]\nformula some i from 1 to n: x[i] or @top",
            "'top' in the body of an iteration: it has x[n] (line 1), and a body has literals on i alone",
        ),
        (
            "define any =\n  some i from 1 to n: x[i]\nformula some i from 1 to n: @any",
            "'any' in the body of an iteration: it has an iteration (line 2), and a body has literals on i alone",
        ),
        (
            "formula @x[i+1]",
            "x[i+1] outside of any iteration: i has a value in the body of 'all i' and 'some i' alone",
        ),
        (
            "formula (all i from 1 to n: x[i]) and not @y[i]",
            "y[i] outside of any iteration: i has a value in the body of 'all i' and 'some i' alone",
        ),
        (
            "define bit = not x[i-3]\nformula x[1] or @bit",
            "'bit' outside of any iteration: it has x[i-3] (line 1), and i has a value in a body alone",
        ),
        (
            "define bit = x[i] and\n  (y[i] or @z[n])\nformula true",
            "z[n] together with y[i] (line 2): literals on i outside an iteration do not mix with other literals or with \
             iterations",
        ),
        (
            "define bit = x[0] iff\n  @y[i]\nformula true",
            "y[i] together with x[0] (line 1): literals on i outside an iteration do not mix with other literals or with \
             iterations",
        ),
        (
            "define a = y[i]\ndefine b = (all i from 1 to n: x[i]) or @a\nformula b",
            "'a' together with an iteration (line 2): literals on i outside an iteration do not mix with other literals \
             or with iterations",
        ),
    ]);
}

#[test]
fn signs() {
    check_all(&[
        ("formula x[1] @&& y[1]", "'&&' has no meaning here: write 'and'"),
        ("formula x[1] @| y[1]", "'|' has no meaning here: write 'or'"),
        ("formula @!x[1]", "'!' has no meaning here: write 'not'"),
        ("formula x[1] @-> y[1]", "'->' has no meaning here: write 'implies'"),
        ("formula x[1] @<-> y[1]", "'<->' has no meaning here: write 'iff'"),
        ("formula x[1] @== y[1]", "'==' has no meaning here: write 'iff'"),
        ("formula x[1] @^ y[1]", "'^' has no meaning here: write 'xor'"),
        ("formula x[1] @∧ y[1]", "'∧' has no meaning here: write 'and'"),
        ("# ä é\n# ü\nformula (x[1] @⊕ y[1])", "'⊕' has no meaning here: write 'xor'"),
        ("formula all i from 1@..n: x[i]", "'..' has no meaning here: write 'to'"),
        ("formula @{x[1]}", "'{' has no meaning here: write '('"),
        ("@// an adder\nformula x[1]", "'//' has no meaning here: write # before a comment"),
        ("formula x[1]@;", "';' has no meaning here"),
        ("formula x[1] and @é", "'\\xc3\\xa9' has no meaning here"),
        ("formula @\u{1b}[31m", "'\\x1b' has no meaning here"),
    ]);
}

#[test]
fn bytes() {
    let fault = |source: &[u8]| {
        let fault = compile(source).unwrap_err();
        let place = fault.place(source);
        (fault.words, place.line, place.column)
    };
    assert_eq!(fault(b"formula\n x\0"), ("a byte 0: the source is a text".to_string(), 2, 3));
    let no_utf8 = "bytes that are no UTF-8: save the source as UTF-8".to_string();
    assert_eq!(fault(b"formula\n\nx\xc3\xa9\xff"), (no_utf8.clone(), 3, 3));
    assert_eq!(fault(b"# \xe2\x88"), (no_utf8, 1, 3));
    let mut long = b"formula x[1]".to_vec();
    long.resize(MAX_SOURCE, b'\n');
    assert!(compile(&long).is_ok());
    long.push(b'\n');
    assert_eq!(fault(&long).0, "the source has over 1,048,576 bytes");
}

/// Formulas joined two by two, so that they are not deep.
fn paired(mut parts: Vec<String>, operator: &str) -> String {
    while parts.len() > 1 {
        let join = |pair: &[String]| match pair {
            [one] => one.clone(),
            _ => format!("({})", pair.join(&format!(" {operator} "))),
        };
        parts = parts.chunks(2).map(join).collect();
    }
    parts.remove(0)
}

#[test]
fn symbols() {
    check("formula x[1] or @p256[1]", "no symbol has the number of 'p256': p0 to p255 are the symbols by number");
    check(
        "formula @p99999999999999999999999[1]",
        "no symbol has the number of 'p99999999999999999999999': p0 to p255 are the symbols by number",
    );
    // 255 names beside p17, which is 17.
    let mut literals: Vec<String> = (0..255).map(|k| format!("x{k}[0]")).collect();
    literals.push("p17[0]".to_string());
    let all = paired(literals, "or");
    let compiled = compile(format!("formula {all}").as_bytes()).expect("256 symbols");
    assert_eq!(compiled.names.len(), 255);
    assert_eq!(compiled.names[16..18], [(16, "x16".to_string()), (18, "x17".to_string())]);
    check(&format!("formula {all} or @y[0]"), "'y' is one symbol too many: a schema has at most 256");
    let name = "x".repeat(40);
    assert!(compile(format!("formula {name}[1]").as_bytes()).is_ok());
    check(&format!("formula @{name}x[1]"), "'xxxxxxxxxxxxxxxxxxxx..' has 41 letters, a name at most 40");
}

const TOO_DEEP: &str = "the formula so far has depth 65, at most 64: group a long chain evenly by parentheses";

#[test]
fn depth() {
    // A chain of 64 operands has depth 64.
    let chain = |count: usize, last: &str| format!("formula {}{last}and x[0]", "x[1] and ".repeat(count - 2) + "x[1] ");
    assert!(compile(chain(64, "").as_bytes()).is_ok());
    check(&chain(65, "@"), TOO_DEEP);
    let implies =
        |count: usize, mark: &str| format!("formula x[1] {mark}implies {}x[0]", "x[1] implies ".repeat(count - 2));
    assert!(compile(implies(64, "").as_bytes()).is_ok());
    check(&implies(65, "@"), TOO_DEEP);
    let nots = |count: usize, mark: &str| format!("formula {mark}{}(x[0])", "not ".repeat(count));
    assert!(compile(nots(63, "").as_bytes()).is_ok());
    check(&nots(64, "@"), TOO_DEEP);
    // An iff with true on one side is two deep in plain rows, and its size there is twice that of the other side and 5: so it is
    // the depth that is passed first only below ands.
    let deep = |ands: usize, mark: &str| {
        let inner = format!("({}x[0] iff true)", "x[1] and ".repeat(ands));
        format!("formula {mark}{inner}")
    };
    assert!(compile(deep(61, "").as_bytes()).is_ok());
    let source = deep(62, "");
    let fault = compile(source.as_bytes()).unwrap_err();
    assert_eq!(
        fault.words,
        "the formula so far has depth 65 in plain rows, at most 64: iff and xor are two deep there"
    );
    assert_eq!(&source[fault.at..fault.at + 3], "iff");
}

#[test]
fn size() {
    // A part whose size doubles: 2^k - 1 after k lines.
    let doubled = |lines: usize, operator: &str, mark: &str| {
        let mut text = "define a1 = x[0]\n".to_string();
        for k in 2..=lines {
            let mark = if k == lines { mark } else { "" };
            text += &format!("define a{k} = a{} {mark}{operator} a{}\n", k - 1, k - 1);
        }
        text + &format!("formula a{lines}")
    };
    assert!(compile(doubled(12, "or", "").as_bytes()).is_ok());
    check(&doubled(13, "or", "@"), "the formula so far has size 8,191, at most 4,096 (each use of a part counts)");
    assert!(compile(doubled(6, "iff", "").as_bytes()).is_ok());
    check(
        &doubled(7, "xor", "@"),
        "the formula so far has size 8,191 in plain rows, at most 4,096: iff and xor write each side twice",
    );
}

#[test]
fn nesting() {
    let words =
        "nested more than 130 deep: a formula has depth at most 64; name inner parts by 'define' and group them evenly";
    for open in ["(", "not ", "x[1] implies ", "x[1] and (", "not (", "(not "] {
        let fault = compile(format!("formula {}x[0]", open.repeat(60_000)).as_bytes()).unwrap_err();
        assert_eq!(fault.words, words, "{open}");
    }
    let enclosed = |count: usize| format!("formula {}x[0]{}", "(".repeat(count), ")".repeat(count));
    assert!(compile(enclosed(129).as_bytes()).is_ok());
    assert_eq!(compile(enclosed(130).as_bytes()).unwrap_err().words, words);
    // The deepest formulas there are, with an operator and a parenthesis on each level.
    let source = format!("formula {}x[0] and x[0]{}", "not (".repeat(62), ")".repeat(62));
    assert!(compile(source.as_bytes()).is_ok());
    let source = format!("formula {}x[0]{}", "x[1] and (".repeat(63), ")".repeat(63));
    assert!(compile(source.as_bytes()).is_ok());
    // Long chains that group to the left end at the depth.
    let fault = compile(format!("formula x[0]{}", " or x[0]".repeat(50_000)).as_bytes()).unwrap_err();
    assert_eq!(fault.words, TOO_DEEP);
}

#[test]
fn rows() {
    let ands = |count: usize| paired((0..count).map(|k| format!("x[{k}]")).collect(), "and");
    let fault = |source: String| compile(source.as_bytes()).unwrap_err();
    // 256 literals and 255 ands write 1,022 plain rows, and with a literal and an and more they are 1,026.
    assert!(compile(format!("formula {}", ands(256)).as_bytes()).is_ok());
    let told = fault(format!("formula {} or not y[0]", ands(256)));
    let words =
        "1,026 plain rows, at most 1,024: they become too many here (iff and xor write six each, 'not' before other \
                 than a symbol none, all else two)";
    assert_eq!(told.words, words);
    assert_eq!(told.at, format!("formula {} ", ands(256)).len());
    // 513 literals and 512 ands.
    let told = fault(format!("formula {} or not y[0]", ands(512)));
    assert_eq!(told.words, "1,025 formula rows, at most 1,024: they become too many here");
    assert_eq!(told.at, format!("formula {} ", ands(512)).len());
    // 20 literals, then 123 iffs and the ands between them: 40, 738 and 244 plain rows.
    let pairs = (0..20).flat_map(|k| (k + 1..20).map(move |m| format!("(x[{k}] iff x[{m}])")));
    let iffs = |count: usize| format!("formula {}", paired(pairs.clone().take(count).collect(), "and"));
    assert!(compile(iffs(123).as_bytes()).is_ok());
    assert!(fault(iffs(124)).words.starts_with("1,030 plain rows, at most 1,024: "));
    // Parts that the formula does not use write no rows.
    let source = format!("define unused = {}\nformula x[0]", ands(600));
    assert_eq!(compile(source.as_bytes()).expect("unused").schema.rows, [[2, 0, 0, 0]]);
}

#[test]
fn the_line_and_a_caret() {
    let told = |source: &str| compile(source.as_bytes()).unwrap_err().told("block.zor", source.as_bytes());
    assert_eq!(
        told("least 1\n\tformula x[1] and\ty\r\n"),
        "block.zor:2:19: no part 'y' is defined before, and a symbol has an index, as in y[i]\n   \
         formula x[1] and y\n                    ^\n"
    );
    assert_eq!(
        told("formula # é \u{1b}\n"),
        "block.zor:1:8: expected a formula after 'formula', found the end of the source\n  \
         formula # \\xc3\\xa9 \\x1b\n         ^\n"
    );
    // A long line is cut on both sides; the caret stays below its place.
    let long = format!("formula {} and & {}", "true or ".repeat(30) + "true", "x".repeat(300));
    let told = told(&long);
    let lines: Vec<&str> = told.lines().collect();
    assert!(lines.len() == 3 && lines[1].starts_with("  ..") && lines[1].ends_with("x..") && lines[1].len() < 110);
    assert_eq!(lines[2].len(), lines[1].find('&').expect("the sign") + 1);
}
