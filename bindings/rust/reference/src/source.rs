//! The Rattle source of the comparison of costs, looked at as text: no branch and no comparison sign but in the lines that the
//! table names (document 02, Card 5), and no further pass over the costs (Card 4).
use std::fs;
use std::path::Path;

type Texts = &'static [&'static str];

/// A function of the comparison: where it stands, each call that it makes, and the lines in which it may decide, in their
/// order. None of these reads a cost. `given` is the name of a function that it calls and is handed, or the array's own;
/// `whole` is all that it says, where it hands a function on: what is handed is no call, and shows in the text alone.
struct Function {
    krate: &'static str,
    name: &'static str,
    calls: Texts,
    decides: Texts,
    given: &'static str,
    whole: &'static str,
}

const fn function(krate: &'static str, name: &'static str, calls: Texts, decides: Texts) -> Function {
    Function { krate, name, calls, decides, given: "", whole: "" }
}

const fn handed(
    krate: &'static str,
    name: &'static str,
    given: &'static str,
    calls: Texts,
    decides: Texts,
) -> Function {
    Function { krate, name, calls, decides, given, whole: "" }
}

const fn handing(krate: &'static str, name: &'static str, calls: Texts, whole: &'static str) -> Function {
    Function { krate, name, calls, decides: &[], given: "", whole }
}

/// The end of the loop.
const LOOP: &str = "for i in 0..COSTS {";
/// The test of what was gathered.
const ANY: &str = "0 < greater";
/// The test of a number of costs.
const ON_K: &str = "(k <= d - greater) & exceeds(d, q, p)";
/// The comparison of two moves' numbers.
const LOWER: &str = "let lower = 0 < less(p.number, q.number);";

/// The ends of the loops over columns: the costs of one, all of them, the hiders, and the costs of a move that becomes one.
const COLUMN: &str = "for k in 0..w {";
const COLUMNS: &str = "for j in 0..COLUMNS {";
const HIDERS: &str = "for j in 0..HIDERS {";
const PUT: &str = "for k in 0..COSTS {";

/// Whatever one of these calls is one of them, so that no branch hides in a callee.
const FUNCTIONS: [Function; 30] = [
    function("dominance", "wide", &[], &[]),
    function("dominance", "less", &["wide", "wide"], &[]),
    function("dominance", "first_factor", &[], &[]),
    function("dominance", "set_factor", &[], &[]),
    function("dominance", "choose", &[], &[]),
    function("dominance", "less_times", &["less"], &[]),
    handed("dominance", "any_greater", "factor", &["factor", "less_times"], &[LOOP, ANY]),
    handing("dominance", "exceeds", &["any_greater"], "{ any_greater(first_factor, d, p, q) }"),
    handing("dominance", "exceeds_in", &["any_greater"], "{ any_greater(set_factor, set, p, q) }"),
    function("dominance", "count_greater", &["first_factor", "less_times"], &[LOOP]),
    function("dominance", "dominates", &["exceeds", "exceeds"], &[]),
    function("dominance", "hides", &["exceeds", "exceeds", "less"], &[LOWER]),
    handed("dominance", "bounds_by", "factor", &["choose", "factor"], &[LOOP]),
    handing("dominance", "bounds_of", &["bounds_by"], "{ bounds_by(first_factor, d, q) }"),
    handing("dominance", "bounds_in", &["bounds_by"], "{ bounds_by(set_factor, set, q) }"),
    function("dominance", "over", &["choose", "less"], &[]),
    function("dominance", "lesser", &["over"], &[]),
    function("dominance", "greater", &["over"], &[]),
    handed("dominance", "by_cost", "of", &["of"], &[LOOP]),
    handing("dominance", "least", &["by_cost"], "{ by_cost(lesser, p, q) }"),
    handing("dominance", "greatest", &["by_cost"], "{ by_cost(greater, p, q) }"),
    function("search", "lack", &[], &[]),
    Function { given: "map", ..handing("search", "from_above", &["map"], "{ costs.map(lack) }") },
    function("search", "zero", &["less"], &[]),
    function("search", "fits_column", &["over", "zero"], &[COLUMN]),
    function("search", "fitting", &["fits_column"], &[COLUMNS]),
    function("skyline", "fitting_hiders", &["fits_column"], &[HIDERS]),
    function("search", "put", &[], &[PUT]),
    function("query", "dominates_on", &["count_greater", "exceeds"], &[ON_K]),
    function("query", "dominates_at", &["exceeds_in", "exceeds_in"], &[]),
];

const BRANCHES: [&str; 12] =
    ["if", "else", "match", "while", "for", "loop", "return", "break", "continue", "?", "&&", "||"];
const SIGNS: [&str; 6] = ["<", ">", "<=", ">=", "==", "!="];
/// Longest first: a shift or an arrow is no sign.
const OPERATORS: [&str; 14] = ["<<=", ">>=", "<<", ">>", "<=", ">=", "==", "!=", "->", "=>", "&&", "||", "::", "+="];

#[derive(Clone, Copy, PartialEq)]
struct Word<'a> {
    text: &'a str,
    line: usize,
}

/// The words of a source, without its comments.
fn words(source: &str) -> Vec<Word<'_>> {
    let mut all = Vec::new();
    for (line, whole) in source.lines().enumerate() {
        let mut rest = whole.split("//").next().unwrap_or_default().trim_start();
        while let Some(first) = rest.chars().next() {
            let name = rest.find(|c: char| !c.is_alphanumeric() && c != '_').unwrap_or(rest.len());
            let operator = OPERATORS.iter().find(|o| rest.starts_with(**o)).map_or(first.len_utf8(), |o| o.len());
            let (text, after) = rest.split_at(if name > 0 { name } else { operator });
            all.push(Word { text, line });
            rest = after.trim_start();
        }
    }
    all
}

/// How many words a bracketed group has, from its opening word to the closing one.
fn group(words: &[Word], open: &str, close: &str) -> usize {
    let mut depth = 0;
    for (i, word) in words.iter().enumerate() {
        depth += i32::from(word.text == open) - i32::from(word.text == close);
        if depth == 0 {
            return i + 1;
        }
    }
    words.len()
}

/// The body of each function of that name, its contract passed by.
fn bodies<'a>(words: &'a [Word<'a>], name: &str) -> Vec<&'a [Word<'a>]> {
    let starts = (0..words.len().saturating_sub(2)).filter(|&i| words[i].text == "fn" && words[i + 1].text == name);
    starts
        .map(|start| {
            let mut at = start + 2;
            at += group(&words[at..], "(", ")");
            while words[at].text != "{" {
                let contract = ["requires", "ensures", "ghost"].contains(&words[at].text);
                at += 1;
                if contract {
                    at += words[at..].iter().take_while(|w| w.text != "{").count();
                    at += group(&words[at..], "{", "}");
                }
            }
            &words[at..at + group(&words[at..], "{", "}")]
        })
        .collect()
}

fn is_name(text: &str) -> bool {
    text.starts_with(|c: char| c.is_alphabetic() || c == '_')
}

fn decides(word: &Word) -> bool {
    BRANCHES.contains(&word.text) || SIGNS.contains(&word.text)
}

fn is_text(line: &[Word], text: &str) -> bool {
    line.iter().map(|w| w.text).eq(words(text).iter().map(|w| w.text))
}

/// The lines in which a body decides and may not: any but those of the table, each once and in their order.
fn undue<'a>(function: &Function, body: &'a [Word<'a>]) -> impl Iterator<Item = &'a [Word<'a>]> {
    let mut due = function.decides.iter().peekable();
    let deciding = body.chunk_by(|v, w| v.line == w.line).filter(|line| line.iter().any(decides));
    deciding.filter(move |line| due.next_if(|text| is_text(line, text)).is_none())
}

fn faults_of(function: &Function, body: &[Word]) -> Vec<String> {
    let mut faults: Vec<String> =
        undue(function, body).flatten().filter(|w| decides(w)).map(|w| format!("`{}`", w.text)).collect();
    let mut calls: Vec<&str> =
        body.windows(2).filter(|w| is_name(w[0].text) && w[1].text == "(").map(|w| w[0].text).collect();
    calls.sort_unstable();
    if calls != function.calls {
        faults.push(format!("calls {calls:?}"));
    }
    if !function.whole.is_empty() && !is_text(body, function.whole) {
        faults.push(format!("says not `{}`", function.whole));
    }
    faults
}

/// Whether a `use` item brings the name from the crate, alone or among others in braces, and under this name.
fn is_imported(words: &[Word], krate: &str, name: &str) -> bool {
    let start = ["use", krate, "::"];
    let follows = |from: usize| words[from..].iter().map(|w| w.text).take(start.len()).eq(start);
    (0..words.len()).filter(|&from| follows(from)).any(|from| {
        let item = words[from + start.len()..].split(|w| w.text == ";").next().unwrap_or_default();
        let names = match item {
            [open, names @ .., close] if open.text == "{" && close.text == "}" => names,
            names => names,
        };
        names.split(|w| w.text == ",").any(|words| is_text(words, name))
    })
}

/// A name that a crate calls is its own, or comes from the crate that the table has it of.
fn is_known(words: &[Word], callee: &str) -> bool {
    let imported = FUNCTIONS.iter().any(|f| f.name == callee && is_imported(words, f.krate, callee));
    (bodies(words, callee).len() == 1) != imported
}

/// What is wrong in the sources, given for each crate; nothing where all is as the card asks.
pub fn faults(source: impl Fn(&str) -> String) -> Vec<String> {
    let mut faults = Vec::new();
    for function in &FUNCTIONS {
        let text = source(function.krate);
        let words = words(&text);
        let mut found = match bodies(&words, function.name)[..] {
            [body] => faults_of(function, body),
            ref found => vec![format!("found {} times", found.len())],
        };
        let unknown = function.calls.iter().filter(|c| **c != function.given && !is_known(&words, c));
        found.extend(unknown.map(|callee| format!("which `{callee}` is meant?")));
        faults.extend(found.iter().map(|what| format!("{}::{}: {what}", function.krate, function.name)));
    }
    faults
}

/// The files that a crate is built from: lib.rt, and those that its `mod` items name.
pub fn crate_source(krate: &str) -> String {
    let folder = Path::new(env!("CARGO_MANIFEST_DIR")).join("../../../crates").join(krate).join("src");
    let file = |name: &str| fs::read_to_string(folder.join(name)).unwrap_or_else(|e| panic!("{krate}/src/{name}: {e}"));
    let root = file("lib.rt");
    let parts =
        root.lines().filter_map(|l| l.trim().strip_prefix("mod ")?.strip_suffix(';').map(|n| file(&format!("{n}.rt"))));
    let parts: Vec<String> = parts.collect();
    root + &parts.concat()
}
