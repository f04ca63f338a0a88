//! The comparison of costs has no branch (document 02, Card 5), and each test of them makes no pass too many (Card 4): the
//! source of its functions, looked at as text.
use reference::source::{crate_source, faults};

#[test]
fn no_branch() {
    assert_eq!(faults(crate_source), [""; 0]);
}

/// The faults that are found once a text is replaced, the first of that kind from `start` on.
fn edited(krate: &str, start: &str, old: &str, new: &str) -> Vec<String> {
    let source = crate_source(krate);
    let generic = start.replace('(', "<");
    let at = source.find(start).or_else(|| source.find(&generic)).expect(start);
    let (before, rest) = source.split_at(at);
    assert!(rest.split("\n}").next().is_some_and(|part| part.contains(old)), "{start} has `{old}`");
    let source = before.to_string() + &rest.replacen(old, new, 1);
    faults(|k| if k == krate { source.clone() } else { crate_source(k) })
}

/// A function, a text of its own, another in its place.
type Edit = (&'static str, &'static str, &'static str);

fn faults_with((function, old, new): Edit) -> Vec<String> {
    let (krate, name) = function.split_once("::").expect("crate::function");
    edited(krate, &format!("fn {name}("), old, new)
}

fn is_found(edit: Edit, fault: &str) {
    let found = faults_with(edit);
    assert!(found.contains(&format!("{}: {fault}", edit.0)), "{edit:?}: {found:?}");
}

const LESS: &str = "(65535 + wide(b) - wide(a)) / 65536";
const FACTOR: &str = "((d as u16) + WIDTH - 1 - (i as u16)) / WIDTH";
const LOOP: &str = "for i in 0..COSTS {";
const GATHER: &str = "greater |= less_times(factor(of, i), q[i], p[i]);";
const BOUND: &str = "bounds[i] = choose(factor(of, i), q[i], 65535);";
const ANY: &str = "0 < greater";
const DOMINATES: &str = "!exceeds(d, p, q) & exceeds(d, q, p)";
const CHOSEN: &str = "!exceeds_in(s, p, q) & exceeds_in(s, q, p)";
const ON_K: &str = "(k <= d - greater) & exceeds(d, q, p)";
const CHOOSE: &str = "factor * a + (1 - factor) * b";
const OVER: &str = "choose(less(b, a) as u16, a, b) - b";
const LESSER: &str = "a - over(a, b)";
const GREATER: &str = "a + over(b, a)";
const BY_COST: &str = "row[i] = of(p[i], q[i]);";
const ZERO: &str = "1 - (less(0, a) as u16)";
const COLUMN: &str = "worse = worse | over(columns[COLUMNS * k + j], q[k]);";
const COUNT: &str = "fitting += fits_column(columns, w, j, q);";
const LOWER: &str = "less(p.number, q.number)";

#[test]
fn branches_are_found() {
    for (function, old, new, branch) in [
        ("dominance::wide", "cost as usize", "if cost == 0 { 0 } else { cost as usize }", "`if`"),
        ("dominance::less", LESS, "if a < b { 1 } else { 0 }", "`if`"),
        ("dominance::less", LESS, "match b / a { 0 => 0, _ => 1 }", "`match`"),
        ("dominance::first_factor", FACTOR, "if i < d { 1 } else { 0 }", "`else`"),
        (
            "dominance::less_times",
            "less(factor * a, factor * b)",
            "match factor { 0 => 0, _ => less(a, b) }",
            "`match`",
        ),
        (
            "dominance::any_greater",
            GATHER,
            "if less_times(factor(of, i), q[i], p[i]) == 1 { return true; }",
            "`return`",
        ),
        ("dominance::any_greater", LOOP, "while i < COSTS && greater == 0 {", "`&&`"),
        (
            "dominance::any_greater",
            GATHER,
            "if greater == 1 { break; }\n        greater |= less_times(factor(of, i), q[i], p[i]);",
            "`break`",
        ),
        ("dominance::count_greater", LOOP, "loop {", "`loop`"),
        ("dominance::count_greater", LOOP, "for i in 0..COSTS {\n    for i in 0..COSTS {", "`for`"),
        ("dominance::dominates", DOMINATES, "!exceeds(d, p, q) && exceeds(d, q, p)", "`&&`"),
        ("dominance::hides", "lower | exceeds(d, b, a)", "lower || exceeds(d, b, a)", "`||`"),
        ("dominance::choose", CHOOSE, "if factor == 1 { a } else { b }", "`else`"),
        ("dominance::bounds_by", BOUND, "if i < of { bounds[i] = choose(factor(of, i), q[i], 65535); }", "`if`"),
        ("dominance::over", OVER, "if b < a { a - b } else { 0 }", "`else`"),
        ("dominance::lesser", LESSER, "if less(b, a) == 1 { b } else { a }", "`if`"),
        ("dominance::greater", GREATER, "match over(b, a) { 0 => a, more => a + more }", "`match`"),
        ("search::zero", ZERO, "if a == 0 { 1 } else { 0 }", "`if`"),
        ("search::fits_column", COLUMN, "if over(columns[COLUMNS * k + j], q[k]) == 1 { return 0; }", "`return`"),
        ("search::fits_column", "for k in 0..w {", "while k < w && worse == 0 {", "`&&`"),
        ("search::fitting", COUNT, "if fits_column(columns, w, j, q) == 1 { return 1; }", "`return`"),
        (
            "skyline::fitting_hiders",
            "for j in 0..HIDERS {",
            "for j in 0..HIDERS {\n        if fitting == 1 { break; }",
            "`break`",
        ),
        ("search::from_above", "costs.map(lack)", "costs[0] < 65535 && costs[1] < 65535", "`&&`"),
        ("query::dominates_on", ON_K, "(k <= d - greater) && exceeds(d, q, p)", "`&&`"),
        ("query::dominates_at", CHOSEN, "!exceeds_in(s, p, q) && exceeds_in(s, q, p)", "`&&`"),
    ] {
        is_found((function, old, new), branch);
    }
}

/// Also in a line that may have one, where the line reads a cost or has another sign besides.
#[test]
fn signs_are_found() {
    for (function, old, new, sign) in [
        ("dominance::less", LESS, "(a < b) as usize", "`<`"),
        ("dominance::first_factor", FACTOR, "(i < d) as u16", "`<`"),
        ("dominance::any_greater", GATHER, "greater |= (q[i] < p[i]) as usize;", "`<`"),
        ("dominance::any_greater", LOOP, "while (i < COSTS) & (greater == 0) {", "`==`"),
        ("dominance::any_greater", LOOP, "while p[i] < q[i] {", "`<`"),
        ("dominance::any_greater", ANY, "q[0] < p[0]", "`<`"),
        ("dominance::any_greater", ANY, "(0 < greater) & (q[0] != p[0])", "`!=`"),
        ("dominance::any_greater", ANY, "let any = 1 <= greater;\n    any", "`<=`"),
        ("dominance::count_greater", "greater +=", "greater += (p[i] > q[i]) as usize *", "`>`"),
        ("dominance::dominates", DOMINATES, "exceeds(d, p, q) < exceeds(d, q, p)", "`<`"),
        ("dominance::hides", LOWER, "less(p.costs[0], q.costs[0])", "`<`"),
        ("dominance::hides", "(lower |", "(p.number < q.number) & (lower |", "`<`"),
        ("dominance::bounds_by", LOOP, "while (i < COSTS) & (q[i] < 65535) {", "`<`"),
        ("dominance::over", OVER, "(b < a) as u16 * (a - b)", "`<`"),
        ("dominance::lesser", LESSER, "a - (b < a) as u16 * over(a, b)", "`<`"),
        ("dominance::by_cost", LOOP, "while (i < COSTS) & (p[i] < 65535) {", "`<`"),
        ("search::zero", ZERO, "(a == 0) as u16", "`==`"),
        ("search::fits_column", COLUMN, "worse = worse | (columns[COLUMNS * k + j] > q[k]) as u16;", "`>`"),
        ("search::put", "for k in 0..COSTS {", "while (k < COSTS) & (costs[k] != 0) {", "`!=`"),
        ("search::lack", "{\n    65535 - cost", "{\n    (cost <= 65535) as u16 * (65535 - cost)", "`<=`"),
        ("query::dominates_on", ON_K, "(k <= d - greater) & (p[0] < q[0])", "`<`"),
        ("query::dominates_at", CHOSEN, "exceeds_in(s, p, q) == exceeds_in(s, q, p)", "`==`"),
    ] {
        is_found((function, old, new), sign);
    }
}

/// A call that may hide a branch or makes a further pass; a function that is not there.
#[test]
fn calls_are_found() {
    for (function, old, new, calls) in [
        ("dominance::less", LESS, "below(wide(a), wide(b))", r#"calls ["below", "wide", "wide"]"#),
        ("dominance::any_greater", "less_times(", "below(", r#"calls ["below", "factor"]"#),
        (
            "dominance::hides",
            "let b = q.costs;",
            "let b = q.costs;\n    let c = exceeds(d, b, a);",
            r#"calls ["exceeds", "exceeds", "exceeds", "less"]"#,
        ),
        ("dominance::hides", "!exceeds(d, a, b)", "!dominates(d, b, a)", r#"calls ["dominates", "exceeds", "less"]"#),
        ("dominance::lesser", "over(", "below(", r#"calls ["below"]"#),
        ("dominance::by_cost", BY_COST, "row[i] = of(of(p[i], q[i]), q[i]);", r#"calls ["of", "of"]"#),
        ("search::fits_column", "zero(", "none(", r#"calls ["none", "over"]"#),
        (
            "search::fitting",
            COUNT,
            "fitting += fits_column(columns, w, j, q) * fits_column(columns, w, j, q);",
            r#"calls ["fits_column", "fits_column"]"#,
        ),
        ("query::dominates_on", "count_greater(", "fit(", r#"calls ["exceeds", "fit"]"#),
        ("dominance::hides", "fn hides(", "fn conceals(", "found 0 times"),
        ("query::dominates_on", "fn dominates_on(", "fn dominates_some(", "found 0 times"),
    ] {
        is_found((function, old, new), calls);
    }
}

/// Another function is handed on: no call shows it.
#[test]
fn handed_functions_are_found() {
    for (function, old, new, whole) in [
        ("dominance::exceeds", "first_factor", "below", "any_greater(first_factor, d, p, q)"),
        ("dominance::exceeds_in", "set_factor", "|_, _| 1", "any_greater(set_factor, set, p, q)"),
        ("dominance::bounds_of", "first_factor", "set_factor", "bounds_by(first_factor, d, q)"),
        ("dominance::bounds_in", "set_factor", "first_factor", "bounds_by(set_factor, set, q)"),
        ("dominance::least", "by_cost(lesser", "by_cost(below", "by_cost(lesser, p, q)"),
        ("dominance::greatest", "by_cost(greater", "by_cost(lesser", "by_cost(greater, p, q)"),
        ("search::from_above", "lack", "u16::from", "costs.map(lack)"),
    ] {
        is_found((function, old, new), &format!("says not `{{ {whole} }}`"));
    }
}

/// The name is called as before, but means another function.
#[test]
fn imports_are_found() {
    for other in ["};\nuse crate::band::exceeds_in;", ", bounds_in as exceeds_in};"] {
        let found = edited("query", "use dominance::{count_greater", ", exceeds_in};", other);
        assert!(found.contains(&"query::dominates_at: which `exceeds_in` is meant?".to_string()), "{found:?}");
    }
}

/// Words of comments and contracts are no branches, shifts no signs.
#[test]
fn comments_contracts_and_shifts_pass() {
    for edit in [
        ("dominance::less", LESS, "// if a < b { 1 } else { 0 }\n    (65535 + wide(b) - wide(a)) / 65536"),
        ("dominance::any_greater", LOOP, "for i in 0..COSTS { // && greater == 0"),
        ("dominance::set_factor", "(set >> i) % 2", "(set >> i << 1 >> 1) % 2"),
        ("query::dominates_on", "d ≤ row_costs", "match d < row_costs"),
    ] {
        assert_eq!(faults_with(edit), [""; 0], "{edit:?}");
    }
}
