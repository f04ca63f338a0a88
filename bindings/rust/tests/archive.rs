//! What the archives ask of a program and what they keep: no function from outside but memcpy and memset, and nothing that can
//! be written. Seen by `nm` and `size`, which come with the linker.
use std::collections::BTreeSet;
use std::path::PathBuf;
use std::process::Command;

const NEEDED: [&str; 2] = ["memcpy", "memset"];
/// The kinds of symbols that name data which can be written: initialised, zeroed, common, small.
const WRITABLE: &str = "DdBbCcGgSs";
const WRITABLE_SECTIONS: [&str; 4] = [".data", ".bss", ".tdata", ".tbss"];

fn bindings() -> PathBuf {
    PathBuf::from(env!("CARGO_MANIFEST_DIR")).join("..")
}

/// The names of the archives, which are those of the headers too.
fn archive_names() -> Vec<String> {
    let names = std::fs::read_to_string(bindings().join("archives")).unwrap();
    names.split_whitespace().map(str::to_string).collect()
}

/// The archive that the tests are linked to.
fn archive(name: &str) -> PathBuf {
    let built = bindings().join(format!("../crates/{name}/out"));
    let folder = std::env::var_os("DOLZHEV_LIBS").map_or(built, PathBuf::from);
    folder.join(format!("lib{name}.a"))
}

fn archives() -> Vec<PathBuf> {
    archive_names().iter().map(|name| archive(name)).collect()
}

/// The functions that a header declares: each starts a line, after its type.
fn declared(name: &str) -> BTreeSet<String> {
    let header = std::fs::read_to_string(bindings().join(format!("../include/{name}.h"))).unwrap();
    let function = |line: &str| {
        let (before, _) = line.strip_prefix("dolzhev_")?.split_once('(')?;
        Some(before.split_once(' ')?.1.to_string())
    };
    header.lines().filter_map(function).collect()
}

fn said(program: &str, words: &[&str], archive: &PathBuf) -> String {
    let output = Command::new(program).args(words).arg(archive).output().expect(program);
    assert!(output.status.success(), "{}", String::from_utf8_lossy(&output.stderr));
    String::from_utf8(output.stdout).unwrap()
}

/// Kind and name of each symbol. One from outside has no address before them.
fn symbols(archive: &PathBuf) -> Vec<(char, String)> {
    let text = said("nm", &[], archive);
    let symbol = |line: &str| {
        let words: Vec<&str> = line.split_whitespace().collect();
        let at = words.iter().position(|word| word.len() == 1)?;
        Some((words[at].chars().next()?, words[at + 1..].join(" ")))
    };
    text.lines().filter_map(symbol).collect()
}

/// The names of the symbols of some kinds.
fn names(symbols: &[(char, String)], kind: impl Fn(char) -> bool) -> BTreeSet<&str> {
    symbols.iter().filter(|symbol| kind(symbol.0)).map(|symbol| symbol.1.as_str()).collect()
}

/// The calls of the headers, and no other.
#[test]
fn calls_of_the_headers() {
    let mut calls = 0;
    for name in archive_names() {
        let symbols = symbols(&archive(&name));
        let mut exported = names(&symbols, |kind| kind == 'T');
        exported.retain(|name| name.starts_with("dolzhev_") && !name.contains(':'));
        let declared = declared(&name);
        assert!(exported.iter().eq(&declared), "{name} has {exported:?}");
        calls += declared.len();
    }
    assert_eq!(calls, 16);
}

#[test]
fn little_is_needed() {
    for archive in archives() {
        let symbols = symbols(&archive);
        let outside = |kind: char| "Uwv".contains(kind);
        let own = names(&symbols, |kind| !outside(kind));
        assert!(own.iter().any(|name| name.starts_with("dolzhev_")), "{}: {own:?}", archive.display());
        let needed: Vec<&str> = names(&symbols, outside).difference(&own).copied().collect();
        assert!(needed.iter().all(|name| NEEDED.contains(name)), "{} needs {needed:?}", archive.display());
    }
}

#[test]
fn nothing_is_kept() {
    for archive in archives() {
        let symbols = symbols(&archive);
        let writable = names(&symbols, |kind| WRITABLE.contains(kind));
        assert!(writable.is_empty(), "{} has {writable:?}", archive.display());
        for line in said("size", &["-A"], &archive).lines() {
            let words: Vec<&str> = line.split_whitespace().collect();
            let named = |section: &&str| words.first().is_some_and(|word| word.starts_with(section));
            if WRITABLE_SECTIONS.iter().any(named) {
                assert_eq!(words.get(1), Some(&"0"), "{}: {line}", archive.display());
            }
        }
    }
}
