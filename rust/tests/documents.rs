//! What the documents say of refusals, digests and the sample is what the crate and the tool say.

mod support;

use arw6::meaning;
use std::process::Command;
use support::tool::{file, folder, outcome, run, word, SAMPLE_FILE, TOOL};

const README: &str = include_str!("../../README.md");
const HEADER: &str = include_str!("../../include/arw6.h");
const DIGEST: &str = include_str!("../../docs/DIGEST.md");

/// The cells of the table's rows that start with a number, in README.
fn refusals() -> Vec<(u64, &'static str)> {
    let section = README.split("## Refusals").nth(1).unwrap().split("\n## ").next().unwrap();
    let row = |line: &'static str| {
        let cells: Vec<&str> = line.split('|').map(str::trim).collect();
        Some((cells.get(1)?.parse().ok()?, *cells.get(3)?))
    };
    section.lines().filter_map(row).collect()
}

#[test]
fn words_of_refusals() {
    let known: Vec<_> = (1..).map_while(|number| Some((number, meaning(number)?))).collect();
    assert_eq!(refusals(), known);
    let mut rest = HEADER;
    for (number, words) in known {
        let at = rest.find(&format!("\"{words}\"")).unwrap_or_else(|| panic!("{number} in the header"));
        rest = &rest[at..];
    }
}

#[test]
fn version_of_the_header() {
    assert!(HEADER.contains(concat!("#define ARW6_VERSION \"", env!("CARGO_PKG_VERSION"), "\"\n")));
    let parts = ["MAJOR", "MINOR", "PATCH"].into_iter().zip(env!("CARGO_PKG_VERSION").split('.'));
    assert!(parts
        .into_iter()
        .all(|(name, part)| HEADER.contains(&format!("#define ARW6_VERSION_{name} {part}\n"))));
}

#[test]
fn the_worked_example_of_a_digest() {
    let folder = folder("worked-example");
    file(&folder, "zeros.frame", &support::repeated_tile(16, 16, 1));
    let output = Command::new(TOOL).args(["digest", "zeros.frame"]).current_dir(&folder).output().unwrap();
    let line = outcome(output).1;
    assert!(DIGEST.contains(&format!("    {line}")));
    assert!(DIGEST.contains(&format!("    {}\n", line.split(' ').nth(1).unwrap())));
}

#[test]
fn the_sample_as_shown() {
    let root = concat!(env!("CARGO_MANIFEST_DIR"), "/..");
    for command in ["tiles", "digest"] {
        let output = Command::new(TOOL).args([command, "samples/joint.frame"]).current_dir(root).output();
        assert!(README.contains(&outcome(output.unwrap()).1));
    }
    let lines = run(&["records", SAMPLE_FILE]).1;
    let shown: String = lines.split_inclusive('\n').take(5).collect();
    assert!(README.contains(&format!("```\n{shown}```\n")));
    let out = folder("sample-as-shown");
    let lines = run(&["planes", SAMPLE_FILE, "--out", word(&out)]).1;
    assert!(README.contains(lines.split_once('\n').unwrap().1));
}
