//! The tool where memory, a stream or a terminal is short, and many files at once.

mod support;

use std::fs;
use std::process::Command;
use support::tool::{file, folder, run, shell, word, SAMPLE_FILE, TOOL};
use support::{repeated_tile, SAMPLE};

/// A small file that names one large tile 16 times: 2 GiB for a tile, which cannot be had under the
/// limit. It is one line, and the next file goes on.
#[test]
fn memory_that_cannot_be_had() {
    let folder = folder("memory");
    let bytes = repeated_tile(65_520, 4096, 16);
    assert!(bytes.len() < 20_000);
    let large = file(&folder, "large.frame", &bytes);
    let commands = [("digest", "stopped 0"), ("planes --force --out \"$3\"", "broken 0 spent 0")];
    for (command, counts) in commands {
        let script = format!("ulimit -v 1000000; exec \"$0\" {command} \"$1\" \"$2\"");
        let (status, out, error) = shell(&script, &[&large, SAMPLE_FILE, word(&folder)]);
        let expected = format!("arw6: {large}: tile 0: the memory for it, 2152 MB, cannot be had\n");
        assert_eq!((status, error), (1, expected));
        assert!(out.contains(counts) && out.lines().count() >= 2);
        assert!(!folder.join("large.frame.planes").exists());
    }
    let (status, out, error) = shell("ulimit -v 1000000; exec \"$0\" tiles \"$1\"", &[&large]);
    assert_eq!((status, out.lines().count(), error.lines().count()), (1, 17, 1));
    assert!(out.lines().skip(1).all(|line| line.ends_with(" 0 0 65520 4096 not decoded")));
}

/// Tile after tile in the same memory: 16 tiles of 134 MB each under a limit of 400 MB.
#[test]
fn one_tile_at_a_time() {
    let folder = folder("tile-by-tile");
    let path = file(&folder, "often.frame", &repeated_tile(4096, 4096, 16));
    let (status, out, error) = shell("ulimit -v 400000; exec \"$0\" tiles -j1 \"$1\"", &[&path]);
    assert_eq!((status, error.as_str(), out.lines().count()), (0, "", 17));
}

/// Files that fit the memory one by one, but not all at once, all come out.
#[test]
fn memory_for_one_file_at_a_time() {
    let folder = folder("one-by-one");
    let bytes = repeated_tile(4096, 4096, 1);
    let paths: Vec<String> = (0..6).map(|k| file(&folder, format!("{k}.frame"), &bytes)).collect();
    let words: Vec<&str> = paths.iter().map(String::as_str).collect();
    let script = "ulimit -v 700000; exec \"$0\" digest -j6 \"$@\"";
    let (status, out, error) = shell(script, &words);
    assert_eq!((status, error.as_str()), (0, ""));
    assert!(out.lines().zip(&paths).all(|(line, path)| line.ends_with(path)));
    assert_eq!(out.lines().count(), 6);
}

/// Standard error or standard output that cannot be written is no panic.
#[test]
fn streams_that_cannot_be_written() {
    let good = "tiles \"$1\" nowhere";
    assert_eq!(shell(&format!("\"$0\" {good} 2>/dev/full"), &[SAMPLE_FILE]).0, 1);
    assert_eq!(shell(&format!("\"$0\" {good} 2>&-"), &[SAMPLE_FILE]).0, 1);
    assert_eq!(shell("\"$0\" nonsense 2>/dev/full", &[]).0, 2);
    let (status, _, error) = shell(&format!("\"$0\" {good} >/dev/full"), &[SAMPLE_FILE]);
    assert_eq!(status, 1);
    assert!(error.contains("arw6: standard output: No space left on device"), "{error}");
    let piped =
        format!("\"$0\" {good} 2>&1 | true; \"$0\" tiles \"$1\" | true; \"$0\" --help | true; echo done");
    let (_, out, error) = shell(&piped, &[SAMPLE_FILE]);
    assert_eq!((out.as_str(), error.as_str()), ("done\n", ""));
    assert_eq!(shell("\"$0\" tiles \"$1\" >/dev/full 2>/dev/full", &[SAMPLE_FILE]).0, 1);
}

/// Many files on several threads: the same lines in the same order as one after the other.
#[test]
fn the_order_given() {
    let folder = folder("order");
    let mut words = vec!["digest".to_string()];
    for k in 0..60 {
        let small = repeated_tile(16 + 16 * (k % 7), 16 + 2 * (k % 23), 1 + k % 16);
        words.push(file(&folder, format!("{k}.frame"), if k % 9 == 0 { SAMPLE } else { &small }));
    }
    words.push("nowhere".to_string());
    let words: Vec<&str> = words.iter().map(String::as_str).collect();
    let one = run(&[&words[..], &["-j1"]].concat());
    assert_eq!(one.0, 1);
    for jobs in ["-j2", "-j5", "-j64"] {
        assert_eq!(run(&[&words[..], &[jobs]].concat()), one);
    }
    assert_eq!(run(&words), one);
}

/// Progress is shown on a terminal, and only there.
#[test]
fn progress() {
    let folder = folder("progress");
    let paths: Vec<String> = (0..5).map(|k| file(&folder, format!("{k}.frame"), SAMPLE)).collect();
    let words: Vec<&str> = paths.iter().map(String::as_str).collect();
    let listed = run(&[&["tiles"], &words[..]].concat());
    assert_eq!((listed.0, listed.2.as_str()), (0, ""));
    let seen = folder.join("seen");
    let command = format!("{TOOL} tiles -j1 {} >/dev/null", words.join(" "));
    let done = Command::new("script").args(["-qec", &command]).arg(&seen).output().unwrap();
    assert!(done.status.success());
    let seen = String::from_utf8(fs::read(&seen).unwrap()).unwrap();
    assert!(
        seen.contains(" of 5 files, ") && seen.contains(" a second, ") && seen.contains(" left"),
        "{seen}"
    );
    let last = seen.rfind("\r\x1b[K").unwrap();
    assert!(seen.rfind(" left").unwrap() < last);
}
