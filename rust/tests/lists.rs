//! `arw6 digest FILE.. > LIST`, and later `arw6 digest --check LIST`.

mod support;

use std::ffi::OsString;
use std::fs;
use std::os::unix::ffi::{OsStrExt, OsStringExt};
use std::path::Path;
use std::process::{Command, Output};
use support::tool::{file, folder, outcome, run, Outcome, SAMPLE_FILE, TOOL};
use support::{damaged, spoilt, SAMPLE};

/// Runs the tool in a folder.
fn run_in(folder: &Path, words: &[&str]) -> Outcome {
    outcome(output_in(folder, words))
}

fn output_in(folder: &Path, words: &[&str]) -> Output {
    Command::new(TOOL).args(words).current_dir(folder).output().unwrap()
}

/// Writes the list of the folder's files into it.
fn list(folder: &Path, words: &[&str]) {
    let output = output_in(folder, &[&["digest"], words].concat());
    fs::write(folder.join("LIST"), output.stdout).unwrap();
}

#[test]
fn all_good() {
    let folder = folder("list-good");
    file(&folder, "a/x.frame", SAMPLE);
    file(&folder, "b/x.frame", &damaged());
    list(&folder, &["a/x.frame", "b/x.frame"]);
    let told = "a/x.frame: tile 0: OK\na/x.frame: tile 1: OK\nb/x.frame: tile 0: OK\nb/x.frame: tile 1: OK\n";
    let (status, out, error) = run_in(&folder, &["digest", "--check", "LIST"]);
    assert_eq!((status, out.as_str()), (0, told));
    assert!(error.starts_with("arw6: warning: b/x.frame: ") && error.lines().count() == 1);
    assert_eq!(
        run_in(&folder, &["digest", "--check", "LIST", "--quiet", "-j1"]),
        (0, String::new(), error.clone())
    );
    assert_eq!(run_in(&folder, &["digest", "--check", "LIST", "--strict", "-q"]), (1, String::new(), error));
    let json = run_in(&folder, &["digest", "--check", "LIST", "--json"]).1;
    assert_eq!(json.lines().next(), Some("{\"file\":\"a/x.frame\",\"tile\":0,\"result\":\"OK\"}"));
    let piped = "cd \"$1\" && \"$0\" digest --check - < LIST";
    assert_eq!(support::tool::shell(piped, &[folder.to_str().unwrap()]).1, told);
}

/// One bit of a payload, a file that is gone, one that is refused, one that is no frame.
#[test]
fn what_is_not_good() {
    let folder = folder("list-bad");
    for name in ["changed", "gone", "refused", "other", "good"] {
        file(&folder, name, SAMPLE);
    }
    list(&folder, &["changed", "gone", "refused", "other", "good"]);
    let mut changed = SAMPLE.to_vec();
    *changed.last_mut().unwrap() ^= 0x80;
    changed[100_000] ^= 1;
    file(&folder, "changed", &changed);
    fs::remove_file(folder.join("gone")).unwrap();
    file(&folder, "refused", &spoilt());
    file(&folder, "other", b"something else");
    let (status, out, error) = run_in(&folder, &["digest", "--check", "LIST", "-j2"]);
    let expected =
        "changed: tile 0: OK\nchanged: tile 1: FAILED\ngone: tile 0: missing\ngone: tile 1: missing\n\
                    refused: tile 0: OK\nrefused: tile 1: refused 9\nother: tile 0: unreadable\n\
                    other: tile 1: unreadable\ngood: tile 0: OK\ngood: tile 1: OK\n";
    assert_eq!((status, out.as_str()), (1, expected));
    let lines: Vec<&str> = error.lines().filter(|line| !line.contains("warning")).collect();
    assert!(lines[0].starts_with("arw6: gone: "));
    assert_eq!(lines[1], "arw6: refused: tile 1: refusal 9: a packet is missing");
    assert_eq!(lines[2], "arw6: other: not an ARW file, nor a frame file");
    assert_eq!(lines[3], "arw6: 6 of the tiles are not OK");
    let quiet = run_in(&folder, &["digest", "--check", "LIST", "--quiet"]);
    assert_eq!((quiet.0, quiet.1.lines().count()), (1, 6));
}

/// A line says its digest, tile, count of tiles, size and stopped records: each must be the file's.
#[test]
fn every_field_is_held() {
    let folder = folder("list-fields");
    file(&folder, "x", SAMPLE);
    list(&folder, &["x"]);
    let line = fs::read_to_string(folder.join("LIST")).unwrap().lines().next().unwrap().to_string();
    let check = |line: &str| {
        file(&folder, "LIST", format!("{line}\n").as_bytes());
        run_in(&folder, &["digest", "--check", "LIST"])
    };
    assert_eq!(check(&line), (0, "x: tile 0: OK\n".to_string(), String::new()));
    let other = [
        (line.replacen("ba65", "ba66", 1), "x: tile 0: FAILED\n"),
        (line.replace("tile 0", "tile 1"), "x: tile 1: FAILED\n"),
        (line.replace("tile 0", "tile 2"), "x: tile 2: FAILED\n"),
        (line.replace("of 2", "of 3"), "x: tile 0: FAILED\n"),
        (line.replace("320x480", "320x482"), "x: tile 0: FAILED\n"),
        (line.replace("stopped 0", "stopped 1"), "x: tile 0: FAILED\n"),
    ];
    for (line, expected) in other {
        let (status, out, error) = check(&line);
        assert_eq!(
            (status, out.as_str(), error.as_str()),
            (1, expected, "arw6: 1 of the tiles are not OK\n")
        );
    }
    for text in ["", "x", &line[1..], &line.replace("planes-1", "planes-2"), &format!("{line}\n\n")] {
        let (status, _, error) = check(text);
        assert_eq!(status, 1);
        assert!(error.contains("LIST: line ") && error.contains(" is no line of a digest\n"), "{error}");
    }
    let (status, _, error) = run_in(&folder, &["digest", "--check", "nowhere"]);
    assert!(status == 1 && error.starts_with("arw6: nowhere: "));
}

/// No name forges a line: newlines, backslashes and bytes that are no UTF-8 come back as they were.
#[test]
fn names_of_all_kinds() {
    let folder = folder("list-names");
    let digest = support::DIGESTS.lines().next().unwrap();
    let names: [Vec<u8>; 6] = [
        b"new\nline".to_vec(),
        b"back\\slash\\n".to_vec(),
        b"\xff\xfe no text".to_vec(),
        b"  two spaces  ".to_vec(),
        b"\x1b[31mred\r".to_vec(),
        format!("forged\n{}", digest.replace("samples/", "")).into_bytes(),
    ];
    let names: Vec<OsString> = names.into_iter().map(OsString::from_vec).collect();
    let mut command = Command::new(TOOL);
    command.arg("digest").current_dir(&folder);
    for name in &names {
        file(&folder, name, SAMPLE);
        command.arg(Path::new(".").join(name));
    }
    let written = command.output().unwrap().stdout;
    fs::write(folder.join("LIST"), &written).unwrap();
    let text = String::from_utf8(written).unwrap();
    assert_eq!(text.lines().count(), 2 * names.len());
    assert!(!text.contains(['\x1b', '\r']));
    assert_eq!(text.lines().filter(|line| line.starts_with('\\')).count(), 2 * 5);
    let (status, out, error) = run_in(&folder, &["digest", "--check", "LIST"]);
    assert_eq!((status, error.as_str(), out.lines().count()), (0, "", 2 * names.len()));
    assert!(out.lines().all(|line| line.ends_with(": OK")));
    fs::remove_file(folder.join(&names[0])).unwrap();
    let (status, out, _) = run_in(&folder, &["digest", "--check", "LIST", "--quiet"]);
    assert_eq!((status, out.as_str()), (1, "./new\\nline: tile 0: missing\n./new\\nline: tile 1: missing\n"));
    assert_eq!(names[2].as_bytes()[0], 0xff);
}

/// The sample's lines are those of samples/joint.digest.
#[test]
fn the_sample() {
    let (status, out, error) = run(&["digest", SAMPLE_FILE]);
    assert_eq!((status, error.as_str()), (0, ""));
    assert_eq!(out.replace(SAMPLE_FILE, "samples/joint.frame"), support::DIGESTS);
}
