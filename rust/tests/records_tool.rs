//! `arw6 records`, run as a program: lines and JSON, and what it says of damage and refusals.

mod support;

use arw6::records;
use std::fs;
use std::io::Write;
use std::process::{Command, Stdio};
use support::tool::{file, folder, outcome, run, shell, word, SAMPLE_FILE, TOOL};
use support::{damaged, frame_with, repeated_stream, repeated_tile, spoilt, stream, stream_lacking, strip};
use support::{BROKEN, GROUP_3, GROUP_4, SAMPLE, SPENT};

const HEAD: &str = "tile packet record bytes allowance bits state\n";

/// The lines of a tile, by the crate.
fn lines(k: usize, stream: &[u8]) -> String {
    let line = |r: &arw6::Record| {
        format!("{k} {} {} {} {} {} {}\n", r.packet, r.record, r.bytes, r.allowance, r.bits, r.state)
    };
    records(stream).unwrap().iter().map(line).collect()
}

/// The listing of the sample.
fn listing() -> String {
    [HEAD, &lines(0, &stream(0)), &lines(1, &stream(1))].concat()
}

#[test]
fn the_sample() {
    let (status, out, error) = run(&["records", SAMPLE_FILE]);
    assert_eq!((status, error.as_str()), (0, ""));
    assert_eq!(out, listing());
    assert_eq!(out.lines().count(), 1 + 2 * 13 * 31);
    assert!(out.starts_with(&format!("{HEAD}0 0 0 23 256 179 sound\n0 0 1 23 256 180 sound\n")));
}

/// A bare strip, standard input, folders, and names where there are several files.
#[test]
fn files_in_every_way() {
    let folder = folder("records-files");
    let bare = file(&folder, "bare/joint.strip", strip());
    assert_eq!(run(&["records", "--frame", "640x480", &bare]).1, listing());
    let mut command = Command::new(TOOL);
    command.args(["records", "-"]).stdin(Stdio::piped()).stdout(Stdio::piped()).stderr(Stdio::piped());
    let mut child = command.spawn().unwrap();
    child.stdin.take().unwrap().write_all(SAMPLE).unwrap();
    assert_eq!(outcome(child.wait_with_output().unwrap()), (0, listing(), String::new()));
    let (one, other) = (file(&folder, "card/1.frame", SAMPLE), file(&folder, "card/below/2.frame", SAMPLE));
    let named = |path: &str| format!("{path}:\n{}", listing());
    for jobs in ["-j1", "-j3"] {
        let (status, out, error) = run(&["records", jobs, &other, "nowhere", &one]);
        assert_eq!((status, out), (1, named(&other) + &named(&one)));
        assert!(error.starts_with("arw6: nowhere: ") && error.lines().count() == 1);
        let (status, out, _) = run(&["records", jobs, "-r", word(&folder.join("card"))]);
        assert_eq!((status, out), (0, named(&one) + &named(&other)));
    }
}

/// Each state, the tile's counts, and damage as every command tells it.
#[test]
fn states() {
    let folder = folder("records-states");
    let mixed: [(usize, &[u8]); 3] = [(0, &[0]), (GROUP_3, &BROKEN), (GROUP_4, &SPENT)];
    let path = file(&folder, "mixed.frame", &frame_with(&mixed));
    let (status, out, error) = run(&["records", &path]);
    let told = "broken records (tile 0: 1, tile 1: 1); the picture is damaged there";
    assert_eq!((status, &error), (0, &format!("arw6: warning: {path}: {told}\n")));
    assert_eq!(run(&["records", "--strict", &path]), (1, out.clone(), error));
    for k in 0..2 {
        let lines: Vec<String> =
            out.lines().filter_map(|line| line.strip_prefix(&format!("{k} "))).map(String::from).collect();
        assert_eq!(lines.len(), 13 * 3);
        let stated: Vec<&String> = lines.iter().filter(|line| !line.ends_with(" 0 0 0 empty")).collect();
        assert_eq!(stated, ["0 0 1 128 1 sound", "3 0 16 128 128 broken", "12 0 16 128 128 spent"]);
    }
    let json = run(&["records", "--json", &path]).1;
    assert_eq!(json.matches("\"stopped\":2,\"broken\":1,\"spent\":1,\"bits\":257,\"records\":[").count(), 2);
    let lining = file(&folder, "lining.frame", &frame_with(&[(GROUP_4, &SPENT)]));
    let (status, _, error) = run(&["records", "--strict", &lining]);
    assert_eq!((status, error.as_str()), (0, ""));
    let flipped = file(&folder, "flipped.frame", &damaged());
    let (status, out, error) = run(&["records", "--strict", &flipped]);
    assert_eq!((status, &error), (1, &run(&["tiles", &flipped]).2));
    assert!(out.contains(" broken\n"));
}

/// A record that a guarded tile lacks is not listed.
#[test]
fn a_missing_record() {
    let stream = stream_lacking(GROUP_4);
    let path = file(&folder("records-missing"), "guarded.frame", &repeated_stream((48, 26), &stream, 1));
    let (status, out, error) = run(&["records", &path]);
    assert_eq!((status, error.as_str(), out.lines().count()), (0, "", 1 + 13 * 3 - 1));
    assert!(out.ends_with("\n0 12 0 0 0 0 empty\n0 12 1 0 0 0 empty\n"));
    assert!(out.contains("\n0 11 2 0 0 0 empty\n"));
}

/// A refused tile has a line of its own, and the others have theirs.
#[test]
fn refused_tiles() {
    let folder = folder("records-refused");
    let path = file(&folder, "spoilt.frame", &spoilt());
    let (status, out, error) = run(&["records", &path]);
    assert_eq!((status, out), (1, format!("{HEAD}{}1 refused 9\n", lines(0, &stream(0)))));
    assert_eq!(error, format!("arw6: {path}: tile 1: refusal 9: a packet is missing\n"));
    let json = run(&["records", "--json", &path]).1;
    assert!(json
        .ends_with("\"height\":480,\"error\":\"tile 1: refusal 9: a packet is missing\",\"refusal\":9}]}\n"));
    let short = file(&folder, "short", b"1234567");
    let (status, out, error) = run(&["records", &short]);
    assert_eq!((status, out.as_str()), (1, ""));
    assert_eq!(error, format!("arw6: {short}: not an ARW file, nor a frame file\n"));
}

/// A tile that is too large for planes, or for the memory that planes take, has its records listed.
#[test]
fn large_tiles() {
    let folder = folder("records-large");
    for (height, records) in [(4112, 258), (4096, 257)] {
        let path = file(&folder, "large.frame", &repeated_tile(65_520, height, 1));
        let (_, _, error) = shell("ulimit -v 500000; exec \"$0\" tiles \"$1\"", &[&path]);
        assert_eq!(error.contains("refusal 3: "), height == 4112, "{error}");
        let (status, out, error) = shell("ulimit -v 500000; exec \"$0\" records \"$1\"", &[&path]);
        assert_eq!((status, error.as_str(), out.lines().count()), (0, "", 1 + 13 * records));
    }
}

/// The rest of a text after one value of JSON, without blanks; None where no value leads.
fn after_value(text: &str) -> Option<&str> {
    match text.chars().next()? {
        '{' => after_items(&text[1..], '}', |text| after_value(after_text(text)?.strip_prefix(':')?)),
        '[' => after_items(&text[1..], ']', after_value),
        '"' => after_text(text),
        _ => {
            let rest =
                text.trim_start_matches('-').trim_start_matches(|letter: char| letter.is_ascii_digit());
            Some(rest).filter(|rest| rest.len() < text.len())
        }
    }
}

fn after_items(text: &str, end: char, item: impl Fn(&str) -> Option<&str>) -> Option<&str> {
    if let Some(rest) = text.strip_prefix(end) {
        return Some(rest);
    }
    let mut rest = item(text)?;
    while let Some(next) = rest.strip_prefix(',') {
        rest = item(next)?;
    }
    rest.strip_prefix(end)
}

fn after_text(text: &str) -> Option<&str> {
    let inner = text.strip_prefix('"')?;
    let mut letters = inner.char_indices();
    while let Some((at, letter)) = letters.next() {
        match letter {
            '"' => return Some(&inner[at + 1..]),
            '\\' => drop(letters.next()),
            _ if letter.is_control() => return None,
            _ => {}
        }
    }
    None
}

/// One object a line, with the records of each tile and their sums.
#[test]
fn json() {
    let folder = folder("records-json");
    let (good, bad) = (file(&folder, "good", SAMPLE), file(&folder, "bad \"q\"", &spoilt()));
    let (status, out, _) = run(&["records", "--json", &good, &bad, "nowhere"]);
    let lines: Vec<&str> = out.lines().collect();
    assert_eq!((status, lines.len()), (1, 3));
    assert!(lines.iter().all(|line| line.starts_with('{') && after_value(line) == Some("")), "{out}");
    let tile = "\"tile\":0,\"offset\":512,\"length\":92336,\"x\":0,\"y\":0,\"width\":320,\"height\":480";
    let counts = "\"stopped\":0,\"broken\":0,\"spent\":0,\"bits\":723384";
    let first = "{\"packet\":0,\"record\":0,\"bytes\":23,\"allowance\":256,\"bits\":179,\"state\":\"sound\"}";
    assert!(lines[0].starts_with(&format!(
        "{{\"file\":\"{good}\",\"frame\":{{\"width\":640,\"height\":480}},\"tiles\":[{{{tile},{counts},\"records\":[{first},"
    )));
    assert_eq!(lines[0].matches("{\"packet\":").count(), 2 * 13 * 31);
    assert!(lines[1].contains("bad \\\"q\\\"") && lines[1].matches("{\"packet\":").count() == 13 * 31);
    assert!(lines[2].starts_with("{\"file\":\"nowhere\",\"error\":\""));
    let tiles = run(&["tiles", "--json", &good]).1;
    assert!(tiles.contains(&format!("{tile},\"rows\":240,{counts}}}")));
}

/// What each command says in JSON is JSON, the file of `planes` too.
#[test]
fn json_of_the_others() {
    let out = folder("records-json-others");
    let planes = ["planes", "--json", SAMPLE_FILE, "--out", word(&out)];
    let said = [&planes[..], &["tiles", "--json", SAMPLE_FILE], &["digest", "--json", SAMPLE_FILE]];
    let mut lines: Vec<String> =
        said.iter().flat_map(|words| run(words).1.lines().map(String::from).collect::<Vec<_>>()).collect();
    lines.push(fs::read_to_string(out.join("joint.frame.planes/tiles.json")).unwrap().trim_end().to_string());
    assert_eq!(lines.len(), 5);
    assert!(lines
        .iter()
        .all(|line| after_value(line) == Some("") && line.contains("\"spent\":0,\"bits\":7")));
}

#[test]
fn help() {
    let (status, out, error) = run(&["records", "--help"]);
    assert_eq!((status, error.as_str()), (0, ""));
    assert!(out.starts_with("arw6 records FILE..") && out.contains(HEAD.trim_end()));
    assert!(["sound", "broken", "spent", "empty"].iter().all(|state| out.contains(&format!("{state}: "))));
    assert!(run(&["--help"]).1.contains("  arw6 records FILE..  "));
}
