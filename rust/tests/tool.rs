//! The tool `arw6`, run as a program: listings, planes, digests, JSON, and what it says.

mod support;

use arw6::decode_stream;
use std::fs;
use std::io::Write;
use std::path::Path;
use std::process::{Command, Stdio};
use support::tiff::{camera_file, ORDERS};
use support::tool::{file, folder, names, outcome, run, word, NAMES, SAMPLE_FILE, TOOL};
use support::{damaged, frame_with, spoilt, stream, strip};
use support::{BROKEN, FRAME, GROUP_3, GROUP_4, SAMPLE, SPENT};

const LISTING: &str =
    "tiles 2\n512 92336 0 0 320 480 broken 0 spent 0\n92848 95072 320 0 320 480 broken 0 spent 0\n";

/// Each file below samples/ is named from the repository's root in samples/joint.digest.
fn digests(path: &str) -> String {
    support::DIGESTS.replace("samples/joint.frame", path)
}

#[test]
fn listing() {
    assert_eq!(run(&["tiles", SAMPLE_FILE]), (0, LISTING.to_string(), String::new()));
}

#[test]
fn listing_of_a_bare_strip() {
    let path = file(&folder("bare"), "joint.strip", strip());
    assert_eq!(run(&["tiles", "--frame", "640x480", &path]).1, LISTING);
    assert_eq!(run(&["tiles", "--frame=640x480", &path]).1, LISTING);
    let (status, out, error) = run(&["tiles", "--frame", "624x480", &path]);
    assert_eq!((status, out.as_str()), (1, ""));
    assert!(error.starts_with(&format!("arw6: {path}: refusal 1: no tile located in the strip (")));
    assert!(error.contains("truncated copy"));
}

#[test]
fn camera_files() {
    let folder = folder("camera");
    for order in ORDERS {
        let path = file(&folder, format!("{order:?}.ARW"), &camera_file(order, FRAME, strip()));
        assert_eq!(run(&["tiles", &path]), (0, LISTING.to_string(), String::new()));
        assert_eq!(run(&["digest", &path]).1, digests(&path));
    }
}

/// A camera file that is cut, one without a raw image, and files that are neither.
#[test]
fn files_that_cannot_be_opened() {
    let folder = folder("unopened");
    let whole = camera_file(ORDERS[0], FRAME, strip());
    let cut = file(&folder, "cut.ARW", &whole[..whole.len() - 1]);
    let other = file(&folder, "other.ARW", &camera_file(ORDERS[1], FRAME, &[7; 4000]));
    let big = file(&folder, "big.ARW", b"II\x2b\0\x08\0\0\0\x10\0\0\0\0\0\0\0");
    let text = file(&folder, "notes.txt", &[b'x'; 5000]);
    let (short, empty) = (file(&folder, "short", b"1234567"), file(&folder, "empty", b""));
    let cut_frame = file(&folder, "cut.frame", &SAMPLE[..150_000]);
    let files = [&cut, &other, &big, &text, &short, &empty, &cut_frame].map(String::as_str);
    let (status, out, error) = run(&[&["tiles", "-j1"], &files[..], &[word(&folder), "/dev/zero"]].concat());
    assert_eq!((status, out.as_str()), (1, ""));
    let expected = [
        format!("{cut}: refusal 1: no tile located in the strip (the file has {} bytes, ", whole.len() - 1),
        format!("{other}: refusal 1: no tile located in the strip (no image in the file has ARW6 tiles)"),
        format!("{big}: refusal 1: no tile located in the strip (a BigTIFF, "),
        format!("{text}: not an ARW file, nor a frame file"),
        format!("{short}: not an ARW file, nor a frame file"),
        format!("{empty}: the file is empty (a truncated copy?)"),
        format!("{cut_frame}: refusal 1: no tile located in the strip (a truncated copy, "),
        format!("{}: is a folder; -r goes through folders", word(&folder)),
        "/dev/zero: is a device".to_string(),
    ];
    let lines: Vec<&str> = error.lines().collect();
    assert_eq!(lines.len(), expected.len());
    for (line, expected) in lines.iter().zip(expected) {
        assert!(line.starts_with(&format!("arw6: {expected}")), "{line}");
    }
    assert!(lines[0].ends_with("a truncated copy?)"));
}

#[test]
fn several_files_in_the_order_given() {
    let folder = folder("several");
    let (good, short) = (file(&folder, "good", SAMPLE), file(&folder, "short", b"1234567"));
    for jobs in ["-j1", "-j3"] {
        let (status, out, error) = run(&["tiles", jobs, &good, &short, "nowhere", SAMPLE_FILE]);
        assert_eq!(status, 1);
        assert_eq!(out, format!("{good}:\n{LISTING}{SAMPLE_FILE}:\n{LISTING}"));
        let lines: Vec<&str> = error.lines().collect();
        assert_eq!(lines[0], format!("arw6: {short}: not an ARW file, nor a frame file"));
        assert!(lines[1].starts_with("arw6: nowhere: ") && lines.len() == 2);
    }
}

#[test]
fn standard_input() {
    let feed = |words: &[&str], bytes: &[u8]| {
        let mut command = Command::new(TOOL);
        command.args(words).stdin(Stdio::piped()).stdout(Stdio::piped()).stderr(Stdio::piped());
        let mut child = command.spawn().unwrap();
        child.stdin.take().unwrap().write_all(bytes).unwrap();
        outcome(child.wait_with_output().unwrap())
    };
    assert_eq!(feed(&["tiles", "-"], SAMPLE), (0, LISTING.to_string(), String::new()));
    assert_eq!(feed(&["digest", "-"], SAMPLE).1, digests("-"));
    let out = folder("standard-input");
    assert_eq!(feed(&["planes", "-", "-o", word(&out)], SAMPLE).0, 0);
    assert_eq!(names(out.join("stdin.planes")), NAMES);
    assert_eq!(feed(&["tiles", "-"], b"").2, "arw6: -: the file is empty (a truncated copy?)\n");
}

#[test]
fn planes() {
    let out = folder("planes").join("made/here");
    let (status, lines, error) = run(&["planes", SAMPLE_FILE, "--out", word(&out)]);
    assert_eq!((status, error.as_str()), (0, ""));
    let target = out.join("joint.frame.planes");
    let expected = format!(
        "{}\n  tile 0 at 0,0: 320x480, rows 240, green -1639 to 1662, red 1 to 102, blue -74 to 3, broken 0 spent 0\n  \
         tile 1 at 320,0: 320x480, rows 240, green -1638 to 1262, red 1 to 219, blue -156 to 2, broken 0 spent 0\n",
        target.display()
    );
    assert_eq!(lines, expected);
    assert_eq!(names(&target), NAMES);
    for k in 0..2 {
        let tile = decode_stream(&stream(k), false).unwrap();
        for (colour, plane) in [("green", tile.full_green), ("red", tile.red), ("blue", tile.blue)] {
            let exact: Vec<u8> = plane.data.iter().flat_map(|number| number.to_le_bytes()).collect();
            assert!(fs::read(target.join(format!("tile{k}.{colour}.npy"))).unwrap()[128..] == exact);
        }
        let picture = fs::read(target.join(format!("tile{k}.png"))).unwrap();
        assert_eq!(picture[16..24], [0, 0, 1, 64, 0, 0, 1, 224]);
    }
    let told = fs::read_to_string(target.join("tiles.json")).unwrap();
    for line in support::DIGESTS.lines() {
        assert!(told.contains(&format!("\"digest\":\"{}\"", line.split(' ').nth(1).unwrap())));
    }
}

#[test]
fn planes_without_pictures() {
    let out = folder("no-picture");
    assert_eq!(run(&["planes", SAMPLE_FILE, "--out", word(&out), "--no-picture"]).0, 0);
    let without: Vec<&str> = NAMES.into_iter().filter(|name| !name.ends_with(".png")).collect();
    assert_eq!(names(out.join("joint.frame.planes")), without);
}

#[test]
fn a_refused_file_writes_nothing() {
    let folder = folder("refused");
    let path = file(&folder, "spoilt.frame", &spoilt());
    let out = folder.join("out");
    let (status, lines, error) = run(&["planes", &path, "--out", word(&out)]);
    assert_eq!((status, lines.as_str()), (1, ""));
    assert_eq!(error, format!("arw6: {path}: tile 1: refusal 9: a packet is missing\n"));
    assert!(names(&out).is_empty());
    assert_eq!(run(&["digest", &path]), (1, String::new(), error.clone()));
    let listing = "tiles 2\n512 92336 0 0 320 480 broken 0 spent 0\n92848 95072 320 0 320 480 refused 9\n";
    assert_eq!(run(&["tiles", &path]), (1, listing.to_string(), error));
}

#[test]
fn good_files_are_written_beside_a_refused_one() {
    let folder = folder("beside");
    let path = file(&folder, "spoilt.frame", &spoilt());
    let out = folder.join("out");
    assert_eq!(run(&["planes", &path, SAMPLE_FILE, "--out", word(&out)]).0, 1);
    assert_eq!(names(&out), ["joint.frame.planes"]);
}

/// A picture with damage does not look whole: each command says so, and `--strict` makes it fail.
#[test]
fn damage() {
    let folder = folder("damage");
    let path = file(&folder, "flipped.frame", &damaged());
    let tile = decode_stream(&damaged()[8 + 92848..], false).unwrap();
    let (stopped, broken, spent) = (tile.stopped, tile.broken, tile.spent);
    assert!(broken > 0);
    let warning =
        format!("arw6: warning: {path}: broken records (tile 1: {broken}); the picture is damaged there\n");
    for (words, counts) in commands(&folder.join("out")) {
        let words = [&words[..], &[path.as_str()]].concat();
        let (status, lines, error) = run(&words);
        assert_eq!((status, &error), (0, &warning));
        assert!(lines.contains(&counts(0, 0)) && lines.contains(&counts(broken, spent)));
        let strict = run(&[&words[..], &["--strict"]].concat());
        assert_eq!(strict, (1, lines, error));
    }
    let told = fs::read_to_string(folder.join("out/flipped.frame.planes/tiles.json")).unwrap();
    let counts =
        format!("\"stopped\":{stopped},\"broken\":{broken},\"spent\":{spent},\"bits\":{}", tile.bits);
    assert!(told.contains(&counts));
    assert_eq!(run(&["tiles", "--strict", SAMPLE_FILE]).0, 0);
}

/// How a command's output has broken and spent records.
type Counts = fn(usize, usize) -> String;

/// The commands that decode, and how each says the counts.
fn commands(out: &Path) -> [(Vec<&str>, Counts); 3] {
    let both: Counts = |broken, spent| format!(" broken {broken} spent {spent}\n");
    let sum: Counts = |broken, spent| format!(" stopped {} ", broken + spent);
    [(vec!["tiles"], both), (vec!["digest"], sum), (vec!["planes", "--force", "--out", word(out)], both)]
}

/// On an evenly lit lining records are spent: they are counted, and nothing is said of damage.
#[test]
fn spent_records() {
    let folder = folder("spent");
    let path = file(&folder, "lining.frame", &frame_with(&[(GROUP_3, &SPENT), (GROUP_4, &SPENT)]));
    for (words, counts) in commands(&folder.join("out")) {
        let words = [&words[..], &["--strict", &path]].concat();
        let (status, lines, error) = run(&words);
        assert_eq!((status, error.as_str()), (0, ""));
        assert_eq!(lines.matches(&counts(0, 2)).count(), 2, "{lines}");
        let json = run(&[&words[..], &["--json"]].concat()).1;
        assert_eq!(json.matches("\"stopped\":2,\"broken\":0,\"spent\":2,\"bits\":256").count(), 2);
    }
    let list = file(&folder, "LIST", run(&["digest", &path]).1.as_bytes());
    let checked = format!("{path}: tile 0: OK\n{path}: tile 1: OK\n");
    assert_eq!(run(&["digest", "--check", "--strict", &list]), (0, checked, String::new()));
}

/// A record that is broken first stays so, though its bits run out afterwards.
#[test]
fn broken_beside_spent_records() {
    let folder = folder("broken");
    let path = file(&folder, "both.frame", &frame_with(&[(GROUP_3, &BROKEN), (GROUP_4, &SPENT)]));
    let (status, lines, error) = run(&["tiles", "--strict", &path]);
    assert_eq!((status, lines.matches(" 48 32 broken 1 spent 1\n").count()), (1, 2));
    let told = "broken records (tile 0: 1, tile 1: 1); the picture is damaged there";
    assert_eq!(error, format!("arw6: warning: {path}: {told}\n"));
}

#[test]
fn json() {
    let folder = folder("json");
    let (good, bad) = (file(&folder, "good", SAMPLE), file(&folder, "bad \"q\"", &spoilt()));
    let (status, out, _) = run(&["tiles", "--json", &good, &bad, "nowhere"]);
    let lines: Vec<&str> = out.lines().collect();
    assert_eq!((status, lines.len()), (1, 3));
    let first = "\"tile\":0,\"offset\":512,\"length\":92336,\"x\":0,\"y\":0,\"width\":320,\"height\":480,\"rows\":240,\"stopped\":0,\"broken\":0,\"spent\":0,\"bits\":723384}";
    assert!(lines[0].starts_with(&format!(
        "{{\"file\":\"{good}\",\"frame\":{{\"width\":640,\"height\":480}},\"tiles\":[{{{first},"
    )));
    assert!(lines[1].contains("bad \\\"q\\\"") && lines[1].contains("\"refusal\":9"));
    assert!(lines[2].starts_with("{\"file\":\"nowhere\",\"error\":\""));
    let (_, out, _) = run(&["digest", "--json", &good]);
    let digest = support::DIGESTS.split(' ').nth(1).unwrap();
    let fields = format!("\"tile\":0,\"tiles\":2,\"definition\":\"ARW6-planes-1\",\"digest\":\"{digest}\",\"width\":320,\"height\":480,\"rows\":240,\"stopped\":0,\"broken\":0,\"spent\":0,\"bits\":723384");
    assert_eq!(out.lines().next(), Some(format!("{{\"file\":\"{good}\",{fields}}}").as_str()));
    let out = run(&["planes", "--json", &good, "-o", word(&folder.join("out"))]).1;
    assert!(out.contains("\"folder\":\"") && out.contains("\"green\":{\"least\":-1639,\"greatest\":1662}"));
}

#[test]
fn folders_are_gone_through() {
    let (card, out) = (folder("card"), folder("card-out"));
    let whole = camera_file(ORDERS[0], FRAME, strip());
    file(&card, "DCIM/101/b.arw", &whole);
    file(&card, "DCIM/100/a.ARW", &whole);
    file(&card, "joint.frame", SAMPLE);
    file(&card, "DCIM/100/readme.txt", b"not this one");
    file(&card, "DCIM/100/._a.ARW", b"nor this one");
    std::os::unix::fs::symlink(&card, card.join("DCIM/again")).unwrap();
    let (status, lines, error) = run(&["digest", "-r", word(&card)]);
    assert_eq!((status, error.as_str()), (0, ""));
    let paths = ["DCIM/100/a.ARW", "DCIM/101/b.arw", "joint.frame"].map(|name| card.join(name));
    assert_eq!(lines, paths.map(|path| digests(word(&path))).concat());
    assert_eq!(run(&["planes", "-r", word(&card), "--out", word(&out)]).0, 0);
    assert_eq!(names(out.join("DCIM/100")), ["a.ARW.planes"]);
    assert_eq!(names(out.join("DCIM/101/b.arw.planes")), NAMES);
    let empty = folder("card-empty");
    let (status, _, error) = run(&["tiles", "-r", word(&empty)]);
    assert_eq!((status, error), (1, format!("arw6: {}: no .ARW or .frame file below\n", word(&empty))));
}

#[test]
fn usage() {
    let wrong: [&[&str]; 21] = [
        &[],
        &["tile"],
        &["tiles"],
        &["tiles", "a", "--out", "b"],
        &["tiles", "a", "--frame", "640"],
        &["tiles", "a", "--frame"],
        &["tiles", "a", "--json=yes"],
        &["tiles", "a", "-j", "0"],
        &["tiles", "a", "-jx"],
        &["tiles", "-", "-"],
        &["tiles", "-x", "a"],
        &["planes", "a"],
        &["planes", "a", "--out", ""],
        &["planes", "a", "--out="],
        &["planes", "x/a", "y/a", "--out", "b"],
        &["digest", "a", "--fast"],
        &["digest", "a", "--quiet"],
        &["digest", "a", "--force"],
        &["digest", "--check", "-r", "a"],
        &["records"],
        &["records", "a", "--check"],
    ];
    for words in wrong {
        let (status, out, error) = run(words);
        assert_eq!((status, out.as_str(), error.lines().count()), (2, "", 1), "{words:?}");
        assert!(error.starts_with("arw6: "));
    }
    let dashed = folder("dashed");
    file(&dashed, "-j", SAMPLE);
    let output = Command::new(TOOL).args(["tiles", "--", "-j"]).current_dir(&dashed).output().unwrap();
    assert_eq!(outcome(output).1, LISTING);
}

#[test]
fn help() {
    let commands = ["tiles", "planes", "digest", "records", "write"];
    let all = commands.iter().flat_map(|command| ["--help", "-h"].map(|word| vec![*command, word]));
    for words in [vec!["--help"]].into_iter().chain(all) {
        let (status, out, error) = run(&words);
        assert_eq!((status, error.as_str()), (0, ""));
        assert!(out.starts_with("arw6") && out.lines().all(|line| line.len() <= 92));
        let named: &[&str] = if words.len() == 1 { &commands } else { &words[..1] };
        assert!(named.iter().all(|command| out.contains(&format!("arw6 {command} "))));
    }
    for word in ["--version", "-V"] {
        assert_eq!(run(&[word]).1, format!("arw6 {}\n", env!("CARGO_PKG_VERSION")));
    }
}

/// The picture's greens are the sensor's, and red and blue its differences from them.
#[test]
fn pictures_at_true_proportions() {
    let out = folder("picture");
    assert_eq!(run(&["planes", SAMPLE_FILE, "--out", word(&out)]).0, 0);
    let tile = decode_stream(&stream(0), false).unwrap();
    let pixels = support::png_pixels(&fs::read(out.join("joint.frame.planes/tile0.png")).unwrap());
    let at = |row: usize, column: usize| &pixels[row * (1 + 3 * 320) + 1 + 3 * column..][..3];
    let shade = |number: i32| ((number + 2048).clamp(0, 4095) >> 4) as u8;
    for (y, x) in [(0, 0), (60, 50), (104, 100), (111, 100), (239, 159)] {
        let green = tile.full_green.row(y);
        let (red, blue) = (tile.red.row(y)[x], tile.blue.row(y)[x]);
        let (upper, lower) = (green[2 * x + 1], green[2 * x]);
        assert_eq!(at(2 * y, 2 * x + 1), [shade(upper + 2 * red), shade(upper), shade(upper + 2 * blue)]);
        assert_eq!(at(2 * y + 1, 2 * x), [shade(lower + 2 * red), shade(lower), shade(lower + 2 * blue)]);
    }
    let mean = [
        tile.full_green.row(59)[100],
        tile.full_green.row(60)[100],
        tile.full_green.row(60)[99],
        tile.full_green.row(60)[101],
    ];
    assert_eq!(at(120, 100)[1], shade(mean.iter().sum::<i32>().div_euclid(4)));
    assert_eq!(pixels.len(), 480 * (1 + 3 * 320));
}

/// Several tiles that are refused are one line, and the listing has them all.
#[test]
fn the_first_refusal_is_told() {
    let mut bytes = spoilt();
    bytes[8 + 512 + 48] = 0;
    let path = file(&folder("both"), "both.frame", &bytes);
    let (status, out, error) = run(&["tiles", &path]);
    assert_eq!((status, out.matches(" refused 9\n").count()), (1, 2));
    assert_eq!(error, format!("arw6: {path}: tile 0: refusal 9: a packet is missing\n"));
}
