//! `arw6 write`, run as a program: what it writes, and what it says where it does not.

mod support;

use arw6::decode_stream;
use std::fs;
use std::path::{Path, PathBuf};
use support::picture;
use support::tool::{file, folder, names, run, word};

/// A file of NumPy's.
fn npy(kind: &str, rows: usize, columns: usize, data: &[u8]) -> Vec<u8> {
    let header = format!("{{'descr': '{kind}', 'fortran_order': False, 'shape': ({rows}, {columns}), }}\n");
    let length = (header.len() as u16).to_le_bytes();
    [b"\x93NUMPY\x01\x00", &length[..], header.as_bytes(), data].concat()
}

/// The planes of a picture as files.
fn planes(folder: &Path, width: usize, planes: &[Vec<i32>; 3]) -> [String; 3] {
    std::array::from_fn(|i| {
        let columns = if i == 0 { width } else { width / 2 };
        let data: Vec<u8> = planes[i].iter().flat_map(|number| number.to_le_bytes()).collect();
        let bytes = npy("<i4", planes[i].len() / columns, columns, &data);
        file(folder, ["green.npy", "red.npy", "blue.npy"][i], &bytes)
    })
}

fn write(files: &[String; 3], out: &Path, more: &[&str]) -> (i32, String, String) {
    let [green, red, blue] = files.each_ref().map(String::as_str);
    run(&[&["write", green, red, blue, "--out", word(out)], more].concat())
}

/// A bare stream and a frame file, plain and guarded, of the height that is taken and of another one.
#[test]
fn streams_and_frames() {
    let folder = folder("write");
    for (width, height) in [(64, 96), (32, 72), (32, 70)] {
        let drawn = picture(width, height, 3);
        let files = planes(&folder, width, &drawn);
        let (bare, frame) = (folder.join("bare"), folder.join("a.frame"));
        let other = height.to_string();
        let more: &[&str] = if height == 70 { &["--height", &other] } else { &[] };
        let (status, said, error) = write(&files, &bare, &[more, &["--stream", "--force"]].concat());
        assert_eq!((status, error.as_str()), (0, ""));
        let stream = fs::read(&bare).unwrap();
        let rows = drawn[0].len() / width;
        assert_eq!(
            said,
            format!("{}: {width}x{height}, rows {rows}, stream of {} bytes\n", word(&bare), stream.len())
        );
        let tile = decode_stream(&stream, false).unwrap();
        assert_eq!([tile.full_green.data, tile.red.data, tile.blue.data], drawn);
        let json = write(&files, &frame, &[more, &["--json", "--force"]].concat()).1;
        let fields =
            format!("\"width\":{width},\"height\":{height},\"rows\":{rows},\"length\":{}}}\n", stream.len());
        assert!(json.ends_with(&fields), "{json}");
        let bytes = fs::read(&frame).unwrap();
        assert!(bytes[520..] == stream && bytes.len() == 520 + stream.len());
        let listing = format!("tiles 1\n512 {} 0 0 {width} {height} broken 0 spent 0\n", stream.len());
        assert_eq!(run(&["tiles", "--strict", word(&frame)]), (0, listing, String::new()));
    }
    assert_eq!(names(&folder), ["a.frame", "bare", "blue.npy", "green.npy", "red.npy"]);
}

/// What `arw6 planes` writes goes in as it is, and numbers of 64 bits do too.
#[test]
fn planes_of_a_frame_go_in_again() {
    let folder = folder("write-again");
    let frame = support::tool::SAMPLE_FILE;
    assert_eq!(run(&["planes", frame, "--no-picture", "--out", word(&folder)]).0, 0);
    let tile = |name: &str| word(&folder.join(format!("joint.frame.planes/tile1.{name}.npy"))).to_string();
    let files = ["green", "red", "blue"].map(tile);
    let again = folder.join("again.frame");
    assert_eq!(write(&files, &again, &[]).0, 0);
    let digest = |line: &str| line.split(' ').nth(1).map(str::to_string);
    let lines = run(&["digest", word(&again)]).1;
    assert_eq!(digest(&lines), support::DIGESTS.lines().nth(1).and_then(digest));
    let wide = |i: usize, columns: usize| {
        let narrow = fs::read(&files[i]).unwrap()[128..].to_vec();
        let number = |four: &[u8]| (i32::from_le_bytes(four.try_into().unwrap()) as i64).to_le_bytes();
        let data: Vec<u8> = narrow.chunks(4).flat_map(number).collect();
        file(&folder, format!("wide{i}.npy"), &npy("<i8", 240, columns, &data))
    };
    let wide = [wide(0, 320), wide(1, 160), wide(2, 160)];
    let other = folder.join("wide.frame");
    assert_eq!(write(&wide, &other, &[]).0, 0);
    assert!(fs::read(again).unwrap() == fs::read(other).unwrap());
}

/// Refusal 25 names the plane's file, row and column, and writes nothing.
#[test]
fn numbers_at_fault() {
    let folder = folder("write-fault");
    let mut drawn = picture(64, 96, 1);
    drawn[2][3] += 5;
    let files = planes(&folder, 64, &drawn);
    let out = folder.join("a.frame");
    let (status, said, error) = write(&files, &out, &[]);
    assert_eq!((status, said.as_str()), (1, ""));
    let expected = format!("arw6: {}: refusal 25: a coefficient is above 524,287", files[2]);
    assert!(error.starts_with(&expected) && error.lines().count() == 1, "{error}");
    let first =
        "; first in blue, row 1, column 3 (computed from rows 0 to 2, columns 2 to 4): an edge value of ";
    assert!(error.contains(first), "{error}");
    assert!(error.contains("no value of E ('arw6 write --help' tells of the margin)\n"), "{error}");
    assert_eq!(names(&folder), ["blue.npy", "green.npy", "red.npy"]);
    let json = write(&files, &out, &["--json"]).1;
    assert!(json.contains("\"refusal\":25}"), "{json}");
}

/// Planes that do not go together, files that are none, and files that are there already.
#[test]
fn what_is_told() {
    let folder = folder("write-told");
    let files = planes(&folder, 64, &picture(64, 96, 1));
    let out = folder.join("a.frame");
    let [green, red, blue] = files.clone();
    let told = |files: [&String; 3], more: &[&str]| {
        let (status, said, error) = write(&files.map(String::clone), &out, more);
        assert_eq!((status, said.as_str(), error.lines().count()), (1, "", 1));
        error
    };
    let short = file(&folder, "short.npy", &npy("<i4", 9, 64, &[0; 4 * 9 * 64]));
    let odd = file(&folder, "odd.npy", &npy("<i4", 48, 20, &[0; 4 * 48 * 20]));
    let real = file(&folder, "real.npy", &npy("<f8", 48, 32, &[0; 8 * 48 * 32]));
    let far = file(&folder, "far.npy", &npy("<u4", 48, 32, &[255; 4 * 48 * 32]));
    let text = file(&folder, "text", b"1 2 3");
    let ends = [
        (
            told([&short, &red, &blue], &[]),
            format!("{short}: has 9 rows, and a coded height of 18 has 12; --height says another one\n"),
        ),
        (
            told([&green, &red, &blue], &["--height", "90"]),
            format!("{green}: has 48 rows, and a coded height of 90 has 44; --height says another one\n"),
        ),
        (
            told([&green, &odd, &blue], &[]),
            format!("{odd}: has 48 rows by 20, and beside this green it takes 48 by 32\n"),
        ),
        (
            told([&green, &red, &green], &[]),
            format!("{green}: has 48 rows by 64, and beside this green it takes 48 by 32\n"),
        ),
        (
            told([&green, &real, &blue], &[]),
            format!("{real}: holds numbers of the kind '<f8', not whole ones\n"),
        ),
        (
            told([&green, &red, &far], &[]),
            format!("{far}: row 0, column 0: 4294967295 does not fit 32 bits\n"),
        ),
        (told([&text, &red, &blue], &[]), format!("{text}: is no .npy file\n")),
    ];
    for (error, expected) in ends {
        assert_eq!(error, format!("arw6: {expected}"));
    }
    let error = told([&odd, &red, &blue], &[]);
    assert!(error.starts_with(&format!("arw6: {odd}: refusal 2: the stream's header is not valid (no header has a width of 20 and a height of 96: ")), "{error}");
    let error = told([&green, &red, &blue], &["--height", "97"]);
    assert!(error.starts_with(&format!("arw6: {green}: refusal 2: ")), "{error}");
    let missing = PathBuf::from("nowhere.npy");
    assert!(told([&green, &red, &word(&missing).to_string()], &[]).starts_with("arw6: nowhere.npy: "));
    fs::write(&out, "mine").unwrap();
    assert_eq!(
        told([&green, &red, &blue], &[]),
        format!("arw6: {}: is there already; --force replaces it\n", word(&out))
    );
    assert_eq!(fs::read(&out).unwrap(), b"mine");
    assert_eq!(write(&files, &out, &["--force"]).0, 0);
    assert_eq!(
        write(&files, &folder, &["--force"]).2,
        format!("arw6: {}: is no file, and is not replaced\n", word(&folder))
    );
    let nowhere = folder.join("nowhere/a.frame");
    assert!(write(&files, &nowhere, &[]).2.contains("nowhere/a.frame: No such file"));
}

#[test]
fn usage() {
    let wrong: [&[&str]; 7] = [
        &["write", "a", "b", "c"],
        &["write", "a", "b", "--out", "d"],
        &["write", "a", "b", "c", "e", "--out", "d"],
        &["write", "a", "b", "c", "--out", ""],
        &["write", "a", "b", "c", "--out", "d", "--height", "x"],
        &["write", "a", "b", "c", "--out", "d", "-r"],
        &["tiles", "a", "--stream"],
    ];
    for words in wrong {
        let (status, out, error) = run(words);
        assert_eq!((status, out.as_str(), error.lines().count()), (2, "", 1), "{words:?}");
    }
    let (status, out, _) = run(&["write", "--help"]);
    assert!(status == 0 && out.lines().all(|line| line.len() <= 92) && out.contains("Leave a margin"));
}
