//! A joint of a known gap and lip, drawn, written as a frame, decoded and read off the green plane again.

mod support;

#[path = "../examples/joint.rs"]
#[allow(dead_code)]
mod joint;

use arw6::{decode_stream, find_streams, write_stream};
use joint::{draw, draw_into, read, read_from, COLUMNS, ROWS};
use std::fs;
use support::tool::{folder, run, word};

/// Many gaps and lips through the crate's functions.
#[test]
fn in_and_out_again() {
    for (gap, lip) in [(0, 0), (1, 1), (2, 9), (17, 9), (16, 0), (0, 5), (40, 31), (63, 20)] {
        let [green, red, blue] = draw(gap, lip);
        let stream = write_stream(&green, &red, &blue, COLUMNS, 2 * ROWS).unwrap();
        let tile = decode_stream(&stream, false).unwrap();
        assert!(tile.full_green.data == green && tile.red.data == red && tile.blue.data == blue);
        assert_eq!(read(&tile.full_green.data, COLUMNS), Ok((gap, lip)));
    }
}

/// Drawn and read by the example, written and decoded by the tool; `sample` runs all four as programs.
#[test]
fn by_the_tool() {
    let folder = folder("joint");
    draw_into(&folder, 17, 9).unwrap();
    let [green, red, blue] = ["green.npy", "red.npy", "blue.npy"].map(|name| folder.join(name));
    let frame = folder.join("rig.frame");
    let words = ["write", word(&green), word(&red), word(&blue), "--out", word(&frame)];
    let (status, said, error) = run(&words);
    assert_eq!((status, error.as_str()), (0, ""));
    let bytes = fs::read(&frame).unwrap();
    let tiles = find_streams(&bytes[8..], COLUMNS, 2 * ROWS);
    let length = bytes.len() - 8 - 512;
    assert_eq!(said, format!("{}: 320x240, rows 120, stream of {length} bytes\n", word(&frame)));
    let fields: Vec<_> = tiles.iter().map(|t| [t.offset, t.length, t.x, t.y, t.width, t.height]).collect();
    assert_eq!(fields, [[512, length, 0, 0, 320, 240]]);
    assert_eq!(run(&["planes", word(&frame), "--out", word(&folder)]).0, 0);
    let planes = folder.join("rig.frame.planes");
    for (name, drawn) in [("green", &green), ("red", &red), ("blue", &blue)] {
        let again = fs::read(planes.join(format!("tile0.{name}.npy"))).unwrap();
        assert!(again == fs::read(drawn).unwrap());
    }
    assert_eq!(read_from(&planes.join("tile0.green.npy")), Ok((17, 9)));
    assert!(draw_into(&folder, 100, 100).is_err());
}
