//! The folder of a frame appears whole or not at all.

mod support;

use std::fs;
use std::path::Path;
use std::process::{Command, Stdio};
use std::time::Duration;
use support::tool::{file, folder, names, outcome, run, shell, word, NAMES, SAMPLE_FILE, TOOL};
use support::{repeated_tile, SAMPLE};

const PLANES: &str = "joint.frame.planes";
const PARTIAL: &str = ".joint.frame.planes.partial";

#[test]
fn what_is_there_is_refused_and_replaced_by_force() {
    let out = folder("there");
    let words = ["planes", SAMPLE_FILE, "--out", word(&out)];
    assert_eq!(run(&words).0, 0);
    // Tiles of an earlier run that this one would not write.
    let target = out.join(PLANES);
    file(&target, "tile15.green.npy", b"stale");
    fs::write(target.join("tile0.green.npy"), b"stale").unwrap();
    let (status, lines, error) = run(&words);
    assert_eq!((status, lines.as_str()), (1, ""));
    assert_eq!(
        error,
        format!("arw6: {SAMPLE_FILE}: {} is there already; --force replaces it\n", word(&target))
    );
    assert_eq!(fs::read(target.join("tile0.green.npy")).unwrap(), b"stale");
    assert_eq!(run(&[&words[..], &["--force"]].concat()).0, 0);
    assert_eq!((names(&out), names(&target)), (vec![PLANES.to_string()], NAMES.map(String::from).to_vec()));
    assert!(fs::read(target.join("tile0.green.npy")).unwrap().len() > 5);
}

/// Nothing that the tool did not write is removed, by force neither.
#[test]
fn other_files_stay() {
    let out = folder("others");
    let words = ["planes", SAMPLE_FILE, "--force", "--out", word(&out)];
    let notes = file(&out.join(PLANES), "notes.txt", b"mine");
    let (status, _, error) = run(&words);
    assert_eq!(status, 1);
    assert!(error.contains("notes.txt was not written by arw6, and is not removed"), "{error}");
    assert_eq!((fs::read(notes).unwrap(), names(&out)), (b"mine".to_vec(), vec![PLANES.to_string()]));
    fs::remove_dir_all(out.join(PLANES)).unwrap();
    file(&out, PLANES, b"a file");
    let (status, _, error) = run(&words);
    assert!(status == 1 && error.contains("is no folder, and is not replaced"), "{error}");
    assert_eq!(fs::read(out.join(PLANES)).unwrap(), b"a file");
}

/// Planes beside their own frame leave it alone.
#[test]
fn beside_the_frame() {
    let out = folder("beside-the-frame");
    let path = file(&out, "joint.frame", SAMPLE);
    assert_eq!(run(&["planes", &path, "--force", "--out", word(&out)]).0, 0);
    assert_eq!(names(&out), ["joint.frame", PLANES]);
    assert!(fs::read(path).unwrap() == SAMPLE);
}

/// What runs that were killed left behind neither blocks nor confuses the next one.
#[test]
fn after_a_killed_run() {
    let out = folder("killed");
    let path = file(&out, "joint.frame", &repeated_tile(4096, 2048, 16));
    let partial = out.join(PARTIAL);
    let mut child = Command::new(TOOL)
        .args(["planes", &path, "--out", word(&out)])
        .stdout(Stdio::null())
        .spawn()
        .unwrap();
    while !partial.join("tile1.green.npy").exists() {
        assert_eq!(child.try_wait().unwrap(), None);
        std::thread::sleep(Duration::from_millis(1));
    }
    let meanwhile = run(&["planes", &path, "--out", word(&out)]);
    child.kill().unwrap();
    child.wait().unwrap();
    assert!(meanwhile.0 == 1 && meanwhile.2.contains("is being written by another run"), "{}", meanwhile.2);
    assert_eq!(names(&out), [PARTIAL, "joint.frame"]);
    assert!(names(&partial).len() > 1);
    let old = out.join(".joint.frame.planes.old");
    file(&old, "tile0.png", b"from a run that was killed while it replaced");
    fs::write(&path, SAMPLE).unwrap();
    assert_eq!(run(&["planes", &path, "--out", word(&out)]).0, 0);
    assert_eq!(names(&out), ["joint.frame", PLANES]);
    assert_eq!(names(out.join(PLANES)), NAMES);
}

#[test]
fn a_folder_that_cannot_be_written() {
    let folder = folder("no-folder");
    let path = file(&folder, "a-file", b"");
    let (status, lines, error) = run(&["planes", SAMPLE_FILE, "--out", &path]);
    assert_eq!((status, lines.as_str(), error.lines().count()), (1, "", 1));
    assert!(error.contains(&path), "{error}");
}

/// Files that may not grow: the frame is one line, nothing of it stays, and the next one goes on.
#[test]
fn files_that_may_not_grow() {
    let out = folder("small-files");
    let small = file(&out, "small.frame", &repeated_tile(16, 16, 1));
    let script = "trap '' XFSZ; ulimit -f 100; exec \"$0\" planes \"$@\"";
    let (status, lines, error) = shell(script, &[SAMPLE_FILE, &small, "--out", word(&out)]);
    assert_eq!((status, error.lines().count()), (1, 1));
    assert!(
        error.starts_with(&format!("arw6: {SAMPLE_FILE}: {}/{PLANES}/tile0.green.npy: ", word(&out))),
        "{error}"
    );
    assert!(lines.starts_with(&format!("{}/small.frame.planes\n", word(&out))));
    assert_eq!(names(&out), ["small.frame", "small.frame.planes"]);
}

/// A disk that is full, where one can be made: the same. One file after the other, since a frame that
/// fills the disk leaves no room for another that is written at the same time.
#[test]
fn a_full_disk() {
    let out = folder("full-disk");
    let small = file(&out, "small.frame", &repeated_tile(16, 16, 1));
    let script =
        "mount -t tmpfs -o size=300k none \"$1\" || exit 99; \"$0\" planes -j1 \"$2\" \"$3\" --out \"$1\"; \
                  echo status $?; ls -A \"$1\"";
    let disk = out.join("disk");
    fs::create_dir(&disk).unwrap();
    let words = ["-rm", "sh", "-c", script, TOOL, word(&disk), SAMPLE_FILE, &small];
    let Ok(output) = Command::new("unshare").args(words).output() else { return no_disk() };
    let (status, lines, error) = outcome(output);
    if status != 0 {
        return no_disk();
    }
    let expected =
        format!("arw6: {SAMPLE_FILE}: {}/{PLANES}/tile0.green.npy: No space left on device", word(&disk));
    assert!(error.starts_with(&expected) && error.lines().count() == 1, "{error}");
    assert!(lines.ends_with("status 1\nsmall.frame.planes\n"), "{lines}");
    fn no_disk() {
        println!("no small disk could be mounted here; files_that_may_not_grow stands for it");
    }
}

/// Names that are no UTF-8 are kept.
#[test]
fn names_of_bytes() {
    use std::os::unix::ffi::OsStrExt;
    let out = folder("bytes");
    let name = std::ffi::OsStr::from_bytes(b"\xff.frame");
    fs::write(out.join(name), SAMPLE).unwrap();
    let output =
        Command::new(TOOL).arg("planes").arg(out.join(name)).arg("--out").arg(&out).output().unwrap();
    let (status, lines, _) = outcome(output);
    assert_eq!(status, 0);
    assert!(lines.starts_with(&format!("{}/\\xff.frame.planes\n", word(&out))));
    assert_eq!(names(out.join(Path::new(std::ffi::OsStr::from_bytes(b"\xff.frame.planes")))), NAMES);
}
