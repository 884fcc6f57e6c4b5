//! The build script builds the library where it is missing or older than the crates.

#[path = "../build/static_library.rs"]
mod static_library;
mod support;

use std::fs::{self, File};
use std::os::unix::fs::PermissionsExt;
use std::path::PathBuf;
use std::process::Command;
use std::time::{Duration, SystemTime};
use support::tool::{file, folder};

/// What the build script does; run by the other test in a repository of its own.
#[test]
#[ignore]
fn link() {
    static_library::link(&["arw6"]);
}

/// A repository with one crate, and an `rt` that writes the library and counts its runs.
struct Repository(PathBuf);

const RT: &str = "#!/bin/sh\nname=$(basename \"$PWD\")\necho run >> ../../log\n[ \"$1\" = lib ] || exit 1\n\
                  [ -e ../../broken ] && { echo not proved; exit 1; }\n\
                  mkdir -p out\n[ -e out/lib$name.a ] || echo a > out/lib$name.a\n";

impl Repository {
    fn new(name: &str) -> Repository {
        let root = folder(name);
        for (path, text) in
            [("crates/arw6/src/lib.rt", "a"), ("crates.txt", "arw6:"), ("rust/Cargo.toml", ""), ("bin/rt", RT)]
        {
            file(&root, path, text.as_bytes());
        }
        fs::set_permissions(root.join("bin/rt"), fs::Permissions::from_mode(0o755)).unwrap();
        Repository(root)
    }

    /// What the build script says.
    fn build(&self, library: Option<&str>) -> String {
        let mut command = Command::new(std::env::current_exe().unwrap());
        command.args(["--exact", "link", "--ignored", "--nocapture"]).current_dir(self.0.join("rust"));
        let path = format!("{}:/usr/bin:/bin", self.0.join("bin").display());
        command.env("PATH", path).env_remove("ARW6_LIB_DIR");
        if let Some(library) = library {
            command.env("ARW6_LIB_DIR", library);
        }
        String::from_utf8(command.output().unwrap().stdout).unwrap()
    }

    /// How often `rt` was run.
    fn runs(&self) -> usize {
        fs::read_to_string(self.0.join("log")).unwrap_or_default().lines().count()
    }

    /// Changes a file, as of a moment from now.
    fn touch(&self, name: &str) {
        let later = SystemTime::now() + Duration::from_secs(1);
        File::options().append(true).open(self.0.join(name)).unwrap().set_modified(later).unwrap();
    }
}

#[test]
fn built_where_missing_or_older() {
    let repository = Repository::new("library");
    assert!(repository.build(None).contains("cargo::rustc-link-lib=static=arw6\n"));
    assert_eq!(repository.runs(), 1);
    repository.build(None);
    assert_eq!(repository.runs(), 1);
    for (k, name) in ["crates/arw6/src/lib.rt", "crates.txt"].into_iter().enumerate() {
        repository.touch(name);
        repository.build(None);
        repository.build(None);
        assert_eq!(repository.runs(), 2 + k);
    }
    fs::remove_file(repository.0.join("target/staticlib/libarw6.a")).unwrap();
    repository.build(None);
    assert_eq!(repository.runs(), 4);
}

#[test]
fn taken_from_the_crate_beside() {
    let repository = Repository::new("library-beside");
    file(&repository.0, "crates/arw6_c/src/lib.rt", b"");
    assert!(repository.build(None).contains("cargo::rustc-link-lib=static=arw6\n"));
    assert!(repository.0.join("crates/arw6_c/out/libarw6_c.a").is_file());
    assert!(repository.0.join("target/staticlib/libarw6.a").is_file());
    assert!(!repository.0.join("crates/arw6/out").exists());
}

#[test]
fn not_built_where_a_folder_is_named() {
    let repository = Repository::new("library-named");
    let said = repository.build(Some("nowhere"));
    assert!(said.contains("cargo::error=nowhere/libarw6.a is not there\n"), "{said}");
    let library = repository.0.join("libarw6.a");
    fs::write(&library, "a").unwrap();
    let said = repository.build(library.parent().unwrap().to_str());
    assert!(said.contains("cargo::rustc-link-search=native=") && !said.contains("cargo::error"), "{said}");
    assert_eq!(repository.runs(), 0);
}

#[test]
fn a_proof_that_fails_is_told() {
    let repository = Repository::new("library-broken");
    file(&repository.0, "broken", b"");
    let said = repository.build(None);
    assert!(said.contains("cargo::error=`rt lib` of arw6 failed: not proved\n"), "{said}");
    fs::remove_file(repository.0.join("bin/rt")).unwrap();
    let said = repository.build(None);
    assert!(said.contains("cargo::error=libarw6.a is missing and `rt` cannot be run ("), "{said}");
}
