//! The program in a folder of its own: what it prints, writes and leaves alone.

use std::fs;
use std::path::{Path, PathBuf};
use std::process::{Command, Output};

const FILES: [&str; 6] = [
    "request", "response", "settings", "state", "sheet", "signed",
];

/// A file of one of the repository's examples.
fn example(example: &str, name: &str) -> PathBuf {
    let examples = Path::new(env!("CARGO_MANIFEST_DIR")).join("../examples");
    examples.join(example).join(name)
}

/// A fresh folder with the six files of an example.
fn folder(name: &str, of: &str) -> PathBuf {
    let folder = Path::new(env!("CARGO_TARGET_TMPDIR")).join(name);
    let _ = fs::remove_dir_all(&folder);
    fs::create_dir(&folder).unwrap();
    for file in FILES {
        fs::copy(example(of, file), folder.join(file)).unwrap();
    }
    folder
}

/// Runs the program in a folder.
fn run(folder: &Path) -> Output {
    Command::new(env!("CARGO_BIN_EXE_second"))
        .current_dir(folder)
        .output()
        .unwrap()
}

/// Runs the program, which has to print a line and nothing else, and gives that line.
fn line(folder: &Path) -> String {
    let output = run(folder);
    assert_eq!(output.status.code(), Some(0));
    String::from_utf8(output.stdout).unwrap()
}

/// The names of the files in a folder.
fn names(folder: &Path) -> Vec<String> {
    let entries = fs::read_dir(folder).unwrap();
    let mut names: Vec<String> = entries
        .map(|entry| entry.unwrap().file_name().into_string().unwrap())
        .collect();
    names.sort();
    names
}

/// Says whether a file in a folder is what the example has.
fn is_as_in(folder: &Path, of: &str, name: &str) -> bool {
    fs::read(folder.join(name)).unwrap() == fs::read(example(of, name)).unwrap()
}

#[test]
fn accepted_search() {
    let folder = folder("accepted_search", "search");
    fs::write(folder.join("value"), "an old value that is longer").unwrap();
    fs::write(folder.join("state.new"), [b'x'; 5000]).unwrap();
    assert_eq!(line(&folder), "yes\t2\t6\t1\n");
    for name in FILES.into_iter().chain(["value", "state.new"]) {
        assert!(is_as_in(&folder, "search", name), "{name}");
    }
    assert_eq!(names(&folder).len(), 8);
}

#[test]
fn accepted_monitoring() {
    let folder = folder("accepted_monitoring", "monitoring");
    fs::write(folder.join("value"), "an old value").unwrap();
    assert_eq!(line(&folder), "yes\t-\t8\t1\n");
    assert_eq!(fs::read(folder.join("value")).unwrap(), b"an old value");
    assert!(is_as_in(&folder, "monitoring", "state.new"));
    assert_eq!(names(&folder).len(), 8);
}

#[test]
fn refused() {
    let folder = folder("refused", "foreign-identifier");
    fs::write(folder.join("value"), "an old value").unwrap();
    fs::write(folder.join("state.new"), "an old state").unwrap();
    assert_eq!(line(&folder), "no\t6\n");
    assert_eq!(fs::read(folder.join("value")).unwrap(), b"an old value");
    assert_eq!(fs::read(folder.join("state.new")).unwrap(), b"an old state");
    assert_eq!(names(&folder).len(), 8);
}

#[test]
fn missing_files() {
    for name in FILES {
        let folder = folder(&format!("missing_{name}"), "search");
        fs::remove_file(folder.join(name)).unwrap();
        assert_eq!(line(&folder), "no\t1\n");
        // A folder of that name is no file.
        fs::create_dir(folder.join(name)).unwrap();
        assert_eq!(line(&folder), "no\t1\n");
        assert_eq!(names(&folder).len(), 6);
    }
}

#[test]
fn long_files() {
    for (name, limit, number) in [
        ("request", 128, 6),
        ("response", 65_536, 5),
        ("settings", 2_048, 2),
        ("state", 8_192, 3),
        ("sheet", 36_864, 4),
        ("signed", 2_088, 15),
    ] {
        let folder = folder(&format!("long_{name}"), "search");
        fs::write(folder.join(name), vec![b'x'; limit]).unwrap();
        assert_eq!(line(&folder), format!("no\t{number}\n"));
        fs::write(folder.join(name), vec![b'x'; limit + 1]).unwrap();
        assert_eq!(line(&folder), "no\t1\n");
        fs::write(folder.join(name), vec![b'x'; 3_000_000]).unwrap();
        assert_eq!(line(&folder), "no\t1\n");
    }
}

// Where a file cannot be written there is no line, and nothing is left half done.
#[test]
fn unwritable_files() {
    for name in ["value", "state.new"] {
        let folder = folder(&format!("unwritable_{name}"), "search");
        fs::create_dir(folder.join(name)).unwrap();
        let output = run(&folder);
        assert_ne!(output.status.code(), Some(0));
        assert!(output.stdout.is_empty());
        assert!(!output.stderr.is_empty());
        assert!(folder.join(name).is_dir());
        assert!(names(&folder).iter().all(|name| !name.ends_with(".part")));
        // The state is written last, so an old one stays if the value can't be written.
        assert!(folder.join("value").exists());
        assert_eq!(folder.join("state.new").exists(), name == "state.new");
    }
}
