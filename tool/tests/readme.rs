//! Every run that the README shows, with what it prints.

mod common;

use std::fs;
use std::os::unix::fs::symlink;
use std::path::Path;
use std::process::Command;

use common::{Folder, PROGRAM};

/// The commands behind `$ ` in the indented parts of a page, each with the lines below it.
fn runs(page: &str) -> Vec<(String, String)> {
    let mut runs: Vec<(String, String)> = Vec::new();
    let mut inside = false;
    for line in page.lines() {
        match line.strip_prefix("    ") {
            Some(shown) => match (shown.strip_prefix("$ "), runs.last_mut()) {
                (Some(command), _) => {
                    runs.push((command.to_owned(), String::new()));
                    inside = true;
                }
                (None, Some((_, output))) if inside => {
                    output.push_str(shown);
                    output.push('\n');
                }
                _ => {}
            },
            None if line.is_empty() && inside => {
                if let Some((_, output)) = runs.last_mut() {
                    output.push('\n');
                }
            }
            None => inside = false,
        }
    }
    runs
}

#[test]
fn every_run_of_the_readme_prints_what_it_shows() {
    let root = Path::new(env!("CARGO_MANIFEST_DIR")).join("..");
    let folder = Folder::new();
    fs::create_dir_all(folder.path("bin")).unwrap();
    fs::create_dir_all(folder.path("tool")).unwrap();
    symlink(PROGRAM, folder.path("bin/lubiksan")).unwrap();
    symlink(PROGRAM, folder.path("tool/run")).unwrap();
    symlink(
        fs::canonicalize(root.join("tool/tests")).unwrap(),
        folder.path("tool/tests"),
    )
    .unwrap();
    let path = format!(
        "{}:{}",
        folder.path("bin").display(),
        std::env::var("PATH").unwrap()
    );
    let page = fs::read_to_string(root.join("README.md")).unwrap();
    let runs = runs(&page);
    assert!(runs.len() >= 9, "{}", runs.len());
    for (command, expected) in runs {
        let ran = Command::new("sh")
            .args(["-c", &format!("exec 2>&1; {command}")])
            .current_dir(&folder.0)
            .env("PATH", &path)
            .output()
            .unwrap();
        let printed = String::from_utf8(ran.stdout).unwrap();
        assert_eq!(printed.trim_end(), expected.trim_end(), "{command}");
    }
}
