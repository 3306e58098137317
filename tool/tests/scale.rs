//! The recipe for make of docs/SCALE.md: jobs killed at random, some started twice, and every sheet that of a shelf.

mod common;

use std::collections::BTreeMap;
use std::fmt::Write;
use std::fs;
use std::path::{Path, PathBuf};
use std::process::{Child, Command, Stdio};
use std::thread::sleep;
use std::time::Duration;

use common::{cases, large_schemas, Folder, Random, PROGRAM};

const PAGE: &str = concat!(env!("CARGO_MANIFEST_DIR"), "/../docs/SCALE.md");

/// The part of the page between ```` ```make ```` and the next ```` ``` ````.
fn recipe() -> String {
    let page = fs::read_to_string(PAGE).unwrap();
    let (_, behind) = page.split_once("```make\n").unwrap();
    behind.split_once("```").unwrap().0.to_owned()
}

/// A schema of several pieces.
fn long_schema(events: usize) -> String {
    let mut text = String::from("<schema targetNamespace='urn:long'>\n");
    for number in 0..events / 2 {
        let _ = writeln!(text, "<note number='{number}' text='passed over'/><mark/>");
    }
    text + "</schema>"
}

/// A folder with schemas, the recipe, and `lubiksan` on the path.
fn prepared(folder: &Folder) -> Vec<PathBuf> {
    fs::create_dir(folder.path("schemas")).unwrap();
    fs::create_dir(folder.path("bin")).unwrap();
    folder.put("Makefile", recipe());
    std::os::unix::fs::symlink(PROGRAM, folder.path("bin/lubiksan")).unwrap();
    let mut files = Vec::new();
    for (index, file) in large_schemas().iter().enumerate().take(6) {
        let name = format!("schemas/real{index}.xsd");
        fs::copy(file, folder.path(&name)).unwrap();
        files.push(PathBuf::from(name));
    }
    for index in 0..6 {
        let name = format!("schemas/long{index}.xsd");
        folder.put(&name, long_schema(14_000 + 5_000 * index));
        files.push(PathBuf::from(name));
    }
    files
}

fn command(folder: &Folder, program: &str) -> Command {
    let mut command = Command::new(program);
    let path = std::env::var("PATH").unwrap();
    command
        .current_dir(&folder.0)
        .env("PATH", format!("{}:{path}", folder.path("bin").display()))
        .stdin(Stdio::null())
        .stdout(Stdio::null())
        .stderr(Stdio::null());
    command
}

fn make(folder: &Folder) -> Child {
    command(folder, "make").args(["-k", "-j4"]).spawn().unwrap()
}

/// The processes of the program that work in the folder.
fn running(folder: &Path) -> Vec<u32> {
    let number = |entry: fs::DirEntry| entry.file_name().to_str()?.parse().ok();
    let processes = fs::read_dir("/proc").unwrap().flatten().filter_map(number);
    let program = fs::canonicalize(PROGRAM).unwrap();
    let folder = fs::canonicalize(folder).unwrap();
    let link = |process: u32, name: &str| fs::read_link(format!("/proc/{process}/{name}")).ok();
    let ours = |&process: &u32| {
        link(process, "exe").as_ref() == Some(&program)
            && link(process, "cwd").as_ref() == Some(&folder)
    };
    processes.filter(ours).collect()
}

fn kill(process: u32) -> bool {
    let mut kill = Command::new("kill");
    let ran = kill
        .args(["-9", &process.to_string()])
        .stderr(Stdio::null());
    ran.status().unwrap().success()
}

fn sheets(folder: &Path) -> BTreeMap<String, Vec<u8>> {
    let entries = fs::read_dir(folder).unwrap().flatten();
    let named = entries.map(|entry| (entry.file_name().into_string().unwrap(), entry.path()));
    named
        .filter(|(name, _)| name.ends_with(".sheet"))
        .map(|(name, path)| (name, fs::read(path).unwrap()))
        .collect()
}

/// Two makes at once and a single job beside them; some processes are killed. How many.
fn disturbed(folder: &Folder, files: &[PathBuf], random: &mut Random) -> usize {
    let mut makes = [make(folder), make(folder)];
    let file = &files[random.below(files.len())];
    let stem = file.file_stem().unwrap().to_string_lossy();
    let mut single = command(folder, PROGRAM);
    let sheet = format!("sheets/{stem}.sheet");
    let args = ["read", file.to_str().unwrap(), "--sheet", &sheet];
    let mut single = single
        .args(args)
        .args(["--events", "5000"])
        .spawn()
        .unwrap();
    let mut kills = 0;
    while makes
        .iter_mut()
        .any(|make| make.try_wait().unwrap().is_none())
    {
        sleep(Duration::from_millis(random.below(40) as u64));
        let there = running(&folder.0);
        if !there.is_empty() && random.below(2) == 0 {
            kills += usize::from(kill(there[random.below(there.len())]));
        }
    }
    single.wait().unwrap();
    kills
}

#[test]
fn make_with_kills_and_jobs_started_twice() {
    if Command::new("make").arg("--version").output().is_err() {
        assert!(std::env::var_os("CI").is_none(), "make is not installed");
        return;
    }
    let mut random = Random(814);
    let mut kills = 0;
    for _ in 0..cases(3) {
        let folder = Folder::new();
        let files = prepared(&folder);
        let mut shelf = command(&folder, PROGRAM);
        let shelved = shelf.arg("shelf").arg("shelf").args(&files).status();
        assert_eq!(shelved.unwrap().code(), Some(0));
        for _ in 0..4 {
            kills += disturbed(&folder, &files, &mut random);
        }
        assert_eq!(make(&folder).wait().unwrap().code(), Some(0));
        let (made, expected) = (
            sheets(&folder.path("sheets")),
            sheets(&folder.path("shelf")),
        );
        assert_eq!(made.len(), files.len());
        assert!(made == expected, "every sheet is the shelf's");
    }
    assert!(kills > 0, "some jobs were killed");
}
