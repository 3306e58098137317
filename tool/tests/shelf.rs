//! A shelf: killed at any moment it goes on; two at once; stopped; refused files; sources that change.

mod common;

use std::collections::BTreeMap;
use std::fmt::Write;
use std::fs;
use std::os::unix::process::ExitStatusExt;
use std::path::{Path, PathBuf};
use std::process::{Child, Command, Stdio};
use std::thread::sleep;
use std::time::{Duration, Instant};

use common::{cases, large_schemas, lubiksan, side_by_side, Folder, Random, PROGRAM};

/// A schema of many pieces: types, and tags that are passed over.
fn long_schema(events: usize) -> String {
    let mut text = String::from("<schema targetNamespace='urn:long'>\n");
    for number in 0..events / 2 {
        let _ = writeln!(text, "<note number='{number}' text='passed over'/><mark/>");
        if number % 500 == 0 {
            let _ = writeln!(text, "<complexType name='T{number}'><sequence><element name='E{number}' type='string'/></sequence></complexType>");
        }
    }
    text + "</schema>"
}

/// Real schemas and long ones.
fn files(folder: &Folder) -> Vec<PathBuf> {
    let long = (0..3).map(|i| folder.put(&format!("long{i}.xsd"), long_schema(14_000 + 5_000 * i)));
    long.chain(large_schemas().into_iter().take(4)).collect()
}

fn start(shelf: &Path, files: &[PathBuf], more: &[&str]) -> Child {
    let mut command = Command::new(PROGRAM);
    command.arg("shelf").arg(shelf).args(files).args(more);
    command
        .stdin(Stdio::null())
        .stdout(Stdio::null())
        .stderr(Stdio::piped())
        .spawn()
        .unwrap()
}

fn run(shelf: &Path, files: &[PathBuf], more: &[&str]) -> common::Ran {
    let mut args = vec![PathBuf::from("shelf"), shelf.to_owned()];
    args.extend(files.iter().cloned());
    args.extend(more.iter().map(PathBuf::from));
    lubiksan(args)
}

/// Sheets by name, with their bytes.
fn sheets(shelf: &Path) -> BTreeMap<String, Vec<u8>> {
    let Ok(entries) = fs::read_dir(shelf) else {
        return BTreeMap::new();
    };
    let paths = entries
        .map(|entry| entry.unwrap().path())
        .filter(|path| path.extension().is_some_and(|e| e == "sheet"));
    paths
        .map(|path| {
            (
                path.file_name().unwrap().to_string_lossy().into_owned(),
                fs::read(&path).unwrap(),
            )
        })
        .collect()
}

fn all_are_good(shelf: &Path) {
    let names: Vec<String> = sheets(shelf).into_keys().collect();
    side_by_side(&names, |name| {
        let ran = lubiksan(["check".as_ref(), shelf.join(name).as_os_str()]);
        assert_eq!(ran.status, Some(0), "{}", ran.err);
    });
}

fn graphs(shelf: &Path) -> Vec<String> {
    let graph = |name: &String| {
        lubiksan([
            "graph".as_ref(),
            shelf.join(name).as_os_str(),
            "--quiet".as_ref(),
        ])
        .out
    };
    sheets(shelf).keys().map(graph).collect()
}

fn names_in(shelf: &Path) -> Vec<String> {
    let entries = fs::read_dir(shelf).unwrap();
    let mut names: Vec<String> = entries
        .map(|e| e.unwrap().file_name().into_string().unwrap())
        .collect();
    names.sort();
    names
}

#[test]
fn killed_at_two_hundred_moments_it_goes_on() {
    let folder = Folder::new();
    let files = files(&folder);
    let whole = folder.path("whole");
    let begun = Instant::now();
    assert_eq!(run(&whole, &files, &[]).status, Some(0));
    let lasts = begun.elapsed();
    let (expected, expected_graphs) = (sheets(&whole), graphs(&whole));
    let shelf = folder.path("shelf");
    let mut random = Random(2_026);
    let (mut kills, mut finished) = (0, 0);
    while kills < cases(200) || finished < 3 {
        let mut child = start(&shelf, &files, &[]);
        sleep(lasts.mul_f64(random.below(1_000) as f64 / 1_000.0));
        let _ = child.kill();
        let status = child.wait().unwrap();
        match status.signal() {
            Some(9) => kills += 1,
            _ => assert_eq!(status.code(), Some(0)),
        }
        all_are_good(&shelf);
        if status.success() || kills % 40 == 0 {
            assert_eq!(run(&shelf, &files, &[]).status, Some(0));
            assert!(sheets(&shelf) == expected);
            finished += 1;
            if finished % 5 == 1 {
                assert_eq!(graphs(&shelf), expected_graphs);
            }
            assert_eq!(
                names_in(&shelf).len(),
                1 + files.len(),
                "nothing else is left behind"
            );
            fs::remove_dir_all(&shelf).unwrap();
        }
    }
}

#[test]
fn two_shelves_at_once() {
    let folder = Folder::new();
    let files = files(&folder);
    let shelf = folder.path("shelf");
    fs::create_dir(&shelf).unwrap();
    let lock = fs::File::create(shelf.join(".lubiksan.lock")).unwrap();
    lock.lock().unwrap();
    let ran = run(&shelf, &files, &[]);
    assert_eq!(ran.status, Some(3));
    assert!(
        ran.err
            .ends_with("shelf: another process is at work on this shelf\n"),
        "{}",
        ran.err
    );
    let ran = run(&shelf, &files, &["--wait", "1"]);
    assert_eq!((ran.status, sheets(&shelf).len()), (Some(3), 0));
    drop(lock);
    let mut children: Vec<Child> = (0..3)
        .map(|_| start(&shelf, &files, &["--wait", "60"]))
        .collect();
    for child in &mut children {
        assert_eq!(child.wait().unwrap().code(), Some(0));
    }
    all_are_good(&shelf);
    assert_eq!(sheets(&shelf).len(), files.len());
}

/// The lock of a sheet is held here; `read` and `shelf` end with 3 until it is free.
#[test]
fn one_process_at_a_time_reads_a_sheet() {
    let folder = Folder::new();
    let file = folder.put("a.xsd", long_schema(14_000));
    let shelf = folder.path("shelf");
    fs::create_dir(&shelf).unwrap();
    let sheet = shelf.join("a.sheet");
    let (file_name, sheet_name) = (file.to_str().unwrap(), sheet.to_str().unwrap());
    let lock = lubiksan_tool::lock::on_sheet(&sheet, Duration::ZERO).unwrap();
    for more in [
        &[][..],
        &["--wait", "1"],
        &["--events", "7"],
        &["--restart"],
    ] {
        let ran = lubiksan([&["read", file_name, "--sheet", sheet_name], more].concat());
        assert_eq!(ran.status, Some(3));
        assert!(
            ran.err
                .ends_with("a.sheet: another process is at work on this sheet\n"),
            "{}",
            ran.err
        );
    }
    let ran = run(&shelf, std::slice::from_ref(&file), &[]);
    assert_eq!(
        (ran.status, ran.err.as_str()),
        (Some(3), "not done: 1 of 1 files\n")
    );
    assert!(!sheet.exists());
    let other = shelf.join("b.sheet");
    let ran = lubiksan(["read", file_name, "--sheet", other.to_str().unwrap()]);
    assert_eq!(ran.status, Some(0), "another sheet is free: {}", ran.err);
    drop(lock);
    let ran = lubiksan(["read", file_name, "--sheet", sheet_name]);
    assert_eq!(ran.status, Some(0), "{}", ran.err);
    assert_eq!(names_in(&shelf), [".lubiksan.lock", "a.sheet", "b.sheet"]);
}

/// Whoever has reported success, what it has reported is stored when all have ended.
#[test]
fn a_slower_read_does_not_store_an_older_state() {
    let folder = Folder::new();
    let file = folder.put("a.xsd", long_schema(14_000));
    let file_name = file.to_str().unwrap();
    for round in 0..cases(12) {
        let shelf = folder.path(&format!("shelf{round}"));
        fs::create_dir(&shelf).unwrap();
        let sheet = shelf.join("a.sheet");
        let read = |more: &[&str]| {
            Command::new(PROGRAM)
                .args(["read", file_name, "--sheet", sheet.to_str().unwrap()])
                .args(more)
                .stdout(Stdio::null())
                .stderr(Stdio::null())
                .spawn()
                .unwrap()
        };
        let short = ["--events", "7", "--wait", "60"];
        let mut children = vec![read(&short), read(&["--wait", "60"]), read(&short)];
        children.push(start(
            &shelf,
            std::slice::from_ref(&file),
            &["--wait", "60"],
        ));
        for child in &mut children {
            assert_eq!(child.wait().unwrap().code(), Some(0));
        }
        let stored = lubiksan_tool::stored::load(&sheet).unwrap();
        assert!(stored.is_whole(), "{}", stored.progress());
    }
}

/// A stack that no machine has room for: no thread can be started.
#[test]
fn without_threads_the_work_is_done_all_the_same() {
    let folder = Folder::new();
    let files = files(&folder);
    let (whole, shelf) = (folder.path("whole"), folder.path("shelf"));
    assert_eq!(run(&whole, &files, &[]).status, Some(0));
    let ran = Command::new(PROGRAM)
        .arg("shelf")
        .arg(&shelf)
        .args(&files)
        .env("RUST_MIN_STACK", (1u64 << 60).to_string())
        .output()
        .unwrap();
    let said = String::from_utf8_lossy(&ran.stderr);
    assert_eq!(ran.status.code(), Some(0), "{said}");
    assert_eq!(
        String::from_utf8_lossy(&ran.stdout).lines().count(),
        files.len()
    );
    assert!(sheets(&shelf) == sheets(&whole));
}

#[test]
fn stopped_by_ctrl_c_it_goes_on() {
    let folder = Folder::new();
    let files = files(&folder);
    let (whole, shelf) = (folder.path("whole"), folder.path("shelf"));
    assert_eq!(run(&whole, &files, &[]).status, Some(0));
    let mut stopped = 0;
    for wait in [5, 10, 20, 30, 45, 60, 80] {
        let child = start(&shelf, &files, &["--jobs", "1"]);
        sleep(Duration::from_millis(wait));
        let kill = Command::new("kill")
            .args(["-INT", &child.id().to_string()])
            .status()
            .unwrap();
        assert!(kill.success());
        let ended = child.wait_with_output().unwrap();
        // Before the program watches for it, Ctrl-C ends the process as any other.
        match ended.status.code() {
            Some(3) => stopped += 1,
            Some(0) | None => {}
            other => panic!("{other:?} {}", String::from_utf8_lossy(&ended.stderr)),
        }
        all_are_good(&shelf);
    }
    assert!(stopped > 0);
    assert_eq!(run(&shelf, &files, &[]).status, Some(0));
    assert!(sheets(&shelf) == sheets(&whole));
}

#[test]
fn one_refused_file_does_not_stop_the_others() {
    let folder = Folder::new();
    let good = folder.put("good.xsd", "<schema><element name='a' type='b'/></schema>");
    let bad = folder.put("bad.xsd", "<schema><complexType></complexType></schema>");
    let base = folder.put(
        "base.xsd",
        "<schema><simpleType name='T'><list/></simpleType></schema>",
    );
    let shelf = folder.path("shelf");
    let ran = run(&shelf, &[bad.clone(), good.clone(), base], &[]);
    assert_eq!(ran.status, Some(1));
    let lines: Vec<&str> = ran.out.lines().collect();
    assert!(lines[0].ends_with("bad.xsd:1:9: complexType has no name (refused with 9, event 1)"));
    assert!(lines[1].ends_with("good.xsd: 3 events, 1 root, 0 types"));
    assert!(lines[2].ends_with("base.xsd:1:9: simpleType \"T\" has no base (refused with 13), 1 simple type that lowering would refuse"));
    assert_eq!(
        ran.err,
        "1 simple type that lowering would refuse: of 1 of 3 files\nrefused: 2 of 3 files\n"
    );
    all_are_good(&shelf);
    let again = run(&shelf, &[bad, good], &[]);
    assert_eq!(
        (again.status, again.out.lines().next()),
        (Some(1), Some(lines[0]))
    );
}

#[test]
fn two_files_of_one_stem_are_refused_before_anything_is_read() {
    let folder = Folder::new();
    let shelf = folder.path("shelf");
    let ran = run(
        &shelf,
        &[PathBuf::from("x/a.xsd"), PathBuf::from("y/a.xml")],
        &[],
    );
    assert_eq!((ran.status, shelf.exists()), (Some(1), false));
    assert_eq!(ran.err, "y/a.xml: it would have the sheet of x/a.xsd\n");
}

#[test]
fn a_source_that_has_changed_is_refused_until_restart() {
    let folder = Folder::new();
    let file = folder.put("a.xsd", "<schema><element name='a' type='b'/></schema>");
    let shelf = folder.path("shelf");
    assert_eq!(
        run(&shelf, std::slice::from_ref(&file), &[]).status,
        Some(0)
    );
    folder.put(
        "a.xsd",
        "<schema><element name='a' type='b'/><element name='c' type='b'/></schema>",
    );
    let before = sheets(&shelf);
    let ran = run(&shelf, std::slice::from_ref(&file), &[]);
    assert_eq!(ran.status, Some(1));
    assert!(
        ran.out
            .ends_with("a.sheet was read from other contents; --restart begins it anew\n"),
        "{}",
        ran.out
    );
    assert!(sheets(&shelf) == before);
    let ran = run(&shelf, &[file], &["--restart"]);
    assert_eq!(ran.status, Some(0));
    assert!(ran.out.ends_with("a.xsd: 4 events, 2 roots, 0 types\n"));
}

#[test]
fn read_goes_on_by_events_and_graph_asks_for_the_whole() {
    let folder = Folder::new();
    let file = large_schemas().remove(0);
    let sheet = folder.path("s.sheet");
    let (file, sheet) = (file.to_str().unwrap(), sheet.to_str().unwrap());
    let ran = lubiksan(["read", file, "--sheet", sheet, "--events", "0"]);
    assert!(ran.out.contains("s.sheet: 0 of "), "{}", ran.out);
    for step in 1..=5 {
        assert_eq!(
            lubiksan(["read", file, "--sheet", sheet, "--events", "7"]).status,
            Some(0)
        );
        let check = lubiksan(["check", sheet]);
        assert!(
            check.out.contains(&format!("\ndone: {} of ", 7 * step)),
            "{}",
            check.out
        );
    }
    let half = lubiksan(["graph", sheet]);
    assert_eq!(half.status, Some(1));
    assert!(
        half.err.contains("s.sheet: only 35 of ") && half.err.contains("--partial"),
        "{}",
        half.err
    );
    assert_eq!(lubiksan(["graph", sheet, "--partial"]).status, Some(0));
    assert_eq!(lubiksan(["read", file, "--sheet", sheet]).status, Some(0));
    assert_eq!(
        lubiksan(["graph", sheet]).out,
        lubiksan(["graph", file]).out
    );
}

#[test]
fn a_file_that_is_no_sheet_is_left_alone_also_by_restart() {
    let folder = Folder::new();
    let (file, other) = (
        folder.put("a.xsd", "<schema/>"),
        folder.put("other", "mine"),
    );
    let args = [
        "read",
        file.to_str().unwrap(),
        "--sheet",
        other.to_str().unwrap(),
        "--restart",
    ];
    let ran = lubiksan(args);
    assert_eq!(
        (ran.status, fs::read_to_string(other).unwrap().as_str()),
        (Some(1), "mine")
    );
    assert!(
        ran.err.ends_with("other: it is no stored sheet\n"),
        "{}",
        ran.err
    );
}

#[test]
fn another_version_is_refused_in_words() {
    let folder = Folder::new();
    let file = folder.put("a.xsd", "<schema/>");
    let sheet = folder.path("a.sheet");
    let (file, sheet_name) = (file.to_str().unwrap(), sheet.to_str().unwrap());
    assert_eq!(
        lubiksan(["read", file, "--sheet", sheet_name]).status,
        Some(0)
    );
    let mut bytes = fs::read(&sheet).unwrap();
    bytes[8] = 4;
    fs::write(&sheet, &bytes).unwrap();
    let ran = lubiksan(["check", sheet_name]);
    assert_eq!(ran.status, Some(1));
    assert!(ran
        .err
        .ends_with("a.sheet: the stored sheet has version 4, only versions 1 to 3 are read\n"));
    assert!(fs::read(&sheet).unwrap() == bytes);
}
