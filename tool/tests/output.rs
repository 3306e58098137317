//! Where the output goes and how a run ends.

mod common;

use std::ffi::OsStr;
use std::fs;
use std::io::{Read, Write};
use std::os::unix::fs::{symlink, PermissionsExt};
use std::path::Path;
use std::process::{Command, Stdio};
use std::time::{Duration, Instant};

use common::{lubiksan, Folder, PROGRAM};

const PAYMENT: &str = concat!(env!("CARGO_MANIFEST_DIR"), "/tests/data/payment.xsd");

fn to(output: &Path) -> Option<i32> {
    lubiksan([
        "graph".as_ref(),
        PAYMENT.as_ref(),
        "--output".as_ref(),
        output.as_os_str(),
    ])
    .status
}

fn text() -> String {
    lubiksan(["graph", PAYMENT]).out
}

#[test]
fn a_file_is_replaced_whole_and_keeps_its_mode() {
    let folder = Folder::new();
    let file = folder.put("out", "old");
    fs::set_permissions(&file, fs::Permissions::from_mode(0o640)).unwrap();
    assert_eq!(to(&file), Some(0));
    assert_eq!(fs::read_to_string(&file).unwrap(), text());
    assert_eq!(
        fs::metadata(&file).unwrap().permissions().mode() & 0o777,
        0o640
    );
    assert_eq!(folder.names(), ["out"]);
}

#[test]
fn a_refused_schema_leaves_the_output_as_it_was() {
    let folder = Folder::new();
    let (file, bad) = (folder.put("out", "old"), folder.put("bad.xsd", "<a>"));
    let args: [&std::ffi::OsStr; 4] = [
        "graph".as_ref(),
        bad.as_ref(),
        "--output".as_ref(),
        file.as_ref(),
    ];
    assert_eq!(lubiksan(args).status, Some(1));
    assert_eq!(fs::read_to_string(&file).unwrap(), "old");
    assert_eq!(folder.names(), ["bad.xsd", "out"]);
}

#[test]
fn a_link_is_written_through() {
    let folder = Folder::new();
    let (file, link) = (folder.put("out", "old"), folder.path("link"));
    symlink("out", &link).unwrap();
    assert_eq!(to(&link), Some(0));
    assert!(fs::symlink_metadata(&link).unwrap().is_symlink());
    assert_eq!(fs::read_to_string(&file).unwrap(), text());
    let dangling = folder.path("dangling");
    symlink("made", &dangling).unwrap();
    assert_eq!(to(&dangling), Some(0));
    assert_eq!(fs::read_to_string(folder.path("made")).unwrap(), text());
    assert_eq!(folder.names(), ["dangling", "link", "made", "out"]);
}

#[test]
fn a_pipe_and_a_device_are_written_through() {
    let folder = Folder::new();
    let pipe = folder.path("pipe");
    assert!(Command::new("mkfifo")
        .arg(&pipe)
        .status()
        .unwrap()
        .success());
    let reader = std::thread::spawn({
        let pipe = pipe.clone();
        move || fs::read_to_string(pipe).unwrap()
    });
    assert_eq!(to(&pipe), Some(0));
    assert_eq!(reader.join().unwrap(), text());
    assert_eq!(to(Path::new("/dev/null")), Some(0));
    let ran = lubiksan(["graph", PAYMENT, "--output", "/dev/stdout"]);
    assert_eq!((ran.status, ran.out), (Some(0), text()));
}

#[test]
fn a_full_device_is_the_machines() {
    assert_eq!(to(Path::new("/dev/full")), Some(3));
    for args in [["graph", PAYMENT], ["names", PAYMENT]] {
        let full = fs::OpenOptions::new()
            .write(true)
            .open("/dev/full")
            .unwrap();
        let ran = Command::new(PROGRAM)
            .args(args)
            .stdout(full)
            .output()
            .unwrap();
        assert_eq!(ran.status.code(), Some(3));
        let said = String::from_utf8(ran.stderr).unwrap();
        assert!(
            said.starts_with("standard output: it can't be written: No space left on device"),
            "{said}"
        );
    }
}

#[test]
fn a_broken_pipe_ends_quietly() {
    let schema = common::large_schemas().remove(0);
    let mut child = Command::new(PROGRAM)
        .args([
            "graph".as_ref(),
            schema.as_os_str(),
            "--format".as_ref(),
            "json".as_ref(),
            "--quiet".as_ref(),
        ])
        .stdout(Stdio::piped())
        .stderr(Stdio::piped())
        .spawn()
        .unwrap();
    let mut some = [0; 10];
    child.stdout.take().unwrap().read_exact(&mut some).unwrap();
    let ended = child.wait_with_output().unwrap();
    assert_eq!(
        (ended.status.code(), ended.stderr.as_slice()),
        (Some(0), &b""[..])
    );
}

#[test]
fn a_refused_schema_leaves_the_output_of_rows_as_it_was() {
    let folder = Folder::new();
    let good = folder.put("out", "read 0 3\n");
    for text in [
        "<schema><complexType></complexType></schema>",
        "<a/>",
        "<schema><simpleType name='T'><list/></simpleType></schema>",
    ] {
        let bad = folder.put("bad.xsd", text);
        let args: [&OsStr; 6] = [
            "graph".as_ref(),
            bad.as_ref(),
            "--format".as_ref(),
            "rows".as_ref(),
            "--output".as_ref(),
            good.as_ref(),
        ];
        let ran = lubiksan(args);
        assert_eq!(ran.status, Some(1));
        assert!(!ran.err.is_empty());
        assert_eq!(fs::read_to_string(&good).unwrap(), "read 0 3\n");
    }
}

/// What trying again can't help is refused, with these words; anything else would be 3.
fn is_final(args: &[&OsStr], words: &str) {
    let ran = lubiksan(args);
    assert_eq!(ran.status, Some(1), "{}", ran.err);
    assert!(ran.err.ends_with(&format!(": {words}\n")), "{}", ran.err);
}

#[test]
fn what_trying_again_can_not_help_is_refused() {
    let folder = Folder::new();
    let (long, link) = (folder.path(&"n".repeat(300)), folder.path("link"));
    symlink("link", &link).unwrap();
    let file = folder.put("file", "<schema/>");
    let (absent, inside) = (folder.path("none/out"), file.join("out"));
    let (payment, graph): (&OsStr, &OsStr) = (PAYMENT.as_ref(), "graph".as_ref());
    let (read, sheet): (&OsStr, &OsStr) = ("read".as_ref(), "--sheet".as_ref());
    for (path, input, output) in [
        (&long, "its name is too long", "its name is too long"),
        (
            &link,
            "it is a link that leads to itself",
            "it is a link that leads to itself",
        ),
        (&absent, "there is no such file", "there is no such folder"),
        (&inside, "there is no such file", "there is no such folder"),
        (
            &folder.0,
            "it is a folder, not a file",
            "it is a folder, not a file",
        ),
    ] {
        is_final(&[graph, path.as_ref()], input);
        is_final(
            &[graph, payment, "--output".as_ref(), path.as_ref()],
            output,
        );
        let ran = lubiksan([read, payment, sheet, path.as_ref()]);
        assert_eq!(ran.status, Some(1), "{}", ran.err);
    }
    is_final(
        &["shelf".as_ref(), file.as_ref(), payment],
        "it is a file, not a folder",
    );
}

#[test]
fn control_characters_of_a_name_are_not_sent_to_the_terminal() {
    let folder = Folder::new();
    let name = "a\u{1b}[31m\nb:1:1:\r\u{202e}.xsd";
    let shown = "a\\u{1b}[31m\\nb:1:1:\\r\\u{202e}";
    let plain = |text: &str| {
        let plain = |c: char| !c.is_control() && c != '\u{202e}' || c == '\n';
        assert!(text.chars().all(plain), "{text:?}");
    };
    let bad = folder.put(name, "<schema><complexType></complexType></schema>");
    let ran = lubiksan(["graph".as_ref(), bad.as_os_str()]);
    plain(&ran.err);
    let words = format!("{shown}.xsd:1:9: complexType has no name (refused with 9, event 1)\n");
    assert!(ran.err.ends_with(&words), "{}", ran.err);
    let good = folder.put(name, "<schema><element name='a' type='b'/></schema>");
    let sheets = folder.path("sheets\u{7}");
    let ran = lubiksan(["shelf".as_ref(), sheets.as_os_str(), good.as_os_str()]);
    assert_eq!(ran.status, Some(0), "{}", ran.err);
    plain(&ran.out);
    let sheet = sheets.join("a\u{1b}[31m\nb:1:1:\r\u{202e}.sheet");
    let ran = lubiksan(["check".as_ref(), sheet.as_os_str()]);
    plain(&ran.out);
    assert!(
        ran.out.contains(&format!("{shown}.sheet: good\nsource: ")),
        "{}",
        ran.out
    );
    let ran = lubiksan(["graph".as_ref(), good.as_os_str(), sheets.as_os_str()]);
    assert_eq!(ran.status, Some(2));
    plain(&ran.err);
}

/// The exit status of a run that nobody reads.
fn unread(args: &[&OsStr]) -> (Option<i32>, String) {
    let mut child = Command::new(PROGRAM)
        .args(args)
        .stdout(Stdio::piped())
        .stderr(Stdio::piped())
        .spawn()
        .unwrap();
    drop(child.stdout.take());
    let ended = child.wait_with_output().unwrap();
    (
        ended.status.code(),
        String::from_utf8(ended.stderr).unwrap(),
    )
}

#[test]
fn a_run_that_nobody_reads_has_its_status_all_the_same() {
    let folder = Folder::new();
    let bad = folder.put("bad.xsd", "<schema><complexType></complexType></schema>");
    let meets = concat!(env!("CARGO_MANIFEST_DIR"), "/tests/data/meets.xsd");
    let (sheets, sheet) = (folder.path("sheets"), folder.path("p.sheet"));
    let (status, said) = unread(&[
        "shelf".as_ref(),
        sheets.as_ref(),
        PAYMENT.as_ref(),
        bad.as_ref(),
    ]);
    assert_eq!(
        (status, said.as_str()),
        (Some(1), "refused: 1 of 2 files\n")
    );
    assert_eq!(unread(&["names".as_ref(), meets.as_ref()]).0, Some(1));
    let rows: [&OsStr; 4] = [
        "graph".as_ref(),
        bad.as_ref(),
        "--format".as_ref(),
        "rows".as_ref(),
    ];
    assert_eq!(unread(&rows).0, Some(1));
    let read: [&OsStr; 4] = [
        "read".as_ref(),
        PAYMENT.as_ref(),
        "--sheet".as_ref(),
        sheet.as_ref(),
    ];
    assert_eq!(unread(&read).0, Some(0));
}

#[test]
fn standard_input_is_read() {
    let run = |args: &[&str], input: &[u8]| {
        let mut child = Command::new(PROGRAM)
            .args(args)
            .stdin(Stdio::piped())
            .stdout(Stdio::piped())
            .stderr(Stdio::piped())
            .spawn()
            .unwrap();
        child.stdin.take().unwrap().write_all(input).unwrap();
        child.wait_with_output().unwrap()
    };
    let bytes = fs::read(PAYMENT).unwrap();
    for format in ["text", "rust", "rows", "dot"] {
        let ran = run(&["graph", "-", "--format", format], &bytes);
        let expected = lubiksan(["graph", PAYMENT, "--format", format]).out;
        assert_eq!(
            String::from_utf8(ran.stdout).unwrap(),
            expected.replace(PAYMENT, "standard input")
        );
    }
    let ran = run(
        &["graph", "-"],
        b"<schema>\n<complexType></complexType></schema>",
    );
    assert_eq!(ran.status.code(), Some(1));
    let said = String::from_utf8(ran.stderr).unwrap();
    assert!(
        said.starts_with("standard input:2:1: complexType has no name"),
        "{said}"
    );
    let folder = Folder::new();
    let sheet = folder.path("s.sheet");
    let sheet = sheet.to_str().unwrap();
    let ran = run(&["read", "-", "--sheet", sheet], &bytes);
    assert_eq!(ran.status.code(), Some(0));
    let ran = run(&["check", "-"], &fs::read(sheet).unwrap());
    assert_eq!(ran.status.code(), Some(0));
    // A sheet does not read standard input again for the places of its source.
    let ran = run(&["graph", sheet], b"");
    assert_eq!(ran.status.code(), Some(0));
}

/// What a run gave that must end within a minute.
fn in_time(args: &[&OsStr]) -> (Option<i32>, String) {
    let mut child = Command::new(PROGRAM)
        .args(args)
        .stdin(Stdio::null())
        .stdout(Stdio::piped())
        .stderr(Stdio::null())
        .spawn()
        .unwrap();
    let until = Instant::now() + Duration::from_secs(60);
    while child.try_wait().unwrap().is_none() {
        if Instant::now() > until {
            child.kill().unwrap();
            child.wait().unwrap();
            panic!("the run does not end");
        }
        std::thread::sleep(Duration::from_millis(10));
    }
    let ended = child.wait_with_output().unwrap();
    (
        ended.status.code(),
        String::from_utf8(ended.stdout).unwrap(),
    )
}

#[test]
fn a_stored_sheet_opens_only_a_file_of_its_length() {
    let folder = Folder::new();
    let (file, sheet) = (folder.put("a.xsd", PLACED), folder.path("a.sheet"));
    let read: [&OsStr; 4] = [
        "read".as_ref(),
        file.as_ref(),
        "--sheet".as_ref(),
        sheet.as_ref(),
    ];
    assert_eq!(lubiksan(read).status, Some(0));
    let pipe = folder.path("pipe");
    let made = Command::new("mkfifo").arg(&pipe).status().unwrap();
    assert!(made.success());
    let longer = folder.put("longer.xsd", format!("{PLACED}\n"));
    let stored = lubiksan_tool::stored::load(&sheet).unwrap();
    for path in [
        pipe.as_path(),
        Path::new("/dev/zero"),
        Path::new("-"),
        &folder.0,
        &longer,
    ] {
        let about = lubiksan_tool::stored::About {
            path: path.to_owned(),
            ..stored.about.clone()
        };
        lubiksan_tool::stored::store(&sheet, &stored.sheet, &about).unwrap();
        let (status, shown) = in_time(&["graph".as_ref(), sheet.as_ref()]);
        assert_eq!((status, places(&shown)), (Some(0), vec![None; 3]));
    }
}

#[test]
fn what_a_killed_process_left_is_removed() {
    let folder = Folder::new();
    folder.put(".lubiksan-999999-0.tmp", "left");
    let held = folder.put(".lubiksan-999999-1.tmp", "held");
    let lock = fs::File::open(held).unwrap();
    lock.lock().unwrap();
    assert_eq!(to(&folder.path("out")), Some(0));
    assert_eq!(folder.names(), [".lubiksan-999999-1.tmp", "out"]);
}

/// The lines of roots and types, each behind what names it.
fn places(text: &str) -> Vec<Option<&str>> {
    let heads = [
        "root ", "newtype ", "codes ", "struct ", "choice ", "opaque ", "value ",
    ];
    let lines = text
        .lines()
        .filter(|line| heads.iter().any(|head| line.starts_with(head)));
    lines
        .map(|line| line.split_once(" at ").map(|(_, place)| place))
        .collect()
}

/// The file's tags in lines of their own: the schema is event 0.
const PLACED: &str = "<schema>\n<element name=\"r\" type=\"T\"/>\n<!-- <x/> --><complexType\nname=\"T\"><sequence/>\n</complexType>\n<simpleType name=\"S\"><restriction base=\"string\"/></simpleType></schema>";

#[test]
fn roots_and_types_have_file_and_line() {
    let folder = Folder::new();
    let file = folder.put("a.xsd", PLACED);
    let ran = lubiksan(["graph".as_ref(), file.as_os_str()]);
    let at = |line: usize| format!("{}:{line}", file.display());
    let lines = [at(2), at(6), at(3)];
    let expected: Vec<Option<&str>> = lines.iter().map(|place| Some(place.as_str())).collect();
    assert_eq!(places(&ran.out), expected, "{}", ran.out);
}

#[test]
fn a_stored_sheet_has_places_while_its_source_is_as_it_was() {
    let folder = Folder::new();
    let (file, sheet) = (folder.put("a.xsd", PLACED), folder.path("a.sheet"));
    let read: [&std::ffi::OsStr; 4] = [
        "read".as_ref(),
        file.as_ref(),
        "--sheet".as_ref(),
        sheet.as_ref(),
    ];
    assert_eq!(lubiksan(read).status, Some(0));
    let shown = |format: &str| {
        let args: [&std::ffi::OsStr; 4] = [
            "graph".as_ref(),
            sheet.as_ref(),
            "--format".as_ref(),
            format.as_ref(),
        ];
        lubiksan(args).out
    };
    assert!(places(&shown("text")).iter().all(Option::is_some));
    fs::write(&file, PLACED.replace("<!-- <x/> -->", "<!-- <y/> -->")).unwrap();
    assert_eq!(places(&shown("text")), [None; 3]);
    let json = shown("json");
    assert!(
        json.contains("\"event\": 1,\n      \"file\": null,\n      \"line\": null"),
        "{json}"
    );
}

#[test]
fn unknown_events_have_no_place() {
    let folder = Folder::new();
    let (file, sheet) = (folder.put("a.xsd", PLACED), folder.path("a.sheet"));
    let read: [&std::ffi::OsStr; 4] = [
        "read".as_ref(),
        file.as_ref(),
        "--sheet".as_ref(),
        sheet.as_ref(),
    ];
    assert_eq!(lubiksan(read).status, Some(0));
    let stored = lubiksan_tool::stored::load(&sheet).unwrap();
    let mut rows = stored.sheet.rows().to_vec();
    for head in rows.chunks_mut(10).skip(1) {
        head[9] = 0;
    }
    let older = lubiksan::SchemaSheet::from_buffers(rows, stored.sheet.names().to_vec());
    lubiksan_tool::stored::store(&sheet, &older, &stored.about).unwrap();
    let shown = lubiksan(["graph".as_ref(), sheet.as_os_str()]);
    assert_eq!(shown.status, Some(0), "{}", shown.err);
    assert_eq!(places(&shown.out), [None; 3]);
}
