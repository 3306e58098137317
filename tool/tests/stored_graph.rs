//! Stored graphs: every command that takes a graph takes one again, damaged ones are refused and left alone, and a file is
//! whole or as it was.

mod common;

use std::ffi::OsStr;
use std::fs;
use std::os::unix::process::ExitStatusExt;
use std::path::{Path, PathBuf};
use std::process::{Command, Stdio};
use std::thread::sleep;
use std::time::Instant;

use common::{cases, large_schemas, lubiksan, schemas, side_by_side, Folder, Ran, Random, PROGRAM};
use lubiksan_tool::stored_graph;

const PAYMENT: &str = concat!(env!("CARGO_MANIFEST_DIR"), "/tests/data/payment.xsd");

/// The graph of a file in a format.
fn graph(file: &Path, format: &str) -> Ran {
    let args: [&OsStr; 5] = [
        "graph".as_ref(),
        file.as_ref(),
        "--format".as_ref(),
        format.as_ref(),
        "--quiet".as_ref(),
    ];
    lubiksan(args)
}

/// Stores the graph of a file.
fn store(file: &Path, output: &Path) -> Ran {
    let args: [&OsStr; 7] = [
        "graph".as_ref(),
        file.as_ref(),
        "--format".as_ref(),
        "stored".as_ref(),
        "--output".as_ref(),
        output.as_ref(),
        "--quiet".as_ref(),
    ];
    lubiksan(args)
}

/// The words of each line that does not tell of a type itself, and how many lines do.
fn listed(out: &str) -> (Vec<Vec<&str>>, usize) {
    let of_type = |line: &&str| line.contains("  simple type") || line.contains("  complex type");
    let (types, others): (Vec<&str>, Vec<&str>) = out.lines().partition(of_type);
    let words = others
        .into_iter()
        .map(|line| line.split_whitespace().collect());
    (words.collect(), types.len())
}

/// What is no comment.
fn code(source: &str) -> Vec<&str> {
    let lines = source.lines();
    lines
        .filter(|line| !line.trim_start().starts_with("//"))
        .collect()
}

#[test]
fn a_stored_graph_gives_what_its_schema_gives() {
    let folder = Folder::new();
    let files: Vec<(usize, PathBuf)> = schemas().into_iter().enumerate().collect();
    side_by_side(&files, |(index, file)| {
        let path = folder.path(&format!("{index}.graph"));
        if store(file, &path).status != Some(0) {
            assert_ne!(graph(file, "rows").status, Some(0), "{file:?}");
            assert!(!path.exists());
            return;
        }
        for format in ["text", "json", "dot", "rows"] {
            let (fresh, stored) = (graph(file, format), graph(&path, format));
            assert_eq!((fresh.status, stored.status), (Some(0), Some(0)));
            assert!(fresh.out == stored.out, "{file:?} {format}");
        }
        let (fresh, stored) = (graph(file, "rust"), graph(&path, "rust"));
        assert_eq!(fresh.status, stored.status, "{}", stored.err);
        assert!(code(&fresh.out) == code(&stored.out), "{file:?}");
        let (sheet, names) = (folder.path(&format!("{index}.sheet")), OsStr::new("names"));
        let read = [
            "read".as_ref(),
            file.as_os_str(),
            "--sheet".as_ref(),
            sheet.as_os_str(),
        ];
        assert_eq!(lubiksan(read).status, Some(0));
        let (fresh, stored) = (
            lubiksan([names, sheet.as_os_str()]),
            lubiksan([names, path.as_os_str()]),
        );
        assert_eq!(fresh.status, stored.status);
        assert!(listed(&fresh.out) == listed(&stored.out), "{file:?}");
    });
}

#[test]
fn stored_again_it_is_the_same() {
    let folder = Folder::new();
    let (first, again) = (folder.path("a.graph"), folder.path("b.graph"));
    assert_eq!(store(Path::new(PAYMENT), &first).status, Some(0));
    assert_eq!(store(&first, &again).status, Some(0));
    assert!(fs::read(&first).unwrap() == fs::read(&again).unwrap());
}

#[test]
fn it_keeps_how_its_schema_was_read() {
    let folder = Folder::new();
    let path = folder.path("a.graph");
    assert_eq!(store(Path::new(PAYMENT), &path).status, Some(0));
    let ran = lubiksan(["graph".as_ref(), path.as_os_str(), "--as-original".as_ref()]);
    assert_eq!(ran.status, Some(1));
    assert!(ran.err.contains("was read by the standard"), "{}", ran.err);
}

#[test]
fn what_is_not_kept_is_said_with_its_source_and_counted_without() {
    let folder = Folder::new();
    let file = folder.put(
        "a.xsd",
        "<schema><complexType name='T'><sequence><choice><element name='A' type='string'/>\
         <element name='B' type='string'/></choice></sequence></complexType></schema>",
    );
    let path = folder.path("a.graph");
    let made = store(&file, &path);
    assert_eq!((made.status, made.err.as_str()), (Some(0), ""));
    let (file, path) = (file.to_str().unwrap(), path.to_str().unwrap());
    for format in ["text", "rust", "json"] {
        let of = |path: &str| lubiksan(["graph", path, "--format", format]);
        let (stored, read) = (of(path), of(file));
        assert!(stored.err.contains("1 place is not kept"), "{}", stored.err);
        assert_eq!((stored.out, stored.err), (read.out, read.err));
    }
    fs::remove_file(file).unwrap();
    let ran = lubiksan(["graph", path]);
    let words =
        "a.graph: 1 place is not kept in the graph, and its source is not there as it was\n";
    assert_eq!(ran.status, Some(0));
    assert!(ran.err.ends_with(words), "{}", ran.err);
    assert_eq!(lubiksan(["graph", path, "--strict"]).status, Some(1));
    assert_eq!(lubiksan(["names", path, "--strict"]).status, Some(1));
    let json = lubiksan(["graph", path, "--format", "json"]).out;
    assert!(json.contains("\"notKept\": null"), "{json}");
}

#[test]
fn its_patterns_are_judged() {
    let folder = Folder::new();
    let file = folder.put(
        "a.xsd",
        "<schema><simpleType name='Bad_Type'><restriction base='string'><pattern value='[A-Z'/>\
         <pattern value='[A-Z]'/></restriction></simpleType></schema>",
    );
    let path = folder.path("a.graph");
    assert_eq!(store(&file, &path).status, Some(0));
    let told = "a.graph: in type \"BadType\" the pattern \"[A-Z\": not a regular expression of XML Schema\n";
    let good =
        "a.graph: in type \"BadType\" the pattern \"[A-Z]\": a regular expression of XML Schema\n";
    let run = |words: &[&str]| {
        let args = words.iter().map(OsStr::new).chain([path.as_os_str()]);
        let mut ran = lubiksan(args.collect::<Vec<&OsStr>>());
        let before = format!("{}/", folder.0.display());
        ran.out = ran.out.replace(&before, "");
        ran.err = ran.err.replace(&before, "");
        ran
    };
    let listed = run(&["patterns"]);
    assert_eq!(
        (listed.status, listed.out),
        (Some(1), format!("{told}{good}"))
    );
    assert_eq!(run(&["names"]).err, told);
    let strict = run(&["graph", "--strict"]);
    assert_eq!((strict.status, strict.err.as_str()), (Some(1), told));
}

#[test]
fn a_stored_graph_is_no_stored_sheet() {
    let folder = Folder::new();
    let path = folder.path("a.graph");
    assert_eq!(store(Path::new(PAYMENT), &path).status, Some(0));
    let bytes = fs::read(&path).unwrap();
    for args in [
        vec!["check".as_ref(), path.as_os_str()],
        vec![
            "read".as_ref(),
            PAYMENT.as_ref(),
            "--sheet".as_ref(),
            path.as_os_str(),
            "--restart".as_ref(),
        ],
    ] {
        assert_eq!(lubiksan(args).status, Some(1));
        assert!(fs::read(&path).unwrap() == bytes);
    }
}

/// Bytes changed, cut off or added; half of the changes lie in the header.
fn damaged(good: &[u8], random: &mut Random) -> Vec<u8> {
    let mut bytes = good.to_vec();
    match random.below(8) {
        0 => bytes.truncate(random.below(good.len())),
        1 => bytes.extend(vec![random.next() as u8; 1 + random.below(20)]),
        kind => {
            for _ in 0..=random.below(3) {
                let limit = if kind < 5 { 130 } else { good.len() };
                bytes[random.below(limit)] ^= 1 << random.below(8);
            }
        }
    }
    bytes
}

#[test]
fn damaged_stored_graphs_are_refused_and_left_alone() {
    let folder = Folder::new();
    let path = folder.path("good.graph");
    assert_eq!(store(&large_schemas().remove(0), &path).status, Some(0));
    let good = fs::read(&path).unwrap();
    let seeds: Vec<u64> = (1..=cases(2_000) as u64).collect();
    side_by_side(&seeds, |&seed| {
        let mut random = Random(seed * 7_919);
        let bytes = damaged(&good, &mut random);
        let name = format!("d{seed}.graph");
        let path = folder.put(&name, &bytes);
        let command = if seed % 4 == 0 { "names" } else { "graph" };
        let ran = lubiksan([command.as_ref(), path.as_os_str()]);
        let altered = bytes != good;
        assert_eq!(ran.status == Some(1), altered, "{seed}: {}", ran.err);
        assert!(!ran.err.contains("panicked"), "{}", ran.err);
        assert!(!altered || ran.err.contains(&name), "{}", ran.err);
        assert!(fs::read(&path).unwrap() == bytes);
        fs::remove_file(path).unwrap();
    });
    assert_eq!(folder.names(), ["good.graph"]);
}

#[test]
fn every_single_bit_counts() {
    let folder = Folder::new();
    let path = folder.path("good.graph");
    assert_eq!(store(Path::new(PAYMENT), &path).status, Some(0));
    let mut bytes = fs::read(&path).unwrap();
    assert!(stored_graph::of_bytes(&path, &bytes).is_ok());
    for at in 0..8 * bytes.len() {
        bytes[at / 8] ^= 1 << (at % 8);
        let taken =
            stored_graph::is_stored(&bytes) && stored_graph::of_bytes(&path, &bytes).is_ok();
        assert!(!taken, "bit {at}");
        bytes[at / 8] ^= 1 << (at % 8);
    }
}

/// A stored graph whose sum was made anew after a change is still no graph where it has not the form of one.
#[test]
fn a_sum_made_anew_does_not_make_a_graph() {
    let folder = Folder::new();
    let path = folder.path("good.graph");
    assert_eq!(store(Path::new(PAYMENT), &path).status, Some(0));
    let good = fs::read(&path).unwrap();
    assert_eq!(sha2_of(&good), good[100..132], "the sum is made as it is");
    let mut random = Random(11);
    let (mut refused, mut taken) = (0, 0);
    for _ in 0..cases(500) {
        let mut bytes = good.clone();
        let at = 132 + random.below(bytes.len() - 132);
        bytes[at] ^= 1 << random.below(8);
        let sum = sha2_of(&bytes);
        bytes[100..132].copy_from_slice(&sum);
        match stored_graph::of_bytes(&path, &bytes) {
            Ok(_) => taken += 1,
            Err(failure) => {
                assert!(!failure.words().contains("SHA-256"), "{failure:?}");
                refused += 1;
            }
        }
    }
    // A change in the path makes no other graph.
    assert!(refused > taken && taken > 0, "{refused} and {taken}");
}

fn sha2_of(bytes: &[u8]) -> [u8; 32] {
    use sha2::{Digest, Sha256};
    let mut hash = Sha256::new();
    hash.update(&bytes[..100]);
    hash.update(&bytes[132..]);
    hash.finalize().into()
}

#[test]
fn killed_at_any_moment_the_file_is_whole_or_as_it_was() {
    let folder = Folder::new();
    let (path, schema) = (folder.path("a.graph"), large_schemas().remove(0));
    assert_eq!(store(Path::new(PAYMENT), &path).status, Some(0));
    let old = fs::read(&path).unwrap();
    let begun = Instant::now();
    assert_eq!(store(&schema, &path).status, Some(0));
    let (lasts, new) = (begun.elapsed(), fs::read(&path).unwrap());
    let mut random = Random(2_026);
    for _ in 0..cases(100) {
        fs::write(&path, &old).unwrap();
        let mut child = Command::new(PROGRAM)
            .args(["graph".as_ref(), schema.as_os_str(), "--quiet".as_ref()])
            .args(["--format", "stored", "--output"])
            .arg(&path)
            .stderr(Stdio::null())
            .spawn()
            .unwrap();
        sleep(lasts.mul_f64(random.below(1_200) as f64 / 1_000.0));
        let _ = child.kill();
        let status = child.wait().unwrap();
        assert!(status.signal() == Some(9) || status.success());
        let there = fs::read(&path).unwrap();
        assert!(there == old || there == new);
    }
    assert_eq!(store(&schema, &path).status, Some(0));
    assert!(fs::read(&path).unwrap() == new);
    assert_eq!(folder.names(), ["a.graph"], "nothing is left behind");
}

#[test]
fn where_there_is_no_room_the_file_is_as_it_was() {
    let folder = Folder::new();
    let (path, schema) = (folder.path("a.graph"), large_schemas().remove(0));
    assert_eq!(store(Path::new(PAYMENT), &path).status, Some(0));
    let old = fs::read(&path).unwrap();
    // A limit of 1,024 bytes to a file, as on a disk that is full behind them.
    let ran = Command::new("bash")
        .args([
            "-c",
            "trap '' XFSZ; ulimit -f 1; exec \"$@\"",
            "bash",
            PROGRAM,
            "graph",
        ])
        .arg(&schema)
        .args(["--quiet", "--format", "stored", "--output"])
        .arg(&path)
        .output()
        .unwrap();
    assert_eq!(
        ran.status.code(),
        Some(3),
        "{}",
        String::from_utf8_lossy(&ran.stderr)
    );
    assert!(fs::read(&path).unwrap() == old);
    assert_eq!(folder.names(), ["a.graph"]);
    let full = [
        "graph",
        PAYMENT,
        "--format",
        "stored",
        "--output",
        "/dev/full",
    ];
    assert_eq!(lubiksan(full).status, Some(3));
}

#[test]
fn the_graph_of_pain_001_takes_less_than_twelve_kilobytes() {
    let folder = Folder::new();
    let named = |file: &PathBuf| file.to_string_lossy().contains("pain.001");
    for file in schemas().into_iter().filter(named) {
        let path = folder.path("a.graph");
        assert_eq!(store(&file, &path).status, Some(0));
        assert!(fs::metadata(&path).unwrap().len() < 12_000, "{file:?}");
    }
}
