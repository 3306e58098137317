//! Damaged stored sheets and damaged XSD files: refused or accepted in words, no panic, nothing else changed.

mod common;

use std::fs;
use std::path::Path;
use std::process::{Command, Stdio};

use common::{cases, large_schemas, lubiksan, schemas, side_by_side, Folder, Random};

/// 0 or 1, and a refusal has words that name the file.
fn ended_in_words(status: Option<i32>, err: &str, name: &str) {
    match status {
        Some(0) => {}
        Some(1) => assert!(err.contains(name) && err.contains(": "), "{err}"),
        other => panic!("{other:?}: {err}"),
    }
    assert!(!err.contains("panicked"), "{err}");
}

fn stored(folder: &Folder) -> Vec<u8> {
    let sheet = folder.path("good.sheet");
    let schema = large_schemas().remove(0);
    let args: [&std::ffi::OsStr; 6] = [
        "read".as_ref(),
        schema.as_ref(),
        "--sheet".as_ref(),
        sheet.as_ref(),
        "--events".as_ref(),
        "300".as_ref(),
    ];
    assert_eq!(lubiksan(args).status, Some(0));
    fs::read(sheet).unwrap()
}

/// Bytes changed, cut off or added. A quarter of the changes lie in the header, the path and the first bytes behind them.
fn damaged(good: &[u8], random: &mut Random) -> Vec<u8> {
    let mut bytes = good.to_vec();
    match random.below(8) {
        0 => bytes.truncate(random.below(good.len())),
        1 => bytes.extend(vec![random.next() as u8; 1 + random.below(20)]),
        kind => {
            for _ in 0..=random.below(3) {
                let limit = if kind < 4 { 200 } else { good.len() };
                bytes[random.below(limit.min(good.len()))] ^= 1 << random.below(8);
            }
        }
    }
    bytes
}

#[test]
fn damaged_stored_sheets() {
    let folder = Folder::new();
    let good = stored(&folder);
    let seeds: Vec<u64> = (1..=cases(10_000) as u64).collect();
    side_by_side(&seeds, |&seed| {
        let mut random = Random(seed * 7_919);
        let bytes = damaged(&good, &mut random);
        let (name, altered) = (format!("d{seed}.sheet"), bytes != good);
        let path = folder.put(&name, &bytes);
        let command = if seed % 4 == 0 { "graph" } else { "check" };
        let ran = lubiksan([command.as_ref(), path.as_os_str()]);
        ended_in_words(ran.status, &ran.err, &name);
        assert_eq!(
            ran.status == Some(1),
            altered || command == "graph",
            "{seed}: {}",
            ran.err
        );
        assert!(fs::read(&path).unwrap() == bytes);
        fs::remove_file(path).unwrap();
    });
    assert_eq!(folder.names(), ["good.sheet"]);
}

#[test]
fn a_damaged_sheet_is_left_alone_by_read_and_shelf() {
    let folder = Folder::new();
    let good = stored(&folder);
    let schema = large_schemas().remove(0);
    let stem = schema.file_stem().unwrap().to_str().unwrap().to_owned();
    let mut random = Random(99);
    for _ in 0..100 {
        let bytes = damaged(&good, &mut random);
        let path = folder.put(&format!("{stem}.sheet"), &bytes);
        let read: [&std::ffi::OsStr; 4] = [
            "read".as_ref(),
            schema.as_ref(),
            "--sheet".as_ref(),
            path.as_ref(),
        ];
        let shelf = ["shelf".as_ref(), folder.0.as_os_str(), schema.as_ref()];
        if bytes != good {
            assert_eq!(
                (lubiksan(read).status, lubiksan(shelf).status),
                (Some(1), Some(1))
            );
            assert!(fs::read(&path).unwrap() == bytes);
        }
    }
    let again: [&std::ffi::OsStr; 4] = [
        "shelf".as_ref(),
        folder.0.as_ref(),
        schema.as_ref(),
        "--restart".as_ref(),
    ];
    assert_eq!(lubiksan(again).status, Some(0));
}

/// One to three changes to an XSD file.
fn damaged_xsd(good: &[u8], random: &mut Random) -> Vec<u8> {
    let mut bytes = good.to_vec();
    for _ in 0..=random.below(3) {
        let at = random.below(bytes.len());
        match random.below(7) {
            0 => bytes.truncate(at),
            1 => bytes[at] = b"<>/&\"'= \0!?-];:x\xC3\xFF"[random.below(18)],
            2 => drop(bytes.remove(at)),
            3 => bytes.insert(at, b"<>/&\"'= !?-];x"[random.below(14)]),
            4 => cut_tag(&mut bytes, at),
            5 => double_tag(&mut bytes, at),
            _ => bytes[at] = random.next() as u8,
        }
        if bytes.is_empty() {
            break;
        }
    }
    bytes
}

/// The tag from the next `<` on.
fn tag_at(bytes: &[u8], at: usize) -> Option<std::ops::Range<usize>> {
    let from = at + bytes[at..].iter().position(|&b| b == b'<')?;
    let to = from + bytes[from..].iter().position(|&b| b == b'>')?;
    Some(from..to + 1)
}

fn cut_tag(bytes: &mut Vec<u8>, at: usize) {
    if let Some(tag) = tag_at(bytes, at) {
        bytes.drain(tag);
    }
}

fn double_tag(bytes: &mut Vec<u8>, at: usize) {
    if let Some(tag) = tag_at(bytes, at) {
        let copy = bytes[tag.clone()].to_vec();
        bytes.splice(tag.start..tag.start, copy);
    }
}

fn is_installed(program: &str) -> bool {
    Command::new(program)
        .arg("--version")
        .stdout(Stdio::null())
        .stderr(Stdio::null())
        .status()
        .is_ok()
}

/// xmllint's judgement: is the file well formed?
fn well_formed(path: &Path) -> bool {
    let run = Command::new("xmllint")
        .args(["--noout", "--nonet"])
        .arg(path)
        .stderr(Stdio::null())
        .status();
    run.unwrap().success()
}

#[test]
fn damaged_xsd_files() {
    let folder = Folder::new();
    let files: Vec<Vec<u8>> = schemas()
        .iter()
        .map(|file| fs::read(file).unwrap())
        .collect();
    let judged = is_installed("xmllint");
    let seeds: Vec<u64> = (1..=cases(1_500) as u64).collect();
    side_by_side(&seeds, |&seed| {
        let mut random = Random(seed * 104_729);
        let good = &files[random.below(files.len())];
        let bytes = damaged_xsd(good, &mut random);
        let name = format!("d{seed}.xsd");
        let path = folder.put(&name, &bytes);
        let command = if seed % 2 == 0 { "graph" } else { "names" };
        let ran = lubiksan([command.as_ref(), path.as_os_str()]);
        ended_in_words(ran.status, &ran.err, &name);
        assert!(fs::read(&path).unwrap() == bytes);
        if judged {
            agrees_with_xmllint(&path, &bytes, &ran.err, ran.status);
        }
        fs::remove_file(path).unwrap();
    });
    assert_eq!(folder.names(), Vec::<String>::new());
}

/// What is not well formed is refused; what is well formed is refused only by the library, by `names` or for its
/// encoding. 17 is the library's word for what is not well formed, and 18 leaves it open.
fn agrees_with_xmllint(path: &Path, bytes: &[u8], err: &str, status: Option<i32>) {
    let ours = [
        "refused with",
        "which is not there",
        "have the Rust name",
        "encoding",
        "UTF-16",
    ];
    let malformed = err.contains("(refused with 17)");
    if err.contains("(refused with 18)") || malformed && err.contains("UTF-16") {
        return;
    }
    if !malformed && (status == Some(0) || ours.iter().any(|words| err.contains(words))) {
        let not_read = err.contains("encoding") || err.contains("UTF-16");
        assert!(
            not_read || well_formed(path) || has_another_encoding(bytes),
            "xmllint refuses it, status {status:?}: {err}"
        );
    } else {
        // xmllint takes `version="1."`, which XML 1.0 does not.
        let taken = well_formed(path) && !err.contains("in the XML declaration");
        assert!(!taken, "xmllint takes it: {err}");
    }
}

/// The declaration names an encoding that is not UTF-8. xmllint does not know every such name; the library, which reads
/// ASCII, does not ask.
fn has_another_encoding(bytes: &[u8]) -> bool {
    let text = String::from_utf8_lossy(bytes).to_ascii_lowercase();
    let declaration = text.split("?>").next().unwrap_or_default();
    declaration.contains("encoding") && !declaration.contains("utf-8")
}
