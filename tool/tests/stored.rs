//! Stored sheets: what is used is stored, packed by column; the versions of before are still read.

mod common;

use std::fs;
use std::io::{Read, Write};
use std::os::unix::ffi::OsStrExt;
use std::path::Path;
use std::process::Command;

use common::{cases, lubiksan, schemas, Folder, Random, PROGRAM};
use flate2::read::DeflateDecoder;
use flate2::write::DeflateEncoder;
use flate2::Compression;
use lubiksan::{limits, SchemaSheet};
use lubiksan_tool::stored::{self, About};
use sha2::{Digest, Sha256};

const PAYMENT: &str = concat!(env!("CARGO_MANIFEST_DIR"), "/tests/data/payment.xsd");

/// The parts of a stored sheet, as the description of each version has them.
struct Parts<'a> {
    version: u32,
    sheet: &'a SchemaSheet<'a>,
    about: &'a About,
    /// Numbers and bytes that are stored; version 1 does not say them.
    stored: [usize; 2],
    /// What stands behind the path.
    contents: Vec<u8>,
}

impl Parts<'_> {
    /// The file, with a good sum.
    fn file(&self) -> Vec<u8> {
        let (sheet, about) = (self.sheet, self.about);
        let path = about.path.as_os_str().as_bytes();
        let mut head = b"lubiksan".to_vec();
        let mut put = |number: u32| head.extend(number.to_le_bytes());
        put(self.version);
        for length in [sheet.rows().len(), sheet.names().len(), path.len()] {
            put(length as u32);
        }
        for number in [about.length, about.events] {
            put(number as u32);
            put((number >> 32) as u32);
        }
        put(about.counts.elements as u32);
        put(about.counts.types as u32);
        if self.version > 1 {
            put(about.not_kept.unwrap_or(u32::MAX));
            put(self.stored[0] as u32);
            put(self.stored[1] as u32);
        }
        if self.version > 2 {
            put(self.contents.len() as u32);
        }
        head.extend(about.sha256);
        let rest = [path, &self.contents].concat();
        let sum = Sha256::new()
            .chain_update(&head)
            .chain_update(&rest)
            .finalize();
        [&head[..], &sum[..], &rest[..]].concat()
    }
}

/// The numbers as they are, then the names.
fn as_they_are(rows: &[u32], names: &[u8]) -> Vec<u8> {
    let numbers: Vec<u8> = rows
        .iter()
        .flat_map(|number| number.to_le_bytes())
        .collect();
    [&numbers, names].concat()
}

/// A stored sheet of version 1, written from its description: everything is stored.
fn of_version_1(sheet: &SchemaSheet<'_>, about: &About) -> Vec<u8> {
    let contents = as_they_are(sheet.rows(), sheet.names());
    let stored = [0; 2];
    Parts {
        version: 1,
        sheet,
        about,
        stored,
        contents,
    }
    .file()
}

/// A stored sheet of version 2, written from its description: what is before the zeros at the end is stored.
fn of_version_2(sheet: &SchemaSheet<'_>, about: &About) -> Vec<u8> {
    let rows = sheet
        .rows()
        .iter()
        .rposition(|&number| number != 0)
        .unwrap()
        + 1;
    let names = sheet.names().iter().rposition(|&byte| byte != 0);
    let names = names.map_or(0, |last| last + 1);
    let contents = as_they_are(&sheet.rows()[..rows], &sheet.names()[..names]);
    let stored = [rows, names];
    Parts {
        version: 2,
        sheet,
        about,
        stored,
        contents,
    }
    .file()
}

/// The rows by column as paper 01 has them, in bytes as the description of version 3 has them, and the names.
fn by_column(rows: &[u32], names: &[u8]) -> Vec<u8> {
    let mut columns = Vec::new();
    for column in 0..10 {
        let mut above = 0;
        for row in rows.chunks(10) {
            columns.push(row[column].wrapping_sub(above));
            above = row[column];
        }
    }
    let plane = |shift: u32| columns.iter().map(move |number| (number >> shift) as u8);
    let mut bytes: Vec<u8> = [0, 8, 16, 24].into_iter().flat_map(plane).collect();
    bytes.extend(names);
    bytes
}

fn deflated(bytes: &[u8], level: u32) -> Vec<u8> {
    let mut encoder = DeflateEncoder::new(Vec::new(), Compression::new(level));
    encoder.write_all(bytes).unwrap();
    encoder.finish().unwrap()
}

/// What is used of a sheet: whole rows, two at least, and names.
fn used<'s>(sheet: &'s SchemaSheet<'_>) -> (&'s [u32], &'s [u8]) {
    let rows = 10 * sheet.rows_used().max(2);
    (&sheet.rows()[..rows], &sheet.names()[..sheet.names_used()])
}

fn read(file: &Path, sheet: &Path, more: &[&str]) -> common::Ran {
    let mut args = vec!["read", file.to_str().unwrap(), "--sheet"];
    args.push(sheet.to_str().unwrap());
    args.extend(more);
    lubiksan(args)
}

/// Sheets after 1, 20 and all 56 events, put into a version of before by `written`: read, only looked at, and read on into
/// what a fresh reading stores.
fn is_read_and_read_on(
    written: impl Fn(&SchemaSheet<'_>, &About) -> Vec<u8>,
    judged: impl Fn(&stored::Stored, &stored::Stored, &[u8]),
) {
    let folder = Folder::new();
    let (file, sheet) = (Path::new(PAYMENT), folder.path("p.sheet"));
    let whole = folder.path("whole.sheet");
    assert_eq!(read(file, &whole, &[]).status, Some(0));
    for events in ["1", "20", "56"] {
        let _ = fs::remove_file(&sheet);
        assert_eq!(read(file, &sheet, &["--events", events]).status, Some(0));
        let now = stored::load(&sheet).unwrap();
        let before = written(&now.sheet, &now.about);
        fs::write(&sheet, &before).unwrap();
        let again = stored::load(&sheet).unwrap();
        assert_eq!(again.sheet.rows(), now.sheet.rows());
        assert_eq!(again.sheet.names(), now.sheet.names());
        judged(&again, &now, &before);
        assert_eq!(lubiksan(["check", sheet.to_str().unwrap()]).status, Some(0));
        let graph = ["graph", sheet.to_str().unwrap(), "--partial"];
        assert_eq!(lubiksan(graph).status, Some(0));
        assert!(fs::read(&sheet).unwrap() == before, "only looked at");
        let ran = read(file, &sheet, &["--wait", "1"]);
        assert!(ran.out.ends_with("56 of 56 events\n"), "{}", ran.out);
        if events != "56" {
            assert!(fs::read(&sheet).unwrap() == fs::read(&whole).unwrap());
        }
    }
}

#[test]
fn version_1_is_read_and_read_on() {
    is_read_and_read_on(of_version_1, |again, _, bytes| {
        assert_eq!(bytes.len(), 112 + PAYMENT.len() + 4 * 40_960 + 65_536);
        assert_eq!(again.about.not_kept, None);
    });
}

#[test]
fn version_2_is_read_and_read_on() {
    is_read_and_read_on(of_version_2, |again, now, bytes| {
        let used = 40 * now.sheet.rows_used() + now.sheet.names_used();
        assert!(bytes.len() <= 124 + PAYMENT.len() + used);
        assert_eq!(again.about, now.about);
    });
}

/// What is stored is what the description says, and whatever packs it so is read.
#[test]
fn version_3_is_as_it_is_described() {
    let folder = Folder::new();
    let (file, sheet) = (Path::new(PAYMENT), folder.path("p.sheet"));
    for events in ["0", "1", "20", "56"] {
        let _ = fs::remove_file(&sheet);
        assert_eq!(read(file, &sheet, &["--events", events]).status, Some(0));
        let (bytes, now) = (fs::read(&sheet).unwrap(), stored::load(&sheet).unwrap());
        let (rows, names) = used(&now.sheet);
        let parts = |contents: Vec<u8>| Parts {
            version: 3,
            sheet: &now.sheet,
            about: &now.about,
            stored: [rows.len(), names.len()],
            contents,
        };
        let packed = bytes[128 + PAYMENT.len()..].to_vec();
        let mut contents = Vec::new();
        DeflateDecoder::new(&packed[..])
            .read_to_end(&mut contents)
            .unwrap();
        assert!(contents == by_column(rows, names), "{events} events");
        assert!(bytes == parts(packed).file(), "{events} events");
        for level in 0..=9 {
            let other = parts(deflated(&contents, level)).file();
            let back = stored::of_bytes(&sheet, &other).unwrap();
            assert_eq!(back.sheet.rows(), now.sheet.rows());
            assert_eq!(back.sheet.names(), now.sheet.names());
            assert_eq!(back.about, now.about);
        }
    }
}

#[test]
fn without_its_source_the_version_of_before_does_not_know_what_is_not_kept() {
    let folder = Folder::new();
    let (file, sheet) = (folder.put("a.xsd", "<schema/>"), folder.path("a.sheet"));
    assert_eq!(read(&file, &sheet, &[]).status, Some(0));
    let now = stored::load(&sheet).unwrap();
    fs::write(&sheet, of_version_1(&now.sheet, &now.about)).unwrap();
    fs::remove_file(&file).unwrap();
    let name = sheet.to_str().unwrap();
    let ran = lubiksan(["graph", name]);
    let words =
        "a.sheet: what the graph does not keep is not known, its source is not there as it was\n";
    assert!(
        ran.status == Some(0) && ran.err.ends_with(words),
        "{}",
        ran.err
    );
    assert_eq!(lubiksan(["graph", name, "--strict"]).status, Some(1));
}

#[test]
fn what_is_used_is_stored() {
    let folder = Folder::new();
    let mut longest = 0;
    for (index, file) in schemas().iter().enumerate() {
        let sheet = folder.path(&format!("{index}.sheet"));
        // A refused one is stored as far as it was read.
        read(file, &sheet, &["--quiet"]);
        let bytes = fs::read(&sheet).unwrap();
        let back = stored::load(&sheet).unwrap();
        let used = 4 * limits::ROW * back.sheet.rows_used() + back.sheet.names_used();
        let path = file.as_os_str().len();
        assert!(bytes.len() < 128 + path + used, "{}", file.display());
        assert_eq!(back.sheet.rows().len(), limits::ROW_NUMBERS);
        assert_eq!(back.sheet.names().len(), limits::NAMES);
        if file.to_string_lossy().contains("pain.001") {
            longest = longest.max(bytes.len());
        }
    }
    assert!((1..12_000).contains(&longest), "{longest}");
    let small = folder.put("small.xsd", "<schema><element name='a' type='b'/></schema>");
    let sheet = folder.path("small.sheet");
    assert_eq!(read(&small, &sheet, &[]).status, Some(0));
    assert!(fs::read(&sheet).unwrap().len() < 300);
}

/// Makes the sum anew, of a file with a header of this length.
fn with_sum(mut bytes: Vec<u8>, header: usize) -> Vec<u8> {
    let sum = Sha256::new()
        .chain_update(&bytes[..header - 32])
        .chain_update(&bytes[header..])
        .finalize();
    bytes[header - 32..header].copy_from_slice(&sum);
    bytes
}

/// A header with a good sum that asks for more than a sheet has.
#[test]
fn a_header_that_asks_for_too_much_is_refused() {
    let folder = Folder::new();
    let sheet = folder.path("p.sheet");
    assert_eq!(read(Path::new(PAYMENT), &sheet, &[]).status, Some(0));
    let packed = fs::read(&sheet).unwrap();
    let now = stored::load(&sheet).unwrap();
    let before = of_version_2(&now.sheet, &now.about);
    let too_much = [(12, 40_970u32), (12, u32::MAX), (16, 65_537), (12, 10)];
    for (good, header) in [(packed, 128), (before, 124)] {
        assert!(with_sum(good.clone(), header) == good);
        for (at, number) in too_much {
            let mut bytes = good.clone();
            bytes[at..at + 4].copy_from_slice(&number.to_le_bytes());
            fs::write(&sheet, with_sum(bytes, header)).unwrap();
            let ran = lubiksan(["check", sheet.to_str().unwrap()]);
            assert_eq!(ran.status, Some(1), "{}", ran.out);
            assert!(
                ran.err.contains("the stored sheet was altered"),
                "{}",
                ran.err
            );
        }
    }
}

/// Sums that are right over contents that are wrong: refused in these words, and left alone.
#[test]
fn contents_that_are_not_what_the_header_says_are_refused() {
    let folder = Folder::new();
    let (file, sheet) = (Path::new(PAYMENT), folder.path("p.sheet"));
    assert_eq!(read(file, &sheet, &["--events", "20"]).status, Some(0));
    let now = stored::load(&sheet).unwrap();
    let (rows, names) = used(&now.sheet);
    let (good, there) = (by_column(rows, names), [rows.len(), names.len()]);
    let of = |contents: &[u8], stored: [usize; 2]| (contents.to_vec(), stored);
    let whole = deflated(&good, 9);
    let mut wrong = vec![
        of(&deflated(&good[1..], 9), there),
        of(&deflated(&[&good[..], &[0]].concat(), 9), there),
        of(&[&whole[..], &[0]].concat(), there),
        of(&deflated(&vec![0; 200_000_000], 9), there),
        of(&deflated(&vec![0; 200_000_000], 9), [40_960, 65_536]),
        of(&good, there),
        of(&whole, [there[0] - 10, there[1]]),
        of(&whole, [there[0], there[1] - 1]),
        of(&whole, [there[0] - 1, there[1] + 4]),
        of(&deflated(&good[..40], 9), [10, 0]),
        of(&deflated(&[], 9), [0, 0]),
        of(&[], there),
    ];
    wrong.extend((0..whole.len()).map(|to| of(&whole[..to], there)));
    for (contents, stored) in wrong {
        let parts = Parts {
            version: 3,
            sheet: &now.sheet,
            about: &now.about,
            stored,
            contents,
        };
        let failure = stored::of_bytes(&sheet, &parts.file()).unwrap_err();
        let words = "the stored sheet does not hold what its header says";
        assert!(failure.words().ends_with(words), "{failure:?}");
    }
}

/// The status and the words of a check that has 100 MB of addresses.
fn bounded_check(sheet: &Path) -> (Option<i32>, String) {
    let ran = Command::new("bash")
        .args(["-c", "ulimit -v 100000; exec \"$@\"", "bash", PROGRAM])
        .arg("check")
        .arg(sheet)
        .output()
        .unwrap();
    let words = String::from_utf8_lossy(&ran.stderr).into_owned();
    (ran.status.code(), words)
}

/// The same by the program, with little memory too, and rows that make no good sheet.
#[test]
fn wrong_contents_are_left_alone() {
    let folder = Folder::new();
    let (file, sheet) = (Path::new(PAYMENT), folder.path("p.sheet"));
    assert_eq!(read(file, &sheet, &["--events", "20"]).status, Some(0));
    let now = stored::load(&sheet).unwrap();
    let (rows, names) = used(&now.sheet);
    let mut not_good = rows.to_vec();
    not_good[0] ^= 1;
    let told = "does not hold what its header says";
    for (contents, words) in [
        (deflated(&by_column(&rows[10..], names), 9), told),
        (deflated(&vec![0; 200_000_000], 9), told),
        (deflated(&by_column(&not_good, names), 9), "refused with"),
    ] {
        let parts = Parts {
            version: 3,
            sheet: &now.sheet,
            about: &now.about,
            stored: [rows.len(), names.len()],
            contents,
        };
        let bytes = parts.file();
        fs::write(&sheet, &bytes).unwrap();
        let name = sheet.to_str().unwrap();
        for ran in [
            lubiksan(["check", name]),
            lubiksan(["graph", name, "--partial"]),
            lubiksan(["names", name, "--partial"]),
            read(file, &sheet, &["--quiet"]),
        ] {
            assert_eq!(ran.status, Some(1), "{}", ran.err);
            assert!(ran.err.contains(words), "{}", ran.err);
            assert!(fs::read(&sheet).unwrap() == bytes);
        }
        let (status, told) = bounded_check(&sheet);
        assert!(status == Some(1) && told.contains(words), "{told}");
    }
    assert_eq!(read(file, &sheet, &["--restart"]).status, Some(0));
    assert_eq!(bounded_check(&sheet), (Some(0), String::new()));
}

#[test]
fn every_single_bit_counts() {
    let folder = Folder::new();
    let path = folder.path("p.sheet");
    assert_eq!(read(Path::new(PAYMENT), &path, &[]).status, Some(0));
    let now = stored::load(&path).unwrap();
    for mut bytes in [
        fs::read(&path).unwrap(),
        of_version_2(&now.sheet, &now.about),
    ] {
        assert!(stored::of_bytes(&path, &bytes).is_ok());
        for at in 0..8 * bytes.len() {
            bytes[at / 8] ^= 1 << (at % 8);
            assert!(stored::of_bytes(&path, &bytes).is_err(), "bit {at}");
            bytes[at / 8] ^= 1 << (at % 8);
        }
        for to in 0..bytes.len() {
            assert!(stored::of_bytes(&path, &bytes[..to]).is_err(), "{to} bytes");
        }
    }
}

/// A single bit of the packed part with a sum that was made anew: refused for what is packed, or a sheet that is good.
#[test]
fn a_sum_made_anew_does_not_make_a_sheet() {
    let folder = Folder::new();
    let path = folder.path("p.sheet");
    assert_eq!(read(Path::new(PAYMENT), &path, &[]).status, Some(0));
    let good = fs::read(&path).unwrap();
    let (mut random, mut refused) = (Random(13), 0);
    let (from, times) = (128 + PAYMENT.len(), cases(2_000));
    for _ in 0..times {
        let mut bytes = good.clone();
        bytes[from + random.below(good.len() - from)] ^= 1 << random.below(8);
        match stored::of_bytes(&path, &with_sum(bytes, 128)) {
            Ok(mut stored) => assert!(stored.sheet.check().is_ok()),
            Err(failure) => {
                assert!(!failure.words().contains("SHA-256"), "{failure:?}");
                refused += 1;
            }
        }
    }
    assert!(refused > times / 2, "{refused} of {times}");
}
