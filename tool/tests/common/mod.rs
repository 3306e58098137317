//! What the tests share: running the program, folders of their own, schemas, a fixed-seed generator.

#![allow(dead_code)]

pub mod messages;

use std::ffi::OsStr;
use std::fs;
use std::path::{Path, PathBuf};
use std::process::{Command, Output, Stdio};
use std::sync::atomic::{AtomicUsize, Ordering};

pub const PROGRAM: &str = env!("CARGO_BIN_EXE_lubiksan");

/// What a run of the program gave.
pub struct Ran {
    pub status: Option<i32>,
    pub out: String,
    pub err: String,
}

/// Runs the program.
pub fn lubiksan<A: AsRef<OsStr>>(args: impl IntoIterator<Item = A>) -> Ran {
    let output = Command::new(PROGRAM)
        .args(args)
        .stdin(Stdio::null())
        .output()
        .unwrap();
    ran(&output)
}

fn ran(output: &Output) -> Ran {
    Ran {
        status: output.status.code(),
        out: String::from_utf8_lossy(&output.stdout).into_owned(),
        err: String::from_utf8_lossy(&output.stderr).into_owned(),
    }
}

/// Prints a schema as Rust into a file.
pub fn to_rust(file: &Path, source: &Path) -> Ran {
    let graph: [&OsStr; 5] = [
        "graph".as_ref(),
        file.as_ref(),
        "--format".as_ref(),
        "rust".as_ref(),
        "--quiet".as_ref(),
    ];
    let output: [&OsStr; 2] = ["--output".as_ref(), source.as_ref()];
    lubiksan(graph.into_iter().chain(output))
}

/// The source compiles by itself in this edition, without a warning.
pub fn compiles(source: &Path, edition: &str) {
    let ran = Command::new("rustc")
        .args([
            "--edition",
            edition,
            "--crate-type",
            "lib",
            "--emit=metadata",
            "-D",
            "warnings",
            "-o",
        ])
        .args([source.with_extension("rmeta").as_path(), source])
        .output()
        .unwrap();
    assert!(
        ran.status.success(),
        "{}",
        String::from_utf8_lossy(&ran.stderr)
    );
}

/// Every line says that names meet or a type is not there.
pub fn tells_of_names(err: &str) -> bool {
    let ways = [
        " have the Rust name ",
        " has the same Rust name as ",
        "which is not there",
    ];
    let tells = |line: &str| ways.iter().any(|words| line.contains(words));
    !err.is_empty() && err.lines().all(tells)
}

/// A folder of one's own, removed at the end.
pub struct Folder(pub PathBuf);

impl Folder {
    pub fn new() -> Folder {
        static COUNT: AtomicUsize = AtomicUsize::new(0);
        let number = COUNT.fetch_add(1, Ordering::Relaxed);
        let path =
            std::env::temp_dir().join(format!("lubiksan-test-{}-{number}", std::process::id()));
        fs::create_dir_all(&path).unwrap();
        Folder(path)
    }

    pub fn path(&self, name: &str) -> PathBuf {
        self.0.join(name)
    }

    pub fn put(&self, name: &str, bytes: impl AsRef<[u8]>) -> PathBuf {
        let path = self.path(name);
        fs::write(&path, bytes).unwrap();
        path
    }

    /// The names of the files in it, in order.
    pub fn names(&self) -> Vec<String> {
        let entries = fs::read_dir(&self.0).unwrap();
        let mut names: Vec<String> = entries
            .map(|e| e.unwrap().file_name().into_string().unwrap())
            .collect();
        names.sort();
        names
    }
}

impl Drop for Folder {
    fn drop(&mut self) {
        let _ = fs::remove_dir_all(&self.0);
    }
}

/// The bytes before which a text is read by quick-xml: they are not ASCII, and no part of the text.
pub const MARK: &[u8] = b"\xEF\xBB\xBF";

/// The text with a byte order mark.
pub fn marked(text: impl AsRef<[u8]>) -> Vec<u8> {
    [MARK, text.as_ref()].concat()
}

/// The schemas at hand, but those that are refused with 18.
pub fn schemas() -> Vec<PathBuf> {
    let mut files = all_schemas();
    files.retain(|file| !has_document_type(file));
    files
}

/// The schemas at hand that are refused with 18.
pub fn schemas_with_document_type() -> Vec<PathBuf> {
    let mut files = all_schemas();
    files.retain(|file| has_document_type(file));
    files
}

/// There is a document type in the text of this file, and not in a comment.
fn has_document_type(file: &Path) -> bool {
    let bytes = fs::read(file).unwrap();
    let text = String::from_utf8_lossy(&bytes);
    let before = text.split_once("<!DOCTYPE").map(|(before, _)| before);
    before.is_some_and(|before| before.matches("<!--").count() == before.matches("-->").count())
}

/// The schemas of tests/data and, where they are at hand, those of the folder that `LUBIKSAN_SCHEMAS` names, or else of
/// ../shared/schemas beside the repository; where `CI` is set they must be at hand.
fn all_schemas() -> Vec<PathBuf> {
    let manifest = Path::new(env!("CARGO_MANIFEST_DIR"));
    let named = std::env::var_os("LUBIKSAN_SCHEMAS").map(PathBuf::from);
    let shared = named.unwrap_or_else(|| manifest.join("../../shared/schemas"));
    let missing = std::env::var_os("CI").is_some() && !shared.is_dir();
    assert!(!missing, "there is no {shared:?}");
    let folders = [
        manifest.join("tests/data"),
        shared.join("iso20022"),
        shared.join("other"),
    ];
    let entries = folders
        .iter()
        .filter_map(|folder| fs::read_dir(folder).ok())
        .flatten();
    let mut files: Vec<PathBuf> = entries.map(|entry| entry.unwrap().path()).collect();
    files.retain(|file| file.extension() == Some(OsStr::new("xsd")));
    files.sort();
    files
}

/// The schemas of ISO 20022 among them, or those of tests/data where there are none.
pub fn large_schemas() -> Vec<PathBuf> {
    let all = schemas();
    let iso: Vec<PathBuf> = all
        .iter()
        .filter(|file| file.to_string_lossy().contains("iso20022"))
        .cloned()
        .collect();
    if iso.is_empty() {
        all
    } else {
        iso
    }
}

/// A fixed-seed generator (xorshift).
pub struct Random(pub u64);

impl Random {
    pub fn next(&mut self) -> u64 {
        self.0 ^= self.0 << 13;
        self.0 ^= self.0 >> 7;
        self.0 ^= self.0 << 17;
        self.0
    }

    pub fn below(&mut self, limit: usize) -> usize {
        (self.next() % limit.max(1) as u64) as usize
    }
}

/// So many cases, or as many times more as `LUBIKSAN_TIMES` says.
pub fn cases(count: usize) -> usize {
    let times = std::env::var("LUBIKSAN_TIMES")
        .ok()
        .and_then(|text| text.parse().ok());
    count * times.unwrap_or(1)
}

/// Runs `work` on every item with as many threads as there are cores.
pub fn side_by_side<T: Sync>(items: &[T], work: impl Fn(&T) + Sync) {
    let next = AtomicUsize::new(0);
    let threads = std::thread::available_parallelism().map_or(1, usize::from);
    std::thread::scope(|scope| {
        for _ in 0..threads {
            scope.spawn(|| {
                while let Some(item) = items.get(next.fetch_add(1, Ordering::Relaxed)) {
                    work(item);
                }
            });
        }
    });
}
