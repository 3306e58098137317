//! `--used`: of a graph only what its roots lead to, in every format and from every input.

mod common;

use std::ffi::OsStr;
use std::fs;
use std::path::Path;

use common::{lubiksan, schemas, Folder, Ran};

const USED: &str = concat!(env!("CARGO_MANIFEST_DIR"), "/tests/data/used.xsd");
const FORMATS: [&str; 5] = ["text", "json", "dot", "rust", "rows"];

/// A command on a file, with more arguments.
fn run(command: &str, file: &Path, more: &[&str]) -> Ran {
    let args: [&OsStr; 2] = [command.as_ref(), file.as_ref()];
    lubiksan(args.into_iter().chain(more.iter().map(AsRef::as_ref)))
}

/// A graph in a format.
fn graph(file: &Path, format: &str, more: &[&str]) -> Ran {
    run("graph", file, &[&["--format", format], more].concat())
}

/// The types that the schema has behind those that are used, which stand first.
const UNUSED: &str = "  <xs:complexType name=\"Spare\">";

#[test]
fn every_format_has_only_what_is_used() {
    for format in FORMATS {
        let whole = graph(USED.as_ref(), format, &[]);
        let used = graph(USED.as_ref(), format, &["--used"]);
        assert_eq!((whole.status, used.status), (Some(0), Some(0)), "{format}");
        assert_eq!((whole.err, used.err.as_str()), (String::new(), ""));
        for name in ["Max35Text", "Transfer", "Party", "Agent"] {
            assert!(used.out.contains(name), "{format} {name}");
        }
        assert!(whole.out.contains("Spare") && !used.out.contains("Spare"));
    }
}

/// What is left is what the schema gives without the types that are not used; they stand last in the file.
#[test]
fn what_is_left_is_the_graph_of_a_schema_without_the_others() {
    let folder = Folder::new();
    let text = fs::read_to_string(USED).unwrap();
    let (kept, _) = text.split_once(UNUSED).unwrap();
    let cut = folder.put("used.xsd", format!("{kept}</xs:schema>\n").as_bytes());
    let rows = |ran: Ran| -> Vec<String> {
        // The first line tells of the events.
        ran.out.lines().skip(1).map(str::to_owned).collect()
    };
    let used = rows(graph(USED.as_ref(), "rows", &["--used"]));
    assert_eq!(used, rows(graph(&cut, "rows", &[])));
    for format in ["dot", "rust"] {
        let used = graph(USED.as_ref(), format, &["--used"]);
        assert_eq!(used.out, graph(&cut, format, &[]).out, "{format}");
    }
    let listing = |ran: Ran| (ran.status, ran.out, ran.err);
    let names = listing(run("names", USED.as_ref(), &["--used"]));
    assert_eq!(names, listing(run("names", &cut, &[])));
}

#[test]
fn a_stored_graph_of_what_is_used_is_taken_without_a_word() {
    let folder = Folder::new();
    let path = folder.path("used.graph");
    let output = path.to_string_lossy();
    let stored = graph(USED.as_ref(), "stored", &["--used", "--output", &output]);
    assert_eq!((stored.status, stored.err.as_str()), (Some(0), ""));
    for format in FORMATS {
        let expected = graph(USED.as_ref(), format, &["--used"]);
        for more in [&[][..], &["--used"]] {
            let again = graph(&path, format, more);
            assert_eq!(
                (again.status, again.err.as_str()),
                (Some(0), ""),
                "{format}"
            );
            assert_eq!(again.out, expected.out, "{format}");
        }
    }
}

#[test]
fn without_a_root_nothing_is_used() {
    let folder = Folder::new();
    let text = fs::read_to_string(USED).unwrap();
    let rootless = text.replacen("<xs:element name=\"Document\" type=\"Transfer\"/>", "", 1);
    let file = folder.put("rootless.xsd", rootless.as_bytes());
    let ran = graph(&file, "rows", &["--used"]);
    assert_eq!(ran.status, Some(0), "{}", ran.err);
    // Row 0 and the namespace.
    assert!(ran.out.contains("lower 0 2\n"), "{}", ran.out);
}

#[test]
fn the_schemas_are_reduced_once() {
    let folder = Folder::new();
    for (index, file) in schemas().into_iter().enumerate() {
        let path = folder.path(&format!("{index}.graph"));
        let output = path.to_string_lossy();
        let stored = graph(&file, "stored", &["--used", "--quiet", "--output", &output]);
        if stored.status != Some(0) {
            assert_ne!(graph(&file, "rows", &["--quiet"]).status, Some(0));
            continue;
        }
        let [once, twice] = [&[][..], &["--used"]].map(|more| graph(&path, "rows", more).out);
        assert!(once == twice, "{file:?}");
    }
}
