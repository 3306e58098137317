//! The page of a graph: it has all that the JSON has and nothing from outside, and works in a browser.

mod common;

use std::collections::{HashMap, HashSet};
use std::io::Write;
use std::path::Path;
use std::process::Command;

use common::{large_schemas, lubiksan, schemas, Folder};
use serde_json::Value;

fn shown(file: &Path, format: &str) -> String {
    let ran = lubiksan([
        "graph".as_ref(),
        file.as_os_str(),
        "--format".as_ref(),
        format.as_ref(),
        "--quiet".as_ref(),
    ]);
    ran.out
}

fn escaped(text: &str) -> String {
    let text = text
        .replace('&', "&amp;")
        .replace('<', "&lt;")
        .replace('>', "&gt;");
    text.replace('"', "&quot;")
        .replace('\'', "&#39;")
        .replace('\\', "&#92;")
}

/// What stands between two words, each time.
fn between<'t>(text: &'t str, start: &str, end: &str) -> Vec<&'t str> {
    text.split(start)
        .skip(1)
        .filter_map(|rest| rest.split(end).next())
        .collect()
}

#[test]
fn the_page_has_what_the_json_has() {
    for file in schemas() {
        let json: Value = match serde_json::from_str(&shown(&file, "json")) {
            Ok(json) => json,
            Err(_) => continue,
        };
        let page = shown(&file, "html");
        let data: Value =
            serde_json::from_str(between(&page, "type=\"application/json\">", "</script>")[0])
                .unwrap();
        let types = json["types"].as_array().unwrap();
        assert_eq!(data["types"].as_array().unwrap().len(), types.len());
        for (number, (one, other)) in types
            .iter()
            .zip(data["types"].as_array().unwrap())
            .enumerate()
        {
            assert_eq!(
                (&one["name"], &one["kind"]),
                (&other["name"], &other["kind"])
            );
            let start = format!("<section id=\"t{number}\"");
            let section = between(&page, &start, "</section>")[0];
            assert!(section.contains(&escaped(one["name"].as_str().unwrap())));
            for key in ["fields", "variants", "attributes", "codes"] {
                for part in one[key].as_array().into_iter().flatten() {
                    let name = escaped(part["xml"].as_str().unwrap());
                    assert!(
                        section.contains(&name) || name.contains("\\"),
                        "{file:?} {name}"
                    );
                }
            }
        }
        let marks = json["notKept"].as_array().unwrap().len();
        assert_eq!(
            page.contains("class=\"mark\""),
            marks > 0 && page.contains("&#9888;"),
            "{file:?}"
        );
    }
}

#[test]
fn nothing_comes_from_outside_and_every_link_leads_somewhere() {
    for file in schemas() {
        let page = shown(&file, "html");
        if page.is_empty() {
            continue;
        }
        let body = page.split("<script id=").next().unwrap();
        assert!(
            !page.contains(" src=")
                && !page.contains("<link")
                && !page.contains("@import")
                && !page.contains("url(")
        );
        let ids: HashSet<&str> = between(body, " id=\"", "\"").into_iter().collect();
        for target in between(body, "href=\"", "\"") {
            let id = target.strip_prefix('#').unwrap();
            assert!(ids.contains(id), "{target}");
        }
        assert!(page.contains("prefers-color-scheme: dark") && page.contains("@media print"));
    }
}

#[test]
fn dot_shows_a_part_or_every_node() {
    let file = Path::new(env!("CARGO_MANIFEST_DIR")).join("tests/data/payment.xsd");
    let of = |more: &[&str]| {
        let args = [
            "graph",
            file.to_str().unwrap(),
            "--format",
            "dot",
            "--quiet",
        ];
        lubiksan(args.iter().chain(more).copied())
    };
    let nodes = |text: &str| {
        text.lines()
            .filter(|line| line.contains(" [label="))
            .count()
    };
    assert_eq!(nodes(&of(&[]).out), 4);
    assert!(of(&[]).out.contains("type4:f2 -> type7;"));
    assert_eq!(nodes(&of(&["--all-nodes"]).out), 8);
    assert_eq!(nodes(&of(&["--root", "Party"]).out), 2);
    assert_eq!(nodes(&of(&["--root", "Document", "--depth", "0"]).out), 1);
    assert_eq!(nodes(&of(&["--depth", "1"]).out), 3);
    let ran = of(&["--root", "Nobody"]);
    assert_eq!(
        (ran.status, ran.err.as_str()),
        (Some(1), "there is no root element and no type \"Nobody\"\n")
    );
    let ran = lubiksan(["graph", file.to_str().unwrap(), "--root", "Party"]);
    assert_eq!(ran.status, Some(2));
}

/// Chromium, where it is installed; else that is said.
fn browser() -> Option<&'static str> {
    let names = [
        "chromium",
        "chromium-browser",
        "google-chrome",
        "chromium-headless-shell",
    ];
    let found = names
        .into_iter()
        .find(|name| Command::new(name).arg("--version").output().is_ok());
    if found.is_none() {
        // Past the capture of the test harness, which keeps what a passing test prints by `println!`.
        let said = b"no Chromium is installed: the page was not tried in a browser\n";
        std::io::stderr().write_all(said).unwrap();
    }
    found
}

/// What the browser shows of a page when `word` is searched, by tests/data/browser.js.
fn seen_in(browser: &str, folder: &Folder, page: &str, word: &str, more: &[&str]) -> Value {
    let script = include_str!("data/browser.js").replace("SEARCHED", &format!("{word:?}"));
    let page = page.replace("</body>", &format!("<script>{script}</script></body>"));
    let path = folder.put("page.html", page);
    let ran = Command::new(browser)
        .args(["--headless", "--no-sandbox", "--disable-gpu", "--dump-dom"])
        .args(more)
        .arg(format!("--user-data-dir={}", folder.path("user").display()))
        .arg(format!("file://{}", path.display()))
        .output()
        .unwrap();
    let dumped = String::from_utf8_lossy(&ran.stdout).into_owned();
    let seen = between(
        &dumped,
        "<script id=\"seen\" type=\"application/json\">",
        "</script>",
    );
    serde_json::from_str(seen.first().expect("the page's script ended early")).unwrap()
}

/// The fields of a type in JSON as a row of the page: XML name, Rust name, how often, type.
fn rows_of(found: &Value) -> Vec<[String; 4]> {
    let text = |value: &Value| value.as_str().unwrap_or_default().to_owned();
    let named = |field: &Value| {
        let reference = &field["type"];
        text(if reference["named"].is_null() {
            &reference["builtin"]
        } else {
            &reference["named"]
        })
    };
    let mut rows = Vec::new();
    if found["kind"] == "value" {
        rows.push([
            text(&"text".into()),
            text(&"value".into()),
            text(&"1".into()),
            named(found),
        ]);
    }
    for (key, mark) in [("fields", ""), ("variants", ""), ("attributes", "@")] {
        for field in found[key].as_array().into_iter().flatten() {
            let often = match (key, field["cardinality"]["kind"].as_str()) {
                ("variants", _) => "one of".to_owned(),
                ("attributes", _) if field["required"] == true => "1".to_owned(),
                ("attributes", _) | (_, Some("optional")) => "0..1".to_owned(),
                (_, Some("required")) => "1".to_owned(),
                (_, Some("vec")) => "0..*".to_owned(),
                _ => format!("0..{}", field["cardinality"]["most"]),
            };
            let xml = format!("{mark}{}", text(&field["xml"]));
            rows.push([xml, text(&field["rust"]), often, named(field)]);
        }
    }
    rows
}

/// The tree below a type, as the page shows it, against the rows of the types.
fn tree_is(nodes: &Value, kind: &str, types: &HashMap<String, Vec<[String; 4]>>, levels: usize) {
    let Some(rows) = types.get(kind) else { return };
    let nodes = nodes.as_array().unwrap();
    if levels == 0 {
        return;
    }
    assert_eq!(nodes.len(), rows.len(), "{kind}");
    for (node, [xml, _, often, below]) in nodes.iter().zip(rows) {
        assert_eq!(
            (node["xml"].as_str(), node["often"].as_str()),
            (Some(xml.as_str()), Some(often.as_str()))
        );
        tree_is(&node["inside"], below, types, levels - 1);
    }
}

/// What the browser shows against the JSON: sections, tree, search, clicks.
fn shows_the_json(seen: &Value, json: &Value, word: &str) {
    let sections = seen["sections"].as_array().unwrap();
    let types = json["types"].as_array().unwrap();
    assert_eq!(sections.len(), types.len());
    let mut rows = HashMap::new();
    let mut places = 0;
    for (section, found) in sections.iter().zip(types) {
        let name = found["name"].as_str().unwrap();
        let head = format!("{name} {}", found["kind"].as_str().unwrap());
        let shown = section["head"].as_str().unwrap();
        assert!(
            shown.starts_with(&head) && shown.ends_with(&format!(":{}", found["line"])),
            "{shown}"
        );
        let expected = rows_of(found);
        let mut cells = section["rows"].as_array().unwrap().iter();
        for row in &expected {
            let shown: Vec<&str> = cells
                .next()
                .unwrap()
                .as_array()
                .unwrap()
                .iter()
                .filter_map(Value::as_str)
                .collect();
            assert_eq!(shown[..3], row[..3], "{name}");
            // Behind the type stand the marks where the graph is not the schema.
            assert!(
                shown[3] == row[3] || shown[3].starts_with(&format!("{} \u{26a0}", row[3])),
                "{shown:?}"
            );
        }
        assert!(cells.next().is_none());
        let more: Vec<&str> = section["more"]
            .as_array()
            .unwrap()
            .iter()
            .filter_map(Value::as_str)
            .collect();
        let codes = found["codes"]
            .as_array()
            .into_iter()
            .flatten()
            .filter_map(|code| code["xml"].as_str());
        let codes: Vec<&str> = codes.collect();
        assert!(codes.is_empty() || codes == more, "{name}");
        let facets = found["facets"].as_array().map_or(0, Vec::len);
        assert!(
            found["kind"] != "newtype" || more.len() == 1 + facets,
            "{name}"
        );
        let has = |text: &str| text.to_lowercase().contains(&word.to_lowercase());
        places += usize::from(has(name) || more.iter().any(|text| has(text)));
        places += expected
            .iter()
            .filter(|row| has(&row[0]) || has(&row[1]))
            .count();
        rows.insert(name.to_owned(), expected);
    }
    for (node, root) in seen["tree"]
        .as_array()
        .unwrap()
        .iter()
        .zip(json["roots"].as_array().unwrap())
    {
        assert_eq!(node["xml"], root["xml"]);
        tree_is(&node["inside"], root["type"].as_str().unwrap(), &rows, 3);
    }
    let told = seen["places"].as_str().unwrap();
    assert!(
        places > 0 && told.starts_with(&format!("{places} place")),
        "{places} of {word}, shown {told}"
    );
    assert_eq!(seen["dead"], 0);
    // Each field with a type of the graph links to it, and that one back.
    let keys = ["fields", "variants", "attributes"];
    let inside = types.iter().flat_map(|found| {
        keys.iter()
            .flat_map(|key| found[*key].as_array().into_iter().flatten())
    });
    let references = inside
        .chain(types)
        .filter_map(|one| one["type"]["named"].as_str());
    assert_eq!(
        seen["links"],
        2 * references.filter(|name| rows.contains_key(*name)).count()
    );
    let at = seen["at"].as_str().unwrap();
    assert!(seen["links"] == 0 || at.starts_with("#t"), "{at}");
    // A root whose type is not there leads nowhere.
    let leads = |root: &Value| rows.contains_key(root["type"].as_str().unwrap());
    if json["roots"].as_array().unwrap().iter().any(leads) {
        let way = seen["ways"][0].as_str().unwrap();
        assert_eq!(way.rsplit('.').next(), seen["open"].as_str());
        assert_eq!(seen["inView"], true);
    }
}

/// The page in a browser, light and dark.
#[test]
fn the_page_works_in_a_browser() {
    let Some(browser) = browser() else { return };
    let folder = Folder::new();
    for (number, file) in large_schemas().iter().enumerate() {
        let page = shown(file, "html");
        if page.is_empty() {
            continue;
        }
        let json: Value = serde_json::from_str(&shown(file, "json")).unwrap();
        let types = json["types"].as_array().unwrap();
        let fields = types
            .iter()
            .flat_map(|found| found["fields"].as_array().into_iter().flatten());
        let names = fields.filter_map(|field| field["xml"].as_str());
        let word = names.max_by_key(|name| name.len()).unwrap();
        let dark = number % 2 == 1;
        let more: &[&str] = if dark { &["--force-dark-mode"] } else { &[] };
        let seen = seen_in(browser, &folder, &page, word, more);
        shows_the_json(&seen, &json, word);
        let back = if dark {
            "rgb(20, 24, 29)"
        } else {
            "rgb(255, 255, 255)"
        };
        assert_eq!(
            (&seen["dark"], seen["back"].as_str()),
            (&dark.into(), Some(back))
        );
    }
}
