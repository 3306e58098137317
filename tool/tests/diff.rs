//! `diff`: nothing between a schema and itself, the changes of versions at hand, and random changes, each of which is told and nothing else.

mod common;

use std::fs;
use std::ops::Range;
use std::path::{Path, PathBuf};

use common::{cases, large_schemas, lubiksan, schemas, Folder, Random};
use serde_json::Value;

/// The changes from one file to another.
fn changes(old: &Path, new: &Path) -> Vec<Value> {
    let ran = lubiksan([
        "diff".as_ref(),
        old.as_os_str(),
        new.as_os_str(),
        "--format".as_ref(),
        "json".as_ref(),
        "--quiet".as_ref(),
    ]);
    assert_eq!(ran.status, Some(0), "{}", ran.err);
    let found: Value = serde_json::from_str(&ran.out).unwrap();
    assert_eq!(found["version"], 1);
    found["changes"].as_array().unwrap().clone()
}

/// The large schemas that bindings can be made of with `--lossy`.
fn followed() -> Vec<PathBuf> {
    let mut files = large_schemas();
    files.retain(|file| {
        let args = [
            "bindings".as_ref(),
            file.as_os_str(),
            "--module".as_ref(),
            "--lossy".as_ref(),
            "--quiet".as_ref(),
        ];
        lubiksan(args).status == Some(0)
    });
    files
}

fn takes(file: &Path) -> bool {
    lubiksan(["graph".as_ref(), file.as_os_str(), "--quiet".as_ref()]).status == Some(0)
}

#[test]
fn a_schema_is_itself() {
    for file in schemas().iter().filter(|file| takes(file)) {
        assert_eq!(changes(file, file), Vec::<Value>::new(), "{file:?}");
        let ran = lubiksan([
            "diff".as_ref(),
            file.as_os_str(),
            file.as_os_str(),
            "--exit-code".as_ref(),
            "--quiet".as_ref(),
        ]);
        assert_eq!(
            (ran.status, ran.out.as_str()),
            (Some(0), "0 changes, 0 of them breaking\n")
        );
    }
}

#[test]
fn stored_sheets_and_graphs_are_compared_too() {
    let folder = Folder::new();
    let old = Path::new(env!("CARGO_MANIFEST_DIR")).join("tests/data/account.xsd");
    let text = fs::read_to_string(&old).unwrap();
    let new = folder.put(
        "new.xsd",
        text.replace("maxLength value=\"70\"", "maxLength value=\"35\""),
    );
    let (sheet, graph) = (folder.path("new.sheet"), folder.path("old.graph"));
    let read = [
        "read".as_ref(),
        new.as_os_str(),
        "--sheet".as_ref(),
        sheet.as_os_str(),
        "--quiet".as_ref(),
    ];
    assert_eq!(lubiksan(read).status, Some(0));
    let store = [
        "graph".as_ref(),
        old.as_os_str(),
        "--format".as_ref(),
        "stored".as_ref(),
        "--output".as_ref(),
        graph.as_os_str(),
        "--quiet".as_ref(),
    ];
    assert_eq!(lubiksan(store).status, Some(0));
    for (old, new) in [
        (&old, &new),
        (&old, &sheet),
        (&graph, &new),
        (&graph, &sheet),
    ] {
        let found = changes(old, new);
        assert_eq!(found.len(), 1, "{found:?}");
        assert_eq!(found[0]["words"], "maxLength was 70, it is 35");
        assert_eq!(
            (&found[0]["what"], &found[0]["breaking"]),
            (&"facet".into(), &true.into())
        );
    }
    // Without its source the graphs are compared.
    fs::remove_file(&new).unwrap();
    assert_eq!(changes(&old, &sheet).len(), 1);
    let of = |more: &[&str]| {
        let files = [old.to_str().unwrap(), sheet.to_str().unwrap(), "--quiet"];
        lubiksan(["diff"].iter().chain(files.iter()).chain(more).copied()).status
    };
    assert_eq!(of(&[]), Some(0));
    assert_eq!(of(&["--exit-code"]), Some(1));
    assert_eq!(of(&["--exit-code", "--breaking"]), Some(2));
}

#[test]
fn types_are_matched_by_the_path_from_the_root() {
    let named = |name: &str| {
        large_schemas()
            .into_iter()
            .find(|file| file.to_string_lossy().contains(name))
    };
    let (Some(old), Some(new)) = (named("pain.001.001.03"), named("pain.001.001.09")) else {
        return;
    };
    let found = changes(&old, &new);
    let told = |path: &str, words: &str, breaking: bool| {
        let same = |change: &&Value| {
            change["path"] == path && change["words"].as_str().unwrap().contains(words)
        };
        let change = found
            .iter()
            .find(same)
            .unwrap_or_else(|| panic!("{path}: {words}"));
        assert_eq!(change["breaking"], breaking, "{path}");
    };
    told(
        "CstmrCdtTrfInitn.PmtInf",
        "PaymentInstructionInformation3, it is PaymentInstruction30",
        false,
    );
    told(
        "CstmrCdtTrfInitn.PmtInf.ReqdExctnDt",
        "it was text of date, it is elements",
        true,
    );
    told(
        "CstmrCdtTrfInitn.PmtInf.CdtTrfTxInf.PmtId.UETR",
        "the field is new, not required",
        false,
    );
    told("", "the namespace was", false);
    let breaking = found
        .iter()
        .take_while(|change| change["breaking"] == true)
        .count();
    assert!(
        breaking > 5
            && found
                .iter()
                .skip(breaking)
                .all(|change| change["breaking"] == false)
    );
}

/// An edit of one line: what is looked for, what is put in its place, and the change that must be told.
type Edit = (&'static str, fn(&str) -> String, &'static str, bool);

fn raised(line: &str, by: i64) -> String {
    let (before, rest) = line.split_once("value=\"").unwrap();
    let (number, behind) = rest.split_once('"').unwrap();
    format!(
        "{before}value=\"{}\"{behind}",
        number.parse::<i64>().unwrap() + by
    )
}

const EDITS: [Edit; 14] = [
    (
        "minOccurs=\"0\"",
        |line| line.replace("minOccurs=\"0\"", ""),
        "occurs",
        true,
    ),
    (
        "maxOccurs=\"unbounded\"",
        |line| line.replace("unbounded", "7"),
        "occurs",
        true,
    ),
    (
        "maxOccurs=\"1\"",
        |line| line.replace("maxOccurs=\"1\"", "maxOccurs=\"unbounded\""),
        "occurs",
        false,
    ),
    (":maxLength value=", |line| raised(line, -1), "facet", true),
    (":maxLength value=", |line| raised(line, 1), "facet", false),
    (":minLength value=", |line| raised(line, 1), "facet", true),
    (
        ":totalDigits value=",
        |line| raised(line, -1),
        "facet",
        true,
    ),
    (
        ":fractionDigits value=",
        |line| raised(line, 2),
        "facet",
        false,
    ),
    (
        ":pattern value=",
        |line| line.replace("value=\"", "value=\"x"),
        "facet",
        true,
    ),
    (":pattern value=", |_| String::new(), "facet", false),
    (":enumeration value=", |_| String::new(), "code", true),
    (
        ":enumeration value=",
        |line| format!("{line}\n{}", line.replace("value=\"", "value=\"NEW")),
        "code",
        false,
    ),
    ("<xs:element", |_| String::new(), "field", true),
    (
        "<xs:element",
        |line| format!("{line}\n<xs:element name=\"Brnew\" type=\"xs:string\" minOccurs=\"0\"/>"),
        "field",
        false,
    ),
];

/// The lines that stand directly in a sequence of a type, by number.
fn in_sequences(lines: &[&str]) -> Vec<usize> {
    let mut open: Vec<&str> = Vec::new();
    let mut found = Vec::new();
    for (number, line) in lines.iter().enumerate() {
        let line = line.trim();
        for word in ["sequence", "choice"] {
            if line.starts_with(&format!("<xs:{word}")) && !line.ends_with("/>") {
                open.push(if line == "<xs:sequence>" {
                    word
                } else {
                    "other"
                });
            }
            if line.starts_with(&format!("</xs:{word}")) {
                open.pop();
            }
        }
        if line.starts_with("<xs:element") && line.ends_with("/>") && open == ["sequence"] {
            found.push(number);
        }
    }
    found
}

#[test]
fn each_random_change_is_told_and_nothing_else() {
    let folder = Folder::new();
    let files = followed();
    let mut random = Random(20_022);
    let mut told = [0; EDITS.len()];
    for count in 0..cases(140) {
        let file = &files[random.below(files.len())];
        let text = fs::read_to_string(file).unwrap();
        let lines: Vec<&str> = text.lines().collect();
        let (sought, edited, what, breaking) = EDITS[count % EDITS.len()];
        let in_sequences = in_sequences(&lines);
        let fits = |number: &usize| {
            let line = lines[*number];
            let element = sought.contains("Occurs") || sought.contains("element");
            line.contains(sought)
                && line.trim().ends_with("/>")
                && (!element || in_sequences.contains(number))
        };
        let numbers: Vec<usize> = (0..lines.len()).filter(fits).collect();
        if numbers.is_empty() {
            continue;
        }
        let number = numbers[random.below(numbers.len())];
        let mut new: Vec<String> = lines.iter().map(|line| (*line).to_owned()).collect();
        new[number] = edited(lines[number]);
        let new = folder.put("new.xsd", new.join("\n"));
        let found = changes(file, &new);
        let shown = format!("{}:{} {what}: {found:#?}", file.display(), number + 1);
        // The last code or the only pattern of a type makes another kind of type.
        if found.iter().any(|change| change["what"] == "kind") {
            continue;
        }
        assert_eq!(found.len(), 1, "{shown}");
        assert_eq!(
            (&found[0]["what"], &found[0]["breaking"]),
            (&what.into(), &breaking.into()),
            "{shown}"
        );
        told[count % EDITS.len()] += 1;
    }
    assert!(
        told.iter().filter(|&&count| count > 0).count() > 10,
        "{told:?}"
    );
}

/// A tag of a schema, an annotation left aside: where it stands, and its attributes with their values.
struct Tag {
    at: Range<usize>,
    attributes: Vec<(String, Range<usize>)>,
}

/// The tags of a schema, the first one of `elementFormDefault` alone.
fn tags(text: &str) -> Vec<Tag> {
    let (mut found, mut end, mut open) = (Vec::new(), 0, 0);
    while let Some(start) = text[end..].find('<').map(|next| end + next) {
        let close = if text[start..].starts_with("<!--") {
            "-->"
        } else {
            ">"
        };
        end = start + text[start..].find(close).unwrap() + close.len();
        let tag = &text[start..end];
        if tag.starts_with("<!") || tag.starts_with("<?") {
            continue;
        }
        let mut attributes = attributes(tag, start);
        if found.is_empty() {
            attributes.retain(|(key, _)| key == "elementFormDefault");
        }
        let is_annotation = tag
            .split([' ', '>'])
            .next()
            .unwrap()
            .ends_with("annotation");
        match (is_annotation && !tag.ends_with("/>"), tag.starts_with("</")) {
            (true, true) => open -= 1,
            (true, false) => open += 1,
            _ => {}
        }
        let at = start..end;
        if open == 0 && !is_annotation && !tag.starts_with("</") {
            found.push(Tag { at, attributes });
        }
    }
    found
}

fn attributes(tag: &str, start: usize) -> Vec<(String, Range<usize>)> {
    let (mut found, mut at) = (Vec::new(), 0);
    while let Some(quote) = tag[at..].find(['"', '\'']).map(|next| at + next) {
        let mark = tag[quote..].chars().next().unwrap();
        let end = quote + 1 + tag[quote + 1..].find(mark).unwrap();
        let key = tag[at..quote].trim_end_matches(['=', ' ']);
        let key = key.rsplit([' ', '\t', '\n']).next().unwrap();
        found.push((key.to_owned(), start + quote + 1..start + end));
        at = end + 1;
    }
    found
}

/// Another value for an attribute; none where it says nothing of messages, or where a name is declared.
fn other_value(key: &str, value: &str, random: &mut Random) -> Option<String> {
    let new = match key {
        "id" | "version" | "schemaLocation" | "processContents" => return None,
        key if key.starts_with("xml") => return None,
        "minOccurs" => if value == "0" { "1" } else { "0" }.to_owned(),
        "maxOccurs" => if value == "1" { "2" } else { "1" }.to_owned(),
        "use" => if value == "required" {
            "optional"
        } else {
            "required"
        }
        .to_owned(),
        "elementFormDefault" | "form" => match value {
            "qualified" => "unqualified".to_owned(),
            _ => "qualified".to_owned(),
        },
        "mixed" | "abstract" | "nillable" => match value {
            "true" | "1" => "false".to_owned(),
            _ => "true".to_owned(),
        },
        "type" | "base" => match value.rsplit_once(':') {
            Some((prefix, "string")) => format!("{prefix}:boolean"),
            Some((prefix, _)) => format!("{prefix}:string"),
            None => return None,
        },
        "value" if value == "collapse" => "preserve".to_owned(),
        _ => format!("{value}{}", ["7", "x", "x7"][random.below(3)]),
    };
    Some(new)
}

/// The text with one tag left out, or one attribute changed; and where.
fn changed(text: &str, random: &mut Random) -> Option<(String, usize)> {
    let tags = tags(text);
    let tag = &tags[random.below(tags.len())];
    let (mut new, line) = (
        text.to_owned(),
        text[..tag.at.start].matches('\n').count() + 1,
    );
    if text[tag.at.clone()].ends_with("/>") && random.below(4) == 0 {
        new.replace_range(tag.at.clone(), "");
        return Some((new, line));
    }
    let (key, at) = tag
        .attributes
        .get(random.below(tag.attributes.len().max(1)))?;
    let other = other_value(key, &text[at.clone()], random)?;
    new.replace_range(at.clone(), &other);
    Some((new, line))
}

#[test]
fn no_change_is_passed_over() {
    let folder = Folder::new();
    let mut files = schemas();
    files.retain(|file| takes(file));
    let (mut random, mut told) = (Random(36), 0);
    for _ in 0..cases(300) {
        let file = &files[random.below(files.len())];
        let text = fs::read_to_string(file).unwrap();
        let Some((new, line)) = changed(&text, &mut random) else {
            continue;
        };
        let new = folder.put("new.xsd", new);
        // Some are no schemas any more.
        if takes(&new) {
            let found = changes(file, &new);
            assert!(!found.is_empty(), "{}:{line}", file.display());
            told += 1;
        }
    }
    assert!(told > cases(300) / 2, "{told}");
}

/// What the bindings have no type for.
const REST: &str = r###"<xs:schema xmlns:xs="http://www.w3.org/2001/XMLSchema" xmlns:o="urn:o" xmlns:p="urn:p" targetNamespace="urn:o" elementFormDefault="qualified">
<xs:element name="D" type="o:D"/>
<xs:element name="G" type="Code" abstract="true"/>
<xs:complexType name="D"><xs:sequence>
<xs:element name="Own"><xs:complexType><xs:sequence>
<xs:element name="Deep" minOccurs="0"><xs:simpleType><xs:restriction base="xs:string"><xs:maxLength value="9"/></xs:restriction></xs:simpleType></xs:element>
</xs:sequence></xs:complexType></xs:element>
<xs:element ref="o:G"/>
<xs:element ref="p:G" minOccurs="0"/>
<xs:element name="N" type="Code" nillable="true"/>
<xs:element name="V" type="xs:token" default="a"/>
<xs:sequence maxOccurs="4"><xs:element name="R" type="More"/></xs:sequence>
<xs:element name="Open" type="Open"/>
</xs:sequence><xs:attribute name="at" type="Code" use="required"/></xs:complexType>
<xs:complexType name="Base"><xs:sequence><xs:element name="B" type="Code"/></xs:sequence></xs:complexType>
<xs:complexType name="More"><xs:complexContent><xs:extension base="Base"><xs:sequence><xs:element name="M" type="xs:string"/></xs:sequence></xs:extension></xs:complexContent></xs:complexType>
<xs:complexType name="Open"><xs:sequence><xs:any namespace="##any"/></xs:sequence></xs:complexType>
<xs:simpleType name="Code"><xs:restriction base="xs:string"><xs:enumeration value="A"/><xs:enumeration value="B"/></xs:restriction></xs:simpleType>
</xs:schema>"###;

#[test]
fn what_no_type_has_is_compared_all_the_same() {
    let folder = Folder::new();
    let old = folder.put("old.xsd", REST);
    let all = [
        ("value=\"9\"", "value=\"8\"", "facet", true, "Own.Deep"),
        (
            "\"Deep\" minOccurs=\"0\"",
            "\"Deep\"",
            "occurs",
            true,
            "Own.Deep",
        ),
        (
            "ref=\"o:G\"",
            "ref=\"o:G\" maxOccurs=\"2\"",
            "occurs",
            false,
            "G",
        ),
        ("xmlns:p=\"urn:p\"", "xmlns:p=\"urn:q\"", "type", true, "G"),
        (" nillable=\"true\"", "", "other", true, ""),
        ("default=\"a\"", "default=\"b\"", "other", false, ""),
        ("maxOccurs=\"4\"", "maxOccurs=\"5\"", "other", false, ""),
        ("maxOccurs=\"4\"", "maxOccurs=\"3\"", "other", true, ""),
        ("use=\"required\"", "", "other", true, ""),
        ("name=\"M\"", "name=\"L\"", "other", true, "R"),
        (
            "name=\"M\" type=\"xs:string\"",
            "name=\"M\" type=\"xs:date\"",
            "other",
            true,
            "R",
        ),
        ("##any", "##other", "other", true, "Open"),
        (" abstract=\"true\"", "", "other", false, ""),
        ("\"qualified\"", "\"unqualified\"", "other", true, ""),
        ("<xs:enumeration value=\"B\"/>", "", "code", true, ""),
        ("\"Base\"", "\"Root\"", "type renamed", false, "R"),
        ("xs:token", "xs:string", "type", false, "V"),
    ];
    for (sought, put, what, breaking, path) in all {
        assert!(REST.contains(sought), "{sought}");
        let found = changes(&old, &folder.put("new.xsd", REST.replace(sought, put)));
        assert_eq!(found.len(), 1, "{sought} {found:#?}");
        let told = (&found[0]["what"], &found[0]["breaking"]);
        assert_eq!(told, (&what.into(), &breaking.into()), "{sought}");
        let told = found[0]["path"].as_str().unwrap();
        assert!(told.ends_with(path), "{sought}: {told}");
    }
}

/// The text with another name for a type, where it is declared and where it is referred to, by a prefix too.
fn renamed(text: &str, name: &str) -> String {
    let mut new = text.to_owned();
    for kind in ["complexType", "simpleType"] {
        let tag = format!("{kind} name=\"{name}");
        new = new.replace(&format!("{tag}\""), &format!("{tag}99\""));
    }
    for word in ["type", "base"] {
        let separator = format!(" {word}=\"");
        let parts = new.split(&separator).map(|part| {
            let value = part.split('"').next().unwrap();
            match value.rsplit(':').next() == Some(name) {
                true => part.replacen(value, &format!("{value}99"), 1),
                false => part.to_owned(),
            }
        });
        let parts: Vec<String> = parts.collect();
        new = parts.join(&separator);
    }
    new
}

#[test]
fn a_type_that_is_only_renamed_breaks_nothing() {
    let folder = Folder::new();
    for (index, file) in followed().iter().enumerate() {
        let text = fs::read_to_string(file).unwrap();
        let names = text
            .split("<xs:complexType name=\"")
            .skip(1)
            .map(|rest| rest.split('"').next().unwrap());
        let names: Vec<&str> = names.filter(|name| *name != "Document").collect();
        let name = names[(index * 7) % names.len()];
        let new = renamed(&text, name);
        let found = changes(file, &folder.put("new.xsd", new));
        assert_eq!(found.len(), 1, "{file:?} {name} {found:#?}");
        assert_eq!(found[0]["breaking"], false);
    }
}

#[test]
fn relative_paths_are_equal_wherever_the_files_stand() {
    let (one, other) = (Folder::new(), Folder::new());
    let text =
        fs::read(Path::new(env!("CARGO_MANIFEST_DIR")).join("tests/data/account.xsd")).unwrap();
    let placed = |folder: &Folder| {
        fs::create_dir_all(folder.path("sheets")).unwrap();
        let file = folder.put("account.xsd", &text);
        let sheet = folder.path("sheets/account.sheet");
        let ran = lubiksan([
            "read".as_ref(),
            file.as_os_str(),
            "--sheet".as_ref(),
            sheet.as_os_str(),
        ]);
        assert_eq!(ran.status, Some(0));
        (file, sheet)
    };
    let (one, other) = (placed(&one), placed(&other));
    for format in ["text", "json", "html"] {
        let of = |file: &Path| {
            let args = [
                "graph",
                file.to_str().unwrap(),
                "--format",
                format,
                "--relative",
            ];
            lubiksan(args).out
        };
        let (file, sheet) = (of(&one.0), of(&one.1));
        assert_eq!((&file, &sheet), (&of(&other.0), &of(&other.1)));
        assert!(
            file.contains("account.xsd") && sheet.contains("../account.xsd"),
            "{format}"
        );
        let folder = one.0.parent().unwrap().to_str().unwrap();
        assert!(
            !file.contains(folder) && !sheet.contains(folder),
            "{format}"
        );
        assert_eq!(file, sheet.replace("../account.xsd", "account.xsd"));
    }
    let given = one.0.to_str().unwrap();
    let both = lubiksan(["graph", given, "--relative", "--no-places"]);
    assert_eq!(both.status, Some(2));
    let changed = String::from_utf8(text.clone()).unwrap();
    let changed = changed.replacen("minOccurs=\"0\"", "minOccurs=\"1\"", 1);
    let folder = Folder::new();
    let new = folder.put("new.xsd", changed);
    let ran = lubiksan(["diff", given, new.to_str().unwrap(), "--relative"]);
    let line = ran.out.lines().next().unwrap();
    assert!(
        line.contains(" (account.xsd:") && line.contains(", new.xsd:"),
        "{}",
        ran.out
    );
    let ran = lubiksan([
        "diff",
        given,
        new.to_str().unwrap(),
        "--relative",
        "--format",
        "json",
    ]);
    assert!(
        ran.out.contains("\"old\": \"account.xsd\"") && ran.out.contains("\"new\": \"new.xsd\"")
    );
}

#[test]
fn graphs_without_places_can_be_compared() {
    let folder = Folder::new();
    let file = Path::new(env!("CARGO_MANIFEST_DIR")).join("tests/data/account.xsd");
    let text = fs::read_to_string(&file).unwrap();
    let moved = folder.put(
        "moved.xsd",
        text.replacen("<xs:element", "<!-- moved -->\n\n<xs:element", 1),
    );
    for format in ["text", "json", "html"] {
        let of = |file: &Path| {
            lubiksan([
                "graph".as_ref(),
                file.as_os_str(),
                "--format".as_ref(),
                format.as_ref(),
                "--no-places".as_ref(),
            ])
            .out
        };
        assert_eq!(of(&file), of(&moved));
        assert!(!of(&file).contains(".xsd"), "{format}");
    }
}
