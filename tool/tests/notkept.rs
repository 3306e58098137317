//! What the graph does not keep: the lines, counts and comments, and every place against a second finder that goes over a tree of the
//! file, down from each type.

mod common;

use std::fs;
use std::path::Path;

use common::{cases, lubiksan, schemas, Folder, Ran, Random};
use lubiksan::ReadAs;
use lubiksan_tool::notkept::NotKept;
use lubiksan_tool::reading::read_whole;
use lubiksan_tool::source::Source;
use quick_xml::events::{BytesStart, Event};
use quick_xml::Reader;

/// A tag with all that stands inside.
#[derive(Debug, Default)]
struct Node {
    tag: String,
    attributes: Vec<(String, String)>,
    line: usize,
    /// Its number among the tags.
    order: usize,
    is_empty: bool,
    inside: Vec<Node>,
}

impl Node {
    fn get(&self, key: &str) -> Option<&str> {
        let found = self.attributes.iter().find(|(word, _)| word == key);
        found.map(|(_, value)| value.as_str())
    }

    fn name(&self) -> String {
        self.get("name").unwrap_or_default().to_owned()
    }

    fn is_true(&self, key: &str) -> bool {
        self.get(key)
            .is_some_and(|value| matches!(value.trim(), "true" | "1"))
    }

    fn is_typed(&self) -> bool {
        self.get("name").is_some() && self.get("type").is_some()
    }

    /// What stands inside, annotations left out.
    fn parts(&self) -> impl Iterator<Item = &Node> {
        self.inside.iter().filter(|node| node.tag != "annotation")
    }

    /// All that stands inside at any depth, itself first.
    fn all(&self) -> Vec<&Node> {
        let inside = self.inside.iter().flat_map(Node::all);
        std::iter::once(self).chain(inside).collect()
    }
}

fn local(name: &str) -> String {
    name.rsplit(':').next().unwrap_or_default().to_owned()
}

fn node(start: &BytesStart<'_>, line: usize, order: usize, is_empty: bool) -> Node {
    let text = |bytes: &[u8]| String::from_utf8(bytes.to_vec()).unwrap();
    let attribute = |found: quick_xml::events::attributes::Attribute<'_>| {
        (local(&text(found.key.as_ref())), text(&found.value))
    };
    Node {
        tag: local(&text(start.name().as_ref())),
        attributes: start
            .attributes()
            .map(|found| attribute(found.unwrap()))
            .collect(),
        line,
        order,
        is_empty,
        inside: Vec::new(),
    }
}

/// The tree of a file.
fn tree(text: &str) -> Node {
    let mut reader = Reader::from_str(text);
    let mut open = vec![Node::default()];
    for order in 0.. {
        let from = reader.buffer_position() as usize;
        let line = 1 + text[..from].matches('\n').count();
        match reader.read_event().unwrap() {
            Event::Start(start) => open.push(node(&start, line, order, false)),
            Event::Empty(start) => {
                let found = node(&start, line, order, true);
                open.last_mut().unwrap().inside.push(found);
            }
            Event::End(_) => {
                let found = open.pop().unwrap();
                open.last_mut().unwrap().inside.push(found);
            }
            Event::Eof => break,
            _ => {}
        }
    }
    open.pop().unwrap().inside.pop().unwrap()
}

/// Kind, line, type and fields.
type Seen = (&'static str, usize, Option<String>, Vec<String>);

/// The places of a type.
struct Down {
    name: Option<String>,
    seen: Vec<Seen>,
    /// Its content is a choice.
    choice: bool,
    /// Where `any` made it one that takes any content.
    any: Option<usize>,
    parts: Vec<String>,
}

fn once(value: &str) -> bool {
    value.trim().trim_start_matches('+').trim_start_matches('0') == "1"
}

impl Down {
    fn of(node: Option<&Node>) -> Down {
        let name = node.map(Node::name);
        let mut down = Down {
            name,
            seen: Vec::new(),
            choice: false,
            any: None,
            parts: Vec::new(),
        };
        for word in ["mixed", "abstract"] {
            if let Some(node) = node.filter(|node| node.is_true(word)) {
                down.see(word, node, &[]);
            }
        }
        down
    }

    fn see(&mut self, kind: &'static str, node: &Node, fields: &[String]) {
        self.seen
            .push((kind, node.line, self.name.clone(), fields.to_vec()));
    }

    fn complex(node: &Node) -> Vec<Seen> {
        let mut down = Down::of(Some(node));
        let any = node
            .all()
            .into_iter()
            .find(|found| found.tag == "any" && found.is_empty);
        down.any = any.map(|found| found.order);
        for part in node.parts() {
            match part.tag.as_str() {
                "sequence" | "choice" => {
                    down.choice = part.tag == "choice";
                    down.group(part, None, 1);
                }
                "simpleContent" => down.simple_content(part),
                "complexContent" => down.see("complexContent", part, &[]),
                "all" => down.see("all", part, &[]),
                _ => down.other(part, false),
            }
        }
        down.in_annotations(node);
        if let (Some(any), false) = (any, down.parts.is_empty()) {
            let parts = down.parts.clone();
            down.seen.retain(|(kind, ..)| outlives_any(kind));
            down.see("any", any, &parts);
        } else if any.is_some() {
            down.seen.retain(|(kind, ..)| outlives_any(kind));
        }
        down.seen
    }

    /// Tags that an annotation of the type holds and that the reader takes.
    fn in_annotations(&mut self, node: &Node) {
        let held = node
            .all()
            .into_iter()
            .filter(|found| found.tag == "annotation");
        for found in held.flat_map(Node::all) {
            if found.tag == "element" && found.is_empty && found.is_typed() {
                self.see("annotation", found, &[]);
            }
        }
    }

    /// A sequence or choice; gives the elements that are kept.
    fn group(&mut self, node: &Node, outer: Option<&str>, depth: usize) -> Vec<String> {
        let parts = node.parts().count();
        let mut kept = Vec::new();
        for part in node.parts() {
            match part.tag.as_str() {
                "element" => kept.extend(self.element(part, depth + 1)),
                "sequence" | "choice" => kept.extend(self.group(part, Some(&node.tag), depth + 1)),
                _ => self.other(part, false),
            }
        }
        let occurs = ["minOccurs", "maxOccurs"]
            .iter()
            .any(|word| node.get(word).is_some_and(|value| !once(value)));
        let (kind, of) = match node.tag.as_str() {
            "choice" => ("choice in sequence", "occurs of choice"),
            _ => ("sequence in choice", "occurs of sequence"),
        };
        if outer.is_some_and(|outer| outer != node.tag) && parts != 1 {
            self.see(kind, node, &kept);
        }
        if occurs {
            self.see(of, node, &kept);
        }
        kept
    }

    /// The element's name where it is kept.
    fn element(&mut self, node: &Node, depth: usize) -> Option<String> {
        let referred = node.get("ref").map(local);
        let name = node
            .get("name")
            .map(str::to_owned)
            .or(referred.clone())
            .unwrap_or_default();
        self.parts.push(name.clone());
        let fields = [name.clone()];
        let own = |part: &&Node| matches!(part.tag.as_str(), "complexType" | "simpleType");
        if !node.is_typed() {
            let inside: Vec<&Node> = node.parts().filter(own).flat_map(Node::all).collect();
            let before = |found: &&&Node| self.any.is_none_or(|any| found.order < any);
            let joined = inside
                .iter()
                .filter(|found| found.tag == "element" && found.is_empty && found.is_typed());
            let joined: Vec<String> = joined.filter(before).map(|found| found.name()).collect();
            self.parts.extend(joined.clone());
            match (node.get("name"), node.parts().find(own)) {
                (None, _) if referred.is_some() => self.see("reference", node, &fields),
                (_, Some(_)) => self.see("type of its own", node, &[&fields[..], &joined].concat()),
                _ => self.see("element", node, &fields),
            }
            return None;
        }
        if !node.is_empty && depth > 2 {
            self.see("element", node, &fields);
            return None;
        }
        self.kept(node, &fields);
        Some(name)
    }

    fn kept(&mut self, node: &Node, fields: &[String]) {
        self.values(node, fields);
        let words = [
            ("minOccurs", "minOccurs in choice"),
            ("maxOccurs", "maxOccurs in choice"),
        ];
        for (word, kind) in words {
            if self.choice && node.get(word).is_some_and(|value| !once(value)) {
                self.see(kind, node, fields);
            }
        }
        if !self.choice
            && node
                .get("maxOccurs")
                .is_some_and(|value| value.trim() == "0")
        {
            self.see("maxOccurs 0", node, fields);
        }
        self.keys(node);
    }

    fn keys(&mut self, node: &Node) {
        for part in node.parts() {
            if matches!(part.tag.as_str(), "key" | "keyref" | "unique") {
                self.see("key", part, &[]);
            }
        }
    }

    fn values(&mut self, node: &Node, fields: &[String]) {
        for word in ["default", "fixed"] {
            if node.get(word).is_some() {
                self.see(word, node, fields);
            }
        }
        if node.is_true("nillable") {
            self.see("nillable", node, fields);
        }
    }

    /// Attributes, groups and all else.
    fn other(&mut self, node: &Node, extension: bool) {
        let referred = node.get("ref").map(local);
        match (node.tag.as_str(), referred) {
            ("attribute", Some(name)) => self.see("reference", node, &[name]),
            ("attribute", None) if extension && node.is_empty && node.is_typed() => {
                self.values(node, &[node.name()]);
                if node.get("use") == Some("prohibited") {
                    self.see("prohibited", node, &[node.name()]);
                }
            }
            ("attribute", None) => self.see("attribute", node, &[node.name()]),
            ("attributeGroup", _) => self.see("attributeGroup", node, &[]),
            ("anyAttribute", _) => self.see("anyAttribute", node, &[]),
            ("group", name) => {
                self.parts.push(name.unwrap_or_default());
                self.see("group", node, &[]);
            }
            ("any", _) if node.is_empty => {}
            ("any", _) => self.see("any", node, &[]),
            _ => self.see("tag", node, &[]),
        }
    }

    fn simple_content(&mut self, node: &Node) {
        for part in node.parts() {
            match part.tag.as_str() {
                "extension" if !part.is_empty => {
                    part.parts().for_each(|inside| self.other(inside, true))
                }
                "extension" | "restriction" => self.see("simpleContent", part, &[]),
                _ => self.see("tag", part, &[]),
            }
        }
    }

    fn simple(node: &Node) -> Vec<Seen> {
        let mut down = Down::of(Some(node));
        for part in node.parts() {
            match part.tag.as_str() {
                "restriction" => part.parts().for_each(|inside| down.facet(inside)),
                "union" => down.see("union", part, &[]),
                "list" => down.see("list", part, &[]),
                _ => down.see("tag", part, &[]),
            }
        }
        let kept = |found: &&&Node| found.is_empty && KEPT.contains(&found.tag.as_str());
        let all = node.all();
        let facets: Vec<&&Node> = all.iter().filter(kept).collect();
        let codes: Vec<&&Node> = facets
            .iter()
            .copied()
            .filter(|f| f.tag == "enumeration")
            .collect();
        if !codes.is_empty() && codes.len() < facets.len() {
            let values: Vec<String> = codes
                .iter()
                .map(|f| f.get("value").unwrap_or_default().to_owned())
                .collect();
            down.see("enumeration", codes[0], &values);
        }
        down.seen
    }

    fn facet(&mut self, node: &Node) {
        match node.tag.as_str() {
            "simpleType" => self.see("type of its own", node, &[]),
            tag if KEPT.contains(&tag) && node.is_empty => {}
            tag if KEPT.contains(&tag) || LOST.contains(&tag) => self.see("facet", node, &[]),
            _ => self.see("tag", node, &[]),
        }
    }

    fn root(node: &Node) -> Vec<Seen> {
        let mut down = Down::of(None);
        let fields = [node.name()];
        if node.is_true("abstract") {
            down.see("abstract", node, &fields);
        }
        down.values(node, &fields);
        if node.get("substitutionGroup").is_some() {
            down.see("substitutionGroup", node, &fields);
        }
        down.keys(node);
        down.seen
    }
}

/// What is said of a type also where it takes any content.
fn outlives_any(kind: &str) -> bool {
    [
        "attribute",
        "attributeGroup",
        "anyAttribute",
        "abstract",
        "mixed",
        "complexContent",
        "all",
    ]
    .contains(&kind)
}

const KEPT: [&str; 8] = [
    "enumeration",
    "pattern",
    "minLength",
    "maxLength",
    "minInclusive",
    "maxInclusive",
    "totalDigits",
    "fractionDigits",
];
const LOST: [&str; 6] = [
    "length",
    "minExclusive",
    "maxExclusive",
    "whiteSpace",
    "assertion",
    "explicitTimezone",
];

/// The places by the tree, in order.
fn by_tree(text: &str) -> Vec<Seen> {
    let schema = tree(text);
    let mut seen = Vec::new();
    for node in &schema.inside {
        match node.tag.as_str() {
            "element" if node.is_typed() => seen.extend(Down::root(node)),
            "simpleType" if !node.is_empty => seen.extend(Down::simple(node)),
            "complexType" if !node.is_empty => seen.extend(Down::complex(node)),
            _ => {}
        }
    }
    seen.sort();
    seen
}

/// The places that the program finds, in the same order.
fn by_program(file: &Path) -> Vec<Seen> {
    let source = Source::load(file).unwrap();
    let sheet = read_whole(&source, ReadAs::Standard).unwrap();
    let found = NotKept::of(&source, &sheet);
    let seen = |place: &lubiksan_tool::notkept::Place<'_>| {
        let fields = place.fields.iter().map(|&field| field.to_owned()).collect();
        let name = place.type_name.map(str::to_owned);
        (place.kind.name(), source.line(place.at), name, fields)
    };
    let mut all: Vec<Seen> = found.places.iter().map(seen).collect();
    all.sort();
    all
}

#[test]
fn two_finders_find_the_same() {
    let mut count = 0;
    for file in schemas() {
        let bytes = fs::read(&file).unwrap();
        let text = String::from_utf8(bytes).unwrap();
        let text = text.trim_start_matches('\u{feff}');
        let (tree, program) = (by_tree(text), by_program(&file));
        count += program.len();
        for (one, other) in tree.iter().zip(&program) {
            assert_eq!(one, other, "{}", file.display());
        }
        assert_eq!(tree.len(), program.len(), "{}", file.display());
    }
    assert!(count > 0);
}

/// A part of a random group, by tags that stand alone or hold others.
fn part(random: &mut Random, depth: usize, text: &mut String) {
    let name = format!("n{}", random.below(30));
    let occurs = [
        "",
        "",
        " minOccurs='0'",
        " maxOccurs='0'",
        " maxOccurs='unbounded'",
        " minOccurs='1' maxOccurs=' 1 '",
    ];
    let occurs = occurs[random.below(occurs.len())];
    let value = ["", "", "", " nillable='true'", " default='d'", " fixed='f'"][random.below(6)];
    match random.below(if depth == 0 { 9 } else { 13 }) {
        0..=3 => *text += &format!("<element name='{name}' type='t'{occurs}{value}/>"),
        4 => *text += &format!("<element name='{name}' type='t'{occurs}{value}><annotation/></element>"),
        5 => *text += &format!("<element ref='p:{name}'{occurs}/>"),
        6 => *text += &format!("<element name='{name}'{occurs}/>"),
        7 if random.below(4) == 0 => *text += "<any/>",
        7 => *text += "<any><annotation/></any>",
        8 => *text += &format!("<group ref='p:{name}'/>"),
        9 => {
            *text += &format!("<element name='{name}'><complexType>");
            group(random, depth - 1, text);
            *text += "<attribute name='a' type='t'/></complexType></element>";
        }
        10 => *text += &format!("<element name='{name}' type='t'><unique name='u'><selector xpath='x'/></unique></element>"),
        _ => group(random, depth - 1, text),
    }
}

fn group(random: &mut Random, depth: usize, text: &mut String) {
    let tag = ["sequence", "choice"][random.below(2)];
    let occurs = [
        "",
        "",
        "",
        " minOccurs='0'",
        " maxOccurs='5'",
        " minOccurs='0' maxOccurs='1'",
    ][random.below(6)];
    *text += &format!("<{tag}{occurs}>");
    for _ in 0..random.below(4) {
        part(random, depth, text);
    }
    *text += &format!("</{tag}>\n");
}

fn random_type(random: &mut Random, number: usize) -> String {
    let mut text = format!("<complexType name='T{number}'>\n");
    let kind = random.below(8);
    match kind {
        0 => text += "<complexContent><extension base='b'><sequence><element name='e' type='t'/></sequence></extension></complexContent>",
        1 => text += "<all><element name='e' type='t'/></all>",
        2 => text += "<simpleContent><extension base='b'><attribute name='x' type='t' use='prohibited'/><attribute ref='p:y'/></extension></simpleContent>",
        _ => group(random, 3, &mut text),
    }
    for more in [
        "<attribute name='a' type='t'/>",
        "<attribute ref='p:r'/>",
        "<attributeGroup ref='g'/>",
        "<anyAttribute/>",
    ] {
        // Attributes stand behind neither kind of content.
        if kind % 2 == 1 && random.below(3) == 0 {
            text += more;
        }
    }
    text + "</complexType>\n"
}

#[test]
fn two_finders_find_the_same_in_random_types() {
    let folder = Folder::new();
    let mut random = Random(7_402);
    for round in 0..cases(150) {
        let types: String = (0..8)
            .map(|number| random_type(&mut random, number))
            .collect();
        let text = format!("<schema>\n{types}</schema>");
        let file = folder.put(&format!("{round}.xsd"), &text);
        let (tree, program) = (by_tree(&text), by_program(&file));
        for (one, other) in tree.iter().zip(&program) {
            assert_eq!(one, other, "{text}");
        }
        assert_eq!(tree.len(), program.len(), "{text}");
    }
}

/// The rest of the program's lines for this content of the schema, behind `a.xsd:1:`, and the outcome with `--strict`.
fn run(inside: &str, more: &[&str]) -> Ran {
    let folder = Folder::new();
    let file = folder.put("a.xsd", format!("<schema>{inside}</schema>"));
    let mut args = vec!["graph", file.to_str().unwrap()];
    args.extend(more);
    let mut ran = lubiksan(args);
    let before = format!("{}/", folder.0.display());
    ran.err = ran.err.replace(&before, "");
    ran.out = ran.out.replace(&before, "");
    ran
}

const CHOSEN: &str = "<complexType name='AccountIdentification4Choice'><sequence><choice><element name='IBAN' type='string'/><element name='Othr' type='string'/></choice></sequence></complexType>";

#[test]
fn a_choice_inside_a_sequence_is_said_counted_and_marked() {
    let ran = run(CHOSEN, &[]);
    let words = "a.xsd:1:68: in type \"AccountIdentification4Choice\" a choice stands inside a sequence: \"IBAN\" and \"Othr\" are both required in the graph, the schema asks for one of them\n\
        a.xsd: 1 place is not kept in the graph: 1 choice in sequence\n";
    assert_eq!((ran.status, ran.err.as_str()), (Some(0), words));
    let text = "struct AccountIdentification4Choice at a.xsd:1\n    \
        iban  IBAN  String  // the schema asks for one of IBAN, Othr\n    \
        othr  Othr  String  // the schema asks for one of IBAN, Othr\n";
    assert!(ran.out.ends_with(text), "{}", ran.out);
    let strict = run(CHOSEN, &["--strict"]);
    assert_eq!(
        (strict.status, strict.err.as_str(), strict.out.as_str()),
        (Some(1), words, "")
    );
    assert_eq!(run(CHOSEN, &["--quiet"]).err, "");
    let rust = run(CHOSEN, &["--format", "rust"]).out;
    let field = "    /// `IBAN`\n    // the schema asks for one of IBAN, Othr\n    pub iban: ::std::string::String,\n";
    assert!(rust.contains(field), "{rust}");
    let json = run(CHOSEN, &["--format", "json"]).out;
    let value: serde_json::Value = serde_json::from_str(&json).unwrap();
    let place = &value["notKept"][0];
    assert_eq!(value["version"], 3);
    assert_eq!(place["kind"], "choice in sequence");
    assert_eq!(place["file"], "a.xsd");
    assert_eq!(place["line"], 1);
    assert_eq!(place["type"], "AccountIdentification4Choice");
    assert_eq!(place["field"], serde_json::json!(["IBAN", "Othr"]));
    assert_eq!(value["notKept"].as_array().map(Vec::len), Some(1));
}

#[test]
fn ten_lines_then_how_many_more() {
    let types: String = (0..13)
        .map(|i| CHOSEN.replace("AccountIdentification4Choice", &format!("T{i}")))
        .collect();
    let ran = run(&types, &[]);
    let lines: Vec<&str> = ran.err.lines().collect();
    assert_eq!(lines.len(), 12, "{}", ran.err);
    assert!(lines[9].contains("in type \"T9\""));
    assert_eq!(
        lines[10..],
        [
            "a.xsd: and 3 more places, --verbose says all",
            "a.xsd: 13 places are not kept in the graph: 13 choice in sequence"
        ]
    );
    let ran = run(&types, &["--verbose"]);
    let lines: Vec<&str> = ran.err.lines().collect();
    assert_eq!(lines.len(), 1 + 13 + 1, "{}", ran.err);
    assert!(lines[13].contains("in type \"T12\""));
}

#[test]
fn names_read_and_shelf_count() {
    let folder = Folder::new();
    let file = folder.put("a.xsd", format!("<schema>{CHOSEN}</schema>"));
    let plain = folder.put("b.xsd", "<schema/>");
    let (sheet, shelf) = (folder.path("a.sheet"), folder.path("shelf"));
    let before = format!("{}/", folder.0.display());
    let run = |args: &[&str]| {
        let mut ran = lubiksan(args);
        ran.err = ran.err.replace(&before, "");
        ran.out = ran.out.replace(&before, "");
        ran
    };
    let (file, plain) = (file.to_str().unwrap(), plain.to_str().unwrap());
    let (sheet, shelf) = (sheet.to_str().unwrap(), shelf.to_str().unwrap());
    let counted = "a.xsd: 1 place is not kept in the graph: 1 choice in sequence\n";
    let ran = run(&["names", file]);
    assert_eq!((ran.status, ran.err.as_str()), (Some(0), counted));
    assert_eq!(run(&["names", file, "--strict"]).status, Some(1));
    let ran = run(&["read", file, "--sheet", sheet]);
    assert!(
        ran.status == Some(0) && ran.err.ends_with(counted),
        "{}",
        ran.err
    );
    assert_eq!(
        run(&["read", file, "--sheet", sheet, "--strict"]).status,
        Some(1)
    );
    let ran = run(&["shelf", shelf, file, plain]);
    assert_eq!(
        ran.out,
        "a.xsd: 10 events, 0 roots, 1 type, 1 place not kept\nb.xsd: 1 event, 0 roots, 0 types\n"
    );
    assert_eq!(
        ran.err,
        "1 place is not kept in the graph: of 1 of 2 files\n"
    );
    let ran = run(&["shelf", shelf, file, plain, "--strict"]);
    assert_eq!(
        (ran.status, ran.err.as_str()),
        (Some(1), "refused: 1 of 2 files\n")
    );
    assert!(ran.out.starts_with(counted), "{}", ran.out);
}

#[test]
fn a_stored_sheet_tells_of_it_also_without_its_source() {
    let folder = Folder::new();
    let file = folder.put("a.xsd", format!("<schema>{CHOSEN}</schema>"));
    let sheet = folder.path("a.sheet");
    let (file, sheet) = (file.to_str().unwrap(), sheet.to_str().unwrap());
    assert_eq!(lubiksan(["read", file, "--sheet", sheet]).status, Some(0));
    for format in ["text", "rust", "json"] {
        let of = |path: &str| lubiksan(["graph", path, "--format", format]);
        let (stored, read) = (of(sheet), of(file));
        assert_eq!((stored.out, stored.err), (read.out, read.err));
    }
    fs::remove_file(file).unwrap();
    let ran = lubiksan(["graph", sheet]);
    let words =
        "a.sheet: 1 place is not kept in the graph, and its source is not there as it was\n";
    assert!(
        ran.status == Some(0) && ran.err.ends_with(words),
        "{}",
        ran.err
    );
    assert_eq!(lubiksan(["graph", sheet, "--strict"]).status, Some(1));
    assert_eq!(lubiksan(["names", sheet, "--strict"]).status, Some(1));
    let json = lubiksan(["graph", sheet, "--format", "json"]).out;
    assert!(json.contains("\"notKept\": null"), "{json}");
}

#[test]
fn what_is_kept_is_not_said() {
    for inside in [
        "<complexType name='T'><sequence><sequence><element name='a' type='t'/></sequence><choice><element name='b' type='t'/></choice></sequence></complexType>",
        "<complexType name='T'><choice><choice><element name='a' type='t' minOccurs='1' maxOccurs=' 1 '/></choice><element name='b' type='t'/></choice></complexType>",
        "<complexType name='T'><sequence><any/></sequence></complexType>",
        "<complexType name='T'><sequence minOccurs='1' maxOccurs='1'><element name='a' type='t' minOccurs='0'><annotation/></element></sequence></complexType>",
        "<complexType name='T'><simpleContent><extension base='t'><attribute name='a' type='u' use='required'/></extension></simpleContent></complexType>",
        "<simpleType name='T'><restriction base='string'><enumeration value='A'/><enumeration value='B'/></restriction></simpleType>",
    ] {
        let ran = run(inside, &["--strict"]);
        assert_eq!((ran.status, ran.err.as_str()), (Some(0), ""), "{inside}");
    }
}
