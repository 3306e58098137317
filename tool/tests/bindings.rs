//! The crates of `bindings`: they compile without a warning, and messages made from the schemas themselves go through them and back.

mod common;

use std::collections::HashMap;
use std::fmt::Write as _;
use std::fs;
use std::io::Write as _;
use std::path::{Path, PathBuf};
use std::process::{Command, Stdio};

use common::messages::{Messages, Mode};
use common::{cases, lubiksan, schemas, Folder, Random};
use quick_xml::events::Event;
use quick_xml::Reader;

fn data(name: &str) -> PathBuf {
    Path::new(env!("CARGO_MANIFEST_DIR"))
        .join("tests/data")
        .join(name)
}

/// The schemas that bindings are made of: those of ISO 20022 at hand and some of the tests.
fn taken() -> Vec<PathBuf> {
    let mut files = schemas();
    files.retain(|file| file.to_string_lossy().contains("iso20022"));
    files.push(data("bindings/constructs.xsd"));
    files.push(data("payment.xsd"));
    files.push(data("account.xsd"));
    files.push(data("bindings/names.xsd"));
    files
}

/// Runs cargo in a folder, with the crates at hand and one target folder for all.
fn cargo(folder: &Path, args: &[&str]) -> std::process::Output {
    let vendor = std::env::var_os("LUBIKSAN_VENDOR").map(PathBuf::from);
    let vendor =
        vendor.unwrap_or_else(|| Path::new(env!("CARGO_MANIFEST_DIR")).join("../../shared/vendor"));
    let mut command = Command::new("cargo");
    let (name, rest) = args.split_first().unwrap();
    command.arg(name).current_dir(folder);
    if let Ok(vendor) = fs::canonicalize(vendor) {
        let vendored = format!("source.vendored.directory={:?}", vendor.to_str().unwrap());
        command.args([
            "--offline",
            "--config",
            "source.crates-io.replace-with=\"vendored\"",
            "--config",
            &vendored,
        ]);
    }
    let target = Path::new(env!("CARGO_TARGET_TMPDIR")).join("bindings");
    let profile = [("CARGO_PROFILE_DEV_DEBUG", "0"), ("CARGO_INCREMENTAL", "0")];
    command
        .args(rest)
        .envs(profile)
        .env("CARGO_TARGET_DIR", target)
        .output()
        .unwrap()
}

fn succeeds(output: &std::process::Output) {
    assert!(
        output.status.success(),
        "{}",
        String::from_utf8_lossy(&output.stderr)
    );
}

/// The name of a file's module.
fn module(file: &Path) -> String {
    file.file_stem()
        .unwrap()
        .to_str()
        .unwrap()
        .replace(['.', '-'], "_")
        .to_lowercase()
}

/// Names of Rust's own, of the variables in the made code and of what is made beside types.
const RUST: &str = "usize u8 u16 u32 u64 i32 i64 isize str bool char f64 Option Vec String Result Box Self Some None Ok Err \
    Default Clone Copy Send Sync Sized Fn From Into Iterator Drop PartialEq Eq Ord Debug Hash ToString Serialize Deserialize \
    Serializer Place Check Fault Path Root Rules AnyContent core std serde alloc regex support self super crate type union dyn \
    Inside usize_ text_ A D E S T W RULES PATTERN ROOT ALL code f faults field found from inside number other path state text to value";

/// Kinds of types, with NAME for the name.
const KINDS: [&str; 6] = [
    "<xs:simpleType name=\"NAME\"><xs:restriction base=\"xs:string\"><xs:maxLength value=\"3\"/><xs:pattern value=\"a*\"/></xs:restriction></xs:simpleType>",
    "<xs:simpleType name=\"NAME\"><xs:restriction base=\"xs:string\"><xs:enumeration value=\"Self\"/><xs:enumeration value=\"None\"/></xs:restriction></xs:simpleType>",
    "<xs:simpleType name=\"NAME\"><xs:restriction base=\"xs:boolean\"/></xs:simpleType>",
    "<xs:complexType name=\"NAME\"><xs:sequence><xs:element name=\"usize\" type=\"xs:string\" minOccurs=\"0\"/><xs:element name=\"self\" type=\"xs:string\" maxOccurs=\"3\"/></xs:sequence></xs:complexType>",
    "<xs:complexType name=\"NAME\"><xs:choice><xs:element name=\"usize\" type=\"xs:string\"/><xs:element name=\"Self\" type=\"xs:date\"/></xs:choice></xs:complexType>",
    "<xs:complexType name=\"NAME\"><xs:simpleContent><xs:extension base=\"xs:decimal\"><xs:attribute name=\"Ccy\" type=\"xs:string\" use=\"required\"/></xs:extension></xs:simpleContent></xs:complexType>",
];

/// A schema for each kind, with a type of that kind for each of these names.
fn named_as_rust(folder: &Folder) -> Vec<PathBuf> {
    let schema = |(number, kind): (usize, &&str)| {
        let (mut fields, mut types) = (String::new(), String::new());
        for (at, name) in RUST.split_whitespace().enumerate() {
            let _ = write!(
                fields,
                "<xs:element name=\"f{at}\" type=\"{name}\" minOccurs=\"{}\"/>",
                at % 2
            );
            types += &kind.replace("NAME", name);
        }
        let text = format!(
            "<xs:schema xmlns:xs=\"http://www.w3.org/2001/XMLSchema\"><xs:element name=\"Doc\" type=\"Doc\"/>\
             <xs:complexType name=\"Doc\"><xs:sequence>{fields}</xs:sequence></xs:complexType>{types}</xs:schema>"
        );
        folder.put(&format!("rust{number}.xsd"), text)
    };
    KINDS.iter().enumerate().map(schema).collect()
}

/// The crate of some schemas with the driver in it, and schemas whose names are those of Rust.
fn made(folder: &Folder, files: &[PathBuf]) -> PathBuf {
    let made = folder.path("messages");
    let mut args: Vec<&std::ffi::OsStr> = vec![
        "bindings".as_ref(),
        "--lossy".as_ref(),
        "--quiet".as_ref(),
        "--output".as_ref(),
        made.as_ref(),
    ];
    let more = named_as_rust(folder);
    args.extend(files.iter().chain(&more).map(|file| file.as_os_str()));
    let ran = lubiksan(args);
    assert_eq!((ran.status, ran.err.as_str()), (Some(0), ""));
    let mut arms = String::new();
    for file in files {
        let (name, root) = (module(file), Messages::of(file, 1).root_type());
        let _ = writeln!(arms, "            {name:?} => round::<messages::{name}::{root}>(&messages::{name}::{root}::ROOT, &text, &written),");
    }
    let driver = fs::read_to_string(data("bindings/driver.rs")).unwrap();
    let driver = driver
        .replace("CRATE", "messages")
        .replace("            // MODULES\n", &arms);
    fs::create_dir_all(made.join("src/bin")).unwrap();
    fs::write(made.join("src/bin/driver.rs"), driver).unwrap();
    let one = module_of(&data("bindings/constructs.xsd"), &[]).out + "\nfn main() {}\n";
    fs::write(made.join("src/bin/one.rs"), one).unwrap();
    kept(&made)
}

/// The crate in a folder that stays, where only what changed is written: cargo builds nothing anew that is as it was.
fn kept(made: &Path) -> PathBuf {
    let kept = Path::new(env!("CARGO_TARGET_TMPDIR")).join("messages");
    for folder in ["", "src", "src/support", "src/bin"] {
        fs::create_dir_all(kept.join(folder)).unwrap();
        for entry in fs::read_dir(made.join(folder)).unwrap() {
            let entry = entry.unwrap();
            if entry.file_type().unwrap().is_file() {
                let (from, to) = (
                    fs::read(entry.path()).unwrap(),
                    kept.join(folder).join(entry.file_name()),
                );
                if fs::read(&to).ok().as_deref() != Some(&from) {
                    fs::write(to, from).unwrap();
                }
            }
        }
    }
    kept
}

/// What the driver tells of each file.
fn driven(files: &[(String, PathBuf)]) -> HashMap<PathBuf, String> {
    let program = Path::new(env!("CARGO_TARGET_TMPDIR")).join("bindings/debug/driver");
    let mut child = Command::new(program)
        .stdin(Stdio::piped())
        .stdout(Stdio::piped())
        .spawn()
        .unwrap();
    let mut input = child.stdin.take().unwrap();
    let lines: String = files
        .iter()
        .map(|(module, file)| format!("{module} {}\n", file.display()))
        .collect();
    let writer = std::thread::spawn(move || input.write_all(lines.as_bytes()).unwrap());
    let output = child.wait_with_output().unwrap();
    writer.join().unwrap();
    assert!(output.status.success());
    let told = String::from_utf8(output.stdout).unwrap();
    let line = |line: &str| {
        let (file, words) = line.split_once(' ').unwrap();
        (PathBuf::from(file), words.to_owned())
    };
    told.lines().map(line).collect()
}

/// Which of these files are valid by xmllint; none where it is not installed.
fn valid(schema: &Path, files: &[PathBuf]) -> Option<HashMap<PathBuf, bool>> {
    let mut found = HashMap::new();
    for some in files.chunks(200) {
        let output = Command::new("xmllint")
            .args(["--noout", "--schema"])
            .arg(schema)
            .args(some)
            .output();
        let Ok(output) = output else {
            assert!(
                std::env::var_os("CI").is_none() || cfg!(not(unix)),
                "xmllint is not installed"
            );
            return None;
        };
        let words = String::from_utf8_lossy(&output.stderr).into_owned();
        // The schemas of the tests refer to types of no namespace, which this program takes and xmllint does not.
        if words.contains("failed to compile") && !schema.to_string_lossy().contains("iso20022") {
            return None;
        }
        for file in some {
            let good = words.contains(&format!("{} validates\n", file.display()));
            let bad = words.contains(&format!("{} fails to validate\n", file.display()));
            assert!(good != bad, "{words}");
            found.insert(file.clone(), good);
        }
    }
    Some(found)
}

/// A text in canonical form: no white space beside tags, no empty tags, texts escaped in one way.
fn canonical(text: &str) -> String {
    let mut reader = Reader::from_str(text);
    reader.config_mut().expand_empty_elements = true;
    let mut out = String::new();
    let (mut held, mut leaf) = (String::new(), false);
    loop {
        match reader.read_event().unwrap() {
            Event::Start(tag) => {
                held.clear();
                let _ = write!(
                    out,
                    "<{}",
                    std::str::from_utf8(tag.name().as_ref()).unwrap()
                );
                for attribute in tag.attributes() {
                    let attribute = attribute.unwrap();
                    let key = std::str::from_utf8(attribute.key.as_ref())
                        .unwrap()
                        .to_owned();
                    let _ = write!(out, " {key}={:?}", attribute.unescape_value().unwrap());
                }
                out.push('>');
                leaf = true;
            }
            Event::Text(text) => held.push_str(&text.xml_content().unwrap()),
            Event::CData(text) => held.push_str(&text.xml_content().unwrap()),
            Event::GeneralRef(name) => {
                let name = name.xml_content().unwrap().into_owned();
                held.push_str(&quick_xml::escape::unescape(&format!("&{name};")).unwrap());
            }
            Event::End(tag) => {
                if leaf {
                    out.push_str(
                        &held
                            .replace('&', "&amp;")
                            .replace('<', "&lt;")
                            .replace('>', "&gt;"),
                    );
                }
                held.clear();
                leaf = false;
                let _ = write!(
                    out,
                    "</{}>",
                    std::str::from_utf8(tag.name().as_ref()).unwrap()
                );
            }
            Event::Eof => return out,
            _ => {}
        }
    }
}

/// A message in a file, with what is known of it.
struct Sent {
    file: PathBuf,
    canonical: String,
    /// The facet that is broken.
    broken: Option<String>,
}

/// The messages of a schema: what is required, everything, every branch in turn, at random, and one for each facet broken.
fn messages(folder: &Folder, schema: &Path, seed: u64) -> Vec<Sent> {
    let mut messages = Messages::of(schema, seed);
    let mut sent: Vec<Sent> = Vec::new();
    let name = module(schema);
    let mut put = |message: common::messages::Message, broken: Option<String>| {
        let file = folder.put(&format!("{name}-{}.xml", sent.len()), &message.text);
        let canonical = canonical(&message.canonical);
        sent.push(Sent {
            file,
            canonical,
            broken,
        });
    };
    put(messages.message(Mode::Required, None), None);
    put(messages.message(Mode::Everything, None), None);
    for count in 0..60 {
        put(messages.message(Mode::Turns, None), None);
        if count > 4 && messages.had_all_turns() {
            break;
        }
    }
    for _ in 0..5 {
        put(messages.message(Mode::Random, None), None);
    }
    for target in messages.targets() {
        let modes = [
            Mode::Required,
            Mode::Turns,
            Mode::Turns,
            Mode::Turns,
            Mode::Everything,
        ];
        let found = modes.iter().find_map(|&mode| {
            let message = messages.message(mode, Some(&target));
            message.broken.then_some(message)
        });
        if let Some(message) = found {
            put(message, Some(format!("{} {}", target.0, target.1)));
        }
    }
    sent
}

#[test]
fn messages_go_through_the_bindings_and_back() {
    let folder = Folder::new();
    let files = taken();
    let made = made(&folder, &files);
    succeeds(&cargo(
        &made,
        &[
            "clippy", "--quiet", "--lib", "--bins", "--", "-D", "warnings",
        ],
    ));
    succeeds(&cargo(&made, &["build", "--quiet"]));
    let sent: Vec<Vec<Sent>> = (1..)
        .zip(&files)
        .map(|(seed, file)| messages(&folder, file, seed * 7919))
        .collect();
    let told = files.iter().zip(&sent).flat_map(|(file, sent)| {
        sent.iter()
            .map(move |sent| (module(file), sent.file.clone()))
    });
    let told = driven(&told.collect::<Vec<_>>());
    tells_what_is_wrong(&folder);
    keeps_any_content(&folder);
    reads_as_quick_xml_does(&folder, &files, &sent);
    let mut broken = 0;
    for (schema, sent) in files.iter().zip(&sent) {
        // What `--lossy` leaves out is not in these messages, and an envelope without it is not valid.
        let text = fs::read_to_string(schema).unwrap();
        let lossy = text.contains("<xs:any ") || text.contains(" ref=");
        let by_xmllint = |files: &[PathBuf]| match lossy {
            true => None,
            false => valid(schema, files),
        };
        let given: Vec<PathBuf> = sent.iter().map(|sent| sent.file.clone()).collect();
        let valid_given = by_xmllint(&given);
        for one in sent {
            let words = &told[&one.file];
            let good = words == "good";
            assert_eq!(
                good,
                one.broken.is_none(),
                "{} {:?}: {words}",
                one.file.display(),
                one.broken
            );
            if let Some(valid) = &valid_given {
                assert_eq!(
                    good,
                    valid[&one.file],
                    "{} {:?}: {words}",
                    one.file.display(),
                    one.broken
                );
            }
            if good {
                let written = fs::read_to_string(one.file.with_extension("xml.out")).unwrap();
                assert_eq!(canonical(&written), one.canonical, "{}", one.file.display());
            }
            broken += usize::from(!good);
        }
        let written: Vec<PathBuf> = sent
            .iter()
            .filter(|one| one.broken.is_none())
            .map(|one| one.file.with_extension("xml.out"))
            .collect();
        if let Some(valid) = by_xmllint(&written) {
            assert!(valid.values().all(|&valid| valid), "{}", schema.display());
        }
    }
    assert!(broken > 20, "{broken}");
}

const HEAD: &str = "<Document xmlns=\"urn:example:constructs\"><Hdr><CreDtTm>2024-02-29T00:00:00Z</CreDtTm><Cnt>1</Cnt>MORE</Hdr>";
const PARTY: &str = "<Prt><Nm>a</Nm></Prt>";

/// Messages of constructs.xsd, without the root, `PP` for two parties, and what is told of each.
const TOLD: [(&str, &str); 31] = [
    ("PP", "good"),
    ("<Prt><Nm>a</Nm></Prt>", "fault 1 of Prt, at least 2"),
    ("PPPPPP", "fault 6 of Prt, at most 4"),
    (
        "PP<One>a</One><Three>2024-01-01</Three>",
        "fault One and Three with Four stand together, only one of them may",
    ),
    ("PP<Four>true</Four>", "fault Three is required"),
    (
        "PP<Two>a</Two><Two>b</Two><Two>c</Two>",
        "fault 3 of Two, at most 2",
    ),
    ("PP<Five Ccy=\"EUR\">1</Five>", "fault Six is required"),
    (
        "PP<Five Ccy=\"eur\">1.25</Five><Six><A>x</A></Six>",
        "fault Five.@Ccy: \"eur\" does not match the pattern [A-Z]{3,3}",
    ),
    (
        "PP<Five Ccy=\"EUR\">1.255</Five><Six><B>x</B></Six>",
        "fault Five: 3 fraction digits, at most 2",
    ),
    (
        "PP<Three>2023-02-29</Three>",
        "fault Three: \"2023-02-29\" is no date",
    ),
    ("PP<Foo/>", "checked Foo is not expected here"),
    ("PP<Raw>QUJ</Raw>", "fault Raw: \"QUJ\" is no base 64"),
    (
        "PP<Five Ccy=\"EUR\" Xyz=\"1\">1</Five><Six><B>x</B></Six>",
        "checked Five has other attributes: Ccy, Xyz",
    ),
    (
        "<Prt><Nm>a</Nm></Prt><Prt><Agt><Othr><Of><Nm>four</Nm></Of></Othr></Agt></Prt>",
        "fault Prt[1].Agt.Othr[0].Of.Nm: 4 characters, at most 3",
    ),
    ("<One>a</One>PP", "checked One is not expected here"),
    (
        "PP<Four>maybe</Four>",
        "unread \"maybe\" is neither true nor false",
    ),
    ("PP<Yr>1900</Yr>", "fault Yr: 1900 is not more than 1900"),
    ("PP<Id>a<!-- c -->b<![CDATA[<c>]]>&lt;&#33;</Id>", "good"),
    ("PP<Nothing/>\n<Id/>", "good"),
    (
        "<Prt><Nm>a</Nm></Prt><Foo/><Prt><Nm>a</Nm></Prt>",
        "unread duplicate field `Prt`",
    ),
    ("PP<Id>1</Id><Id>2</Id>", "unread duplicate field `Id`"),
    (
        "PP<Id>a<b/></Id>",
        "unread unexpected `Event::Start(\"b\")`",
    ),
    ("PP<Five>1</Five>", "unread missing field `@Ccy`"),
    ("PP<Prt/>", "unread missing field `$value`"),
    (
        "PP<Prt><Nm>a</Nm><Agt/></Prt>",
        "unread duplicate field `$value`",
    ),
    (
        "PP<Prt><Foo/></Prt>",
        "unread unknown variant `Foo`, expected one of `Nm`, `Agt`, `Prxy`, `Pttrn`",
    ),
    ("PPstray<Id>a</Id>", "checked a text is not expected here"),
    (
        "<Prt><Nm>a</Nm></Prt><Prt><Agt> &amp; </Agt></Prt>",
        "checked Prt.Agt: a text is not expected here",
    ),
    (
        "PP<Prt>stray<Nm>a</Nm></Prt>",
        "unread a text stands where one of some elements is expected",
    ),
    ("PP<Id>&#32;</Id>\n<!-- c -->", "good"),
    (
        "PP<Id>&nbsp;</Id>",
        "unread the entity \"nbsp\" is not known",
    ),
];

/// What is wrong is told with the path to it.
fn tells_what_is_wrong(folder: &Folder) {
    let put = |(number, (inside, _)): (usize, &(&str, &str))| {
        let text = format!(
            "{}{}</Document>",
            HEAD.replace("MORE", ""),
            inside.replace("PP", &PARTY.repeat(2))
        );
        (
            "constructs".to_owned(),
            folder.put(&format!("told-{number}.xml"), text),
        )
    };
    let mut files: Vec<(String, PathBuf)> = TOLD.iter().enumerate().map(put).collect();
    let other = HEAD.replace("MORE", "").replace("constructs", "other");
    files.push((
        "constructs".to_owned(),
        folder.put("other.xml", format!("{other}</Document>")),
    ));
    let deep = format!(
        "{}<Agt><Othr><Of>{}<Nm>a</Nm>{}</Of></Othr></Agt>",
        "PP<Prt>",
        "<Prxy>".repeat(250),
        "</Prxy>".repeat(250)
    );
    let deep = format!(
        "{}{}</Prt></Document>",
        HEAD.replace("MORE", ""),
        deep.replace("PP", &PARTY.repeat(2))
    );
    files.push(("constructs".to_owned(), folder.put("deep.xml", deep)));
    let code = HEAD.replace("MORE", "<Cd>x&amp;y</Cd><Cd>ZZ</Cd>");
    files.push((
        "constructs".to_owned(),
        folder.put("code.xml", format!("{code}</Document>")),
    ));
    let told = driven(&files);
    for ((_, file), (inside, words)) in files.iter().zip(TOLD) {
        assert_eq!(told[file], words, "{inside}");
    }
    assert!(told[&folder.path("other.xml")]
        .starts_with("unread the root element is \"Document\" of the namespace"));
    assert_eq!(
        told[&folder.path("deep.xml")],
        "unread more than 255 elements stand inside one another"
    );
    assert_eq!(
        told[&folder.path("code.xml")],
        "unread \"ZZ\" is no code of Codes"
    );
}

/// Any content, as far as `--lossy` keeps it: names without prefixes, attributes and texts in their order; and a carriage return.
fn keeps_any_content(folder: &Folder) {
    let message = |inside: &str| {
        format!(
            "<n:Document xmlns:n=\"urn:example:payment\"><MsgId>a&#13;b</MsgId><CreDtTm>2024-01-01T00:00:00</CreDtTm>\
             <Cdtr><Any>{inside}</Any></Cdtr></n:Document>"
        )
    };
    let inside = [
        "text alone",
        "<x a=\"1\"><y>t &amp; u</y><z/><y>2</y></x><w>3</w>",
    ];
    for (number, inside) in inside.iter().enumerate() {
        let file = folder.put(&format!("any-{number}.xml"), message(inside));
        let told = driven(&[("payment".to_owned(), file.clone())]);
        assert_eq!(told[&file], "good");
        let written = fs::read_to_string(file.with_extension("xml.out")).unwrap();
        assert_eq!(written, message(inside));
    }
}

/// What is put into messages that are damaged.
const DAMAGE: [&str; 22] = [
    "<!-- c -->",
    "<?pi x?>",
    "<![CDATA[x]]>",
    "<![CDATA[ ]]>",
    "&amp;",
    "&#65;",
    "&#x20;",
    "&bad;",
    "&",
    "x",
    " ",
    "\n",
    "<Foo/>",
    "<Foo><Bar a='1'>b</Bar><Foo/></Foo>",
    "<n:Foo xmlns:n='urn:n'/>",
    " xmlns:xml='urn:n'",
    " a='1'",
    " a='1' a='2'",
    " a",
    "<",
    ">",
    "</Foo>",
];

/// A message with some damage: something put in, a part left out or doubled.
fn damaged(text: &str, random: &mut Random) -> String {
    let mut text = text.to_owned();
    for _ in 0..1 + random.below(2) {
        let places: Vec<usize> = text
            .char_indices()
            .map(|(at, _)| at)
            .filter(|&at| random.below(4) > 0 || text[at..].starts_with('<'))
            .collect();
        let mut place = || places[random.below(places.len())];
        let (one, other) = (place(), place());
        // Mostly beside a tag.
        let tag = text[one..]
            .find(['<', '>'])
            .map_or(one, |behind| one + behind);
        let end = text[tag..]
            .find('>')
            .map_or(text.len(), |behind| tag + behind + 1);
        match random.below(6) {
            0 => text.insert_str(one, DAMAGE[random.below(DAMAGE.len())]),
            1 | 2 => text.insert_str(tag, DAMAGE[random.below(DAMAGE.len())]),
            3 => drop(text.drain(tag..end)),
            4 => {
                let doubled = text[tag..end].to_owned();
                text.insert_str(tag, &doubled);
            }
            _ => {
                let from = one.min(other);
                let most = text[from..].char_indices().nth(30);
                let most = most.map_or(text.len(), |(at, _)| from + at);
                drop(text.drain(from..most.min(one.max(other))));
            }
        }
    }
    text
}

/// Damaged messages are taken and refused as by the reader of quick-xml, with equal values.
fn reads_as_quick_xml_does(folder: &Folder, files: &[PathBuf], sent: &[Vec<Sent>]) {
    let mut random = Random(20022);
    let mut given = Vec::new();
    for (schema, sent) in files.iter().zip(sent) {
        let texts: Vec<String> = sent
            .iter()
            .take(4)
            .map(|one| fs::read_to_string(&one.file).unwrap())
            .collect();
        for number in 0..cases(150) {
            let text = damaged(&texts[number % texts.len()], &mut random);
            let file = folder.put(&format!("damaged-{}.xml", given.len()), text);
            given.push((module(schema), file));
        }
    }
    let told = driven(&given);
    let mut refused = 0;
    for (_, file) in &given {
        let words = &told[file];
        assert!(
            !words.starts_with("read otherwise") && words != "differs",
            "{words}: {}",
            fs::read_to_string(file).unwrap()
        );
        refused += usize::from(words.starts_with("unread"));
    }
    assert!(
        refused > given.len() / 10 && refused < given.len(),
        "{refused} of {}",
        given.len()
    );
}

/// The text that `bindings --module` prints.
fn module_of(file: &Path, more: &[&str]) -> common::Ran {
    let args = ["bindings", file.to_str().unwrap(), "--module", "--quiet"];
    lubiksan(args.iter().chain(more).copied())
}

#[test]
fn what_can_not_be_followed_is_refused_with_its_place() {
    let (payment, constructs) = (data("payment.xsd"), data("bindings/constructs.xsd"));
    let ran = module_of(&payment, &[]);
    assert_eq!((ran.status, ran.out.as_str()), (Some(1), ""));
    let place = format!(
        "{}:23:7: in type \"Envelope\" any content can stand",
        payment.display()
    );
    assert!(ran.err.starts_with(&place), "{}", ran.err);
    let ran = module_of(&payment, &["--lossy"]);
    assert_eq!(ran.status, Some(0));
    assert!(
        ran.out.contains("Of the schema this is not kept:") && ran.out.contains("payment.xsd:23:7")
    );
    assert!(
        !ran.out.contains(payment.to_str().unwrap()),
        "a path of the machine"
    );
    // A type that no root reaches is left out, and with it what can't be followed.
    let ran = module_of(&constructs, &[]);
    assert_eq!(ran.status, Some(0));
    assert!(
        !ran.out.contains("NotReached") && module_of(&constructs, &["--all"]).status == Some(1)
    );
    assert!(module_of(&constructs, &["--all", "--lossy"])
        .out
        .contains("pub type NotReached"));
    assert_eq!(ran.out, module_of(&constructs, &[]).out);
    let folder = Folder::new();
    for (inside, kind) in [
        ("<xs:complexContent><xs:extension base=\"A\"/></xs:complexContent>", "complexContent"),
        ("<xs:all><xs:element name=\"E\" type=\"xs:string\"/></xs:all>", "all"),
        ("<xs:sequence maxOccurs=\"2\"><xs:element name=\"E\" type=\"xs:string\"/></xs:sequence>", "maxOccurs"),
        ("<xs:sequence><xs:element ref=\"D\"/></xs:sequence>", "reference"),
        ("<xs:sequence/><xs:attribute name=\"a\" type=\"xs:string\"/>", "attribute"),
    ] {
        let text = format!(
            "<xs:schema xmlns:xs=\"http://www.w3.org/2001/XMLSchema\">\n<xs:element name=\"D\" type=\"T\"/>\n\
             <xs:complexType name=\"T\">\n{inside}</xs:complexType>\n<xs:complexType name=\"A\"></xs:complexType></xs:schema>"
        );
        let file = folder.put("t.xsd", text);
        let ran = module_of(&file, &[]);
        assert_eq!(ran.status, Some(1), "{inside}");
        assert!(ran.err.starts_with(&format!("{}:4:", file.display())) && ran.err.contains(kind), "{}", ran.err);
        assert_eq!(module_of(&file, &["--lossy"]).status, Some(0));
    }
}

#[test]
fn a_reference_by_the_own_prefix_is_followed_and_listed() {
    let folder = Folder::new();
    let schema = |kind: &str| {
        format!(
            "<xs:schema xmlns:xs=\"http://www.w3.org/2001/XMLSchema\" xmlns:o=\"urn:o\" xmlns:p=\"urn:p\" targetNamespace=\"urn:o\">\n\
             <xs:element name=\"D\" type=\"o:D\"/>\n\
             <xs:complexType name=\"D\"><xs:sequence>\n\
             <xs:element name=\"E\" type=\"{kind}\"/></xs:sequence></xs:complexType>\n\
             <xs:simpleType name=\"string\"><xs:restriction base=\"xs:string\"><xs:maxLength value=\"3\"/></xs:restriction></xs:simpleType>\n\
             </xs:schema>"
        )
    };
    let file = folder.put("own.xsd", schema("o:string"));
    let ran = lubiksan(["bindings".as_ref(), file.as_os_str(), "--module".as_ref()]);
    assert_eq!(ran.status, Some(0), "{}", ran.err);
    let place = format!(
        "{}:4:1: the type \"o:string\" is the schema's own \"string\"",
        file.display()
    );
    assert!(ran.err.contains(&place), "{}", ran.err);
    assert!(
        ran.err.contains("2 places where the bindings follow"),
        "{}",
        ran.err
    );
    assert!(ran.out.contains("pub e: string,"));
    let other = folder.put("other.xsd", schema("p:Other"));
    let ran = module_of(&other, &["--lossy"]);
    assert_eq!(ran.status, Some(1));
    let place = format!(
        "{}:4:1: the field \"E\" of struct \"D\" has the type \"p:Other\"",
        other.display()
    );
    assert!(ran.err.starts_with(&place), "{}", ran.err);
}

#[test]
fn a_circle_is_broken_once() {
    let out = module_of(&data("bindings/constructs.xsd"), &[]).out;
    let boxes: Vec<&str> = out
        .lines()
        .filter(|line| {
            line.contains("::boxed::Box<") && !line.contains("Box<::std::primitive::str>")
        })
        .map(str::trim)
        .collect();
    assert_eq!(
        boxes,
        [
            "Prxy(::std::boxed::Box<Party>),",
            "pub of: ::std::option::Option<::std::boxed::Box<Party>>,"
        ]
    );
}

#[test]
fn what_is_large_and_may_be_missing_is_boxed() {
    let folder = Folder::new();
    let fields = |count: usize| -> String {
        let field = |at: usize| format!("<xs:element name=\"f{at}\" type=\"xs:string\"/>");
        (0..count).map(field).collect()
    };
    let (small, large) = (fields(5), fields(6));
    let text = format!(
        "<xs:schema xmlns:xs=\"http://www.w3.org/2001/XMLSchema\"><xs:element name=\"D\" type=\"D\"/>
         <xs:complexType name=\"D\"><xs:sequence>
         <xs:element name=\"once\" type=\"Large\"/><xs:element name=\"maybe\" type=\"Large\" minOccurs=\"0\"/>
         <xs:element name=\"list\" type=\"Large\" maxOccurs=\"unbounded\"/>
         <xs:element name=\"small\" type=\"Small\" minOccurs=\"0\"/><xs:element name=\"one\" type=\"One\"/>
         </xs:sequence></xs:complexType>
         <xs:complexType name=\"One\"><xs:choice><xs:element name=\"L\" type=\"Large\"/><xs:element name=\"S\" type=\"Small\"/></xs:choice></xs:complexType>
         <xs:complexType name=\"Small\"><xs:sequence>{small}</xs:sequence></xs:complexType>
         <xs:complexType name=\"Large\"><xs:sequence>{large}</xs:sequence></xs:complexType></xs:schema>"
    );
    let out = module_of(&folder.put("large.xsd", text), &[]).out;
    for line in [
        "pub once: Large,",
        "pub maybe: ::std::option::Option<::std::boxed::Box<Large>>,",
        "pub list: ::std::vec::Vec<Large>,",
        "pub small: ::std::option::Option<Small>,",
        "L(::std::boxed::Box<Large>),",
        "S(Small),",
    ] {
        assert!(out.contains(line), "{line}");
    }
}

#[test]
fn a_type_that_must_stand_inside_itself_is_refused() {
    let folder = Folder::new();
    let text = "<xs:schema xmlns:xs=\"http://www.w3.org/2001/XMLSchema\">\n<xs:element name=\"D\" type=\"T\"/>\n\
         <xs:complexType name=\"T\"><xs:sequence><xs:element name=\"U\" type=\"U\"/></xs:sequence></xs:complexType>\n\
         <xs:complexType name=\"U\"><xs:choice>LEAF<xs:element name=\"T\" type=\"T\"/></xs:choice></xs:complexType>\n</xs:schema>";
    let file = folder.put("endless.xsd", text.replace("LEAF", ""));
    let ran = module_of(&file, &[]);
    assert_eq!(ran.status, Some(1));
    let place = format!(
        "{}:3:1: type \"T\" must stand inside itself",
        file.display()
    );
    assert!(ran.err.starts_with(&place), "{}", ran.err);
    let ran = module_of(&file, &["--lossy"]);
    assert_eq!(ran.status, Some(0));
    assert!(ran.out.contains("pub type T = super::support::AnyContent;"));
    let leaf = "<xs:element name=\"N\" type=\"xs:string\"/>";
    assert_eq!(
        module_of(&folder.put("ends.xsd", text.replace("LEAF", leaf)), &[]).status,
        Some(0)
    );
}

#[test]
fn two_schemas_of_one_name_and_stored_sheets_are_refused() {
    let folder = Folder::new();
    let (one, two) = (
        data("account.xsd"),
        folder.put("account.xsd", fs::read(data("account.xsd")).unwrap()),
    );
    let ran = lubiksan([
        "bindings".as_ref(),
        one.as_os_str(),
        two.as_os_str(),
        "--module".as_ref(),
        "--quiet".as_ref(),
    ]);
    assert_eq!(ran.status, Some(1));
    assert!(
        ran.err.contains("there is a module \"account\" already"),
        "{}",
        ran.err
    );
    let sheet = folder.path("a.sheet");
    lubiksan([
        "read".as_ref(),
        one.as_os_str(),
        "--sheet".as_ref(),
        sheet.as_os_str(),
    ]);
    assert_eq!(module_of(&sheet, &[]).status, Some(1));
    assert_eq!(
        lubiksan(["bindings".as_ref(), one.as_os_str()]).status,
        Some(2)
    );
}
