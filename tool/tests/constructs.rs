//! What is read of XSD and what is not: the table in the README, each line tried.

mod common;

use common::{lubiksan, Folder, Ran};

/// The flag for the choice 0.
const AS_ORIGINAL: &[&str] = &["--as-original"];

/// The text of a schema with `inside` in it, behind a type `Before` and before a type `Behind`; all in line 1, which is cut from it.
fn schema(inside: &str, more: &[&str]) -> Ran {
    let text = format!(
        "<schema><complexType name='Before'><choice/></complexType>{inside}<complexType name='Behind'><choice/></complexType></schema>"
    );
    let folder = Folder::new();
    let file = folder.put("a.xsd", text);
    let mut args = vec!["graph", file.to_str().unwrap()];
    args.extend(more);
    let mut ran = lubiksan(args);
    ran.out = ran
        .out
        .replace(&format!(" at {}:1\n", file.display()), "\n");
    ran
}

/// The paragraphs between `Before` and `Behind`, and whether `Behind` is there.
fn between(inside: &str, more: &[&str]) -> (String, bool) {
    let ran = schema(inside, more);
    assert_eq!(ran.status, Some(0), "{}", ran.err);
    let parts: Vec<&str> = ran.out.trim_end().split("\n\n").collect();
    let roots = parts[0].trim_start_matches("namespace").trim();
    let others = parts[1..]
        .iter()
        .filter(|part| !["opaque Before", "opaque Behind"].contains(part));
    let text: Vec<&str> = [roots]
        .into_iter()
        .chain(others.copied())
        .filter(|part| !part.is_empty())
        .collect();
    (text.join("\n\n"), parts.contains(&"opaque Behind"))
}

fn complex(inside: &str) -> String {
    format!("<complexType name='T'>{inside}</complexType>")
}

fn simple(inside: &str) -> String {
    format!("<simpleType name='T'>{inside}</simpleType>")
}

/// The type is read as `expected`, and so is what stands behind it, under both choices.
fn reads(inside: &str, expected: &str) {
    for more in [&[][..], AS_ORIGINAL] {
        assert_eq!(between(inside, more), (expected.to_owned(), true));
    }
}

#[test]
fn read() {
    reads("<element name='e' type='t'/>", "root e: t");
    reads(
        &simple("<restriction base='string'><maxLength value='3'/></restriction>"),
        "newtype T(String)\n    maxLength 3 characters",
    );
    reads(
        &complex("<sequence><element name='e' type='t'/></sequence>"),
        "struct T\n    e  e  t",
    );
    reads(
        &complex("<choice><element name='e' type='t'/></choice>"),
        "choice T\n    e  e  t",
    );
    reads(&complex("<sequence><any/></sequence>"), "opaque T");
    reads(
        &complex("<simpleContent><extension base='t'><attribute name='a' type='u'/></extension></simpleContent>"),
        "value T: t\n    a  a  Option<u>",
    );
}

#[test]
fn passed_over() {
    reads(
        "<import namespace='n'/><include schemaLocation='s'/><redefine schemaLocation='s'/>",
        "",
    );
    reads(
        "<attribute name='a' type='u'/><attributeGroup name='g'/><group name='g'/>",
        "",
    );
    reads(&complex("<annotation><documentation>words</documentation></annotation><choice><element name='e' type='t'/></choice>"), "choice T\n    e  e  t");
}

/// What stands at the top level with a close of its own, and the tag whose close ends the schema as the original reads it.
const CLOSED_AT_THE_TOP: [(&str, &str); 7] = [
    (
        "<annotation><documentation>words</documentation></annotation>",
        "documentation",
    ),
    ("<annotation><documentation/></annotation>", "annotation"),
    ("<group name='g'><sequence/></group>", "group"),
    (
        "<attributeGroup name='g'><attribute name='a' type='u'/></attributeGroup>",
        "attributeGroup",
    ),
    ("<import namespace='n'></import>", "import"),
    ("<include schemaLocation='s'></include>", "include"),
    (
        "<annotation><appinfo><simpleType/><minLength value='x'/></appinfo></annotation>",
        "appinfo",
    ),
];

#[test]
fn passed_over_by_the_standard_only() {
    for (inside, tag) in CLOSED_AT_THE_TOP {
        assert_eq!(between(inside, &["--strict"]), (String::new(), true));
        ended(inside, tag);
    }
    let redefined = "<redefine schemaLocation='s'><simpleType name='R'><restriction base='string'/></simpleType></redefine>";
    assert_eq!(between(redefined, &[]), (String::new(), true));
    let words =
        "simpleType \"R\" is not kept, it stands in \"redefine\": 3 types in the file, 2 kept";
    let ran = schema(redefined, &[]);
    assert!(ran.err.contains(words), "{}", ran.err);
    ended(redefined, "redefine");
    let started = "<element name='e' type='t'></element>";
    assert_eq!(
        between(started, &["--strict"]),
        ("root e: t".to_owned(), true)
    );
    ended(started, "element");
}

/// As the original reads it the schema ends at the close of `tag`.
fn ended(inside: &str, tag: &str) {
    let ran = schema(inside, AS_ORIGINAL);
    assert_eq!(ran.status, Some(0));
    assert!(
        ran.err.contains(&format!(
            "the schema ended here by the close of \"{tag}\": "
        )),
        "{}",
        ran.err
    );
    assert!(!ran.out.contains("Behind"));
}

#[test]
fn changes_the_outcome() {
    reads(&complex("<sequence><element name='e' type='t'/><choice><element name='f' type='t'/></choice></sequence>"), "struct T\n    e  e  t\n    f  f  t");
    reads(
        &complex("<sequence><element name='e' type='t' maxOccurs='3'/><element name='f' type='t' minOccurs='2' maxOccurs='unbounded'/></sequence>"),
        "struct T\n    e  e  Vec<t>, at most 3\n    f  f  Vec<t>",
    );
}

/// A construct of which the graph does not keep something: it is read as `expected`, under both choices, and standard error has these
/// words, the kind at the end, and with `--strict` status 1.
fn loses(inside: &str, expected: &str, kind: &str, words: &str) {
    for more in [&[][..], AS_ORIGINAL] {
        let ran = schema(inside, more);
        assert_eq!(between(inside, more), (expected.to_owned(), true));
        let said = format!(": in type \"T\" {words}\n");
        assert!(ran.err.contains(&said), "{said}{}", ran.err);
        let counted = format!("a.xsd: 1 place is not kept in the graph: 1 {kind}\n");
        assert!(ran.err.ends_with(&counted), "{counted}{}", ran.err);
        let strict = schema(inside, &[more, &["--strict"]].concat());
        assert_eq!((strict.status, strict.out.as_str()), (Some(1), ""));
    }
}

const E: &str = "<element name='e' type='t'/>";
const F: &str = "<element name='f' type='t'/>";

#[test]
fn not_kept_of_groups() {
    loses(
        &complex(&format!("<sequence><choice>{E}{F}</choice></sequence>")),
        "struct T\n    e  e  t  // the schema asks for one of e, f\n    f  f  t  // the schema asks for one of e, f",
        "choice in sequence",
        "a choice stands inside a sequence: \"e\" and \"f\" are both required in the graph, the schema asks for one of them",
    );
    loses(
        &complex(&format!("<choice><sequence>{E}{F}</sequence></choice>")),
        "choice T\n    e  e  t  // the schema asks for e, f together\n    f  f  t  // the schema asks for e, f together",
        "sequence in choice",
        "a sequence stands inside a choice: the schema asks for \"e\" and \"f\" together, the graph has them apart",
    );
    loses(
        &complex("<choice><element name='e' type='t' minOccurs='0'/></choice>"),
        "choice T\n    e  e  t  // the schema has minOccurs \"0\"",
        "minOccurs in choice",
        "\"e\" of a choice has minOccurs \"0\" in the schema, the graph has it once",
    );
    loses(
        &complex("<choice><element name='e' type='t' maxOccurs='unbounded'/></choice>"),
        "choice T\n    e  e  t  // the schema has maxOccurs \"unbounded\"",
        "maxOccurs in choice",
        "\"e\" of a choice has maxOccurs \"unbounded\" in the schema, the graph has it once",
    );
    loses(
        &complex(&format!("<sequence minOccurs='0'>{E}</sequence>")),
        "struct T\n    e  e  t  // the schema has minOccurs \"0\" for e as a whole",
        "occurs of sequence",
        "minOccurs \"0\" of a sequence is not kept: the graph has \"e\" as if it stood there once",
    );
    loses(
        &complex(&format!("<choice maxOccurs='3'>{E}</choice>")),
        "choice T\n    e  e  t  // the schema has maxOccurs \"3\" for e as a whole",
        "occurs of choice",
        "maxOccurs \"3\" of a choice is not kept: the graph has \"e\" as if it stood there once",
    );
    loses(
        &complex("<sequence><element name='e' type='t' minOccurs='0' maxOccurs='0'/></sequence>"),
        "struct T\n    e  e  t  // the schema has maxOccurs 0",
        "maxOccurs 0",
        "\"e\" has maxOccurs 0, it is required in the graph",
    );
    loses(
        &complex(&format!("<sequence>{E}<group ref='p:g'/></sequence>")),
        "struct T\n    // the group \"g\" is not kept\n    e  e  t",
        "group",
        "the group \"g\" is not kept",
    );
    loses(
        &complex(&format!("<all>{E}</all>")),
        "opaque T\n    // \"all\" is not kept: the graph takes any content",
        "all",
        "\"all\" is not kept: the graph takes any content",
    );
    loses(
        &complex(&format!("<sequence>{E}<any/></sequence>")),
        "opaque T\n    // any content stands beside \"e\", which the graph does not keep: it takes any content",
        "any",
        "any content stands beside \"e\", which the graph does not keep: it takes any content",
    );
    loses(
        &complex(&format!("<sequence>{E}<any><annotation/></any></sequence>")),
        "struct T\n    // \"any\" is not kept: it has content of its own\n    e  e  t",
        "any",
        "\"any\" is not kept: it has content of its own",
    );
}

#[test]
fn not_kept_of_elements() {
    loses(
        &complex(&format!("<sequence>{E}<element ref='p:r'/></sequence>")),
        "struct T\n    // the reference to \"r\" is not kept\n    e  e  t",
        "reference",
        "the reference to \"r\" is not kept",
    );
    loses(
        &complex(&format!("<sequence>{E}<element name='o'><complexType><sequence>{F}</sequence></complexType></element></sequence>")),
        "struct T\n    e  e  t\n    f  f  t  // the schema has it inside o",
        "type of its own",
        "the element \"o\" has a type of its own and is not kept, what stands inside joins the type: \"f\"",
    );
    loses(
        &complex(&format!("<sequence>{E}<element name='o'><simpleType><restriction base='string'/></simpleType></element></sequence>")),
        "struct T\n    // the element \"o\" has a type of its own and is not kept\n    e  e  t",
        "type of its own",
        "the element \"o\" has a type of its own and is not kept",
    );
    loses(
        &complex(&format!("<sequence>{E}<element name='o'/></sequence>")),
        "struct T\n    // the element \"o\" is not kept: it has no type\n    e  e  t",
        "element",
        "the element \"o\" is not kept: it has no type",
    );
    loses(
        &complex(&format!("<sequence>{E}<sequence><element name='d' type='t'><annotation/></element></sequence></sequence>")),
        "struct T\n    // the element \"d\" is not kept: it has content of its own\n    e  e  t",
        "element",
        "the element \"d\" is not kept: it has content of its own",
    );
    for (attribute, kind, words) in [
        (
            "nillable='true'",
            "nillable",
            "nillable of \"e\" is not kept",
        ),
        (
            "default='v'",
            "default",
            "default \"v\" of \"e\" is not kept",
        ),
        ("fixed='v'", "fixed", "fixed \"v\" of \"e\" is not kept"),
    ] {
        loses(
            &complex(&format!(
                "<sequence><element name='e' type='t' {attribute}/></sequence>"
            )),
            &format!("struct T\n    e  e  t  // {words}"),
            kind,
            words,
        );
    }
    loses(
        &complex("<sequence><element name='e' type='t'><unique name='u'><selector xpath='x'/></unique></element></sequence>"),
        "struct T\n    // the unique \"u\" is not kept\n    e  e  t",
        "key",
        "the unique \"u\" is not kept",
    );
    loses(
        &complex(&format!("<annotation><appinfo>{F}</appinfo></annotation><sequence>{E}<annotation>{F}</annotation></sequence>")),
        "struct T\n    // the tag \"element\" in an annotation joins the type\n    e  e  t\n    f  f  t",
        "annotation",
        "the tag \"element\" in an annotation joins the type",
    );
}

#[test]
fn not_kept_of_complex_types() {
    loses(
        &complex(&format!("<complexContent><extension base='b'><sequence>{E}</sequence></extension></complexContent>")),
        "opaque T\n    // \"complexContent\" is not kept: the graph takes any content",
        "complexContent",
        "\"complexContent\" is not kept: the graph takes any content",
    );
    loses(
        &complex(&format!(
            "<sequence>{E}</sequence><attribute name='a' type='u'/>"
        )),
        "struct T\n    // the attribute \"a\" is not kept\n    e  e  t",
        "attribute",
        "the attribute \"a\" is not kept",
    );
    loses(
        &complex(&format!("<sequence>{E}</sequence><attribute ref='p:a'/>")),
        "struct T\n    // the reference to \"a\" is not kept\n    e  e  t",
        "reference",
        "the reference to \"a\" is not kept",
    );
    loses(
        &complex(&format!(
            "<sequence>{E}</sequence><attributeGroup ref='g'/>"
        )),
        "struct T\n    // the attribute group \"g\" is not kept\n    e  e  t",
        "attributeGroup",
        "the attribute group \"g\" is not kept",
    );
    loses(
        &complex(&format!("<sequence>{E}</sequence><anyAttribute/>")),
        "struct T\n    // the tag \"anyAttribute\" is not kept\n    e  e  t",
        "anyAttribute",
        "the tag \"anyAttribute\" is not kept",
    );
    loses(
        &complex("<simpleContent><extension base='t'/></simpleContent>"),
        "value T: \n    // the base of the simple content is not kept: its extension is an empty tag",
        "simpleContent",
        "the base of the simple content is not kept: its extension is an empty tag",
    );
    loses(
        &complex("<simpleContent><restriction base='t'/></simpleContent>"),
        "value T: \n    // the base of the simple content is not kept: it is a restriction",
        "simpleContent",
        "the base of the simple content is not kept: it is a restriction",
    );
    loses(
        &complex("<simpleContent><extension base='t'><attribute name='a' type='u' use='prohibited'/></extension></simpleContent>"),
        "value T: t\n    a  a  Option<u>  // \"a\" is prohibited in the schema, optional in the graph",
        "prohibited",
        "\"a\" is prohibited in the schema, optional in the graph",
    );
    loses(
        &complex("<simpleContent><extension base='t'><attribute name='a'><simpleType/></attribute></extension></simpleContent>"),
        "value T: t\n    // the attribute \"a\" is not kept",
        "attribute",
        "the attribute \"a\" is not kept",
    );
    for (attribute, kind, words) in [
        (
            "mixed='true'",
            "mixed",
            "text between the elements is not kept (mixed)",
        ),
        ("abstract='1'", "abstract", "abstract of \"T\" is not kept"),
    ] {
        loses(
            &complex(&format!("<sequence>{E}</sequence>"))
                .replace("name='T'", &format!("name='T' {attribute}")),
            &format!("struct T\n    // {words}\n    e  e  t"),
            kind,
            words,
        );
    }
    loses(
        &complex(&format!("<sequence>{E}</sequence><assert test='x'/>")),
        "struct T\n    // the tag \"assert\" is not kept\n    e  e  t",
        "tag",
        "the tag \"assert\" is not kept",
    );
}

#[test]
fn not_kept_of_simple_types() {
    for facet in ["length", "minExclusive", "maxExclusive", "whiteSpace"] {
        let words = format!("the facet {facet} \"3\" is not kept");
        loses(
            &simple(&format!(
                "<restriction base='string'><{facet} value='3'/></restriction>"
            )),
            &format!("newtype T(String)\n    // {words}"),
            "facet",
            &words,
        );
    }
    loses(
        &simple("<restriction base='string'><enumeration value='A'><annotation/></enumeration><enumeration value='B'/></restriction>"),
        "codes T\n    // the facet enumeration \"A\" is not kept: it has content of its own\n    B  \"B\"",
        "facet",
        "the facet enumeration \"A\" is not kept: it has content of its own",
    );
    loses(
        &simple("<restriction base='string'><enumeration value='A'/><enumeration value='B'/><maxLength value='1'/></restriction>"),
        "newtype T(String)\n    // the enumerations \"A\" and \"B\" stand beside other facets and are not kept\n    maxLength 1 character",
        "enumeration",
        "the enumerations \"A\" and \"B\" stand beside other facets and are not kept",
    );
    loses(
        &simple("<restriction><simpleType><restriction base='string'/></simpleType><maxLength value='1'/></restriction>"),
        "newtype T(String)\n    // a simple type stands inside: its base and facets join the type\n    maxLength 1 character",
        "type of its own",
        "a simple type stands inside: its base and facets join the type",
    );
    loses(
        &simple("<union><simpleType><restriction base='string'/></simpleType></union>"),
        "newtype T(String)\n    // the tag \"union\" is not kept",
        "union",
        "the tag \"union\" is not kept",
    );
    loses(
        &simple("<list><simpleType><restriction base='string'/></simpleType></list>"),
        "newtype T(String)\n    // the tag \"list\" is not kept",
        "list",
        "the tag \"list\" is not kept",
    );
}

#[test]
fn not_kept_of_roots() {
    for (attribute, kind, words) in [
        (
            "abstract='true'",
            "abstract",
            "abstract of \"e\" is not kept",
        ),
        ("nillable='1'", "nillable", "nillable of \"e\" is not kept"),
        (
            "substitutionGroup='g'",
            "substitutionGroup",
            "substitutionGroup \"g\" of \"e\" is not kept",
        ),
    ] {
        let inside = format!("<element name='e' type='t' {attribute}/>");
        reads(&inside, "root e: t");
        let ran = schema(&inside, &["--strict"]);
        assert_eq!(ran.status, Some(1));
        let counted = format!("a.xsd: 1 place is not kept in the graph: 1 {kind}\n");
        assert!(ran.err.contains(&format!(": {words}\n")), "{}", ran.err);
        assert!(ran.err.ends_with(&counted), "{}", ran.err);
    }
}

#[test]
fn a_type_inside_an_element() {
    let inside = "<element name='e'><complexType><choice/></complexType></element>";
    let ran = schema(inside, AS_ORIGINAL);
    assert_eq!(ran.status, Some(1));
    assert!(
        ran.err.contains("complexType has no name (refused with 9"),
        "{}",
        ran.err
    );
    assert_eq!(between(inside, &[]), (String::new(), true));
    let words = "element \"e\" is not kept, it has no type: 1 element in the file, 0 kept";
    let ran = schema(inside, &[]);
    assert!(ran.err.contains(words), "{}", ran.err);
}

#[test]
fn refused() {
    for (inside, words) in [
        (
            simple("<union memberTypes='a b'/>"),
            "simpleType \"T\" has no base (refused with 13)",
        ),
        (
            simple("<list itemType='a'/>"),
            "simpleType \"T\" has no base (refused with 13)",
        ),
        (
            simple("<restriction base='other'/>"),
            "has the base \"other\", which is not built in (refused with 13)",
        ),
        (
            "<complexType><choice/></complexType>".to_owned(),
            "complexType has no name (refused with 9",
        ),
    ] {
        for more in [&[][..], AS_ORIGINAL] {
            let ran = schema(&inside, more);
            assert_eq!(ran.status, Some(1));
            assert!(ran.err.contains(words), "{}", ran.err);
        }
    }
}
