//! parser.rs and lower.rs through the adapter, on schemas whose results are written by hand.

use compare::ir::lower::{lower, LowerError};
use compare::ir::types::*;
use compare::xsd::{parse, parse_str, ParseError};

/// The graph of a schema with the prefix `xs` and no target namespace.
fn graph_of(content: &str) -> TypeGraph {
    let xml =
        format!("<xs:schema xmlns:xs=\"http://www.w3.org/2001/XMLSchema\">{content}</xs:schema>");
    lower(&parse_str(&xml).expect("the schema is read")).expect("the schema is lowered")
}

/// The fields of the one struct of `graph`, as Rust name and cardinality.
fn fields_of(graph: &TypeGraph) -> Vec<(&str, Cardinality)> {
    let TypeDef::Struct(found) = &graph.types[0] else {
        panic!("the first type is no struct");
    };
    let fields = found.fields.iter();
    fields
        .map(|f| (f.rust_name.as_str(), f.cardinality.clone()))
        .collect()
}

/// The constraints of the one newtype of `graph`.
fn constraints_of(graph: &TypeGraph) -> &[Constraint] {
    let TypeDef::Newtype(found) = &graph.types[0] else {
        panic!("the first type is no newtype");
    };
    &found.constraints
}

fn named(name: &str) -> TypeRef {
    TypeRef::Named(name.to_owned())
}

#[test]
fn printed_specimen() {
    let schema = parse_str("<schema><element name=\"D\" type=\"T\"/></schema>").unwrap();
    let graph = lower(&schema).unwrap();
    let root = RootElement {
        xml_name: "D".to_owned(),
        type_name: "T".to_owned(),
    };
    assert_eq!(graph.namespace, "");
    assert_eq!(graph.root_elements, [root]);
    assert!(graph.types.is_empty());
}

#[test]
fn reader_and_text_give_the_same_schema() {
    let xml = "<schema targetNamespace=\"urn:x\"><element name=\"D\" type=\"T\"/></schema>";
    assert_eq!(parse(xml.as_bytes()).unwrap(), parse_str(xml).unwrap());
    assert_eq!(parse_str(xml).unwrap().target_namespace, "urn:x");
}

#[test]
fn cardinalities() {
    let graph = graph_of(
        "<xs:complexType name=\"S\"><xs:sequence>
           <xs:element name=\"FIToFICstmrCdtTrf\" type=\"T\" minOccurs=\"0\" maxOccurs=\"0\"/>
           <xs:element name=\"BICFI\" type=\"T\" minOccurs=\"0\" maxOccurs=\"1\"/>
           <xs:element name=\"Dt2Nm\" type=\"T\" minOccurs=\"5\" maxOccurs=\"unbounded\"/>
           <xs:element name=\"D\" type=\"T\" minOccurs=\"0\" maxOccurs=\"2\"/>
           <xs:element name=\"E\" type=\"T\"/>
         </xs:sequence></xs:complexType>",
    );
    let expected = [
        ("fi_to_fi_cstmr_cdt_trf", Cardinality::Required),
        ("bicfi", Cardinality::Optional),
        ("dt2nm", Cardinality::Vec),
        ("d", Cardinality::BoundedVec(2)),
        ("e", Cardinality::Required),
    ];
    assert_eq!(fields_of(&graph), expected);
}

#[test]
fn codes_and_choice() {
    let graph = graph_of(
        "<xs:simpleType name=\"K\"><xs:restriction base=\"QName\">
           <xs:enumeration value=\"TEST-VALUE\"/><xs:enumeration value=\"TestValue\"/>
         </xs:restriction></xs:simpleType>
         <xs:complexType name=\"C\"><xs:choice>
           <xs:element name=\"OrgId\" type=\"my:date\"/>
           <xs:element name=\"PrvtId\" type=\"Amount_SimpleType\"/>
         </xs:choice></xs:complexType>",
    );
    let TypeDef::CodeEnum(codes) = &graph.types["K"] else {
        panic!("K is no code enum");
    };
    let names: Vec<&str> = codes.codes.iter().map(|c| c.rust_name.as_str()).collect();
    assert_eq!(names, ["TestValue", "Testvalue"]);
    let TypeDef::Enum(choice) = &graph.types["C"] else {
        panic!("C is no enum");
    };
    let references: Vec<TypeRef> = choice.variants.iter().map(|v| v.type_ref.clone()).collect();
    assert_eq!(
        references,
        [TypeRef::Builtin(RustType::Date), named("AmountSimpleType")]
    );
}

#[test]
fn value_with_attribute() {
    let graph = graph_of(
        "<xs:complexType name=\"A\"><xs:simpleContent><xs:extension base=\"Amount_SimpleType\">
           <xs:attribute name=\"Ccy\" type=\"xs:string\" use=\"required\"/>
         </xs:extension></xs:simpleContent></xs:complexType>",
    );
    let attribute = AttrDef {
        xml_name: "Ccy".to_owned(),
        rust_name: "ccy".to_owned(),
        type_ref: TypeRef::Builtin(RustType::String),
        required: true,
    };
    let expected = ValueWithAttrDef {
        name: "A".to_owned(),
        value_type: named("AmountSimpleType"),
        attributes: vec![attribute],
    };
    assert_eq!(graph.types["A"], TypeDef::ValueWithAttr(expected));
}

#[test]
fn lengths_and_digits() {
    let graph = graph_of(
        "<xs:simpleType name=\"N\"><xs:restriction base=\"my:date\">
           <xs:minLength value=\"+7\"/><xs:maxLength value=\"4294967296\"/>
           <xs:totalDigits value=\"007\"/><xs:fractionDigits value=\"4294967295\"/>
         </xs:restriction></xs:simpleType>",
    );
    let expected = [
        Constraint::MinLength(7),
        Constraint::MaxLength(4_294_967_296),
        Constraint::TotalDigits(7),
        Constraint::FractionDigits(4_294_967_295),
    ];
    assert_eq!(constraints_of(&graph), expected);
}

#[test]
fn refused_numbers() {
    for value in ["", "+", "-0", " 7", "4294967296"] {
        let xml = format!(
            "<schema><simpleType name=\"N\"><totalDigits value=\"{value}\"/></simpleType></schema>"
        );
        let refused = parse_str(&xml).unwrap_err();
        assert!(
            matches!(refused, ParseError::InvalidAttributeValue { .. }),
            "{value:?}"
        );
    }
}

#[test]
fn values_are_passed_as_they_stand() {
    let graph = graph_of(
        "<xs:simpleType name=\"N\"><xs:restriction base=\"string\">
           <xs:pattern value=\" a&amp;b&#65;\tc\n'd' \"/>
         </xs:restriction></xs:simpleType>",
    );
    let expected = Constraint::Pattern(" a&amp;b&#65;\tc\n'd' ".to_owned());
    assert_eq!(constraints_of(&graph), [expected]);
}

#[test]
fn first_key_with_the_local_name_counts() {
    let schema =
        parse_str("<schema><element xmlns:name=\"first\" name=\"second\" x:type=\"T\"/></schema>");
    let elements = schema.unwrap().elements;
    assert_eq!(
        (elements[0].name.as_str(), elements[0].type_name.as_str()),
        ("first", "T")
    );
}

#[test]
fn any_close_in_the_schema_leads_out_of_it() {
    let graph = graph_of("<xs:annotation></xs:annotation><xs:element name=\"D\" type=\"T\"/>");
    assert!(graph.root_elements.is_empty());
}

#[test]
fn redefined_type_keeps_its_place() {
    let graph = graph_of(
        "<xs:complexType name=\"a_b\"></xs:complexType>
         <xs:complexType name=\"C\"></xs:complexType>
         <xs:complexType name=\"AB\"><xs:sequence></xs:sequence></xs:complexType>",
    );
    assert_eq!(graph.types.keys().collect::<Vec<_>>(), ["AB", "C"]);
    assert!(matches!(graph.types["AB"], TypeDef::Struct(_)));
}

#[test]
fn empty_any_replaces_the_elements() {
    let graph = graph_of(
        "<xs:complexType name=\"W\"><xs:sequence>
           <xs:element name=\"D\" type=\"T\"/><xs:any namespace=\"##any\"/>
         </xs:sequence></xs:complexType>",
    );
    let expected = OpaqueDef {
        name: "W".to_owned(),
        namespace: Some("##any".to_owned()),
    };
    assert_eq!(graph.types["W"], TypeDef::Opaque(expected));
}

#[test]
fn refusals() {
    assert!(matches!(
        parse_str("<a/>"),
        Err(ParseError::MissingSchemaRoot)
    ));
    assert!(matches!(
        parse_str("<schema></other>"),
        Err(ParseError::Xml(_))
    ));
    assert!(matches!(
        parse(&b"<schema a=\"\xff\"/>"[..]),
        Err(ParseError::Xml(_))
    ));
    let nameless = parse_str("<schema><simpleType></simpleType></schema>");
    assert!(matches!(nameless, Err(ParseError::MissingAttribute { .. })));
    let unknown = parse_str(
        "<schema><simpleType name=\"N\"><restriction base=\"QName\"/></simpleType></schema>",
    );
    assert!(matches!(
        lower(&unknown.unwrap()),
        Err(LowerError::UnknownBase { .. })
    ));
}
