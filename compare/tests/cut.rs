//! parser.rs over its two adapters: tags that the handlers cut, and tags cut before.

use compare::random::Random;
use compare::tape::xml;
use compare::tapes::{document, messed};

/// Both give the same schema of `text`, or refuse it in the same words.
fn agree(text: &str) {
    let cutting = format!("{:?}", compare::xsd::parse_str(text));
    assert_eq!(cutting, format!("{:?}", cut::parse_str(text)), "{text}");
}

/// The attributes of a top element, one of them missing, repeated or malformed.
#[test]
fn attributes_that_quick_xml_refuses() {
    let tags = [
        "name=\"a\" type=\"b\"",
        "name=\"a\"",
        "name=\"a\" name=\"c\" type=\"b\"",
        "name=\"a\" junk type=\"b\"",
        "name=\"a\" type=b",
        "junk= name=\"a\" type=\"b\"",
        "x:name=\"a\" y:x:type=\"&lt;\"",
    ];
    for tag in tags {
        agree(&format!("<s:schema><s:element {tag}/></s:schema>"));
    }
}

#[test]
fn refusals() {
    agree("<element/>");
    agree("<schema><complexType></complexType></schema>");
    agree("<schema><simpleType name=\"a\"><minLength value=\"x\"/></simpleType></schema>");
    agree("<schema></simpleType>");
}

#[test]
fn random_documents() {
    let mut random = Random::new(20_022);
    for _ in 0..2_000 {
        let lists = [document(&mut random), messed(&mut random)];
        for text in lists.iter().filter_map(|events| xml(events)) {
            agree(&text);
        }
    }
}

/// The events read before give what the whole text gives.
#[test]
fn prepared_events() {
    let mut random = Random::new(7);
    let texts = (0..500).filter_map(|_| xml(&document(&mut random)));
    for text in texts.filter(|text| cut::parse_str(text).is_ok()) {
        let whole = format!("{:?}", cut::parse_str(&text).ok());
        let prepared = cut::with_prepared(&text, |events| format!("{:?}", events.schema()));
        assert_eq!(whole, prepared, "{text}");
    }
}
