//! Written lists of events, one or more for each sentence of "What an event does" and for each
//! question about events and lowering that was asked of the paper.

use crate::tape::{events, Event};

/// A list of events with what it shows.
pub struct Written {
    pub shows: &'static str,
    pub events: Vec<Event>,
}

/// All written lists.
pub fn written() -> Vec<Written> {
    let lists = [
        &CONTEXTS[..],
        &SIMPLE,
        &COMPLEX,
        &LOOKUP,
        &NUMBERS,
        &LOWERING,
    ];
    lists
        .concat()
        .into_iter()
        .map(|(shows, lines)| Written {
            shows,
            events: events(lines),
        })
        .collect()
}

type Line = (&'static str, &'static str);

const CONTEXTS: [Line; 26] = [
    ("no event", ""),
    ("a schema", "<schema targetNamespace=urn:x></>"),
    ("a schema stays open", "<schema targetNamespace=urn:x>"),
    ("an absent namespace is empty", "<schema>"),
    ("an empty schema sets the root and opens nothing", "<schema targetNamespace=u/><element name=A type=B/>"),
    ("tags before the schema are passed over", "<x name=A><element name=A type=B/><simpleType name=C/></><schema>"),
    ("a simple type in context 0 is passed over", "<simpleType name=C></><schema/>"),
    ("a schema below another tag is one", "<x><y><schema targetNamespace=u><element name=A type=B/>"),
    ("a close in context 0 is counted", "<x></><schema/>"),
    ("a second schema sets the namespace anew", "<schema targetNamespace=long:one><element name=A type=B/></><schema targetNamespace=s>"),
    ("a second schema without namespace empties it", "<schema targetNamespace=one><element name=A type=B/></><schema><element name=C type=D/>"),
    ("an empty second schema sets it too", "<schema targetNamespace=one><element name=A type=B/></><schema targetNamespace=second/>"),
    ("a schema in context 1 is an unknown tag", "<schema targetNamespace=one><schema targetNamespace=two/><schema targetNamespace=3></><element name=A type=B/>"),
    ("a schema in types is an unknown tag", "<schema targetNamespace=one><simpleType name=A><schema targetNamespace=two/><schema targetNamespace=3></></><complexType name=B><schema targetNamespace=4/>"),
    ("any close in context 1 leads to context 0", "<schema><annotation></><element name=A type=B/><simpleType name=C></>"),
    ("the close of a started element leads to context 0", "<schema><element name=A type=B></><element name=C type=D/>"),
    ("a started element is kept at once", "<schema><element name=A type=B>"),
    ("an element after an open unknown tag is kept", "<schema><annotation><element name=A type=B/>"),
    ("a schema deeper than the first enters context 1 again", "<schema><a></><b><schema targetNamespace=n><element name=A type=B/></></></>"),
    ("an element without name or type is passed over", "<schema><element name=A/><element type=B/><element/><element name='' type=''/>"),
    ("a type needs a name", "<schema><simpleType></>"),
    ("a complex type needs a name", "<schema><element name=A type=B/><complexType nam=x></>"),
    ("empty types are skipped without a refusal", "<schema><simpleType/><complexType/><simpleType name=A/><complexType name=B/>"),
    ("an empty name is a name", "<schema><simpleType name=''><restriction base=string/></><complexType name=''></>"),
    ("nothing changes at a refused start", "<schema><simpleType><element name=A type=B/>"),
    ("a close too many", "<schema></></>"),
];

const SIMPLE: [Line; 16] = [
    ("a base by a started restriction", "<schema><simpleType name=A><restriction base=xs:string></></>"),
    ("a base by an empty restriction", "<schema><simpleType name=A><restriction base=xs:string/></>"),
    ("an absent base is empty", "<schema><simpleType name=A><restriction base=x/><restriction/>"),
    ("a started restriction at nesting 2 sets nothing", "<schema><simpleType name=A><x><restriction base=y></></></>"),
    ("an empty restriction at any depth sets the base", "<schema><simpleType name=A><x><y><restriction base=int/></></></>"),
    ("a second restriction replaces the base", "<schema><simpleType name=A><restriction base=string></><enumeration value=v/><restriction base=in></>"),
    ("all facets", "<schema><simpleType name=A><restriction base=string><enumeration value=E/><pattern value='[a-z]'/><minLength value=1/><maxLength value=35/><minInclusive value=0/><maxInclusive value=9.9/><totalDigits value=18/><fractionDigits value=5/></></>"),
    ("absent facet values are empty", "<schema><simpleType name=A><enumeration/><pattern/><minInclusive/><maxInclusive/>"),
    ("an absent length is refused", "<schema><simpleType name=A><minLength/>"),
    ("absent digits are refused", "<schema><simpleType name=A><totalDigits/>"),
    ("facets count at any depth", "<schema><simpleType name=A><enumeration value=a/><x><y><pattern value=b/></></><length value=1/></>"),
    ("started facets do not count", "<schema><simpleType name=A><minLength value=x></><enumeration value=E></><maxLength value=7></>"),
    ("lengths of 64 bits", "<schema><simpleType name=A><minLength value=4294967296/><maxLength value=18446744073709551615/>"),
    ("the close of the type returns to context 1", "<schema><simpleType name=A><a><b></></></><element name=A type=B/>"),
    ("complex words mean nothing in a simple type", "<schema><simpleType name=A><any/><element name=a type=b/><attribute name=a type=b/><sequence></><complexType></><simpleType></></>"),
    ("a nested type is no type", "<schema><simpleType name=A><simpleType name=B></></></>"),
];

const COMPLEX: [Line; 34] = [
    ("a sequence", "<schema><complexType name=A><sequence><element name=a type=B/><element name=c type=D/></></>"),
    ("a choice", "<schema><complexType name=A><choice><element name=a type=B/><element name=c type=D/></></>"),
    ("simple content", "<schema><complexType name=A><simpleContent><extension base=B><attribute name=Ccy type=C use=required/><attribute name=d type=string/></></></>"),
    ("an any", "<schema><complexType name=A><sequence><any namespace=##any/></></>"),
    ("an any without namespace", "<schema><complexType name=A><any/></>"),
    ("an empty namespace is one", "<schema><complexType name=A><any namespace=''/></>"),
    ("content still absent", "<schema><complexType name=A></>"),
    ("content still absent while open", "<schema><complexType name=A><x>"),
    ("a content tag at nesting 2 is passed over", "<schema><complexType name=A><x><sequence><element name=a type=b/></><choice></><simpleContent></></></>"),
    ("empty content tags are passed over", "<schema><complexType name=A><sequence/><choice/><simpleContent/><extension base=q/><element name=a type=b/></>"),
    ("a second content replaces the first", "<schema><complexType name=A><sequence><element name=longname type=longtype/></><choice><element name=a type=b/></></>"),
    ("simple content is replaced with its attributes and its flag", "<schema><complexType name=A><simpleContent><extension base=B><attribute name=c type=d/></></><simpleContent><attribute name=e type=f/></></>"),
    ("a sequence after an extension clears the flag", "<schema><complexType name=A><simpleContent><extension base=B></></><sequence></><attribute name=c type=d/>"),
    ("a second extension keeps the attributes", "<schema><complexType name=A><simpleContent><extension base=B><attribute name=c type=d/></><extension base=longer></><attribute name=e type=f/></></>"),
    ("an extension without base empties it", "<schema><complexType name=A><simpleContent><extension base=B></><extension></></></>"),
    ("an extension in a sequence is passed over", "<schema><complexType name=A><sequence><extension base=B><attribute name=a type=b/></></></>"),
    ("an extension at nesting 1 or 3 is passed over", "<schema><complexType name=A><simpleContent><x><extension base=B></></></><extension base=C></></>"),
    ("an extension in another tag at nesting 2, simple content closed", "<schema><complexType name=A><simpleContent></><foo><extension base=B><attribute name=a type=b/></></></>"),
    ("an attribute after the extension has closed", "<schema><complexType name=A><simpleContent><extension base=B></><attribute name=a type=b use=required/></><attribute name=c type=d/></>"),
    ("an attribute without extension is passed over", "<schema><complexType name=A><attribute name=a type=b/><simpleContent><attribute name=a type=b/></></>"),
    ("a started attribute is passed over", "<schema><complexType name=A><simpleContent><extension base=B><attribute name=a type=b></></></></>"),
    ("an attribute without name or type is passed over", "<schema><complexType name=A><simpleContent><extension base=B><attribute name=a/><attribute type=b/><attribute ref=c/></></></>"),
    ("required is exactly required", "<schema><complexType name=A><simpleContent><extension base=B><attribute name=a type=b use=Required/><attribute name=a type=b use='required '/><attribute name=a type=b use=optional x:use=required/><attribute name=a type=b x:use=required use=no/></></></>"),
    ("a started element at nesting 2 counts", "<schema><complexType name=A><sequence><element name=a type=b></></></>"),
    ("a started element at nesting 1 or 3 does not", "<schema><complexType name=A><sequence><x><element name=a type=b></></></><element name=c type=d></></>"),
    ("an empty element counts at any depth", "<schema><complexType name=A><sequence><x><y><element name=a type=b/></></></><element name=c type=d/></>"),
    ("an empty element after the sequence has closed", "<schema><complexType name=A><sequence></><element name=a type=b minOccurs=0/></>"),
    ("a choice inside a sequence", "<schema><complexType name=A><sequence><choice><element name=a type=b/></><element name=c type=d/></></>"),
    ("an element without content is passed over", "<schema><complexType name=A><element name=a type=b minOccurs=x/></>"),
    ("an element without name or type is passed over, its occurs unread", "<schema><complexType name=A><sequence><element name=a minOccurs=x/><element type=b maxOccurs=y/></></>"),
    ("occurs are unread in a choice", "<schema><complexType name=A><choice><element name=a type=b minOccurs=x maxOccurs=y/></></>"),
    ("an any replaces the elements", "<schema><complexType name=A><sequence><element name=a type=b/><any/><element name=c type=d/></></>"),
    ("an any clears the flag", "<schema><complexType name=A><simpleContent><extension base=B><any namespace=n/><attribute name=a type=b/></></></>"),
    ("a started any is passed over", "<schema><complexType name=A><sequence><any></><element name=a type=b/></></>"),
];

const LOOKUP: [Line; 12] = [
    ("prefixes of tags", "<xs:schema targetNamespace=u><a:b:element name=A type=B/><:simpleType name=C><x:restriction base=D/><:enumeration value=v/></>"),
    ("a tag that ends with a colon", "<schema:><schema><element: name=A type=B/></>"),
    ("prefixes of keys", "<schema x:targetNamespace=u><element a:b:name=A :type=B/>"),
    ("the first attribute whose key matches", "<schema x:targetNamespace=first targetNamespace=second><element name=A x:name=B y:type=C type=D/>"),
    ("xmlns:name counts as name", "<schema xmlns:targetNamespace=u xmlns=v><element xmlns:name=A name=B type=C/>"),
    ("a key that ends with a colon matches nothing", "<schema targetNamespace:=u><element name:=A name=B type=C/>"),
    ("values keep their colons", "<schema targetNamespace=urn:a:b><element name=x:A type=y:B/><simpleType name=q:C><restriction base=xs:string/></>"),
    ("case counts", "<Schema><schema TargetNamespace=u><Element name=A type=B/><element Name=A type=B/>"),
    ("values with spaces and signs", "<schema targetNamespace=' a b '><element name='x y' type=a>b'/>"),
    ("other attributes are passed over", "<schema a=1 b=2 targetNamespace=u c=3><element id=7 name=A form=q type=B fixed=r/>"),
    ("min and max by prefixed keys", "<schema><complexType name=A><sequence><element name=a type=b x:minOccurs=2 y:maxOccurs=3/></></>"),
    ("the first max counts", "<schema><complexType name=A><sequence><element name=a type=b maxOccurs=2 x:maxOccurs=unbounded/></></>"),
];

const NUMBERS: [Line; 28] = [
    ("a min past u32", "<schema><complexType name=A><sequence><element name=a type=b minOccurs=4294967296/>"),
    ("total digits past u32", "<schema><simpleType name=A><fractionDigits value=4294967295/><totalDigits value=4294967296/>"),
    ("a max length past u64", "<schema><simpleType name=A><minLength value=18446744073709551615/><maxLength value=18446744073709551616/>"),
    ("occurs default to 1", "<schema><complexType name=A><sequence><element name=a type=b/><element name=a type=b minOccurs=5/><element name=a type=b maxOccurs=5/></></>"),
    ("unbounded", "<schema><complexType name=A><sequence><element name=a type=b maxOccurs=unbounded/><element name=a type=b minOccurs=5 maxOccurs=unbounded/></></>"),
    ("a bad min with an unbounded max", "<schema><complexType name=A><sequence><element name=a type=b minOccurs=x maxOccurs=unbounded/>"),
    ("unbounded with a space behind it", "<schema><complexType name=A><sequence><element name=a type=b maxOccurs='unbounded '/>"),
    ("min unbounded is a bad number", "<schema><complexType name=A><sequence><element name=a type=b minOccurs=unbounded/>"),
    ("signs and zeros", "<schema><complexType name=A><sequence><element name=a type=b minOccurs=+0 maxOccurs=+00012/><element name=a type=b minOccurs=007/></></>"),
    ("the largest u32", "<schema><complexType name=A><sequence><element name=a type=b minOccurs=4294967295 maxOccurs=00000000004294967295/></></>"),
    ("past u32", "<schema><complexType name=A><sequence><element name=a type=b maxOccurs=4294967296/>"),
    ("past u64", "<schema><simpleType name=A><minLength value=18446744073709551616/>"),
    ("far past u64", "<schema><simpleType name=A><minLength value=99999999999999999999999999999999/>"),
    ("digits past u32", "<schema><simpleType name=A><totalDigits value=4294967295/><fractionDigits value=4294967296/>"),
    ("an empty number", "<schema><complexType name=A><sequence><element name=a type=b minOccurs=''/>"),
    ("a sign alone", "<schema><simpleType name=A><minLength value=+/>"),
    ("minus zero", "<schema><simpleType name=A><minLength value=-0/>"),
    ("a space before", "<schema><simpleType name=A><maxLength value=' 7'/>"),
    ("two signs", "<schema><simpleType name=A><fractionDigits value=++1/>"),
    ("spaces around a number and minus zeros", "<schema><complexType name=A><sequence><element name=a type=b minOccurs='  35 ' maxOccurs=' -000'/><element name=a type=b minOccurs=' +7' maxOccurs=' unbounded  '/></></>"),
    ("a minus before another digit", "<schema><simpleType name=A><minLength value=-01/>"),
    ("a minus alone", "<schema><simpleType name=A><totalDigits value=-/>"),
    ("a plus before minus zero", "<schema><simpleType name=A><maxLength value=+-0/>"),
    ("a space behind the sign", "<schema><simpleType name=A><maxLength value='- 0'/>"),
    ("spaces alone", "<schema><simpleType name=A><fractionDigits value='  '/>"),
    ("unbounded with a space in it", "<schema><complexType name=A><sequence><element name=a type=b maxOccurs='un bounded'/>"),
    ("new spellings where nothing is parsed", "<schema><complexType name=A><choice><element name=a type=b minOccurs=' 1' maxOccurs=-0/></></><complexType name=B><sequence><element name=a minOccurs=' 1'/></></><simpleType name=C><restriction base=' string'><minLength value=' 1'></><minInclusive value=-0/><maxInclusive value=' 7'/><enumeration value=' 7'/><pattern value=' '/></></>"),
    ("an underscore in a number", "<schema><simpleType name=A><totalDigits value=1_0/>"),
];

const LOWERING: [Line; 26] = [
    ("a code enum", "<schema><simpleType name=A><restriction base=string><enumeration value=ADDR/><enumeration value=TEST-VALUE/><enumeration value=TestValue/><enumeration value=-/><enumeration value=''/></></>"),
    ("a code enum's base is not looked at", "<schema><simpleType name=A><restriction base=QName><enumeration value=a/></></><simpleType name=B><enumeration value=b/></>"),
    ("enumerations beside others are dropped", "<schema><simpleType name=A><restriction base=string><enumeration value=a/><pattern value=p/><enumeration value=b/></></>"),
    ("no facets and no base", "<schema><element name=E type=A/><simpleType name=A></>"),
    ("an unknown base", "<schema><simpleType name=A><restriction base=string/></><complexType name=C></><simpleType name=B><restriction base=QName><pattern value=p/></></>"),
    ("an unknown base that a later type replaces", "<schema><simpleType name=A><restriction base=Other/></><simpleType name=A><restriction base=string/></>"),
    ("an unknown base of the open type is not judged", "<schema><simpleType name=A><restriction base=string/></><simpleType name=B><restriction base=QName/>"),
    ("every kind of base", "<schema><simpleType name=A><restriction base=token/></><simpleType name=B><restriction base=boolean/></><simpleType name=C><restriction base=double/></><simpleType name=D><restriction base=a:b:date/></><simpleType name=E><restriction base=dateTime/></>"),
    ("simple types before complex ones", "<schema><complexType name=C></><simpleType name=S><restriction base=int/></><complexType name=D></><element name=E type=C/>"),
    ("a later definition takes the first place", "<schema><simpleType name=A><restriction base=int/></><simpleType name=B><restriction base=int/></><simpleType name=A><restriction base=date><pattern value=p/></></>"),
    ("a complex type replaces a simple one at its place", "<schema><complexType name=a_b><any namespace=n/></><simpleType name=AB><restriction base=int/></><simpleType name=C><restriction base=int/></>"),
    ("names that normalise to one", "<schema><complexType name=a_b></><complexType name=AB><sequence></></><complexType name=a__b><choice></></><complexType name=ab></>"),
    ("names that normalise to nothing", "<schema><complexType name=_></><complexType name=''><any namespace=''/></><complexType name=__><sequence></></>"),
    ("cardinalities", "<schema><complexType name=A><sequence><element name=a type=B minOccurs=0 maxOccurs=0/><element name=b type=B minOccurs=0 maxOccurs=1/><element name=c type=B minOccurs=5 maxOccurs=unbounded/><element name=d type=B minOccurs=0 maxOccurs=2/><element name=e type=B/><element name=f type=B minOccurs=7 maxOccurs=3/><element name=g type=B minOccurs=5 maxOccurs=1/></></>"),
    ("references", "<schema><complexType name=A><sequence><element name=FIToFICstmr type=my:date/><element name=BICFI type=QName/><element name=Dt2Nm type=my:a_b/><element name=a type=''/></></>"),
    ("variants are written twice", "<schema><complexType name=A><choice><element name=OrgId type=a_b/><element name=PrvtId type=boolean/><element name='' type=B/></></>"),
    ("values with attributes", "<schema><complexType name=A><simpleContent><extension base=decimal><attribute name=CcyCd type=x_y use=required/><attribute name=d type=date/></></></><complexType name=B><simpleContent><extension base=A_></></></><complexType name=C><simpleContent></></>"),
    ("roots keep their type names", "<schema targetNamespace=u><element name=a_b type=x:c_d/><element name=a_b type=xs:string/>"),
    ("a built-in wins over a type of its name", "<schema><simpleType name=date><restriction base=int/></><complexType name=A><sequence><element name=x type=my:date/></></>"),
    ("constraints", "<schema><simpleType name=A><restriction base=string><pattern value=P/><minLength value=4294967297/><maxLength value=2/><minInclusive value=I/><maxInclusive value=J/><totalDigits value=3/><fractionDigits value=4/></></>"),
    ("opaque types", "<schema><complexType name=A></><complexType name=B><any namespace=x/></><complexType name=C><any namespace=''/></>"),
    ("an open complex type is left out", "<schema><complexType name=A><sequence></></><complexType name=B><sequence><element name=a type=b/>"),
    ("types of an ended schema are lowered", "<schema><complexType name=A></></><schema targetNamespace=n><complexType name=B></></>"),
    ("underscores in references", "<schema><complexType name=_a><sequence><element name=_A_b type=_a/><element name=a_B type=a_/></></>"),
    ("capitals in names", "<schema><complexType name=A><sequence><element name=URLAdr type=A/><element name=aBC type=A/><element name=AbC9D type=A/><element name=A-B_C type=A/></></>"),
    ("no root", "<x/><element name=A type=B/>"),
];
