//! The productions of XML Schema Part 2 (Second Edition), Appendix F, without [16] and [25] to [36], which are left aside with the
//! bytes of refusal 25. What stands more than once is written by recursion to the left.

/// A symbol of a production: another production's name, or a byte of a class.
#[derive(Clone, Copy)]
pub enum Symbol {
    Name(&'static str),
    Byte(fn(u8) -> bool),
}

use Symbol::{Byte, Name};

/// A byte that XML 1.0 takes as a character.
fn is_char(b: u8) -> bool {
    matches!(b, 9 | 10 | 13 | 32..)
}

fn but(b: u8, others: &[u8]) -> bool {
    is_char(b) && !others.contains(&b)
}

/// A production: its name and what it derives, with the names and classes in order.
pub type Production = (&'static str, &'static [Symbol]);

/// The productions; the first one's name is the goal.
pub const PRODUCTIONS: &[Production] = &[
    // [1] regExp ::= branch ( '|' branch )*
    ("regExp", &[Name("branch")]),
    (
        "regExp",
        &[Name("regExp"), Byte(|b| b == b'|'), Name("branch")],
    ),
    // [2] branch ::= piece*
    ("branch", &[]),
    ("branch", &[Name("branch"), Name("piece")]),
    // [3] piece ::= atom quantifier?
    ("piece", &[Name("atom")]),
    ("piece", &[Name("atom"), Name("quantifier")]),
    // [4] quantifier ::= [?*+] | ( '{' quantity '}' )
    ("quantifier", &[Byte(|b| b"?*+".contains(&b))]),
    (
        "quantifier",
        &[Byte(|b| b == b'{'), Name("quantity"), Byte(|b| b == b'}')],
    ),
    // [5] quantity ::= quantRange | quantMin | QuantExact
    ("quantity", &[Name("quantRange")]),
    ("quantity", &[Name("quantMin")]),
    ("quantity", &[Name("QuantExact")]),
    // [6] quantRange ::= QuantExact ',' QuantExact
    (
        "quantRange",
        &[Name("QuantExact"), Byte(|b| b == b','), Name("QuantExact")],
    ),
    // [7] quantMin ::= QuantExact ','
    ("quantMin", &[Name("QuantExact"), Byte(|b| b == b',')]),
    // [8] QuantExact ::= [0-9]+
    ("QuantExact", &[Byte(|b| b.is_ascii_digit())]),
    (
        "QuantExact",
        &[Name("QuantExact"), Byte(|b| b.is_ascii_digit())],
    ),
    // [9] atom ::= Char | charClass | ( '(' regExp ')' )
    ("atom", &[Name("Char")]),
    ("atom", &[Name("charClass")]),
    (
        "atom",
        &[Byte(|b| b == b'('), Name("regExp"), Byte(|b| b == b')')],
    ),
    // [10] Char ::= [^.\?*+()|#x5B#x5D]
    ("Char", &[Byte(|b| but(b, b".\\?*+()|[]"))]),
    // [11] charClass ::= charClassEsc | charClassExpr | WildcardEsc
    ("charClass", &[Name("charClassEsc")]),
    ("charClass", &[Name("charClassExpr")]),
    ("charClass", &[Name("WildcardEsc")]),
    // [12] charClassExpr ::= '[' charGroup ']'
    (
        "charClassExpr",
        &[Byte(|b| b == b'['), Name("charGroup"), Byte(|b| b == b']')],
    ),
    // [13] charGroup ::= posCharGroup | negCharGroup | charClassSub
    ("charGroup", &[Name("posCharGroup")]),
    ("charGroup", &[Name("negCharGroup")]),
    // [14] posCharGroup ::= ( charRange | charClassEsc )+
    ("posCharGroup", &[Name("charRange")]),
    ("posCharGroup", &[Name("charClassEsc")]),
    ("posCharGroup", &[Name("posCharGroup"), Name("charRange")]),
    (
        "posCharGroup",
        &[Name("posCharGroup"), Name("charClassEsc")],
    ),
    // [15] negCharGroup ::= '^' posCharGroup
    ("negCharGroup", &[Byte(|b| b == b'^'), Name("posCharGroup")]),
    // [17] charRange ::= seRange | XmlCharIncDash
    ("charRange", &[Name("seRange")]),
    ("charRange", &[Name("XmlCharIncDash")]),
    // [18] seRange ::= charOrEsc '-' charOrEsc
    (
        "seRange",
        &[Name("charOrEsc"), Byte(|b| b == b'-'), Name("charOrEsc")],
    ),
    // [20] charOrEsc ::= XmlChar | SingleCharEsc
    ("charOrEsc", &[Name("XmlChar")]),
    ("charOrEsc", &[Name("SingleCharEsc")]),
    // [21] XmlChar ::= [^\#x2D#x5B#x5D]
    ("XmlChar", &[Byte(|b| but(b, b"\\-[]"))]),
    // [22] XmlCharIncDash ::= [^\#x5B#x5D]
    ("XmlCharIncDash", &[Byte(|b| but(b, b"\\[]"))]),
    // [23] charClassEsc ::= ( SingleCharEsc | MultiCharEsc | catEsc | complEsc )
    ("charClassEsc", &[Name("SingleCharEsc")]),
    ("charClassEsc", &[Name("MultiCharEsc")]),
    // [24] SingleCharEsc ::= '\' [nrt\|.?*+(){}#x2D#x5B#x5D#x5E]
    (
        "SingleCharEsc",
        &[
            Byte(|b| b == b'\\'),
            Byte(|b| b"nrt\\|.?*+(){}-[]^".contains(&b)),
        ],
    ),
    // [37] MultiCharEsc ::= '\' [sSiIcCdDwW]
    (
        "MultiCharEsc",
        &[Byte(|b| b == b'\\'), Byte(|b| b"sSiIcCdDwW".contains(&b))],
    ),
    // [37a] WildcardEsc ::= '.'
    ("WildcardEsc", &[Byte(|b| b == b'.')]),
];
