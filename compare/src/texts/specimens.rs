//! Texts and what the readings of order 1 say of them, written down from the readings.

/// The texts of one reading that are given one number, with marks enough.
pub struct Line {
    /// The reading.
    pub reading: u32,
    /// The number that it gives.
    pub number: u32,
    /// The texts.
    pub texts: &'static [&'static [u8]],
}

const fn line(reading: u32, number: u32, texts: &'static [&'static [u8]]) -> Line {
    Line {
        reading,
        number,
        texts,
    }
}

/// The readings, one line for each number that a reading gives.
pub const LINES: &[Line] = &[
    line(2, 5, &[b"<!DOCTYPE a [\xE9", b"<a><\xFF", b"<a/>\x80"]),
    line(
        5,
        5,
        &[b"\xEF\xBB\xBF<a/>", b"<!--\x80--><a/>", b"<a>\xC3</a>"],
    ),
    // order 12
    line(
        5,
        5,
        &[
            b"<a>\xC6\x80</a>",
            b"<a>\xC0\x80</a>",
            b"<a>\xC1\xBF</a>",
            b"<a>\xC2\x7F</a>",
            b"<a>\xC2\xC0\x80</a>",
            b"<a>e\xCC\x81</a>",
            b"<a>\xCA\xBC</a>",
            b"<a>\xCC\x87</a>",
            b"<a>\xCE\x9C</a>",
            b"<!--\xE2\x80\x99--><a/>",
            b"<a/>\xC5",
            b"<!DOCTYPE a [\xC3",
            b"<\xC3/\xA9>",
        ],
    ),
    line(
        5,
        0,
        &[
            b"<a>\xC3\xA9</a>",
            b"<\xC3\xA9/>",
            b"<\xC3\xA9 \xC3\x9F='\xC5\xBF'></\xC3\xA9>",
            b"<a\xC2\xB7/>",
            b"<\xC4\xB2 \xC4\xBF='' \xC5\x89=''/>",
            b"<?\xC5\xBF \xC3\x97?><a>\xC2\x80\xC2\xA0\xC2\xAD</a><!--\xC3\xB7-->",
            b"<a b='\xC2\x85'><![CDATA[\xC4\x80]]></a>",
            b"<a \xC3\xA9='' e=''/>",
        ],
    ),
    line(
        5,
        17,
        &[
            b"<\xC2\xB7/>",
            b"<\xC3\x97/>",
            b"<a\xC3\x97/>",
            b"<a \xC3\xB7=''/>",
            b"<a\xC2\xAA/>",
            b"<\xC2\xBA/>",
            b"<\xC3\xA9></\xC3\x89>",
            b"<\xC3\xA9></\xC3\xA9\xC3\xA9>",
            b"<a \xC3\xA9='' \xC3\xA9=''/>",
            b"<a\xC2\x85b=''/>",
            b"<a\xC2\xA0/>",
            b"\xC3\xA9<a/>",
            b"<?\xC2\xB7?><a/>",
            b"<a>&\xC3\xA9;</a>",
        ],
    ),
    line(
        5,
        18,
        &[
            b"<!--\xC3\xA9--><!DOCTYPE",
            b"<?\xC3\x9F?><!DOCTYPE \xC3\xA9",
        ],
    ),
    line(5, 0, &[b"<a>\x7F</a>", b"<!--\x7F--><a b='\x7F'/>"]),
    line(
        7,
        18,
        &[
            b"<!DOCTYPE",
            b"<!DOCTYPEx",
            b"<!DOCTYPE>",
            b"<!DOCTYPE\0",
            b"<!DOCTYPE a>",
            b"<!DOCTYPE a><<& garbage",
        ],
    ),
    line(7, 17, &[b"<!doctype a>", b"<! DOCTYPE a>", b"<!DOCTYP"]),
    line(
        8,
        18,
        &[
            b" <!DOCTYPE",
            b"\t\r\n <!DOCTYPE",
            b"<!--x--><?p?> <!DOCTYPE",
            b"<?xml version=\"1.0\"?><!DOCTYPE",
        ],
    ),
    line(
        9,
        17,
        &[
            b"x<!DOCTYPE a>",
            b" <?xml version=\"1.0\"?><!DOCTYPE a>",
            b"<?xml version=\"2.0\"?><!DOCTYPE a>",
            b"<!-- -- --><!DOCTYPE a>",
            b"\x01<!DOCTYPE a>",
            b"<!--\x01--><!DOCTYPE a>",
            b"<a/><!DOCTYPE a>",
            b"<a><!DOCTYPE a></a>",
        ],
    ),
    line(
        10,
        0,
        &[
            b"<!--<!DOCTYPE a>--><a/>",
            b"<?p <!DOCTYPE a>?><a/>",
            b"<a><![CDATA[<!DOCTYPE a>]]></a>",
        ],
    ),
    line(10, 18, &[b"<!--<!DOCTYPE--><!DOCTYPE"]),
    line(10, 17, &[b"<!--<!DOCTYPE"]),
    line(13, 0, &[b"<a>\t\n\r ~\x7F</a>"]),
    line(
        13,
        17,
        &[
            b"<a>\0</a>",
            b"<!--\x08--><a/>",
            b"<?p \x0B?><a/>",
            b"<a><![CDATA[\x0C]]></a>",
            b"<a b='\x1F'/>",
            b"<a/>\x0E",
            b"<a/><!--\x1B-->",
        ],
    ),
    line(14, 0, &[b"<a\t\n\r b='1'/>", b"\r\n<a>\r\n\r</a>\n\r"]),
    line(14, 17, &[b"<a\x0Bb='1'/>", b"<a\x0C/>"]),
    line(
        15,
        0,
        &[
            b"<:/>",
            b"<a:b:c/>",
            b"<a:/>",
            b"<xml/>",
            b"<_-.9/>",
            b"<x:a/>",
            b"<a xmlns:xml=\"x\"/>",
            b"<?a:b?><a/>",
        ],
    ),
    line(15, 17, &[b"<1/>", b"<-a/>", b"<./>", b"<a 1='2'/>"]),
    line(
        16,
        17,
        &[
            b"",
            b" \t\r\n",
            b"<!---->",
            b"<a/><a/>",
            b"<a/><b></b>",
            b"x<a/>",
            b"<a/>x",
            b"&#32;<a/>",
            b"<a/>&#32;",
            b"<![CDATA[]]><a/>",
            b"<a/><![CDATA[]]>",
            b"<a/></a>",
        ],
    ),
    line(16, 0, &[b" <!--x--><?p?>\n<a/>\n<?p?><!--x--> "]),
    line(
        17,
        17,
        &[
            b"<a b=\"1\"c=\"2\"/>",
            b"< a/>",
            b"<a/ >",
            b"<a / >",
            b"<a b=1/>",
            b"<a b/>",
            b"<a b=/>",
            b"<a b=\"1'/>",
            b"<a b='1\"/>",
            b"<a =\"1\"/>",
        ],
    ),
    line(
        17,
        0,
        &[b"<a />", b"<a b=\"1\" />", b"<a ></a>", b"<a b\n=\t'1'/>"],
    ),
    line(18, 0, &[b"<a></a >", b"<a></a\n>", b"<x:a></x:a>"]),
    line(
        18,
        17,
        &[
            b"<a></ a>",
            b"<a></a/>",
            b"<a></a b=\"\">",
            b"<x:a></a>",
            b"<a></x:a>",
            b"<a></A>",
            b"<ab></a>",
            b"<a></ab>",
            b"<a><b></a></b>",
            b"<a>",
            b"<a><b></b>",
        ],
    ),
    line(
        19,
        0,
        &[b"<a b='' x:b=''/>", b"<a b='' B=''/>", b"<a b='' bb=''/>"],
    ),
    line(
        19,
        17,
        &[
            b"<a b='' b=''/>",
            b"<a b='1' c='2' d='3' b='4'/>",
            b"<a x:b='' x:b=''/>",
        ],
    ),
    line(
        20,
        0,
        &[
            b"<a b='>'/>",
            b"<a b=']]>'/>",
            b"<a b='--'/>",
            b"<a b='\"'/>",
            b"<a b=\"'\"/>",
            b"<a b='\t\r\n'/>",
            b"<a b='&lt;'/>",
        ],
    ),
    line(
        20,
        17,
        &[
            b"<a b='<'/>",
            b"<a b='&'/>",
            b"<a b='&lt'/>",
            b"<a b='& '/>",
        ],
    ),
    line(
        21,
        17,
        &[b"<a>]]></a>", b"<a>]]]></a>", b"<a><![CDATA[]]>]]></a>"],
    ),
    line(
        21,
        0,
        &[
            b"<a>]]</a>",
            b"<a>]></a>",
            b"<a>></a>",
            b"<a>]]&gt;</a>",
            b"<a>]]<!---->></a>",
            b"<a>]]<b/>></a>",
            b"<a b=']]>'><!--]]>--><?p ]]>?></a>",
        ],
    ),
    line(
        22,
        0,
        &[
            b"<a>&amp;&lt;&gt;&apos;&quot;</a>",
            b"<a b='&amp;&lt;&gt;&apos;&quot;'/>",
            b"<a>&#9;&#10;&#13;&#32;&#233;&#128;</a>",
            b"<a>&#xD7FF;&#xe000;&#xFffD;&#x10000;&#x10FFFF;</a>",
            b"<a>&#000000000000000000000000000000000000065;</a>",
            b"<a>&#x0000000000000000000000041;</a>",
            b"<!--&--><?p &?><a><![CDATA[&]]>%p;</a>",
        ],
    ),
    line(
        22,
        17,
        &[
            b"<a>&AMP;</a>",
            b"<a>&nbsp;</a>",
            b"<?xml version='1.0' standalone='no'?><a>&nbsp;</a>",
            b"<a>&#X41;</a>",
            b"<a>&#;</a>",
            b"<a>&#x;</a>",
            b"<a>&#4A;</a>",
            b"<a>&#x4G;</a>",
            b"<a>&#0;</a>",
            b"<a>&#8;</a>",
            b"<a>&#31;</a>",
            b"<a>&#xD800;</a>",
            b"<a>&#xDFFF;</a>",
            b"<a>&#xFFFE;</a>",
            b"<a>&#xFFFF;</a>",
            b"<a>&#x110000;</a>",
            b"<a>&#4294967361;</a>",
            b"<a b='&#4294967361;'/>",
            b"<a>&#18446744073709551681;</a>",
            b"<a>&#+65;</a>",
            b"<a>& amp;</a>",
            b"<a>&amp ;</a>",
            b"<a>&;</a>",
        ],
    ),
    line(23, 0, &[b"<!----><a/>", b"<a><!-- - - --></a>"]),
    line(
        23,
        17,
        &[
            b"<!--><a/>",
            b"<!---><a/>",
            b"<!-- -- --><a/>",
            b"<!-- ---><a/>",
            b"<!- x --><a/>",
        ],
    ),
    line(
        24,
        0,
        &[
            b"<?p ??><a/>",
            b"<?p?><a/>",
            b"<?p\t?><a/>",
            b"<?xml-stylesheet x?><a/>",
            b"<?xmlx?><a/>",
            b"<?xml:a?><a/>",
            b"<a><?p > < & -- ]]>?></a>",
        ],
    ),
    line(
        24,
        17,
        &[
            b"<?p??><a/>",
            b"<?p=x?><a/>",
            b"<? p?><a/>",
            b"<??><a/>",
            b"<?p><a/>",
            b"<!----><?xml?><a/>",
            b"<a><?XML x?></a>",
            b"<?xMl?><a/>",
            b"<a/><?Xml ?>",
        ],
    ),
    line(
        25,
        0,
        &[
            b"<a><![CDATA[]]]]></a>",
            b"<a><![CDATA[<&]]></a>",
            b"<a><![CDATA[]]></a>",
        ],
    ),
    line(
        25,
        17,
        &[
            b"<a><![cdata[]]></a>",
            b"<a><![CDATA []]></a>",
            b"<a><![CDATA[]]</a>",
            b"<![CDATA[]]>",
        ],
    ),
    line(
        26,
        0,
        &[
            b"<?xml version='1.0'?><a/>",
            b"<?xml version=\"1.1\" ?><a/>",
            b"<?xml\n version = '1.999'\t?><a/>",
            b"<?xml version='1.0' encoding='A._-9'?><a/>",
            b"<?xml version='1.0' standalone=\"yes\"?><a/>",
            b"<?xml version='1.0' encoding='UTF-8' standalone='no' ?><a/>",
            b"<?xml-a version='2'?><a/>",
        ],
    ),
    line(
        26,
        17,
        &[
            b"<?xml version='1.'?><a/>",
            b"<?xml version='1'?><a/>",
            b"<?xml version='2.0'?><a/>",
            b"<?xml version='1.0 '?><a/>",
            b"<?xml version='1.0\"?><a/>",
            b"<?xml encoding='UTF-8'?><a/>",
            b"<?xml?><a/>",
            b"<?xml ?><a/>",
            b"<?xml version='1.0'encoding='UTF-8'?><a/>",
            b"<?xml version='1.0' standalone='no' encoding='UTF-8'?><a/>",
            b"<?xml version='1.0' encoding='8'?><a/>",
            b"<?xml version='1.0' encoding=''?><a/>",
            b"<?xml version='1.0' standalone='Yes'?><a/>",
            b"<?xml version='1.0' x='y'?><a/>",
            b"<?xml version='1.0'><a/>",
            b"<?xmlversion='1.0'?><?xml version='1.0'?><a/>",
            b" <?xml version='1.0'?><a/>",
            b"<a/><?xml version='1.0'?>",
        ],
    ),
    line(
        27,
        0,
        &[
            b"<?xml version='1.0' encoding='UTF-16'?><a/>",
            b"<?xml version='1.0' encoding='x'?><a/>",
        ],
    ),
];

/// A text with the tape that a reading gives it.
pub const TAPES: &[(&[u8], &[u32])] = &[
    (b"<a/>", &[2, 0, 1, 1]),
    (b"<a></a>", &[1, 0, 1, 1, 3, 0]),
    (b"<ab  c = \"de\" />", &[2, 1, 1, 2, 5, 1, 10, 2]),
    (b"<a b=''/>", &[2, 1, 1, 1, 3, 1, 6, 0]),
    (WORKED, WORKED_TAPE),
];

/// The worked example, cut behind its declaration, in its comment and before its last byte.
const DECLARED: &[u8] = b"<?xml version=\"1.0\"?>";
const TO_COMMENT: &[u8] = b"<a>x<!--y";
const TO_LAST: &[u8] = b"--><b c=\"&lt; \"\n d='\"'/><![CDATA[z]]></a";
const WORKED: &[u8] =
    b"<?xml version=\"1.0\"?><a>x<!--y--><b c=\"&lt; \"\n d='\"'/><![CDATA[z]]></a>";
const WORKED_TAPE: &[u32] = &[1, 0, 22, 1, 2, 2, 34, 1, 36, 1, 39, 5, 47, 1, 50, 1, 3, 0];

/// A text, how many marks are lent, and the number.
pub type Lent = (Vec<u8>, usize, u32);

/// What the readings and the worked example say of a text with so many marks.
pub fn lent() -> Vec<Lent> {
    let text = |parts: &[&[u8]]| parts.concat();
    let whole = text(&[DECLARED, TO_COMMENT, TO_LAST, b">"]);
    assert_eq!(whole, WORKED);
    let unclosed = text(&[DECLARED, TO_COMMENT, TO_LAST]);
    let doctype = text(&[DECLARED, b"<!DOCTYPE a>", TO_COMMENT, TO_LAST, b">"]);
    let high = text(&[DECLARED, TO_COMMENT, b"\x80", TO_LAST, b">"]);
    vec![
        (b"<a><a>".to_vec(), 0, 17),
        (b"<a/>".to_vec(), 0, 19),
        (b"<a/>".to_vec(), 3, 19),
        (b"<a/>".to_vec(), 4, 0),
        (b"<a/>x".to_vec(), 0, 17),
        (whole.clone(), 18, 0),
        (whole.clone(), 17, 19),
        (whole.clone(), 0, 19),
        (whole, 16_385, 1),
        (unclosed.clone(), 18, 17),
        (unclosed, 0, 17),
        (doctype.clone(), 18, 18),
        (doctype, 0, 18),
        (high.clone(), 18, 5),
        (high, 0, 5),
    ]
}
