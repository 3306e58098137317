//! Other readers of XML: quick-xml's events as a tape, and the verdicts of expat and libxml2 (features `expat`
//! and `libxml2`).

#![allow(unsafe_code)]

use raw_xml::events::{BytesStart, Event};
use raw_xml::{Error, Reader};

/// What quick-xml reads.
pub struct Events {
    /// The tape.
    pub marks: Vec<u32>,
    /// How many tags are open at the end.
    pub open: usize,
    /// Whether it met a document type.
    pub doctype: bool,
}

/// The events of `text`; names, keys and values are parts of it.
///
/// # Errors
///
/// Returns [`Error`] where quick-xml refuses the text or a tag's attributes.
pub fn quick_xml_events(text: &[u8]) -> Result<Events, Error> {
    let mut reader = Reader::from_reader(text);
    let mut events = Events {
        marks: Vec::new(),
        open: 0,
        doctype: false,
    };
    loop {
        match reader.read_event()? {
            Event::Start(tag) => {
                events.open += 1;
                events.put_tag(1, &tag, text)?;
            }
            Event::Empty(tag) => events.put_tag(2, &tag, text)?,
            Event::End(_) => {
                events.open -= 1;
                events.marks.extend([3, 0]);
            }
            Event::DocType(_) => events.doctype = true,
            Event::Eof => return Ok(events),
            _ => {}
        }
    }
}

impl Events {
    fn put_tag(&mut self, kind: u32, tag: &BytesStart<'_>, text: &[u8]) -> Result<(), Error> {
        let count = self.marks.len() + 1;
        self.marks.extend([kind, 0]);
        self.put_pair(tag.name().into_inner(), text);
        for attribute in tag.attributes() {
            let attribute = attribute?;
            self.put_pair(attribute.key.into_inner(), text);
            self.put_pair(&attribute.value, text);
            self.marks[count] += 1;
        }
        Ok(())
    }

    fn put_pair(&mut self, part: &[u8], text: &[u8]) {
        let offset = (part.as_ptr() as usize).wrapping_sub(text.as_ptr() as usize);
        self.marks.extend([offset as u32, part.len() as u32]);
    }
}

/// A parser that is asked only whether a text is well formed.
pub trait Parser {
    /// Its name.
    fn name(&self) -> &'static str;

    /// Whether it finds a text well formed.
    fn accepts(&mut self, text: &[u8]) -> bool;
}

/// The parsers that the features name.
pub fn parsers() -> Vec<Box<dyn Parser>> {
    vec![
        #[cfg(feature = "expat")]
        Box::new(expat::Expat::new()),
        #[cfg(feature = "libxml2")]
        Box::new(libxml2::Libxml2::new()),
    ]
}

#[cfg(feature = "expat")]
mod expat {
    use std::ffi::{c_char, c_int, c_uchar, c_ulong, c_void};

    #[link(name = "expat")]
    extern "C" {
        fn XML_ParserCreate(encoding: *const c_char) -> *mut c_void;
        fn XML_ParserReset(parser: *mut c_void, encoding: *const c_char) -> c_uchar;
        fn XML_SetHashSalt(parser: *mut c_void, salt: c_ulong) -> c_int;
        fn XML_Parse(parser: *mut c_void, text: *const c_char, len: c_int, last: c_int) -> c_int;
        fn XML_ParserFree(parser: *mut c_void);
    }

    /// The encoding, told to the parser, so that it passes over the one in the declaration.
    const ENCODING: *const c_char = c"UTF-8".as_ptr();

    pub struct Expat(*mut c_void);

    impl Expat {
        pub fn new() -> Expat {
            // SAFETY: the encoding is a C string.
            let parser = unsafe { XML_ParserCreate(ENCODING) };
            assert!(!parser.is_null(), "there is memory for a parser");
            Expat(parser)
        }
    }

    impl super::Parser for Expat {
        fn name(&self) -> &'static str {
            "expat"
        }

        fn accepts(&mut self, text: &[u8]) -> bool {
            let length = c_int::try_from(text.len()).expect("the text is short");
            // SAFETY: the parser is this one's own; the address and the length are those of one slice.
            unsafe {
                XML_ParserReset(self.0, ENCODING);
                // A salt of its own spares the parser to ask the system for one.
                XML_SetHashSalt(self.0, 1);
                XML_Parse(self.0, text.as_ptr().cast(), length, 1) == 1
            }
        }
    }

    impl Drop for Expat {
        fn drop(&mut self) {
            // SAFETY: the parser is this one's own and is not used again.
            unsafe { XML_ParserFree(self.0) }
        }
    }
}

#[cfg(feature = "libxml2")]
mod libxml2 {
    use std::ffi::{c_char, c_int, c_void};
    use std::ptr;

    #[link(name = "xml2")]
    extern "C" {
        fn xmlInitParser();
        fn xmlNewParserCtxt() -> *mut c_void;
        fn xmlCtxtReadMemory(
            context: *mut c_void,
            text: *const c_char,
            len: c_int,
            url: *const c_char,
            encoding: *const c_char,
            options: c_int,
        ) -> *mut c_void;
        fn xmlSetStructuredErrorFunc(
            context: *mut c_void,
            function: extern "C" fn(*mut c_void, *mut c_void),
        );
        fn xmlFreeDoc(document: *mut c_void);
        fn xmlFreeParserCtxt(context: *mut c_void);
    }

    /// No message, no net, no limit of depth, the encoding in the declaration passed over.
    const OPTIONS: c_int = 1 << 5 | 1 << 6 | 1 << 11 | 1 << 19 | 1 << 21;

    /// In the place of what prints validity errors of `xml:id`, which no option turns off.
    extern "C" fn say_nothing(_context: *mut c_void, _error: *mut c_void) {}

    pub struct Libxml2(*mut c_void);

    impl Libxml2 {
        pub fn new() -> Libxml2 {
            // SAFETY: the first two calls may be repeated.
            let context = unsafe {
                xmlInitParser();
                xmlSetStructuredErrorFunc(ptr::null_mut(), say_nothing);
                xmlNewParserCtxt()
            };
            assert!(!context.is_null(), "there is memory for a parser");
            Libxml2(context)
        }
    }

    impl super::Parser for Libxml2 {
        fn name(&self) -> &'static str {
            "libxml2"
        }

        fn accepts(&mut self, text: &[u8]) -> bool {
            let length = c_int::try_from(text.len()).expect("the text is short");
            let (bytes, encoding) = (text.as_ptr().cast(), c"UTF-8".as_ptr());
            // SAFETY: the context is this one's own; the address and the length are those of one slice; a
            // document that was made is freed once.
            unsafe {
                let document =
                    xmlCtxtReadMemory(self.0, bytes, length, ptr::null(), encoding, OPTIONS);
                if !document.is_null() {
                    xmlFreeDoc(document);
                }
                !document.is_null()
            }
        }
    }

    impl Drop for Libxml2 {
        fn drop(&mut self) {
            // SAFETY: the context is this one's own and is not used again.
            unsafe { xmlFreeParserCtxt(self.0) }
        }
    }
}
