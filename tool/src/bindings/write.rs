//! The source of a module. Paths are written whole, so that no name of a schema can stand in their way.

use std::fmt::Write;

use super::bases::{base, Space};
use super::model::{
    Check, Code, Field, Group, Kind, Many, Occurs, Part, Root, Rules, Schema, Type,
};
use super::reach::starts;
use crate::failure::escaped;

/// The type of a text.
pub const STRING: &str = "::std::string::String";

const SUPPORT: &str = "super::support";

/// The derived traits of a struct or choice.
const DERIVED: &str = "#[derive(Clone, Debug, PartialEq, ::serde::Serialize)]";

const RESULT: &str = "::std::result::Result";

/// The source of a schema's module.
pub fn module(schema: &Schema) -> String {
    let mut out = head(schema);
    let starts = starts(&schema.types);
    for found in &schema.types {
        let start = starts.get(&found.rust).copied().unwrap_or_default();
        put_type(&mut out, schema, found, start);
    }
    for root in &schema.roots {
        put_root(&mut out, schema, root);
    }
    out
}

fn head(schema: &Schema) -> String {
    let mut out = format!(
        "//! The messages of `{}`, namespace `{}`.\n",
        schema.file,
        escaped(&schema.namespace)
    );
    for root in &schema.roots {
        let _ = writeln!(
            out,
            "//!\n//! Root element `{}`: [`{}`], line {}.",
            escaped(&root.xml),
            link(&root.holds),
            root.line
        );
    }
    let lists = [
        (
            "Where the type graph is not the schema these types follow the schema:",
            &schema.followed,
        ),
        ("Of the schema this is not kept:", &schema.lost),
    ];
    for (title, lines) in lists.iter().filter(|(_, lines)| !lines.is_empty()) {
        let _ = writeln!(out, "//!\n//! {title}\n//!");
        for line in *lines {
            let _ = writeln!(out, "//! - {}", marked_down(&file_only(line, &schema.file)));
        }
    }
    out.push_str("\n// Names and shapes are those of the schema.\n");
    out.push_str("#![allow(non_camel_case_types, non_snake_case, non_upper_case_globals, clippy::upper_case_acronyms, clippy::enum_variant_names)]\n");
    out.push_str("#![allow(clippy::large_enum_variant, clippy::should_implement_trait, clippy::module_name_repetitions)]\n");
    out
}

/// The name of a type for a link.
fn link(holds: &str) -> &str {
    holds.strip_prefix("::").unwrap_or(holds)
}

/// A line of a place with the name of the file in the place of its path.
fn file_only(line: &str, file: &str) -> String {
    match line.split_once(file) {
        Some((_, rest)) => format!("{file}{rest}"),
        None => line.to_owned(),
    }
}

/// A text that means itself in a doc comment.
fn marked_down(text: &str) -> String {
    let mut out = String::new();
    for c in escaped(text).chars() {
        if matches!(
            c,
            '\\' | '`' | '*' | '_' | '[' | ']' | '<' | '>' | '#' | '|' | '~'
        ) {
            out.push('\\');
        }
        out.push(c);
    }
    let list = out.starts_with(['-', '+']) || out.starts_with(|c: char| c.is_ascii_digit());
    if list && out.contains(' ') {
        out.insert_str(0, "&#8203;");
    }
    out
}

/// A text of the schema in code marks.
fn code(text: &str) -> String {
    format!("`{}`", escaped(text).replace('`', "'"))
}

fn put_docs(out: &mut String, indent: &str, docs: &[String]) {
    for text in docs {
        let _ = writeln!(out, "{indent}///\n{indent}/// {}", marked_down(text));
    }
}

/// A type; `start` is the number of the variant that stands there before a choice is read.
fn put_type(out: &mut String, schema: &Schema, found: &Type, start: usize) {
    let place = match found.line {
        Some(line) => format!("{}:{line}", schema.file),
        None => "a built-in type".to_owned(),
    };
    let _ = writeln!(
        out,
        "\n/// {}: {}, {place}.",
        code(&found.xml),
        what(&found.kind)
    );
    put_docs(out, "", &found.docs);
    let name = found.rust.as_str();
    match &found.kind {
        Kind::Struct(fields, group) => put_struct(out, schema, (name, fields), group),
        Kind::Choice(variants) => put_choice(out, schema, (name, variants), start),
        Kind::Codes(codes) => put_codes(out, name, codes),
        Kind::Text(rules) => put_text(out, name, rules),
        Kind::Boolean => put_boolean(out, name),
        Kind::Value(text, attributes) => put_value(out, schema, name, (text, attributes)),
        Kind::Any => {
            let _ = writeln!(out, "pub type {name} = {SUPPORT}::AnyContent;");
        }
    }
    if !matches!(found.kind, Kind::Any) {
        put_validate(out, name);
    }
}

fn what(kind: &Kind) -> &'static str {
    match kind {
        Kind::Struct(_, group) if group.is_choice() => "one of its elements",
        Kind::Struct(..) => "a sequence",
        Kind::Choice(_) => "a choice",
        Kind::Codes(_) => "a list of codes",
        Kind::Text(_) => "a text",
        Kind::Boolean => "true or false",
        Kind::Value(..) => "a text with attributes",
        Kind::Any => "any content",
    }
}

/// How often, in words.
fn times(occurs: Occurs, many: Many) -> String {
    match (occurs.least, occurs.most) {
        (_, Some(1)) if many == Many::One => "once".to_owned(),
        (_, Some(1)) => "at most once".to_owned(),
        (0, None) => "any number of times".to_owned(),
        (least, None) => format!("at least {least} times"),
        (least, Some(most)) => format!("{least} to {most} times"),
    }
}

/// The type of a field.
fn field_type(field: &Field) -> String {
    let holds = match field.boxed {
        true => format!("::std::boxed::Box<{}>", field.holds),
        false => field.holds.clone(),
    };
    match field.many {
        Many::One => holds,
        Many::Maybe => format!("::std::option::Option<{holds}>"),
        Many::List => format!("::std::vec::Vec<{holds}>"),
    }
}

/// What serde is told of a field.
fn serde_of(field: &Field, mark: &str) -> String {
    let name = format!("{:?}", format!("{mark}{}", field.xml));
    match field.many {
        Many::One => format!("#[serde(rename = {name})]"),
        Many::Maybe => format!(
            "#[serde(rename = {name}, skip_serializing_if = \"::std::option::Option::is_none\")]"
        ),
        Many::List => format!(
            "#[serde(rename = {name}, skip_serializing_if = \"::std::vec::Vec::is_empty\")]"
        ),
    }
}

fn put_field(out: &mut String, schema: &Schema, field: &Field, mark: &str) {
    let often = times(field.occurs, field.many);
    let _ = writeln!(
        out,
        "    /// {}, {often}, {}:{}.",
        code(&format!("{mark}{}", field.xml)),
        schema.file,
        field.line
    );
    put_docs(out, "    ", &field.docs);
    let _ = writeln!(
        out,
        "    {}\n    pub {}: {},",
        serde_of(field, mark),
        field.rust,
        field_type(field)
    );
}

fn put_struct(out: &mut String, schema: &Schema, (name, fields): (&str, &[Field]), group: &Group) {
    let _ = writeln!(out, "{DERIVED}\npub struct {name} {{");
    fields
        .iter()
        .for_each(|field| put_field(out, schema, field, ""));
    out.push_str("}\n");
    let entries: Vec<Entry<'_>> = fields.iter().map(|field| Entry::of(field, "")).collect();
    put_read(out, name, &entries);
    let mut lines = String::new();
    for field in fields {
        let _ = writeln!(lines, "        {}", checked_field(field, ""));
    }
    let natural = |field: &Field| {
        field.many != Many::List || (field.occurs.least == 0 && field.occurs.most.is_none())
    };
    if !group.is_plain() || !fields.iter().all(natural) {
        let counts: Vec<String> = fields.iter().map(count).collect();
        let _ = writeln!(
            lines,
            "        const CONTENT: {SUPPORT}::Content = {};",
            content(group, fields)
        );
        let _ = writeln!(
            lines,
            "        CONTENT.check(&[{}], path, faults);",
            counts.join(", ")
        );
    }
    put_check(out, name, &lines);
}

/// A field as it is read.
struct Entry<'f> {
    /// With the mark of an attribute or text.
    name: String,
    rust: &'f str,
    required: bool,
}

impl<'f> Entry<'f> {
    fn of(field: &'f Field, mark: &str) -> Entry<'f> {
        Entry {
            name: format!("{mark}{}", field.xml),
            rust: &field.rust,
            required: field.many == Many::One,
        }
    }
}

/// A struct is read field by field, each in its place.
fn put_read(out: &mut String, name: &str, entries: &[Entry<'_>]) {
    let names: Vec<String> = entries
        .iter()
        .map(|entry| format!("{:?}", entry.name))
        .collect();
    let required: Vec<String> = (0..)
        .zip(entries)
        .filter(|(_, entry)| entry.required)
        .map(|(number, _): (usize, _)| number.to_string())
        .collect();
    let put = |entry: &Entry<'_>| format!("{SUPPORT}::put(&mut self.{}, from)", entry.rust);
    let arms = arms("field", entries.iter().map(put).collect());
    let (field, from, body) = match arms {
        Some(Arms::One(body)) => ("_", "from", body),
        Some(Arms::Many(body)) => ("field", "from", body),
        None => ("_", "_", format!("        {RESULT}::Ok(())\n")),
    };
    let _ = writeln!(
        out,
        "\nimpl {SUPPORT}::Fields for {name} {{
    const NAMES: &'static [&'static ::std::primitive::str] = &[{}];
    const REQUIRED: &'static [::std::primitive::usize] = &[{}];

    fn put<'de, A: ::serde::de::MapAccess<'de>>(&mut self, {field}: ::std::primitive::usize, {from}: &mut A) -> {RESULT}<(), A::Error> {{
{body}    }}
}}",
        names.join(", "),
        required.join(", ")
    );
    let start: String = entries
        .iter()
        .map(|entry| format!("            {}: {SUPPORT}::Place::start(),\n", entry.rust))
        .collect();
    let start = match start.is_empty() {
        true => "        Self {}\n".to_owned(),
        false => format!("        Self {{\n{start}        }}\n"),
    };
    let fill = format!("{SUPPORT}::fill_struct(self, from)");
    put_place(out, name, &start, &fill);
}

/// What is done by a number.
enum Arms {
    One(String),
    Many(String),
}

/// The arms of a match, the last one for what is left; none where there is nothing to do.
fn arms(by: &str, mut done: Vec<String>) -> Option<Arms> {
    let last = done.pop()?;
    if done.is_empty() {
        return Some(Arms::One(format!("        {last}\n")));
    }
    let mut body = format!("        match {by} {{\n");
    for (number, done) in done.iter().enumerate() {
        let _ = writeln!(body, "            {number} => {done},");
    }
    let _ = writeln!(body, "            _ => {last},\n        }}");
    Some(Arms::Many(body))
}

/// What stands in the place of a type at first, and how it is read; serde reads by this too.
fn put_place(out: &mut String, name: &str, start: &str, fill: &str) {
    let _ = writeln!(
        out,
        "\nimpl {SUPPORT}::Place for {name} {{
    fn start() -> Self {{
{start}    }}

    fn fill<'de, D: ::serde::Deserializer<'de>>(&mut self, from: D) -> {RESULT}<(), D::Error> {{
        {fill}
    }}
}}

impl<'de> ::serde::Deserialize<'de> for {name} {{
    fn deserialize<D: ::serde::Deserializer<'de>>(from: D) -> {RESULT}<Self, D::Error> {{
        {SUPPORT}::read(from)
    }}
}}"
    );
}

fn checked_field(field: &Field, mark: &str) -> String {
    let check = format!("{SUPPORT}::Check::check");
    format!(
        "{check}(&self.{}, &path.then({:?}), faults);",
        field.rust,
        format!("{mark}{}", field.xml)
    )
}

/// How often the elements of a field are there.
fn count(field: &Field) -> String {
    match field.many {
        Many::One => "1".to_owned(),
        Many::Maybe => format!(
            "::std::primitive::usize::from(self.{}.is_some())",
            field.rust
        ),
        Many::List => format!("self.{}.len()", field.rust),
    }
}

fn content(group: &Group, fields: &[Field]) -> String {
    let parts: Vec<String> = group
        .parts
        .iter()
        .map(|part| match part {
            Part::Group(inner) => content(inner, fields),
            Part::Element(at) => fields.get(*at).map(element).unwrap_or_default(),
        })
        .collect();
    let case = if group.choice { "Choice" } else { "Sequence" };
    format!(
        "{SUPPORT}::Content::{case}({}, &[{}])",
        group.required,
        parts.join(", ")
    )
}

fn element(field: &Field) -> String {
    let most = match field.occurs.most {
        Some(most) => most.to_string(),
        None => "::std::primitive::usize::MAX".to_owned(),
    };
    format!(
        "{SUPPORT}::Content::Element({:?}, {}, {most})",
        field.xml, field.occurs.least
    )
}

/// The faults of a type; `lines` add them.
fn put_check(out: &mut String, name: &str, lines: &str) {
    let (path, faults) = match lines.is_empty() {
        true => ("_", "_"),
        false => ("path", "faults"),
    };
    let _ = writeln!(
        out,
        "\nimpl {SUPPORT}::Check for {name} {{\n    fn check(&self, {path}: &{SUPPORT}::Path<'_>, {faults}: &mut ::std::vec::Vec<{SUPPORT}::Fault>) {{\n{lines}    }}\n}}"
    );
}

fn put_validate(out: &mut String, name: &str) {
    let _ = writeln!(
        out,
        "\nimpl {name} {{
    /// Every value inside is as the schema asks.
    ///
    /// # Errors
    ///
    /// The faults, each with the path to it.
    pub fn validate(&self) -> ::std::result::Result<(), {SUPPORT}::Faults> {{
        {SUPPORT}::validated(self)
    }}
}}"
    );
}

fn put_choice(out: &mut String, schema: &Schema, (name, variants): (&str, &[Field]), start: usize) {
    let _ = writeln!(
        out,
        "{DERIVED}\n#[serde(remote = \"Self\")]\npub enum {name} {{"
    );
    let mut lines = String::from("        match self {\n");
    for variant in variants {
        let often = times(variant.occurs, variant.many);
        let _ = writeln!(
            out,
            "    /// {}, {often}, {}:{}.",
            code(&variant.xml),
            schema.file,
            variant.line
        );
        put_docs(out, "    ", &variant.docs);
        let _ = writeln!(
            out,
            "    {}\n    {}({}),",
            serde_of(variant, ""),
            variant.rust,
            field_type(variant)
        );
        let _ = writeln!(
            lines,
            "            {name}::{}(inside) => {SUPPORT}::Check::check(inside, &path.then({:?}), faults),",
            variant.rust, variant.xml
        );
    }
    out.push_str("}\n");
    lines.push_str("        }\n");
    put_variants(out, name, variants, start);
    put_inside(out, name);
    put_check(out, name, &lines);
}

/// A choice is read as the element inside.
fn put_variants(out: &mut String, name: &str, variants: &[Field], start: usize) {
    let names: Vec<String> = variants
        .iter()
        .map(|variant| format!("{:?}", variant.xml))
        .collect();
    let read = |variant: &Field| format!("{SUPPORT}::inside(from).map(Self::{})", variant.rust);
    let (number, body) = match arms("number", variants.iter().map(read).collect()) {
        Some(Arms::Many(body)) => ("number", body),
        Some(Arms::One(body)) => ("_", body),
        None => return,
    };
    let _ = writeln!(
        out,
        "\nimpl {SUPPORT}::Variants for {name} {{
    const NAMES: &'static [&'static ::std::primitive::str] = &[{}];

    fn variant<'de, A: ::serde::de::VariantAccess<'de>>({number}: ::std::primitive::usize, from: A) -> {RESULT}<Self, A::Error> {{
{body}    }}
}}",
        names.join(", ")
    );
    let first = variants
        .get(start)
        .map_or("", |variant| variant.rust.as_str());
    let start = format!("        Self::{first}({SUPPORT}::Place::start())\n");
    let fill = format!("{SUPPORT}::fill_choice(self, from)");
    put_place(out, name, &start, &fill);
}

/// The variant is written inside the element of its type.
fn put_inside(out: &mut String, name: &str) {
    let _ = writeln!(
        out,
        "\nimpl ::serde::Serialize for {name} {{
    fn serialize<{to}: ::serde::Serializer>(&self, to: {to}) -> {RESULT}<{to}::Ok, {to}::Error> {{
        #[derive(::serde::Serialize)]
        struct {inside}<'a> {{
            #[serde(rename = \"$value\", serialize_with = \"{name}::serialize\")]
            value: &'a {name},
        }}
        ::serde::Serialize::serialize(&{inside} {{ value: self }}, to)
    }}
}}",
        // These hide other types of their names, but never this one.
        to = if name == "S" { "W" } else { "S" },
        inside = format_args!("{}Inside", name.trim_start_matches("r#"))
    );
}

fn put_codes(out: &mut String, name: &str, codes: &[Code]) {
    out.push_str("#[derive(Clone, Copy, Debug, PartialEq, Eq, Hash, PartialOrd, Ord)]\n");
    let _ = writeln!(out, "pub enum {name} {{");
    let (mut all, mut texts) = (String::new(), String::new());
    for code_ in codes {
        let _ = writeln!(out, "    /// {}", code(&code_.xml));
        put_docs(out, "    ", &code_.docs);
        let _ = writeln!(out, "    {},", code_.rust);
        let _ = write!(all, "{name}::{}, ", code_.rust);
        let _ = writeln!(
            texts,
            "            {name}::{} => {:?},",
            code_.rust, code_.xml
        );
    }
    let all = all.trim_end_matches(", ");
    let _ = writeln!(
        out,
        "}}

impl {name} {{
    /// Every code in the order of the schema.
    pub const ALL: [{name}; {count}] = [{all}];

    /// The code as it stands in a message.
    pub const fn as_str(self) -> &'static ::std::primitive::str {{
        match self {{
{texts}        }}
    }}
}}",
        count = codes.len()
    );
    let first = codes.first().map_or("", |code| code.rust.as_str());
    put_code_traits(out, name, first);
}

fn put_code_traits(out: &mut String, name: &str, first: &str) {
    let _ = writeln!(
        out,
        "
impl ::std::str::FromStr for {name} {{
    type Err = {SUPPORT}::NoCode;

    fn from_str(text: &::std::primitive::str) -> ::std::result::Result<{name}, {SUPPORT}::NoCode> {{
        let found = {name}::ALL.into_iter().find(|code| code.as_str() == text);
        found.ok_or_else(|| {SUPPORT}::NoCode {{ list: {shown:?}, text: text.to_owned() }})
    }}
}}

impl {SUPPORT}::Check for {name} {{
    fn check(&self, _: &{SUPPORT}::Path<'_>, _: &mut ::std::vec::Vec<{SUPPORT}::Fault>) {{}}
}}",
        shown = name.trim_start_matches("r#")
    );
    put_display(out, name);
    put_parsed(out, name, &format!("Self::{first}"));
}

fn put_display(out: &mut String, name: &str) {
    let _ = writeln!(
        out,
        "
impl ::std::fmt::Display for {name} {{
    fn fmt(&self, f: &mut ::std::fmt::Formatter<'_>) -> ::std::fmt::Result {{
        f.write_str(self.as_str())
    }}
}}"
    );
}

/// Read from its text, in the place of `start`, and written as a text.
fn put_parsed(out: &mut String, name: &str, start: &str) {
    let fill = format!("*self = {SUPPORT}::parsed(from)?;\n        {RESULT}::Ok(())");
    put_place(out, name, &format!("        {start}\n"), &fill);
    let _ = writeln!(
        out,
        "
impl ::serde::Serialize for {name} {{
    fn serialize<S: ::serde::Serializer>(&self, to: S) -> {RESULT}<S::Ok, S::Error> {{
        to.serialize_str(self.as_str())
    }}
}}"
    );
}

fn put_boolean(out: &mut String, name: &str) {
    let _ = writeln!(
        out,
        "#[derive(Clone, Copy, Debug, PartialEq, Eq, Hash, PartialOrd, Ord)]
pub struct {name}(pub ::std::primitive::bool);

impl {name} {{
    /// The text as it stands in a message.
    pub const fn as_str(self) -> &'static ::std::primitive::str {{
        if self.0 {{ \"true\" }} else {{ \"false\" }}
    }}
}}

impl ::std::convert::From<::std::primitive::bool> for {name} {{
    fn from(value: ::std::primitive::bool) -> {name} {{
        {name}(value)
    }}
}}

impl ::std::str::FromStr for {name} {{
    type Err = {SUPPORT}::NoBoolean;

    fn from_str(text: &::std::primitive::str) -> ::std::result::Result<{name}, {SUPPORT}::NoBoolean> {{
        {SUPPORT}::boolean(text).map({name})
    }}
}}

impl {SUPPORT}::Check for {name} {{
    fn check(&self, _: &{SUPPORT}::Path<'_>, _: &mut ::std::vec::Vec<{SUPPORT}::Fault>) {{}}
}}"
    );
    put_display(out, name);
    put_parsed(out, name, "Self(false)");
}

fn put_text(out: &mut String, name: &str, rules: &Rules) {
    put_text_docs(out, rules);
    let _ = writeln!(
        out,
        "#[derive(Clone, Debug, PartialEq, Eq, Hash, PartialOrd, Ord, ::serde::Serialize)]
#[serde(transparent)]
pub struct {name}(::std::boxed::Box<::std::primitive::str>);

impl {name} {{
    /// The text, checked.
    ///
    /// # Errors
    ///
    /// What the schema asks and the text is not.
    pub fn new(text: impl ::std::convert::Into<{STRING}>) -> ::std::result::Result<{name}, {SUPPORT}::Fault> {{
        let text = text.into();
        {name}::rules().checked(&text)?;
        ::std::result::Result::Ok({name}(text.into_boxed_str()))
    }}

    /// The text.
    pub fn as_str(&self) -> &::std::primitive::str {{
        &self.0
    }}

    /// The text, taken out.
    pub fn into_string(self) -> {STRING} {{
        self.0.into_string()
    }}

    fn rules() -> &'static {SUPPORT}::Rules {{
{}        &RULES
    }}
}}",
        statics(rules)
    );
    put_text_traits(out, name);
}

fn put_text_docs(out: &mut String, rules: &Rules) {
    let words = rules.facets.iter().filter(|facet| !facet.words.is_empty());
    let mut lines: Vec<String> = words.map(|facet| code(&facet.words)).collect();
    let unchecked = rules
        .unchecked
        .iter()
        .map(|words| format!("{}, which is not checked", code(words)));
    lines.extend(unchecked);
    for (index, line) in lines.iter().enumerate() {
        let first = if index == 0 { "///\n" } else { "" };
        let _ = writeln!(out, "{first}/// - {line}");
    }
}

/// The rules of a text, inside a function.
fn statics(rules: &Rules) -> String {
    let mut patterns = String::new();
    let mut facets = Vec::new();
    for facet in &rules.facets {
        let case = format!("{SUPPORT}::Facet::");
        facets.push(match &facet.check {
            Check::Number(name, number) => format!("{case}{name}({number})"),
            Check::Text(name, text) => format!("{case}{name}({text:?})"),
            Check::OneOf(texts) => format!("{case}OneOf(&{texts:?})"),
            Check::Pattern(regex, shown) => {
                let pattern = format!("{SUPPORT}::Pattern");
                let _ = writeln!(
                    patterns,
                    "        static PATTERN: {pattern} = {pattern}::new({regex:?}, {shown:?});"
                );
                format!("{case}Pattern(&PATTERN)")
            }
        });
    }
    let space = match rules.space {
        Space::Preserve => "Preserve",
        Space::Replace => "Replace",
        Space::Collapse => "Collapse",
    };
    format!(
        "{patterns}        static RULES: {SUPPORT}::Rules = {SUPPORT}::Rules {{
            space: {SUPPORT}::Space::{space},
            lexical: {SUPPORT}::Lexical::{},
            facets: &[{}],
        }};\n",
        base(&rules.base).lexical,
        facets.join(", ")
    )
}

fn put_text_traits(out: &mut String, name: &str) {
    let _ = writeln!(
        out,
        "
impl ::std::convert::TryFrom<{STRING}> for {name} {{
    type Error = {SUPPORT}::Fault;

    fn try_from(text: {STRING}) -> ::std::result::Result<{name}, {SUPPORT}::Fault> {{
        {name}::new(text)
    }}
}}

impl {SUPPORT}::Check for {name} {{
    fn check(&self, path: &{SUPPORT}::Path<'_>, faults: &mut ::std::vec::Vec<{SUPPORT}::Fault>) {{
        {name}::rules().check(&self.0, path, faults);
    }}
}}

impl ::std::default::Default for {name} {{
    /// The empty text, unchecked: that of an element without text.
    fn default() -> {name} {{
        {name}(::std::default::Default::default())
    }}
}}"
    );
    let fill = format!("{SUPPORT}::Place::fill(&mut self.0, from)");
    put_place(out, name, "        Self::default()\n", &fill);
    put_display(out, name);
}

fn put_value(
    out: &mut String,
    schema: &Schema,
    name: &str,
    (text, attributes): (&Field, &[Field]),
) {
    let _ = writeln!(out, "{DERIVED}\npub struct {name} {{");
    attributes
        .iter()
        .for_each(|field| put_field(out, schema, field, "@"));
    let of_codes = schema
        .types
        .iter()
        .any(|found| found.rust == text.holds && !matches!(found.kind, Kind::Text(_)));
    let _ = writeln!(
        out,
        "    /// The text inside.\n    #[serde(rename = \"$text\")]\n    pub {}: {},\n}}",
        text.rust, text.holds
    );
    let mut entries: Vec<Entry<'_>> = attributes
        .iter()
        .map(|field| Entry::of(field, "@"))
        .collect();
    entries.push(Entry {
        name: "$text".to_owned(),
        rust: &text.rust,
        required: of_codes,
    });
    put_read(out, name, &entries);
    let mut lines = String::new();
    for field in attributes {
        let _ = writeln!(lines, "        {}", checked_field(field, "@"));
    }
    let _ = writeln!(
        lines,
        "        {SUPPORT}::Check::check(&self.{}, path, faults);",
        text.rust
    );
    put_check(out, name, &lines);
}

/// Reading and writing: methods of the type where it is the type of one root alone, else functions.
fn put_root(out: &mut String, schema: &Schema, root: &Root) {
    let shared = schema
        .roots
        .iter()
        .filter(|other| other.holds == root.holds)
        .count()
        > 1;
    let own = schema
        .types
        .iter()
        .any(|found| found.rust == root.holds && !matches!(found.kind, Kind::Any));
    let value = format!(
        "{SUPPORT}::Root {{ name: {:?}, namespace: {:?}, qualified: {} }}",
        root.xml, schema.namespace, schema.qualified
    );
    match own && !shared {
        true => put_methods(out, root, &value),
        false => put_functions(out, root, &value),
    }
}

fn put_methods(out: &mut String, root: &Root, value: &str) {
    let (name, xml) = (&root.holds, code(&root.xml));
    let (read, write) = (
        format!("{SUPPORT}::ReadError"),
        format!("{SUPPORT}::WriteError"),
    );
    let result = "::std::result::Result";
    let _ = writeln!(
        out,
        "
impl {name} {{
    /// The root element {xml}.
    pub const ROOT: {SUPPORT}::Root = {value};

    /// Reads a message, and does not check what is inside.
    ///
    /// # Errors
    ///
    /// It is not well formed, the root is another one, something required is not there, or a code is none.
    pub fn from_str(text: &::std::primitive::str) -> {result}<{name}, {read}> {{
        {name}::ROOT.read(text)
    }}

    /// Reads a message and checks every value, how often each element is there, and that nothing else is there.
    ///
    /// # Errors
    ///
    /// As [`{link}::from_str`], or the faults, each with the path to it.
    pub fn from_str_checked(text: &::std::primitive::str) -> {result}<{name}, {read}> {{
        {name}::ROOT.read_checked(text)
    }}

    /// Writes the message with its namespace.
    ///
    /// # Errors
    ///
    /// That of the writer; none is known of these types.
    pub fn to_string(&self) -> {result}<{STRING}, {write}> {{
        {name}::ROOT.write(self)
    }}
}}

impl ::std::str::FromStr for {name} {{
    type Err = {read};

    fn from_str(text: &::std::primitive::str) -> {result}<{name}, {read}> {{
        {name}::ROOT.read(text)
    }}
}}",
        link = name.trim_start_matches("r#")
    );
}

fn put_functions(out: &mut String, root: &Root, value: &str) {
    let (name, xml) = (&root.holds, code(&root.xml));
    let word = crate::identifier::identifier(&root.xml);
    let _ = writeln!(
        out,
        "
/// The root element {xml}.
pub const ROOT_{word}: {SUPPORT}::Root = {value};

/// Reads a message of the root element {xml}; `ROOT_{word}.read_checked` checks it too.
///
/// # Errors
///
/// It is not well formed, the root is another one, something required is not there, or a code is none.
pub fn read_{word}(text: &::std::primitive::str) -> ::std::result::Result<{name}, {SUPPORT}::ReadError> {{
    ROOT_{word}.read(text)
}}

/// Writes a message of the root element {xml}.
///
/// # Errors
///
/// That of the writer; none is known of these types.
pub fn write_{word}(value: &{name}) -> ::std::result::Result<{STRING}, {SUPPORT}::WriteError> {{
    ROOT_{word}.write(value)
}}"
    );
}
