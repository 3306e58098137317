//! The built-in types of XML Schema, as far as the bindings check them.

/// How the white space of a text is taken.
#[derive(Clone, Copy, Debug, PartialEq, Eq)]
pub enum Space {
    Preserve,
    Replace,
    Collapse,
}

/// What is known of a built-in type.
#[derive(Clone, Copy, Debug, PartialEq, Eq)]
pub struct Base {
    /// How white space is taken.
    pub space: Space,
    /// The case of `Lexical` in the module that all schemas share.
    pub lexical: &'static str,
    /// The bounds that it has itself.
    pub least: Option<&'static str>,
    pub most: Option<&'static str>,
    /// It holds decimal numbers, so that digits and bounds are checked.
    pub number: bool,
}

impl Base {
    /// A text of which nothing is asked.
    pub fn is_free(&self) -> bool {
        self.lexical == "Any"
    }
}

/// What is known of the built-in type of this name, which has no prefix.
pub fn base(name: &str) -> Base {
    let (least, most) = bounds(name);
    let lexical = match name {
        "decimal" => "Decimal",
        "date" => "Date",
        "dateTime" => "DateTime",
        "time" => "Time",
        "gYear" => "Year",
        "gYearMonth" => "YearMonth",
        "base64Binary" => "Base64",
        "hexBinary" => "Hex",
        "integer" | "long" | "int" | "short" | "byte" => "Integer",
        _ if least.is_some() || most.is_some() => "Integer",
        _ => "Any",
    };
    let space = match name {
        "string" => Space::Preserve,
        "normalizedString" => Space::Replace,
        _ => Space::Collapse,
    };
    Base {
        space,
        lexical,
        least,
        most,
        number: matches!(lexical, "Decimal" | "Integer"),
    }
}

fn bounds(name: &str) -> (Option<&'static str>, Option<&'static str>) {
    match name {
        "long" => (Some("-9223372036854775808"), Some("9223372036854775807")),
        "int" => (Some("-2147483648"), Some("2147483647")),
        "short" => (Some("-32768"), Some("32767")),
        "byte" => (Some("-128"), Some("127")),
        "unsignedLong" => (Some("0"), Some("18446744073709551615")),
        "unsignedInt" => (Some("0"), Some("4294967295")),
        "unsignedShort" => (Some("0"), Some("65535")),
        "unsignedByte" => (Some("0"), Some("255")),
        "nonNegativeInteger" => (Some("0"), None),
        "positiveInteger" => (Some("1"), None),
        "nonPositiveInteger" => (None, Some("0")),
        "negativeInteger" => (None, Some("-1")),
        _ => (None, None),
    }
}
