//! The facets of a text, by the tags of its type.

use lubiksan::names::{local_name, parse_u64};

use super::bases::{base, Base, Space};
use super::model::{Check, Facet, Rules};
use super::regexes::translated;
use super::tree::{unescaped, Node};

/// What a simple type asks for.
pub fn of_type(node: &Node<'_>) -> Rules {
    let restriction = node.child("restriction");
    let name = restriction
        .and_then(|node| node.attribute("base"))
        .unwrap_or("string");
    let mut rules = of_builtin(local_name(name));
    let known = base(&rules.base);
    let tags = restriction
        .map(|node| node.children.as_slice())
        .unwrap_or_default();
    for tag in tags.iter().filter(|tag| tag.name() != "annotation") {
        put(
            &mut rules,
            &known,
            tag.name(),
            &unescaped(tag.attribute("value").unwrap_or_default()),
        );
    }
    put_together(&mut rules, tags);
    rules
}

/// What a built-in type asks for itself.
pub fn of_builtin(name: &str) -> Rules {
    let known = base(name);
    let bound = |case: &'static str, value: &str| Facet {
        words: String::new(),
        check: Check::Text(case, value.to_owned()),
    };
    let least = known.least.map(|value| bound("MinInclusive", value));
    let most = known.most.map(|value| bound("MaxInclusive", value));
    Rules {
        base: name.to_owned(),
        space: known.space,
        facets: least.into_iter().chain(most).collect(),
        unchecked: Vec::new(),
    }
}

/// A facet that stands for itself.
fn put(rules: &mut Rules, known: &Base, name: &str, value: &str) {
    let words = format!("{name} {}", crate::failure::escaped(value));
    let case = match name {
        "minLength" => "MinLength",
        "maxLength" => "MaxLength",
        "length" => "Length",
        "totalDigits" => "TotalDigits",
        "fractionDigits" => "FractionDigits",
        "minInclusive" => "MinInclusive",
        "maxInclusive" => "MaxInclusive",
        "minExclusive" => "MinExclusive",
        "maxExclusive" => "MaxExclusive",
        "whiteSpace" => return rules.space = space(value, rules.space),
        "pattern" | "enumeration" => return,
        _ => return rules.unchecked.push(words),
    };
    let is_length = name.ends_with("ength");
    let check = match parse_u64(value) {
        Some(number) if is_length || (name.ends_with("Digits") && known.number) => {
            Some(Check::Number(case, number))
        }
        _ if name.ends_with("clusive") && known.number => {
            Some(Check::Text(case, value.trim().to_owned()))
        }
        _ => None,
    };
    match check {
        Some(check) => rules.facets.push(Facet { words, check }),
        None => rules.unchecked.push(words),
    }
}

fn space(value: &str, before: Space) -> Space {
    match value {
        "preserve" => Space::Preserve,
        "replace" => Space::Replace,
        "collapse" => Space::Collapse,
        _ => before,
    }
}

/// Patterns and enumerations: a text must match one of each.
fn put_together(rules: &mut Rules, tags: &[Node<'_>]) {
    let values = |name: &str| -> Vec<String> {
        let tags = tags.iter().filter(|tag| tag.name() == name);
        tags.map(|tag| unescaped(tag.attribute("value").unwrap_or_default()))
            .collect()
    };
    let (patterns, codes) = (values("pattern"), values("enumeration"));
    if !patterns.is_empty() {
        let shown = crate::failure::escaped(&patterns.join(" or "));
        let words = format!("pattern {shown}");
        match translated(&patterns) {
            Some(regex) => rules.facets.push(Facet {
                words,
                check: Check::Pattern(regex, shown),
            }),
            None => rules.unchecked.push(words),
        }
    }
    if !codes.is_empty() {
        let words = format!("one of {}", crate::failure::escaped(&codes.join(", ")));
        rules.facets.push(Facet {
            words,
            check: Check::OneOf(codes),
        });
    }
}
