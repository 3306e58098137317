//! What came, went or changed between two schemas. Types are matched by the path from the root, the rest by name.

use std::cmp::Ordering;
use std::collections::{BTreeMap, BTreeSet, VecDeque};

use super::shape::{Groups, Piece, RestShape, Shape, TypeShape};

/// A change.
#[derive(Clone, Debug, PartialEq, Eq)]
pub struct Change {
    /// What changed: `field`, `code` ..
    pub what: &'static str,
    /// An old message may be invalid by it.
    pub breaking: bool,
    /// The way from the root; the type's name where no root leads to it.
    pub path: String,
    /// What it is in words.
    pub words: String,
    /// The lines of both files.
    pub lines: (Option<usize>, Option<usize>),
}

/// The changes from one schema to another: breaking ones first, then by the way from the root.
pub fn changes(old: &Shape, new: &Shape) -> Vec<Change> {
    let mut found = Changes {
        old,
        new,
        changes: Vec::new(),
        pairs: BTreeSet::new(),
        waiting: VecDeque::new(),
    };
    found.namespaces();
    found.roots();
    found.rest((&old.rest, &new.rest), "");
    found.pairs();
    found.unreached();
    let mut changes = found.changes;
    changes.sort_by_key(|change| (!change.breaking, change.what == "type renamed"));
    changes
}

struct Changes<'s> {
    old: &'s Shape,
    new: &'s Shape,
    changes: Vec<Change>,
    /// The pairs of types that were met.
    pairs: BTreeSet<(&'s str, &'s str)>,
    /// Those that are still to be compared, with the way to them.
    waiting: VecDeque<(&'s str, &'s str, String)>,
}

/// What a change is about: the path, and the lines of both sides.
type At<'c> = (&'c str, (Option<usize>, Option<usize>));

impl<'s> Changes<'s> {
    fn put(&mut self, what: &'static str, breaking: bool, (path, lines): At<'_>, words: String) {
        self.changes.push(Change {
            what,
            breaking,
            path: path.to_owned(),
            words,
            lines,
        });
    }

    fn namespaces(&mut self) {
        let (old, new) = (&self.old.namespace, &self.new.namespace);
        if old != new {
            let words = format!("the namespace was {old}, it is {new}");
            self.put("namespace", false, ("", (None, None)), words);
        }
    }

    /// Roots by name; where each schema has one alone these are the pair.
    fn roots(&mut self) {
        let (old, new) = (self.old, self.new);
        if let ([before], [after]) = (old.roots.as_slice(), new.roots.as_slice()) {
            if before.xml != after.xml {
                let words = format!("the root was {}, it is {}", before.xml, after.xml);
                self.put("root", true, (&after.xml, (before.line, after.line)), words);
            }
            self.pair((before, after), String::new());
            return;
        }
        for before in &old.roots {
            match new.roots.iter().find(|after| after.xml == before.xml) {
                Some(after) => self.pair((before, after), before.xml.clone()),
                None => self.put(
                    "root",
                    true,
                    (&before.xml, (before.line, None)),
                    "the root is gone".to_owned(),
                ),
            }
        }
        for after in new
            .roots
            .iter()
            .filter(|after| old.roots.iter().all(|before| before.xml != after.xml))
        {
            self.put(
                "root",
                false,
                (&after.xml, (None, after.line)),
                "a new root".to_owned(),
            );
        }
    }

    /// The types of two pieces belong together.
    fn pair(&mut self, (before, after): (&'s Piece, &'s Piece), path: String) {
        let (old, new) = (before.holds.as_str(), after.holds.as_str());
        let known = (
            self.old.types.contains_key(old),
            self.new.types.contains_key(new),
        );
        match known {
            (true, true) => self.meet((old, new), path),
            (false, false) if old == new => {}
            _ => {
                let words = format!("its type was {old}, it is {new}");
                let breaking = !(old.starts_with("xs:") && new == "xs:string");
                self.put("type", breaking, (&path, (before.line, after.line)), words);
            }
        }
    }

    /// A pair of types that are there, to be compared once.
    fn meet(&mut self, pair: (&'s str, &'s str), path: String) {
        if self.pairs.insert(pair) {
            self.waiting.push_back((pair.0, pair.1, path));
        }
    }

    fn pairs(&mut self) {
        while let Some((old, new, path)) = self.waiting.pop_front() {
            let (old, new) = (self.old.types.get(old), self.new.types.get(new));
            if let (Some(before), Some(after)) = (old, new) {
                self.types((before, after), &path);
            }
        }
    }

    /// Types that no pair has: by name, and those that came or went.
    fn unreached(&mut self) {
        let (old, new) = (self.old, self.new);
        let seen_old: BTreeSet<&str> = self.pairs.iter().map(|pair| pair.0).collect();
        let seen_new: BTreeSet<&str> = self.pairs.iter().map(|pair| pair.1).collect();
        for (name, before) in old
            .types
            .iter()
            .filter(|(name, found)| !found.inner && !seen_old.contains(name.as_str()))
        {
            match new.types.get_key_value(name) {
                Some((other, _)) => self.meet((name, other), before.xml.clone()),
                None => self.put(
                    "type",
                    false,
                    (&before.xml, (before.line, None)),
                    "the type is gone".to_owned(),
                ),
            }
        }
        for (name, after) in new
            .types
            .iter()
            .filter(|(name, found)| !found.inner && !seen_new.contains(name.as_str()))
        {
            if !old.types.contains_key(name) {
                self.put(
                    "type",
                    false,
                    (&after.xml, (None, after.line)),
                    "a new type".to_owned(),
                );
            }
        }
        self.pairs();
    }

    fn types(&mut self, (before, after): (&'s TypeShape, &'s TypeShape), path: &str) {
        let at: At<'_> = (path, (before.line, after.line));
        if before.xml != after.xml {
            let words = match (before.inner, after.inner) {
                (false, false) => format!("was called {}, it is {}", before.xml, after.xml),
                (true, _) => format!("had no name, it is called {}", after.xml),
                (_, true) => format!("was called {}, it has no name", before.xml),
            };
            self.put("type renamed", false, at, format!("its type {words}"));
        }
        if before.kind != after.kind {
            let words = format!("it was {}, it is {}", before.kind, after.kind);
            self.put("kind", !takes_codes(before, after), at, words);
            return;
        }
        self.pieces((before, after), path);
        self.groups((before, after), at);
        self.codes((before, after), at);
        self.facets((before, after), at);
        self.rest((&before.rest, &after.rest), path);
    }

    fn pieces(&mut self, (before, after): (&'s TypeShape, &'s TypeShape), path: &str) {
        let below = |piece: &Piece| match (path.is_empty(), piece.xml.is_empty()) {
            (_, true) => path.to_owned(),
            (true, _) => piece.xml.clone(),
            (false, _) => format!("{path}.{}", piece.xml),
        };
        for (at, old) in before.parts.iter().enumerate() {
            let path = below(old);
            let Some(new) = same_of(&after.parts, &before.parts, at) else {
                let words = format!("{} is gone", what_of(old, before));
                self.put(kind_of(old), true, (&path, (old.line, after.line)), words);
                continue;
            };
            self.occurs((old, new), &path);
            self.pair((old, new), path);
        }
        for (at, new) in after.parts.iter().enumerate() {
            if same_of(&before.parts, &after.parts, at).is_some() {
                continue;
            }
            let required = new.least > 0;
            let how = if required { "required" } else { "not required" };
            let words = format!("{} is new, {how}", what_of(new, after));
            self.put(
                kind_of(new),
                required,
                (&below(new), (before.line, new.line)),
                words,
            );
        }
    }

    /// How often in the type, and where that is the same, how often in the group around it.
    fn occurs(&mut self, (old, new): (&Piece, &Piece), path: &str) {
        let (before, after) = ((old.least, old.most), (new.least, new.most));
        let (before, after, where_) = match before == after {
            true => (old.inside, new.inside, " in its group"),
            false => (before, after, ""),
        };
        if before == after {
            return;
        }
        let lowered = match (before.1, after.1) {
            (Some(old), Some(new)) => new < old,
            (None, Some(_)) => true,
            (_, None) => false,
        };
        let breaking = after.0 > before.0 || lowered;
        let (was, is) = (times(before), times(after));
        let words = format!("it stood there {was}{where_}, now {is}");
        self.put("occurs", breaking, (path, (old.line, new.line)), words);
    }

    /// How the elements that both have stand together.
    fn groups(&mut self, (before, after): (&TypeShape, &TypeShape), at: At<'_>) {
        let in_both = |piece: &&Piece| before.parts.iter().any(|old| old.xml == piece.xml);
        let names: Vec<&str> = after
            .parts
            .iter()
            .filter(in_both)
            .map(|piece| piece.xml.as_str())
            .collect();
        let groups = |shape: &TypeShape| {
            shape
                .groups
                .as_ref()
                .and_then(|groups| groups.of_names(&names))
        };
        let (old, new) = (groups(before), groups(after));
        if old == new {
            return;
        }
        let shown =
            |groups: Option<Groups>| groups.map_or(String::new(), |groups| groups.to_string());
        let words = format!(
            "its elements stood as {}, now as {}",
            shown(old),
            shown(new)
        );
        self.put("order", true, at, words);
    }

    fn codes(&mut self, (before, after): (&TypeShape, &TypeShape), at: At<'_>) {
        for code in before
            .codes
            .iter()
            .filter(|code| !after.codes.contains(code))
        {
            self.put("code", true, at, format!("the code {code:?} is gone"));
        }
        for code in after
            .codes
            .iter()
            .filter(|code| !before.codes.contains(code))
        {
            self.put("code", false, at, format!("the code {code:?} is new"));
        }
    }

    /// What is compared by its text; types in equal texts belong together.
    fn rest(&mut self, (before, after): (&'s [RestShape], &'s [RestShape]), path: &str) {
        for (old, new) in matched(before, after) {
            if let (Some(old), Some(new)) = (old, new) {
                if old.text == new.text {
                    self.types_in((old, new), path);
                    continue;
                }
            }
            let lines = (old.map(|old| old.line), new.map(|new| new.line));
            self.put("other", may_break(old, new), (path, lines), told(old, new));
        }
    }

    fn types_in(&mut self, (old, new): (&'s RestShape, &'s RestShape), path: &str) {
        for pair in old.types.iter().zip(&new.types) {
            self.meet((pair.0, pair.1), path.to_owned());
        }
    }

    fn facets(&mut self, (before, after): (&TypeShape, &TypeShape), at: At<'_>) {
        let (old, new) = (by_name(&before.facets), by_name(&after.facets));
        let names: BTreeSet<&str> = old.keys().chain(new.keys()).copied().collect();
        for name in names {
            let (breaking, words) = match (old.get(name), new.get(name)) {
                (Some(old), Some(new)) if old == new => continue,
                (Some(old), Some(new)) => {
                    let (from, to) = (old.join(" or "), new.join(" or "));
                    (
                        is_tighter(name, old, new),
                        format!("{name} was {from}, it is {to}"),
                    )
                }
                (Some(old), None) => (false, format!("{name} {} is gone", old.join(" or "))),
                (None, new) => {
                    let value = new.map(|new| new.join(" or ")).unwrap_or_default();
                    (true, format!("{name} {value} is new"))
                }
            };
            self.put("facet", breaking, at, words);
        }
    }
}

/// Of some parts that of the name of the part `at` of others; the second one of a name is that of the second one.
fn same_of<'p>(parts: &'p [Piece], others: &[Piece], at: usize) -> Option<&'p Piece> {
    let xml = &others.get(at)?.xml;
    let before = others.iter().take(at).filter(|other| other.xml == *xml);
    let mut same = parts.iter().filter(|part| part.xml == *xml);
    same.nth(before.count())
}

/// The same of one name: equal ones first.
type Matched<'s> = Vec<(Option<&'s RestShape>, Option<&'s RestShape>)>;

fn matched<'s>(before: &'s [RestShape], after: &'s [RestShape]) -> Matched<'s> {
    let mut left: Vec<&RestShape> = after.iter().collect();
    let mut take = |fits: &dyn Fn(&RestShape) -> bool| {
        let at = left.iter().position(|new| fits(new))?;
        Some(left.remove(at))
    };
    let equal = |old: &'s RestShape| take(&|new| (&new.name, &new.text) == (&old.name, &old.text));
    let mut found: Vec<_> = before.iter().map(equal).collect();
    for (old, new) in before.iter().zip(&mut found) {
        if new.is_none() {
            *new = take(&|new| new.name == old.name);
        }
    }
    let of_old = before.iter().map(Some).zip(found);
    let of_new = left.into_iter().map(|new| (None, Some(new)));
    of_old.chain(of_new).collect()
}

/// Of an old message it can't be told whether it stays valid, or it does not.
fn may_break(old: Option<&RestShape>, new: Option<&RestShape>) -> bool {
    let name = old.or(new).map_or("", |rest| rest.name.as_str());
    let word = name.split(' ').next().unwrap_or_default();
    match word {
        "default" | "import" | "include" | "notation" => false,
        "base" => new.is_none_or(|new| new.text != "xs:string"),
        "fixed" | "abstract" | "key" | "keyref" | "unique" | "block" | "blockDefault" => {
            new.is_some()
        }
        "nillable" | "mixed" => new.is_none(),
        "maxOccurs" => most_of(new) < most_of(old),
        "attribute" => {
            old.is_some() || new.is_some_and(|new| new.text.contains(" use=\"required\""))
        }
        _ => true,
    }
}

/// maxOccurs by its text.
fn most_of(found: Option<&RestShape>) -> u64 {
    found.map_or(1, |found| found.text.trim().parse().unwrap_or(u64::MAX))
}

/// `maxOccurs of sequence was 2, it is 3`; a long text is not shown.
fn told(old: Option<&RestShape>, new: Option<&RestShape>) -> String {
    let short = |found: &RestShape| found.text.len() <= MOST_SHOWN;
    match (old, new) {
        (Some(old), Some(new)) if short(old) && short(new) => {
            format!("{} was {}, it is {}", old.name, old.text, new.text)
        }
        (Some(old), Some(_)) => format!("{} is another one", old.name),
        (Some(old), None) => format!("{} is gone", old.name),
        (None, new) => format!("{} is new", new.map_or("", |new| new.name.as_str())),
    }
}

/// The longest text that is shown, in bytes.
const MOST_SHOWN: usize = 80;

/// The new type takes every code of the old one as a text.
fn takes_codes(before: &TypeShape, after: &TypeShape) -> bool {
    let fits = |code: &String, (name, value): &(String, String)| {
        let (length, limit) = (code.chars().count() as u64, value.parse::<u64>().ok());
        match (name.as_str(), limit) {
            ("minLength", Some(limit)) => length >= limit,
            ("maxLength", Some(limit)) => length <= limit,
            _ => false,
        }
    };
    let all = |facet| before.codes.iter().all(|code| fits(code, facet));
    !before.codes.is_empty()
        && after.kind.to_lowercase() == "text of string"
        && after.facets.iter().all(all)
}

fn by_name(facets: &[(String, String)]) -> BTreeMap<&str, Vec<&str>> {
    let mut found: BTreeMap<&str, Vec<&str>> = BTreeMap::new();
    for (name, value) in facets {
        let values = found.entry(name).or_default();
        match name.as_str() {
            "pattern" | "enumeration" => {
                let separator = if name == "pattern" { " or " } else { ", " };
                values.extend(value.split(separator));
            }
            _ => values.push(value),
        }
    }
    found
}

/// The new facet allows less than the old one.
fn is_tighter(name: &str, old: &[&str], new: &[&str]) -> bool {
    let compared = || {
        let (old, new) = (old.first()?, new.first()?);
        compared_decimals(old, new)
    };
    match name {
        "minLength" | "minInclusive" | "minExclusive" => compared() != Some(Ordering::Greater),
        "maxLength" | "maxInclusive" | "maxExclusive" | "totalDigits" | "fractionDigits" => {
            compared() != Some(Ordering::Less)
        }
        // One of several is enough, so more of them allow more.
        "pattern" | "enumeration" => !old.iter().all(|old| new.contains(old)),
        _ => true,
    }
}

/// Two decimal numbers, digit by digit; none where one is none.
fn compared_decimals(one: &str, other: &str) -> Option<Ordering> {
    let (one, other) = (Decimal::of(one)?, Decimal::of(other)?);
    let sizes = one.whole.len().cmp(&other.whole.len());
    let sizes = sizes.then_with(|| (one.whole, one.fraction).cmp(&(other.whole, other.fraction)));
    Some(match (one.negative, other.negative) {
        (false, false) => sizes,
        (true, true) => sizes.reverse(),
        (true, false) => Ordering::Less,
        (false, true) => Ordering::Greater,
    })
}

struct Decimal<'t> {
    negative: bool,
    whole: &'t str,
    fraction: &'t str,
}

impl<'t> Decimal<'t> {
    fn of(text: &'t str) -> Option<Decimal<'t>> {
        let digits = text.trim().trim_start_matches(['+', '-']);
        let (whole, fraction) = digits.split_once('.').unwrap_or((digits, ""));
        let good = |text: &str| text.bytes().all(|c| c.is_ascii_digit());
        let (whole, fraction) = (
            whole.trim_start_matches('0'),
            fraction.trim_end_matches('0'),
        );
        let zero = whole.is_empty() && fraction.is_empty();
        (good(whole) && good(fraction) && !digits.is_empty()).then_some(Decimal {
            negative: text.trim().starts_with('-') && !zero,
            whole,
            fraction,
        })
    }
}

fn times(occurs: (u32, Option<u32>)) -> String {
    match occurs {
        (1, Some(1)) => "once".to_owned(),
        (0, Some(1)) => "at most once".to_owned(),
        (0, None) => "any number of times".to_owned(),
        (least, None) => format!("at least {least} times"),
        (0, Some(most)) => format!("at most {most} times"),
        (least, Some(most)) => format!("{least} to {most} times"),
    }
}

/// `field` or `attribute`.
fn kind_of(piece: &Piece) -> &'static str {
    match piece.xml.starts_with('@') {
        true => "attribute",
        false => "field",
    }
}

fn what_of(piece: &Piece, of: &TypeShape) -> &'static str {
    match (&of.groups, piece.xml.starts_with('@')) {
        (_, true) => "the attribute",
        (Some(Groups::Choice(..)), _) => "the branch",
        _ => "the field",
    }
}
