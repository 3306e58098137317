//! What an event does to the state, with the refusals 6 to 11.

use super::number::{is_new_max, is_new_u32, is_new_u64, is_unbounded, number_u32, number_u64};
use super::sheet::{fits, Lent, Row};
use super::state::State;
use crate::leaves::local_name;
use crate::tape::{Event, Tag};

impl State {
    /// The state after `event`, or the number of the refusal.
    pub fn after(&self, event: &Event, lent: Lent) -> Result<State, u32> {
        let mut next = self.clone();
        next.count(event)?;
        match event {
            Event::Start(tag) => next.start(tag)?,
            Event::Empty(tag) => next.empty(tag)?,
            Event::Close => next.close(),
        }
        if fits(&next.rows, lent) {
            Ok(next)
        } else {
            Err(11)
        }
    }

    /// A number or the word `unbounded` is looked for in a text of `event` on which paper 01 alone and
    /// with order 2 differ.
    pub fn meets_new_spelling(&self, event: &Event) -> bool {
        match event {
            Event::Empty(tag) if self.context == 2 => is_new_facet(tag),
            Event::Empty(tag) if self.context == 3 => self.has_new_occurs(tag),
            Event::Start(tag) if self.context == 3 && self.nesting == 1 => self.has_new_occurs(tag),
            _ => false,
        }
    }

    /// An element of a sequence with a new spelling in its min, or in its max where the min is a number.
    fn has_new_occurs(&self, tag: &Tag) -> bool {
        let counts = local(tag) == "element" && self.rows[self.head()].tag == 12;
        if !counts || name_and_type(tag).is_none() {
            return false;
        }
        let min = lookup(tag, "minOccurs");
        let max = || lookup(tag, "maxOccurs").is_some_and(is_new_max);
        min.is_some_and(is_new_u32) || (number_or_one(min).is_ok() && max())
    }

    /// Order 5: "the number in the run of the event", which is counted already.
    fn number_in_run(&self) -> u32 {
        self.events - 1
    }

    /// Counts the event and its tag: 8, then 6 or 7.
    fn count(&mut self, event: &Event) -> Result<(), u32> {
        if self.events == 1_000_000 {
            return Err(8);
        }
        self.events += 1;
        match event {
            Event::Start(_) if self.open_tags == 255 => return Err(7),
            Event::Start(_) => self.open_tags += 1,
            Event::Empty(_) => {}
            Event::Close if self.open_tags == 0 => return Err(6),
            Event::Close => self.open_tags -= 1,
        }
        Ok(())
    }

    fn start(&mut self, tag: &Tag) -> Result<(), u32> {
        match self.context {
            0 => self.start_outside(tag),
            1 => self.start_in_schema(tag)?,
            2 => self.start_in_simple(tag),
            _ => self.start_in_complex(tag)?,
        }
        Ok(())
    }

    fn start_outside(&mut self, tag: &Tag) {
        if local(tag) == "schema" {
            self.set_root(tag);
            self.context = 1;
        }
    }

    /// "sets root seen and the namespace anew (empty if absent)"
    fn set_root(&mut self, tag: &Tag) {
        self.root_seen = true;
        self.rows[0].texts[0] = or_empty(tag, "targetNamespace");
    }

    /// Order 3: "only its direct children become elements or types"; a tag below one of them counts and does nothing else.
    fn start_in_schema(&mut self, tag: &Tag) -> Result<(), u32> {
        match local(tag) {
            _ if self.nesting > 0 => self.go_below(),
            "simpleType" => {
                let name = lookup(tag, "name").ok_or(9u32)?;
                self.open_type(2, Row::new(3, &[name, ""]));
            }
            "complexType" => {
                let name = lookup(tag, "name").ok_or(9u32)?;
                self.open_type(3, Row::new(16, &[name]));
            }
            "element" => {
                self.put_element(tag);
                self.go_below();
            }
            _ => self.go_below(),
        }
        Ok(())
    }

    /// "In 1, nesting in context 1 counts the open tags below the schema .. with 0, nesting there stays 0."
    fn go_below(&mut self) {
        if self.by_standard {
            self.nesting += 1;
        }
    }

    fn open_type(&mut self, context: u32, head: Row) {
        self.rows.push(head.named_by(self.number_in_run()));
        self.context = context;
    }

    /// An element of the schema "is kept if it has name and type".
    fn put_element(&mut self, tag: &Tag) {
        if let Some((name, type_name)) = name_and_type(tag) {
            let row = Row::new(2, &[name, type_name]);
            self.rows.push(row.named_by(self.number_in_run()));
        }
    }

    fn start_in_simple(&mut self, tag: &Tag) {
        self.nesting += 1;
        if self.nesting == 1 && local(tag) == "restriction" {
            self.set_base(tag);
        }
    }

    /// The base stands in the second pair of 3 and of 14.
    fn set_base(&mut self, tag: &Tag) {
        let head = self.head();
        self.rows[head].texts[1] = or_empty(tag, "base");
    }

    /// Where the open type's head stands in the rows.
    fn head(&self) -> usize {
        let is_head = |row: &Row| row.tag == 3 || (12..=16).contains(&row.tag);
        let found = self.rows.iter().rposition(is_head);
        found.expect("a type is open")
    }

    fn start_in_complex(&mut self, tag: &Tag) -> Result<(), u32> {
        self.nesting += 1;
        match (self.nesting, local(tag)) {
            (1, "sequence") => self.replace_content(12, &[], 0),
            (1, "choice") => self.replace_content(13, &[], 0),
            (1, "simpleContent") => self.replace_content(14, &[""], 0),
            (2, "extension") => self.extend(tag),
            (2, "element") => self.put_child_element(tag)?,
            _ => {}
        }
        Ok(())
    }

    /// Another head for the open type, with the same name, given by the same event, and without children; flag 0.
    fn replace_content(&mut self, tag: u32, more: &[&str], a: u32) {
        let head = self.head();
        let (name, event) = (self.rows[head].texts[0].clone(), self.rows[head].c);
        self.rows.truncate(head);
        let texts: Vec<&str> = [name.as_str()].iter().chain(more).copied().collect();
        self.rows
            .push(Row::new(tag, &texts).with(a, 0).named_by(event));
        self.extension = false;
    }

    fn extend(&mut self, tag: &Tag) {
        if self.rows[self.head()].tag == 14 {
            self.set_base(tag);
            self.extension = true;
        }
    }

    /// An element of a sequence or choice, if it has name and type.
    fn put_child_element(&mut self, tag: &Tag) -> Result<(), u32> {
        let Some((name, type_name)) = name_and_type(tag) else {
            return Ok(());
        };
        match self.rows[self.head()].tag {
            12 => self.rows.push(sequence_row(tag, name, type_name)?),
            13 => self.rows.push(Row::new(19, &[name, type_name])),
            _ => {}
        }
        Ok(())
    }

    fn empty(&mut self, tag: &Tag) -> Result<(), u32> {
        match (self.context, local(tag)) {
            (0, "schema") => self.set_root(tag),
            (1, "element") if self.nesting == 0 => self.put_element(tag),
            (2, "restriction") => self.set_base(tag),
            (2, word) => self.rows.extend(facet_row(word, &or_empty(tag, "value"))?),
            (3, "element") => self.put_child_element(tag)?,
            (3, "any") => self.replace_by_any(lookup(tag, "namespace")),
            (3, "attribute") => self.put_attribute(tag),
            _ => {}
        }
        Ok(())
    }

    fn replace_by_any(&mut self, namespace: Option<&str>) {
        match namespace {
            Some(namespace) => self.replace_content(15, &[namespace], 1),
            None => self.replace_content(15, &[], 0),
        }
    }

    fn put_attribute(&mut self, tag: &Tag) {
        if let (true, Some((name, type_name))) = (self.extension, name_and_type(tag)) {
            let required = u32::from(lookup(tag, "use") == Some("required"));
            self.rows
                .push(Row::new(20, &[name, type_name]).with(required, 0));
        }
    }

    fn close(&mut self) {
        match self.context {
            0 => {}
            _ if self.nesting > 0 => self.nesting -= 1,
            1 => self.context = 0,
            _ => self.finish(),
        }
    }

    /// Finishes the open type. "Content still absent at the close becomes 15 with a = 0."
    fn finish(&mut self) {
        let head = self.head();
        if self.rows[head].tag == 16 {
            self.rows[head].tag = 15;
        }
        self.extension = false;
        self.context = 1;
    }
}

fn local(tag: &Tag) -> &str {
    local_name(&tag.name)
}

/// The value of the first attribute whose key matches.
fn lookup<'a>(tag: &'a Tag, word: &str) -> Option<&'a str> {
    let matching = |(key, _): &&(String, String)| local_name(key) == word;
    let found = tag.attributes.iter().find(matching);
    found.map(|(_, value)| value.as_str())
}

/// A facet with a number in a new spelling.
fn is_new_facet(tag: &Tag) -> bool {
    let value = or_empty(tag, "value");
    match local(tag) {
        "minLength" | "maxLength" => is_new_u64(&value),
        "totalDigits" | "fractionDigits" => is_new_u32(&value),
        _ => false,
    }
}

fn or_empty(tag: &Tag, word: &str) -> String {
    lookup(tag, word).unwrap_or("").to_owned()
}

fn name_and_type(tag: &Tag) -> Option<(&str, &str)> {
    lookup(tag, "name").zip(lookup(tag, "type"))
}

/// "min before max, default 1; a max of exactly `unbounded` gives tag 18", white space around it aside
fn sequence_row(tag: &Tag, name: &str, type_name: &str) -> Result<Row, u32> {
    let texts = [name, type_name];
    let min = number_or_one(lookup(tag, "minOccurs"))?;
    match lookup(tag, "maxOccurs") {
        Some(max) if is_unbounded(max) => Ok(Row::new(18, &texts).with(min, 0)),
        max => Ok(Row::new(17, &texts).with(min, number_or_one(max)?)),
    }
}

fn number_or_one(text: Option<&str>) -> Result<u32, u32> {
    text.map_or(Some(1), number_u32).ok_or(10)
}

/// The row of an empty facet; none for a tag that is no facet.
fn facet_row(word: &str, value: &str) -> Result<Option<Row>, u32> {
    let row = match word {
        "enumeration" => Row::new(4, &[value]),
        "pattern" => Row::new(5, &[value]),
        "minLength" => length_row(6, value)?,
        "maxLength" => length_row(7, value)?,
        "minInclusive" => Row::new(8, &[value]),
        "maxInclusive" => Row::new(9, &[value]),
        "totalDigits" => digits_row(10, value)?,
        "fractionDigits" => digits_row(11, value)?,
        _ => return Ok(None),
    };
    Ok(Some(row))
}

/// "a low, b high 32 bits"
fn length_row(tag: u32, value: &str) -> Result<Row, u32> {
    let length = number_u64(value).ok_or(10u32)?;
    Ok(Row::new(tag, &[]).with(length as u32, (length >> 32) as u32))
}

fn digits_row(tag: u32, value: &str) -> Result<Row, u32> {
    Ok(Row::new(tag, &[]).with(number_u32(value).ok_or(10u32)?, 0))
}
