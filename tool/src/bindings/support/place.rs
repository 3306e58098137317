//! Values that are read where they stand.
//!
//! A message type of ISO 20022 has thousands of bytes, most of them of elements that are not there. So a value is not made and then moved through each
//! step of serde: what stands in its place at first is written there, and each field is read in its place.

use std::fmt;
use std::marker::PhantomData;

use serde::de::{self, Deserialize, DeserializeSeed, Deserializer, EnumAccess, IgnoredAny, MapAccess, SeqAccess, Unexpected, VariantAccess, Visitor};

/// A value that is read where it stands.
pub trait Place: Sized {
    /// What stands there at first.
    fn start() -> Self;

    /// Reads the value.
    ///
    /// # Errors
    ///
    /// That of the reader.
    fn fill<'de, D: Deserializer<'de>>(&mut self, from: D) -> Result<(), D::Error>;
}

/// A struct: its fields by their numbers.
pub trait Fields: Place {
    /// The names of the fields, `@` before that of an attribute, `$text` for the text.
    const NAMES: &'static [&'static str];
    /// The numbers of those that must be there.
    const REQUIRED: &'static [usize];

    /// Reads the field of this number, which is below that of the names.
    ///
    /// # Errors
    ///
    /// That of the reader.
    fn put<'de, A: MapAccess<'de>>(&mut self, field: usize, from: &mut A) -> Result<(), A::Error>;
}

/// A choice: its variants by their numbers.
pub trait Variants: Place {
    /// The names of the variants.
    const NAMES: &'static [&'static str];

    /// Reads the variant of this number, which is below that of the names.
    ///
    /// # Errors
    ///
    /// That of the reader.
    fn variant<'de, A: VariantAccess<'de>>(number: usize, from: A) -> Result<Self, A::Error>;
}

/// Reads a value.
///
/// # Errors
///
/// That of the reader.
pub fn read<'de, T: Place, D: Deserializer<'de>>(from: D) -> Result<T, D::Error> {
    let mut value = T::start();
    value.fill(from)?;
    Ok(value)
}

/// Reads a field.
///
/// # Errors
///
/// That of the reader.
pub fn put<'de, T: Place, A: MapAccess<'de>>(place: &mut T, from: &mut A) -> Result<(), A::Error> {
    from.next_value_seed(Filled(place))
}

/// Reads the inside of a variant.
///
/// # Errors
///
/// That of the reader.
pub fn inside<'de, T: Place, A: VariantAccess<'de>>(from: A) -> Result<T, A::Error> {
    let mut value = T::start();
    from.newtype_variant_seed(Filled(&mut value))?;
    Ok(value)
}

/// Reads a struct.
///
/// # Errors
///
/// That of the reader, or a field stands there twice, or a required one is missing.
pub fn fill_struct<'de, T: Fields, D: Deserializer<'de>>(place: &mut T, from: D) -> Result<(), D::Error> {
    from.deserialize_struct("struct", T::NAMES, Struct(place))
}

/// Reads a choice: the only element inside.
///
/// # Errors
///
/// That of the reader, or there is another number of elements inside.
pub fn fill_choice<'de, T: Variants, D: Deserializer<'de>>(place: &mut T, from: D) -> Result<(), D::Error> {
    from.deserialize_struct("choice", VALUE, Choice(place))
}

/// The only field of a choice.
pub(super) const VALUE: &[&str] = &["$value"];

/// serde's way to a value that is read where it stands.
struct Filled<'p, T>(&'p mut T);

impl<'de, T: Place> DeserializeSeed<'de> for Filled<'_, T> {
    type Value = ();

    fn deserialize<D: Deserializer<'de>>(self, from: D) -> Result<(), D::Error> {
        self.0.fill(from)
    }
}

impl Place for String {
    fn start() -> String {
        String::new()
    }

    fn fill<'de, D: Deserializer<'de>>(&mut self, from: D) -> Result<(), D::Error> {
        *self = String::deserialize(from)?;
        Ok(())
    }
}

impl Place for Box<str> {
    fn start() -> Box<str> {
        Box::default()
    }

    fn fill<'de, D: Deserializer<'de>>(&mut self, from: D) -> Result<(), D::Error> {
        *self = Box::deserialize(from)?;
        Ok(())
    }
}

impl<T: Place> Place for Box<T> {
    fn start() -> Box<T> {
        Box::new(T::start())
    }

    fn fill<'de, D: Deserializer<'de>>(&mut self, from: D) -> Result<(), D::Error> {
        T::fill(self, from)
    }
}

impl<T: Place> Place for Option<T> {
    fn start() -> Option<T> {
        None
    }

    fn fill<'de, D: Deserializer<'de>>(&mut self, from: D) -> Result<(), D::Error> {
        from.deserialize_option(Filled(self))
    }
}

impl<'de, T: Place> Visitor<'de> for Filled<'_, Option<T>> {
    type Value = ();

    fn expecting(&self, f: &mut fmt::Formatter<'_>) -> fmt::Result {
        f.write_str("an element, or none")
    }

    fn visit_none<E: de::Error>(self) -> Result<(), E> {
        *self.0 = None;
        Ok(())
    }

    fn visit_unit<E: de::Error>(self) -> Result<(), E> {
        self.visit_none()
    }

    fn visit_some<D: Deserializer<'de>>(self, from: D) -> Result<(), D::Error> {
        self.0.insert(T::start()).fill(from)
    }
}

impl<T: Place> Place for Vec<T> {
    fn start() -> Vec<T> {
        Vec::new()
    }

    fn fill<'de, D: Deserializer<'de>>(&mut self, from: D) -> Result<(), D::Error> {
        from.deserialize_seq(Filled(self))
    }
}

impl<'de, T: Place> Visitor<'de> for Filled<'_, Vec<T>> {
    type Value = ();

    fn expecting(&self, f: &mut fmt::Formatter<'_>) -> fmt::Result {
        f.write_str("elements of one name")
    }

    fn visit_seq<A: SeqAccess<'de>>(self, mut from: A) -> Result<(), A::Error> {
        while from.next_element_seed(Next(self.0))?.is_some() {}
        Ok(())
    }
}

/// The next value of a list.
struct Next<'p, T>(&'p mut Vec<T>);

impl<'de, T: Place> DeserializeSeed<'de> for Next<'_, T> {
    type Value = ();

    fn deserialize<D: Deserializer<'de>>(self, from: D) -> Result<(), D::Error> {
        // Written where it stays, unlike by `push`.
        self.0.resize_with(self.0.len() + 1, T::start);
        match self.0.last_mut() {
            Some(value) => value.fill(from),
            None => Ok(()),
        }
    }
}

struct Struct<'p, T>(&'p mut T);

impl<'de, T: Fields> Visitor<'de> for Struct<'_, T> {
    type Value = ();

    fn expecting(&self, f: &mut fmt::Formatter<'_>) -> fmt::Result {
        f.write_str("elements")
    }

    fn visit_map<A: MapAccess<'de>>(self, mut from: A) -> Result<(), A::Error> {
        let mut seen = Seen::default();
        while let Some(field) = from.next_key_seed(FieldOf(T::NAMES))? {
            let Some(field) = field else {
                from.next_value::<IgnoredAny>()?;
                continue;
            };
            if !seen.add(field) {
                return Err(de::Error::duplicate_field(name_of(T::NAMES, field)));
            }
            self.0.put(field, &mut from)?;
        }
        match T::REQUIRED.iter().find(|&&field| !seen.has(field)) {
            Some(&field) => Err(de::Error::missing_field(name_of(T::NAMES, field))),
            None => Ok(()),
        }
    }
}

fn name_of(names: &'static [&'static str], number: usize) -> &'static str {
    names.get(number).copied().unwrap_or_default()
}

/// The fields that were read.
#[derive(Default)]
struct Seen {
    first: u64,
    more: Vec<usize>,
}

impl Seen {
    /// False where it was there before.
    fn add(&mut self, field: usize) -> bool {
        let is_new = !self.has(field);
        match 1u64.checked_shl(field as u32) {
            Some(bit) => self.first |= bit,
            None => self.more.push(field),
        }
        is_new
    }

    fn has(&self, field: usize) -> bool {
        match 1u64.checked_shl(field as u32) {
            Some(bit) => self.first & bit != 0,
            None => self.more.contains(&field),
        }
    }
}

/// The number of a field; none where there is no such field.
struct FieldOf(&'static [&'static str]);

impl<'de> DeserializeSeed<'de> for FieldOf {
    type Value = Option<usize>;

    fn deserialize<D: Deserializer<'de>>(self, from: D) -> Result<Option<usize>, D::Error> {
        from.deserialize_identifier(self)
    }
}

impl Visitor<'_> for FieldOf {
    type Value = Option<usize>;

    fn expecting(&self, f: &mut fmt::Formatter<'_>) -> fmt::Result {
        f.write_str("a name")
    }

    fn visit_u64<E: de::Error>(self, number: u64) -> Result<Option<usize>, E> {
        Ok(usize::try_from(number).ok().filter(|&number| number < self.0.len()))
    }

    fn visit_str<E: de::Error>(self, name: &str) -> Result<Option<usize>, E> {
        Ok(self.0.iter().position(|&known| known == name))
    }
}

struct Choice<'p, T>(&'p mut T);

impl<'de, T: Variants> Visitor<'de> for Choice<'_, T> {
    type Value = ();

    fn expecting(&self, f: &mut fmt::Formatter<'_>) -> fmt::Result {
        f.write_str("one of some elements")
    }

    fn visit_map<A: MapAccess<'de>>(self, mut from: A) -> Result<(), A::Error> {
        let mut seen = false;
        while let Some(field) = from.next_key_seed(FieldOf(VALUE))? {
            match field {
                None => drop(from.next_value::<IgnoredAny>()?),
                Some(_) if seen => return Err(de::Error::duplicate_field("$value")),
                Some(_) => *self.0 = from.next_value_seed(Branch(PhantomData))?,
            }
            seen |= field.is_some();
        }
        match seen {
            true => Ok(()),
            false => Err(de::Error::missing_field("$value")),
        }
    }
}

/// A variant of a choice.
struct Branch<T>(PhantomData<T>);

impl<'de, T: Variants> DeserializeSeed<'de> for Branch<T> {
    type Value = T;

    fn deserialize<D: Deserializer<'de>>(self, from: D) -> Result<T, D::Error> {
        from.deserialize_enum("choice", T::NAMES, self)
    }
}

impl<'de, T: Variants> Visitor<'de> for Branch<T> {
    type Value = T;

    fn expecting(&self, f: &mut fmt::Formatter<'_>) -> fmt::Result {
        f.write_str("one of some elements")
    }

    fn visit_enum<A: EnumAccess<'de>>(self, from: A) -> Result<T, A::Error> {
        let (number, inside) = from.variant_seed(VariantOf(T::NAMES))?;
        T::variant(number, inside)
    }
}

/// The number of a variant.
struct VariantOf(&'static [&'static str]);

impl<'de> DeserializeSeed<'de> for VariantOf {
    type Value = usize;

    fn deserialize<D: Deserializer<'de>>(self, from: D) -> Result<usize, D::Error> {
        from.deserialize_identifier(self)
    }
}

impl Visitor<'_> for VariantOf {
    type Value = usize;

    fn expecting(&self, f: &mut fmt::Formatter<'_>) -> fmt::Result {
        f.write_str("the name of an element")
    }

    fn visit_u64<E: de::Error>(self, number: u64) -> Result<usize, E> {
        let found = FieldOf(self.0).visit_u64(number)?;
        found.ok_or_else(|| E::invalid_value(Unexpected::Unsigned(number), &self))
    }

    fn visit_str<E: de::Error>(self, name: &str) -> Result<usize, E> {
        let found = FieldOf(self.0).visit_str(name)?;
        found.ok_or_else(|| E::unknown_variant(name, self.0))
    }
}
