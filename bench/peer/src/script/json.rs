//! JSON values, as far as commands need them.
use serde::de::{Deserialize, Deserializer, Error, MapAccess, SeqAccess, Visitor};
use std::borrow::Cow;
use std::fmt;

/// A JSON value, with its texts in the line if they have no escapes.
pub enum Json<'a> {
    Null,
    /// A whole number below 2^64, without sign, point or exponent.
    Number(u64),
    Text(Cow<'a, str>),
    List(Vec<Json<'a>>),
    Object(Members<'a>),
    /// Any other value. No command has one.
    Other,
}

/// The members of an object. Of members with one name the last one counts.
#[derive(Default)]
pub struct Members<'a>(Vec<(Cow<'a, str>, Json<'a>)>);

impl<'a> Members<'a> {
    fn set(&mut self, name: Cow<'a, str>, value: Json<'a>) {
        self.0.retain(|member| member.0 != name);
        self.0.push((name, value));
    }

    /// Removes a member.
    pub fn take(&mut self, name: &str) -> Option<Json<'a>> {
        let at = self.0.iter().position(|member| member.0 == name)?;
        Some(self.0.swap_remove(at).1)
    }

    /// Returns the member of an object that has only one.
    pub fn only(mut self) -> Option<(Cow<'a, str>, Json<'a>)> {
        let member = self.0.pop()?;
        self.0.is_empty().then_some(member)
    }

    /// Returns true if no member is left.
    pub fn is_empty(&self) -> bool {
        self.0.is_empty()
    }
}

struct JsonVisitor;

impl<'a> Visitor<'a> for JsonVisitor {
    type Value = Json<'a>;

    fn expecting(&self, f: &mut fmt::Formatter) -> fmt::Result {
        f.write_str("a JSON value")
    }

    fn visit_unit<E: Error>(self) -> Result<Json<'a>, E> {
        Ok(Json::Null)
    }

    fn visit_bool<E: Error>(self, _: bool) -> Result<Json<'a>, E> {
        Ok(Json::Other)
    }

    fn visit_i64<E: Error>(self, _: i64) -> Result<Json<'a>, E> {
        Ok(Json::Other)
    }

    fn visit_u64<E: Error>(self, number: u64) -> Result<Json<'a>, E> {
        Ok(Json::Number(number))
    }

    fn visit_f64<E: Error>(self, _: f64) -> Result<Json<'a>, E> {
        Ok(Json::Other)
    }

    fn visit_borrowed_str<E: Error>(self, text: &'a str) -> Result<Json<'a>, E> {
        Ok(Json::Text(Cow::Borrowed(text)))
    }

    fn visit_str<E: Error>(self, text: &str) -> Result<Json<'a>, E> {
        Ok(Json::Text(Cow::Owned(text.to_owned())))
    }

    fn visit_seq<A: SeqAccess<'a>>(self, mut items: A) -> Result<Json<'a>, A::Error> {
        let mut list = Vec::new();
        while let Some(item) = items.next_element()? {
            list.push(item);
        }
        Ok(Json::List(list))
    }

    fn visit_map<A: MapAccess<'a>>(self, mut entries: A) -> Result<Json<'a>, A::Error> {
        let mut members = Members::default();
        while let Some(name) = entries.next_key()? {
            let value = entries.next_value()?;
            if let Json::Text(name) = name {
                members.set(name, value);
            }
        }
        Ok(Json::Object(members))
    }
}

impl<'a> Deserialize<'a> for Json<'a> {
    fn deserialize<D: Deserializer<'a>>(deserializer: D) -> Result<Json<'a>, D::Error> {
        deserializer.deserialize_any(JsonVisitor)
    }
}
