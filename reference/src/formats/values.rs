//! Parts of the JSON values that inputs and statements are.
use super::json::{Json, read};
use crate::field::PRIME;

/// Why a text is refused.
#[derive(Clone, Copy, Debug, PartialEq, Eq)]
pub enum TextCause {
    NotJson,
    Shape,
    Element,
    Digest,
    Count,
    Repeated,
}

/// The members of an object that has exactly so many keys.
pub fn members(bytes: &[u8], keys: usize) -> Result<Vec<(String, Json)>, TextCause> {
    let text = std::str::from_utf8(bytes).map_err(|_| TextCause::NotJson)?;
    match read(text).ok_or(TextCause::NotJson)? {
        Json::Object(members) if members.len() == keys => Ok(members),
        _ => Err(TextCause::Shape),
    }
}

fn member<'a>(members: &'a [(String, Json)], key: &str) -> Result<&'a Json, TextCause> {
    members.iter().find(|(known, _)| known == key).map(|(_, value)| value).ok_or(TextCause::Shape)
}

/// The text at a key.
pub fn text<'a>(members: &'a [(String, Json)], key: &str) -> Result<&'a str, TextCause> {
    as_text(member(members, key)?)
}

fn as_text(value: &Json) -> Result<&str, TextCause> {
    if let Json::Text(text) = value { Ok(text) } else { Err(TextCause::Shape) }
}

/// The texts of the array at a key.
pub fn texts<'a>(members: &'a [(String, Json)], key: &str) -> Result<Vec<&'a str>, TextCause> {
    let Json::Array(items) = member(members, key)? else { return Err(TextCause::Shape) };
    items.iter().map(as_text).collect()
}

/// The numbers of the array at a key, none for one that is not whole.
pub fn numbers(members: &[(String, Json)], key: &str) -> Result<Vec<Option<u64>>, TextCause> {
    let Json::Array(items) = member(members, key)? else { return Err(TextCause::Shape) };
    let number = |item: &Json| if let Json::Number(number) = item { Ok(*number) } else { Err(TextCause::Shape) };
    items.iter().map(number).collect()
}

/// The elements that numbers are.
pub fn elements(numbers: Vec<Option<u64>>) -> Result<Vec<u64>, TextCause> {
    let element = |number: Option<u64>| number.filter(|number| *number < PRIME);
    numbers.into_iter().map(element).collect::<Option<Vec<u64>>>().ok_or(TextCause::Element)
}

/// Numbers with commas between.
pub fn listed(numbers: &[u64]) -> String {
    numbers.iter().map(u64::to_string).collect::<Vec<_>>().join(",")
}
