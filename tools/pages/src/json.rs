//! Objects and lists of JSON, of values that are JSON already.

use crate::escape::string;

pub fn object(members: &[(&str, String)]) -> String {
    let members: Vec<String> = members.iter().map(|(name, value)| format!("\"{name}\":{value}")).collect();
    format!("{{{}}}", members.join(","))
}

pub fn list(items: impl Iterator<Item = String>) -> String {
    format!("[{}]", items.collect::<Vec<_>>().join(","))
}

pub fn numbers(numbers: &[i32]) -> String {
    list(numbers.iter().map(i32::to_string))
}

pub fn or_null(text: Option<&str>) -> String {
    text.map_or("null".to_string(), string)
}
