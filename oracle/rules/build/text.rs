//! Counted steps on a text. Every step says how often it must match; a count that is off fails
//! the build, so that a changed docs/src cannot slip through half edited.

fn assert_count(found: usize, count: usize, step: &str) {
    assert_eq!(found, count, "{step}: expected {count} match(es), found {found}");
}

/// Replaces every occurrence of `old`, of which there must be `count`.
pub fn replace(text: &str, old: &str, new: &str, count: usize, step: &str) -> String {
    assert_count(text.matches(old).count(), count, step);
    text.replace(old, new)
}

/// Where an item with one of these heads begins; there must be exactly one.
fn find_once(text: &str, heads: &[String], step: &str) -> usize {
    let found: Vec<usize> =
        heads.iter().flat_map(|head| text.match_indices(head.as_str())).map(|(at, _)| at).collect();
    assert_count(found.len(), 1, step);
    found[0]
}

/// The end of the item that begins at `start`: behind the first brace alone on a line.
fn item_end(text: &str, start: usize, step: &str) -> usize {
    let brace = text[start..].find("\n}\n").unwrap_or_else(|| panic!("{step}: no end"));
    start + brace + "\n}\n".len()
}

/// Cuts one top-level function.
pub fn cut_function(text: &str, name: &str) -> String {
    let step = format!("cut function {name}");
    let heads = [format!("\npub fn {name}<"), format!("\npub fn {name}(")];
    let start = find_once(text, &heads, &step) + 1;
    format!("{}{}", &text[..start], &text[item_end(text, start, &step)..])
}

/// Cuts one struct together with the derive above it.
pub fn cut_struct(text: &str, name: &str) -> String {
    let step = format!("cut struct {name}");
    let heads = [format!("pub struct {name}<"), format!("pub struct {name} {{")];
    let head = find_once(text, &heads, &step);
    let start = text[..head].rfind("#[derive(").unwrap_or_else(|| panic!("{step}: no derive"));
    format!("{}{}", &text[..start], &text[item_end(text, head, &step)..])
}

/// Where `name` stands as a whole word.
fn whole_words(text: &str, name: &str) -> Vec<usize> {
    let in_word = |c: Option<char>| c.is_some_and(|c| c.is_alphanumeric() || c == '_');
    text.match_indices(name)
        .map(|(at, _)| at)
        .filter(|&at| !in_word(text[..at].chars().next_back()))
        .filter(|&at| !in_word(text[at + name.len()..].chars().next()))
        .collect()
}

/// Drops names from the import header (all before the first item), each found exactly once.
pub fn drop_imports(text: &str, names: &[&str]) -> String {
    let heads = ["\npub fn ", "\n#[derive("];
    let first_item = heads.iter().filter_map(|head| text.find(head)).min().expect("an item");
    let mut header = text[..first_item].to_string();
    for name in names {
        let found = whole_words(&header, name);
        assert_count(found.len(), 1, &format!("drop import {name}"));
        let mut end = found[0] + name.len();
        if header[end..].starts_with(',') {
            end += 1;
        }
        header.replace_range(found[0]..end, "");
    }
    format!("{header}{}", &text[first_item..])
}

/// Drops the derives and the field attributes of serialisation, which nothing here uses.
pub fn drop_serialisation(text: &str, derives: usize, attributes: usize, step: &str) -> String {
    let text = replace(text, "SimpleSerialize, ", "", derives, step);
    let text = replace(&text, ", serde::Serialize, serde::Deserialize", "", derives, step);
    let is_attribute = |line: &&str| line.trim_start().starts_with("#[serde(");
    assert_count(text.lines().filter(is_attribute).count(), attributes, step);
    text.lines().filter(|line| !is_attribute(line)).map(|line| format!("{line}\n")).collect()
}
