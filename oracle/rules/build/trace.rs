//! Counts the branches of the rules, for the coverage table alone: every test, every `if let`,
//! every loop and every choice of a minimum or maximum is wrapped in a counter of `crate::trace`.
//! A wrapped expression has the value of the bare one. Names are the generation, the function, a
//! number and, where a test has several operands, a letter: the tests and loops of a function
//! come first, in order of the text, then its choices.

/// Wraps the branches of every function of a text.
pub fn wrap_functions(text: &str, generation: &str) -> String {
    let mut out = String::from("use crate::trace::Choice;\n");
    let mut rest = text;
    while let Some(at) = rest.find("\npub fn ") {
        let end = at + rest[at..].find("\n}\n").expect("end of function") + "\n}\n".len();
        out += &rest[..at];
        out += &wrap_function(&rest[at..end], generation);
        rest = &rest[end..];
    }
    out + rest
}

fn wrap_function(function: &str, generation: &str) -> String {
    let name_start = "\npub fn ".len();
    let name_length = function[name_start..].find(['<', '(']).expect("end of the name");
    let name = format!("{generation}::{}", &function[name_start..name_start + name_length]);
    let body = function.find(" {\n").expect("start of the body") + " {\n".len();
    let mut wrapper = Wrapper { name, number: 0 };
    let is_test = function[..body].ends_with("-> bool {\n");
    let wrapped = wrapper.wrap_body(&function[body..], is_test);
    format!("{}{wrapped}", &function[..body])
}

struct Wrapper {
    name: String,
    number: usize,
}

impl Wrapper {
    fn next_name(&mut self) -> String {
        self.number += 1;
        format!("{}:{}", self.name, self.number)
    }

    fn wrap_body(&mut self, body: &str, is_test: bool) -> String {
        let mut out = String::new();
        let mut at = 0;
        while at < body.len() {
            let rest = &body[at..];
            let step = if rest.starts_with("//") {
                Some(verbatim(rest, rest.find('\n').expect("end of the comment")))
            } else if !at_word_start(body, at) {
                None
            } else {
                self.wrap_statement(rest)
            };
            let (text, length) = step.unwrap_or_else(|| {
                let length = rest.chars().next().map_or(1, char::len_utf8);
                verbatim(rest, length)
            });
            out += &text;
            at += length;
        }
        let out = self.wrap_choices(&out);
        if is_test {
            self.wrap_tail(&out)
        } else {
            out
        }
    }

    /// What stands for the start of `rest`, and how many bytes of it are done.
    fn wrap_statement(&mut self, rest: &str) -> Option<(String, usize)> {
        if rest.starts_with("if let ") || rest.starts_with("let Some(") {
            let closing = if rest.starts_with("if") { " {" } else { " else {" };
            let statement = &rest[..rest.find([';', '{'])?];
            let equals = statement.find(" = ")? + " = ".len();
            let end = rest.find(closing)?;
            let name = self.next_name();
            let option = &rest[equals..end];
            let text = format!("{}crate::trace::option(\"{name}\", {option})", &rest[..equals]);
            return Some((text, end));
        }
        if rest.starts_with("if ") {
            let end = outer_find(rest, "{")?;
            let name = self.next_name();
            return Some((format!("if {} ", wrap_test(&rest[3..end], &name)), end));
        }
        if rest.starts_with("for ") {
            let start = rest.find(" in ")? + " in ".len();
            let end = outer_find(rest, "{")?;
            let name = self.next_name();
            let items = rest[start..end].trim_end();
            let text = format!("{}crate::trace::walk(\"{name}\", {items}) ", &rest[..start]);
            return Some((text, end));
        }
        None
    }

    /// Minimum and maximum: which of the two numbers is taken.
    fn wrap_choices(&mut self, body: &str) -> String {
        let choices = [
            (".min(", ".traced_min("),
            (".max(", ".traced_max("),
            ("Gwei::min(", "crate::trace::smaller("),
            ("usize::min(", "crate::trace::smaller("),
        ];
        let mut out = String::new();
        let mut rest = body;
        loop {
            let next = choices.iter().filter_map(|choice| rest.find(choice.0).map(|at| (at, choice)));
            let Some((at, (plain, traced))) = next.min_by_key(|(at, _)| *at) else {
                return out + rest;
            };
            let name = self.next_name();
            out += &format!("{}{traced}\"{name}\", ", &rest[..at]);
            rest = &rest[at + plain.len()..];
        }
    }

    /// The last expression of a function that answers yes or no.
    fn wrap_tail(&mut self, body: &str) -> String {
        let end = body.rfind("\n}\n").map_or(0, |at| at);
        let start = body[..end].rfind(";\n").map_or(0, |at| at + ";\n".len());
        let name = self.next_name();
        format!("{}{}{}", &body[..start], wrap_test(&body[start..end], &name), &body[end..])
    }
}

fn verbatim(rest: &str, length: usize) -> (String, usize) {
    (rest[..length].to_string(), length)
}

fn at_word_start(text: &str, at: usize) -> bool {
    text.is_char_boundary(at) && !text[..at].ends_with(|c: char| c.is_alphanumeric() || c == '_' || c == '"')
}

/// The first `pattern` outside all round and square brackets.
fn outer_find(text: &str, pattern: &str) -> Option<usize> {
    let mut depth = 0;
    for (at, c) in text.char_indices() {
        if depth == 0 && text[at..].starts_with(pattern) {
            return Some(at);
        }
        match c {
            '(' | '[' => depth += 1,
            ')' | ']' => depth -= 1,
            _ => {}
        }
    }
    None
}

/// Wraps each operand of a test.
fn wrap_test(test: &str, name: &str) -> String {
    let mut operands = vec![];
    let mut signs = vec![];
    let mut rest = test;
    loop {
        let next = ["&&", "||"].into_iter().filter_map(|sign| Some((outer_find(rest, sign)?, sign)));
        let Some((at, sign)) = next.min() else { break };
        operands.push(rest[..at].trim());
        signs.push(sign);
        rest = &rest[at + sign.len()..];
    }
    operands.push(rest.trim());
    if let ([operand], Some(inner)) = (operands.as_slice(), test.trim().strip_prefix("!(")) {
        if operand.ends_with(')') && outer_find(inner, ")") == Some(inner.len() - 1) {
            return format!("!({})", wrap_test(&inner[..inner.len() - 1], name));
        }
    }
    let mut out = String::new();
    for (k, operand) in operands.iter().enumerate() {
        let letter = if operands.len() == 1 { String::new() } else { char::from(b'a' + k as u8).to_string() };
        out += &format!("crate::trace::test(\"{name}{letter}\", {operand})");
        if let Some(sign) = signs.get(k) {
            out += &format!(" {sign} ");
        }
    }
    out
}

/// The names of all counters in a wrapped text.
pub fn names(text: &str) -> Vec<String> {
    let quoted = text.split('"').skip(1).step_by(2);
    quoted.map(str::to_string).collect()
}
