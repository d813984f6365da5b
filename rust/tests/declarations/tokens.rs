//! Texts in tokens: words, numbers, strings, and any other character by itself. Comments are left out.
use crate::{Number, Parsed};

/// The text with a space in the place of each comment, whose line feeds stay.
pub fn without_comments(text: &str) -> Parsed<String> {
    let (mut kept, mut rest) = (String::new(), text);
    while let Some(at) = rest.find("/*").into_iter().chain(rest.find("//")).min() {
        let (before, comment) = rest.split_at(at);
        let end = if comment.starts_with("//") {
            comment.find('\n').unwrap_or(comment.len())
        } else {
            comment.find("*/").ok_or("a comment does not end")? + 2
        };
        kept += before;
        kept.push(' ');
        kept.extend(comment[..end].matches('\n'));
        rest = &comment[end..];
    }
    Ok(kept + rest)
}

pub struct Tokens {
    list: Vec<String>,
    at: usize,
}

fn is_word(c: char) -> bool {
    c.is_ascii_alphanumeric() || c == '_'
}

impl Tokens {
    /// Of a text without comments.
    pub fn new(text: &str) -> Parsed<Tokens> {
        let (mut list, mut rest) = (Vec::new(), text.trim_start());
        while let Some(first) = rest.chars().next() {
            let end = if is_word(first) {
                rest.find(|c| !is_word(c)).unwrap_or(rest.len())
            } else if first == '"' {
                rest[1..].find('"').ok_or("a string does not end")? + 2
            } else {
                first.len_utf8()
            };
            list.push(rest[..end].to_string());
            rest = rest[end..].trim_start();
        }
        Ok(Tokens { list, at: 0 })
    }

    /// The token at a distance from the next; empty past the end.
    pub fn peek(&self, distance: usize) -> &str {
        self.list.get(self.at + distance).map_or("", String::as_str)
    }

    pub fn is_end(&self) -> bool {
        self.at >= self.list.len()
    }

    pub fn next(&mut self) -> Parsed<String> {
        let token = self.list.get(self.at).cloned().ok_or("the text ends too early")?;
        self.at += 1;
        Ok(token)
    }

    /// Goes past the token, if it is the next.
    pub fn take(&mut self, token: &str) -> bool {
        let found = self.peek(0) == token;
        self.at += usize::from(found);
        found
    }

    /// Whether these tokens are next; goes past them.
    pub fn take_all(&mut self, tokens: &[&str]) -> bool {
        let found = tokens.iter().enumerate().all(|(i, token)| self.peek(i) == *token);
        self.at += if found { tokens.len() } else { 0 };
        found
    }

    pub fn expect(&mut self, token: &str) -> Parsed<()> {
        match self.next()? {
            found if found == token => Ok(()),
            found => Err(format!("{found} in the place of {token}, before {} {}", self.peek(0), self.peek(1))),
        }
    }

    /// A name.
    pub fn name(&mut self) -> Parsed<String> {
        let name = self.next()?;
        match name.chars().next() {
            Some(first) if is_word(first) && !first.is_ascii_digit() => Ok(name),
            _ => Err(format!("{name} is no name")),
        }
    }

    /// A length: a number, or a name with its value.
    pub fn length(&mut self, value: impl Fn(&str) -> Parsed<usize>) -> Parsed<usize> {
        let length = self.next()?;
        match length.parse() {
            Ok(number) => Ok(number),
            Err(_) => value(&length),
        }
    }

    /// One of Rust's numbers, which are Rattle's too.
    pub fn rust_number(&mut self) -> Parsed<Number> {
        match self.next()?.as_str() {
            "usize" => Ok(Number::Size),
            "u8" => Ok(Number::Byte),
            "u32" => Ok(Number::Word32),
            "u64" => Ok(Number::Word64),
            "bool" => Ok(Number::Bool),
            other => Err(format!("{other} is no number")),
        }
    }

    /// Items with a comma after each, which the last may lack, and the closing mark.
    pub fn listed<T>(&mut self, close: &str, mut item: impl FnMut(&mut Tokens) -> Parsed<T>) -> Parsed<Vec<T>> {
        let mut items = Vec::new();
        while !self.take(close) {
            items.push(item(self)?);
            if !self.take(",") {
                self.expect(close)?;
                break;
            }
        }
        Ok(items)
    }
}
