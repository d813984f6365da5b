//! A header in C: macros, enums, inline functions, prototypes.
use crate::tokens::{without_comments, Tokens};
use crate::{add, Call, Calls, Number, Parsed, Type};
use std::collections::BTreeMap;

#[derive(Debug, Default)]
pub struct Header {
    /// The macros that stand for a number.
    pub numbers: BTreeMap<String, usize>,
    pub enums: BTreeMap<String, Vec<(String, usize)>>,
    pub calls: Calls,
}

pub fn parse(text: &str) -> Parsed<Header> {
    let mut header = Header::default();
    let code = preprocessed(&without_comments(text)?, &mut header.numbers)?;
    let mut tokens = Tokens::new(&code)?;
    while !tokens.is_end() {
        if tokens.take("enum") {
            let name = tokens.name()?;
            tokens.expect("{")?;
            let cases = tokens.listed("}", case)?;
            tokens.expect(";")?;
            header.enums.insert(name, cases);
        } else if tokens.take("static") {
            inline_function(&mut tokens, &header.numbers)?;
        } else {
            let (name, call) = signature(&mut tokens, &header.numbers)?;
            tokens.expect(";")?;
            add(&mut header.calls, name, call)?;
        }
    }
    Ok(header)
}

/// What C, and not C++, sees of the header; the macros that stand for a number go to `numbers`.
fn preprocessed(text: &str, numbers: &mut BTreeMap<String, usize>) -> Parsed<String> {
    let (mut code, mut open) = (String::new(), Vec::new());
    for line in text.lines().map(str::trim) {
        let words: Vec<&str> = line.split_whitespace().collect();
        match words[..] {
            _ if line.ends_with('\\') => return Err(format!("{line} goes on")),
            ["#ifndef", name] if name == "SNAPSHOT_H" || name == "__cplusplus" => open.push("C"),
            ["#ifdef", "__cplusplus"] => open.push("C++"),
            ["#endif"] => {
                open.pop().ok_or("#endif without a beginning")?;
            }
            ["#include", name] if name.starts_with('<') && name.ends_with('>') => (),
            // The guard.
            ["#define", "SNAPSHOT_H"] => (),
            // A formula with parameters, which is not looked at.
            ["#define", name, _, ..] if name.contains('(') => (),
            ["#define", name, number] => {
                let number = number.parse().map_err(|_| format!("{line} is no number"))?;
                numbers.insert(name.to_string(), number);
            }
            _ if line.starts_with('#') => return Err(format!("{line} is not known")),
            ["extern", "\"C\"", "{"] | ["}"] if open.contains(&"C++") => (),
            [] => (),
            _ if open.contains(&"C++") => return Err(format!("{line} is for C++ alone")),
            _ => {
                code += line;
                code.push('\n');
            }
        }
    }
    match open.pop() {
        None => Ok(code),
        Some(_) => Err("#endif is missing".to_string()),
    }
}

fn case(tokens: &mut Tokens) -> Parsed<(String, usize)> {
    let name = tokens.name()?;
    tokens.expect("=")?;
    let number = tokens.length(|name| Err(format!("{name} is no number")))?;
    Ok((name, number))
}

/// A function of the header's own, which is no declaration of a call.
fn inline_function(tokens: &mut Tokens, numbers: &BTreeMap<String, usize>) -> Parsed<()> {
    tokens.expect("inline")?;
    signature(tokens, numbers)?;
    tokens.expect("{")?;
    let mut depth = 1;
    while depth > 0 {
        match tokens.next()?.as_str() {
            "{" => depth += 1,
            "}" => depth -= 1,
            _ => (),
        }
    }
    Ok(())
}

fn number(tokens: &mut Tokens) -> Parsed<Number> {
    match tokens.next()?.as_str() {
        "size_t" => Ok(Number::Size),
        "uint8_t" => Ok(Number::Byte),
        "uint32_t" => Ok(Number::Word32),
        "uint64_t" => Ok(Number::Word64),
        "bool" => Ok(Number::Bool),
        other => Err(format!("{other} is no number")),
    }
}

fn signature(tokens: &mut Tokens, numbers: &BTreeMap<String, usize>) -> Parsed<(String, Call)> {
    let result = number(tokens)?;
    let name = tokens.name()?;
    tokens.expect("(")?;
    let parameters = if tokens.take_all(&["void", ")"]) {
        Vec::new()
    } else {
        let parameters = tokens.listed(")", |tokens| parameter(tokens, numbers))?;
        if parameters.is_empty() {
            return Err(format!("{name} does not say void"));
        }
        parameters
    };
    Ok((name, Call { parameters, result }))
}

fn parameter(tokens: &mut Tokens, numbers: &BTreeMap<String, usize>) -> Parsed<(String, Type)> {
    let written = !tokens.take("const");
    let number = number(tokens)?;
    let is_pointer = tokens.take("*");
    let name = tokens.name()?;
    if is_pointer {
        return Ok((name, Type::Lent { written, number, length: None }));
    }
    if tokens.take("[") {
        let value = |name: &str| numbers.get(name).copied().ok_or_else(|| format!("{name} is no macro"));
        let length = Some(tokens.length(value)?);
        tokens.expect("]")?;
        return Ok((name, Type::Lent { written, number, length }));
    }
    if written {
        Ok((name, Type::Given(number)))
    } else {
        Err(format!("{name} is const and not lent"))
    }
}
