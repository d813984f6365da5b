//! The calls that a Rattle text has for C: each function with `#[unsafe(no_mangle)] pub extern "C"`. All that is public
//! must be such a function; what else the text has, contracts and bodies among it, is not looked at.
use crate::tokens::{without_comments, Tokens};
use crate::{add, file, Call, Calls, Number, Parsed, Type};

/// How a call begins: `#[unsafe(no_mangle)] pub extern "C" fn`.
const EXPORTED: [&str; 11] = ["#", "[", "unsafe", "(", "no_mangle", ")", "]", "pub", "extern", "\"C\"", "fn"];

/// `value` is that of a constant which the text, by its tokens, names.
pub fn parse(text: &str, value: &dyn Fn(&str, &str) -> Parsed<usize>) -> Parsed<Calls> {
    let code = without_comments(text)?;
    let mut tokens = Tokens::new(&code)?;
    let mut calls = Calls::new();
    while !tokens.is_end() {
        if tokens.take_all(&EXPORTED) {
            let (name, call) = function(&mut tokens, &|name| value(&code, name))?;
            add(&mut calls, name, call)?;
        } else {
            let token = tokens.next()?;
            if ["pub", "extern", "no_mangle"].contains(&token.as_str()) {
                return Err(format!("{token} stands alone before {} {}", tokens.peek(0), tokens.peek(1)));
            }
        }
    }
    Ok(calls)
}

fn function(tokens: &mut Tokens, value: &dyn Fn(&str) -> Parsed<usize>) -> Parsed<(String, Call)> {
    let name = tokens.name()?;
    tokens.expect("(")?;
    let parameters = tokens.listed(")", |tokens| parameter(tokens, value))?.concat();
    tokens.expect("-")?;
    tokens.expect(">")?;
    let result = tokens.rust_number()?;
    Ok((name, Call { parameters, result }))
}

/// A slice becomes two parameters.
fn parameter(tokens: &mut Tokens, value: &dyn Fn(&str) -> Parsed<usize>) -> Parsed<Vec<(String, Type)>> {
    let name = tokens.name()?;
    tokens.expect(":")?;
    if !tokens.take("&") {
        return Ok(vec![(name, Type::Given(tokens.rust_number()?))]);
    }
    let written = tokens.take("mut");
    if !tokens.take("[") {
        let number = tokens.rust_number()?;
        return Ok(vec![(name, Type::Lent { written, number, length: None })]);
    }
    let number = tokens.rust_number()?;
    if tokens.take(";") {
        let length = Some(tokens.length(value)?);
        tokens.expect("]")?;
        return Ok(vec![(name, Type::Lent { written, number, length })]);
    }
    tokens.expect("]")?;
    let length = (format!("{name}_len"), Type::Given(Number::Size));
    Ok(vec![(name, Type::Lent { written, number, length: None }), length])
}

/// The value of a constant in a text of the tree: its own, or that of the module which the text has it from.
pub fn constant(code: &str, name: &str) -> Parsed<usize> {
    let mut tokens = Tokens::new(code)?;
    while !tokens.is_end() {
        if tokens.take_all(&["const", name, ":", "usize", "="]) {
            return sum(&mut tokens, code);
        }
        if tokens.take("use") {
            let (mut path, mut names) = (vec![tokens.name()?], Vec::new());
            while names.is_empty() && tokens.take_all(&[":", ":"]) {
                if tokens.take("{") {
                    names = tokens.listed("}", Tokens::name)?;
                } else {
                    path.push(tokens.next()?);
                }
            }
            if names.is_empty() {
                names.extend(path.pop());
            }
            if !path.is_empty() && names.iter().any(|it| it == name) {
                let module = path.get(1).map_or("lib", String::as_str);
                let text = file(&format!("crates/{}/src/{module}.rt", path[0]))?;
                return constant(&without_comments(&text)?, name);
            }
        } else {
            tokens.next()?;
        }
    }
    Err(format!("{name} has no value"))
}

/// Products of numbers and names, added up, to the end of the item.
fn sum(tokens: &mut Tokens, code: &str) -> Parsed<usize> {
    let mut total = 0;
    loop {
        let mut product = tokens.length(|name| constant(code, name))?;
        while tokens.take("*") {
            product *= tokens.length(|name| constant(code, name))?;
        }
        total += product;
        if !tokens.take("+") {
            tokens.expect(";")?;
            return Ok(total);
        }
    }
}
