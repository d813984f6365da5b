//! The declarations in a Rust text: names in use, then one block.
use crate::tokens::{without_comments, Tokens};
use crate::{add, Call, Calls, Parsed, Type};

/// `value` is that of a constant.
pub fn parse(text: &str, value: &dyn Fn(&str) -> Parsed<usize>) -> Parsed<Calls> {
    let mut tokens = Tokens::new(&without_comments(text)?)?;
    while tokens.take("use") {
        while !tokens.take(";") {
            tokens.next()?;
        }
    }
    let mut calls = Calls::new();
    for token in ["extern", "\"C\"", "{"] {
        tokens.expect(token)?;
    }
    while !tokens.take("}") {
        tokens.expect("pub")?;
        tokens.expect("fn")?;
        let name = tokens.name()?;
        tokens.expect("(")?;
        let parameters = tokens.listed(")", |tokens| parameter(tokens, value))?;
        tokens.expect("-")?;
        tokens.expect(">")?;
        let result = tokens.rust_number()?;
        tokens.expect(";")?;
        add(&mut calls, name, Call { parameters, result })?;
    }
    if tokens.is_end() {
        Ok(calls)
    } else {
        Err(format!("{} after the block", tokens.peek(0)))
    }
}

fn parameter(tokens: &mut Tokens, value: &dyn Fn(&str) -> Parsed<usize>) -> Parsed<(String, Type)> {
    let name = tokens.name()?;
    tokens.expect(":")?;
    if !tokens.take("*") {
        return Ok((name, Type::Given(tokens.rust_number()?)));
    }
    let written = tokens.take("mut");
    if !written {
        tokens.expect("const")?;
    }
    if !tokens.take("[") {
        return Ok((name, Type::Lent { written, number: tokens.rust_number()?, length: None }));
    }
    let number = tokens.rust_number()?;
    tokens.expect(";")?;
    let length = Some(tokens.length(value)?);
    tokens.expect("]")?;
    Ok((name, Type::Lent { written, number, length }))
}
