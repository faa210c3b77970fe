//! What a C header declares.

use crate::model::{flat, Access, Argument, Fields, Function, Interface, Type};
use crate::text::{number, without_comments, Tokens};
use std::collections::BTreeMap;

struct Header {
    interface: Interface,
    /// Typedefs of numbers.
    numbers: BTreeMap<String, Type>,
}

pub fn read(source: &'static str, text: &str) -> Interface {
    let (plain, constants) = preprocessed(&without_comments(text));
    let mut header = Header { interface: Interface { source, constants, ..Interface::default() }, numbers: BTreeMap::new() };
    let mut tokens = Tokens::of(&plain);
    while !tokens.is_empty() {
        header.declaration(&mut tokens);
    }
    header.interface
}

/// The lines that C sees, and the constants that are defined. Lines for C++ alone, macros with arguments and the attribute
/// are passed.
fn preprocessed(text: &str) -> (String, BTreeMap<String, u64>) {
    let (mut plain, mut constants, mut for_cpp) = (String::new(), BTreeMap::new(), false);
    for line in text.lines() {
        let words: Vec<&str> = line.split_whitespace().collect();
        match words[..] {
            ["#ifdef", "__cplusplus"] => for_cpp = true,
            ["#else"] | ["#endif"] => for_cpp = false,
            ["#define", "HASKUMYE_CHECKED", ..] => (),
            ["#define", name, ref value @ ..] if !name.contains('(') && !value.is_empty() => {
                let value = number(&value.concat()).unwrap_or_else(|| panic!("{name} is no plain number"));
                constants.insert(name.into(), value);
            }
            _ if line.starts_with('#') || for_cpp => (),
            _ => plain = plain + line + "\n",
        }
    }
    (plain, constants)
}

impl Header {
    fn declaration(&mut self, tokens: &mut Tokens) {
        if tokens.take("static inline") {
            tokens.pass_body();
            return;
        }
        if tokens.take("typedef struct") {
            let fields = self.fields(tokens);
            self.interface.structs.insert(tokens.next(), fields);
        } else if tokens.take("typedef") {
            let kind = self.base(&tokens.next());
            self.numbers.insert(tokens.next(), kind);
        } else if tokens.take("enum") {
            self.enumeration(tokens);
        } else if tokens.take("HASKUMYE_ASSERT_SIZE (") {
            while tokens.next() != ")" {}
        } else {
            self.function(tokens);
        }
        tokens.expect(";");
    }

    fn fields(&self, tokens: &mut Tokens) -> Fields {
        let mut fields = vec![];
        tokens.expect("{");
        while !tokens.take("}") {
            let (count, width) = self.block(&tokens.next());
            let name = tokens.next();
            let times = if tokens.take("[") { self.interface.length(&tokens.next()) } else { 1 };
            tokens.take("]");
            tokens.expect(";");
            fields.push((name, count * times, width));
        }
        fields
    }

    fn enumeration(&mut self, tokens: &mut Tokens) {
        tokens.next();
        tokens.expect("{");
        while !tokens.take("}") {
            let name = tokens.next();
            tokens.expect("=");
            self.interface.constants.insert(name, tokens.number());
            tokens.take(",");
        }
    }

    fn function(&mut self, tokens: &mut Tokens) {
        tokens.take("HASKUMYE_CHECKED");
        let result = self.base(&tokens.next());
        let name = tokens.next();
        let mut arguments = vec![];
        tokens.expect("(");
        while !tokens.take(")") && !tokens.take("void )") {
            arguments.push(self.argument(tokens));
            tokens.take(",");
        }
        self.interface.functions.insert(name, Function { arguments, result });
    }

    fn argument(&self, tokens: &mut Tokens) -> Argument {
        let access = if tokens.take("const") { Access::Const } else { Access::Mut };
        let base = tokens.next();
        let kind = match (tokens.take("*"), base.as_str()) {
            (true, "uint8_t") => Type::Bytes(access),
            (true, name) => {
                let (count, width) = self.block(name);
                Type::Block(access, count, width)
            }
            (false, name) => self.base(name),
        };
        Argument { name: Some(tokens.next()), kind }
    }

    /// How many numbers a type holds, and their width.
    fn block(&self, name: &str) -> (usize, usize) {
        match (self.interface.structs.get(name), name) {
            (Some(fields), _) => flat(fields).expect("fields of one width"),
            (None, "char") => (1, 1),
            (None, _) => match self.base(name) {
                Type::Number(width) => (1, width),
                _ => panic!("no field can have the type {name}"),
            },
        }
    }

    fn base(&self, name: &str) -> Type {
        match name {
            "void" => Type::Nothing,
            "uint8_t" => Type::Number(1),
            "uint16_t" => Type::Number(2),
            "uint32_t" => Type::Number(4),
            "uint64_t" => Type::Number(8),
            "size_t" => Type::Size,
            _ => self.numbers.get(name).unwrap_or_else(|| panic!("the type {name} is not known")).clone(),
        }
    }
}
