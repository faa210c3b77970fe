//! What Rust and Rattle declare: the two write functions, structs and types alike.

use crate::model::{flat, Access, Argument, Fields, Function, Interface, Type};
use crate::text::{self, without_comments, Tokens};
use std::collections::BTreeMap;

/// How a function that crosses begins in Rust's extern block.
pub const IN_RUST: &str = "pub fn";
/// How it begins in Rattle.
pub const IN_RATTLE: &str = "# [ unsafe ( no_mangle ) ] pub extern \" C \" fn";

/// `signed` is a keyword of C.
const RENAMED: [(&str, &str); 1] = [("signed", "signed_well")];

struct Source {
    interface: Interface,
    function_start: &'static str,
    /// Names of types: how many numbers, bytes of each.
    aliases: BTreeMap<String, (usize, usize)>,
}

/// All that a text declares. A type stands before its use.
pub fn read(source: &'static str, function_start: &'static str, text: &str) -> Interface {
    let interface = Interface { source, ..Interface::default() };
    let mut read = Source { interface, function_start, aliases: BTreeMap::new() };
    let mut tokens = Tokens::of(&without_comments(text));
    while !tokens.is_empty() {
        read.declaration(&mut tokens);
    }
    read.interface
}

impl Source {
    fn declaration(&mut self, tokens: &mut Tokens) {
        if tokens.take("pub type") {
            self.alias(tokens);
        } else if tokens.take("pub const") {
            self.constant(tokens);
        } else if tokens.take("pub struct") {
            self.structure(tokens);
        } else if tokens.take(self.function_start) {
            self.function(tokens);
        } else {
            tokens.next();
        }
    }

    fn alias(&mut self, tokens: &mut Tokens) {
        let name = tokens.next();
        tokens.expect("=");
        let block = self.block(tokens);
        self.aliases.insert(name, block);
    }

    /// A constant that is a sum of products of numbers and constants before it; another is no length.
    fn constant(&mut self, tokens: &mut Tokens) {
        let name = tokens.next();
        while !tokens.take("=") {
            tokens.next();
        }
        let mut words = vec![];
        while !tokens.take(";") {
            words.push(tokens.next());
        }
        let product = |words: &[String]| words.split(|word| word == "*").map(|factor| self.value(factor)).product::<Option<u64>>();
        let sum: Option<u64> = words.split(|word| word == "+").map(product).sum();
        self.interface.constants.extend(sum.map(|value| (format!("HASKUMYE_{name}"), value)));
    }

    /// A number, or a constant that is known.
    fn value(&self, words: &[String]) -> Option<u64> {
        let [word] = words else { return None };
        text::number(word).or_else(|| self.interface.constants.get(&format!("HASKUMYE_{word}")).copied())
    }

    /// A struct with named fields; another is not of those that cross.
    fn structure(&mut self, tokens: &mut Tokens) {
        let name = tokens.next();
        if !tokens.take("{") {
            return;
        }
        let mut fields = Fields::new();
        while !tokens.take("}") {
            tokens.pass_attributes();
            tokens.take("pub");
            let field = tokens.next();
            tokens.expect(":");
            let Some((count, width)) = self.known_block(tokens) else { return };
            fields.push((field, count, width));
            tokens.take(",");
        }
        self.aliases.extend(flat(&fields).map(|block| (name.clone(), block)));
        self.interface.structs.insert(name, fields);
    }

    fn function(&mut self, tokens: &mut Tokens) {
        let name = tokens.next();
        let mut arguments = vec![];
        tokens.expect("(");
        while !tokens.take(")") {
            arguments.extend(self.argument(tokens));
            tokens.take(",");
        }
        let result = if tokens.take("- >") { number(&tokens.next()) } else { Type::Nothing };
        self.interface.functions.insert(name, Function { arguments, result });
    }

    /// An argument; a slice crosses as two.
    fn argument(&self, tokens: &mut Tokens) -> Vec<Argument> {
        let name = tokens.next();
        let name = RENAMED.iter().find(|renamed| renamed.0 == name).map_or(name, |renamed| renamed.1.into());
        tokens.expect(":");
        let pointers =
            [("* const u8", Access::Const), ("* mut u8", Access::Mut), ("& [ u8 ]", Access::Const), ("& mut [ u8 ]", Access::Mut)];
        let pointer = pointers.into_iter().find(|(start, _)| tokens.take(start));
        let kind = pointer.map_or_else(|| self.kind(tokens), |(_, access)| Type::Bytes(access));
        let slice = pointer.is_some_and(|(start, _)| start.starts_with('&'));
        let length = slice.then_some(Argument { name: None, kind: Type::Size });
        std::iter::once(Argument { name: Some(name), kind }).chain(length).collect()
    }

    fn kind(&self, tokens: &mut Tokens) -> Type {
        let starts = [("* const", Access::Const), ("* mut", Access::Mut), ("& mut", Access::Mut), ("&", Access::Const)];
        match starts.into_iter().find(|(start, _)| tokens.take(start)) {
            Some((_, access)) => {
                let (count, width) = self.block(tokens);
                Type::Block(access, count, width)
            }
            None => number(&tokens.next()),
        }
    }

    fn block(&self, tokens: &mut Tokens) -> (usize, usize) {
        self.known_block(tokens).expect("a pointer to a type that crosses")
    }

    /// How many numbers a type holds and their width, where it is one that can cross.
    fn known_block(&self, tokens: &mut Tokens) -> Option<(usize, usize)> {
        let array = tokens.take("[");
        let name = tokens.next();
        let (count, width) = match (self.aliases.get(&name), name.as_str()) {
            (Some(block), _) => *block,
            (None, "u8" | "u16" | "u32" | "u64") => match number(&name) {
                Type::Number(width) => (1, width),
                _ => return None,
            },
            (None, _) => return None,
        };
        if !array {
            return Some((count, width));
        }
        tokens.expect(";");
        let times = self.interface.length(&tokens.next());
        tokens.expect("]");
        Some((count * times, width))
    }
}

fn number(name: &str) -> Type {
    match name {
        "u8" => Type::Number(1),
        "u16" => Type::Number(2),
        "u32" => Type::Number(4),
        "u64" => Type::Number(8),
        "usize" => Type::Size,
        _ => panic!("the type {name} does not cross"),
    }
}
