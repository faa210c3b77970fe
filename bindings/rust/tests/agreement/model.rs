//! What crosses between host and core, as one source declares it, and where two sources differ.

use crate::text::number;
use std::collections::{BTreeMap, BTreeSet};
use std::fmt;

#[derive(Clone, Debug, PartialEq, Eq)]
pub enum Type {
    Nothing,
    /// An unsigned number of so many bytes.
    Number(usize),
    /// A number as wide as a pointer.
    Size,
    /// A pointer to bytes whose number is the next argument.
    Bytes(Access),
    /// A pointer to so many numbers of so many bytes each.
    Block(Access, usize, usize),
}

#[derive(Clone, Copy, Debug, PartialEq, Eq)]
pub enum Access {
    Const,
    Mut,
}

impl fmt::Display for Type {
    fn fmt(&self, f: &mut fmt::Formatter) -> fmt::Result {
        let word = |access: &Access| if *access == Access::Const { "const" } else { "mut" };
        match self {
            Type::Nothing => write!(f, "nothing"),
            Type::Number(width) => write!(f, "u{}", 8 * width),
            Type::Size => write!(f, "size"),
            Type::Bytes(access) => write!(f, "{} bytes", word(access)),
            Type::Block(access, count, width) => write!(f, "{} {count} of u{}", word(access), 8 * width),
        }
    }
}

/// A source may leave a name out: Rattle names no lengths.
#[derive(Clone, Debug)]
pub struct Argument {
    pub name: Option<String>,
    pub kind: Type,
}

impl Argument {
    fn agrees(&self, other: &Self) -> bool {
        let names = self.name.as_ref().zip(other.name.as_ref());
        self.kind == other.kind && names.is_none_or(|(one, another)| one == another)
    }
}

impl fmt::Display for Argument {
    fn fmt(&self, f: &mut fmt::Formatter) -> fmt::Result {
        write!(f, "{}: {}", self.name.as_deref().unwrap_or("_"), self.kind)
    }
}

#[derive(Clone, Debug)]
pub struct Function {
    pub arguments: Vec<Argument>,
    pub result: Type,
}

/// A struct's fields in their order: name, how many numbers, bytes of each.
pub type Fields = Vec<(String, usize, usize)>;

/// So many numbers of one width, where all fields have it.
pub fn flat(fields: &Fields) -> Option<(usize, usize)> {
    let width = fields.first()?.2;
    let even = fields.iter().all(|field| field.2 == width);
    even.then(|| (fields.iter().map(|field| field.1).sum(), width))
}

/// All that one source declares.
#[derive(Clone, Debug, Default)]
pub struct Interface {
    pub source: &'static str,
    pub functions: BTreeMap<String, Function>,
    pub structs: BTreeMap<String, Fields>,
    pub constants: BTreeMap<String, u64>,
}

impl Interface {
    /// The length of an array: a number, or a constant's name.
    pub fn length(&self, token: &str) -> usize {
        let constant = || self.constants.get(&format!("HASKUMYE_{}", token.trim_start_matches("HASKUMYE_"))).copied();
        number(token).or_else(constant).unwrap_or_else(|| panic!("{token} is no length")) as usize
    }
}

/// One line for each difference in the functions.
pub fn functions_differ(one: &Interface, other: &Interface) -> Vec<String> {
    let mut lines = missing(one, other, |interface| &interface.functions);
    for (name, function) in &one.functions {
        let Some(twin) = other.functions.get(name) else { continue };
        let mut say = |what: String, here: &dyn fmt::Display, there: &dyn fmt::Display| {
            lines.push(format!("{name}: {what} is `{here}` in {}, `{there}` in {}", one.source, other.source));
        };
        if function.arguments.len() != twin.arguments.len() {
            say("the number of arguments".into(), &function.arguments.len(), &twin.arguments.len());
        }
        for (place, (here, there)) in function.arguments.iter().zip(&twin.arguments).enumerate() {
            if !here.agrees(there) {
                say(format!("argument {}", place + 1), here, there);
            }
        }
        if function.result != twin.result {
            say("what it returns".into(), &function.result, &twin.result);
        }
    }
    lines
}

/// One line for each difference in the constants.
pub fn constants_differ(one: &Interface, other: &Interface) -> Vec<String> {
    let mut lines = missing(one, other, |interface| &interface.constants);
    for (name, here) in &one.constants {
        if let Some(there) = other.constants.get(name).filter(|there| *there != here) {
            lines.push(format!("{name} is {here} in {}, {there} in {}", one.source, other.source));
        }
    }
    lines
}

/// One line for each struct of `names` that is not the same in both, field by field.
pub fn structs_differ(one: &Interface, other: &Interface, names: &[&str]) -> Vec<String> {
    let mut lines = vec![];
    for name in names {
        let (here, there) = (one.structs.get(*name), other.structs.get(*name));
        if here.is_none() || here != there {
            lines.push(format!("{name} is {here:?} in {}, {there:?} in {}", one.source, other.source));
        }
    }
    lines
}

fn missing<T>(one: &Interface, other: &Interface, part: impl Fn(&Interface) -> &BTreeMap<String, T>) -> Vec<String> {
    let names: BTreeSet<&String> = part(one).keys().chain(part(other).keys()).collect();
    let mut lines = vec![];
    for source in [one, other] {
        lines.extend(
            names.iter().filter(|name| !part(source).contains_key(**name)).map(|name| format!("{name} is missing in {}", source.source)),
        );
    }
    lines
}
