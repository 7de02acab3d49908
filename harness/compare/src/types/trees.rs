//! Types as the trees that the oracle takes, and back.

use super::store::{child_counts, is_named, Entry, Store, CALLBACK};
use crate::limits::{Refusal, FIXED_TYPES, WRONG_CHILD_COUNT};
use rl_ast::statements::TypeAnnotation as Type;
use std::rc::Rc;

/// The fixed types, by their kinds.
const FIXED: [Type; FIXED_TYPES] = [
    Type::Null,
    Type::Int,
    Type::CInt,
    Type::UInt,
    Type::CUInt,
    Type::Float,
    Type::CFloat,
    Type::Bool,
    Type::CBool,
    Type::String,
    Type::CString,
    Type::Byte,
    Type::CByte,
    Type::Char,
    Type::CChar,
    Type::Error,
    Type::CError,
    Type::HandleInfer,
    Type::Fn,
];

/// The tree of a type in use, its name numbers turned into the names.
pub fn tree(store: &Store, names: &[String], number: u16) -> Type {
    let Entry { kind, children, name } = store.entry(number);
    if usize::from(kind) < FIXED_TYPES {
        FIXED[usize::from(kind)].clone()
    } else if is_named(kind) {
        of_name(kind, names[usize::from(name)].clone())
    } else {
        of_children(kind, children.iter().map(|&child| tree(store, names, child)).collect())
    }
}

fn of_name(kind: u8, name: String) -> Type {
    match kind {
        32 => Type::Record(name),
        33 => Type::CRecord(name),
        34 => Type::Enum(name),
        35 => Type::CEnum(name),
        36 => Type::Handle(name),
        37 => Type::Generic(name),
        _ => unreachable!("kind {kind} has no name"),
    }
}

fn of_children(kind: u8, mut children: Vec<Type>) -> Type {
    if let 27..=30 = kind {
        return of_members(kind, Rc::new(children));
    }
    let last = Box::new(children.pop().expect("a child"));
    match kind {
        19 => Type::Array(last),
        20 => Type::CArray(last),
        21 => Type::Set(last),
        22 => Type::CSet(last),
        23 => Type::Result(last),
        24 => Type::CResult(last),
        25 => Type::Map(Box::new(children.remove(0)), last),
        26 => Type::CMap(Box::new(children.remove(0)), last),
        CALLBACK => Type::Callback(children, last),
        _ => unreachable!("kind {kind} has no children"),
    }
}

fn of_members(kind: u8, members: Rc<Vec<Type>>) -> Type {
    match kind {
        27 => Type::Tuple(members),
        28 => Type::CTuple(members),
        29 => Type::Any(members),
        _ => Type::CAny(members),
    }
}

/// The number of the type with that tree, which is entered from left to right,
/// children before their parent. The first type that is refused ends it.
pub fn enter(
    store: &mut Store,
    names: &[String],
    tree: &Type,
    length: usize,
) -> Result<u16, Refusal> {
    if let Some(kind) = FIXED.iter().position(|fixed| fixed == tree) {
        return Ok(kind as u16);
    }
    if let Some((kind, name)) = named(tree) {
        let number = names.iter().position(|known| known == name).expect("a name in use");
        return store.make(Entry::named(kind, number as u8), length);
    }
    let (kind, children) = parts(tree);
    let mut numbers = Vec::new();
    for child in children {
        numbers.push(enter(store, names, child, length)?);
    }
    if !child_counts(kind).contains(&numbers.len()) {
        return Err(WRONG_CHILD_COUNT);
    }
    store.make(Entry::of(kind, &numbers), length)
}

fn named(tree: &Type) -> Option<(u8, &String)> {
    match tree {
        Type::Record(name) => Some((32, name)),
        Type::CRecord(name) => Some((33, name)),
        Type::Enum(name) => Some((34, name)),
        Type::CEnum(name) => Some((35, name)),
        Type::Handle(name) => Some((36, name)),
        Type::Generic(name) => Some((37, name)),
        _ => None,
    }
}

/// The kind and the children of a type that is neither fixed nor named.
fn parts(tree: &Type) -> (u8, Vec<&Type>) {
    match tree {
        Type::Array(child) => (19, vec![child]),
        Type::CArray(child) => (20, vec![child]),
        Type::Set(child) => (21, vec![child]),
        Type::CSet(child) => (22, vec![child]),
        Type::Result(child) => (23, vec![child]),
        Type::CResult(child) => (24, vec![child]),
        Type::Map(key, value) => (25, vec![key, value]),
        Type::CMap(key, value) => (26, vec![key, value]),
        Type::Tuple(members) => (27, members.iter().collect()),
        Type::CTuple(members) => (28, members.iter().collect()),
        Type::Any(members) => (29, members.iter().collect()),
        Type::CAny(members) => (30, members.iter().collect()),
        Type::Callback(parameters, answer) => {
            (CALLBACK, parameters.iter().chain([answer.as_ref()]).collect())
        }
        _ => unreachable!("{tree:?} has no children"),
    }
}
