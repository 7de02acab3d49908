//! The model of the type store, and the expected answers of its calls.
//!
//! What matches, unifies, has a generic, is substituted or made const comes from
//! the oracle, on trees. It has neither store nor limits: these are written from
//! document 01, section Types, and from nothing else.
//!
//! - `store`: the page, its form, and making a type
//! - `trees`: a number of the store as the oracle's tree, and back
//! - `bindings`: their bytes
//! - `walk`: the order in which names are bound

pub mod bindings;
pub mod store;
pub mod trees;
mod walk;

use crate::call::{Call, Given, Outcome, Question};
use crate::limits::{
    Refusal, ABSENT, ANSWERED_FUNCTION, BINDINGS_BYTES, BROKEN_TABLE, FUNCTION, NOT_IN_USE,
    UNDEFINED_CODE, UNKNOWN, WRONG_CHILD_COUNT,
};
use crate::names::Names;
use crate::units::stand_in_name;
use bindings::Bindings;
use oracle::structs::CheckType;
use rl_ast::statements::TypeAnnotation as Type;
use std::borrow::Cow;
use std::collections::HashMap;
use std::sync::LazyLock;
use store::{child_counts, is_named, Entry, Store, CALLBACK, LAST_KIND};
use walk::Walk;

/// The most nodes that the tree of a type may have for the oracle to be asked.
const MAX_NODES: usize = 3_000;

/// The most that the nodes of the types of one question may come to, multiplied.
const MAX_WORK: usize = 200_000;

/// Made once, since nearly every question needs them.
static STAND_IN_NAMES: LazyLock<Vec<String>> =
    LazyLock::new(|| (0..=255).map(stand_in_name).collect());

/// A store, and the names of the numbers in use: those lent, else one that stands
/// in for each of the 256.
pub struct Tables {
    pub store: Store,
    pub names: Cow<'static, [String]>,
    /// The length of the store's page.
    length: usize,
}

impl Tables {
    /// Both in form, and every name of the store in use.
    pub fn read(page: &[u8], names: &[u8], lent: bool) -> Result<Self, Refusal> {
        let names = if lent {
            Cow::Owned(Names::read(names).ok_or(BROKEN_TABLE)?.strings())
        } else {
            Cow::Borrowed(STAND_IN_NAMES.as_slice())
        };
        let store = Store::read(page, names.len()).ok_or(BROKEN_TABLE)?;
        Ok(Self { store, names, length: page.len() })
    }

    pub fn bindings(&self, bytes: &[u8; BINDINGS_BYTES]) -> Result<Bindings, Refusal> {
        Bindings::read(bytes, &self.store, self.names.len()).ok_or(BROKEN_TABLE)
    }

    pub fn in_use(&self, number: u32) -> Result<u16, Refusal> {
        if self.store.in_use(number) {
            Ok(number as u16)
        } else {
            Err(NOT_IN_USE)
        }
    }

    /// The oracle's type of a number in use.
    pub fn tree(&self, number: u16) -> Type {
        assert!(self.store.nodes(number) <= MAX_NODES, "too large for the oracle");
        trees::tree(&self.store, &self.names, number)
    }

    /// How many nodes the tree of a number has; 1 where it is not in use.
    pub fn nodes(&self, number: u16) -> usize {
        match self.store.in_use(number.into()) {
            true => self.store.nodes(number),
            false => 1,
        }
    }

    /// The oracle's checked type of a number.
    pub fn checked(&self, number: u32) -> Result<CheckType, Refusal> {
        if number >= UNKNOWN {
            return Ok(CheckType::Unknown);
        }
        let tree = self.tree(self.in_use(number % FUNCTION)?);
        match tree {
            _ if number < FUNCTION => Ok(CheckType::Known(tree)),
            Type::Callback(params, answer) => {
                Ok(CheckType::Function { params, return_type: *answer })
            }
            _ => Err(NOT_IN_USE),
        }
    }

    /// The oracle's bindings.
    fn map(&self, bindings: &Bindings) -> HashMap<String, Type> {
        let bound = |&(name, number): &(u8, u16)| {
            (self.names[usize::from(name)].clone(), self.tree(number))
        };
        bindings.0.iter().map(bound).collect()
    }

    /// What the oracle says of two known types.
    fn known_matches(&self, actual: u16, expected: u16) -> bool {
        let (actual, expected) = (self.tree(actual), self.tree(expected));
        CheckType::Known(actual).matches(&CheckType::Known(expected))
    }

    /// Enters a type that the oracle answers, and gives its number and the page.
    pub fn entered(&mut self, tree: &Type) -> Outcome {
        let number = trees::enter(&mut self.store, &self.names, tree, self.length)?;
        Ok(self.made(number))
    }

    fn made(&self, number: u16) -> Given {
        let page = self.store.write(self.length);
        Given { value: number.into(), page, ..Given::default() }
    }
}

fn answer(yes: bool) -> Outcome {
    Ok(Given { value: yes.into(), ..Given::default() })
}

pub fn empty_types(page: &[u8]) -> Outcome {
    if page.len() < 2 {
        return Err(BROKEN_TABLE);
    }
    Ok(Given { page: vec![0; page.len()], ..Given::default() })
}

/// The entry's own name is not looked at: there are names that it has no room for.
pub fn make_type(page: &[u8], names: &[u8], lent: bool, entry: Entry, name: u16) -> Outcome {
    if entry.kind > LAST_KIND {
        return Err(UNDEFINED_CODE);
    }
    let mut tables = Tables::read(page, names, lent)?;
    for &child in &entry.children {
        tables.in_use(child.into())?;
    }
    if is_named(entry.kind) && usize::from(name) >= tables.names.len() {
        return Err(NOT_IN_USE);
    }
    if !child_counts(entry.kind).contains(&entry.children.len()) {
        return Err(WRONG_CHILD_COUNT);
    }
    let name = if is_named(entry.kind) { name as u8 } else { 0 };
    let number = tables.store.make(Entry { name, ..entry }, tables.length)?;
    Ok(tables.made(number))
}

pub fn read_type(page: &[u8], names: &[u8], lent: bool, number: u32) -> Outcome {
    let tables = Tables::read(page, names, lent)?;
    let number = tables.in_use(number)?;
    let mut out = vec![tables.store.depth(number) as u8];
    out.extend(tables.store.entry(number).bytes());
    Ok(Given { out, ..Given::default() })
}

pub fn matches(page: &[u8], names: &[u8], lent: bool, [actual, expected]: [u32; 2]) -> Outcome {
    let tables = Tables::read(page, names, lent)?;
    let (actual, expected) = (tables.checked(actual)?, tables.checked(expected)?);
    answer(actual.matches(&expected))
}

pub fn has_generic(page: &[u8], names: &[u8], lent: bool, number: u32) -> Outcome {
    let tables = Tables::read(page, names, lent)?;
    let number = tables.in_use(number)?;
    answer(oracle::types::has_generic(&tables.tree(number)))
}

pub fn into_const(page: &[u8], names: &[u8], lent: bool, checked: u32) -> Outcome {
    let mut tables = Tables::read(page, names, lent)?;
    let before = tables.checked(checked)?;
    match before.clone().into_const() {
        CheckType::Known(tree) => tables.entered(&tree),
        after => {
            assert_eq!(before, after, "only a known type has a const form");
            let value = match checked < UNKNOWN {
                true => ANSWERED_FUNCTION + (checked - FUNCTION),
                false => ABSENT,
            };
            Ok(Given { value, page: page.to_vec(), ..Given::default() })
        }
    }
}

pub fn unify(
    page: &[u8],
    names: &[u8],
    lent: bool,
    [expected, actual]: [u32; 2],
    bindings: &[u8; BINDINGS_BYTES],
) -> Outcome {
    let tables = Tables::read(page, names, lent)?;
    let bound = tables.bindings(bindings)?;
    let (expected, actual) = (tables.in_use(expected)?, tables.in_use(actual)?);

    let mut walk = Walk { tables: &tables, bound: bound.clone() };
    let walked = walk.unify(expected, actual)?;
    let mut map = tables.map(&bound);
    let yes = oracle::types::unify(&tables.tree(expected), &tables.tree(actual), &mut map);
    unified(&walk, walked, (yes, map), bindings)
}

pub fn unify_arg(
    page: &[u8],
    names: &[u8],
    lent: bool,
    [expected, actual]: [u32; 2],
    bindings: &[u8; BINDINGS_BYTES],
) -> Outcome {
    let tables = Tables::read(page, names, lent)?;
    let bound = tables.bindings(bindings)?;
    let expected = tables.in_use(expected)?;
    let checked = tables.checked(actual)?;

    let mut walk = Walk { tables: &tables, bound: bound.clone() };
    let actual = (actual % FUNCTION) as u16;
    let walked = match checked {
        CheckType::Known(_) => walk.unify(expected, actual)?,
        CheckType::Function { .. } if tables.store.entry(expected).kind == CALLBACK => {
            walk.unify_function(expected, actual)?
        }
        // Nothing is bound.
        _ => checked.matches(&CheckType::Known(tables.tree(expected))),
    };
    let mut map = tables.map(&bound);
    let yes = oracle::types::unify_arg(&tables.tree(expected), &checked, &mut map);
    unified(&walk, walked, (yes, map), bindings)
}

/// The oracle's answer, which the walk must have found, with the walk's bindings,
/// which must be the oracle's.
fn unified(
    walk: &Walk,
    walked: bool,
    (yes, map): (bool, HashMap<String, Type>),
    bindings: &[u8; BINDINGS_BYTES],
) -> Outcome {
    assert_eq!(walked, yes, "the oracle's answer");
    assert_eq!(walk.tables.map(&walk.bound), map, "the oracle's bindings");
    let out = walk.bound.write(bindings).to_vec();
    Ok(Given { value: yes.into(), out, ..Given::default() })
}

pub fn substitute(
    page: &[u8],
    names: &[u8],
    lent: bool,
    number: u32,
    bindings: &[u8; BINDINGS_BYTES],
) -> Outcome {
    let mut tables = Tables::read(page, names, lent)?;
    let bound = tables.bindings(bindings)?;
    let tree = tables.tree(tables.in_use(number)?);
    tables.entered(&oracle::types::substitute(&tree, &tables.map(&bound)))
}

/// Whether the oracle can be asked: it walks whole trees, however often a child is
/// shared, and compares the members of unions each with each.
pub fn is_within_reach(question: &Question) -> bool {
    let Question { call, page, names, .. } = question;
    if matches!(call, Call::EmptyTypes | Call::MakeType | Call::ReadType) {
        return true;
    }
    let Ok(tables) = Tables::read(page, names, question.lent()) else {
        return true;
    };
    let mut sizes: Vec<usize> =
        question.numbers().map(|number| tables.nodes(number as u16)).collect();
    if let Some(Ok(bound)) = question.bindings().map(|bytes| tables.bindings(bytes)) {
        let nodes = bound.0.iter().map(|&(_, number)| tables.nodes(number));
        sizes.push(nodes.max().unwrap_or(1));
    }
    are_within_reach(&sizes, MAX_WORK)
}

/// Whether trees of so many nodes can be walked together.
pub fn are_within_reach(sizes: &[usize], work: usize) -> bool {
    sizes.iter().all(|&size| size <= MAX_NODES) && sizes.iter().product::<usize>() <= work
}

#[cfg(test)]
mod tests {
    use super::*;
    use crate::inputs::types::shapes::{
        array, below, bindings, fixed, generic, of, over, stored, Shape, A, ANY, ARRAY, B, BOOL,
        BYTE, CALLBACK, CARRAY, CINT, FLOAT, INT, NULL, SET, TUPLE,
    };
    use crate::limits::{MAX_BINDINGS, NO_ROOM, TOO_DEEP};

    fn asked(actual: &Shape, expected: &Shape) -> u32 {
        let (page, [actual, expected]) = stored([actual, expected], 0);
        matches(&page, b"", false, [actual.into(), expected.into()]).unwrap().value
    }

    /// What `unify` says, and what is bound then.
    fn unified(expected: &Shape, actual: &Shape, bound: &[(u8, u16)]) -> (u32, Vec<u8>, [u16; 2]) {
        let (page, numbers) = stored([expected, actual], 0);
        let given = unify(&page, b"", false, numbers.map(u32::from), &bindings(bound)).unwrap();
        (given.value, given.out, numbers)
    }

    #[test]
    fn document_01s_cases() {
        assert_eq!(asked(&fixed(NULL), &fixed(INT)), 1);
        assert_eq!(asked(&fixed(INT), &fixed(NULL)), 0);
        assert_eq!(asked(&fixed(CINT), &fixed(INT)), 1);
        assert_eq!(asked(&fixed(INT), &fixed(CINT)), 0);
        assert_eq!(asked(&over(ARRAY, &[INT]), &over(CARRAY, &[FLOAT])), 1);
        assert_eq!(asked(&over(ARRAY, &[INT]), &over(ARRAY, &[FLOAT])), 0);
        assert_eq!(asked(&over(TUPLE, &[]), &over(TUPLE, &[INT])), 1);
        assert_eq!(asked(&over(TUPLE, &[NULL, INT]), &over(TUPLE, &[INT, INT])), 0);
    }

    #[test]
    fn document_01s_cases_of_unify() {
        let pair = of(TUPLE, &[generic(A), fixed(BOOL)]);
        let (no, out, _) = unified(&pair, &over(TUPLE, &[INT, FLOAT]), &[]);
        assert_eq!((no, out), (0, bindings(&[(A, INT.into())]).to_vec()));
        let (no, out, _) = unified(&pair, &over(TUPLE, &[INT]), &[]);
        assert_eq!((no, out), (0, bindings(&[]).to_vec()));
        let (yes, out, _) = unified(&array(generic(A)), &over(ARRAY, &[NULL]), &[]);
        assert_eq!((yes, out), (1, bindings(&[]).to_vec()));
        assert_eq!(unified(&over(ARRAY, &[BYTE]), &over(ARRAY, &[INT]), &[]).0, 1);
        assert_eq!(unified(&fixed(BYTE), &fixed(INT), &[]).0, 0);
    }

    #[test]
    fn names_are_bound_in_the_order_of_the_walk() {
        let expected = of(TUPLE, &[generic(B), array(generic(A)), generic(B)]);
        let actual = of(TUPLE, &[fixed(INT), over(ARRAY, &[BOOL]), fixed(INT)]);
        let (yes, out, _) = unified(&expected, &actual, &[(7, 0)]);
        let bound = [(7, 0), (B, INT.into()), (A, BOOL.into())];
        assert_eq!((yes, out), (1, bindings(&bound).to_vec()));
    }

    #[test]
    fn a_33rd_binding_is_refused() {
        let (page, [a]) = stored([&generic(A)], 0);
        let ask = |count: u8, last: u8| {
            let mut bound: Vec<(u8, u16)> = (1..count).map(|name| (name, 1)).collect();
            bound.push((last, 1));
            unify(&page, b"", false, [a.into(), 1], &bindings(&bound)).map(|given| given.value)
        };
        assert_eq!(ask(MAX_BINDINGS as u8 - 1, 200), Ok(1));
        assert_eq!(ask(MAX_BINDINGS as u8, 200), Err(NO_ROOM));
        assert_eq!(ask(MAX_BINDINGS as u8, A), Ok(1));
    }

    #[test]
    fn substitution_enters_from_left_to_right_and_no_union() {
        let shape = of(CALLBACK, &[array(generic(A)), of(ANY, &[generic(A)]), generic(A)]);
        let (page, [number]) = stored([&shape], 12);
        let bound = bindings(&[(A, FLOAT.into())]);
        let given = substitute(&page, b"", false, number.into(), &bound).unwrap();
        let union = number - 1;
        let entries = [Entry::of(ARRAY, &[5]), Entry::of(CALLBACK, &[number + 1, union, 5])];
        let own = page.len() - 12;
        assert_eq!(given.value, u32::from(number) + 2);
        assert_eq!(given.page[own..], entries.map(|entry| entry.bytes()).concat());
        let short = substitute(&page[..own + 11], b"", false, number.into(), &bound);
        assert_eq!(short.unwrap_err(), NO_ROOM);
    }

    #[test]
    fn each_case_of_a_checked_type_is_answered_as_a_number_of_its_own() {
        let (page, [callback]) = stored([&over(CALLBACK, &[INT])], 0);
        let callback = u32::from(callback);
        let value = |checked: u32| into_const(&page, b"", false, checked).unwrap().value;
        assert_eq!(value(callback), callback);
        assert_eq!(value(FUNCTION + callback), 32_768 + callback);
        assert_eq!(value(UNKNOWN), 65_535);
        assert_eq!(value(INT.into()), CINT.into());
    }

    #[test]
    fn the_first_type_refused_decides() {
        let shape = of(TUPLE, &[array(generic(B)), of(SET, &[generic(A)])]);
        let (page, [number, deep]) = stored([&shape, &below(ARRAY, 31, &fixed(INT))], 0);
        let ask = |b: u8, room: usize| {
            let page = [&page[..], &vec![0; room]].concat();
            let bound = bindings(&[(A, deep), (B, b.into())]);
            substitute(&page, b"", false, number.into(), &bound).unwrap_err()
        };
        // Array Int is there already: nothing needs room before the set, which is too deep.
        assert_eq!(ask(INT, 0), TOO_DEEP);
        assert_eq!(ask(FLOAT, 0), NO_ROOM);
        assert_eq!(ask(FLOAT, 4), TOO_DEEP);
    }

    #[test]
    fn the_lowest_refusal_comes_first() {
        let page = stored([&array(fixed(INT))], 0).0;
        let ask = |kind: u8, children: &[u16], name: u16| {
            let entry = Entry::of(kind, children);
            make_type(&page, b"\x00\x01\x01a", true, entry, name).map(|given| given.value)
        };
        assert_eq!(ask(38, &[99], 9), Err(UNDEFINED_CODE));
        assert_eq!(ask(ARRAY, &[1, 20], 9), Err(NOT_IN_USE));
        assert_eq!(ask(32, &[1], 1), Err(NOT_IN_USE));
        assert_eq!(ask(32, &[1], 256), Err(NOT_IN_USE));
        assert_eq!(ask(32, &[1], 0), Err(WRONG_CHILD_COUNT));
        assert_eq!(ask(INT, &[1], 0), Err(WRONG_CHILD_COUNT));
        assert_eq!(ask(SET, &[19], 9), Err(NO_ROOM));
        assert_eq!(ask(ARRAY, &[1], 9), Ok(19));
        assert_eq!(ask(ARRAY, &[1], 256), Ok(19));
        assert_eq!(ask(INT, &[], 9), Ok(1));
    }
}
