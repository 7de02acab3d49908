//! What operators and indexes are asked about: small types, units over few symbols, and
//! pair tables and names beside them.

use crate::call::{Operand, Pages};
use crate::inputs::names::{shortest_names, table};
use crate::inputs::pairs::{page_of, pairs};
use crate::inputs::types::shapes::{
    all_over, array, fixed, generic, holding, named, of, over, Shape, A, ANY, ARRAY, B, BOOL, BYTE,
    CALLBACK, CANY, CARRAY, CBOOL, CBYTE, CENUM, CFLOAT, CHAR, CINT, CMAP, CRECORD, CRESULT, CSET,
    CSTRING, CTUPLE, CUINT, ENUM, FLOAT, FN, HANDLE, INT, MAP, NULL, RECORD, SET, STRING, TUPLE,
    UINT,
};
use crate::limits::{MAX_EXPONENT, MAX_SYMBOLS, NO_UNIT};
use crate::units::{unit_bytes, Term};

/// The operators' codes, and some that are none.
pub const CODES: [u32; 16] = [0, 1, 2, 3, 4, 5, 6, 7, 8, 9, 10, 11, 12, 13, 14, 255];

pub const PLUS: u32 = 1;
pub const MINUS: u32 = 2;
pub const STAR: u32 = 3;
pub const SLASH: u32 = 4;
pub const LESS: u32 = 5;
pub const EQUAL: u32 = 9;
pub const AND: u32 = 11;
pub const OR: u32 = 12;
pub const BANG: u32 = 13;

/// Symbols that units have; more follow them.
pub const MM: u8 = 0;
pub const IN: u8 = 1;
pub const S: u8 = 2;

/// How many names there are for the symbols of all these units.
pub const NAMES: usize = 2 * MAX_SYMBOLS;

const LIMIT: i16 = MAX_EXPONENT as i16;

// ---- Types ----

/// Every small type.
pub fn small() -> Vec<Shape> {
    [plain(), unions(), unions_of_one_sort(), nested()].concat()
}

/// Types that are no unions.
pub fn plain() -> Vec<Shape> {
    let (int, a) = (fixed(INT), generic(A));
    let mut shapes: Vec<Shape> = (0..=FN).map(fixed).collect();
    shapes.extend((RECORD..=HANDLE).map(|kind| named(kind, A)));
    shapes.extend([named(RECORD, B), named(CENUM, B), a.clone()]);
    shapes.extend((ARRAY..=CRESULT).map(|kind| over(kind, &[INT])));
    shapes.extend([
        array(array(int.clone())),
        over(CARRAY, &[FLOAT]),
        array(over(ANY, &[INT, FLOAT])),
        over(MAP, &[INT, FLOAT]),
        over(MAP, &[CINT, CINT]),
        over(CMAP, &[STRING, INT]),
        over(MAP, &[NULL, INT]),
        of(MAP, &[a, fixed(BOOL)]),
        of(CMAP, &[over(ANY, &[INT, STRING]), over(ARRAY, &[INT])]),
        of(MAP, &[over(CALLBACK, &[INT]), fixed(BOOL)]),
        over(MAP, &[FN, BOOL]),
        over(TUPLE, &[]),
        over(TUPLE, &[INT]),
        over(CTUPLE, &[INT, BOOL]),
        over(CALLBACK, &[INT]),
        over(CALLBACK, &[INT, BOOL]),
    ]);
    shapes
}

/// Unions of up to two members, most of them of numbers, some of unions and of nothing.
fn unions() -> Vec<Shape> {
    let choices = [
        fixed(INT),
        fixed(FLOAT),
        over(ANY, &[]),
        holding(ANY, &over(ANY, &[])),
        over(ANY, &[INT]),
        over(CANY, &[CINT, FLOAT]),
    ];
    let constant = [fixed(INT), over(CANY, &[]), over(ANY, &[CINT])];
    [all_over(ANY, &choices, 0..=2), all_over(CANY, &constant, 0..=1)].concat()
}

/// Unions whose members pass some operator together, or index alike or not.
fn unions_of_one_sort() -> Vec<Shape> {
    let plain: [&[u8]; 8] = [
        &[INT, CINT, INT],
        &[UINT, CUINT],
        &[CFLOAT, FLOAT],
        &[BYTE, CBYTE],
        &[BOOL, CBOOL],
        &[STRING, CSTRING],
        &[CHAR],
        &[INT, BOOL, STRING, UINT],
    ];
    let [int, float] = [INT, FLOAT].map(|kind| over(ARRAY, &[kind]));
    let of_others = [
        vec![named(RECORD, A), named(CRECORD, B)],
        vec![named(ENUM, A), named(CENUM, A)],
        vec![int.clone(), over(CARRAY, &[INT])],
        vec![int.clone(), float.clone(), over(SET, &[BOOL])],
        vec![over(MAP, &[INT, BOOL]), over(CSET, &[FLOAT])],
        vec![over(MAP, &[INT, BOOL]), over(CMAP, &[STRING, BOOL])],
        vec![int.clone(), over(TUPLE, &[INT]), fixed(NULL)],
        vec![over(CALLBACK, &[INT]), fixed(FN)],
        vec![of(ANY, &[int.clone(), float.clone()]), over(SET, &[INT])],
        vec![int, of(CANY, &[holding(ANY, &float)])],
        vec![array(over(ANY, &[INT, FLOAT])), array(over(CANY, &[])), over(CMAP, &[INT, INT])],
    ];
    let plain = plain.iter().map(|members| over(ANY, members));
    plain.chain(of_others.iter().map(|members| of(CANY, members))).collect()
}

/// Unions below unions, which go round again.
fn nested() -> Vec<Shape> {
    let ints = over(ANY, &[INT, CINT]);
    let numbers = over(ANY, &[INT, FLOAT]);
    let twice = |shape: &Shape| holding(ANY, &holding(CANY, shape));
    vec![
        twice(&ints),
        twice(&twice(&ints)),
        twice(&twice(&over(ANY, &[]))),
        twice(&numbers),
        of(ANY, &[twice(&ints), fixed(INT)]),
        of(ANY, &[fixed(INT), twice(&over(ANY, &[]))]),
        of(ANY, &[twice(&numbers), fixed(FLOAT), twice(&ints)]),
        of(ANY, &[twice(&numbers), twice(&over(ANY, &[CFLOAT, INT])), numbers.clone()]),
        of(ANY, &[twice(&numbers), twice(&over(CANY, &[CINT, CFLOAT]))]),
        of(CANY, &[twice(&over(ANY, &[BOOL])), over(ANY, &[CBOOL, BOOL])]),
        twice(&of(ANY, &[twice(&numbers), fixed(INT)])),
    ]
}

// ---- Units ----

/// So many symbols from `first` on, each once.
pub fn several(first: u8, count: usize) -> Vec<Term> {
    (first..).take(count).map(|symbol| (symbol, 1)).collect()
}

/// None, the empty one, and units that are equal, convertible or not by the tables below,
/// and that are too large or too many together.
pub fn units() -> Vec<Vec<u8>> {
    let terms: [&[Term]; 14] = [
        &[],
        &[(MM, 1)],
        &[(IN, 1)],
        &[(S, 1)],
        &[(MM, 2)],
        &[(MM, -1)],
        &[(MM, 1), (IN, -1)],
        &[(IN, 1), (S, -1)],
        &[(MM, 1), (S, -1)],
        &[(MM, LIMIT)],
        &[(MM, -LIMIT)],
        &[(IN, LIMIT)],
        &several(0, MAX_SYMBOLS),
        &several(MAX_SYMBOLS as u8, MAX_SYMBOLS),
    ];
    let mut units = vec![NO_UNIT.to_vec()];
    units.extend(terms.map(unit_bytes));
    units
}

pub fn operand(checked: impl Into<u32>, unit: &[u8]) -> Operand<'_> {
    Operand { checked: checked.into(), unit }
}

// ---- Pages ----

/// A pair table, and names beside it.
pub struct Beside {
    pub names: Vec<u8>,
    pub lent: bool,
    pub pairs: Vec<u8>,
}

impl Beside {
    pub fn with<'a>(&'a self, store: &'a [u8]) -> Pages<'a> {
        Pages { store, names: &self.names, lent: self.lent, pairs: &self.pairs }
    }
}

/// Tables without a pair, with in and mm, and with s joined to them; names lent and not.
pub fn besides() -> Vec<Beside> {
    let lists = [pairs(&[]), pairs(&[(IN, MM)]), pairs(&[(IN, MM), (S, IN)])];
    let names = table(&shortest_names(NAMES));
    let mut besides = Vec::new();
    for list in &lists {
        for (names, lent) in [(names.clone(), true), (vec![9], false)] {
            besides.push(Beside { names, lent, pairs: page_of(list, 0) });
        }
    }
    besides
}
