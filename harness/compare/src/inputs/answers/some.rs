//! Random operands, most of them unions below unions of one sort, and one random question
//! of each call.

use super::operands::{operand, CODES, MINUS};
use crate::answers::is_within_reach;
use crate::call::{Pages, Question};
use crate::inputs::pairs::{near_units, page_for as pairs_page_for, some_bytes, some_list, Groups};
use crate::inputs::types::shapes::{
    enter, fixed, generic, named, of, over, Shape, ANY, ARRAY, BOOL, BYTE, CALLBACK, CANY, CBOOL,
    CBYTE, CENUM, CFLOAT, CHAR, CINT, CMAP, CRECORD, CSET, CSTRING, CUINT, ENUM, FLOAT, FN, INT,
    MAP, NULL, RECORD, STRING, TUPLE, UINT,
};
use crate::inputs::types::{names_for, page_for, rubbish, some_shape};
use crate::inputs::units;
use crate::inputs::unused::any_unit;
use crate::limits::{FUNCTION, MAX_CHILDREN, MAX_DEPTH, MAX_NAMES, NO_UNIT, UNKNOWN};
use crate::pairs::Pair;
use crate::random::Random;
use crate::types::store::Store;

// ---- Types ----

/// Kinds that pass some operator together, and some that do not.
const SORTS: [&[u8]; 9] = [
    &[INT, CINT],
    &[INT, CINT],
    &[UINT, CUINT],
    &[FLOAT, CFLOAT],
    &[BYTE, CBYTE],
    &[BOOL, CBOOL],
    &[STRING, CSTRING],
    &[CHAR, CHAR, CHAR, NULL],
    &[INT, CINT, FLOAT, CFLOAT],
];

/// A type of the sort; seldom of none, or a union without members.
fn some_leaf(random: &mut Random, sort: &[u8], bound: usize) -> Shape {
    let name = random.below(bound) as u8;
    match random.below(120) {
        0 => over(*random.pick(&[ANY, CANY]), &[]),
        1 => named(*random.pick(&[RECORD, CRECORD, ENUM, CENUM]), name),
        2 => fixed(random.below(usize::from(FN) + 1) as u8),
        3 => generic(name),
        _ => fixed(*random.pick(sort)),
    }
}

/// An array, a set, a map or seldom what cannot be indexed.
fn some_container(random: &mut Random, sort: &[u8], bound: usize) -> Shape {
    let inner = match random.below(4) {
        0 => some_union(random, sort, 4, bound, some_leaf),
        _ => some_leaf(random, sort, bound),
    };
    match random.below(20) {
        0 => of(TUPLE, &[inner]),
        1 => some_leaf(random, sort, bound),
        2..=9 => {
            let key = some_leaf(random, &[INT, INT, STRING, NULL, CINT], bound);
            of(*random.pick(&[MAP, CMAP]), &[key, inner])
        }
        _ => of(ARRAY + random.below(usize::from(CSET - ARRAY) + 1) as u8, &[inner]),
    }
}

type Leaf = fn(&mut Random, &[u8], usize) -> Shape;

/// Unions below unions, of about so many members in all.
fn some_union(random: &mut Random, sort: &[u8], size: usize, bound: usize, leaf: Leaf) -> Shape {
    if size <= 1 {
        return leaf(random, sort, bound);
    }
    let most = if random.once_in(12) { MAX_CHILDREN } else { 4 };
    let count = 1 + random.below(most.min(size));
    let share = (size - 1) / count.max(2);
    let members: Vec<Shape> =
        (0..count).map(|_| some_union(random, sort, share, bound, leaf)).collect();
    of(*random.pick(&[ANY, ANY, CANY]), &members)
}

/// A union below so many unions of one member, often as many as the depth of 32 allows.
fn deepened(random: &mut Random, shape: Shape) -> Shape {
    let most = MAX_DEPTH - depth(&shape);
    let more = match random.below(3) {
        0 => most,
        1 => most.saturating_sub(1),
        _ => random.below(most + 1),
    };
    (0..more).fold(shape, |shape, _| of(*random.pick(&[ANY, CANY]), &[shape]))
}

fn depth(shape: &Shape) -> usize {
    1 + shape.children.iter().map(depth).max().unwrap_or(0)
}

fn some_operand(random: &mut Random, sort: &[u8], bound: usize, leaf: Leaf) -> Shape {
    let size = *random.pick(&[1, 1, 2, 3, 5, 8, 13, 30, 60]);
    match random.below(10) {
        0 => some_shape(random, size.min(13), bound),
        1 => {
            let shape = some_union(random, sort, size.min(13), bound, leaf);
            deepened(random, shape)
        }
        _ => some_union(random, sort, size, bound, leaf),
    }
}

// ---- Pages and units ----

/// A store, a pair table and names, the number below which all names lie, and two types.
struct Setting {
    store: Store,
    page: Vec<u8>,
    names: Vec<u8>,
    lent: bool,
    bound: usize,
    list: Vec<Pair>,
    pairs: Vec<u8>,
    two: [u16; 2],
}

impl Setting {
    /// Where the leaves of the first type and of the second are such.
    fn new(random: &mut Random, leaves: [Leaf; 2]) -> Self {
        let bound = *random.pick(&[1, 2, 3, 5, 9, 9, MAX_NAMES]);
        let lent = random.once_in(2) && (bound < MAX_NAMES || random.once_in(4));
        let names = if lent { names_for(random, bound) } else { rubbish(random) };
        let sort = *random.pick(&SORTS);
        let other = if random.once_in(8) { *random.pick(&SORTS) } else { sort };
        let mut store = Store::default();
        let [first, second] = leaves;
        let shapes = [(sort, first), (other, second)]
            .map(|(sort, leaf)| some_operand(random, sort, bound, leaf));
        if random.once_in(3) {
            enter(&mut store, &over(ANY, &[INT, FLOAT]));
        }
        let two = shapes.map(|shape| enter(&mut store, &shape));
        let mut page = page_for(&store, random);
        // Often more room than one new union needs.
        if page.ends_with(&[0]) || random.once_in(2) {
            page.extend(vec![0; *random.pick(&[0, 0, 20, 200])]);
        }
        let count = random.below(6);
        let list = some_list(random, count, bound);
        let pairs = pairs_page_for(&list, random);
        Self { store, page, names, lent, bound, list, pairs, two }
    }

    fn pages(&self) -> Pages<'_> {
        let Self { page, names, lent, pairs, .. } = self;
        Pages { store: page, names, lent: *lent, pairs }
    }

    /// A type's number as a checked type; seldom another one.
    fn checked(&self, random: &mut Random, number: u16) -> u32 {
        let callback = self.store.entry(number).kind == CALLBACK;
        match random.below(40) {
            0 => UNKNOWN + random.below(1_000) as u32,
            1 => FUNCTION + u32::from(number),
            2 => self.store.count() as u32,
            3 => random.below(self.store.count()) as u32,
            4..=20 if callback => FUNCTION + u32::from(number),
            _ => number.into(),
        }
    }

    /// Two units: near each other by the pairs, or ones whose product is near a limit.
    fn units(&self, random: &mut Random) -> [Vec<u8>; 2] {
        let units = match random.below(6) {
            0 => [NO_UNIT.to_vec(), vec![0]],
            1 if self.bound == MAX_NAMES || !self.lent => {
                let product = units::product(random);
                [product.first, product.second]
            }
            _ => {
                // Seldom with a symbol that is not in use.
                let bound = if random.once_in(12) { self.bound + 1 } else { self.bound };
                let groups = Groups::of(&self.list);
                near_units(random, &groups, bound.min(MAX_NAMES))
                    .map(|terms| some_bytes(random, terms))
            }
        };
        let units = if random.once_in(6) { [NO_UNIT.to_vec(), units[0].clone()] } else { units };
        let [left, right] = units;
        if random.once_in(4) {
            [right, left]
        } else {
            [left, right]
        }
    }
}

// ---- One random question of each call ----

/// A question that the oracle can be asked.
fn within_reach(
    random: &mut Random,
    leaves: [Leaf; 2],
    question: fn(&mut Random, &Setting) -> Question,
) -> Question {
    loop {
        let setting = Setting::new(random, leaves);
        let question = question(random, &setting);
        if is_within_reach(&question) {
            return question;
        }
    }
}

/// Any operator; seldom a code that is none.
fn some_code(random: &mut Random) -> u32 {
    match random.below(30) {
        0 => *random.pick(&CODES),
        _ => 1 + random.below(13) as u32,
    }
}

pub fn check_binary_operator(random: &mut Random) -> Question {
    within_reach(random, [some_leaf; 2], |random, setting| {
        let op = some_code(random);
        let [left_unit, right_unit] = setting.units(random);
        let [left, right] = setting.two.map(|number| setting.checked(random, number));
        let (left, right) = (operand(left, &left_unit), operand(right, &right_unit));
        Question::check_binary_operator(setting.pages(), op, left, right)
    })
}

pub fn check_unary_operator(random: &mut Random) -> Question {
    within_reach(random, [some_leaf; 2], |random, setting| {
        let op = if random.once_in(3) { some_code(random) } else { MINUS };
        let [unit, _] = setting.units(random);
        let checked = setting.checked(random, setting.two[0]);
        Question::check_unary_operator(setting.pages(), op, operand(checked, &unit))
    })
}

pub fn check_index(random: &mut Random) -> Question {
    within_reach(random, [some_container, some_leaf], |random, setting| {
        let [unit, _] = setting.units(random);
        let [target, key] = setting.two.map(|number| setting.checked(random, number));
        let key = if random.once_in(3) { key } else { (*random.pick(&[INT, STRING])).into() };
        Question::check_index(setting.pages(), operand(target, &unit), key)
    })
}

/// One of the calls with units of any bytes.
pub fn check_of_any(random: &mut Random) -> Question {
    within_reach(random, [some_leaf; 2], |random, setting| {
        let [left_unit, right_unit] = [(); 2].map(|()| any_unit(random, setting.bound));
        let [left, right] = setting.two.map(|number| setting.checked(random, number));
        let (left, right) = (operand(left, &left_unit), operand(right, &right_unit));
        match random.below(3) {
            0 => Question::check_binary_operator(setting.pages(), some_code(random), left, right),
            1 => Question::check_unary_operator(setting.pages(), some_code(random), left),
            _ => Question::check_index(setting.pages(), left, right.checked),
        }
    })
}
